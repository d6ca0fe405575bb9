/* The way to the server: calls go out as they come, and messages come in order. */

/** Hands each message of the server on, of which the first has the whole program; `onSilence` is called where the server is gone. */
export function listen(author, onMessage, onSilence) {
  const source = new EventSource(`events?author=${author}`);
  source.onmessage = ({ data }) => onMessage(JSON.parse(data));
  source.onerror = onSilence;
}

/** Answers what the server says: { answer }, { refused } or { fault, line }. */
export async function call(path, body) {
  const response = await fetch(path, { method: "POST", headers: { "Content-Type": "application/json" }, body: JSON.stringify(body) });
  return response.json();
}
