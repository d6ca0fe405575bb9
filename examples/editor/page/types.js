/* Types as texts: `num`, `?`, `(num->bool)`; `..` stands where a text was cut. */

const read = new Map();

/** Reads the text of a type: a word, or { op, left, right }. Each text is read once. */
function parse(text) {
  if (!read.has(text)) read.set(text, parsePart(text, { at: 0 }));
  return read.get(text);
}

function parsePart(text, cursor) {
  if (text[cursor.at] !== "(") {
    const word = /\?|num|bool|\.\./y;
    word.lastIndex = cursor.at;
    const found = word.exec(text)[0];
    cursor.at += found.length;
    return found;
  }
  cursor.at += 1;
  const left = parsePart(text, cursor);
  const op = text[cursor.at] === "-" ? "->" : text[cursor.at];
  cursor.at += op.length;
  const right = parsePart(text, cursor);
  cursor.at += 1;
  return { op, left, right };
}

const SIGNS = { "->": " → ", "*": " × ", "+": " + " };
const textOf = (type) => typeof type === "string" ? type : `(${textOf(type.left)}${type.op}${textOf(type.right)})`;
const isUnknown = (type) => type === "?" || type === "..";

/** A type as people write it: without the outermost brackets, and with as many levels as stay readable. */
export function typeWords(text) {
  if (text === "?") return "not known";
  for (let levels = 4; levels > 1; levels -= 1) {
    const words = bare(parse(text), levels);
    if (words.length <= 48) return words;
  }
  return bare(parse(text), 1);
}

function bare(type, levels) {
  if (typeof type === "string") return type;
  const side = (part) => typeof part === "string" ? part : levels === 1 ? "…" : `(${bare(part, levels - 1)})`;
  return side(type.left) + SIGNS[type.op] + side(type.right);
}

export const areConsistent = (one, two) => agree(parse(one), parse(two));

function agree(one, two) {
  if (isUnknown(one) || isUnknown(two)) return true;
  if (typeof one === "string" || typeof two === "string") return one === two;
  return one.op === two.op && agree(one.left, two.left) && agree(one.right, two.right);
}

/** The texts of both parts of a type that counts as one of this form, or null. */
export function matched(text, op) {
  const type = parse(text);
  if (isUnknown(type)) return { left: "?", right: "?" };
  return type.op === op ? { left: textOf(type.left), right: textOf(type.right) } : null;
}
