// The same edges through Yjs: yjs.js EDITS [reverse]. EDITS is a file with a line for each edit; a Y.Map has a key for each live edge.
// Each edit is a transaction of its own, and so an update of its own. Answers a JSON object; times are of the processor, in seconds.
const { readFileSync } = require("fs");
const Y = require("yjs");

const CATCHING_UP = 100;
const [file, reverse] = process.argv.slice(2);
const lines = readFileSync(file, "utf8").split("\n").filter((line) => /^[+-]/.test(line));

function seconds(work) {
  const before = process.cpuUsage();
  work();
  const used = process.cpuUsage(before);
  return (used.user + used.system) / 1e6;
}

function memory() {
  for (let count = 0; count < 4; count++) global.gc();
  const used = process.memoryUsage();
  return used.heapUsed + used.external;
}

// The name of an edge is its key, and what it joins is its value.
function edit(edges, line) {
  const space = line.indexOf(" ");
  const name = line.slice(1, space);
  if (line[0] === "+") edges.set(name, line.slice(space + 1));
  else edges.delete(name);
}

function authored() {
  const doc = new Y.Doc();
  const updates = [];
  doc.on("update", (update) => updates.push(update));
  const edges = doc.getMap("edges");
  let early;
  const time = seconds(() =>
    lines.forEach((line, at) => {
      if (at === lines.length - CATCHING_UP) early = Y.encodeStateVector(doc);
      edit(edges, line);
    }),
  );
  return { doc, updates, early, time };
}

const text = (doc) => JSON.stringify([...doc.getMap("edges").entries()].sort());

// The seconds that a new document takes for the updates, which have to make it the same as another.
function taken(updates, other) {
  const doc = new Y.Doc();
  doc.getMap("edges");
  const time = seconds(() => updates.forEach((update) => Y.applyUpdate(doc, update)));
  if (text(doc) !== text(other)) throw new Error("two documents differ");
  return { doc, time };
}

const { doc, updates, early, time } = authored();
const state = Y.encodeStateAsUpdate(doc);
const answer = {
  edits: lines.length,
  author: time,
  state_bytes: state.length,
  update_bytes: updates.reduce((sum, update) => sum + update.length, 0),
  catching_up_bytes: early.length + Y.encodeStateAsUpdate(doc, early).length,
};

const before = memory();
const whole = taken([state], doc);
answer.memory_bytes = memory() - before;
answer.whole = whole.time;

const inOrder = taken(updates, doc);
answer.in_order = inOrder.time;
answer.again = seconds(() => updates.forEach((update) => Y.applyUpdate(inOrder.doc, update)));

if (reverse) {
  const reversed = [...updates].reverse();
  answer.reverse = taken(reversed, doc).time;
  let joined;
  answer.joined = seconds(() => (joined = Y.mergeUpdates(reversed)));
  answer.joined += taken([joined], doc).time;
}
console.log(JSON.stringify(answer));
