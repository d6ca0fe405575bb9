/* Where each node stands, in cells of one character and one row. A node on one line is as wide as its text. A wider one is a block: lines
   one below the other, each a row of words and nodes, another block, or a conflict with its children side by side. */
import { rowWord } from "./forms.js";
import { headNode, isFlat, itemsOf, nodeAt, nodeOfEdge } from "./nodes.js";
import { authorName, ownText, ownerOf } from "./words.js";

const INLINE_WIDTH = 52;
const INDENT = 2;
const GAP = 2;
export const CONFLICT_ROWS = 2;  // its heading, and the row that names the authors
const WIDEST_CHOICE = 120;
const NARROWEST_CONFLICT = 16;  // its heading stands there

/** Settles the boxes of all vertices that changed, and of those above them where theirs change with it: each once, the lowest first. */
export function settle(graph) {
  const changed = new Set(graph.dirty);
  graph.dirty.clear();
  for (const vertex of lowestFirst(changed)) {
    if (!changed.has(vertex)) continue;
    const before = vertex.box;
    rebuild(vertex);
    settleAbove(vertex, before, changed);
  }
}

const above = (vertex) => vertex.kind === "inner" ? vertex.parents[0].source : null;

function rebuild(vertex) {
  vertex.box = boxOf(vertex);
  vertex.stamp += 1;
}

/** Goes up while sizes change. Who has changed otherwise too is settled in its turn, and goes on from there. */
function settleAbove(start, startedAs, changed) {
  let before = startedAs;
  for (let vertex = start, parent = above(start); parent; vertex = parent, parent = above(parent)) {
    const { box } = vertex;
    const isBlock = before && !before.inline && !box.inline;
    if (isBlock && before.width === box.width && before.height === box.height || changed.has(parent)) return;
    before = parent.box;
    if (!isBlock || !resize(parent, vertex)) rebuild(parent);
  }
}

/** Where a block below has another size and is a line of its own, all else in the box moves without being made anew. */
function resize(parent, child) {
  const line = parent.box.lines?.find((one) => one.kind === "block" && one.node.vertex === child);
  if (!line) return false;
  const { width, height } = child.box;
  Object.assign(line, { width, height });
  let bottom = 0;
  let right = 0;
  for (const one of parent.box.lines) {
    one.y = bottom;
    bottom += one.height;
    right = Math.max(right, one.dx + one.width);
  }
  parent.box = { ...parent.box, width: right, height: bottom };
  return true;
}

/** These vertices and those above them, each behind all that stand below it. */
function lowestFirst(vertices) {
  const met = new Set();
  for (const start of vertices) for (let at = start; at && !met.has(at); at = above(at)) met.add(at);
  const order = [...met].filter((vertex) => !above(vertex));
  for (let at = 0; at < order.length; at += 1) {
    for (const edges of order[at].children.values()) {
      for (const { target } of edges) if (target.kind === "inner" && met.has(target)) order.push(target);
    }
  }
  return order.reverse();
}

/** The box of a vertex whose children have theirs. A child that was not settled yet counts as a letter, and settles this again. */
function boxOf(vertex) {
  const width = inlineWidth(vertex);
  return width === null ? blockOf(vertex) : { inline: true, width, height: 1, lines: null };
}

/** The size of what stands at a place. */
function sizeOf(node) {
  if (node.kind === "vertex") return node.vertex.box ?? UNSETTLED;
  if (node.kind === "conflict") return conflictSize(columnsOf(node));
  return { inline: true, width: ownText(node).length + (node.kind === "reference" ? 1 : 0), height: 1 };
}

const UNSETTLED = { inline: true, width: 1, height: 1 };

/** How many cells a vertex takes on one line, or null where it does not stand on one. */
function inlineWidth(vertex) {
  if (vertex.word === "root") return null;
  const node = headNode(vertex);
  let width = ownText(node).length + (vertex.mark ? 2 : 0);
  let items = 0;
  for (const item of itemsOf(vertex)) {
    if (item === "|") continue;
    const size = item.startsWith("@") ? sizeOf(nodeAt(vertex, item.slice(1))) : { inline: true, width: item.length };
    if (!size.inline) return null;
    width += size.width + (items ? 1 : 0);
    items += 1;
    if (width > INLINE_WIDTH) return null;
  }
  return width + (items ? 1 : 0);
}

class Lines {
  constructor() { this.lines = []; this.height = 0; this.width = 0; this.parts = []; this.partsWidth = 0; }

  add(part, width) {
    this.partsWidth += width + (this.parts.length ? 1 : 0);
    this.parts.push(part);
  }

  endRow() {
    if (!this.parts.length) return;
    this.put({ kind: "row", parts: this.parts, height: 1, dx: 0 }, this.partsWidth);
    this.parts = [];
    this.partsWidth = 0;
  }

  put(line, width) {
    this.lines.push({ ...line, width, y: this.height });
    this.height += line.height;
    this.width = Math.max(this.width, line.dx + width);
  }
}

function blockOf(vertex) {
  const out = new Lines();
  if (vertex.mark) out.add({ flag: vertex }, 1);
  for (const item of itemsOf(vertex)) {
    if (item === "|") out.endRow();
    else if (item.startsWith("@")) addChild(out, vertex, item.slice(1));
    else addWord(out, rowWord(vertex.word, item));
  }
  out.endRow();
  return { inline: false, width: out.width, height: out.height, lines: out.lines };
}

function addWord(out, word) {
  if (word) out.add({ word }, word.length);
}

function addChild(out, vertex, position) {
  const node = nodeAt(vertex, position);
  const size = sizeOf(node);
  if (size.inline) return out.add({ node }, size.width);
  out.endRow();
  const dx = vertex.word === "root" || isFlat(vertex, position) ? 0 : INDENT;
  const columns = node.kind === "conflict" ? columnsOf(node) : null;
  return out.put({ kind: node.kind === "conflict" ? "conflict" : "block", node, columns, height: size.height, dx }, size.width);
}

/** The children of a conflict, each with its place and size. Where blocks are among them, a free row parts their ends from its own. */
function columnsOf(conflict) {
  let x = 1;
  return conflict.holder.children.get(conflict.position).map(nodeOfEdge).map((node) => {
    const size = sizeOf(node);
    const width = Math.min(WIDEST_CHOICE, Math.max(size.width, authorName(ownerOf(node)).length + 2));
    const column = { node, x, width, height: size.height };
    x += width + GAP;
    return column;
  });
}

function conflictSize(columns) {
  const last = columns[columns.length - 1];
  const highest = Math.max(...columns.map((one) => one.height));
  return { inline: false, width: Math.max(last.x + last.width + 1, NARROWEST_CONFLICT), height: CONFLICT_ROWS + highest + Number(highest > 1) };
}

/** How many rows a tree has. */
export const rowsOf = (head) => head.box.inline ? 1 : head.box.height;

/** The row of a node in its tree, counted from 0. */
export function rowOfNode(node) {
  let row = 0;
  for (let at = node; at.holder;) {
    const parent = headNode(at.holder);
    row += rowWithin(parent.vertex, at);
    at = at.holder.kind === "inner" ? nodeOfEdge(at.holder.parents[0]) : parent;
  }
  return row;
}

/** The row at which a place of a vertex begins in the vertex's box. */
function rowWithin(vertex, node) {
  const { box } = vertex;
  if (box.inline) return 0;
  for (const line of box.lines) {
    if (line.kind === "row" && line.parts.some((part) => part.node?.position === node.position)) return line.y;
    if (line.node?.position !== node.position) continue;
    return line.y + (line.kind === "conflict" && node.edge ? CONFLICT_ROWS : 0);
  }
  return 0;
}
