/* The nodes of the trees that a graph has: vertices, references, holes and conflicts. A node is made where it is asked for, and is known by
   its id, which stays what it is while other edits come. */
import { layoutOf, positionsOf, sortAt } from "./forms.js";
import { matched } from "./types.js";

class Node {
  constructor(kind, vertex, edge, holder, position) {
    this.kind = kind;
    this.vertex = vertex;
    this.edge = edge;
    this.holder = holder;
    this.position = position;
  }

  get id() {
    if (this.kind === "vertex") return `v ${this.vertex.key}`;
    const place = `${this.holder.key} ${this.position}`;
    return this.edge ? `e ${this.edge.name} ${place} ${this.vertex.key}` : `p ${place}`;
  }
}

export const headNode = (vertex) => new Node("vertex", vertex, null, null, null);

/** What an edge leads to: the vertex under it, or a reference to one that heads a tree of its own. */
export const nodeOfEdge = (edge) =>
  new Node(edge.target.kind === "inner" ? "vertex" : "reference", edge.target, edge, edge.source, edge.position);

/** What stands at a position of a vertex. */
export function nodeAt(holder, position) {
  const edges = holder.children.get(position);
  return edges.length === 1 ? nodeOfEdge(edges[0]) : new Node(edges.length ? "conflict" : "hole", null, null, holder, position);
}

export function childrenOf(node) {
  if (node.kind === "conflict") return node.holder.children.get(node.position).map(nodeOfEdge);
  if (node.kind !== "vertex") return [];
  return positionsOf(node.vertex.word).map((position) => nodeAt(node.vertex, position));
}

export const nodeOfVertex = (vertex) => vertex.kind === "inner" ? nodeOfEdge(vertex.parents[0]) : headNode(vertex);

export const standsInConflict = (node) => node.edge !== null && node.holder.children.get(node.position).length > 1;

export function parentOf(node) {
  if (!node.holder) return null;
  return standsInConflict(node) ? nodeAt(node.holder, node.position) : nodeOfVertex(node.holder);
}

/** The node that an id names in the graph as it is now, or null. What filled a hole is found by the hole's id. */
export function resolve(graph, id) {
  const [kind, ...words] = id.split(" ");
  const at = kind === "e" ? 1 : 0;
  const vertex = graph.vertices.get(`${words[at]} ${words[at + 1]}`);
  if (!vertex) return null;
  if (kind === "v") return nodeOfVertex(vertex);
  if (kind === "p") return nodeAt(vertex, words[2]);
  const edge = vertex.children.get(words[3]).find((one) => one.name === words[0] && one.target.key === `${words[4]} ${words[5]}`);
  return edge ? nodeOfEdge(edge) : nodeAt(vertex, words[3]);
}

export function headOf(node) {
  let vertex = node.vertex && node.kind === "vertex" ? node.vertex : node.holder;
  while (vertex.kind === "inner") vertex = vertex.parents[0].source;
  return vertex;
}

export const sortOf = (node) => node.vertex ? node.vertex.sort : sortAt(node.holder.word, node.position);
export const markOf = (node) => node.kind === "vertex" ? node.vertex.mark : null;

/** The type that a node has: `?` of all but vertices, null of what has none. */
export function typeOf(node) {
  if (node.kind === "vertex") return node.vertex.type;
  return sortOf(node) === "pat" ? null : "?";
}

/** The type that a node is analysed against, or null where it synthesises. */
export function wantedOf(node) {
  if (node.kind === "vertex") return node.vertex.wanted;
  return standsInConflict(node) ? null : wantedAt(node.holder, node.position);
}

export const typeAt = (vertex, position) => typeOf(nodeAt(vertex, position)) ?? "?";

const part = (type, op, side) => type === null ? null : matched(type, op)?.[side] ?? "?";

/** What is wanted at a position, by the rules for types and marks. */
function wantedAt(holder, position) {
  const { wanted } = holder;
  switch (`${holder.word} ${position}`) {
    case "plus left": case "plus right": return "num";
    case "if cond": return "bool";
    case "ap arg": return part(typeAt(holder, "fun"), "->", "left");
    case "lam body": return part(wanted, "->", "right");
    case "pair first": return part(wanted, "*", "left");
    case "pair second": return part(wanted, "*", "right");
    case "inl of": return part(wanted, "+", "left");
    case "inr of": return part(wanted, "+", "right");
    case "if then": case "if else": case "let body": case "case lbody": case "case rbody": return wanted;
    default: return null;
  }
}

/** The names that the place of a node sees, innermost first, with the types that they are bound to. */
export function scopeOf(node) {
  const names = new Map();
  for (let { holder, position } = node; holder; ({ holder, position } = nodeOfVertex(holder))) {
    const [name, type] = bindingAt(holder, position);
    if (name && !names.has(name)) names.set(name, type);
  }
  return names;
}

const BINDERS = { "lam body": "param", "let body": "param", "case lbody": "lparam", "case rbody": "rparam" };

function bindingAt(holder, position) {
  const binder = BINDERS[`${holder.word} ${position}`];
  const pattern = binder && nodeAt(holder, binder);
  if (pattern?.kind !== "vertex") return [];
  return [pattern.vertex.carries, boundType(holder, position)];
}

function boundType(holder, position) {
  if (holder.word === "lam") return typeAt(holder, "type");
  if (holder.word === "let") return typeAt(holder, "def");
  return matched(typeAt(holder, "on"), "+")?.[position === "lbody" ? "left" : "right"] ?? "?";
}

// ---- in reading order

export function nextNode(node) {
  const [first] = childrenOf(node);
  if (first) return first;
  for (let at = node; at; at = parentOf(at)) {
    const next = besideOf(at, 1);
    if (next) return next;
  }
  return null;
}

export function previousNode(node) {
  const before = besideOf(node, -1);
  return before ? lastOf(before) : parentOf(node);
}

/** The node so many places on under the same parent, or null. */
export function besideOf(node, by) {
  const parent = parentOf(node);
  if (!parent) return null;
  const among = childrenOf(parent);
  return among[among.findIndex((one) => one.id === node.id) + by] ?? null;
}

export function lastOf(node) {
  let at = node;
  for (let below = childrenOf(at); below.length; below = childrenOf(at)) at = below[below.length - 1];
  return at;
}

/** Whether a node stands in the tree below a vertex, or is it. */
export function isWithin(node, vertex) {
  for (let at = node.kind === "vertex" ? node.vertex : node.holder; at; at = at.kind === "inner" ? at.parents[0].source : null) {
    if (at === vertex) return true;
  }
  return false;
}

/** Whether the layout of a constructor sets this position's rows in no further: bodies of `let` stand in one column. */
export const isFlat = (holder, position) => holder.word === "let" && position === "body";
export const itemsOf = (vertex) => layoutOf(vertex.word);
