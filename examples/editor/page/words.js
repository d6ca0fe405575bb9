/* What nodes, types and marks are called for people. */
import { BARE } from "./forms.js";
import { authorOf } from "./names.js";
import { markOf, sortOf, typeAt, typeOf, wantedOf } from "./nodes.js";
import { matched, typeWords } from "./types.js";

const AUTHORS = { 1: "Ann", 2: "Ben", 3: "Cem", 4: "Dora" };
export const authorName = (number) => AUTHORS[number] ?? `author ${number}`;
export const authorColour = (number) => `var(--a${(number - 1) % 4 + 1})`;

/** Whose a node is: who put it there, or made the head of a tree; 0 where nobody did. */
export const ownerOf = (node) => authorOf(node.edge?.name ?? (node.kind === "vertex" ? node.vertex.name : "0.0"));

const HOLES = { exp: "hole", pat: "name", typ: "type" };
const HOLE_WORDS = { exp: "hole for an expression", pat: "hole for a name", typ: "hole for a type" };

/** The text of a node's own line, beside the words of its layout. */
export function ownText(node) {
  if (node.kind === "hole") return HOLES[sortOf(node)];
  if (node.kind === "conflict") return "";
  if (node.kind === "reference") return `${node.vertex.constructorText} ${node.vertex.name} ↗`;
  return node.vertex.carries || BARE[node.vertex.word] || "";
}

export function kindWords(node) {
  if (node.kind === "hole") return HOLE_WORDS[sortOf(node)];
  if (node.kind === "conflict") return `conflict: ${node.holder.children.get(node.position).length} stand at one place`;
  const { word, constructorText, name } = node.vertex;
  if (node.kind === "reference") return `reference to ${constructorText} ${name}`;
  return `${word === "var" || word === "pvar" ? "" : word} ${ownText(node)}`.trim();
}

const arm = (vertex) => vertex.word === "if" ? ["then", "else"] : ["lbody", "rbody"];
const wantedPart = (wanted) => matched(wanted ?? "?", "->")?.left ?? "?";

/** Of each mark a title, what it means, and which types were expected and found; a function of the vertex gives them. */
const MARKS = {
  "free": ["Nothing here binds this name", "No let, function or case around it binds it.", (vertex) => [vertex.wanted, null]],
  "not-arrow": ["This is not a function", "It is applied to something, and only functions can be.",
    (vertex) => ["a function", typeAt(vertex, "fun")]],
  "not-product": ["This is not a pair", "A part of a pair is taken, and this has no parts.", (vertex) => ["a pair", typeAt(vertex, "of")]],
  "not-sum": ["This has no sides", "case looks at which side of a sum it gets, and this is no sum.",
    (vertex) => ["a sum", typeAt(vertex, "on")]],
  "branches": ["The branches disagree", "Both branches must have one type.",
    (vertex) => arm(vertex).map((position) => typeAt(vertex, position))],
  "lam-against": ["A function does not fit here", "The place wants something that is no function.",
    (vertex) => [vertex.wanted, "a function"]],
  "ascription": ["The parameter has another type", "The place wants a function that takes something else.",
    (vertex) => [wantedPart(vertex.wanted), typeAt(vertex, "type")]],
  "pair-against": ["A pair does not fit here", "The place wants something that is no pair.", (vertex) => [vertex.wanted, "a pair"]],
  "inj-against": ["A side of a sum does not fit here", "The place wants something that is no sum.", (vertex) => [vertex.wanted, "a sum"]],
  "inconsistent": ["The type does not fit here", "The place wants another type than this has.", (vertex) => [vertex.wanted, vertex.type]],
};

/** What the mark of a vertex means: its title, a sentence, and the types that it is about, null where there is none. */
export function explain(vertex) {
  const [title, sentence, types] = MARKS[vertex.mark];
  const [wanted, found] = types(vertex);
  return { title, sentence, wanted, found };
}

export const typeOrWords = (text) => text.startsWith("a ") ? text : typeWords(text);

export function describe(node) {
  const words = [kindWords(node)];
  if (node.position) words.push(`at ${node.position}`);
  if (typeOf(node)) words.push(`type ${typeWords(typeOf(node))}`);
  if (wantedOf(node)) words.push(`wanted ${typeWords(wantedOf(node))}`);
  if (markOf(node)) words.push(`mark: ${explain(node.vertex).title}`);
  if (ownerOf(node)) words.push(`by ${authorName(ownerOf(node))}`);
  return words.join(", ");
}
