/* What may be done at a node, as action lines. */
import { WORDS, positionsOf, purposeOf, sortAt, sortOfWord } from "./forms.js";
import { isWithin, parentOf, scopeOf, sortOf, standsInConflict, wantedOf } from "./nodes.js";
import { areConsistent, typeWords } from "./types.js";

const RESULTS = { num: "num", plus: "num", true: "bool", false: "bool", lam: "(?->?)", pair: "(?*?)", inl: "(?+?)", inr: "(?+?)" };
const CARRYING = new Set(["var", "num", "pvar"]);
const GREATEST_NUMBER = 2n ** 64n - 1n;

/** A place as actions name it. */
const placeOf = (node) => `${node.holder.name} ${node.position}`;

/** The choices at a node that match what was typed: on a hole what fits its sort, what fits its type first; elsewhere what can be put
    around what stands or in its place, and taking it away. Each has its constructor or word, what it does, and its action line. */
export function choicesAt(node, query) {
  const fitting = constructorsFor(node, query).filter((one) => one.constructor.includes(query));
  if (node.kind === "hole") return fitting.map((one) => ({ ...one, line: `construct ${placeOf(node)} ${one.constructor}` }));
  const isAlone = node.kind !== "conflict" && !standsInConflict(node);
  const removal = { constructor: removalLine(node).split(" ")[0], does: "takes it away", fits: true, line: removalLine(node) };
  const around = fitting.filter(holdsSort(sortOf(node)))
    .map((one) => ({ ...one, does: isAlone ? "wrap" : "wrap all", line: `wrap ${placeOf(node)} ${one.constructor}` }));
  const instead = isAlone ? fitting.map((one) => ({ ...one, does: "become", line: `become ${placeOf(node)} ${one.constructor}` })) : [];
  return [...around, ...instead, ...(removal.constructor.includes(query) ? [removal] : [])];
}

const holdsSort = (sort) => ({ constructor }) => {
  const [word] = constructor.split(":");
  return positionsOf(word).some((position) => sortAt(word, position) === sort);
};

function constructorsFor(node, query) {
  const sort = sortAt(node.holder.word, node.position);
  const wanted = wantedOf(node) ?? "?";
  const found = new Map();
  const add = (constructor, does, type = "?") => {
    if (!found.has(constructor)) found.set(constructor, { constructor, does, fits: sort !== "exp" || areConsistent(type, wanted) });
  };
  if (sort === "exp") addExpressions(node, query, add);
  for (const word of WORDS) if (sortOfWord(word) === sort && !CARRYING.has(word)) add(word, purposeOf(word), RESULTS[word]);
  if (/^[a-z][a-z0-9_]{0,63}$/.test(query) && sort !== "typ") add(`${sort === "pat" ? "p" : ""}var:${query}`, "a name");
  return [...found.values()].sort((one, two) => two.fits - one.fits);
}

function addExpressions(node, query, add) {
  if (/^\d+$/.test(query) && BigInt(query) <= GREATEST_NUMBER) add(`num:${BigInt(query)}`, "a number", "num");
  for (const [name, type] of scopeOf(node)) if (name.includes(query)) add(`var:${name}`, typeWords(type), type);
}

/** One of several goes by its edge, so that the others stay; what stands alone by its place. */
export function removalLine(node) {
  return standsInConflict(node) || node.kind === "reference" ? `cut ${node.edge.name}` : `delete ${placeOf(node)}`;
}

/** Why a part cannot go to a hole, or null. The replica judges again; this spares a refusal. */
export function whyNot(part, hole) {
  if (!part || hole?.kind !== "hole") return "Only a hole takes a part.";
  if (sortOf(part) !== sortOf(hole)) return "The hole wants another sort.";
  if (isWithin(hole, part.vertex)) return "A part cannot go into itself.";
  return null;
}

/** What hangs on an edge is relocated, and what is loose restored; null where it is not clear which edge of several is meant. */
export function moveLine(part, hole) {
  const { parents, name } = part.vertex;
  const edge = part.edge ?? parents[0];
  if (!edge) return `restore ${name} ${placeOf(hole)}`;
  return part.edge || parents.length === 1 ? `relocate ${edge.name} ${placeOf(hole)}` : null;
}

export const canMove = (node) => node.kind === "reference" || node.kind === "vertex" && node.vertex.word !== "root";
export const hasPlace = (node) => node !== null && parentOf(node) !== null;
