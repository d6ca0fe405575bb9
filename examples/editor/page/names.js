/* The orders of names, vertices and edges. Counters go up to 2^64, so numbers are compared as the decimal texts that they are. */
import { rankOf } from "./forms.js";

const compareNumbers = (one, two) => one.length - two.length || (one < two ? -1 : one > two ? 1 : 0);

function compareNames(one, two) {
  const [author, counter] = one.split(".");
  const [otherAuthor, otherCounter] = two.split(".");
  return compareNumbers(author, otherAuthor) || compareNumbers(counter, otherCounter);
}

/** By name, then constructor, then what that carries: numbers by value, identifiers by their bytes. */
export function compareVertices(one, two) {
  return compareNames(one.name, two.name) || rankOf(one.word) - rankOf(two.word)
    || (one.word === "num" ? compareNumbers(one.carries, two.carries) : one.carries < two.carries ? -1 : Number(one.carries > two.carries));
}

/** Of edges at one place, or of those to one vertex, which never differ in their positions alone where their sources are one. */
export const compareEdges = (one, two) => compareNames(one.name, two.name)
  || compareVertices(one.source, two.source) || compareVertices(one.target, two.target);

export const authorOf = (name) => Number(name.slice(0, name.indexOf(".")));
