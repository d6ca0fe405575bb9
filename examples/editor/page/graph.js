/* The graph that the page shows: the state of each edge, how each vertex is judged, and which vertices head trees. */
import { positionsOf, sortOfWord } from "./forms.js";
import { compareEdges, compareVertices } from "./names.js";

/** A vertex with its live edges. `stamp` rises where it has to be drawn anew, and `box` is its layout. */
class Vertex {
  constructor(key) {
    const space = key.indexOf(" ");
    this.key = key;
    this.name = key.slice(0, space);
    this.constructorText = key.slice(space + 1);
    const [word, carries = ""] = this.constructorText.split(":");
    this.word = word;
    this.carries = carries;
    this.sort = sortOfWord(word);
    this.parents = [];
    this.children = new Map(positionsOf(word).map((position) => [position, []]));
    this.ring = null;     // the cycle that it stands on: { head, members }
    this.wanted = null;   // the type that it is analysed against, or null where it synthesises
    this.type = null;
    this.mark = null;
    this.stamp = 0;
    this.box = null;
  }

  get hasChildren() {
    for (const edges of this.children.values()) if (edges.length) return true;
    return false;
  }

  /** Which list of trees it heads one of, or "inner". */
  get kind() {
    if (this.parents.length !== 1) return this.parents.length ? "multi" : "none";
    return this.ring?.head === this ? "cycle" : "inner";
  }
}

/** An edit line is a sign and the text of an edge; an edge once deleted stays so. */
export class Graph {
  constructor() {
    this.vertices = new Map();
    this.edges = new Map();
    this.heads = { none: new Set(), multi: new Set(), cycle: new Set() };
    this.dirty = new Set();
    this.headsChanged = true;
    this.root = this.vertexOf("0.0 root");
  }

  vertexOf(key) {
    let vertex = this.vertices.get(key);
    if (vertex) return vertex;
    vertex = new Vertex(key);
    this.vertices.set(key, vertex);
    this.heads.none.add(vertex);
    this.headsChanged = true;
    this.dirty.add(vertex);
    return vertex;
  }

  /** Takes the lines of an edit text; answers the edges of which some line changed the state. */
  applyLines(text) {
    const changed = [];
    for (const line of text.split("\n")) {
      if (!line || line.startsWith("grove")) continue;
      const edge = this.applyLine(line[0], line.slice(1));
      if (edge) changed.push(edge);
    }
    return changed;
  }

  applyLine(sign, text) {
    const known = this.edges.get(text);
    if (known && (sign === "+" || !known.isLive)) return null;
    const edge = known ?? this.addEdge(text);
    if (sign === "+") this.link(edge);
    else if (known) this.unlink(edge);
    return edge;
  }

  addEdge(text) {
    const [name, source, sourceWord, position, target, targetWord] = text.split(" ");
    const edge = { name, source: this.vertexOf(`${source} ${sourceWord}`), position,
      target: this.vertexOf(`${target} ${targetWord}`), isLive: false };
    this.edges.set(text, edge);
    return edge;
  }

  link(edge) {
    edge.isLive = true;
    this.changeParents(edge, () => {
      insertSorted(edge.source.children.get(edge.position), edge);
      insertSorted(edge.target.parents, edge);
    });
  }

  unlink(edge) {
    edge.isLive = false;
    this.changeParents(edge, () => {
      remove(edge.source.children.get(edge.position), edge);
      remove(edge.target.parents, edge);
    });
  }

  /** Cycles begin and end at the vertex whose parents change, since each vertex on one has one parent. */
  changeParents(edge, change) {
    const { target } = edge;
    const before = target.kind;
    this.endRing(target.ring);
    change();
    this.findRing(target);
    this.noteKind(target, before);
    for (const parent of target.parents) this.dirty.add(parent.source);
    this.dirty.add(edge.source);
  }

  endRing(ring) {
    if (!ring) return;
    for (const member of ring.members) member.ring = null;
    this.noteKind(ring.head, "cycle");
    this.dirty.add(ring.head.parents[0].source);
  }

  findRing(start) {
    if (!start.hasChildren) return;
    const members = [];
    let vertex = start;
    do {
      if (vertex.parents.length !== 1 || vertex.ring) return;
      members.push(vertex);
      vertex = vertex.parents[0].source;
    } while (vertex !== start);
    const ring = { head: members.reduce((least, one) => compareVertices(one, least) < 0 ? one : least), members };
    for (const member of members) member.ring = ring;
    this.noteKind(ring.head, "inner");
    this.dirty.add(ring.head.parents[0].source);
  }

  noteKind(vertex, before) {
    const { kind } = vertex;
    if (kind === before) return;
    this.heads[before]?.delete(vertex);
    this.heads[kind]?.add(vertex);
    this.headsChanged = true;
  }

  /** Records come as [vertex, wanted, type, mark], types by their numbers in the table; only marks are drawn. */
  judge(records, types) {
    for (const [key, wanted, type, mark] of records) {
      const vertex = this.vertexOf(key);
      if (vertex.mark !== mark) this.dirty.add(vertex);
      vertex.wanted = wanted === null ? null : types[wanted];
      vertex.type = type === null ? null : types[type];
      vertex.mark = mark;
    }
  }

  sortedHeads(kind) {
    return [...this.heads[kind]].sort(compareVertices);
  }
}

function insertSorted(edges, edge) {
  let at = edges.length;
  while (at > 0 && compareEdges(edges[at - 1], edge) > 0) at -= 1;
  edges.splice(at, 0, edge);
}

function remove(edges, edge) {
  edges.splice(edges.indexOf(edge), 1);
}
