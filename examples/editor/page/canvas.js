/* Draws trees into a box that scrolls. Only rows near the view are in the document; those that are as they were keep their elements. */
import { CONFLICT_ROWS, rowsOf } from "./layout.js";
import { headNode, itemsOf, nodeAt, standsInConflict } from "./nodes.js";
import { authorColour, authorName, explain, ownText, ownerOf } from "./words.js";

const ROW = 26;          // pixels
const NEAR = 12;         // so many rows beyond the view are drawn too
const DEEPEST = 24;      // cells: deeper blocks are set in no further, or they would leave the view
const AROUND_TREE = 1;   // rows behind a tree
const FRAME_GAP = { conflict: -2, choice: 5 };  // pixels: a conflict reaches into the next row, to hold its children

export function make(tag, className, text) {
  const element = document.createElement(tag);
  if (className) element.className = className;
  if (text !== undefined) element.textContent = text;
  return element;
}

export class Canvas {
  /** `me` answers the author of this window. */
  constructor(element, me) {
    this.element = element;
    this.me = me;
    this.sheet = element.appendChild(make("div", "sheet"));
    this.drawn = new Map();
    this.entries = [];
    this.isWaiting = false;
    this.lookAgain();
    element.addEventListener("scroll", () => this.paintSoon());
    new ResizeObserver(() => this.paintSoon()).observe(element);
  }

  /** Where the view is. Whoever asks the document while it is being changed makes it lay out at once, so it is asked apart. */
  lookAgain() {
    this.scrollTop = this.element.scrollTop;
    this.viewHeight = this.element.clientHeight;
  }

  /** The trees to show, one below the other, each with the title and the heading that stand before it, if any. */
  show(trees) {
    this.entries = [];
    let y = 0;
    const add = (entry, height) => { this.entries.push({ ...entry, y, height }); y += height; };
    for (const { heading, title, head } of trees) {
      if (heading) add({ text: heading, className: "heading" }, 1);
      if (title) add({ text: title, className: "title", head }, 1);
      add({ head }, rowsOf(head) + AROUND_TREE);
    }
    this.sheet.style.height = `${y * ROW}px`;
  }

  paintSoon() {
    if (this.isWaiting) return;
    this.isWaiting = true;
    requestAnimationFrame(() => {
      this.lookAgain();
      this.paint();
    });
  }

  /** Draws what is near the view and not drawn yet, and takes away what is far. */
  paint() {
    this.isWaiting = false;
    this.top = Math.floor(this.scrollTop / ROW) - NEAR;
    this.bottom = Math.ceil((this.scrollTop + this.viewHeight) / ROW) + NEAR;
    this.before = this.drawn;
    this.drawn = new Map();
    for (const entry of this.entries) if (this.isNear(entry.y, entry.height)) this.paintEntry(entry);
    for (const element of this.before.values()) element.remove();
  }

  isNear(y, height) { return y < this.bottom && y + height > this.top; }

  paintEntry({ text, className, head, y }) {
    if (className) this.put(`${className} ${text}`, 0, y, () => caption(className, text));
    else this.paintTree(head, 0, y);
  }

  /** An element at a cell and a row, which is made unless one with the same key is there already. */
  put(key, x, y, makeElement) {
    let element = this.before.get(key);
    if (element) this.before.delete(key);
    else {
      element = makeElement();
      this.sheet.append(element);
    }
    this.drawn.set(key, element);
    const place = `translate(${x}ch, ${y * ROW}px)`;
    if (element.style.transform !== place) element.style.transform = place;
    return element;
  }

  /** A tree without recursion, since it may be deep. */
  paintTree(head, x, y) {
    const open = [{ vertex: head, x, y, base: x }];
    while (open.length) {
      const { vertex, x: left, y: top, base } = open.pop();
      if (vertex.box.inline) this.putRow(vertex, 0, [{ node: headNode(vertex) }], left, top);
      else vertex.box.lines.forEach((line, at) => this.paintLine(open, vertex, line, at, left, top + line.y, base));
    }
  }

  paintLine(open, vertex, line, at, left, y, base) {
    if (!this.isNear(y, line.height)) return;
    if (line.kind === "row") return void this.putRow(vertex, at, line.parts, left, y);
    const x = Math.min(left + line.dx, base + DEEPEST);
    if (line.kind === "conflict") return void this.paintConflict(open, vertex, line, x, y);
    if (x > left) this.putRail(line, x, y);
    open.push({ vertex: line.node.vertex, x, y, base });
  }

  paintConflict(open, vertex, line, x, y) {
    const { node, columns, width, height } = line;
    named(this.putFrame(`conflict ${node.id} ${vertex.stamp}`, "conflict", x, y, width, height), node.id);
    const count = columns.length;
    this.put(`stands ${node.id} ${vertex.stamp}`, x + 1, y, () => caption("stands", count === 2 ? "⇄ Both stand" : `⇄ All ${count} stand`));
    for (const column of columns) this.paintChoice(open, vertex, column, x + column.x, y);
  }

  paintChoice(open, vertex, { node, width, height }, x, y) {
    const isBlock = node.kind === "vertex" && !node.vertex.box.inline;
    const frame = this.putFrame(`choice ${node.id} ${vertex.stamp}`, "choice", x - 0.5, y + 1, width + 1, height + (isBlock ? 1.5 : 1));
    this.put(`by ${node.id} ${vertex.stamp}`, x, y + 1, () => byline(ownerOf(node)));
    const top = y + CONFLICT_ROWS;
    if (isBlock) {
      named(frame, node.id);
      open.push({ vertex: node.vertex, x, y: top, base: x });
    } else this.put(`${node.id} ${node.vertex.stamp} ${vertex.stamp}`, x, top, () => this.row(null, [{ node }]));
  }

  putRow(vertex, at, parts, x, y) {
    this.put(`row ${at} ${vertex.stamp} ${vertex.key}`, x, y, () => this.row(vertex, parts));
  }

  putRail(line, x, y) {
    const { id, vertex } = line.node;
    const rail = this.put(`rail ${id}`, x - 1, y, () => byAuthor(named(make("div", "rail"), id), ownerOf(line.node)));
    rail.classList.toggle("marked", Boolean(vertex.mark));
    rail.style.height = `${line.height * ROW - 4}px`;
  }

  putFrame(key, className, x, y, width, height) {
    const frame = this.put(key, x, y, () => make("div", `frame ${className}`));
    frame.style.width = `${width}ch`;
    frame.style.height = `${height * ROW - FRAME_GAP[className]}px`;
    return frame;
  }

  row(vertex, parts) {
    const row = make("div", "row");
    parts.forEach((part, at) => {
      if (at) row.append(" ");
      if (part.node) row.append(this.inline(part.node));
      else row.append(named(part.flag ? flag(vertex) : make("span", `word${vertex.mark ? " marked" : ""}`, part.word), headNode(vertex).id));
    });
    return row;
  }

  /** A node that stands on one line, with all below it. */
  inline(node) {
    const element = named(make("span", this.classesOf(node)), node.id);
    byAuthor(element, ownerOf(node));
    const text = ownText(node);
    if (text) element.append(text);
    if (node.kind === "vertex") this.fill(element, node.vertex);
    element.draggable = node.kind === "vertex" || node.kind === "reference";
    return element;
  }

  fill(element, vertex) {
    itemsOf(vertex).filter((item) => item !== "|").forEach((item, at) => {
      if (at) element.append(" ");
      element.append(item.startsWith("@") ? this.inline(nodeAt(vertex, item.slice(1))) : make("span", "word", item));
    });
    if (vertex.mark) element.append(" ", flag(vertex));
  }

  classesOf(node) {
    const { vertex, kind } = node;
    const list = ["node", kind];
    if (vertex) list.push(vertex.sort);
    if (kind === "vertex" && itemsOf(vertex).length) list.push("compound");
    if (kind === "vertex" && ["num", "true", "false"].includes(vertex.word)) list.push("literal");
    if (kind === "vertex" && vertex.mark) list.push("marked");
    if (this.beginsAnothers(node)) list.push("other");
    return list.join(" ");
  }

  /** Only where another author's part begins stands a bar: one at every node would be noise. Conflicts name their authors. */
  beginsAnothers(node) {
    const owner = ownerOf(node);
    if (!owner || owner === this.me() || !node.vertex || standsInConflict(node)) return false;
    return owner !== ownerOf(headNode(node.holder ?? node.vertex));
  }

  elementsOf(id) { return [...this.sheet.querySelectorAll(`[data-id="${id}"]`)]; }

  /** Brings a row into view, and draws it. */
  reveal(y) {
    const { element } = this;
    if (y * ROW < element.scrollTop + ROW) element.scrollTop = Math.max(0, (y - 2) * ROW);
    else if ((y + 3) * ROW > element.scrollTop + element.clientHeight) element.scrollTop = (y + 3) * ROW - element.clientHeight;
    this.lookAgain();
    this.paint();
  }

  /** The row at which the tree of a head begins, or null where it is not on this canvas. */
  rowOfTree(head) { return this.entries.find((entry) => entry.head === head && !entry.className)?.y ?? null; }
}

function named(element, id) {
  element.dataset.id = id;
  return element;
}

function byAuthor(element, author) {
  element.style.setProperty("--by", authorColour(author || 1));
  return element;
}

/** A row of another font; the row itself keeps that of the grid, whose cells its place is counted in. */
function caption(className, text) {
  const row = make("div", "row");
  row.append(make("span", className, text));
  return row;
}

const byline = (author) => byAuthor(caption("by", authorName(author)), author);

function flag(vertex) {
  const button = make("span", "flag", "⚠");
  button.setAttribute("role", "button");
  button.setAttribute("aria-label", `Mark: ${explain(vertex).title}`);
  return button;
}
