/* The editor: what the server tells goes into the graph and is drawn, and what the author does goes out as action lines. */
import { Canvas, make } from "./canvas.js";
import { Graph } from "./graph.js";
import { rowOfNode, settle } from "./layout.js";
import {
  besideOf, childrenOf, headNode, headOf, lastOf, markOf, nextNode, nodeAt, nodeOfVertex, parentOf, previousNode, resolve,
} from "./nodes.js";
import { canMove, hasPlace, moveLine, removalLine, whyNot } from "./offers.js";
import { Palette, putBeside } from "./palette.js";
import { call, listen } from "./wire.js";
import { authorColour, authorName, describe, explain, kindWords, typeOrWords } from "./words.js";

const $ = (id) => document.getElementById(id);
const words = new URLSearchParams(location.search);
const state = { me: Number(words.get("author")), graph: null, types: [], focus: "p 0.0 root main", actedAt: null, moving: null, isOnline: true, sideHeads: [], times: [] };
const main = new Canvas($("program"), () => state.me);
const side = new Canvas($("side"), () => state.me);
const palette = new Palette($("palette"), $("query"), $("choices"), (line, node) => act(line, node), () => focusCanvas());

// ---- what the server tells

function take(message) {
  const from = performance.now();
  if (message.program !== undefined) begin();
  if (message.records) change(message);
  showState(message);
  if (message.program !== undefined) say("Move with the arrows; Enter or a letter opens what fits; Backspace deletes.");
  if (words.has("measure")) noteTime(from, message);
}

function begin() {
  state.graph = new Graph();
  state.types = [];
  window.grove.graph = state.graph;
}

/** The whole program, or the edits and records of one change: only what differs is settled and drawn anew. */
function change({ program, edits, records, types, by, did, answer }) {
  const { graph } = state;
  state.types.push(...types);
  const changed = graph.applyLines(program ?? edits);
  graph.judge(records, state.types);
  const isResized = graph.dirty.size > 0;
  settle(graph);
  if (isResized) showTrees();
  main.paint();
  side.paint();
  if (by === state.me) focusPlaceActedAt();
  showFocus();
  if (did) logLine(`${by} ${did}${answer ? ` = ${answer}` : ""}`, by);
  if (by && by !== state.me) changed.forEach((edge) => pulse(edge, by));
}

const SECTIONS = [["none", "Loose parts"], ["multi", "Shared parts"], ["cycle", "Cycles"]];

function showTrees() {
  const { graph } = state;
  main.show([{ head: graph.root }]);
  if (graph.headsChanged) state.sideHeads = SECTIONS.flatMap(([kind, title]) => sectionOf(kind, title));
  graph.headsChanged = false;
  side.show(state.sideHeads);
  document.body.classList.toggle("no-side", state.sideHeads.length === 0);
}

function sectionOf(kind, title) {
  const heads = state.graph.sortedHeads(kind).filter((head) => head !== state.graph.root);
  return heads.map((head, at) => ({ head, title: head.key, heading: at === 0 ? `${title} (${heads.length})` : null }));
}

function showState({ online, unsent }) {
  state.isOnline = online;
  $("online").setAttribute("aria-checked", online);
  $("online").textContent = online ? "Online" : "Offline";
  $("unsent").textContent = unsent ? `${unsent} edits wait to be sent` : "Nothing waits to be sent.";
}

/** Reading the layout back makes the browser lay out at once, so the times have it in them. */
function noteTime(from, message) {
  void $("program").scrollHeight;
  state.times.push({ milliseconds: performance.now() - from, records: message.records?.length ?? 0, isWhole: message.program !== undefined });
}

function logLine(line, author) {
  const item = make("li", "", line);
  item.style.setProperty("--by", authorColour(author));
  $("log").prepend(item);
  while ($("log").children.length > 200) $("log").lastChild.remove();
}

/** A change far away is not drawn for the sake of its pulse. */
function pulse(edge, author) {
  const id = edge.isLive ? nodeOfVertex(edge.target).id : nodeAt(edge.source, edge.position).id;
  for (const element of elementsOf(id)) {
    element.style.setProperty("--by", authorColour(author));
    restart(element, "pulse");
  }
}

function restart(element, name) {
  element.classList.remove(name);
  void element.offsetWidth;
  element.classList.add(name);
  setTimeout(() => element.classList.remove(name), 2000);
}

// ---- the focus

const elementsOf = (id) => [...main.elementsOf(id), ...side.elementsOf(id)];
const focused = () => resolve(state.graph, state.focus);
const say = (text) => { $("status").textContent = text; };

/** What an action put at its place has the focus then, or the hole that it left. */
function focusPlaceActedAt() {
  state.focus = state.actedAt ?? state.focus;
  state.actedAt = null;
}

/** Marks the elements of the focused node; where it is gone, what stands around it is focused. */
function showFocus() {
  const node = focused() ?? nodeAt(state.graph.root, "main");
  state.focus = node.id;
  for (const element of document.querySelectorAll(".focused")) element.classList.remove("focused");
  for (const element of elementsOf(node.id)) element.classList.add("focused");
}

function focusNode(node) {
  if (!node) return;
  state.focus = node.id;
  const head = headOf(node);
  const canvas = head === state.graph.root ? main : side;
  canvas.reveal((canvas.rowOfTree(head) ?? 0) + rowOfNode(node));
  showFocus();
  elementsOf(node.id)[0]?.scrollIntoView({ block: "nearest", inline: "nearest" });
  focusCanvas(canvas);
  say(describe(node));
}

function focusCanvas(canvas = headOf(focused()) === state.graph.root ? main : side) {
  canvas.element.focus({ preventScroll: true });
}

function jumpTo(vertex) {
  focusNode(headNode(vertex));
  elementsOf(state.focus).forEach((element) => restart(element, "flash"));
}

function step(node, key) {
  switch (key) {
    case "ArrowRight": return nextNode(node);
    case "ArrowLeft": return previousNode(node);
    case "ArrowUp": return parentOf(node);
    case "ArrowDown": return childrenOf(node)[0] ?? besideOf(node, 1);
    case "Home": return headNode(headOf(node));
    default: return lastOf(headNode(headOf(node)));
  }
}

const isWorthALook = (node) => node.kind === "conflict" || Boolean(markOf(node));

/** The next mark or conflict in reading order, through all trees and around. */
function nextMark(by) {
  const heads = [state.graph.root, ...state.sideHeads.map((tree) => tree.head)];
  const move = by > 0 ? nextNode : previousNode;
  let at = heads.indexOf(headOf(focused()));
  let node = move(focused());
  for (let rounds = 0; rounds <= heads.length; rounds += 1) {
    for (; node; node = move(node)) if (isWorthALook(node)) return focusNode(node);
    at = (at + by + heads.length) % heads.length;
    node = by > 0 ? headNode(heads[at]) : lastOf(headNode(heads[at]));
  }
  return say("There are no marks and no conflicts.");
}

// ---- what the author does

/** Sends an action at the place of a node. */
async function act(line, node) {
  state.actedAt = `p ${node.holder.key} ${node.position}`;
  const { answer, refused, fault } = await call("act", { author: state.me, line });
  if (answer) return say(`${line}: ${answer}`);
  state.actedAt = null;
  return note(`${line}: ${refused ?? fault}`);
}

function note(text) {
  say(text);
  logLine(`${state.me} ${text}`, state.me);
}

/** Undoes or redoes what this author did last, by the name of the call. */
async function turn(path) {
  const { answer, refused } = await call(path, { author: state.me });
  if (answer) say(answer);
  else note(refused === "nothing" ? `There is nothing to ${path}.` : `${path}: ${refused}`);
}

async function takeFile(file) {
  const { answer, fault, line } = await call("take", { author: state.me, edits: await file.text() });
  note(answer ? `The edits of ${file.name} are taken.` : `${file.name}: line ${line}: ${fault}`);
}

function openPalette(node, query = "") {
  if (!hasPlace(node)) return say("The head of a tree has no place: drag it to a hole, or Ctrl+X here and Ctrl+V at a hole.");
  return palette.open(node, query, rectangleOf(node));
}

const rectangleOf = (node) => elementsOf(node.id)[0]?.getBoundingClientRect() ?? { left: 40, top: 40, bottom: 60 };

function removeNode(node) {
  if (!hasPlace(node)) return say("This part is loose already.");
  if (node.kind === "hole") return say("Nothing stands here.");
  return act(removalLine(node), node);
}

function pick(node) {
  if (!canMove(node)) return;
  state.moving = node.id;
  for (const element of document.querySelectorAll(".moving")) element.classList.remove("moving");
  for (const element of elementsOf(node.id)) element.classList.add("moving");
  say(`${kindWords(node)} is picked up: Ctrl+V at a hole puts it there.`);
}

function drop(hole) {
  const part = state.moving && resolve(state.graph, state.moving);
  state.moving = null;
  for (const element of document.querySelectorAll(".moving")) element.classList.remove("moving");
  const why = whyNot(part, hole);
  if (why) return say(why);
  const line = moveLine(part, hole);
  return line ? act(line, hole) : say("This part is shared: move one of the references to it.");
}

function openPopover(node) {
  const { title, sentence, wanted, found } = explain(node.vertex);
  const list = make("dl");
  for (const [name, type] of [["expected", wanted], ["found", found]]) {
    if (type) list.append(make("dt", "", name), make("dd", "", typeOrWords(type)));
  }
  $("popover").replaceChildren(make("h4", "", `⚠ ${title}`), make("div", "", sentence), list);
  $("popover").hidden = false;
  putBeside($("popover"), rectangleOf(node));
}

// ---- events

function nodeOf(event) {
  const id = event.target.closest?.("[data-id]")?.dataset.id;
  return id ? resolve(state.graph, id) : null;
}

function pageKey(event) {
  if (event.key === "Escape") $("popover").hidden = true;
  if (!state.graph || event.target.matches("input, button")) return;
  if (event.key === "F8") nextMark(event.shiftKey ? -1 : 1);
  else if (!(event.ctrlKey || event.metaKey ? controlKey(event.key) : nodeKey(focused(), event.key))) return;
  event.preventDefault();
}

/** Answers whether the key means something, as nodeKey does. */
function controlKey(key) {
  if (key === "z") turn("undo");
  else if (key === "y" || key === "Z") turn("redo");
  else if (key === "x") pick(focused());
  else if (key === "v") drop(focused());
  else return false;
  return true;
}

function nodeKey(node, key) {
  if (/^(Arrow|Home|End)/.test(key)) focusNode(step(node, key));
  else if (key === "Enter" && node.kind === "reference") jumpTo(node.vertex);
  else if (key === "Enter") openPalette(node);
  else if (key === "Backspace" || key === "Delete") removeNode(node);
  else if (key === " " && markOf(node)) openPopover(node);
  else if (/^[a-z0-9]$/.test(key) && node.kind === "hole") openPalette(node, key);
  else return false;
  return true;
}

function pageClick(event) {
  if (!event.target.closest("#popover")) $("popover").hidden = true;
  if (!event.target.closest("#palette")) palette.close();
  const node = nodeOf(event);
  if (!node) return;
  focusNode(node);
  if (event.target.closest(".flag")) openPopover(node);
  else if (node.kind === "reference") jumpTo(node.vertex);
}

/** A double click opens the palette; on a reference the first click has jumped. */
function pageDoubleClick(event) {
  const node = nodeOf(event);
  if (node && node.kind !== "reference") openPalette(node);
}

function pageHover(event) {
  const node = nodeOf(event);
  if (!node) return;
  event.target.closest("[data-id]").title = describe(node);
  say(describe(node));
}

function listenToDragging(area) {
  area.addEventListener("dragstart", (event) => {
    const node = nodeOf(event);
    if (!node) return;
    pick(node);
    event.dataTransfer.setData("text/plain", node.id);
  });
  area.addEventListener("dragover", (event) => {
    const hole = nodeOf(event);
    if (!state.moving || whyNot(resolve(state.graph, state.moving), hole)) return;
    event.preventDefault();
    event.target.classList.add("accepts");
  });
  area.addEventListener("dragleave", (event) => event.target.classList?.remove("accepts"));
  area.addEventListener("drop", (event) => { event.preventDefault(); event.target.classList.remove("accepts"); drop(nodeOf(event)); });
}

function listenToButtons() {
  $("online").addEventListener("click", () => call("online", { author: state.me, online: !state.isOnline }));
  for (const path of ["undo", "redo"]) $(path).addEventListener("click", () => turn(path));
  $("remove").addEventListener("click", () => removeNode(focused()));
  $("next-mark").addEventListener("click", () => nextMark(1));
  $("theme").addEventListener("click", () => setTheme(document.documentElement.dataset.theme === "dark" ? "light" : "dark"));
  $("file").addEventListener("change", ({ target }) => { if (target.files.length) takeFile(target.files[0]); target.value = ""; });
  $("print").href = `print?author=${state.me}`;
}

const setTheme = (theme) => { document.documentElement.dataset.theme = theme; };

function start() {
  setTheme(words.get("theme") ?? (matchMedia("(prefers-color-scheme: dark)").matches ? "dark" : "light"));
  $("author").textContent = authorName(state.me);
  document.title = `Grove: ${authorName(state.me)}`;
  document.documentElement.style.setProperty("--me", authorColour(state.me));
  document.addEventListener("keydown", pageKey);
  document.addEventListener("click", pageClick);
  document.addEventListener("dblclick", pageDoubleClick);
  document.addEventListener("mouseover", pageHover);
  listenToDragging(document.querySelector("main"));
  listenToButtons();
  window.grove = { state, act, graph: null };
  listen(state.me, take, () => say("The server does not answer. The page goes on when it does."));
}

start();
