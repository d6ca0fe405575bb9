/* The palette: what fits at a node, found by typing. */
import { make } from "./canvas.js";
import { choicesAt } from "./offers.js";

const MOST_SHOWN = 60;

export class Palette {
  /** `onTake` gets the chosen action line and the node, and `onClose` is called when the palette goes. */
  constructor(box, input, list, onTake, onClose) {
    Object.assign(this, { box, input, list, onTake, onClose, node: null, at: 0, choices: [] });
    input.addEventListener("input", () => this.fill());
    input.addEventListener("keydown", (event) => this.key(event));
  }

  open(node, query, beside) {
    this.node = node;
    this.box.hidden = false;
    this.input.value = query;
    this.fill();
    putBeside(this.box, beside);
    this.input.focus();
  }

  fill() {
    this.choices = choicesAt(this.node, this.input.value.trim());
    this.list.replaceChildren(...this.choices.slice(0, MOST_SHOWN).map((choice, at) => this.item(choice, at)));
    const more = this.choices.length - MOST_SHOWN;
    if (more > 0) this.list.append(make("li", "note", `and ${more} more: type to find them`));
    if (!this.choices.length) this.list.append(make("li", "note", "Nothing of that name fits here."));
    this.select(0);
  }

  item(choice, at) {
    const item = make("li", "", choice.constructor.replace(":", " "));
    item.append(make("span", "does", choice.fits ? choice.does : `${choice.does} · another type`));
    item.id = `choice-${at}`;
    item.dataset.line = choice.line;
    item.setAttribute("role", "option");
    item.addEventListener("click", () => this.take(at));
    return item;
  }

  select(at) {
    this.at = Math.max(0, Math.min(at, Math.min(this.choices.length, MOST_SHOWN) - 1));
    [...this.list.children].forEach((item, number) => item.setAttribute("aria-selected", number === this.at));
    const item = this.choices.length ? this.list.children[this.at] : null;
    item?.scrollIntoView({ block: "nearest" });
    this.input.setAttribute("aria-activedescendant", item?.id ?? "");
  }

  take(at) {
    const choice = this.choices[at];
    this.close();
    if (choice) this.onTake(choice.line, this.node);
  }

  close() {
    if (this.box.hidden) return;
    this.box.hidden = true;
    this.onClose();
  }

  key(event) {
    const by = { ArrowDown: 1, ArrowUp: -1 }[event.key];
    if (by) this.select(this.at + by);
    else if (event.key === "Enter") this.take(this.at);
    else if (event.key === "Escape" || event.key === "Tab") this.close();
    else return;
    event.preventDefault();
  }
}

/** Puts a box under a rectangle, or above it where there is no room under it. */
export function putBeside(box, { left, top, bottom }) {
  const isUnder = bottom + 6 + box.offsetHeight < innerHeight || top < box.offsetHeight;
  box.style.left = `${Math.max(8, Math.min(left, innerWidth - box.offsetWidth - 8))}px`;
  box.style.top = `${Math.max(8, isUnder ? Math.min(bottom + 6, innerHeight - 120) : top - box.offsetHeight - 6)}px`;
}
