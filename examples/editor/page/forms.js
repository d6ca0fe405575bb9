/* The constructors: their sorts, what they do in plain words, their positions and how they are laid out. */

/** A layout is a list of words and `@positions`; `|` begins a new row where the node is too wide for a line. */
const FORMS = {
  root: ["top", "the program", ["@main"]],
  var: ["exp", "a name", []],
  lam: ["exp", "a function", ["λ", "@param", ":", "@type", ".", "|", "@body"]],
  ap: ["exp", "a function applied", ["@fun", "|", "(", "@arg", ")"]],
  num: ["exp", "a number", []],
  plus: ["exp", "a sum of numbers", ["@left", "|", "+", "@right"]],
  true: ["exp", "a truth value", []],
  false: ["exp", "a truth value", []],
  if: ["exp", "a choice", ["if", "@cond", "|", "then", "@then", "|", "else", "@else"]],
  pair: ["exp", "two parts", ["(", "@first", "|", ",", "@second", ")"]],
  fst: ["exp", "the first part", ["fst", "@of"]],
  snd: ["exp", "the second part", ["snd", "@of"]],
  pvar: ["pat", "a name that is bound", []],
  tnum: ["typ", "numbers", []],
  tbool: ["typ", "truth values", []],
  tarrow: ["typ", "functions", ["@from", "→", "@to"]],
  tprod: ["typ", "pairs", ["@left", "×", "@right"]],
  let: ["exp", "a definition", ["let", "@param", "=", "@def", "in", "|", "@body"]],
  inl: ["exp", "the left of a sum", ["inl", "@of"]],
  inr: ["exp", "the right of a sum", ["inr", "@of"]],
  case: ["exp", "a choice by sides", ["case", "@on", "of", "|", "inl", "@lparam", "→", "@lbody",
    "|", "inr", "@rparam", "→", "@rbody"]],
  tsum: ["typ", "one of two", ["@left", "+", "@right"]],
};

export const WORDS = Object.keys(FORMS);
const RANKS = new Map(WORDS.map((word, rank) => [word, rank]));
const POSITIONS = new Map(WORDS.map((word) =>
  [word, FORMS[word][2].filter((item) => item.startsWith("@")).map((item) => item.slice(1))]));

export const sortOfWord = (word) => FORMS[word][0];
export const purposeOf = (word) => FORMS[word][1];
export const layoutOf = (word) => FORMS[word][2];
export const positionsOf = (word) => POSITIONS.get(word);
export const rankOf = (word) => RANKS.get(word);

/** The sort of the children at a position of a constructor. */
export function sortAt(word, position) {
  if (position === "param" || position === "lparam" || position === "rparam") return "pat";
  return position === "type" || sortOfWord(word) === "typ" ? "typ" : "exp";
}

/** In rows brackets would stand alone and far apart, so words say what they say. */
const ROW_WORDS = { pair: { "(": "pair", ",": "and", ")": "" }, ap: { "(": "applied to", ")": "" } };
export const rowWord = (word, item) => ROW_WORDS[word]?.[item] ?? item;

/** What stands for a leaf without carried text. */
export const BARE = { true: "true", false: "false", tnum: "num", tbool: "bool" };
