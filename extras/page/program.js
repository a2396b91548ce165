"use strict";
// The page of a program: a recorded run to go along, and all schedules to walk through. A class has it too (extras/class).
//
// It shows what the program `parbegin` has written (docs/formats/pictures.md, "Documents for a page"). What is enabled, what a
// pick changes, what an arm does next, why it waits and how the banker can finish is in the data.
//
// A state is a list. With A arms in all, numbered process by process, its entries are
//   A places      the place of each arm's next instruction, or IDLE, ENDED or FAULTED
//   A hands       each arm's operands, a list
//   A reasons     0 if the arm asks for nothing, 1 if it may have it, ["cash", R] or ["rest", P ..] if not
//   the integers  of each process
//   the loans     of each process, one for each resource
//   the order     in which the banker can finish with the processes; nobody by the cash alone
//   A words       what each arm does by its next pick, and why it is kept back; empty if it is not live
// A row is a pick and what it changes: [process, arm, (in a graph) where it leads, entry, new value, .., event line].
// Here the arms are numbered through all processes: a row begins with [arm, 1, ..] once it is read.
const IDLE = -1, ENDED = -2, FAULTED = -3, HUES = 12;

// ---- elements

/** Makes an element: h("p.a.b", {title: "t", onclick: f}, "text", other). */
function h(name, properties, ...children) {
  const [tag, ...classes] = name.split(".");
  const it = document.createElement(tag);
  if (classes.length) it.className = classes.join(" ");
  for (const [key, value] of Object.entries(properties ?? {})) {
    if (key.startsWith("on")) it[key] = value;
    // (as an attribute it would be an inline style, which the policy of a class forbids)
    else if (key === "style") it.style.cssText = value;
    else if (value !== false && value != null) it.setAttribute(key, value === true ? "" : value);
  }
  it.append(...children.flat(9).filter((one) => one != null && one !== false));
  return it;
}

function svg(tag, attributes, ...children) {
  const it = document.createElementNS("http://www.w3.org/2000/svg", tag);
  for (const [key, value] of Object.entries(attributes)) it.setAttribute(key, value);
  it.append(...children);
  return it;
}

/** What the reader has set: "quiz", "large", and "dark" or "light" if the system has it otherwise. */
const settings = new Set();
const isQuiz = () => settings.has("quiz");

const $ = (id) => document.getElementById(id);
const button = (text, key, title, onclick, more) => h("button", { type: "button", title, onclick, "data-key": key, ...more }, text);

/** "a", "a and b", "a, b and c" */
const listed = (words) => (words.length < 2 ? words.join("") : `${words.slice(0, -1).join(", ")} and ${words.at(-1)}`);
/** A name of at most so many letters, by its beginning and its end: "customer_num…12.0". */
const shortName = (name, most) => name.length > most ? `${name.slice(0, most - 5)}…${name.slice(-4)}` : name;
const upFrom = (first, count) => Array.from({ length: count }, (_, i) => first + i);

// ---- the data

/** What an object says of a program (docs/formats/objects.md): its resources and its processes. */
function readObject(object) {
  const lines = object.split("\n").map((line) => line.split(" ")), next = () => lines.shift();
  const many = (count, read) => Array.from({ length: Number(count) }, read);
  next();
  const resources = many(next()[1], (_, r) => {
    const [, name, capital] = next();
    return { name, capital: Number(capital), r };
  });
  const processes = many(next()[1], () => {
    const [, name] = next(), [, , ...integers] = next(), [, arms] = next(), [, ...claims] = next();
    const entries = many(arms, () => Number(next()[1])), [, places] = next();
    return { name, integers, claims: claims.map(Number), arms: entries, code: many(places, next) };
  });
  return { resources, processes };
}

/** A program, and where the entries of its states are. */
class Program {
  constructor(data) {
    const { resources, processes } = readObject(data.object);
    this.data = data;
    this.resources = resources;
    this.arms = [];
    let integers = 0;
    this.processes = processes.map((it, p) => {
      const first = this.arms.length, firstInteger = integers;
      it.arms.forEach((_, a) => this.arms.push({ p, name: `${it.name}.${a}`, hue: `c${(first + a) % HUES}` }));
      integers += it.integers.length;
      return { ...it, p, first, firstInteger, hue: `c${first % HUES}` };
    });
    this.hands = this.arms.length;
    this.reasons = 2 * this.hands;
    this.integers = 3 * this.hands;
    this.loans = this.integers + integers;
    this.order = this.loans + this.processes.length * this.resources.length;
    this.words = this.order + 1;
    // (of an object there may be no text: its instructions are shown, process by process)
    let lines = 0;
    for (const it of this.processes) it.firstLine = lines + 2, lines += it.code.length + 1;
    this.text = data.text || this.processes.map((it) =>
      `process ${it.name}\n${it.code.map((one, i) => `${String(i).padStart(4)}  ${this.wordsOf(it, one)}\n`).join("")}`).join("");
  }

  /** An instruction with the names of what it is about. */
  wordsOf(process, [, op, ...words]) {
    const pairs = this.pairs(op, words), isOfInteger = op === "load" || op === "store";
    return `${op} ${pairs.length ? this.amounts(pairs) : isOfInteger ? process.integers[words[0]] : words.join(" ")}`;
  }

  /** Rows, each with the number of its arm and one pick in the place of the process and its arm. */
  rows(given) { return given.map(([p, a, ...rest]) => [this.processes[p].first + a, 1, ...rest]); }

  processOf(arm) { return this.processes[this.arms[arm].p]; }
  armsOf(process) { return upFrom(process.first, process.arms.length); }
  integerAt(process, i) { return this.integers + process.firstInteger + i; }
  loanAt(p, r) { return this.loans + p * this.resources.length + r; }
  isOver(state, process) { return state[process.first] === ENDED || state[process.first] === FAULTED; }

  /** What a state is apart from what the banker says of it, as a key. */
  key(state) { return JSON.stringify(state.filter((_, at) => at < this.reasons || (at >= this.integers && at < this.order))); }

  cash(state, { r, capital }) { return this.processes.reduce((left, { p }) => left - state[this.loanAt(p, r)], capital); }
  amounts(pairs) { return listed(pairs.map(([k, r]) => `${k} ${this.resources[r].name}`)); }

  /** The next instruction of an arm that is live: its line, and its words. */
  next(state, arm) { return this.processOf(arm).code[state[arm]] ?? ["0"]; }

  lineOf(state, arm) {
    if (this.data.text) return Number(this.next(state, arm)[0]);
    return state[arm] < 0 ? 0 : this.processOf(arm).firstLine + state[arm];
  }

  pairs(op, words) {
    return op === "take" || op === "give" ? words.flatMap((r, i) => (i % 2 ? [] : [[+words[i + 1], +r]])) : [];
  }

  /** Pairs of an amount and a resource for which an arm asks. */
  asks(state, arm) {
    const [, op, ...words] = this.next(state, arm);
    return state[this.reasons + arm] === 0 ? [] : this.pairs(op, words);
  }

  /** Whether an arm waits for others to end. */
  isJoining(state, arm) { return state[this.words + arm].startsWith("waits for "); }

  /** Whether an arm is shown as one that cannot go on: it asks in vain, which a quiz does not tell, or waits at a join. */
  waits(state, arm) {
    const why = state[this.reasons + arm];
    return (!isQuiz() && Array.isArray(why) && (why[0] === "cash" || this.data.lend !== "cash")) || this.isJoining(state, arm);
  }
}

/** Makes the changes of a row, from its entry `from` on, and returns which entries of the state they are. */
function apply(state, row, from) {
  const changed = new Set();
  for (let i = from; typeof row[i] === "number"; i += 2) {
    state[row[i]] = row[i + 1];
    changed.add(row[i]);
  }
  return changed;
}

function eventsOf(row, from) {
  while (typeof row[from] === "number") from += 2;
  return row.slice(from);
}

/** The picks of rows as pick lines. */
function pickLines(program, rows) {
  const lines = [];
  for (const [arm, count] of rows) {
    if (lines.at(-1)?.arm === arm) lines.at(-1).count += count;
    else lines.push({ arm, count });
  }
  return lines.map(({ arm, count }) => `${program.arms[arm].name} ${count}\n`).join("");
}
