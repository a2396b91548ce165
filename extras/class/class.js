"use strict";
// The start of a class, and its views. Each view has a title, and can be opened, closed and drawn again. The run and the
// scheduler are those of a page of one program (extras/page): here their documents come and go.

let about = {};

/** Where one is in a run or among the schedules: kept while the text is the same. */
function remember(hash) { if (view) view.place = hash; }

/** Keeps in this tab what is set. */
const keepSettings = () => sessionStorage.setItem("settings", [...settings].join("&"));

/** A view whose document is asked for when it is opened, and again when it is of another text. */
class Asked {
  constructor(title, id, load) { Object.assign(this,
    { title, id: "stage", name: id, load, shown: null, of: null, number: 0 }); }

  async open() {
    const key = this.key(), number = ++this.number;
    this.choices();
    if (this.of === key && this.shown) return this.show();
    show("wait");
    $("controls").replaceChildren();
    $("waiting").replaceChildren(h("p.faint", null, "Asking the server .."));
    const said = await this.load(this);
    if (view !== this || number !== this.number) return;
    if (said instanceof Node) return $("waiting").replaceChildren(said);
    this.shown = said;
    this.of = key;
    this.show();
  }

  show() {
    show("stage");
    this.shown.open();
    this.isOpen = true;
  }

  close() {
    if (this.isOpen) this.shown.close();
    this.isOpen = false;
    $("choices").replaceChildren();
  }

  redraw() { if (this.isOpen) this.shown.redraw(); }
  keys() { return this.isOpen ? this.shown.keys() : {}; }
  /** The schedules, if it has them and they are of the text as it is. */
  get graphs() { return this.of === this.key() ? this.shown?.graphs : undefined; }
  again() { this.of = null; open(this); }
  choices() {}
  key() { return writing.text; }
}

const STOPPED = { processor: "It takes too long.", clock: "It takes too long.", memory: "It needs too much memory.",
  output: "It is too much to show." };

/** Why there is no document, with a way back to the text. */
function why(said) {
  const words = said.error ?? (said.stopped ? STOPPED[said.stopped] ?? said.stopped : `Refused: ${said.refused}`);
  return h("div.card", null, notice("bad", "Nothing to show.", words), said.told ? h("pre.told", null, said.told) : null,
    h("div.buttons", null, button("Back to the text", "text", "", () => open(writing), { class: "main" })));
}

// ---- a run

const run = new Asked("A run", "run", async (it) => {
  const { picks, lend, seed } = it;
  const said = picks ? await ask("states", { lend }, `${writing.text.replace(/\n?$/, "\n")}%%\n${picks}`)
    : await ask("run", { lend, seed }, writing.text);
  if (!said.run) return why(said);
  return new Run(said.run);
});
Object.assign(run, { lend: "banker", seed: "", picks: "", of: null });
run.key = () => JSON.stringify([writing.text, run.lend, run.seed, run.picks]);
run.choices = () => {
  const seed = h("input", { type: "number", min: 0, max: 999999, value: run.seed, placeholder: "none", "aria-label": "Seed",
    "data-key": "seed",
    onchange: () => { run.seed = /^\d{1,6}$/.test(seed.value) ? seed.value : ""; run.drawn(); } });
  const lender = h("select", { "aria-label": "Who lends", "data-key": "lend",
    onchange: () => { run.lend = lender.value; run.drawn(); } },
    [["banker", "the banker lends"],
      ["cash", "the cash alone"]].map(([value, words]) => h("option", { value, selected: value === run.lend }, words)));
  $("choices").replaceChildren(...(run.picks
    ? [h("span", null, h("b", null, run.about), run.lend === "cash" ? ", by the cash alone" : ""),
      button("Back to the text", "back-to-text", "", () => open(writing)),
      button("Draw a run instead", "instead", "", () => run.drawn())]
    : [button("Draw another", "another", "A run by the next seed",
      () => { run.seed = String(Number(run.seed || 0) + 1); run.drawn(); }),
      h("label", null, "seed ", seed), lender]), debuggerField());
};
/** A field for commands of the debugger, which answers at the position of the run, and leads to another one. */
function debuggerField() {
  const said = h("output.answers", { role: "status" });
  const field = h("input.command",
    { type: "text", maxlength: 256, autocomplete: "off", spellcheck: "false", "data-key": "command",
    "aria-label": "Ask the debugger", placeholder: "ask: why p.1, wrote p x, help .." });
  field.onkeydown = async ({ key }) => {
    if (key !== "Enter" || !field.value.trim() || !run.isOpen) return;
    const { program, rows, picks, at } = run.shown, text = program.data.text.replace(/\n?$/, "\n");
    const answer = await ask("debug", { command: field.value.trim(), at: picks[at], lend: program.data.lend },
      `${text}%%\n${pickLines(program, rows)}`);
    const lines = answer.answers ?? [answer.error ?? STOPPED[answer.stopped] ?? answer.refused];
    const [, there] = /^at (\d+)/.exec(lines[0]) ?? [];
    if (there !== undefined) run.shown.go(atMost(picks, +there) - 1);
    const [, code] = /^refused (\w+)$/.exec(lines[0]) ?? [], page = code ? await ask("explain", { code }) : [];
    said.textContent = `${lines.join("\n")}${page[0] ? `: ${page[0].text}` : ""}` || "Nothing.";
  };
  return h("div.debugger", null, field, said);
}

run.drawn = () => {
  run.picks = "";
  open(run);
};

/** Shows the run that picks make. */
function showPicks(picks, lend, words) {
  Object.assign(run, { picks, lend, about: words });
  open(run);
}

// ---- all schedules

const scheduler = new Asked("You are the scheduler", "scheduler", async () => {
  const said = await ask("graph", {}, writing.text);
  if (!said.banker) return why(said);
  const given = [said.banker, said.cash].filter(Boolean), graphs = given.filter((it) => it.nodes);
  if (!graphs.length) return why({ error: `More than ${said.banker.more_than} configurations: too many to walk through.` });
  return new Schedules(graphs);
});

// ---- the frame

const writing = new Writing(), ends = new Ends(), tasks = new Tasks();
const SHORT = { "A run": "Run", "You are the scheduler": "Scheduler", "Every outcome": "Outcomes" };
views = [writing, run, scheduler, ends, tasks];

/** Shows one of the main parts. */
function show(id) {
  document.body.dataset.view = view.name ?? view.id;
  for (const it of document.querySelectorAll("body > main")) it.hidden = it.id !== id;
}

/** With Alt a digit opens a view. (With the option key of a Mac the key is another sign.) */
function keyedView(event) {
  if (event.altKey && /^Digit[1-5]$/.test(event.code)) event.preventDefault(), open(views[event.code[5] - 1]);
}

function prepareFiles() {
  $("load").onclick = () => $("file").click();
  $("file").onchange = async () => {
    const [file] = $("file").files;
    if (file && file.size <= 500000) takeFile(await file.text());
    $("file").value = "";
  };
  $("save").onclick = () => {
    const link = h("a", { href: URL.createObjectURL(new Blob([writing.text], { type: "text/plain" })),
      download: `${tasks.chosen?.name ?? "program"}.pb` });
    link.click();
    setTimeout(() => URL.revokeObjectURL(link.href), 1000);
  };
  $("share").onclick = async () => {
    const more = tasks.chosen ? { x: tasks.chosen.name } : {};
    $("link").value = await toLink(writing.text, more);
    $("link-said").textContent = `${$("link").value.length} characters${$("link").value.length > 8000
      ? ": some programs cut a link as long as that; a file is safer" : ""}`;
    $("sharing").showModal();
    $("link").select();
  };
  $("copy").onclick = () => {
    $("link").select();
    // (without TLS browsers have no other clipboard)
    const isCopied = navigator.clipboard ? navigator.clipboard.writeText($("link").value).then(() => true, () => false)
      : Promise.resolve(document.execCommand("copy"));
    isCopied.then((it) => { $("link-said").textContent = it ? "Copied." : "Select it and copy it by hand."; });
  };
  $("go").onclick = () => run.drawn();
}

/** A text, or a text with the picks of a run behind a line `%%`. */
function takeFile(given) {
  const [text, picks] = given.replace(/\r\n?/g, "\n").split(/^%%\n/m);
  writing.show(text);
  if (picks) showPicks(picks, "banker", "The picks of the file");
}

/** The texts to begin with, by the lessons of the course. */
function showExamples(examples) {
  const groups = new Map();
  for (const it of examples) groups.set(it.group, [...(groups.get(it.group) ?? []), it]);
  const options = (list) => list.map((it) => h("option", { value: `${it.group}/${it.name}` }, it.name));
  $("begin").replaceChildren(h("option", { value: "" }, "Begin with .."), ...[...groups].map(([name, list]) =>
    h("optgroup", { label: name ? `Lesson ${name.replace(/-/, ": ")}` : "First" }, options(list))));
  $("begin").onchange = () => {
    const it = examples.find((one) => `${one.group}/${one.name}` === $("begin").value);
    if (it) writing.show(it.text);
    $("begin").value = "";
  };
}

async function start() {
  $("tabs").replaceChildren(...views.map((it, i) => h("button",
    { type: "button", title: `Alt and ${i + 1}`, "aria-label": it.title, onclick: () => open(it) },
    h("span.long", null, it.title), h("span.brief", null, SHORT[it.title] ?? it.title))));
  prepareFiles();
  startFrame();
  takeSettings(new URLSearchParams(sessionStorage.getItem("settings") ?? ""));
  addEventListener("keydown", keyedView);
  $("plan").ontoggle = () => { if ($("plan").open) writing.check(); };
  const [room, exercises, examples] = await Promise.all([ask("about"), ask("exercises"), ask("examples")]);
  about = room.error ? {} : room;
  tasks.all = exercises.error ? [] : exercises;
  if (about.title) document.title = $("title").textContent = about.title;
  showExamples(examples.error ? [] : examples);
  await fromAddress();
  addEventListener("hashchange", fromAddress);
}

async function fromAddress() {
  const hash = new URLSearchParams(location.hash.slice(1)), text = await fromLink(hash);
  const task = tasks.all.find((it) => it.name === (hash.get("x") ?? (text === null ? sessionStorage.getItem("task") : null)));
  // (the link has done its work: what is written from here on is not what it says)
  if (location.hash) history.replaceState(null, "", location.pathname);
  if (task) tasks.choose(task, text ?? (hash.has("x") ? undefined : sessionStorage.getItem("text") ?? undefined));
  else {
    writing.show(text ?? sessionStorage.getItem("text") ?? FIRST);
    tasks.draw();
    open(writing);
  }
  if (hash.get("v")) open(views.find((it) => (it.name ?? it.id) === hash.get("v")) ?? writing);
}

const FIRST = `// Two jobs take the same two devices in opposite order. With the banker they cannot deadlock;
// by the cash alone they can. "You are the scheduler": find the deadlock.
resource tape = 1;
resource disk = 1;
process a
begin
  hold 1 of tape do hold 1 of disk do print 1 od od
end
process b
begin
  hold 1 of disk do hold 1 of tape do print 2 od od
end
`;

start();
