"use strict";
// The editor, what is wrong with the text, how it is mended, and what it claims.

/** An editor by CodeMirror, or a plain one: what both can do. */
class Editor {
  constructor(changed) {
    this.area = $("area");
    this.marks = [];
    if (!window.CodeMirror) {
      this.area.oninput = changed;
      this.area.onkeydown = (event) => {
        if (event.key === "Enter" && (event.ctrlKey || event.metaKey)) $("go").click();
        if (event.key === "Enter" && event.altKey) writing.mend();
      };
      $("editor").classList.add("plainly");
      return;
    }
    defineMode();
    let isLeaving = false;
    this.cm = CodeMirror.fromTextArea(this.area, {
      mode: "parbegin", lineNumbers: true, matchBrackets: true, indentUnit: 2, tabSize: 4, inputStyle: "contenteditable",
      gutters: ["CodeMirror-linenumbers", "faults"], lineWrapping: true, spellcheck: false,
      screenReaderLabel: "Program. Escape, then Tab leaves the editor.",
      hintOptions: { completeSingle: false, hint: (cm) => this.hints(cm) },
      extraKeys: {
        "Ctrl-Space": (cm) => cm.showHint?.(), F1: () => this.hover(this.cm.getCursor()), F2: () => this.rename(),
        "Ctrl-Enter": () => $("go").click(), "Cmd-Enter": () => $("go").click(), "Alt-Enter": () => writing.mend(),
        F8: () => writing.toFault(), "Shift-Tab": "indentLess",
        Esc: () => { isLeaving = true; $("where").textContent = "Tab leaves the editor now"; },
        Tab: (cm) => {
          if (isLeaving) { isLeaving = false; return CodeMirror.Pass; }
          return cm.somethingSelected() ? cm.indentSelection("add") : cm.replaceSelection("  ");
        },
      },
    });
    this.cm.on("keydown", (cm, event) => {
      if (event.key === "Tab" && isLeaving) event.codemirrorIgnore = true;
      else if (event.key !== "Shift") isLeaving = isLeaving && event.key === "Escape";
    });
    this.cm.on("keyHandled", (cm, name) => { if (name !== "Esc") isLeaving = false; });
    this.cm.on("changes", changed);
    this.cm.on("cursorActivity", () => this.tellPlace());
    this.prepareHover();
  }

  /** What stands where the mouse rests is told below the editor. */
  prepareHover() {
    const lines = this.cm.getWrapperElement();
    lines.onmousemove = ({ clientX, clientY }) => {
      clearTimeout(this.resting);
      this.resting = setTimeout(() => this.hover(this.cm.coordsChar({ left: clientX, top: clientY }, "window")), 400);
    };
    lines.onmouseleave = () => clearTimeout(this.resting);
  }

  async hover({ line, ch }) {
    const said = await ask("hover", { line, character: ch }, writing.text);
    if (said.text) $("where").textContent = said.text;
  }

  /** The words that may stand at the cursor. */
  async hints(cm) {
    const { line, ch } = cm.getCursor(), [begun] = cm.getLine(line).slice(0, ch).match(/\w*$/);
    const said = await ask("complete", { line, character: ch }, writing.text);
    const list = (said.words ?? []).filter((it) => it.startsWith(begun) && it !== begun);
    return { list, from: CodeMirror.Pos(line, ch - begun.length), to: CodeMirror.Pos(line, ch) };
  }

  /** Asks for another name for the one at the cursor, and gives it everywhere. */
  rename() {
    const { line, ch } = this.cm.getCursor(), { anchor, head } = this.cm.findWordAt({ line, ch });
    $("new-name").value = this.cm.getRange(anchor, head).trim();
    $("renaming-said").textContent = "";
    const give = async () => {
      const said = await ask("rename", { line, character: ch, name: $("new-name").value }, writing.text);
      if (!said.edits?.length) return $("renaming-said").textContent = said.error
        ?? "There is no name here, or the new one is taken or no name.";
      $("renaming").close();
      this.edit(said.edits);
    };
    $("rename").onclick = give;
    $("new-name").onkeydown = (event) => { if (event.key === "Enter") event.preventDefault(), give(); };
    $("renaming").showModal();
    $("new-name").select();
  }

  get value() { return this.cm ? this.cm.getValue() : this.area.value; }
  set value(text) {
    if (this.cm) this.cm.setValue(text), this.cm.clearHistory();
    else this.area.value = text;
  }

  tellPlace() {
    const { line, ch } = this.cm.getCursor();
    $("where").textContent = `line ${line + 1}, column ${ch + 1}`;
  }

  offset({ line, character }) {
    const lines = this.area.value.split("\n");
    return lines.slice(0, line).reduce((sum, it) => sum + it.length + 1, 0) + character;
  }

  /** Makes edits, the last first, so that none moves the place of another. */
  edit(edits) {
    const order = [...edits].sort((a, b) => b.range.start.line - a.range.start.line
      || b.range.start.character - a.range.start.character);
    const place = (it) => ({ line: it.line, ch: it.character });
    if (this.cm) this.cm.operation(() =>
      order.forEach((it) => this.cm.replaceRange(it.newText, place(it.range.start), place(it.range.end), "+mend")));
    else {
      for (const it of order) this.area.setRangeText(it.newText, this.offset(it.range.start), this.offset(it.range.end), "end");
      this.area.dispatchEvent(new Event("input"));
    }
    this.focus();
  }

  go({ line, character }) {
    if (this.cm) this.cm.setCursor({ line, ch: character }), this.cm.scrollIntoView(null, 80);
    else this.area.setSelectionRange(this.offset({ line, character }), this.offset({ line, character }));
    this.focus();
  }

  focus() { (this.cm ?? this.area).focus(); }
  refresh() { this.cm?.refresh(); }

  mark(diagnostics, hints) {
    if (!this.cm) return;
    this.cm.operation(() => {
      this.marks.forEach((it) => it.clear());
      this.cm.clearGutter("faults");
      this.marks = [];
      for (const { range: { start, end }, message, code, relatedInformation } of diagnostics) {
        const isEmpty = start.line === end.line && start.character === end.character;
        const from = { line: start.line, ch: start.character - (isEmpty && start.character ? 1 : 0) },
          to = { line: end.line, ch: end.character + (isEmpty ? 1 : 0) };
        const title = `${code}: ${message}`;
        this.marks.push(this.cm.markText(from, to, { className: "fault", attributes: { title } }));
        this.cm.setGutterMarker(start.line, "faults", h("span.fault-sign", { title, "aria-hidden": "true" }, "●"));
        for (const it of relatedInformation ?? []) {
          const place = it.location.range;
          this.marks.push(this.cm.markText({ line: place.start.line, ch: place.start.character },
            { line: place.end.line, ch: place.end.character },
            { className: "related", attributes: { title: it.message } }));
        }
      }
      for (const { position, label } of hints)
        this.marks.push(this.cm.setBookmark({ line: position.line, ch: position.character },
          { widget: h("span.claims", { "aria-hidden": "true", title: "What it may hold at once" }, label) }));
    });
  }
}

/** The colours of a text: comments, reserved words, names, numbers. */
function defineMode() {
  const depth = { begin: 1, do: 1, then: 1, parbegin: 1, end: -1, od: -1, fi: -1, parend: -1 };
  CodeMirror.defineMode("parbegin", () => ({
    startState: () => ({ depth: 0 }),
    token(stream, state) {
      if (stream.eatSpace()) return null;
      if (stream.match("//")) { stream.skipToEnd(); return "comment"; }
      const [word] = stream.match(/^[A-Za-z]\w*/) ?? [];
      if (word) {
        state.depth = Math.max(0, state.depth + (depth[word] ?? 0));
        return !WORDS.has(word) ? "variable" : /^(process|resource|parbegin|parend|hold|of)$/.test(word) ? "keyword strongly"
          : "keyword";
      }
      if (stream.match(/^\d+/)) return "number";
      if (stream.match(/^(:=|<>|<=|>=|[;,()+\-*=<>])/)) return "operator";
      stream.next();
      return "error";
    },
    indent: (state, behind) => 2 * Math.max(0, state.depth - (/^(end|od|fi|parend|else)\b/.test(behind) ? 1 : 0)),
    electricInput: /^\s*(end|od|fi|parend|else)$/,
    lineComment: "//",
  }));
}

/** The view of the text. */
class Writing {
  constructor() {
    this.title = "Text";
    this.id = "text";
    this.diagnostics = [];
    this.mends = [];
    this.editor = new Editor(() => this.changed());
  }

  get text() { return this.editor.value.replace(/\r\n?/g, "\n"); }

  /** Shows another text. */
  show(text) {
    this.editor.value = text;
    this.changed(0);
  }

  changed(pause = 250) {
    sessionStorage.setItem("text", this.text);
    clearTimeout(this.later);
    this.later = setTimeout(() => this.check(), pause);
  }

  async check() {
    this.stop?.abort();
    this.stop = new AbortController();
    const text = this.text;
    let said;
    try {
      said = await ask("check", {}, text, { signal: this.stop.signal });
    } catch { return; }
    if (text !== this.text) return;
    if (said.error) return $("verdict").replaceChildren(notice("warn", "Not looked at.", said.error));
    Object.assign(this, { diagnostics: said.diagnostics, mends: said.mends });
    this.editor.mark(said.diagnostics, said.hints);
    this.tell();
    // (claims are told of a text whose capital is too small as well)
    if (!said.diagnostics.length || said.diagnostics[0].code === "C1") this.plan(text);
    else $("plan-body").replaceChildren(h("p.faint", null, "As soon as it is a program."));
  }

  tell() {
    const { diagnostics, mends } = this;
    $("state").className = `card ${diagnostics.length ? "bad" : "good"}`;
    if (!diagnostics.length) {
      $("verdict").replaceChildren(h("b", null, "This is a program."),
        " With the banker it cannot deadlock, under any schedule.");
      return $("faults").replaceChildren();
    }
    const [{ code, message, range, relatedInformation }] = diagnostics, [first, ...rest] = message.split("\n");
    $("verdict").replaceChildren(h("b", null, "Not yet a program."), ` Line ${range.start.line + 1}: ${first}`);
    const known = h("div.known");
    const more = h("details", { ontoggle: () => this.explain(more, known, code) }, h("summary", null, `What ${code} means`),
      known);
    $("faults").replaceChildren(
      ...rest.map((it) => h("p", null, it.replace(/^hint: /, ""))),
      ...(relatedInformation ?? []).map((it) => h("p", null, this.place(it.location.range.start), ` ${it.message}`)),
      h("div.buttons", null,
        mends.map((it, i) => button(`Mend: ${it.title}`, `mend${i}`, i ? "" : "Alt and Enter", () => this.mend(i),
          { class: i ? "" : "main" })),
        button("Show the place", "place", "F8", () => this.toFault())), more);
  }

  place(start) { return button(`line ${start.line + 1}`, `line${start.line}`, "Show it", () => this.editor.go(start),
    { class: "inline" }); }

  async explain(more, known, code) {
    if (!more.open || known.firstChild) return;
    const lines = await ask("explain", { code });
    if (lines.error) return known.append(lines.error);
    known.append(...lines.filter((it) => it.text).map((it) => h("p", null, it.text)));
  }

  mend(i = 0) { if (this.mends[i]) this.editor.edit(this.mends[i].edits); }
  toFault() { if (this.diagnostics[0]) this.editor.go(this.diagnostics[0].range.start); }

  async plan(text) {
    if (!$("plan").open) return;
    const said = await ask("plan", {}, text);
    if (text === this.text) $("plan-body").replaceChildren(...(said.lines
      ? planOf(said.lines, (line) => this.place({ line: line - 1, character: 0 })) : []));
  }

  open() {
    show(this.id);
    $("controls").replaceChildren();
    this.editor.refresh();
  }

  close() {}
  redraw() {}
  keys() { return {}; }
}

/** A plan: a table of claims, and what follows. */
function planOf(lines, place) {
  const of = (kind) => lines.filter((it) => it.kind === kind), resources = of("resource"), claims = of("claim");
  if (!resources.length) return [h("p.faint", null, "It has no resources: nothing is lent, and nobody waits for anything.")];
  const cell = (process, { resource }) => {
    const it = claims.find((one) => one.process === process && one.resource === resource);
    return h("td", null, it?.claim ? [h("b", null, it.claim), " ", [...new Set(it.lines)].map((line) => place(line))] : "");
  };
  const row = (title, value, test) => h("tr.sum", null, h("th", { scope: "row" }, title),
    resources.map((it) => h(`td${test?.(it) ? ".short" : ""}`, null, String(value(it)))));
  const processes = [...new Set(claims.map((it) => it.process))];
  const said = [];
  const [bottleneck] = of("bottleneck"), [order] = of("order"), nests = of("nest");
  const over = resources.filter((it) => it.least > it.capital);
  for (const it of over) said.push(notice("bad", "Too little.",
    `One process alone may hold ${it.least} of ${it.resource}, and there are ${it.capital}.`));
  if (of("no request waits").length) said.push(notice("good", "Nobody waits.", "There is enough for all claims at once."));
  else if (bottleneck && !over.length) said.push(notice("warn", "Scarce.",
    `A request may have to wait. What is lacking most is ${bottleneck.resource}.`));
  if (order) said.push(notice("good", "One order.", order.text.includes(" ")
    ? `Everybody asks for ${order.text.split(" ").join(", then ")}: even without the banker there is no deadlock.`
    : "No hold stands inside a hold of another resource: even without the banker there is no deadlock."));
  else if (!of("no request waits").length) said.push(notice("warn", "A circle.", "Without the banker there may be a deadlock:",
    h("ul", null, nests.map((it) => h("li", null, `${it.process} asks for ${it.inner} (`, place(it.inner_line),
      `) while it has ${it.outer} (`, place(it.outer_line), ")")))));
  return [
    h("div.scroll", null, h("table.claim-table", null,
      h("thead", null, h("tr", null, h("th", { scope: "col" }, "may hold at once"),
        resources.map((it) => h("th", { scope: "col" }, it.resource)))),
      h("tbody", null, processes.map((it) => h("tr", null, h("th", { scope: "row" }, it), resources.map((r) => cell(it, r)))),
        row("there are", (it) => it.capital, (it) => it.capital < it.least), row("at least", (it) => it.least),
          row("nobody waits from", (it) => it.free)))),
    ...said];
}
