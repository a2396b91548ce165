"use strict";
// Every outcome: a search that can be watched and stopped.

class Ends {
  constructor() {
    this.title = "Every outcome";
    this.id = "ends";
    this.lend = "banker";
    this.made = "";
    const radio = (value, words) => h("label", null,
      h("input", { type: "radio", name: "ends-lend", value, checked: value === this.lend,
      onchange: () => { this.lend = value; this.search(); } }), words);
    this.prints = h("input", { type: "checkbox", onchange: () => this.search() });
    this.fair = h("input", { type: "checkbox", onchange: () => this.search() });
    this.wanted = h("textarea", { rows: 3, "aria-label": "Wanted prints", placeholder: "p.0 print 2", spellcheck: "false" });
    this.anyOrder = h("input", { type: "checkbox" });
    this.stopper = button("Stop", "stop", "Stop the search", () => this.stop?.abort());
    this.finder = button("Search again", "search", "", () => this.search(), { class: "main" });
    this.said = h("div", { role: "status", id: "ends-said" });
    this.bar = h("progress", { "aria-label": "How far the search is" });
    this.list = h("ol.ends-list");
    $("ends").replaceChildren(
      h("section.card.search", { "aria-label": "What is searched for" },
        h("div.buttons", null, h("fieldset", null, h("legend", null, "Who lends?"), radio("banker", "the banker"),
          radio("cash", "the cash alone")),
          h("label", null, this.prints, " tell what is printed"), h("label", null, this.fair, " are all fair runs finite?"),
            h("span.gap"), this.stopper, this.finder),
        h("details", null, h("summary", null, "Compare with wanted prints"), this.wanted,
          h("div.buttons", null, h("label", null, this.anyOrder, " in any order"),
            button("Compare", "compare", "", () => this.search(true)))),
        this.bar, this.said),
      this.list);
    this.stopper.disabled = true;
    this.bar.hidden = true;
  }

  open() {
    show(this.id);
    $("controls").replaceChildren();
    if (this.made !== writing.text) this.search();
  }

  async search(isCompared = false) {
    this.stop?.abort();
    const stop = this.stop = new AbortController(), text = this.made = writing.text, began = performance.now();
    const ends = [];
    let last = null, told = "", time = null;
    this.list.replaceChildren();
    this.stopper.disabled = false;
    this.bar.hidden = false;
    this.bar.removeAttribute("value");
    this.say("warn", "Searching.", "");
    const take = (it) => {
      if (it.kind === "progress") return this.progress(it);
      if (it.kind === "outcome" || it.kind === "deadlock") ends.push(it);
      else if (it.kind === "told") told = it.text;
      else if (it.kind === "time") time = it.seconds;
      else if (/fair/.test(it.kind) || it.of === "fair runs") this.fairly = it;
      else last = it;
    };
    this.fairly = null;
    const options = { lend: this.lend, prints: this.prints.checked ? "yes" : "no", fair: this.fair.checked ? "yes" : "no",
      expect: isCompared ? (this.anyOrder.checked ? "any" : "same") : "no" };
    const given = isCompared ? `${text.replace(/\n?$/, "\n")}%%\n${this.wanted.value.trim()}` : text;
    try {
      await askLines("outcomes", options, given, stop.signal, take);
    } catch (fault) {
      if (this.stop !== stop) return;
      last = { kind: fault.name === "AbortError" ? "left" : "error", text: "The server does not answer." };
    }
    if (this.stop !== stop) return;
    this.stopper.disabled = true;
    this.bar.hidden = true;
    this.tell(ends, last, told, time ?? (performance.now() - began) / 1000, isCompared);
  }

  say(kind, title, ...words) { this.said.replaceChildren(notice(kind, title, ...words)); }

  progress({ configurations, outcomes, deadlocks, seconds, waiting }) {
    const most = about.most ?? 100000;
    this.bar.max = Math.log10(most);
    if (configurations) this.bar.value = Math.log10(configurations);
    const far = configurations
      ? `More than ${configurations} configurations: ${outcomes} outcomes and ${deadlocks} deadlocks so far. ` : "";
    this.say("warn", waiting ? "Waiting." : "Searching.",
      waiting ? `${waiting} searches are before this one.` : `${far}${seconds} s.`);
  }

  tell(ends, last, told, seconds, isCompared) {
    const kind = last?.kind ?? "error", took = ` (${seconds < 1 ? "in less than a second" : `in ${Math.round(seconds)} s`})`;
    const deadlocks = ends.filter((it) => it.kind === "deadlock").length, outcomes = ends.length - deadlocks;
    const count = (n, word) => `${n} ${word}${n === 1 ? "" : "s"}`;
    if (kind === "outcomes") this.say(deadlocks ? "bad" : "good",
      `${count(last.outcomes, "outcome")}${deadlocks ? `, ${count(deadlocks, "deadlock")}` : ""}, and no others.`,
      last.endless ? "Some schedules never end." : "Every schedule ends.", took,
      this.fairly ? ` ${{ "every fair run ends": "Every fair run ends.",
        "some fair runs do not end": "Some fair runs do not end." }[this.fairly.kind]
        ?? "Of fair runs it is not known."}` : "");
    else if (kind === "others") this.say("warn", "Not all is known.",
      `More than ${last.limit} ${last.of}: what is below can happen, and there may be others.`, took);
    else if (kind === "as expected") this.say("good", "As wanted.",
      "Every schedule prints just that, and ends without a fault or a deadlock.", took);
    else if (kind === "not as expected") this.say("bad", "Not as wanted:", `${last.text}.`, took);
    else if (kind === "refused") this.say("bad", `Refused: ${last.code}.`, h("pre.told", null, told));
    else if (kind === "stopped") this.say("bad", "Too much.",
      { memory: "It needs more memory", processor: "It takes longer", clock: "It takes longer",
      output: "It has more to say" }[last.by] ?? last.by,
      ` than this server allows. More than ${last.known.configurations} configurations: ${last.known.outcomes} outcomes and `,
      `${last.known.deadlocks} deadlocks were found on the way.`);
    else if (kind === "left") this.say("warn", "Stopped.", "Nothing is said of the rest.");
    else this.say("bad", "Not done.", kind === "busy" ? "Too many are searching: try again in a moment." : last?.text ?? kind);
    const sorted = [...ends.filter((it) => it.kind === "deadlock"), ...ends.filter((it) => it.kind === "outcome")];
    this.list.replaceChildren(...sorted.slice(0, 200).map((it) => this.card(it, isCompared)));
    if (sorted.length > 200) this.list.append(h("li.faint", null, `and ${sorted.length - 200} more`));
  }

  card(end) {
    const { processes, integers, holds, asks, prints, picks, number } = end, isDead = end.kind === "deadlock";
    const amount = (it) => listed(it.amounts.map((one) => `${one.amount} ${one.resource}`));
    const of = (list, process) => list.filter((it) => it.process === process);
    const rows = processes.map(({ process, kind }) => {
      const own = of(integers, process), hold = of(holds, process).map((it) => `${it.amount} ${it.resource}`),
        asked = of(asks, process).map(amount);
      const words = kind === "waits" ? `holds ${listed(hold) || "nothing"}, asks for ${listed(asked) || "nothing"}` : kind;
      return h("li", null, h("b", null, process), ` ${words}`,
        own.length ? [" ", own.map((it) => h("span.integer", null, `${it.integer} = `, h("b", null, it.value)))] : null);
    });
    const way = picks.map((it) => `${it.process}.${it.arm} ${it.count}\n`).join("");
    return h(`li.card.end${isDead ? ".dead" : ""}`, null, h("h2", null, `${isDead ? "Deadlock" : "Outcome"} ${number}`),
      h("ul", null, rows),
      prints?.length ? h("p", null, "prints ", prints.slice(0, 60).map((it) => h("span.integer", null, `${it.value}`))) : null,
      button("Step through it", `end${number}${end.kind}`, "A schedule that leads there, as a run",
        () => showPicks(way, this.lend, `${isDead ? "Deadlock" : "Outcome"} ${number}`)));
  }

  close() {}
  redraw() {}
  keys() { return {}; }
}
