"use strict";
// Exercises: what is asked, and whether the text does it under every schedule.

class Tasks {
  constructor() {
    this.title = "Exercises";
    this.id = "tasks";
    this.all = [];
    this.solved = new Set(JSON.parse(sessionStorage.getItem("solved") ?? "[]"));
    this.chosen = null;
  }

  open() {
    show(this.id);
    $("controls").replaceChildren();
    const items = this.all.map((it) => h("li.card", null,
      h("button.exercise", { type: "button", "data-key": it.name, onclick: () => this.choose(it) },
        h("span.tick", { role: "img", "aria-label": this.solved.has(it.name) ? "solved" : "not solved" },
          this.solved.has(it.name) ? "☑" : "☐"),
        h("b", null, it.title))));
    $("tasks").replaceChildren(
      h("section.intro", null, h("p", null,
        `${this.solved.size} of ${this.all.length} solved. An answer is right if it is right under `,
        h("b", null, "every schedule"),
        "; if it is not, you are shown a schedule under which it is wrong."), about.names ? this.nameField() : null),
      this.all.length ? h("ol.exercises", null, items) : h("p.faint", null, "There are no exercises."));
  }

  nameField() {
    const field = h("input", { type: "text", maxlength: 40, autocomplete: "name", value: sessionStorage.getItem("name") ?? "",
      onchange: () => sessionStorage.setItem("name", field.value.trim()) });
    return h("label.name", null, "Your name, for the teacher's list (you may leave it out) ", field);
  }

  /** Begins an exercise: its text stands in the editor, unless one has begun it before. */
  choose(it, text) {
    if (this.chosen) sessionStorage.setItem(`text ${this.chosen.name}`, writing.text);
    this.chosen = it;
    sessionStorage.setItem("task", it.name);
    writing.show(text ?? sessionStorage.getItem(`text ${it.name}`) ?? it.start);
    this.draw();
    open(writing);
  }

  draw() {
    const it = this.chosen, box = $("task");
    box.hidden = !it;
    if (!it) return;
    // (the server has escaped the statement, and made of it a few elements without attributes)
    const statement = h("div.statement");
    statement.innerHTML = it.statement;
    this.said = h("div.said", { role: "status" });
    this.hand = button("Judge it", "judge", "Under every schedule", () => this.judge(), { class: "main" });
    box.replaceChildren(h("h2.task-title", null, it.title,
      this.solved.has(it.name) ? h("span.tick.done", { role: "img", "aria-label": "solved" }, " ☑") : null), statement,
      h("div.buttons", null, this.hand,
        button("Begin anew", "anew", "With the text that was given", () => writing.show(it.start)),
        button("Next", "following", "The next exercise",
          () => this.choose(this.all[(this.all.indexOf(it) + 1) % this.all.length])),
        button("Leave", "leave", "Write freely", () => this.leave())), this.said);
  }

  leave() {
    sessionStorage.setItem(`text ${this.chosen.name}`, writing.text);
    sessionStorage.removeItem("task");
    this.chosen = null;
    this.draw();
    writing.editor.focus();
  }

  async judge() {
    const it = this.chosen, text = writing.text, name = about.names ? sessionStorage.getItem("name") ?? "" : "";
    this.hand.setAttribute("aria-disabled", "true");
    this.said.replaceChildren(notice("warn", "Going through all schedules ..", ""));
    const said = await ask("grade", { exercise: it.name }, text, { headers: { "X-Name": encodeURIComponent(name) } });
    this.hand.removeAttribute("aria-disabled");
    if (this.chosen !== it) return;
    if (said.error) return this.said.replaceChildren(notice("warn", "Not judged.", said.error));
    if (said.right) {
      this.solved.add(it.name);
      sessionStorage.setItem("solved", JSON.stringify([...this.solved]));
    }
    const more = [...said.more.map((one) => h("p", null, one)), said.hint ? h("p.hint", null, said.hint) : null];
    const shower = said.picks ? button("Step through such a schedule", "such", "",
      () => showPicks(said.picks, said.lend, `${said.said} ${said.kind === "endless" ? "" : said.more.at(-1) ?? ""}`),
      { class: "main" }) : null;
    this.said.replaceChildren(h(`div.${said.right ? "good" : "bad"}`, null,
      h("strong", null, said.right ? "☑ " : "✕ ", said.said), more, shower));
    this.said.scrollIntoView({ block: "nearest" });
  }

  close() {}
  redraw() {}
  keys() { return {}; }
}
