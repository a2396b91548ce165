"""What checks/slow/page.py asks of a page, as expressions of JavaScript over the names of its scripts."""

# What the page has of a position, in the form of the debugger's lines.
SAYS = """(at) => {
  const it = views[0], {program} = it, [s] = it.state(at), out = [];
  for (const p of program.processes) {
    p.integers.forEach((x, i) => out.push(`${x} ${s[program.integerAt(p, i)]}`));
    const isFaulted = s[p.first] === FAULTED;
    if (isFaulted) out.push("faulted");
    for (const g of program.armsOf(p)) {
      const a = g - p.first;
      if (!isFaulted) out.push(s[g] === IDLE ? `${a} idle` : s[g] === ENDED ? `${a} ended` : `${a} at ${s[g]}`);
    }
    for (const g of program.armsOf(p)) {
      const line = program.lineOf(s, g), why = s[program.reasons + g], words = s[program.words + g];
      out.push(`${program.arms[g].name}${s[g] >= 0 && line ? ` line ${line}` : ""}: ${words}`);
      out.push(line ? `line ${line}` : "line none");
      const cash = () => `cash ${program.cash(s, program.resources[why[1]])} ${program.resources[why[1]].name}`;
      const rest = () => `rest ${why.slice(1).map((q) => program.processes[q].name).join(" ")}`;
      out.push(why === 0 ? "not asking" : why === 1 ? "order" : why[0] === "cash" ? cash() : rest());
    }
  }
  for (const p of program.processes) for (const r of program.resources)
    out.push(`${p.name} holds ${s[program.loanAt(p.p, r.r)]} ${r.name} claim ${p.claims[r.r]}`);
  for (const r of program.resources) out.push(`cash ${program.cash(s, r)} ${r.name}`);
  return out;
}"""

# The arms of the position that is shown of which the page says two things: one that cannot go on has a mark, and the
# drawing has one that asks for something, and no other.
UNLIKE = """(() => {
  const arms = [...document.querySelectorAll("#processes .arm")], map = document.querySelector("#map svg");
  const has = (it, kinds) => it.querySelector(kinds) !== null;
  const said = map && new Set([...map.getAttribute("aria-label").matchAll(/(\\S+) asks for/g)].map((it) => it[1]));
  return arms.filter((it) => has(it, ".chip.waits") !== has(it, ".why.no, .why.idle") ||
    (said && said.has(it.querySelector(".chip").textContent) !== has(it, ".why.yes, .why.no, .why.risk"))).map((it) => it.textContent);
})()"""

# The outcomes and the deadlocks of the graph that is shown, in the form of the lines of `outcomes`.
ENDS = """(() => {
  const out = {outcome: [], deadlock: []}, {program, graph} = view;
  graph.ends.forEach((n, i) => {
    const s = graph.states[n], isDead = graph.isDead(i), lines = [];
    for (const p of program.processes) {
      const isFaulted = s[p.first] === FAULTED;
      lines.push(`${p.name} ${s[p.first] === ENDED ? "ended" : isFaulted ? "faulted" : "waits"}`);
      p.integers.forEach((x, k) => lines.push(`${p.name}.${x} ${s[program.integerAt(p, k)]}`));
      if (!isDead) continue;
      for (const r of program.resources) {
        const k = s[program.loanAt(p.p, r.r)];
        if (k) lines.push(`${p.name} holds ${k} ${r.name}`);
      }
      for (const g of program.armsOf(p)) {
        const asks = program.asks(s, g).map(([k, r]) => `${k} ${program.resources[r].name}`);
        if (asks.length) lines.push(`${program.arms[g].name} asks ${asks.join(" ")}`);
      }
    }
    out[isDead ? "deadlock" : "outcome"].push(lines);
  });
  return out;
})()"""

# Draws each configuration, or some hundreds of them: what is greyed has a reason, and what is not has none.
ALL_DRAWN = """(() => {
  const {graph} = view, step = Math.ceil(graph.nodes.length / 200);
  for (let n = 0; n < graph.nodes.length; n += step) {
    view.rows = graph.wayTo(n);
    view.redraw();
    const text = document.body.innerText;
    if (view.node !== n || /undefined|NaN|null|\\[object/.test(text)) return `${n}: ${text}`;
    for (const it of document.querySelectorAll("button.arm[aria-disabled]"))
      if (!it.querySelector(".why.no, .why.idle")) return `${n}: no reason`;
    for (const it of document.querySelectorAll("button.arm:not([aria-disabled])"))
      if (it.querySelector(".why.no, .why.idle")) return `${n}: a reason not to`;
  }
  return "";
})()"""

# Texts whose contrast with what is behind them is less than 4.5.
CONTRAST = """(() => {
  const parse = (c) => {
    const it = c.match(/[\\d.]+/g).map(Number), scale = c.startsWith("color(srgb") ? 255 : 1;
    return [it[0] * scale, it[1] * scale, it[2] * scale, it[3] ?? 1];
  };
  const over = (a, b) => [0, 1, 2].map((i) => a[i] * a[3] + b[i] * (1 - a[3])).concat(1);
  const part = (v) => (v /= 255) <= 0.04045 ? v / 12.92 : ((v + 0.055) / 1.055) ** 2.4;
  const light = ([r, g, b]) => 0.2126 * part(r) + 0.7152 * part(g) + 0.0722 * part(b);
  const behind = (it) => {
    const all = [];
    for (; it; it = it.parentElement) all.push(parse(getComputedStyle(it).backgroundColor));
    return all.reverse().reduce((b, a) => over(a, b), [255, 255, 255, 1]);
  };
  const found = [], walk = document.createTreeWalker(document.body, NodeFilter.SHOW_TEXT);
  while (walk.nextNode()) {
    const it = walk.currentNode.parentElement;
    if (!walk.currentNode.data.trim() || !it.checkVisibility() || it.closest("script, svg, dialog")) continue;
    const back = behind(it), ink = over(parse(getComputedStyle(it).color), back);
    const [a, b] = [light(ink), light(back)].sort((x, y) => y - x);
    if ((a + 0.05) / (b + 0.05) < 4.5) found.push(`${it.tagName}.${it.className}: ${walk.currentNode.data.slice(0, 30)}`);
  }
  return [...new Set(found)];
})()"""

# The address is kept with some delay.
LATER = "new Promise((done) => setTimeout(() => done(location.hash), 300))"

# The drawing at each deadlock: what it says, how many edges it has, and whether all of it is within its place.
DRAWN = """view.graph.ends.flatMap((n, i) => {
  if (!view.graph.isDead(i)) return [];
  view.rows = view.graph.wayTo(n);
  view.redraw();
  drawWaits(view.program, view.state);
  const it = document.querySelector("#map svg"), {x, y, width, height} = it.viewBox.baseVal;
  const isWithin = [...it.children].every((one) => {
    const box = one.getBBox();
    return box.x >= x - 1 && box.y >= y - 1 && box.x + box.width <= x + width + 1 && box.y + box.height <= y + height + 1;
  });
  return [[it.getAttribute("aria-label").split("; "), it.querySelectorAll(".edge").length, isWithin]];
})"""

# Numbers all that can be clicked or scrolled to by itself, and returns its words. (Of radio buttons the tab key comes to one,
# and of a list of events to one as well.)
STOPS = """[...document.querySelectorAll("button, input, select, [tabindex='0']")].filter((it) =>
  it.checkVisibility() && it.tabIndex >= 0 && !it.closest("dialog") && !(it.type === "radio" && !it.checked)).map((it, i) => {
  it.dataset.stop = i;
  return it.getAttribute("aria-label") ?? it.textContent;
})"""
