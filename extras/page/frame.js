"use strict";
// What a page of one program and a class have in common: the view that is open, what the reader has set, which key does what.

const DARK = matchMedia("(prefers-color-scheme: dark)");
let views = [], view = null;

function open(which) {
  view?.close();
  view = which;
  [...$("tabs").children].forEach((tab, i) => tab.setAttribute("aria-pressed", views[i] === view));
  view.open();
}

/** Looks as the settings say, and draws anew. */
function applySettings() {
  const root = document.documentElement, isDark = settings.has("dark") || (DARK.matches && !settings.has("light"));
  const are = { dark: isDark, large: settings.has("large"), quiz: isQuiz() };
  for (const [name, is] of Object.entries(are)) {
    root.classList.toggle(name, is);
    $(name).setAttribute("aria-pressed", is);
  }
  view?.redraw();
}

/** Changes a setting. (Dark and light are kept only if they are not as the system has it.) */
function change(name) {
  const isWanted = $(name).getAttribute("aria-pressed") !== "true", word = name === "dark" && !isWanted ? "light" : name;
  for (const one of name === "dark" ? ["dark", "light"] : [name]) settings.delete(one);
  if (name === "dark" ? isWanted !== DARK.matches : isWanted) settings.add(word);
  keepSettings();
  applySettings();
}

/** Takes the settings that are kept. */
function takeSettings(kept) {
  settings.clear();
  for (const name of ["quiz", "large", "dark", "light"]) if (kept.has(name)) settings.add(name);
  applySettings();
}

function keyed(event) {
  const { key, target } = event, isArrow = key.startsWith("Arrow");
  // What the focus is on may have a use of its own for the key.
  const isItsOwn = target.isContentEditable || target.matches("select, summary, textarea, [type=text], [type=number]") ||
    (isArrow && target.type === "radio") || (key === " " && target.matches("button, [type=checkbox]")) ||
    (target.closest("#lines, .picks") && !/^(ArrowLeft|ArrowRight|[^A-Z].*)$/.test(key));
  if (event.ctrlKey || event.metaKey || event.altKey || isItsOwn || document.querySelector("dialog[open]")) return;
  const near = target.closest(".events li")?.[{ ArrowUp: "previousSibling", ArrowDown: "nextSibling" }[key]];
  const action = near ? () => near.firstChild.focus() : key === "?" ? $("about").onclick : view?.keys()[key];
  if (action) event.preventDefault(), action();
}

function startFrame() {
  addEventListener("resize", () => view?.redraw());
  DARK.addEventListener("change", applySettings);
  for (const name of ["quiz", "large", "dark"]) $(name).onclick = () => change(name);
  $("about").onclick = () => {
    $("help").showModal();
    // (the focus is on the button at its lower end)
    $("help").scrollTop = 0;
  };
  addEventListener("keydown", keyed);
}
