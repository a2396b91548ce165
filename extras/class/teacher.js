"use strict";
// Who has solved what. The key is behind the `#` of the address, and goes to the server in a header alone.

const key = new URLSearchParams(location.hash.slice(1)).get("key") ?? sessionStorage.getItem("key") ?? "";
if (key) sessionStorage.setItem("key", key), history.replaceState(null, "", location.pathname);
document.documentElement.classList.toggle("dark", matchMedia("(prefers-color-scheme: dark)").matches);
const get = (path, method) => fetch(`/api/teacher${path}`, { method, headers: { "X-Key": key } });

function cellOf(it) {
  if (!it) return h("td", null, "");
  const tries = it.tries > 1 ? ` ${it.tries}` : "";
  if (it.solved) return h("td.yes", { title: `solved ${it.solved}` }, `✓${tries}`);
  return h("td.no", { title: it.said }, `✕${tries}`);
}

async function draw() {
  const answer = await get("").catch(() => null), said = await answer?.json().catch(() => null);
  if (!answer?.ok) return $("said").textContent = said?.error ?? "The server does not answer.";
  const { exercises, table } = said;
  $("url").textContent = said.url;
  $("said").textContent = said.kept ? "Kept in a file" : "Forgotten when the server ends";
  const share = (name) => table.filter((it) => it.tried[name]?.solved).length;
  $("table").replaceChildren(table.length ? h("table.results", null,
    h("thead", null, h("tr", null, h("th", { scope: "col" }, "student"),
      exercises.map((it) => h("th", { scope: "col" }, it.title)), h("th", { scope: "col" }, "solved"))),
    h("tbody", null, table.map((it) => h("tr", null, h("th", { scope: "row" }, it.name),
      exercises.map(({ name }) => cellOf(it.tried[name])),
      h("td", null, `${exercises.filter(({ name }) => it.tried[name]?.solved).length}`)))),
    h("tfoot", null, h("tr", null, h("th", { scope: "row" }, `${table.length} student${table.length === 1 ? "" : "s"}`),
      exercises.map(({ name }) => h("td", null, `${share(name)}`)), h("td", null, ""))))
    : h("p.faint", null, "Nobody has handed in anything yet."));
  $("load").textContent = `waiting: ${said.waiting.join(" calls, ")} searches\n${Object.entries(said.times).map(([path,
    [p50, p99, n]]) => `${path.padEnd(16)} p50 ${p50} ms, p99 ${p99} ms of the last ${n}`).join("\n")}`;
  if (said.qr && $("qr").hidden) {
    const picture = await get("/qr");
    if (picture.ok) $("qr").src = `data:image/svg+xml;base64,${btoa(await picture.text())}`, $("qr").hidden = false;
  }
}

$("csv").onclick = async () => {
  const link = h("a", { href: URL.createObjectURL(await (await get("/csv")).blob()), download: "class.csv" });
  link.click();
  setTimeout(() => URL.revokeObjectURL(link.href), 1000);
};
$("clear").onclick = async () => { if (confirm("Forget all results?")) await get("/clear", "POST"), draw(); };
draw();
setInterval(draw, 5000);
