"use strict";
// The start of the page of one program: its data, and where one is, in the address.

// The most that `--states` may say.
const MOST_STATES = 4000000;
let remembered = 0, where = "";

/** Keeps in the address what is set and where one is, for a link, and for when the page is loaded anew. */
function remember(hash) {
  where = hash;
  clearTimeout(remembered);
  // (browsers refuse to change it very often, and some refuse it of a file)
  remembered = setTimeout(() => {
    try {
      history.replaceState(null, "", `#${[...settings, hash].join("&")}`);
    } catch {
      // The page is as good without.
    }
  }, 200);
}

const keepSettings = () => remember(where);

/** That these graphs have too many configurations to be in the page, and how to have them all the same. */
function tooManySchedules(documents) {
  const lenders = documents.map((it) => (it.lend === "cash" ? "by the cash alone" : "with the banker"));
  const most = documents[0].more_than, more = Math.min(10 * most, MOST_STATES);
  return [`Schedules are left out: more than ${most} configurations ${listed(lenders)}. `,
    ...most < more ? [h("code", null, `parbegin page --states ${more}`), " allows more."] : []];
}

function openFrom(hash) {
  takeSettings(hash);
  const key = hash.has("picks") ? Schedules : hash.has("step") ? Run : Object, which = views.find((it) => it instanceof key) ?? views[0];
  which.from(hash);
  open(which);
}

function start() {
  const data = JSON.parse($("data").textContent);
  $("title").textContent = data.title;
  const given = [data.banker, data.cash].filter(Boolean), graphs = given.filter((it) => it.nodes);
  if (data.run) views.push(new Run(data.run));
  if (graphs.length) views.push(new Schedules(graphs));
  $("tabs").replaceChildren(...views.map((it) => button(it.title, it.title, "", () => open(it))));
  const tooMany = given.filter((it) => it.more_than);
  if (tooMany.length) $("note").replaceChildren(...tooManySchedules(tooMany));
  startFrame();
  openFrom(new URLSearchParams(location.hash.slice(1)));
  addEventListener("hashchange", () => openFrom(new URLSearchParams(location.hash.slice(1))));
}

start();
