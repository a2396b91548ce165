"""Looks of checks/slow/page.py at where things stand: header, text, names, lanes, the map of two arms, who waits for whom."""
from __future__ import annotations

from pathlib import Path
from typing import Any

from calls import TOP, Tally
from page_made import LONG, PATHS, all_of_all, in_a_ring, write_page

WIDTHS = (360, 701, 740, 800, 860, 900, 1000, 1280, 1920)
# How many lines of the text have to be seen of five processes at 1280 by 720.
LEAST_LINES = 9

# How many lines the title has, and whether something of the header is beside the window.
HEADER = """[Math.round($("title").getBoundingClientRect().height / parseFloat(getComputedStyle($("title")).lineHeight)),
  [...document.querySelectorAll("header *")].some((it) => it.getBoundingClientRect().right > innerWidth + 1)]"""

# By how many pixels the lanes begin and end beside the middle of the slider's thumb, and the canvas is another than it is shown.
LANES = """new Promise((done) => requestAnimationFrame(() => requestAnimationFrame(() => {
  const {lanes, slider, rows} = view, box = lanes.box.getBoundingClientRect(), thumb = slider.getBoundingClientRect();
  const first = box.left + lanes.left, last = first + lanes.unit * rows.length;
  done([first - thumb.left - 8, last - thumb.right + 8, lanes.canvas.width / devicePixelRatio - box.width].map((it) => Math.round(it) || 0));
})))"""

# The words of the labels of the map, and of those that are not within it.
LABELS = """(() => {
  const it = document.querySelector("#map svg").getBoundingClientRect(), words = (one) => one.lastChild.data;
  const labels = [...document.querySelectorAll("#map .label")];
  return [labels.map(words), labels.filter((one) => {
    const box = one.getBoundingClientRect();
    return box.left < it.left - 1 || box.right > it.right + 1 || box.top < it.top - 1 || box.bottom > it.bottom + 1;
  }).map(words)];
})()"""

# The words of the drawing that lie on others or on a box, in up to a hundred configurations.
OVERLAPS = """view.graph.nodes.flatMap((_, n) => {
  if (n % Math.ceil(view.graph.nodes.length / 100)) return [];
  view.rows = view.graph.wayTo(n);
  view.redraw();
  drawWaits(view.program, view.state);
  const boxes = [...document.querySelectorAll("#map .number, #map rect")].map((it) => [it, it.getBBox()]);
  return boxes.flatMap(([one, a], i) => boxes.slice(i + 1).flatMap(([other, b]) =>
    (one.tagName === "text" || other.tagName === "text") && a.x + 1 < b.x + b.width && b.x + 1 < a.x + a.width &&
      a.y + 3 < b.y + b.height && b.y + 3 < a.y + a.height ? [`${n}: ${one.textContent} and ${other.textContent || "a box"}`] : []));
})"""

# The names that lie on what is beside them, or beside the window.
NAMES = """[...document.querySelectorAll("main .chip")].filter((it) => {
  const box = it.getBoundingClientRect(), place = it.closest("th, .arm > span, h3, li, h2, #happened").getBoundingClientRect();
  return box.right > place.right + 1 || box.right > innerWidth;
}).map((it) => `${it.textContent} in ${it.parentElement.tagName}`)"""

# How many lines of the text are wholly seen, and the size of the letters of the drawing.
SEEN = """(() => {
  const place = $("lines").getBoundingClientRect(), drawing = document.querySelector("#map svg");
  return [[...$("lines").children].filter((it) => {
    const box = it.getBoundingClientRect();
    return box.top >= place.top - 1 && box.bottom <= Math.min(place.bottom, innerHeight) + 1;
  }).length, Math.round(11 * drawing.getScreenCTM().a)];
})()"""


def look_at_header(tally: Tally, it: Any, folder: Path) -> None:
    """With a note and without one the title has one line at each width, and nothing is beside the window."""
    for name, states in (("noted.pb", "5"), ("plain.pb", "50000")):
        path, _ = write_page(folder, name, (TOP / "examples/devices.pb").read_bytes(), states=states)
        for width in WIDTHS:
            it.size(width, 720)
            it.open(path)
            tally.expect(it.js(HEADER) == [1, False], name, f"the header at {width}: {it.js(HEADER)}")
    it.size(1280, 720)


def look_at_lanes(tally: Tally, it: Any, path: Path) -> None:
    """The lanes are as wide as their slider when the page is there, and when a scroll bar makes them narrower."""
    for width in WIDTHS:
        it.size(width, 720)
        it.open(path, "step=0")
        tally.expect(it.js(LANES) == [0, 0, 0], path.name, f"the lanes at {width}: {it.js(LANES)}")
    it.js("$('controls').style.paddingRight = '47px'")
    tally.expect(it.js(LANES) == [0, 0, 0], path.name, f"the lanes in less room: {it.js(LANES)}")
    it.size(1280, 720)


def look_at_map(tally: Tally, it: Any, folder: Path) -> None:
    """Its labels are whole, and right on each way."""
    for name, given in (("devices", (TOP / "examples/devices.pb").read_bytes()), ("paths", PATHS), ("long", LONG)):
        path, _ = write_page(folder, name, given)
        it.open(path, "picks=")
        labels, outside = it.js(LABELS)
        tally.expect(len(labels) > 8 and outside == [], path.name, f"labels {labels} leave the map: {outside}")
        is_whole = name == "long" or not any("…" in one.replace("computes … + …", "") for one in labels)
        tally.expect(is_whole, path.name, f"a label of {labels} is cut")
        if name == "paths":
            tally.expect(labels == 2 * ["reads counter", "number 1", "computes … + …", "assigns counter", "ends"], path.name, f"the labels are {labels}")


def look_at_numbers(tally: Tally, it: Any, folder: Path) -> None:
    """In the drawing no number of an arrow lies on another one, nor on a name."""
    customers = (TOP / "examples/customers.pb").read_bytes()
    for name, given in (("customers", customers), ("ring", in_a_ring(5)), ("crossing", all_of_all(3, 3))):
        path, _ = write_page(folder, name, given, states="200000")
        it.open(path, "picks=&lend=cash")
        overlaps = it.js(OVERLAPS)
        tally.expect(overlaps == [], path.name, f"{len(overlaps)} numbers lie on others: {overlaps[:5]}")


def look_at_names(tally: Tally, it: Any, folder: Path) -> None:
    """The longest names lie neither under the bars nor beside the window."""
    path, _ = write_page(folder, "long", LONG)
    for width in WIDTHS:
        it.size(width, 720)
        for where in ("step=1", "picks=", "picks=q.0&lend=cash"):
            it.open(path, where)
            tally.expect(it.js(NAMES) == [], path.name, f"names at {width}, {where}: {it.js(NAMES)}")
            tally.expect(it.js("document.documentElement.scrollWidth <= innerWidth"), path.name, f"scrolls sideways at {width}, {where}")
    it.size(1280, 720)


def look_at_lines(tally: Tally, it: Any, folder: Path) -> None:
    """Of five processes enough of the text is seen, beside a drawing that can be read."""
    path, _ = write_page(folder, "ring", in_a_ring(5))
    for where in ("step=9", "picks=cook0.0"):
        it.open(path, where)
        lines, letters = it.js(SEEN)
        tally.expect(lines >= LEAST_LINES and letters >= 7, path.name, f"{where}: {lines} lines are seen, and letters of {letters} pixels")


def look_at_layout(tally: Tally, it: Any, folder: Path) -> None:
    """Looks at all of this."""
    look_at_header(tally, it, folder)
    look_at_lanes(tally, it, folder / "customers.html")
    look_at_map(tally, it, folder)
    look_at_numbers(tally, it, folder)
    look_at_names(tally, it, folder)
    look_at_lines(tally, it, folder)
