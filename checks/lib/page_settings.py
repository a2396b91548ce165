"""Looks of checks/slow/page.py at what a reader sets, a quiz, dark and large, at what Help explains, and how a run ends."""
from __future__ import annotations

from pathlib import Path
from typing import Any

from calls import TOP, Tally
from page_asks import CONTRAST, LATER
from page_made import BYSTANDER, in_a_ring, write_page
from script.manual import TEXTBOOK

# The events that are seen, those up to the position, and whether what is after it is covered in the lanes.
HIDDEN = """(() => {
  const {veil, cursor, box} = view.lanes, [a, b, c] = [veil, cursor, box].map((it) => it.getBoundingClientRect());
  return [[...document.querySelectorAll(".events li")].filter((it) => it.checkVisibility()).length,
    view.events.filter((it) => it.at <= view.at).length, veil.checkVisibility() && Math.abs(a.left - b.left) <= 2 && Math.abs(a.right - c.right) <= 1];
})()"""

# Whether something is coloured as good or bad of what is told of a request, and which arms are greyed.
TOLD = "[document.querySelectorAll('main :is(.why.no, .why.yes, .why.risk, .chip.waits, .edge.no, .edge.yes)').length, " \
       "document.querySelectorAll('button.arm[aria-disabled]').length]"

# Whether what is told of the end has more green than red and blue after it, or in its letters.
GREEN = """[document.querySelector("#ending > div"), document.querySelector(".goal.over")].filter(Boolean).some((it) =>
  ["color", "backgroundColor", "borderTopColor"].some((part) => {
    const pen = Object.assign(document.createElement("canvas"), {width: 1, height: 1}).getContext("2d");
    pen.fillStyle = getComputedStyle(it)[part];
    pen.fillRect(0, 0, 1, 1);
    const [r, g, b] = pen.getImageData(0, 0, 1, 1).data;
    return g > r + 5 && g > b + 5;
  }))"""


def look_at_quiz_of_run(tally: Tally, it: Any, path: Path) -> None:
    """Later events are hidden in a list and in the lanes, and nothing is told of requests, until it is asked for."""
    it.open(path, "quiz&step=0")
    for at in range(it.js("view.rows.length") + 1):
        it.js(f"view.go({at})")
        seen, past, is_covered = it.js(HIDDEN)
        tally.expect(seen == past and is_covered, path.name, f"quiz, {at}: {seen} of {past} events are seen, or the lanes")
        tally.expect(it.js(TOLD)[0] == 0, path.name, f"quiz, {at}: it is told whether a request is granted")
    it.js("view.go(1)")
    it.click("#list [data-key=show]")
    tally.expect(it.js(HIDDEN)[0] == it.js("view.events.length") and not it.js(HIDDEN)[2], path.name, "what is asked for is not shown")
    tally.expect(it.js(LATER) == "#step=1", path.name, "the quiz stays in the address")
    it.js("$('quiz').focus()")
    it.key("Enter")
    tally.expect(it.js(LATER) == "#quiz&step=1" and it.js(HIDDEN)[0] < it.js("view.events.length"), path.name, "the button begins no quiz")


def look_at_quiz_of_schedules(tally: Tally, it: Any, folder: Path) -> None:
    """Ends that were not come to are hidden, and the map, what a request will bring, and that it is too late."""
    path = folder / "devices.html"
    it.open(path, "quiz&picks=")
    said = it.js("$('past').textContent + $('ending').textContent")
    is_told = it.js("document.querySelectorAll('.goal, #map .label').length") or " of " in said or "Every" in said
    tally.expect(not is_told, path.name, f"a quiz tells of ends: {said}")
    it.key("1")
    tally.expect(it.js(TOLD) == [0, 0], path.name, "a quiz tells whether a request is granted")
    it.key("2")
    said = it.js("$('happened').textContent")
    tally.expect("waits: it is there, but" in said and it.js("view.rows.length") == 1, path.name, f"a quiz does not answer a pick: {said}")
    it.click("input[name=lend]", 1)
    it.key("2")
    tally.expect(it.js("$('ending').textContent").startswith("Deadlock."), path.name, "a quiz does not tell a deadlock")
    tally.expect(it.js("document.querySelectorAll('.goal').length") == 1, path.name, "a quiz has other ends than the one found")
    it.click("#goals [data-key=show]")
    tally.expect(it.js("document.querySelectorAll('.goal').length") == 2, path.name, "the other end is not shown when it is asked for")
    path, _ = write_page(folder, "bystander", BYSTANDER)
    it.open(path, "quiz&picks=a.0,b.0&lend=cash")
    tally.expect(it.js("$('ending').textContent") == "", path.name, "a quiz tells that it is too late")


def look_at_buttons(tally: Tally, it: Any, path: Path, sizes: tuple[tuple[int, int], ...]) -> None:
    """Dark and large by their buttons, by the keyboard and in the address."""
    it.open(path, "step=5")
    ground, size = "getComputedStyle(document.body).backgroundColor", "parseFloat(getComputedStyle(document.documentElement).fontSize)"
    looked = [it.js(ground)]
    for address in (1, 0):
        it.click("#dark")
        looked.append(it.js(ground))
        tally.expect(it.js(CONTRAST) == [], path.name, f"contrast by the button: {it.js(CONTRAST)}")
        tally.expect((it.js(LATER) != "#step=5") == bool(address), path.name, f"the address after the button: {it.js(LATER)}")
    tally.expect(looked[0] == looked[2] != looked[1], path.name, f"the button changes the ground to {looked}")
    small = it.js(size)
    it.js("$('large').focus()")
    it.key("Enter")
    tally.expect(it.js(size) > 1.2 * small, path.name, "the letters are not large")
    tally.expect(it.js(LATER) == "#large&step=5", path.name, "that they are large is not in the address")
    for where in ("large&step=5", "large&picks=", "large&dark&picks=a.0,b.0&lend=cash"):
        for width, height in sizes:
            it.size(width, height)
            it.open(path, where)
            tally.expect(it.js("document.documentElement.scrollWidth <= innerWidth"), path.name, f"scrolls sideways at {width}, {where}")
        tally.expect(it.js(CONTRAST) == [], path.name, f"contrast, {where}: {it.js(CONTRAST)}")
    it.size(1280, 720)


def look_at_help(tally: Tally, it: Any, path: Path) -> None:
    """Help explains each sign of the lanes."""
    it.open(path)
    it.key("?", shift=True)
    tally.expect(it.js("$('help').open && $('help').scrollTop === 0"), path.name, "the key does not open Help at its beginning")
    unsaid = it.js("""Object.values(SIGNS).filter((sign) => ![...document.querySelectorAll("#help .sign")].some((it) => it.textContent === sign))""")
    tally.expect(unsaid == [], path.name, f"Help does not explain {unsaid}")
    books = set(it.js("[...document.querySelectorAll('#help #books b')].map((word) => word.textContent)"))
    tally.expect(books and books <= set(TEXTBOOK), path.name, f"Help says other words of textbooks: {books}")
    kinds = it.js("['pick', 'live', 'join', 'asks', 'now'].filter((kind) => !document.querySelector(`#help .sign.${kind}`)?.checkVisibility())")
    tally.expect(kinds == [], path.name, f"Help does not show {kinds}")
    it.key("Escape")


def look_at_endings(tally: Tally, it: Any, folder: Path) -> None:
    """What was wanted nobody has said: a lost update ends with its values, and in no colour of what is right."""
    path, _ = write_page(folder, "lost_update", (TOP / "examples/lost.run").read_bytes())
    it.open(path, "step=99999")
    said = it.js("$('ending').textContent")
    tally.expect("x\u00a0=\u00a01" in said and "one of 2 ways to end" in said, path.name, f"a lost update ends with {said}")
    tally.expect(it.js(GREEN) is False, path.name, "a lost update ends in green")
    it.open(path, "picks=")
    for i in range(2):
        it.click("#goals .goal button", i)
        tally.expect(it.js("$('ending').textContent").startswith("Outcome") and it.js(GREEN) is False, path.name, f"outcome {i + 1} is green")


def look_at_limit(tally: Tally, it: Any, folder: Path) -> None:
    """A text with too many schedules has its run alone, and says so, and how to have more; others have all."""
    path, _ = write_page(folder, "limit", in_a_ring(3), states="100")
    it.open(path)
    tally.expect(it.js("views.length") == 1, path.name, "there is a second view")
    said = it.js("$('note').textContent")
    tally.expect("more than 100 configurations" in said and "page --states 1000" in said, path.name, f"of the limit is told {said}")
    path, _ = write_page(folder, "many", in_a_ring(5))
    it.open(path, "picks=")
    tally.expect(it.js("views.length") == 2 and it.js("view.graph.nodes.length") > 10_000, path.name, "there are not all schedules")


def look_at_settings(tally: Tally, it: Any, folder: Path, sizes: tuple[tuple[int, int], ...]) -> None:
    """Looks at all of this."""
    look_at_quiz_of_run(tally, it, folder / "devices.html")
    look_at_quiz_of_schedules(tally, it, folder)
    look_at_buttons(tally, it, folder / "devices.html", sizes)
    look_at_help(tally, it, folder / "devices.html")
    look_at_endings(tally, it, folder)
    look_at_limit(tally, it, folder)
