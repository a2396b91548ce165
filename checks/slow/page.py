#!/usr/bin/env python3
"""Makes pages of examples, and compares what browsers show of them with what the program says.

    checks/slow/page.py [PROGRAM]     PROGRAM is the one that ./parbegin has built if none is given

It is run by hand, and needs Debian's package `chromium`; with `firefox-esr` the same is looked at there. At each
position of a run the places, the integers, what each arm does next, the lines, the reasons, the loans and the cash that
the page has must be those that `debug` says, and what it says of a pick what `debug` says before it; the outcomes and the deadlocks to which one can walk must be those that `outcomes` says, by the
banker and by the cash alone, and `replay` must make the picks that lead there. A run by the cash alone must tell its
deadlock, and the drawing of who holds and asks for what must be as `outcomes` says it. It walks by clicks: an arm that
may not go on says why, and nothing changes. Further it looks at keys, the address, contrast, sizes from a telephone to
a wide screen, a program without a text, a text that tries to be markup, and that nothing is loaded and no message
comes; at where things stand (page_layout.py); and at quiz, dark and large, Help, and how a run ends (page_settings.py).
checks/slow/page_bugs.py shows that it finds faults. Its status is 0 if all is as wanted, and 1 if not.
"""
from __future__ import annotations

import os
import random
import re
import shutil
import sys
import tempfile
from pathlib import Path
from typing import Any

sys.path.insert(0, str(Path(__file__).resolve().parents[1] / "lib"))

from browser import Browser  # noqa: E402
from calls import TOP, Tally, call  # noqa: E402
from firefox import Firefox  # noqa: E402
from page_asks import ALL_DRAWN, CONTRAST, DRAWN, ENDS, LATER, SAYS, STOPS, UNLIKE  # noqa: E402
from page_layout import look_at_layout  # noqa: E402
from page_made import BYSTANDER, EXAMPLES, HOSTILE, make_page, write_page  # noqa: E402
from page_settings import look_at_settings  # noqa: E402

# The most bytes of a page without its data.
MOST_PAGE = 70_000
SIZES = ((360, 700), (800, 600), (1280, 720), (1920, 1080), (3840, 2160))


def debugger_says(text: str, picks: str, at: int, names: list, lend: str) -> list[str]:
    """Returns what `debug` says of a position. (Of a request that may be granted a page has no order, and no words of an arm
    that is not live.)"""
    commands = [f"to {at}"]
    for name, arms in names:
        commands += [f"vars {name}", f"threads {name}"]
        for arm in range(arms):
            commands += [f"does {name}.{arm}", f"line {name}.{arm}", f"why {name}.{arm}"]
    given = f"{text}\n%%\n{picks}%%\n" + "\n".join([*commands, "loans"]) + "\n"
    _, said = call(["debug", "--lend", lend], given.encode())
    lines = [re.sub(r": (idle|ended|faulted)$", ": ", line) for line in said.decode().splitlines()[1:]]
    return [re.sub(r"^(order .*|granted)$", "order", line) for line in lines]


def pick_says(text: str, picks: str, at: int, arm: str, lend: str) -> str:
    """Returns what `debug` says that an arm does at a position, as a page says it of the pick that is made there."""
    _, said = call(["debug", "--lend", lend], f"{text}\n%%\n{picks}%%\nto {at}\ndoes {arm}\n".encode())
    return said.decode().splitlines()[1].partition(": ")[2].replace("asks for", "is lent")


def look_at_positions(tally: Tally, it: Any, path: Path, text: str) -> None:
    """Compares up to 25 positions with what `debug` says of them."""
    it.open(path)
    lend = it.js("views[0].program.data.lend")
    names = it.js("views[0].program.processes.map((it) => [it.name, it.arms.length])")
    picks, rows = it.js("pickLines(views[0].program, views[0].rows)"), it.js("views[0].rows.length")
    for at in sorted({*range(0, rows, max(1, rows // 24)), rows}):
        same = it.js(f"({SAYS})({at})") == debugger_says(text, picks, at, names, lend)
        tally.expect(same, path.name, f"position {at} is not what `debug` says")
        if at:
            arm, said = it.js(f"(view.go({at}), [...$('happened').childNodes].slice(0, 2).map((it) => it.textContent))")
            tally.expect(said == f" {pick_says(text, picks, at - 1, arm, lend)}", path.name, f"of the pick before {at} is said {said}")
        unlike = it.js(f"(view.go({at}), {UNLIKE})")
        tally.expect(unlike == [], path.name, f"position {at} says two things of {unlike}")
    tally.expect(it.faults() == [], path.name, f"{it.faults()}")


def look_at_keys(tally: Tally, it: Any, path: Path) -> None:
    """Goes along a run by keys, clicks and the address."""
    it.open(path, "step=0")
    rows, events = it.js("views[0].rows.length"), it.js("views[0].events.map((it) => it.at)")

    def stands(what: str, at: int) -> None:
        tally.expect(it.js("view.at") == at, path.name, f"{what}: at {it.js('view.at')}, not {at}")

    for key, at in (("ArrowRight", 1), ("ArrowRight", 2), ("ArrowLeft", 1), ("End", rows), ("Home", 0), ("ArrowLeft", 0), ("PageDown", events[0])):
        it.key(key)
        stands(key, at)
    it.click(".events button", 1)
    stands("a click on an event", events[1])
    tally.expect(it.js(LATER) == f"#step={events[1]}", path.name, "the address has another position")
    it.js("view.slider.value = 3; view.slider.oninput()")
    stands("the slider", 3)
    it.open(path, "step=4")
    stands("the address", 4)
    # (a pick that takes a value off the operands, or ends an arm, leaves nothing to be marked)
    marks = it.js("[1, 2, 3, 4, 5].map((at) => (view.go(at), document.querySelectorAll('main .changed').length))")
    tally.expect(sum(marks) > 0, path.name, "nothing is marked as changed")
    it.open(path, "step=99999999")
    stands("a wild address", rows)
    tally.expect(it.faults() == [], path.name, f"{it.faults()}")


def ends_of(lines: list[str]) -> dict[str, set[tuple[str, ...]]]:
    """Returns the outcomes and the deadlocks that `outcomes` lists, each as its lines."""
    found, kind, block = {"outcome": set(), "deadlock": set()}, "", []
    for line in lines:
        if re.fullmatch(r"(outcome|deadlock) \d+", line):
            kind, block = line.split(" ")[0], []
        elif line == "reached by":
            found[kind].add(tuple(block))
            kind = ""
        elif kind:
            block.append(line)
    return found


def look_at_ends(tally: Tally, it: Any, path: Path, text: str, lend: str) -> None:
    """Compares the ends of all schedules with those that `outcomes` says, and replays the ways to them."""
    it.open(path, f"picks=&lend={lend}")
    if it.js("view.graph?.program.data.lend") != lend:
        return
    _, said = call(["outcomes", "--lend", lend], f"{text}\n".encode())
    lines, shown = said.decode().splitlines(), it.js(ENDS)
    for kind, wanted in ends_of(lines).items():
        tally.expect({tuple(block) for block in shown[kind]} == wanted, path.name, f"{kind}s, {lend}: not those of `outcomes`")
        tally.expect(len(shown[kind]) == len(wanted), path.name, f"{kind}s, {lend}: one comes twice")
    is_endless = "some runs do not end" in lines[-1]
    tally.expect(it.js("view.program.data.endless") == is_endless, path.name, f"{lend}: whether all runs end")
    last = {False: "done", True: "deadlock"}
    ways = "view.graph.ends.map((n, i) => [view.graph.isDead(i), pickLines(view.program, view.graph.wayTo(n))])"
    for is_dead, picks in it.js(ways)[:20]:
        _, replayed = call(["replay", "--lend", lend], f"{text}\n%%\n{picks}".encode())
        tally.expect(replayed.decode().splitlines()[-1] == last[is_dead], path.name, f"{lend}: the way to an end is not replayed")
    tally.expect(it.js(ALL_DRAWN) == "", path.name, f"{lend}: a configuration is not drawn: {it.js(ALL_DRAWN)}")
    tally.expect(it.faults() == [], path.name, f"{it.faults()}")


def look_at_walk(tally: Tally, it: Any, path: Path, lend: str) -> None:
    """Walks by clicks on arms to an end, and back by a key."""
    it.open(path, f"picks=&lend={lend}")
    if it.js("view.graph?.program.data.lend") != lend:
        return
    draw, nodes = random.Random(1), [0]
    enabled = "[...document.querySelectorAll('button.arm')].map((it) => it.getAttribute('aria-disabled') !== 'true')"
    while len(nodes) < 200 and any(it.js(enabled)):
        can = it.js(enabled)
        if not all(can):
            it.click("button.arm", draw.choice([i for i, one in enumerate(can) if not one]))
            tally.expect(it.js("view.node") == nodes[-1], path.name, "a greyed pick changes something")
            said = it.js("$('happened').textContent")
            is_told = re.search("cannot go on: (waits|the banker)", said) is not None
            tally.expect(is_told, path.name, f"a greyed pick is not explained: {said}")
        it.click("button.arm", draw.choice([i for i, one in enumerate(can) if one]))
        nodes.append(it.js("view.node"))
    tally.expect(re.match(r"Outcome|Deadlock", it.js("$('ending').textContent")) is not None, path.name, f"{lend}: the end is not told")
    tally.expect(it.js("document.querySelectorAll('.tick[aria-label=found]').length") == 1, path.name, f"{lend}: the end is not ticked")
    link = it.js(LATER)[1:]
    it.js("document.activeElement.blur()")
    for node in reversed(nodes[:-1]):
        it.key("ArrowLeft")
        tally.expect(it.js("view.node") == node, path.name, f"{lend}: undo comes to another configuration")
    it.key("End")
    tally.expect(it.js("view.node") == nodes[-1], path.name, f"{lend}: redo comes to another configuration")
    it.open(path, link)
    tally.expect(it.js("view.node") == nodes[-1], path.name, f"{lend}: the address leads to another configuration")
    tally.expect(it.faults() == [], path.name, f"{it.faults()}")


def look_at_deadlock(tally: Tally, it: Any, path: Path) -> None:
    """In devices.pb the banker refuses the second pick; the cash grants it, and then nothing goes on."""
    it.open(path, "picks=")

    def shows(what: str, place: str, words: str) -> None:
        text = it.js(f"$('{place}').textContent")
        tally.expect(words in text, path.name, f"{what}: {text}")

    it.key("1")
    it.key("2")
    shows("the banker's reason", "happened", "waits: it is there, but if it were granted none of these could be sure to finish: a b")
    tally.expect(it.js("view.rows.length") == 1, path.name, "the refused pick was made")
    it.click("input[name=lend]", 1)
    tally.expect(it.js("view.rows.length") == 1, path.name, "the pick is not kept without the banker")
    shows("what the banker would say", "processes", "the banker would keep it back: it is there, but")
    it.key("2")
    shows("the deadlock", "ending", "Deadlock. No arm can go on, now or ever:a holds 1 tape and asks for 1 diskb holds 1 disk and asks for 1 tape")
    shows("the ticks", "goals", "1 of 2 found")
    tally.expect(it.js("document.querySelectorAll('button.arm:not([aria-disabled])').length") == 0, path.name, "an arm goes on in a deadlock")
    it.click("input[name=lend]", 0)
    tally.expect(it.js("view.rows.length") == 1, path.name, "the banker keeps more than the first pick")
    it.click("[data-key=file]")
    tally.expect(it.js("document.querySelector('.picks').textContent").endswith("\n%%\na.0 1\n"), path.name, "the file has other picks")
    it.key("Escape")
    tally.expect(it.faults() == [], path.name, f"{it.faults()}")


def look_at_too_late(tally: Tally, it: Any, folder: Path) -> None:
    """A bystander can go on while two others are in a deadlock; by the cash alone that is told before its end."""
    path, _ = write_page(folder, "bystander", BYSTANDER)
    it.open(path, "picks=a.0&lend=cash")
    tally.expect(it.js("$('ending').textContent") == "", path.name, "something is told of a configuration to which the banker comes")
    it.open(path, "picks=a.0,b.0&lend=cash")
    tally.expect(it.js("$('ending').textContent").startswith("Too late."), path.name, "that a deadlock is certain is not told")
    tally.expect(it.js("document.querySelectorAll('button.arm:not([aria-disabled])').length") == 1, path.name, "the bystander is not alone")
    path, _ = write_page(folder, "cautious", (TOP / "examples/customers.pb").read_bytes())
    it.open(path, "picks=&lend=cash")
    said = it.js("""(() => {
      const it = view.graph, n = it.nodes.findIndex((_, n) => it.isOnlyByCash(n) && !it.isLost(n) && !it.ends.includes(n));
      view.rows = it.wayTo(n);
      view.redraw();
      return $('ending').textContent;
    })()""")
    tally.expect(said.startswith("By the cash alone."), path.name, f"that the banker does not come here is not told: {said}")


def look_at_looks(tally: Tally, it: Any, path: Path) -> None:
    """Looks at contrast in both schemes, and for what sticks out at the right."""
    for where in ("step=5", "picks=", "picks=a.0,b.0&lend=cash"):
        for scheme in it.schemes:
            it.media(scheme)
            it.open(path, where)
            tally.expect(it.js(CONTRAST) == [], path.name, f"contrast, {scheme}, {where}: {it.js(CONTRAST)}")
        it.media(it.schemes[0])
        for size in SIZES:
            it.size(*size)
            it.open(path, where)
            tally.expect(it.js("document.documentElement.scrollWidth <= innerWidth"), path.name, f"scrolls sideways at {size}, {where}")
    it.size(1280, 720)


def look_at_hostile(tally: Tally, it: Any, folder: Path) -> None:
    """A text that tries to be markup is shown as it is."""
    path, text = write_page(folder, 'a"<b>&', HOSTILE)
    it.open(path)
    shown = it.js("[...document.querySelectorAll('#lines code')].map((it) => it.textContent).join('\\n')")
    tally.expect(shown == text, "hostile", "the text is not shown as it is")
    tally.expect(it.js("window.bad === undefined && $('title').textContent") == 'a"<b>&', "hostile", "the text or the title was markup")
    tally.expect(it.faults() == [], "hostile", f"{it.faults()}")
    look_at_positions(tally, it, path, text)


def look_at_drawing(tally: Tally, it: Any, path: Path, text: str) -> None:
    """Compares the drawing of who holds and asks for what, at each deadlock by the cash alone, with what `outcomes` says."""
    it.open(path, "picks=&lend=cash")
    if it.js("view.graph?.program.data.lend") != "cash":
        return
    _, said = call(["outcomes", "--lend", "cash"], f"{text}\n".encode())
    wanted = set()
    for block in ends_of(said.decode().splitlines())["deadlock"]:
        held = [line for line in block if re.fullmatch(r"\w+ holds \d+ \w+", line)]
        asked = re.findall(r"^(\S+) asks (.*)$", "\n".join(block), re.M)
        pairs = [(arm, pair) for arm, words in asked for pair in re.findall(r"\d+ \w+", words)]
        wanted.add(tuple(sorted([*held, *(f"{arm} asks for {pair}" for arm, pair in pairs)])))
    shown = it.js(DRAWN)
    for sentences, edges, is_within in shown:
        tally.expect(edges == len(sentences), path.name, f"the drawing has {edges} edges, and says {sentences}")
        tally.expect(is_within, path.name, "the drawing leaves its place")
        in_vain = [one for one in sentences if " asks for " in one]
        tally.expect(any(one.endswith(" in vain") for one in in_vain), path.name, f"nobody asks in vain: {sentences}")
    found = {tuple(sorted(one.removesuffix(" in vain") for one in sentences)) for sentences, _, _ in shown}
    tally.expect(found == wanted, path.name, f"the drawings of deadlocks: {found ^ wanted}")
    tally.expect(it.faults() == [], path.name, f"{it.faults()}")


def look_at_dead_run(tally: Tally, it: Any, folder: Path) -> None:
    """A run by the cash alone into the deadlock of devices.pb tells it at its end, and not before."""
    given = (TOP / "examples/devices.pb").read_bytes()
    _, recorded = call(["outcomes", "--lend", "cash", "--deadlock", "1"], given)
    path, text = write_page(folder, "dead", recorded, "cash")
    look_at_positions(tally, it, path, text)
    rows = it.js("views[0].rows.length")
    it.open(path, f"step={rows - 1}")
    tally.expect(it.js("$('ending').textContent") == "", path.name, "a deadlock is told before it is there")
    said = set(it.js("document.querySelector('#map svg').getAttribute('aria-label')").split("; "))
    tally.expect(said == {"a holds 1 tape", "a.0 asks for 1 disk", "b.0 asks for 1 disk"}, path.name, f"before the deadlock is drawn {said}")
    said = it.js("$('processes').textContent")
    tally.expect("there is enough" in said and "banker" not in said, path.name, f"by the cash alone is told: {said}")
    it.key("ArrowRight")
    said = it.js("$('ending').textContent")
    tally.expect(said.startswith("Deadlock.") and "b holds 1 disk and asks for 1 tape" in said, path.name, f"the deadlock is not told: {said}")
    tally.expect(it.js("document.querySelectorAll('#processes .why.no').length") == 2, path.name, "not both wait in the deadlock")
    tally.expect("banker" not in it.js("$('processes').textContent"), path.name, "the banker is told of by the cash alone")


def look_at_no_text(tally: Tally, it: Any, folder: Path) -> None:
    """An object with picks has its instructions in the place of a text, and the run alone."""
    text = (TOP / "examples/lost.pb").read_bytes()
    _, recorded = call(["record", "--seed", "3"], text)
    _, spelled = call(["emit"], text)
    bare, _ = write_page(folder, "bare", spelled + b"%%\n" + recorded.partition(b"\n%%\n")[2])
    it.open(bare, "step=2")
    tally.expect(it.js("views.length") == 1, bare.name, "there is more than a run")
    tally.expect("no source text" in it.js("$('source').textContent"), bare.name, "that there is no text is not said")
    marked = it.js("""[...document.querySelectorAll("#lines .here")].map((it) =>
      [it.querySelector("code").textContent.trim().split(/ +/)[0], it.querySelector(".chip").textContent])""")
    live = it.js("view.program.arms.flatMap((it, arm) => view.state(2)[0][arm] < 0 ? [] : [[String(view.state(2)[0][arm]), it.name]])")
    tally.expect(marked == live and marked != [], bare.name, f"marked are {marked}, and live {live}")
    it.click("[data-key=file]")
    file = it.js("document.querySelector('.picks').textContent")
    _, said = call(["debug"], f"{file}%%\nto 2\n".encode())
    tally.expect(said == b"at 2\n", bare.name, f"`debug` does not read the file with the object: {said!r}")
    it.key("Escape")
    tally.expect(it.faults() == [], bare.name, f"{it.faults()}")


def look_at_tabs(tally: Tally, it: Any, path: Path) -> None:
    """Goes through the page by the tab key: it comes to all that can be clicked, and a list has its arrows."""
    for where in ("step=2", "picks=a.0"):
        it.open(path, where)
        wanted, seen = it.js(STOPS), set()
        for _ in range(3 * len(wanted)):
            it.key("Tab")
            seen.add(it.js("document.activeElement.dataset.stop ?? ''"))
            # (after the last stop the key may leave the page)
            if len(seen - {""}) == len(wanted):
                break
        missed = [words for number, words in enumerate(wanted) if str(number) not in seen]
        tally.expect(not missed and len(wanted) > 8, path.name, f"{where}: the tab key does not come to {missed}")
    it.open(path, "step=0")
    it.js("document.querySelector('.events button').focus()")
    it.key("ArrowDown")
    it.key("ArrowDown")
    it.key("Enter")
    tally.expect(it.js("view.at === view.events[2].at"), path.name, "the arrows and Enter do not lead to the third event")
    it.open(path, "picks=")
    it.js("document.querySelector('button.arm').focus()")
    it.key("Enter")
    tally.expect(it.js("view.rows.length") == 1, path.name, "Enter does not choose an arm")
    tally.expect(it.js("document.activeElement.className.startsWith('arm')"), path.name, "the focus is lost")


def look_at_all(tally: Tally, it: Any, folder: Path, examples: tuple[str, ...] = EXAMPLES) -> None:
    """Makes pages, and looks at them."""
    for name in examples:
        path, text = write_page(folder, name, (TOP / f"examples/{name}.pb").read_bytes())
        look_at_positions(tally, it, path, text)
        look_at_keys(tally, it, path)
        for lend in ("banker", "cash"):
            look_at_ends(tally, it, path, text, lend)
            look_at_walk(tally, it, path, lend)
    look_at_drawing(tally, it, *write_page(folder, "customers", (TOP / "examples/customers.pb").read_bytes()))
    look_at_deadlock(tally, it, folder / "devices.html")
    look_at_dead_run(tally, it, folder)
    look_at_no_text(tally, it, folder)
    look_at_tabs(tally, it, folder / "devices.html")
    look_at_too_late(tally, it, folder)
    look_at_looks(tally, it, folder / "devices.html")
    look_at_hostile(tally, it, folder)
    look_at_layout(tally, it, folder)
    look_at_settings(tally, it, folder, SIZES)


def look_in_chromium(tally: Tally, folder: Path) -> None:
    it = Browser()
    try:
        look_at_all(tally, it, folder)
    finally:
        it.close()


def look_in_firefox(tally: Tally, folder: Path) -> None:
    """Looks at all but the longest example, and at what is dark with a browser that is started so."""
    it = Firefox()
    try:
        look_at_all(tally, it, folder, EXAMPLES[:3])
    finally:
        it.close()
    it = Firefox("dark")
    try:
        look_at_looks(tally, it, folder / "devices.html")
    finally:
        it.close()


def main() -> None:
    os.environ["PYTHONDONTWRITEBYTECODE"] = "1"
    tally = Tally()
    size = len(make_page.fill_template("", "{}").encode())
    tally.expect(size <= MOST_PAGE, f"a page without data has {size} bytes")
    with tempfile.TemporaryDirectory(prefix="parbegin-page-") as name:
        look_in_chromium(tally, Path(name))
        if shutil.which("firefox-esr"):
            look_in_firefox(tally, Path(name))
        else:
            print("firefox-esr is not there, and was left out")
    tally.end("page")


if __name__ == "__main__":
    main()
