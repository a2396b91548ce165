#!/usr/bin/env python3
"""Plants faults in the scripts and the style of a page, each of which checks/slow/page.py must find.

    checks/slow/page_bugs.py [PROGRAM]     PROGRAM is the one that ./parbegin has built if none is given

It is run by hand, takes some minutes, and needs Debian's package `chromium`. For each fault it makes pages by a copy of
extras/page in which it is planted, and looks at them until one look is not as wanted. It ends with how many were found.
Its status is 0 if all were, and 1 if not.
"""
from __future__ import annotations

import os
import shutil
import sys
import tempfile
from collections.abc import Callable, Iterator
from pathlib import Path

sys.path.insert(0, str(Path(__file__).resolve().parents[1] / "lib"))

import page  # noqa: E402
from browser import Browser  # noqa: E402
from calls import TOP, Tally  # noqa: E402
from page import make_page  # noqa: E402

# Faults of the scripts and the style: what stands there, and what is put in its place.
PLANTED = (
    ("changed.add(row[i]);", ""),
    ("this.integers + process.firstInteger + i", "this.integers + i"),
    ("p * this.resources.length + r", "p + r"),
    ("this.reasons = 2 * this.hands;", "this.reasons = this.hands;"),
    ("this.processes[p].first + a, 1", "this.processes[p].first, 1"),
    ("Number(this.next(state, arm)[0])", "Number(this.next(state, arm)[0]) + 1"),
    ("left - state[this.loanAt(p, r)], capital", "left + state[this.loanAt(p, r)], capital"),
    ("claims: claims.map(Number)", "claims: entries"),
    ("ArrowLeft: () => this.go(this.at - 1), ArrowRight", "ArrowLeft: () => this.go(this.at + 1), ArrowRight"),
    ("End: () => this.go(this.rows.length),", "End: () => this.go(0),"),
    ("remember(`step=${this.at}`)", "remember(`step=${this.rows.length}`)"),
    ("if ((i + 1) % GAP === 0) this.kept.push([...state]);", "if ((i + 1) % GAP === 0) this.kept.push(state);"),
    ("apply(state, row, 3);", "apply(state, row, 5);"),
    ("this.before[row[2]] = { n, row };", "this.before[row[2]] = { n: 0, row };"),
    ("into[row[2]].push(n)", "into[n].push(row[2])"),
    ("end >= this.program.data.outcomes.length", "end > this.program.data.outcomes.length"),
    ("=> his.get(this.program.key(state))", "=> his.get(state)"),
    ("!this.hope[n] && !this.program.data.endless", "!this.hope[n] && this.program.data.endless"),
    ("this.knowsBanker && !this.twins[n]", "this.knowsBanker && this.twins[n]"),
    ("find((row) => row[0] === arm)", "find((row) => row[0] >= arm)"),
    ("this.undone.push(this.rows.pop())", "this.rows.pop()"),
    ("this.lend = i;\n    this.follow(arms);", "this.lend = i;\n    this.follow([]);"),
    ("\"aria-disabled\": isGrey(arm)", "\"aria-disabled\": !isGrey(arm)"),
    ("if (end === \"deadlock\") return deadEnd(this.program, state);\n", ""),
    ("lend: program.data.lend, happened, ending });", "lend: \"banker\", happened, ending });"),
    ("this.data.lend !== \"cash\")", "this.data.lend === \"cash\")"),
    ("edge(ring.resources[r], from, from.hue, `${k}`);", ""),
    ("said.push(`${process.name} holds ${k} ${name}`);", "said.push(`${process.name} holds ${k + 1} ${name}`);"),
    ("state[this.reasons + arm] === 0 ? []", "false ? []"),
    ("this.words = this.order + 1;", "this.words = this.order + 2;"),
    ("done(program, before, row[0])", "done(program, state, row[0])"),
    (".replace(/^asks for/, \"is lent\")", ""),
    ("${kind === \"no\" ? \" in vain\" : \"\"}", ""),
    ("this.processOf(arm).firstLine + state[arm]", "this.processOf(arm).firstLine"),
    ("near.firstChild.focus()", "near.firstChild"),
    ("(text || object).replace", "text.replace"),
    ("flex-wrap: wrap; gap: .3rem .75rem; align-items: center;", "gap: .3rem .75rem; align-items: center;"),
    ("      this.paint();\n      this.mark(run.at);\n", ""),
    ("[...sets[sets[0].size > 1 ? 1 : 0]]", "[[...sets[0]][0]]"),
    ("long(it) * down + 20", "long(it) * down - 20"),
    ("farFrom(it, x, y) < 8).length;\n    const places = upFrom(0, 15)", "farFrom(it, x, y) < 8).length;\n    const places = upFrom(0, 1)"),
    ("#bank th:first-child { width: var(--names)", "#bank .chip { white-space: nowrap } #bank th:first-child { width: 6rem"),
    ("view.graphs || innerWidth < 992 ?", "true ?"),
    (":root:not(.quiz) .hidden, .quiz .later {", ":root:not(.quiz) .hidden {"),
    (".quiz .veil { display: block;", ".quiz .veil {"),
    ("isQuiz() && state[program.reasons + arm] !== 0 ? null :", "false ? null :"),
    ("!isQuiz() && Array.isArray(why)", "Array.isArray(why)"),
    ("if (isQuiz() && !isFound) return null;", ""),
    ("if (isQuiz()) return null;\n", ""),
    ("[...settings, hash].join", "[hash].join"),
    ("isWanted !== DARK.matches : isWanted", "isWanted === DARK.matches : isWanted"),
    ("fault: \"×\", end: \"■\" };", "fault: \"!\", end: \"■\" };"),
    ("#ending > .over { border-color: var(--accent)", "#ending > .over { border-color: var(--good)"),
    ("most < more ?", "most > more ?"),
)


class Found(Exception):
    """Something is not as wanted."""


class First(Tally):
    """Stops at the first thing that is not as wanted."""

    def expect(self, is_right: bool, *what: str) -> None:
        if not is_right:
            raise Found(*what)


def looks(it: Browser, folder: Path) -> Iterator[Callable[[Tally], None]]:
    """Yields the looks at pages, those first that find most."""
    made = {}
    for name in ("lost", "customers", "devices"):
        path, text = made[name] = page.write_page(folder, name, (TOP / f"examples/{name}.pb").read_bytes())
        yield lambda tally, path=path, text=text: page.look_at_positions(tally, it, path, text)
        yield lambda tally, path=path: page.look_at_keys(tally, it, path)
    yield lambda tally: page.look_at_deadlock(tally, it, made["devices"][0])
    yield lambda tally: page.look_at_dead_run(tally, it, folder)
    yield lambda tally: page.look_at_drawing(tally, it, *made["customers"])
    yield lambda tally: page.look_at_no_text(tally, it, folder)
    yield lambda tally: page.look_at_tabs(tally, it, made["devices"][0])
    yield lambda tally: page.look_at_too_late(tally, it, folder)
    yield lambda tally: page.look_at_settings(tally, it, folder, page.SIZES[:2])
    yield lambda tally: page.look_at_layout(tally, it, folder)
    for path, text in made.values():
        for lend in ("banker", "cash"):
            yield lambda tally, path=path, text=text, lend=lend: page.look_at_ends(tally, it, path, text, lend)
            yield lambda tally, path=path, lend=lend: page.look_at_walk(tally, it, path, lend)
    path, text = page.write_page(folder, "philosophers", (TOP / "examples/philosophers.pb").read_bytes())
    yield lambda tally: page.look_at_positions(tally, it, path, text)


def finds(it: Browser, folder: Path, mark: str, fault: str) -> bool:
    """Returns whether a look finds a fault that is planted."""
    template = folder / "template"
    shutil.copytree(TOP / "extras/page", template, dirs_exist_ok=True)
    scripts = {path: path.read_text(encoding="utf-8") for path in [*template.glob("*.js"), template / "page.css"]}
    if sum(script.count(mark) for script in scripts.values()) != 1:
        sys.exit(f"scripts and style have not once: {mark}")
    for path, script in scripts.items():
        path.write_text(script.replace(mark, fault), encoding="utf-8")
    kept, make_page.TEMPLATE = make_page.TEMPLATE, str(template)
    try:
        for look in looks(it, folder):
            look(First())
    except (Found, RuntimeError):
        # (a RuntimeError: the page did not come up, or threw)
        return True
    finally:
        make_page.TEMPLATE = kept
    return False


def main() -> None:
    os.environ["PYTHONDONTWRITEBYTECODE"] = "1"
    it, found = Browser(), 0
    with tempfile.TemporaryDirectory(prefix="parbegin-page-") as name:
        try:
            if finds(it, Path(name), "start();", "start();"):
                sys.exit("with no fault planted something is not as wanted: checks/slow/page.py says what")
            for mark, fault in PLANTED:
                is_found = finds(it, Path(name), mark, fault)
                found += is_found
                if not is_found:
                    print(f"not found: {fault or 'nothing'} for {mark}", file=sys.stderr)
        finally:
            it.close()
    print(f"page_bugs: {len(PLANTED)} planted, {found} found")
    sys.exit(found < len(PLANTED))


if __name__ == "__main__":
    main()
