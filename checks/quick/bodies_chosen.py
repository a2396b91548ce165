#!/usr/bin/env python3
"""Tries how checks/drawn_bodies.py chooses wrong bodies, on crates that are made up, without the prover.

    checks/quick/bodies_chosen.py

Its status is 0 if all is as wanted, and 1 if not.
"""
from __future__ import annotations

import sys
from pathlib import Path

sys.path[:0] = [str(Path(__file__).resolve().parents[1] / name) for name in ("lib", "")]

from bodies import fault_of  # noqa: E402
from calls import Tally  # noqa: E402
from drawn_bodies import CHANGED, DRAWN, GROUPS, NEVER, Left, choose, fits, group_of  # noqa: E402
from wrong_bodies import BY_A_NAME, LET_THROUGH, REFUSED, UNFIT, UNTRIED, kind_of  # noqa: E402

SUMS = {f"crate_{number}": f"{number:x}" for number in range(25)}
AS_THEY_ARE = {crate: {total} for crate, total in SUMS.items()}
SOURCES = {"src/lib.rt": "one two two"}
# An edit, and how it begins to be told why it cannot be applied, or nothing if it can.
EDITS = (
    ("file: src/lib.rt\nold: one\nnew: three\n", None),
    ("file: src/lib.rt\nold: one\nnew: two\nold: two two two\nnew: one\n", None),
    ("file: src/lib.rt\n# a remark\nold: one \nnew:\n", None),
    ("file: src/lib.rt\nold: two\nnew: three\n", "an old text is in src/lib.rt 2 times"),
    ("file: src/lib.rt\nold: three\nnew: two\n", "an old text is in src/lib.rt 0 times"),
    ("file: src/other.rt\nold: one\nnew: two\n", "there is no file src/other.rt"),
    ("old: one\nnew: two\n", "a pair has no line `file:`"),
    ("file: src/lib.rt\nnew: two\n", "a line `new:` has no line `old:`"),
    ("file: src/lib.rt\nold: one\nnew: one\n", "it changes nothing"),
    ("file: src/lib.rt\nold: one\nof two\nnew: three\n", "a line is not read: of two"),
    ("file: src/lib.rt\nold: one\n", "it has no pair"),
)
# What rt says of an edit, and what it came to.
TOLD = (
    ("refused, as it must be: src/lib.rt:1:1: error: it is not proved", REFUSED),
    ("refused, as it must be (only by a limit of the prover, which gave no verdict): x", REFUSED),
    ("refused, as it must be (only because a proof file names what the edit took away): x", BY_A_NAME),
    ("NOT REFUSED: the crate is still proved with this edit", LET_THROUGH),
    ("NOT TRIED: its check was killed, most likely for memory", UNTRIED),
    ("BAD EDIT: the prover cannot read the edited text", UNFIT),
)


def group(number: int) -> list[str]:
    """Returns the crates of a group, in order."""
    return [crate for at, crate in enumerate(SUMS) if at % GROUPS == number]


def try_reasons(tally: Tally) -> None:
    """Tries which crates are chosen, why, and in which order."""
    for drawn in range(GROUPS):
        chosen = choose(SUMS, AS_THEY_ARE, drawn)
        tally.expect(chosen == dict.fromkeys(group(drawn), DRAWN), "others are drawn", drawn)
        tally.expect(list(choose(SUMS, {}, drawn))[:2] == group(drawn)[:2], "another group is first", drawn)
        tally.expect(choose(SUMS, {}, drawn) == dict.fromkeys(SUMS, NEVER), "a crate without a record is left out", drawn)
    tried = {**AS_THEY_ARE, "crate_3": {"0"}, "crate_4": {"0", SUMS["crate_4"]}, "gone": {"0"}}
    del tried["crate_24"]
    wanted = [("crate_24", NEVER), ("crate_3", CHANGED), *((it, DRAWN) for it in group(4) if it != "crate_24")]
    tally.expect(list(choose(SUMS, tried, 4).items()) == wanted, "another order", "crate_3, crate_24")


def try_draws(tally: Tally) -> None:
    """Tries what draws the group: each group has commits that draw it, and there is one without a commit."""
    drawn = [group_of(f"{number:040x}", SUMS)[0] for number in range(3 * GROUPS)]
    tally.expect(drawn == 3 * [*range(GROUPS)], "the groups are drawn otherwise", drawn)
    number, by = group_of(None, SUMS)
    tally.expect(number in range(GROUPS) and "no commit" in by, "nothing is drawn", by)


def try_time(tally: Tally) -> None:
    """Tries what fits into the time that is left: the bodies of a crate side by side, but not its proof."""
    for left, processors, wanted in (
        (Left(5, 10), 2, True),
        (Left(4.9, 10), 2, False),
        (Left(5, 7.9), 2, False),
        (Left(5, 10), 1, False),
        (Left(8, 8), 1, True),
        (Left(-1, 100), 8, False),
        (Left(100, -1), 8, False),
    ):
        tally.expect(fits(left, 2, 12, processors) == wanted, "what fits is another", (left, processors))


def main() -> None:
    tally = Tally()
    try_reasons(tally)
    try_draws(tally)
    try_time(tally)
    for edit, wanted in EDITS:
        fault = fault_of(edit, SOURCES)
        tally.expect(fault is None if wanted is None else (fault or "").startswith(wanted), f"{fault} is said of", edit)
    for told, kind in TOLD:
        tally.expect(kind_of(told) == kind, f"it is taken for {kind_of(told)}", told)
    tally.end("choices")


if __name__ == "__main__":
    main()
