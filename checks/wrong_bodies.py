#!/usr/bin/env python3
"""Tries every wrong body of some crates, or of all: the prover must refuse each.

    checks/wrong_bodies.py [CRATE ..]     all crates if none is named

The wrong bodies of a crate are the edits of checks/wrong_bodies/CRATE/ and those of crates/CRATE/must-fail/, which `rt ci`
tries too. They are tried by `rt must-fail` on a copy of the crates, one crate after the other. It takes the libraries
that the gate, or another checkout on this machine, has built of the same files, and begins with what checks of the crate
kept. So a crate that was checked takes some 15 seconds of a processor for each edit. What was tried before, and stands on
the same files, is not tried again.

It writes a line for each edit, and at the end how many were refused. One that is refused only because a name is gone
that a proof cites, or that cannot be tried, is not refused. A crate of which all are refused is recorded in
checks/wrong_bodies/TRIED with the sum of its files. The status is 0 if all are refused, and 1 if not.
"""
from __future__ import annotations

import os
import re
import shutil
import signal
import subprocess
import sys
import tempfile
import threading
import time
from collections import Counter
from collections.abc import Callable, Iterator
from pathlib import Path

sys.path.insert(0, str(Path(__file__).resolve().parent / "lib"))

from bodies import TOP, crates, edits_of, record, sum_of  # noqa: E402
from script.kept import take_libraries  # noqa: E402

# What rt says of an edit, and how it begins to say each of what an edit can come to.
TOLD = re.compile(r"rt: must-fail (\w+)/([\w.-]+)\.edit: (.*)")
REFUSED, BY_A_NAME, LET_THROUGH = "refused", "refused by a name only", "let through"
UNFIT, UNTRIED = "cannot be tried", "not tried"
AS_IT_MUST = "refused, as it must be"
NAME_IS_GONE = f"{AS_IT_MUST} (only because a proof file names"
BEGINS = {NAME_IS_GONE: BY_A_NAME, AS_IT_MUST: REFUSED, "NOT REFUSED": LET_THROUGH, "BAD EDIT": UNFIT}
# How many seconds pass between two looks at whether a try has to end.
LOOKS = 1.0
Edits = dict[str, Path]


def kind_of(told: str) -> str:
    """Returns what an edit came to, by what rt says of it."""
    return next((kind for begin, kind in BEGINS.items() if told.startswith(begin)), UNTRIED)


def copy_crates(to: Path, edits: Callable[[str], Edits] = edits_of) -> None:
    """Copies the sources of all crates, each with these of its edits in must-fail/."""
    for name in ("crates.txt", "HANDLES"):
        shutil.copyfile(TOP / name, to / name)
    for crate in crates():
        folder = to / "crates" / crate
        shutil.copytree(TOP / "crates" / crate, folder, ignore=shutil.ignore_patterns("out", "must-fail"))
        (folder / "must-fail").mkdir()
        for name, edit in edits(crate).items():
            shutil.copyfile(edit, folder / "must-fail" / f"{name}.edit")


def end_when(is_over: Callable[[int], bool], ran: subprocess.Popen[str]) -> None:
    """Ends a process as soon as its time is over, which is asked with its number."""
    while ran.poll() is None:
        if is_over(ran.pid):
            # (what it started ends with it)
            ran.terminate()
            return
        time.sleep(LOOKS)


def told_of(crate: str, copy: Path, is_over: Callable[[int], bool]) -> Iterator[tuple[str, str]]:
    """Tries the edits of a crate, and yields the name of each with what rt says of it."""
    # (so that what it leaves goes with the copy)
    how = {"cwd": copy, "env": {**os.environ, "TMPDIR": str(copy)}, "text": True}
    words = ["rt", "must-fail", crate]
    with subprocess.Popen(words, stdout=subprocess.PIPE, stderr=subprocess.STDOUT, **how) as ran:
        assert ran.stdout is not None
        threading.Thread(target=end_when, args=(is_over, ran), daemon=True).start()
        others = []
        try:
            for line in ran.stdout:
                told = TOLD.match(line)
                if told:
                    yield told[2], told[3]
                else:
                    others.append(line)
        except KeyboardInterrupt:
            ran.terminate()
            raise
    if ran.returncode > 0 and others:
        print("".join(others[-20:]), end="", file=sys.stderr)


def has_time(_: int) -> bool:
    """Returns that the time of a process is never over."""
    return False


def try_crate(crate: str, copy: Path, edits: Edits, is_over: Callable[[int], bool] = has_time) -> Counter[str]:
    """Tries these edits of a crate, tells of each, and returns how many came to what."""
    left, counts = set(edits), Counter[str]()
    for name, told in told_of(crate, copy, is_over):
        if name in left:
            left.discard(name)
            kind = kind_of(told)
            counts[kind] += 1
            said = f"{kind}{told.removeprefix(AS_IT_MUST)}" if kind == REFUSED else f"{kind.upper()}: {told}"
            print(f"{crate}/{name}: {said}", flush=True)
    for name in sorted(left):
        counts[UNTRIED] += 1
        print(f"{crate}/{name}: {UNTRIED.upper()}", flush=True)
    return counts


def told_counts(counts: Counter[str]) -> str:
    """Returns how many came to what, in words."""
    others = [f"{counts[kind]} {kind}" for kind in (BY_A_NAME, LET_THROUGH, UNFIT, UNTRIED) if counts[kind]]
    return ", ".join([f"{counts[REFUSED]} refused", *others])


def main(words: list[str]) -> int:
    unknown = [word for word in words if word not in crates()]
    if unknown:
        sys.exit(f"{unknown[0]} is no crate of crates.txt")
    wanted = list(dict.fromkeys(words)) or [it for it in crates() if edits_of(it)]
    counts = Counter[str]()
    with tempfile.TemporaryDirectory(prefix="parbegin-wrong-bodies-") as folder:
        sums = {crate: sum_of(crate) for crate in wanted}
        copy_crates(Path(folder))
        take_libraries(folder, wanted)
        for crate in wanted:
            edits = edits_of(crate)
            here = try_crate(crate, Path(folder), edits)
            counts += here
            if edits and here[REFUSED] == len(edits) and sum_of(crate) == sums[crate]:
                record(crate, sums[crate])
    print(told_counts(counts))
    return 0 if sum(counts.values()) == counts[REFUSED] else 1


if __name__ == "__main__":
    # (so that an end from outside removes the copy)
    signal.signal(signal.SIGTERM, signal.default_int_handler)
    sys.exit(main(sys.argv[1:]))
