#!/usr/bin/env python3
"""Tries the wrong bodies that `rt ci` does not try: those of all crates that changed, and of a tenth of the others.

    checks/drawn_bodies.py [BEGAN PROCESS]     when the gate began, in seconds, and the number of its process

A crate has changed if checks/wrong_bodies/TRIED does not have the sum of its files. First are the crates that are not in
that record at all, then those that are there with another sum, and then a tenth of those whose sum is there. The crates
are dealt into ten groups in the order of crates.txt, and the commit's hash, modulo ten, says which group is drawn: so
each crate comes within ten landings on the average. Each part begins with the crates of that group, so that where time
runs short it is not always the same crates that are left out. With no commit, the sum of all sums is in place of its hash.

It ends before the gate has taken `CLOCK` minutes by the clock or `PROCESSORS` minutes of processors, which are counted
from now if BEGAN and PROCESS are not given; a crate that would take more is left out. It says which crates it chose and
why, what each wrong body came to, and what was not tried. The status is 1 if the prover let one through, and 0 if not:
neither a lack of time nor one of a record fails it.
"""
from __future__ import annotations

import os
import signal
import subprocess
import sys
import tempfile
import time
from collections import Counter
from pathlib import Path
from typing import NamedTuple

sys.path.insert(0, str(Path(__file__).resolve().parent / "lib"))

from bodies import TOP, crates, others_of, read_record, sum_of  # noqa: E402
from benches.gate_minutes import loop  # noqa: E402
from script.crates import MINUTES  # noqa: E402
from script.kept import take_libraries  # noqa: E402
from wrong_bodies import LET_THROUGH, UNTRIED, copy_crates, told_counts, try_crate  # noqa: E402

# The minutes in which the tries have to end, since the gate began.
CLOCK, PROCESSORS = 150.0, 190.0
GROUPS = 10
NEVER, CHANGED, DRAWN = "never tried", "changed since all were tried", "drawn"
REASONS = (NEVER, CHANGED, DRAWN)
# What one wrong body takes, in minutes of a processor, beside a proof of its crate.
OF_A_BODY = 0.5
TICKS = os.sysconf("SC_CLK_TCK")
# As many times the loop is timed, of which the least is told.
LOOPS = 5


class Left(NamedTuple):
    """The minutes that are left, by the clock and of processors."""

    clock: float
    processors: float


def choose(sums: dict[str, str], tried: dict[str, set[str]], group: int) -> dict[str, str]:
    """Returns the crates whose wrong bodies are to be tried, in order, each with the reason; sums are in that of crates.txt."""
    groups = {crate: number % GROUPS for number, crate in enumerate(sums)}

    def reason(crate: str) -> str | None:
        if crate not in tried:
            return NEVER
        if sums[crate] not in tried[crate]:
            return CHANGED
        return DRAWN if groups[crate] == group else None

    chosen = {crate: why for crate in sums if (why := reason(crate))}
    order = sorted(chosen, key=lambda it: (REASONS.index(chosen[it]), (groups[it] - group) % GROUPS))
    return {crate: chosen[crate] for crate in order}


def fits(left: Left, minutes: float, bodies: int, processors: int) -> bool:
    """Returns whether there is time to try so many wrong bodies of a crate whose proof takes so many minutes."""
    all_bodies = bodies * OF_A_BODY
    return minutes + all_bodies / processors <= left.clock and minutes + all_bodies <= left.processors


def group_of(commit: str | None, sums: dict[str, str]) -> tuple[int, str]:
    """Returns the group that is drawn, and what draws it."""
    if commit:
        return int(commit, 16) % GROUPS, f"the commit {commit[:12]}"
    return sum(int(it, 16) for it in sums.values()) % GROUPS, "the sums of all crates, since git tells of no commit"


def commit() -> str | None:
    """Returns the hash of the commit that is checked out, or None if git does not tell."""
    try:
        ran = subprocess.run(["git", "rev-parse", "HEAD"], cwd=TOP, capture_output=True, text=True, check=False)
    except OSError:
        return None
    return None if ran.returncode else ran.stdout.strip()


def minutes_of(process: int) -> float:
    """Returns the minutes of processors that a process took, with what it started and has ended."""
    try:
        fields = Path(f"/proc/{process}/stat").read_text(encoding="utf-8", errors="replace").rpartition(")")[2].split()
    except OSError:
        return 0.0
    return sum(int(it) for it in fields[11:15]) / TICKS / 60


class Budget:
    """The time that is left to the gate, which began at some second and has a process."""

    def __init__(self, began: float, process: int) -> None:
        self.began, self.process = began, process

    def left(self, running: int | None = None) -> Left:
        """Returns what is left, with what a running process took."""
        taken = minutes_of(self.process) + minutes_of(os.getpid()) * (self.process != os.getpid())
        taken += minutes_of(running) if running else 0
        return Left(CLOCK - (time.time() - self.began) / 60, PROCESSORS - taken)

    def is_over(self, running: int) -> bool:
        """Returns whether nothing is left."""
        return min(self.left(running)) <= 0


def say(text: str) -> None:
    """Writes a line."""
    print(f"wrong bodies: {text}", flush=True)


def tell_choice(chosen: dict[str, str], counts: dict[str, int], by: str, group: int) -> None:
    """Says which crates were chosen, and why."""
    say(f"group {group} of {GROUPS} is drawn by {by}")
    for why in REASONS:
        named = [f"{crate} ({counts[crate]})" for crate, reason in chosen.items() if reason == why]
        say(f"{why}: {', '.join(named) or 'none'}")


def try_in_time(chosen: dict[str, str], counts: dict[str, int], budget: Budget) -> Counter[str]:
    """Tries the wrong bodies of these crates as long as there is time, and returns how many came to what."""
    found, left_out = Counter[str](), []
    with tempfile.TemporaryDirectory(prefix="parbegin-drawn-bodies-") as folder:
        copy_crates(Path(folder), others_of)
        take_libraries(folder, chosen)
        for crate in chosen:
            left = budget.left()
            if not fits(left, MINUTES.get(crate, 1), counts[crate], len(os.sched_getaffinity(0))):
                left_out.append(crate)
                found[UNTRIED] += counts[crate]
                continue
            found += try_crate(crate, Path(folder), others_of(crate), budget.is_over)
    if left_out:
        say(f"not tried, as time ran short: {', '.join(f'{it} ({counts[it]}, {chosen[it]})' for it in left_out)}")
    return found


def tell_time(budget: Budget) -> None:
    """Says how fast the host is, and how much time is left."""
    left, least = budget.left(), min(loop() for _ in range(LOOPS))
    say(f"the loop of benches/gate_minutes.py took {least:.0f} milliseconds")
    say(f"left are {left.clock:.0f} of {CLOCK:.0f} minutes by the clock and {left.processors:.0f} of {PROCESSORS:.0f} of processors")


def main(words: list[str]) -> int:
    if len(words) not in (0, 2):
        sys.exit("usage: checks/drawn_bodies.py [BEGAN PROCESS]")
    budget = Budget(float(words[0]), int(words[1])) if words else Budget(time.time(), os.getpid())
    counts = {crate: len(others_of(crate)) for crate in crates()}
    sums = {crate: sum_of(crate) for crate in counts if counts[crate]}
    group, by = group_of(commit(), sums)
    chosen = choose(sums, read_record(), group)
    tell_time(budget)
    tell_choice(chosen, counts, by, group)
    found = try_in_time(chosen, counts, budget)
    say(told_counts(found))
    tell_time(budget)
    return 1 if found[LET_THROUGH] else 0


if __name__ == "__main__":
    # (so that an end from outside removes the copy)
    signal.signal(signal.SIGTERM, signal.default_int_handler)
    sys.exit(main(sys.argv[1:]))
