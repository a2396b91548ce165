#!/usr/bin/env python3
"""Gives the built program forged objects: each must be refused, or run within its capital.

    checks/slow/forged_objects.py [PROGRAM]     PROGRAM is the one that ./parbegin has built if none is given

Of five objects it tries every proper prefix, every byte changed to each of five others, each two lines exchanged, and
each line doubled or left out; and objects at each limit of the format and one beyond it. `exec --steps 10000` must end
with a status for a refusal or a run, in the lines that docs/formats/ names; what a run holds is counted here, and
must never be over the capital; `migrate` must refuse the same objects with the same line, and what it writes must be
run to the same lines. It is run by hand; its status is 0 if all is as wanted, and 1 if not.
"""
import collections
import concurrent.futures
import os
import re
import sys
from pathlib import Path

sys.path.insert(0, str(Path(__file__).resolve().parents[1] / "lib"))

from calls import DONE, FAULT, LIMIT, MOST_INPUT, REFUSED, Tally, call  # noqa: E402
from forgeries import LIMITS, forgeries, objects  # noqa: E402

STEPS = 10_000
NAME = r"[A-Za-z][A-Za-z0-9_]*"
REFUSAL = re.compile(r"refused (input|O\d at \d+|V\d+)\n")
EVENT = re.compile(
    rf"({NAME})(?:\.(\d+) (?:(grant|return)((?: \d+ {NAME})+)|print -?\d+|(fault (?:divide|overflow)))| (end))"
)

# ---- what must come of it


def capital_of(given):
    """Returns the capital that an object names."""
    return {it[1].decode(): int(it[2]) for it in re.finditer(rb"(?m)^resource (\S+) (\d+)$", given)}


def keeps_its_capital(given, events):
    """Returns whether what the events say is lent is never over the capital, and comes back."""
    capital, lent, held = capital_of(given), collections.Counter(), collections.Counter()
    for event in events:
        process, _, change, pairs, fault, _ = event.groups()
        if change:
            sign = 1 if change == "grant" else -1
            for amount, resource in re.findall(rf"(\d+) ({NAME})", pairs):
                lent[resource] += sign * int(amount)
                held[process, resource] += sign * int(amount)
        if fault:
            for resource in capital:
                lent[resource] -= held.pop((process, resource), 0)
        if any(not 0 <= lent[it] <= capital[it] for it in capital):
            return False
    return True


def is_run(given, status, said):
    """Returns whether this is the answer to an object that was verified."""
    lines = said.decode(errors="replace").splitlines()
    last = f"limit {STEPS}" if status == LIMIT else "done"
    events = [EVENT.fullmatch(it) for it in lines[:-1]]
    is_ended = status in (DONE, LIMIT, FAULT) and lines[-1:] == [last] and all(events)
    return is_ended and keeps_its_capital(given, events)


def judge(given):
    """Runs and migrates an object. Returns whether it was accepted, and whether all was as wanted."""
    words = ["exec", "--steps", str(STEPS)]
    status, said = call(words, given)
    migrated = call(["migrate"], given)
    if status == REFUSED:
        return False, REFUSAL.fullmatch(said.decode(errors="replace")) and migrated == (status, said)
    is_same = migrated[0] == DONE and call(words, migrated[1]) == (status, said)
    return True, is_same and is_run(given, status, said)


def main():
    tally, accepted = Tally(), 0
    given = objects()
    forged = [forgery for it in given for forgery in forgeries(it)]
    with concurrent.futures.ThreadPoolExecutor(os.cpu_count()) as pool:
        for forgery, (is_accepted, is_right) in zip(forged, pool.map(judge, forged)):
            accepted += is_accepted
            tally.expect(is_right, forgery)
    print(f"{len(forged)} forgeries of {len(given)} objects, {accepted} of them accepted")
    for name, cases in LIMITS.items():
        for it, is_wanted in cases:
            is_accepted, is_right = judge(it)
            tally.expect(is_right and is_accepted == is_wanted, "limit", name, is_accepted, is_wanted, call(["exec"], it)[1][:80])
    longest = b"PBO 2\n" + b" " * (MOST_INPUT - 6)
    for it, line in ((longest, b"refused O"), (longest + b" ", b"refused input\n")):
        status, said = call(["exec"], it)
        tally.expect(status == REFUSED and said.startswith(line), "length", status, said)
    tally.end("forged objects")


main()
