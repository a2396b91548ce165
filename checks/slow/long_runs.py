#!/usr/bin/env python3
"""Records a thousand runs of every example by 16 workers at quantum 1, and of a text whose stretches are long and short
in turn by 16 workers at quantum 4,096, and replays each.

    checks/slow/long_runs.py [PROGRAM]     PROGRAM is the one that ./parbegin has built if none is given

No call may hang (a watchdog ends one after two minutes), each recorded run must be replayed to its end with no refusal,
and no picks may be made that one worker could not have made: `replay` makes them alone. It says how many different runs
there were of each example. It is run by hand; its status is 0 if all is as wanted, and 1 if not.
"""
import concurrent.futures
import os
import sys
from pathlib import Path

sys.path.insert(0, str(Path(__file__).resolve().parents[1] / "lib"))

from calls import DONE, EXAMPLES, FAULT, Tally, call  # noqa: E402

RUNS = 1000
SHORT = ["record", "--workers", "16", "--quantum", "1"]
LONG = ["record", "--workers", "16", "--quantum", "4096", "--steps", "10000000"]
# Each process computes for a while, and then takes and gives back a device for a while, again and again: so threads come
# when stretches are long, and leave the work to one of them when they are short.
TURNS = "resource r = 2;\n" + "".join(
    f"""process p{number} begin integer i, j, x; while i < 4 do
        j := 0; while j < {2000 + 400 * number} do x := (x * 31 + j) mod 65521; j := j + 1 od;
        j := 0; while j < 60 do hold 1 of r do j := j + 1 od od; i := i + 1 od; print x end
    """ for number in range(6))


def try_once(words, text):
    """Returns a recorded run, and the status and the last line of its replay."""
    status, run = call(words, text)
    if status != DONE:
        return run, status, run[-80:]
    status, said = call(["replay"], run)
    return run, status, said.splitlines()[-1]


def main():
    tally = Tally()
    with concurrent.futures.ThreadPoolExecutor(os.cpu_count()) as pool:
        for name, words, text in [(file.name, SHORT, file.read_bytes()) for file in EXAMPLES] + [("turns", LONG, TURNS.encode())]:
            seen = set()
            for run, status, last in pool.map(try_once, [words] * RUNS, [text] * RUNS):
                tally.expect(status in (DONE, FAULT) and last == b"done", name, status, last)
                seen.add(run)
            print(f"{name}: {RUNS} runs, {len(seen)} of them different")
    tally.end("long runs")


main()
