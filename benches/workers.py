#!/usr/bin/env python3
"""Times `run` by one, two, three and four workers, as whole calls of the built program, turn by turn in one run.

    python3 benches/workers.py [TURNS] [PROGRAM]     the program that ./parbegin has built, and 15 turns, if none is given

Five programs, at quantum 1, 64, 512 and 4,096: four processes that take two devices in a loop, four that compute,
examples/philosophers.pb with more meals, 64 processes that compute and print, and one process of 16 arms that compute.
It says milliseconds by the clock, the middle of all turns, and the middle of the ratios to one worker of the same turn,
since the clock of a machine changes. User and system time of a call is beside it. Then how many times as fast four
workers are as one, on four that compute for longer at quantum 4,096.

That each call has the same last line and as many lines is checked. Take figures on a quiet machine, and say its load.
"""
import os
import pathlib
import statistics
import subprocess
import sys
import tempfile
import time

TOP = pathlib.Path(__file__).resolve().parent.parent
STEPS = 10_000_000
QUANTUMS = (1, 64, 512, 4096)
WORKERS = (1, 2, 3, 4)


def device_users(turns):
    """Four processes that take two devices in a loop, in both orders."""
    return "resource tape = 2; resource disk = 2;\n" + "".join(
        f"process {name} begin integer i; while i < {turns} do hold 1 of {first} do hold 1 of {then} do "
        "i := i + 1 od od od end\n"
        for name, first, then in zip("abcd", ("tape", "disk") * 2, ("disk", "tape") * 2))


def computing(turns):
    """Four processes that compute."""
    return "".join(
        f"process {name} begin integer i, x; x := {number}; while i < {turns} do x := (x * 31 + i) mod 65521; "
        "i := i + 1 od; print x end\n"
        for number, name in enumerate("abcd", 1))


def philosophers(meals):
    """The example with this number of meals."""
    return (TOP / "examples" / "philosophers.pb").read_text().replace("meals < 2", f"meals < {meals}")


def many(turns):
    """64 processes that compute, and print now and then."""
    return "".join(
        f"process p{number} begin integer i; while i < {turns} do i := i + 1; if i mod 100 = 0 then print i else "
        "i := i + 0 fi od end\n"
        for number in range(64))


def arms(turns):
    """A process of 16 arms that compute."""
    names = [f"i{number}" for number in range(15)]
    loops = "; ".join(f"while {name} < {turns} do {name} := {name} + 1 od" for name in names)
    return f"process p begin integer {', '.join(names)}; parbegin {loops} parend; print i0 end\n"


PROGRAMS = {
    "devices": device_users(10_000),
    "compute": computing(40_000),
    "philosophers": philosophers(10_000),
    "64 processes": many(1_000),
    "16 arms": arms(5_000),
}


def call(program, text, workers, quantum):
    """Calls `run`: seconds by the clock, seconds of processors, and how many lines it wrote, with the last one."""
    words = [program, "run", "--steps", str(STEPS), "--workers", str(workers), "--quantum", str(quantum)]
    with tempfile.TemporaryFile() as given, tempfile.TemporaryFile() as out:
        given.write(text.encode())
        given.seek(0)
        start = time.perf_counter()
        process = subprocess.Popen(words, stdin=given, stdout=out)
        _, status, used = os.wait4(process.pid, 0)
        taken = time.perf_counter() - start
        if os.waitstatus_to_exitcode(status) != 0:
            raise SystemExit(f"{' '.join(words)} ended with {os.waitstatus_to_exitcode(status)}")
        out.seek(0)
        lines = out.read().splitlines()
    return taken, used.ru_utime + used.ru_stime, (len(lines), lines[-1])


def turns_of(program, text, quantum, turns):
    """Times by the clock and by processors of each number of workers, turn by turn."""
    rows = []
    for _ in range(turns):
        calls = [call(program, text, workers, quantum) for workers in WORKERS]
        if len({said for _, _, said in calls}) != 1:
            raise SystemExit("calls by different numbers of workers end differently")
        rows.append([(taken, used) for taken, used, _ in calls])
    return rows


def middle(rows, of):
    return statistics.median(of(row) for row in rows)


def main():
    turns = int(sys.argv[1]) if len(sys.argv) > 1 else 15
    program = sys.argv[2] if len(sys.argv) > 2 else str(TOP / "script/tools.sh")
    print("| text | quantum | one worker, ms | two by one | three by one | four by one | processors, ms, one | four |")
    print("|---|---|---|---|---|---|---|---|")
    for name, text in PROGRAMS.items():
        for quantum in QUANTUMS:
            rows = turns_of(program, text, quantum, turns)
            ratios = [f"{middle(rows, lambda row, at=at: row[at][0] / row[0][0]):.2f}" for at in (1, 2, 3)]
            used = [f"{middle(rows, lambda row, at=at: row[at][1]) * 1e3:.1f}" for at in (0, 3)]
            one = f"{middle(rows, lambda row: row[0][0]) * 1e3:.1f}"
            print("|", " | ".join([name, f"{quantum:,}", one, *ratios, *used]), "|", flush=True)
    rows = turns_of(program, computing(140_000), 4096, turns)
    faster = [f"{middle(rows, lambda row, at=at: row[0][0] / row[at][0]):.2f}" for at in (1, 3)]
    print(f"four that compute for longer, quantum 4,096: two workers {faster[0]} times as fast as one, four {faster[1]}")


main()
