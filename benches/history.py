#!/usr/bin/env python3
"""Times `run`, `record` and `replay` of the built program on runs of ten million picks, turn by turn in one run.

    python3 benches/history.py [PROGRAM] [TURNS]     the program that ./parbegin has built, if none is given

`run` makes the picks, with one worker at quantum 4,096; `record` makes them so too, and writes the text with their pick
lines; `replay` reads what `record` wrote and makes them again. Says milliseconds of processor time of a whole call, user
and system, the least of all turns, from which those of `check` on the same text are taken off, since all three compile
it; the ratios to `run`; and the bytes that `record` wrote. That `replay` writes what `run` does, except for the last line,
is checked.

A second table says what `--seed` costs: milliseconds of `record` without a seed and with one, taken the same way, their ratio,
and the nanoseconds that each drawn pick takes more. That `replay` accepts what was drawn is checked.

    python3 benches/history.py instructions [PROGRAM]

counts the processor's instructions in place of the time, which no other work disturbs, and has the machine alone beside
them: the small proved program of benches/silent.py, which makes the same picks by silent runs of at most 4,096. Those of
`record` and `replay` with no pick are taken off. Wants `rt` and `valgrind`.
"""
import os
import pathlib
import subprocess
import sys

import silent
from scratch import MACHINE_NEEDS, TOP, build_proved, instructions, instructions_a_round, print_table, scratch_folder

COUNTS = sys.argv[1:2] == ["instructions"]
WORDS = sys.argv[1 + COUNTS:]
PROGRAM = pathlib.Path(WORDS[0]) if WORDS else TOP / "script" / "tools.sh"
TURNS = int(WORDS[1]) if len(WORDS) > 1 else 9
STEPS = 10_000_000
# The greatest, at which `run` takes hardly more than the machine alone.
QUANTUM = ["--quantum", "4096"]

# Each runs longer than its steps. The last prints in each round; all but the one of two arms are one pick line.
TEXTS = {
    "count": ("process p begin integer i; while i < 100000000 do i := i + 1 od end", STEPS),
    "nested": ("process p begin integer i, j, s; while i < 100000 do j := 0;"
               " while j < 400 do s := s + i * j mod 7919; j := j + 1 od; i := i + 1 od end", STEPS),
    "two arms": ("process p begin integer i, j; parbegin while i < 100000000 do i := i + 1 od;"
                 " while j < 100000000 do j := j + 1 od parend end", STEPS),
    "prints": ("process p begin integer i; while i < 100000000 do i := i + 1; print i od end", STEPS // 10),
}

# How many picks are drawn.
DRAWN = 400_000

# Texts whose picks are drawn: of one arm, of two, of the two of each of four processes, and of two jobs that often wait for
# one another.
SEEDED = {
    "count": TEXTS["count"][0],
    "two arms": TEXTS["two arms"][0],
    "eight arms": " ".join(TEXTS["two arms"][0].replace("process p", f"process p{it}") for it in range(4)),
    "two devices": "resource tape = 1; resource disk = 1;"
                   " process a begin integer i; while 1 do hold 1 of tape do hold 1 of disk do i := i + 1 od od od end"
                   " process b begin integer i; while 1 do hold 1 of disk do hold 1 of tape do i := i + 1 od od od end",
}


def call(words, given, output):
    """The processor time of a call in seconds."""
    with open(given, "rb") as text, open(output, "wb") as said:
        process = subprocess.Popen([PROGRAM, *words], stdin=text, stdout=said)
        _, _, used = os.wait4(process.pid, 0)
    return used.ru_utime + used.ru_stime


def lines_but_the_last(file):
    return file.read_bytes().splitlines()[:-1]


def row(folder, name, text, steps):
    """The times of one text."""
    given, ran, recorded, replayed = (folder / it for it in ("text", "ran", "recorded", "replayed"))
    given.write_text(text + "\n")
    limit = ["--steps", str(steps), *QUANTUM]
    calls = {
        "check": lambda: call(["check"], given, os.devnull),
        "run": lambda: call(["run", *limit], given, ran),
        "record": lambda: call(["record", *limit], given, recorded),
        "replay": lambda: call(["replay"], recorded, replayed),
    }
    best = {it: float("inf") for it in calls}
    for _ in range(TURNS):
        for it, made in calls.items():
            best[it] = min(best[it], made())
    if lines_but_the_last(ran) != lines_but_the_last(replayed):
        raise SystemExit(f"replay of {name} does not show what run shows")
    run, record, replay = (best[it] - best["check"] for it in ("run", "record", "replay"))
    return [name, 1000 * run, 1000 * record, 1000 * replay, record / run, replay / run, recorded.stat().st_size]


def drawn_row(folder, name, text):
    """The times of one text with a seed and without."""
    given, drawn = (folder / it for it in ("text", "drawn"))
    given.write_text(text + "\n")
    record = ["record", "--steps", str(DRAWN), *QUANTUM]
    calls = {
        "check": lambda: call(["check"], given, os.devnull),
        "plain": lambda: call(record, given, os.devnull),
        "seeded": lambda: call([*record, "--seed", "7"], given, drawn),
    }
    best = {it: float("inf") for it in calls}
    for _ in range(TURNS):
        for it, made in calls.items():
            best[it] = min(best[it], made())
    with open(drawn, "rb") as picks:
        subprocess.run([PROGRAM, "replay"], stdin=picks, stdout=subprocess.DEVNULL, check=True)
    plain, seeded = (best[it] - best["check"] for it in ("plain", "seeded"))
    return [name, 1000 * plain, 1000 * seeded, seeded / plain, 1e9 * (seeded - plain) / DRAWN, drawn.stat().st_size]


def counted_row(proved, name):
    """The instructions of one of the programs of benches/silent.py, for each of its nearly ten million picks."""
    text = silent.text_program(*silent.program_of(name, True)).encode() + b"\n"
    replay, record = [PROGRAM, "replay"], [PROGRAM, "record", *QUANTUM, "--steps"]
    recorded = subprocess.run([*record, str(STEPS)], input=text, stdout=subprocess.PIPE, check=True).stdout
    picks = silent.picks_recorded(PROGRAM, text)
    alone = instructions_a_round([proved, silent.LONG], text, 2) / picks
    replayed = (instructions(replay, recorded) - instructions(replay, text)) / picks
    made = (instructions([*record, STEPS], text) - instructions([*record, 0], text)) / picks
    return [name, picks, alone, replayed, made, replayed / alone, made / alone]


def count():
    with scratch_folder() as folder:
        proved = build_proved(folder, MACHINE_NEEDS, silent.FILES)
        rows = [counted_row(proved, name) for name in ("count", "nested")]
    print_table(["text", "picks", "machine", "replay", "record", "replay by machine", "record by machine"], rows)


def main():
    with scratch_folder() as folder:
        rows = [row(folder, name, *it) for name, it in TEXTS.items()]
        drawn = [drawn_row(folder, name, text) for name, text in SEEDED.items()]
    print_table(["text", "run", "record", "replay", "record by run", "replay by run", "bytes recorded"], rows)
    print_table(["text", "record", "record --seed", "ratio", "ns more a pick", "bytes recorded"], drawn)


count() if COUNTS else main()
