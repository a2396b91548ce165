#!/usr/bin/env python3
"""Times debug sessions of the built program over ten million picks beside a replay of them, turn by turn in one run.

    python3 benches/debugger.py [PROGRAM] [TURNS]     the program that ./parbegin has built, if none is given

A session reads a text and its pick lines and goes over the picks once; then it goes where its commands say, from the
nearest of its checkpoints. Says milliseconds of processor time of a whole call, user and system, the least of all turns:
of `replay`, of a session with no command, and what each move takes beside that, in sessions of twenty; the ratios to
`replay`; and the most memory that each took, in megabytes.
"""
import os
import pathlib
import subprocess
import sys

from scratch import TOP, print_table, scratch_folder

PROGRAM = pathlib.Path(sys.argv[1]) if len(sys.argv) > 1 else TOP / "script" / "tools.sh"
TURNS = int(sys.argv[2]) if len(sys.argv) > 2 else 9
PICKS, MOVES = 10_000_000, 20

# Each makes as many picks of one arm, with no event.
TEXTS = {
    "count": "process p begin integer i; while i < 100000000 do i := i + 1 od end",
    "nested": "process p begin integer i, j, s; while i < 100000 do j := 0;"
              " while j < 400 do s := s + i * j mod 7919; j := j + 1 od; i := i + 1 od end",
}

# Moves between places that are each the farthest from a checkpoint, forward and back.
FAR = PICKS // 64 - 1
SESSIONS = {
    "none": [],
    "to": [f"to {(17 * turn % 63) * (PICKS // 64) + FAR}" for turn in range(MOVES)],
    "back": [f"to {PICKS}"] + ["back 1"] * (MOVES - 1),
}


def call(word, given):
    """The processor time of a call in seconds, and the most memory that it took in megabytes."""
    with open(given, "rb") as text:
        process = subprocess.Popen([PROGRAM, word], stdin=text, stdout=subprocess.DEVNULL)
        _, status, used = os.wait4(process.pid, 0)
    if status != 0:
        raise SystemExit(f"{word} ended with {status}")
    return used.ru_utime + used.ru_stime, used.ru_maxrss / 1024


def row(folder, name, text):
    files = {"replay": folder / f"{name}.run"}
    recorded = f"{text}\n%%\np.0 {PICKS}\n"
    files["replay"].write_text(recorded)
    for session, commands in SESSIONS.items():
        files[session] = folder / f"{name}.{session}"
        files[session].write_text(recorded + "%%\n" + "".join(f"{it}\n" for it in commands))
    best, memory = dict.fromkeys(files, float("inf")), {}
    for _ in range(TURNS):
        for it, file in files.items():
            took, memory[it] = call("replay" if it == "replay" else "debug", file)
            best[it] = min(best[it], took)
    moves = [(best[it] - best["none"]) / MOVES for it in ("to", "back")]
    milliseconds = [1000 * it for it in (best["replay"], best["none"], *moves)]
    ratios = [it / best["replay"] for it in (best["none"], *moves)]
    return [name, *milliseconds, *ratios, memory["replay"], memory["back"]]


def main():
    with scratch_folder() as folder:
        rows = [row(folder, name, text) for name, text in TEXTS.items()]
    print_table(["text", "replay", "session", "a move by to", "a move by back", "session by replay", "to by replay",
                 "back by replay", "MB of replay", "MB of a session"], rows)


main()
