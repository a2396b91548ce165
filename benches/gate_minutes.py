#!/usr/bin/env python3
"""Runs the gate, or the command given, and prints the minutes of processors that each crate took, as a table.

    benches/gate_minutes.py [COMMAND ..]      .ci/run if no command is given; the table follows its output

Each second it reads the processor time of every rattle that the command has running, and takes crate and phase from
the command line and folder of the process. What a process uses in its last second is missed; the total is exact.
Below the table are the edits of must-fail/ that took longest, in seconds of a processor.

A minute of a processor does more or less work as others use its host. So each 20 seconds it times a loop of its own,
which is always the same, and prints the least, the median and the most of these times: compare runs by their medians.
"""
import collections
import os
import re
import statistics
import subprocess
import sys
import time

TOP = os.path.dirname(os.path.dirname(os.path.realpath(__file__)))
PHASES = ("proof", "tests", "edits")
TICKS = os.sysconf("SC_CLK_TCK")
# How many of the edits are shown.
SHOWN = 60


def read(number):
    """Returns the start, parent, crate, phase, seconds and folder of a process; crate is None if it is no rattle."""
    try:
        with open(f"/proc/{number}/cmdline", "rb") as file:
            words = file.read().decode(errors="replace").split("\0")
        with open(f"/proc/{number}/stat", encoding="utf-8", errors="replace") as file:
            fields = file.read().rpartition(")")[2].split()
        folder = os.readlink(f"/proc/{number}/cwd")
    except OSError:
        return None
    crate = phase = None
    if os.path.basename(words[0]) == "rattle" and "--crate-name" in words:
        crate = words[words.index("--crate-name") + 1]
        phase = "edits" if os.path.basename(folder).startswith("rt-edit-") else "tests" if "--test" in words else "proof"
    return fields[19], int(fields[1]), crate, phase, (int(fields[11]) + int(fields[12])) / TICKS, folder


def below(top):
    """Returns what read says of each rattle that the process top has started, by number and start."""
    every = {int(it): read(it) for it in os.listdir("/proc") if it.isdigit()}
    every = {number: it for number, it in every.items() if it}

    def is_below(number):
        while number in every and number != top:
            number = every[number][1]
        return number == top

    return {(number, it[0]): it[2:] for number, it in every.items() if it[2] and is_below(number)}


def edits_of(crate):
    folder = f"{TOP}/crates/{crate}/must-fail"
    return sum(name.endswith(".edit") for name in os.listdir(folder)) if os.path.isdir(folder) else 0


def bare(text):
    """Returns a text without white space, so that it does not matter where an edit breaks its lines."""
    return "".join(text.split())


def edit_in(folder, crate):
    """Returns the name of the edit that the copy of a crate in this folder has, or None if it has none."""
    top = f"{TOP}/crates/{crate}"
    for name in sorted(os.listdir(f"{top}/must-fail")) if edits_of(crate) else ():
        with open(f"{top}/must-fail/{name}", encoding="utf-8") as file:
            source, _, edit = file.read().removeprefix("file: ").partition("\n")
        try:
            with open(f"{top}/{source}", encoding="utf-8") as file:
                wanted = bare(file.read())
            with open(f"{folder}/{source}", encoding="utf-8") as file:
                tried = bare(file.read())
        except OSError:
            continue
        for old, new in re.findall(r"^old:(.*?)^new:(.*?)(?=^old:|^file:|\Z)", edit, re.M | re.S):
            wanted = wanted.replace(bare(old), bare(new), 1)
        if tried == wanted:
            return name.removesuffix(".edit")
    return None


def loop():
    """Returns the milliseconds of a processor that the loop takes now."""
    began, table, number = time.process_time(), {}, 0
    for it in range(200_000):
        number = (number * 1_103_515_245 + 12_345) & 0x7FFFFFFF
        table[number & 0xFFFF] = it
    return 1000 * (time.process_time() - began)


def main(words):
    began, seen, edits_seen, loops = time.monotonic(), {}, {}, [loop()]
    ran = subprocess.Popen(words or [f"{TOP}/.ci/run"], cwd=None if words else TOP)
    while ran.poll() is None:
        now = below(ran.pid)
        seen.update(now)
        for it, (crate, phase, _, folder) in now.items():
            if phase == "edits" and it not in edits_seen:
                edits_seen[it] = edit_in(folder, crate)
        if time.monotonic() - began >= 20 * len(loops):
            loops.append(loop())
        time.sleep(1)
    spent = collections.Counter()
    for crate, phase, seconds, _ in seen.values():
        spent[crate, phase] += seconds / 60
    print("\n| Crate | Proof from nothing | The same with tests | Must-fail edits | Minutes for the edits |\n|---|---|---|---|---|")
    for crate in sorted({crate for crate, _ in spent}):
        proof, tests, edits = (f"{spent[crate, it]:.1f}" if spent[crate, it] else "" for it in PHASES)
        print(f"| {crate} | {proof} | {tests} | {edits_of(crate) or 'none'} | {edits} |")
    sums = ", ".join(f"{phase} {sum(it for (_, of), it in spent.items() if of == phase):.1f}" for phase in PHASES)
    used = os.times()
    total, clock = (used.children_user + used.children_system) / 60, (time.monotonic() - began) / 60
    print(f"\n{sums}; in all {total:.1f} minutes of processors, {clock:.1f} by the clock")
    dear = sorted(((seen[it][2], f"{seen[it][0]}/{name}") for it, name in edits_seen.items() if name), reverse=True)
    print("\n".join(f"{seconds:6.0f} {name}" for seconds, name in dear[:SHOWN]))
    least, median, most = min(loops), statistics.median(loops), max(loops)
    print(f"the loop took {least:.0f} to {most:.0f} milliseconds, with a median of {median:.0f}")
    return ran.returncode


if __name__ == "__main__":
    sys.exit(main(sys.argv[1:]))
