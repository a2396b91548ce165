#!/usr/bin/env python3
"""Measures what a newcomer types first, each in a fresh clone: the minutes by the clock, and those of processors.

    benches/first_call.py [NAME ..]     the names of CALLS; of several calls under a name only the last is measured, behind
                                        the others; `gate` only if it is named, all others if none is

Each is measured in a clone of its own, by an `rt` that finds nothing of what the kit keeps on this machine. For that
`rt` has no option and no variable: it keeps its files beside the folder of the kit that its own file is in. So each
clone has a kit of its own, of links to the files of the kit and copies of `rt`, and what is kept is gone with the
clone. With each figure it prints the median of the milliseconds that the loop of gate_minutes.py takes meanwhile, so
that a slow or a busy host is seen. The first code block of README.md and the first calls of docs/BUILDING.md are such
calls, as checks/quick/documents.py compares.
"""
from __future__ import annotations

import os
import resource
import shutil
import statistics
import subprocess
import sys
import tempfile
import threading
import time
from pathlib import Path

TOP = Path(__file__).resolve().parent.parent
# What is called, in turn, in one clone.
CALLS = {
    "try-bank": ["./parbegin --unproved bank"],
    "try-run": ["./parbegin --unproved run examples/devices.pb"],
    "bank": ["./parbegin bank"],
    "run": ["./parbegin run examples/devices.pb"],
    "outcomes": ["./parbegin run examples/devices.pb", "./parbegin outcomes examples/devices.pb"],
    "debug": ["./parbegin run examples/devices.pb", "./parbegin debug examples/lost.run"],
    "lsp": ["./parbegin run examples/devices.pb", "./parbegin lsp"],
    "build": ["./parbegin build"],
    "quick": ["./parbegin build", "checks/all.py quick"],
    "gate": [".ci/run"],
}
# The status of a call that is not to end with 0: nothing is given to it, which it refuses.
STATUSES = {"./parbegin lsp": 1}
# Longer than all others together.
UNASKED = [name for name in CALLS if name != "gate"]
# Where `rt` keeps what it has proved and built, beside the folder of its kit.
KEPT = "rattle-kept"


def loop() -> float:
    """Returns the milliseconds of a processor that the loop of gate_minutes.py takes now."""
    began, table, number = time.process_time(), {}, 0
    for it in range(200_000):
        number = (number * 1_103_515_245 + 12_345) & 0x7FFFFFFF
        table[number & 0xFFFF] = it
    return 1000 * (time.process_time() - began)


def empty_kit(folder: Path) -> Path:
    """Makes a kit in a folder whose `rt` has kept nothing yet, and returns the folder of its commands."""
    kit = Path(os.path.realpath(shutil.which("rt") or sys.exit("the kit's rt is not on the path"))).parent.parent
    commands = folder / "kit" / "bin"
    commands.mkdir(parents=True)
    for path in kit.iterdir():
        if path.name != "bin":
            (folder / "kit" / path.name).symlink_to(path)
    for path in (kit / "bin").iterdir():
        if path.name in ("rt", "rtlib.py"):
            shutil.copy(path, commands / path.name)
        else:
            (commands / path.name).symlink_to(path)
    return commands


def measure(name: str) -> None:
    """Measures the calls of a name in a fresh clone, and prints the minutes of the last one."""
    with tempfile.TemporaryDirectory(prefix="parbegin-first-") as folder:
        commands, clone = empty_kit(Path(folder)), Path(folder, "clone")
        subprocess.run(["git", "clone", "-q", TOP, clone], check=True)
        where = {**os.environ, "PATH": f"{commands}:{os.environ['PATH']}"}
        for call in CALLS[name]:
            clock, processors, loops = minutes_of(call, clone, where)
        if "--unproved" not in CALLS[name][-1] and not Path(folder, KEPT).is_dir():
            sys.exit(f"this kit's rt keeps nothing in {folder}, so what it found elsewhere is not known")
        loop_of_host = f"loop {statistics.median(loops):.0f} ms"
        print(f"{name:8} {clock:6.2f} minutes by the clock, {processors:6.2f} of processors; {loop_of_host}", flush=True)


def minutes_of(call: str, clone: Path, where: dict[str, str]) -> tuple[float, float, list[float]]:
    """Makes a call, and returns its minutes by the clock and of processors, and what the loop took meanwhile."""
    loops, ended = [loop()], threading.Event()

    def watch() -> None:
        while not ended.wait(20):
            loops.append(loop())

    watcher = threading.Thread(target=watch)
    watcher.start()
    before, began = resource.getrusage(resource.RUSAGE_CHILDREN), time.monotonic()
    how = {"stdin": subprocess.DEVNULL, "stdout": subprocess.DEVNULL, "check": False}
    ran = subprocess.run(call.split(), cwd=clone, env=where, **how)
    clock, after = time.monotonic() - began, resource.getrusage(resource.RUSAGE_CHILDREN)
    ended.set()
    watcher.join()
    if ran.returncode != STATUSES.get(call, 0):
        sys.exit(f"`{call}` ended with status {ran.returncode}")
    used = after.ru_utime + after.ru_stime - before.ru_utime - before.ru_stime
    return clock / 60, used / 60, loops


def main(words: list[str]) -> None:
    unknown = [word for word in words if word not in CALLS]
    if unknown:
        sys.exit(f"{unknown[0]} is none of {', '.join(CALLS)}")
    for name in words or UNASKED:
        measure(name)


if __name__ == "__main__":
    main(sys.argv[1:])
