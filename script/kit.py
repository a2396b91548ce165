"""The kit's command rt, and what it does here in other ways than alone."""
from __future__ import annotations

import os
import re
import shutil
import sys

from script.places import stop

MEMORY_OF_A_JOB = 2_000_000_000

# Runs the kit's rt with other locks, smaller libraries and fewer readings of the sources. Alone, rt locks the folders of a
# crate and of all crates below it against any other rt, so that two crates on one base are built in turn. Here the crates
# below are built already and only read: the locks of their folders are shared, and the crate's own and any lock on a file
# stay exclusive. And as in rt ci, a library that is built for the first time keeps what it states, and not its proofs: the
# crates above would read them again. Built once more, it keeps them, so that what has not changed is not proved a third
# time. And rt reads the sources of all crates below three times for each of them; here once, since this script looks for
# changes at the end.
BUILDING = """
import fcntl, os, runpy, sys
lock, own = fcntl.flock, os.stat(".")
def share(file, how):
    number = file if isinstance(file, int) else file.fileno()
    is_below = os.path.isdir(f"/proc/self/fd/{number}") and not os.path.samestat(os.fstat(number), own)
    return lock(file, how & ~fcntl.LOCK_EX | fcntl.LOCK_SH if is_below else how)
fcntl.flock = share
is_first = not os.path.isdir("out/rlib") and not os.path.isdir("out/incremental")
kit = runpy.run_path(sys.argv[1], run_name="kit")
library = sys.modules["rtlib"].Crate
call = library.call
def cut(crate, *words):
    if is_first and words[1] == "build" and words[-1].endswith(".rlib"):
        kept = words.index("--incremental")
        words = *words[:kept], *words[kept + 2 :], "--statements"
    return call(crate, *words)
library.call = cut
stamp, stamps = library.stamp, {}
def stamp_of(crate):
    if os.path.samefile(crate.folder, "."):
        return stamp(crate)
    if crate.folder not in stamps:
        stamps[crate.folder] = stamp(crate)
    return stamps[crate.folder]
library.stamp = stamp_of
sys.exit(kit["main"](sys.argv[2:]))
"""


def rt_path() -> str:
    """Returns the path of the kit's rt."""
    return shutil.which("rt") or stop("the kit's command rt is not on the path, and the program has to be built")


def kit() -> list[str]:
    """Returns the words that start the kit's rt beside others."""
    rt = rt_path()
    with open(rt, "rb") as file:
        is_python = b"python" in file.readline()
    return [sys.executable, "-c", BUILDING, os.path.realpath(rt)] if is_python else [rt]


def slots() -> int:
    """Returns how many jobs processors and memory allow."""
    with open("/proc/meminfo", encoding="utf-8") as file:
        found = re.search(r"MemAvailable:\s+(\d+)", file.read())
    free = 1024 * int(found[1]) if found else MEMORY_OF_A_JOB
    return max(1, min(len(os.sched_getaffinity(0)), free // MEMORY_OF_A_JOB))
