#!/usr/bin/env python3
"""Times requests to the bank of the library, from C, at 64 jobs and 16 resources.

    benches/bank.py ARCHIVE [ARCHIVE ..]

An archive is crates/pb_c_bank/out/libpb_c_bank.a, as `rt lib` writes it there, or another version of it, which is then
timed beside the first, turn by turn in one run. Wants `gcc`. Says nanoseconds, the least of all turns, of

front   an ask that is granted and the give that takes it back, by a job that fits at once
last    the same, by a job that claims all, so that all others have to finish before it
leave   a job leaves and another one takes its slot
cash    refused, since there is too little cash
chain   refused after a search: each job fits only after the one that asked just after it
turned  refused after a search: each fits only after the one that asked just before it
zigzag  refused after a search: the jobs fit in turn from both ends of the order in which they asked
anew    granted, by an order that is another each time, and the give
"""
from __future__ import annotations

import subprocess
import sys
from pathlib import Path

from scratch import TOP, print_table, said, scratch_folder

JOBS, RESOURCES, TURNS = 64, 16, 41


def build(archive: Path, program: Path) -> None:
    """Builds the requests over one version of the bank."""
    source = TOP / "benches" / "bank" / "requests.c"
    header = TOP / "extras" / "library"
    subprocess.run(["gcc", "-std=c11", "-O2", f"-I{header}", source, archive, "-o", program], check=True)


def least_times(programs: list[Path]) -> dict[str, list[float]]:
    """Returns the least nanoseconds of each kind of request, by each program."""
    best: dict[str, list[float]] = {}
    for _ in range(TURNS):
        for i, program in enumerate(programs):
            words = said([program, JOBS, RESOURCES])
            for kind, time in zip(words[::2], words[1::2]):
                times = best.setdefault(kind, [float("inf")] * len(programs))
                times[i] = min(times[i], float(time))
    return best


def main(words: list[str]) -> None:
    if not words:
        sys.exit("usage: benches/bank.py ARCHIVE [ARCHIVE ..]")
    with scratch_folder() as folder:
        programs = [folder / f"requests_{i}" for i in range(len(words))]
        for archive, program in zip(words, programs):
            build(Path(archive), program)
        rows = [[kind, *times, *(time / times[0] for time in times[1:])] for kind, times in least_times(programs).items()]
    others = len(words) - 1
    print_table(["kind", *words, *["beside the first"] * others], rows)


if __name__ == "__main__":
    main(sys.argv[1:])
