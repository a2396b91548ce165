#!/usr/bin/env python3
"""Times one call of the script that checks 1,000 plans.

    benches/check_many.py [PROGRAM]     PROGRAM is the one that ./parbegin has built if none is given

Each plan is a text of some 2.5 KB: twelve jobs that hold three devices. It says the seconds of a whole call of the
installed script, the least of five rounds, with one process of the program at a time and with four.
"""
from __future__ import annotations

import random
import subprocess
import sys
import tempfile
from pathlib import Path
from time import perf_counter

sys.path.insert(0, str(Path(__file__).resolve().parent.parent / "checks/lib"))
from calls import installed  # noqa: E402

PLANS, JOBS, ROUNDS = 1_000, 12, 5
DEVICES = "resource tape = 9;\nresource disk = 9;\nresource plotter = 9;\n"


def job(draw: random.Random, number: int) -> str:
    """Returns a process that holds tapes and disks twice, and then plotters."""
    both = "".join(
        f"  hold {draw.randint(1, 4)} of tape do hold {draw.randint(1, 4)} of disk do print {turn} od od;\n" for turn in range(2)
    )
    return f"// job {number}: takes its devices one after the other\nprocess j{number}\nbegin\n{both}  hold {draw.randint(1, 9)} of plotter do skip od\nend\n"


def write_plans(folder: Path) -> list[Path]:
    """Writes the plans, and returns their paths."""
    draw, paths = random.Random(1), [folder / f"{number}.pb" for number in range(PLANS)]
    for path in paths:
        path.write_text(DEVICES + "".join(job(draw, number) for number in range(JOBS)))
    return paths


def seconds(words: list[str], paths: list[Path]) -> float:
    """Returns the seconds of a call."""
    start = perf_counter()
    subprocess.run([*words, *map(str, paths)], stdout=subprocess.DEVNULL, stderr=subprocess.DEVNULL, check=True)
    return perf_counter() - start


def main() -> None:
    with tempfile.TemporaryDirectory(prefix="parbegin-plans-") as name:
        script = installed(f"{name}/installed")
        folder = Path(name, "plans")
        folder.mkdir()
        paths = write_plans(folder)
        print(f"{PLANS} plans of {paths[0].stat().st_size} bytes, seconds of a call")
        for words in ([], ["--jobs", "4"], ["--format", "json"], ["--format", "json", "--jobs", "4"]):
            least = min(seconds([script, "check", *words], paths) for _ in range(ROUNDS))
            print(f"{' '.join(['check', *words])}: {least:.2f}")


main()
