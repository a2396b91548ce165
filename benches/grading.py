#!/usr/bin/env python3
"""Times how 100 submissions are graded: by `grade`, and by a loop that starts the script for each text.

    benches/grading.py [PROGRAM]     PROGRAM is the one that ./parbegin has built if none is given

The submissions are the texts of examples/10-grading, over and over. Each is told whether it prints what is wanted
under every schedule. It says the seconds of a whole line of shell, the least of three rounds in which the ways take turns.
All must say the same.
"""
from __future__ import annotations

import shutil
import subprocess
import sys
import tempfile
from pathlib import Path
from time import perf_counter

TOP = Path(__file__).resolve().parent.parent
sys.path.insert(0, str(TOP / "checks/lib"))
from calls import installed  # noqa: E402

TEXTS, ROUNDS = 100, 3
LOOP = """ls *.pb | xargs -P {} -n 1 sh -c 'echo "$0: $( (cat "$0"; echo; echo %%; cat ../wanted.txt) |
  "$GRADER" --quiet outcomes --expect | tail -n 1)"' | sort"""
WAYS = {
    "a loop, one at once": LOOP.format(1), "a loop, four at once": LOOP.format(4),
    "grade --jobs 1": '"$GRADER" --quiet grade --jobs 1 . ../wanted.txt', "grade": '"$GRADER" --quiet grade . ../wanted.txt',
    "grade --html": '"$GRADER" --quiet grade --html ../report.html . ../wanted.txt',
}


def write_texts(folder: Path) -> None:
    """Writes the submissions, and the prints that are wanted."""
    given = sorted((TOP / "examples/10-grading").glob("*.pb"))
    handed_in = folder / "handed_in"
    handed_in.mkdir()
    for number in range(TEXTS):
        shutil.copyfile(given[number % len(given)], handed_in / f"{number:03}.pb")
    shutil.copyfile(TOP / "examples/10-grading/wanted.txt", folder / "wanted.txt")


def graded(folder: Path, script: str, line: str) -> tuple[float, bytes]:
    """Returns the seconds in which all are graded, and what is said."""
    start = perf_counter()
    where = {"GRADER": script, "PATH": "/usr/bin:/bin"}
    ran = subprocess.run(["bash", "-c", line], cwd=folder / "handed_in", env=where, stdout=subprocess.PIPE, check=False)
    assert len(ran.stdout.splitlines()) == TEXTS, ran.stdout
    return perf_counter() - start, ran.stdout


def main() -> None:
    with tempfile.TemporaryDirectory(prefix="parbegin-grading-") as name:
        script = installed(f"{name}/installed")
        write_texts(Path(name))
        least: dict[str, float] = {}
        said = set()
        for _ in range(ROUNDS):
            for way, line in WAYS.items():
                seconds, told = graded(Path(name), script, line)
                least[way] = min(seconds, least.get(way, seconds))
                said.add(told)
        assert len(said) == 1, "the ways say different things"
        for way, seconds in least.items():
            print(f"{TEXTS} submissions, {way}: {seconds:.2f} seconds")


main()
