#!/usr/bin/env python3
"""Counts what has to be believed to believe `run`, and compares README.md and docs/ARCHITECTURE.md with the counts.

    checks/quick/believed.py

These are the files of specs/ that the contract of `run` cites, by themselves or through one another, as
checks/quick/rooms.py finds them. Lines are counted without comments, imports and empty ones, and told as hundreds. The
status is 0 if both documents have the counts, and 1 if not.
"""
from __future__ import annotations

import re
import sys
from pathlib import Path

from rooms import RUN, TOP, rests_on

DOCUMENTS = ("README.md", "docs/ARCHITECTURE.md")
# A line of a file of specs/ that says nothing by itself.
SILENT = re.compile(r"\s*(?:--|(?:pub |ghost )*(?:use|mod) |$)")


def lines_of(file: Path) -> int:
    """Returns the number of lines of a file of specs/ without comments, imports and empty ones."""
    return sum(not SILENT.match(line) for line in file.read_text(encoding="utf-8").splitlines())


def hundreds(files: list[Path]) -> str:
    """Returns the number of lines of files, rounded to hundreds, as documents write it."""
    return f"{round(sum(map(lines_of, files)), -2):,}"


def main() -> int:
    believed = sorted(it for it in rests_on(RUN) if it.suffix == ".antt")
    wanted = [f"{len(believed)} files of ", f"{hundreds(believed)} lines", f"{hundreds(sorted(TOP.glob('crates/*/specs/*.antt')))} "]
    faults = 0
    for name in DOCUMENTS:
        text = " ".join((TOP / name).read_text(encoding="utf-8").split())
        for part in wanted:
            if part not in text:
                faults += 1
                print(f"{name} has not: {part}")
    print(f"{len(believed)} files, {hundreds(believed)} lines, {faults} faults")
    return 1 if faults else 0


if __name__ == "__main__":
    sys.exit(main())
