#!/usr/bin/env python3
"""Looks whether docs/PROMISES.md has a row for each command and each law, and stays short.

    checks/quick/promises.py

A law is a public function of a file crates/NAME/src/*laws.rt. The row that names it is the crate's own, or stands below
a row that links the file. The document has at most 3,500 words. The status is 0 if all that is so, and 1 if not.
"""
from __future__ import annotations

import re
import sys
from pathlib import Path

TOP = Path(__file__).resolve().parents[2]
sys.path.insert(1, str(TOP))

from script.tools import COMMANDS  # noqa: E402

DOCUMENT = TOP / "docs/PROMISES.md"
WORDS = 3500
FILE = re.compile(r"\]\(\.\./(crates/\w+/src/\w*laws\.rt)\)")
LAW = re.compile(r"^pub fn (\w+)", re.M)


def rows_of(text: str, heading: str) -> list[str]:
    """Returns the first cell of each row of the table below a heading."""
    section = text.partition(f"\n## {heading}\n")[2].partition("\n## ")[0]
    return re.findall(r"^\| (.*?) \|", section, re.M)


def named_laws(cells: list[str]) -> set[tuple[str, str]]:
    """Returns the laws that rows name, each with the file that its row or one above links."""
    found, file = set(), ""
    for cell in cells:
        file = next(iter(FILE.findall(cell)), file)
        found |= {(file, name) for name in re.findall(r"`(\w+)`", cell)}
    return found


def main() -> int:
    text = DOCUMENT.read_text(encoding="utf-8")
    files = [it for it in TOP.glob("crates/pb_*/src/*laws.rt") if it.is_file()]
    laws = {(str(it.relative_to(TOP)), name) for it in files for name in LAW.findall(it.read_text(encoding="utf-8"))}
    named = named_laws(rows_of(text, "Laws"))
    commands = {name.split()[0] for cell in rows_of(text, "Commands") for name in re.findall(r"`([^`]+)`", cell)}
    faults = [f"no row has the law {name} of {file}" for file, name in sorted(laws - named)]
    faults += [f"there is no law {name} in {file}" for file, name in sorted(named - laws)]
    faults += [f"no row has the command {name}" for name in sorted(set(COMMANDS) - commands)]
    count = len(text.split())
    faults += [f"{count} words are more than {WORDS}"] if count > WORDS else []
    for fault in faults:
        print(fault)
    print(f"{len(laws)} laws, {len(COMMANDS)} commands, {count} words, {len(faults)} faults")
    return 1 if faults else 0


if __name__ == "__main__":
    sys.exit(main())
