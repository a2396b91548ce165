#!/usr/bin/env python3
"""Looks at the words of the documents, as docs/WORDS.md has them, and at the length of sentences.

    checks/quick/wording.py

*behind* is of place alone, and nothing is *worked out*; what commands write is not looked at, so neither are blocks
that show it, nor docs/REFUSALS.md. In the documents of `BRIEF` the mean sentence has fewer than 20 words, without
tables and blocks. The status is 0 if all that is so, and 1 if not.
"""
from __future__ import annotations

import re
import sys
from pathlib import Path

TOP = Path(__file__).resolve().parents[2]
DOCUMENTS = [TOP / "README.md", *sorted((TOP / "docs").rglob("*.md"))]
WRITTEN = TOP / "docs/REFUSALS.md"
BRIEF = ("docs/PROMISES.md", "docs/DECISIONS.md", "docs/GATE.md")
MOST = 20
BLOCK = re.compile(r"^( *)```.*?^\1```$", re.M | re.S)
# *behind* of place, or as a word that is spoken of.
OF_PLACE = re.compile(r"engines? behind|behind a lock|behind `pub use`|\*behind\*", re.I)
WORKED = re.compile(r"(?<!\*)\b(?:work|works|worked|working) out\b", re.I)
ITEM = re.compile(r"\s*(?:[-*]|\d+\.) ")
END = re.compile(r"(?<=[.?!])\s+(?=[A-Z*`\"(\[0-9])")


def wrong_words(text: str) -> list[str]:
    """Returns the lines of a document that have a word in another meaning than docs/WORDS.md gives it."""
    lines = BLOCK.sub("", text).splitlines()
    return [it for it in lines if re.search(r"\bbehind\b", OF_PLACE.sub("", it), re.I) or WORKED.search(it)]


def paragraphs(text: str) -> list[str]:
    """Returns the paragraphs and the items of a document, without headings, tables and blocks."""
    found = [""]
    for line in BLOCK.sub("", text).splitlines():
        if not line.strip() or line.startswith(("#", "|", "    ")):
            found.append("")
        elif ITEM.match(line):
            found.append(ITEM.sub("", line, count=1))
        else:
            found[-1] = f"{found[-1]} {line.strip()}"
    return [it for it in found if it]


def mean_sentence(text: str) -> float:
    """Returns how many words a sentence has on the average. A point within backquotes ends none."""
    plain = [re.sub(r"`[^`]*`", lambda it: it[0].replace(" ", "\0"), it) for it in paragraphs(text)]
    counts = [sum(bool(re.search(r"\w", word)) for word in re.split(r"[\s\0]", one)) for it in plain for one in END.split(it)]
    return sum(counts) / len(counts)


def main() -> int:
    faults = 0
    for document in DOCUMENTS:
        lines = [] if document == WRITTEN else wrong_words(document.read_text(encoding="utf-8"))
        faults += len(lines)
        for line in lines:
            print(f"{document.relative_to(TOP)}: {line}")
    for name in BRIEF:
        mean = mean_sentence((TOP / name).read_text(encoding="utf-8"))
        faults += mean >= MOST
        print(f"{name}: {mean:.1f} words a sentence")
    print(f"{len(DOCUMENTS)} documents, {faults} faults")
    return 1 if faults else 0


if __name__ == "__main__":
    sys.exit(main())
