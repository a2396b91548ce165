"""The warnings of `check --warn`, taken from the program's lines, in words."""
from __future__ import annotations

import re
from collections.abc import Iterator

from script.messages import Finding, Place, Text
from script.places import shown

WARNING = re.compile(r"warning (?P<code>\w+) line (?P<line>\d+)(?: (?P<words>.*))?")
# What is warned of, by its code, with the words of the line.
SENTENCES = {
    "W1": "this parbegin has one arm, and nothing runs beside it",
    "W2": "the integer `{1}` of process `{0}` is never read",
    "W3": "the capital of resource `{0}` is {4}, and all claims on it together are {2}",
}
# Which word of the source line it is about, as a number of the line's words; of a parbegin that word itself.
ABOUT = {"W2": 1, "W3": 0}


def is_warning(line: str) -> bool:
    """Returns whether a line of the program is a warning."""
    return line.startswith("warning ")


def by_text(lines: list[str]) -> list[list[str]]:
    """Returns the lines of each text: what it is, and its warnings."""
    texts: list[list[str]] = []
    for line in lines:
        if texts and is_warning(line):
            texts[-1].append(line)
        else:
            texts.append([line])
    return texts


def place_in(text: Text, number: int, word: str) -> Place:
    """Returns the place of a word in a line of a text, or of the first byte that is no blank if it is not there."""
    line = text.given.split(b"\n")[number - 1]
    found = re.search(rb"(?<!\w)%s(?!\w)" % re.escape(word.encode()), line)
    column = found.start() if found else len(line) - len(line.lstrip())
    return Place(text.lines_before + number, column + 1, "")


def warning(text: Text, line: str) -> Finding:
    """Returns what a text is warned of by a line."""
    told = WARNING.fullmatch(line)
    if not told or told["code"] not in SENTENCES:
        return Finding(text, line, "warning", line, level="warning")
    code, words = told["code"], (told["words"] or "").split()
    place = place_in(text, int(told["line"]), words[ABOUT[code]] if code in ABOUT else "parbegin")
    return Finding(text, line, code, SENTENCES[code].format(*words), places=[place], level="warning")


def messages(texts: list[Text], lines: list[str]) -> Iterator[str]:
    """Yields for each warning among the lines of a file the lines that standard error has of it."""
    for text, (_, *warnings) in zip(texts, by_text(lines)):
        for found in (warning(text, it) for it in warnings):
            yield f"{shown(text.file)}: warning {found.code}: {found.message}\n"
            yield from (f"  --> line {place.line}, column {place.column}\n" for place in found.places)
