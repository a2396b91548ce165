"""What `plan` finds in a text, taken from the line and the message of the program, and what a warning is of."""
from __future__ import annotations

import re
from dataclasses import dataclass, field

HEAD = re.compile(r"error (\w+): (.*)")
# (what stands before a place: `1 of tape: `, `it is opened at `, `a comment? `)
PLACE = re.compile(r" *--> (?P<what>.*?)(?:text (?P<text>\d+), )?line (?P<line>\d+), column (?P<column>\d+)")
# A line of its text that a message names in its words.
NAMED_LINE = re.compile(r"\bof line (\d+)\b")
NOTE = re.compile(r" *= (?:(expected|hint): )?(.*)")
LINE = re.compile(r"refused (\w+)(?: at (\d+))?")


@dataclass(frozen=True)
class Place:
    """A place of a file, in lines and bytes from 1, and what is there, if more is to be said than the message.

    The file is that of the text of the finding if none is named.
    """

    line: int
    column: int
    what: str
    file: str = ""


@dataclass(frozen=True)
class Text:
    """A text of a file: its number, from 1, its bytes, and how many bytes and lines of the file are before it."""

    file: str
    number: int
    given: bytes
    bytes_before: int = 0
    lines_before: int = 0


@dataclass(frozen=True)
class Finding:
    """What is said of a text: the line of the answer, and of a refusal or a warning its code, words and places."""

    text: Text
    line: str
    code: str = ""
    message: str = ""
    offset: int | None = None
    places: list[Place] = field(default_factory=list)
    expected: list[str] = field(default_factory=list)
    hints: list[str] = field(default_factory=list)
    notes: list[str] = field(default_factory=list)
    level: str = "error"


@dataclass(frozen=True)
class Unread:
    """A file that cannot be read, and why."""

    file: str
    reason: str


def texts_of(file: str, given: bytes, parts: list[bytes]) -> list[Text]:
    """Returns the texts of a file, which lines `%%` separate."""
    texts, at, lines = [], 0, 0
    for number, part in enumerate(parts, 1):
        texts.append(Text(file, number, part, at, lines))
        at += len(part) + len(b"%%\n")
        lines += part.count(b"\n") + 1
    assert at - len(b"%%\n") in (len(given), len(given) + 1)
    return texts


def place_at(text: Text, at: int) -> Place:
    """Returns the place of a byte of a text in its file."""
    before = text.given[:at]
    return Place(text.lines_before + before.count(b"\n") + 1, at - before.rfind(b"\n"), "")


def place_of(text: Text, shown: re.Match[str]) -> Place:
    """Returns a place that a message shows of a text, in its file, with what is there: `1 of tape`, `it is opened here`."""
    what = re.sub(r" at$", " here", shown["what"].strip().removesuffix(":"))
    return Place(text.lines_before + int(shown["line"]), int(shown["column"]), what)


def in_lines_of_file(text: Text, words: str) -> str:
    """Returns words of a message with the lines of the file in the place of those of its text."""
    return NAMED_LINE.sub(lambda it: f"of line {text.lines_before + int(it[1])}", words)


def sort_notes(lines: list[str]) -> dict[str, list[str]]:
    """Returns what the notes of a message expect, hint at, and say beside."""
    kinds: dict[str, list[str]] = {"expected": [], "hint": [], "": []}
    for line in lines:
        note = NOTE.fullmatch(line)
        if note:
            kinds[note[1] or ""].append(note[2])
    return kinds


def finding(text: Text, line: str, message: str) -> Finding:
    """Returns what is said of a text by its line and by the message of it alone."""
    refusal = LINE.match(line)
    if not refusal:
        return Finding(text, line, line or "none", "out of memory" if line == "memory" else "it could not be checked")
    lines = message.splitlines()
    head = HEAD.match(lines[0]) if lines else None
    places = [place_of(text, it) for it in map(PLACE.fullmatch, lines) if it]
    at = int(refusal[2]) if refusal[2] else None
    if at is not None and not places:
        places = [place_at(text, at)]
    notes = sort_notes(lines)
    offset = None if at is None else text.bytes_before + at
    said = in_lines_of_file(text, head[2]) if head else line
    return Finding(text, line, refusal[1], said, offset, places, notes["expected"], notes["hint"], notes[""])
