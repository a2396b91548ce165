"""`outcomes --expect`: the verdict, the run that is not as expected, and where its prints differ from those wanted, or how it goes round."""
from __future__ import annotations

import re
import subprocess
from collections import Counter
from dataclasses import dataclass, field
from typing import NamedTuple

from script.files import parts_of, read_input
from script.places import UNEXPECTED, say
from script.standard import write
from script.where import faults_of, rounds_of

PRINT = re.compile(r"\w+\.\d+ print -?\d+")
PICK = re.compile(r"\w+\.\d+ \d+")
OVER = re.compile(r"(\w+) (faulted|waits)")
# A line before the print lines, which requires something of the text.
REQUIRES = re.compile(r"(claims|has) ")
# The line by which the program says what it found.
VERDICT = re.compile(r"as expected|not as expected: .*|refused \w+.*|more than \d+ .*|memory")
# The verdicts of a text of which each run that ends is as expected.
ENDLESS = ("not as expected: some run does not end", "not as expected: some fair run does not end")
# Options of the program by which runs are compared: those with a value, and those without.
WITH_VALUE, WITHOUT = ("--lend", "--states"), ("--any-order", "--fair")
# The most pick lines of each part of a run that never ends that are said.
MOST_SAID = 8
# What is said of prints that end before those that are wanted do, and of wanted ones that end before.
NO_MORE = "no more"


class Difference(NamedTuple):
    """Where prints differ: the number of the line, from 1, what is wanted there and what came."""

    number: int
    wanted: str
    came: str

    def __str__(self) -> str:
        return f"line {self.number} of the prints: wanted {self.wanted}, got {self.came}"


class Circle(NamedTuple):
    """A run that never ends, by pick lines: those that lead into a circle, and those that go round it."""

    lead: list[str]
    around: list[str]

    def __str__(self) -> str:
        before = f"{some_of(self.lead)}, and then " if self.lead else ""
        return f"a run that does not end: {before}again and again {some_of(self.around)}"


def some_of(picks: list[str]) -> str:
    """Returns the first pick lines as a list in a sentence, and how many there are more."""
    more = f" and {len(picks) - MOST_SAID} lines more" if len(picks) > MOST_SAID else ""
    return ", ".join(picks[:MOST_SAID]) + more


@dataclass
class Told:
    """What the program says of a text and the prints that are wanted of it."""

    verdict: str
    printed: list[str] = field(default_factory=list)
    picks: list[str] = field(default_factory=list)
    ends: dict[str, str] = field(default_factory=dict)
    # By lines of the text: where processes faulted, or which lines arms go round.
    where: list[str] = field(default_factory=list)


def read_told(lines: list[str]) -> Told:
    """Reads what the program writes."""
    told, is_reached = Told((list(filter(VERDICT.fullmatch, lines)) or lines or ["no answer"])[-1]), False
    for line in lines:
        over = OVER.fullmatch(line)
        is_reached |= line == "reached by"
        if PRINT.fullmatch(line):
            told.printed.append(line)
        elif is_reached and PICK.fullmatch(line):
            told.picks.append(line)
        elif over:
            told.ends[over[1]] = over[2]
    return told


def circle_of(start: list[str], words: list[str], text: bytes) -> Circle | None:
    """Returns a run of a text that never ends, as `outcomes --endless` tells it, with the other words of a call of
    `outcomes --expect`."""
    others = [word for word in words if word not in ("--expect", "--any-order", "--endless")]
    call = [*start, "outcomes", "--endless", *others]
    lines = subprocess.run(call, input=text, capture_output=True, check=False).stdout.decode(errors="replace").splitlines()
    if "round" not in lines:
        return None
    at = lines.index("round")
    return Circle(lines[lines.index("reached by") + 1 : at], lines[at + 1 : -1])


def lending_of(words: list[str]) -> list[str]:
    """Returns the words of a call that say who lends."""
    found: list[str] = []
    for at, word in enumerate(words):
        if word == "--lend":
            found = words[at : at + 2]
        elif word.startswith("--lend="):
            found = [word]
    return found


def find_where(start: list[str], words: list[str], text: bytes, told: Told) -> Circle | None:
    """Adds to what is told of a text where processes faulted in the run that is told, or which lines arms go round in one that
    never ends, and returns the latter run."""
    if "faulted" in told.ends.values():
        told.where = faults_of(start, text, told.picks, lending_of(words))
    circle = circle_of(start, words, text) if told.verdict in ENDLESS else None
    if circle is not None:
        told.where = rounds_of(start, text, circle.lead, circle.around, lending_of(words))
    return circle


def prints_of(lines: list[str]) -> list[str]:
    """Returns the lines after a line `%%` that are to be printed."""
    return [line for line in lines if not REQUIRES.match(line)]


def difference(wanted: list[str], printed: list[str], in_any_order: bool) -> Difference | None:
    """Returns where prints differ from those that are wanted first, or nothing if they do not."""
    if in_any_order:
        return difference_of_bags(wanted, printed)
    for at in range(max(len(wanted), len(printed))):
        want, came = (lines[at] if at < len(lines) else NO_MORE for lines in (wanted, printed))
        if want != came:
            return Difference(at + 1, want, came)
    return None


def difference_of_bags(wanted: list[str], printed: list[str]) -> Difference | None:
    """Returns the first print that is too many, and the first that is wanted and did not come; nothing if neither is."""
    left = Counter(wanted)
    number, came = len(printed) + 1, NO_MORE
    for at, line in enumerate(printed, 1):
        left[line] -= 1
        if left[line] < 0 and came == NO_MORE:
            number, came = at, line
    missing = next((line for line in wanted if left[line] > 0), NO_MORE)
    return None if (missing, came) == (NO_MORE, NO_MORE) else Difference(number, missing, came)


def ends_in_words(told: Told) -> str:
    """Returns where processes faulted or go round, or else which faulted, or wait: `p faulted`, `p and q wait`."""
    if told.where:
        return ", ".join(told.where)
    faulted = [name for name, end in told.ends.items() if end == "faulted"]
    if faulted:
        return f"{' and '.join(faulted)} faulted"
    waiting = [name for name, end in told.ends.items() if end == "waits"]
    return f"{' and '.join(waiting)} wait{'s' if len(waiting) == 1 else ''}" if waiting else ""


def run_expected(start: list[str], words: list[str]) -> int:
    """Runs `outcomes --expect` on standard input, says where the prints differ of a run that it tells, and returns the
    status."""
    given = read_input()
    ran = subprocess.run([*start, "outcomes", *words], input=given, stdout=subprocess.PIPE, check=False)
    failed = write(ran.stdout)
    if failed:
        return failed
    told, parts = read_told(ran.stdout.decode(errors="replace").splitlines()), parts_of(given)
    if ran.returncode == UNEXPECTED and told.picks and len(parts) < 3:
        wanted = prints_of(b"".join(parts[1:]).decode(errors="replace").splitlines())
        differs = difference(wanted, told.printed, "--any-order" in words)
        if differs:
            say(differs)
    circle = find_where(start, words, parts[0], told)
    for line in [*([circle] if circle else []), *told.where]:
        say(line)
    return ran.returncode if ran.returncode >= 0 else 128 - ran.returncode
