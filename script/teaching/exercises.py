"""Exercises: what is asked of a text, as files of Markdown have it (docs/TEACHING.md, "An exercise").

A file begins with a heading, its title. Blocks between fences with one of the words of `KINDS` after the first fence are for
the judge; the others and all else are the statement, in any language.
"""
from __future__ import annotations

import html
import os
import re
from dataclasses import dataclass, field
from typing import NamedTuple

from script.expected import WITHOUT, WITH_VALUE
from script.options import WrongWords, read_options

FENCE = re.compile(r"^```([a-z]*)(?: ([^\n]*))?\n(.*?)^```\n?", re.M | re.S)
ANY_FENCE = re.compile(r"(^```[^\n]*\n.*?^```\n?)", re.M | re.S)
KINDS = ("start", "solution", "prints", "options", "outcomes", "rules", "hints", "wrong")
NAME, MOST_BYTES = re.compile(r"[A-Za-z0-9_-]{1,60}\.md"), 200_000
FLAGS = ("no deadlock by cash", "a deadlock by cash", "ends", "ends if fair", "no fault")
COUNTS = re.compile(r"(outcomes|orders): ([0-9]{1,4})")
CAPITAL = re.compile(r"capital: (\w+) ([0-9]{1,7})")
CLAIM = re.compile(r"claim: (\w+) ([0-9]{1,7}) (\w+)")
CODE = re.compile(r"code: (\w+) ([a-z]+) ([0-9]{1,5})")
REFUSED = re.compile(r"refused: ([A-Z][0-9])")
HINT = re.compile(r"([a-z]+): (.+)")
# What may be wrong with a text, by which a hint and a wrong answer name it.
FAULTS = (
    "refused", "names", "required", "prints", "fault", "deadlock", "endless", "capital", "claim", "code", "outcomes", "orders",
    "accepted", "limit",
)


class Unusable(Exception):
    """A file that is no exercise, and why."""


class Needed(NamedTuple):
    """So many instructions of a kind in the code of a process, or so much of a resource that it claims."""

    process: str
    what: str
    least: int


@dataclass
class Rules:
    """What is asked of a text beside its prints and outcomes."""

    flags: set[str] = field(default_factory=set)
    counts: dict[str, int] = field(default_factory=dict)
    capitals: dict[str, int] = field(default_factory=dict)
    claims: list[Needed] = field(default_factory=list)
    code: list[Needed] = field(default_factory=list)
    refused: str = ""

    def take(self, line: str) -> bool:
        """Takes a line, and returns whether it is a rule."""
        if line in FLAGS:
            self.flags.add(line)
        elif it := COUNTS.fullmatch(line):
            self.counts[it[1]] = int(it[2])
        elif it := CAPITAL.fullmatch(line):
            self.capitals[it[1]] = int(it[2])
        elif it := CLAIM.fullmatch(line):
            self.claims.append(Needed(it[1], it[3], int(it[2])))
        elif it := CODE.fullmatch(line):
            self.code.append(Needed(it[1], it[2], int(it[3])))
        elif it := REFUSED.fullmatch(line):
            self.refused = it[1]
        else:
            return False
        return True

    def ask_something(self) -> bool:
        """Returns whether a rule says what a text has to do."""
        return bool(self.flags or self.counts or self.refused)


@dataclass
class Asked:
    """An exercise, as its file has it. Of the wrong answers each has with it what is wrong with it."""

    name: str
    title: str
    statement: str
    blocks: dict[str, str]
    rules: Rules
    options: dict[str, str]
    hints: dict[str, str]
    wrong: list[tuple[str, str]]

    def shown(self) -> dict[str, object]:
        """Returns what a student may know."""
        return {"name": self.name, "title": self.title, "statement": self.statement, "start": self.blocks.get("start", "")}


def spans(text: str) -> str:
    """Returns a line of Markdown as HTML: code, strong and emphasis, and nothing else."""
    parts = []
    for it in re.split(r"(`[^`]+`)", html.escape(text, quote=True)):
        if it.startswith("`") and len(it) > 2:
            parts.append(f"<code>{it[1:-1]}</code>")
        else:
            parts.append(re.sub(r"\*([^*]+)\*", r"<em>\1</em>", re.sub(r"\*\*([^*]+)\*\*", r"<strong>\1</strong>", it)))
    return "".join(parts)


def as_html(text: str) -> str:
    """Returns Markdown as HTML. All of it is escaped first: a statement can bring no element of its own."""
    parts = []
    for it in ANY_FENCE.split(text):
        if it.startswith("```"):
            parts.append(f"<pre>{html.escape(it.partition(chr(10))[2].rpartition('```')[0])}</pre>")
        else:
            parts += [block_as_html(block.strip("\n")) for block in re.split(r"\n\s*\n", it) if block.strip()]
    return "".join(parts)


def block_as_html(block: str) -> str:
    """Returns a list, a heading or a paragraph as HTML."""
    if all(re.match(r"[-*] |  ", line) for line in block.split("\n")):
        items = re.split(r"^[-*] ", block, flags=re.M)[1:]
        return "<ul>" + "".join(f"<li>{spans(it.strip())}</li>" for it in items) + "</ul>"
    heading = re.fullmatch(r"#+ (.*)", block)
    return f"<h3>{spans(heading[1])}</h3>" if heading else f"<p>{spans(block)}</p>"


def blocks_of(name: str, text: str) -> tuple[dict[str, str], list[tuple[str, str]]]:
    """Returns the blocks for the judge, and the wrong answers, each after what is wrong with it."""
    blocks: dict[str, str] = {}
    wrong: list[tuple[str, str]] = []
    for kind, more, content in FENCE.findall(text):
        if kind == "wrong":
            if more not in FAULTS:
                raise Unusable(f"{name}: a wrong answer has to say what is wrong with it: {', '.join(FAULTS)}")
            wrong.append((more, content))
        elif kind in KINDS:
            if kind in blocks:
                raise Unusable(f"{name}: two blocks {kind}")
            blocks[kind] = content
    return blocks, wrong


def lines_of(blocks: dict[str, str], kind: str) -> list[str]:
    """Returns the lines of a block that have something."""
    return [line for line in map(str.strip, blocks.get(kind, "").splitlines()) if line]


def rules_of(name: str, blocks: dict[str, str]) -> Rules:
    """Reads the rules."""
    rules = Rules()
    for line in lines_of(blocks, "rules"):
        if not rules.take(line):
            raise Unusable(f"{name}: no such rule: {line}")
    if not rules.ask_something() and not {"prints", "outcomes"} & blocks.keys():
        raise Unusable(f"{name}: nothing is asked of a text")
    return rules


def options_of(name: str, blocks: dict[str, str]) -> dict[str, str]:
    """Reads the options of the search."""
    words = [word for line in lines_of(blocks, "options") for word in line.split()]
    try:
        given = read_options(words, WITH_VALUE, WITHOUT)
    except WrongWords as wrong:
        raise Unusable(f"{name}: {wrong}") from None
    if given.others:
        raise Unusable(f"{name}: unexpected argument '{given.others[0]}' found")
    return given.options


def hints_of(name: str, blocks: dict[str, str]) -> dict[str, str]:
    """Reads what is said beside a verdict, by what is wrong."""
    hints = {}
    for line in lines_of(blocks, "hints"):
        it = HINT.fullmatch(line)
        if not it or it[1] not in FAULTS:
            raise Unusable(f"{name}: a hint has to say for which fault it is: {', '.join(FAULTS)}")
        hints[it[1]] = it[2]
    return hints


def read_page(name: str, text: str) -> Asked:
    """Reads an exercise."""
    title, _, rest = text.replace("\r\n", "\n").partition("\n")
    if not title.startswith("# "):
        raise Unusable(f"{name}: the first line is no heading, as `# Title`")
    blocks, wrong = blocks_of(name, rest)
    statement = FENCE.sub(lambda it: "" if it[1] in KINDS else it[0], rest)
    return Asked(name, title[2:].strip(), as_html(statement), blocks, rules_of(name, blocks), options_of(name, blocks),
                 hints_of(name, blocks), wrong)


def read_pages(folder: str) -> dict[str, Asked]:
    """Reads the exercises of a folder, in the order of their names."""
    found = {}
    for file in sorted(os.listdir(folder)):
        if NAME.fullmatch(file) and file != "README.md":
            with open(os.path.join(folder, file), encoding="utf-8", errors="replace") as opened:
                found[file[:-3]] = read_page(file[:-3], opened.read(MOST_BYTES))
    return found
