#!/usr/bin/env python3
"""Makes the page of a program: one HTML file that needs nothing else.

    make_page.py PROGRAM[,WORD ..] [--seed N] [--lend WHO] [--from I] [--rows N] [--states N] FILE > page.html

PROGRAM is the program parbegin, with words that come before each command, if any. FILE has a text, or a text with the
picks of a run behind a line `%%`, as `record` writes it; or an object in the place of a text. The program writes the
data, each document as a line of JSON in which there is no `<` (docs/formats/pictures.md, "Documents for a page"); here it is put
into the template beside this file. Nothing of a text is looked at here, and no number is changed. The page has all
schedules by the banker, and if there are resources those by the cash alone, if they have at most 50,000 configurations or
what `--states` says. `--lend cash` is for the run: its picks are made by the cash alone, and of a text it is drawn, with
seed 1 if no other is given. Of an object the page has the run of its picks alone, since `outcomes` takes a text.

If the program refuses the text or the words, what it writes stands in the place of the page, with its status.
"""
from __future__ import annotations

import html
import json
import os
import re
import subprocess
import sys
from collections.abc import Iterator
from dataclasses import dataclass

TEMPLATE = os.path.dirname(os.path.realpath(__file__))
# The program's statuses of a run in which no process faulted, of one in which a process did, of one that ends in a
# deadlock, and if a limit is reached.
DONE, FAULT, DEADLOCK, LIMIT = 0, 4, 9, 3

# How each script begins.
STRICT = '"use strict";\n'

OPTIONS = {"--seed": "seed", "--lend": "lend", "--from": "first", "--rows": "rows", "--states": "states"}


@dataclass
class Options:
    """What a call asks for; `None` leaves it to the program."""

    seed: str | None = None
    lend: str | None = None
    first: str | None = None
    rows: str | None = None
    states: str = "50000"


class Refusal(Exception):
    """What the program writes in the place of data, and its status."""

    def __init__(self, said: bytes, status: int) -> None:
        super().__init__(said, status)
        self.said, self.status = said, status


def answer(program: list[str], words: list[str], given: bytes, statuses: tuple[int, ...] = (DONE, FAULT, DEADLOCK)) -> bytes:
    """Returns what the program writes. A run in which a process faults is a run, and one that ends in a deadlock."""
    ended = subprocess.run([*program, *words], input=given, stdout=subprocess.PIPE, check=False)
    if ended.returncode not in statuses:
        raise Refusal(ended.stdout, ended.returncode)
    return ended.stdout


def option(name: str, value: str | None) -> list[str]:
    """Returns the words of an option that was given."""
    return [] if value is None else [name, value]


def documents(program: list[str], given: bytes, options: Options) -> Iterator[tuple[str, str]]:
    """Yields the name and the JSON of each document of a page."""
    is_object = given.startswith(b"PBO ")
    has_picks = is_object or b"\n%%\n" in given
    lend = option("--lend", options.lend)
    # (workers ask the banker: by the cash alone a run is drawn)
    seed = "1" if options.lend == "cash" and options.seed is None else options.seed
    recorded = given if has_picks else answer(program, ["record", *option("--seed", seed), *lend], given)
    words = ["states", *lend, *option("--from", options.first), *option("--rows", options.rows)]
    yield "run", answer(program, words, recorded).decode().strip()
    if is_object:
        return
    text = given.partition(b"\n%%\n")[0] + b"\n" if has_picks else given
    # (what was to be said of the text has been said)
    quiet = [*program, *["--quiet"] * ("--quiet" not in program)]
    words = ["outcomes", "--graph", "--states", options.states]
    by_banker = answer(quiet, words, text, (DONE, LIMIT)).decode().strip()
    yield "banker", by_banker
    if has_resources(by_banker):
        yield "cash", answer(quiet, [*words, "--lend", "cash"], text, (DONE, LIMIT)).decode().strip()


def has_resources(document: str) -> bool:
    """Returns whether the program of a document has resources, so that it matters who lends."""
    return "\nresources 0\n" not in json.loads(document)["object"]


def read(name: str) -> str:
    """Returns a file of the template, without what a page has no need of: the spaces at the beginning of lines."""
    with open(f"{TEMPLATE}/{name}", encoding="utf-8") as file:
        return "".join(line.lstrip(" ") for line in file)


def read_style() -> str:
    """Returns the style, without comments and without spaces that say nothing."""
    bare = re.sub(r"/\*.*?\*/\s*", "", read("page.css"), flags=re.DOTALL)
    return re.sub(r"\s*([{};>])\s*|(?<=[,:]) ", r"\1", bare).replace(";}", "}")


def read_scripts(tags: str) -> str:
    """Returns the scripts that tags name, as one, without comments, which have lines of their own, without empty lines, and
    without the ends of lines that go on."""
    texts = "".join(read(name).removeprefix(STRICT) for name in re.findall(r'src="(.*)"', tags))
    bare = re.sub(r"^(//[^\n]*|/\*\*.*?\*/|)\n", "", texts, flags=re.MULTILINE | re.DOTALL)
    return STRICT + re.sub(r"(?<=[(\[{,;])\n", "", bare)


def fill_template(title: str, data: str) -> str:
    """Returns the page, with its style, its scripts and its data in it."""
    page = re.sub(r"<!--.*-->\n", "", read("page.html"))
    tags = "".join(re.findall(r'<script src=.*\n', page))
    parts = {
        "<title>parbegin</title>": f"<title>{html.escape(title)} - parbegin</title>",
        '<link rel="stylesheet" href="page.css">': f"<style>\n{read_style()}\n</style>",
        '<script type="application/json" id="data">{}': f'<script type="application/json" id="data">{data}',
        tags: f"<script>\n{read_scripts(tags)}</script>\n",
    }
    for mark, part in parts.items():
        before, found, after = page.partition(mark)
        if not found:
            raise ValueError(f"page.html has no {mark}")
        page = before + part + after
    return page


def make_page(program: list[str], title: str, given: bytes, options: Options = Options()) -> str:
    """Returns the page of a text, or of a text with the picks of a run. Raises `Refusal` if the program refuses."""
    data = {"title": json.dumps(title).replace("<", "\\u003c"), **dict(documents(program, given, options))}
    return fill_template(title, "{" + ",\n".join(f'"{name}":{said}' for name, said in data.items()) + "}")


def read_words(words: list[str]) -> tuple[list[str], Options, str]:
    """Returns the program, the options and the file of a call, or ends with the use of this command."""
    if len(words) < 2 or len(words) % 2:
        sys.exit(__doc__)
    options = Options()
    for name, value in zip(words[1:-1:2], words[2:-1:2]):
        if name not in OPTIONS:
            sys.exit(__doc__)
        setattr(options, OPTIONS[name], value)
    return words[0].split(","), options, words[-1]


def main(words: list[str]) -> int:
    """Writes the page that a call asks for, or the refusal, and returns the status."""
    program, options, name = read_words(words)
    with open(name, "rb") as file:
        given = file.read()
    try:
        page = make_page(program, os.path.basename(name), given, options)
    except Refusal as refusal:
        sys.stdout.buffer.write(refusal.said)
        return refusal.status
    sys.stdout.write(page)
    return 0


if __name__ == "__main__":
    sys.exit(main(sys.argv[1:]))
