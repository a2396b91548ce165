#!/usr/bin/env python3
"""Looks whether a thing that two crates need stands once, in the lower of them.

    checks/quick/stated_once.py [--list]

Three counts, none of which may grow: public lemmas of proofs/ that are stated in two crates, functions of three lines or
more whose bodies are the same in two crates, and names of specs/ that have a meaning in each of two crates, but for those
that name one role in each. With `--list` it writes what is counted. Crates of tests are not looked at. Exits with 1 if a count is over its limit.
"""
from __future__ import annotations

import collections
import re
import sys
from collections.abc import Iterator
from pathlib import Path

TOP = Path(__file__).resolve().parents[2]
LEMMA = re.compile(r"^pub ([A-Za-z_][\w-]*) :((?:.|\n)*?)\n(?=\1\b|unfolding)", re.MULTILINE)
DEFINED = re.compile(r"(?=.*\bpub )(?:(?:abbrev|unfoldable|opaque|data|record|pub) )+(?!mod\b|use\b)([A-Za-z_][\w-]*)\b")
HEAD = re.compile(r"( *)(?:pub(?:\(crate\))? )?(?:const )?fn \w+")
LEAST_LINES = 3
# What is left of each, which may become less.
MOST = {"lemmas": 4, "functions": 23, "names": 286}
# Each crate that tells data has these, by the same name: what it says, as plain data, and as bytes in each form.
ROLES = {"Saying", "said_view", "line_of", "json_of", "text_of", "in_objects"}

Places = dict[str, set[str]]


def files(folder: str, ending: str) -> Iterator[tuple[str, Path]]:
    """Yields each crate with each of its files of this folder."""
    for path in sorted(TOP.glob(f"crates/*/{folder}/**/*{ending}")):
        crate = path.relative_to(TOP).parts[1]
        if not crate.endswith("_tests"):
            yield crate, path


def lemmas() -> Places:
    """Returns the crates that state each public lemma."""
    found = collections.defaultdict(set)
    for crate, path in files("proofs", ".antt"):
        # (in the folders of functions stand the answers to goals)
        if path.parent.name != "proofs":
            continue
        for match in LEMMA.finditer(path.read_text(encoding="utf-8")):
            found[" ".join(match[2].split())].add(crate)
    return found


def bodies(lines: list[str]) -> Iterator[str]:
    """Yields the bodies of the functions among lines of source."""
    at = 0
    while at < len(lines):
        head = HEAD.match(lines[at])
        start = at
        if head:
            indent = head[1]
            while start < len(lines) and lines[start] != indent + "{" and not lines[start].endswith((" {", ";")):
                start += 1
            end = start
            while end < len(lines) and lines[end] != indent + "}":
                end += 1
            if end - start > LEAST_LINES:
                yield "\n".join(line.strip() for line in lines[start + 1 : end])
            at = end
        at += 1


def functions() -> Places:
    """Returns the crates in which each body of a function stands."""
    found = collections.defaultdict(set)
    for crate, path in files("src", ".rt"):
        for body in bodies(path.read_text(encoding="utf-8").splitlines()):
            found[body].add(crate)
    return found


def names() -> Places:
    """Returns the crates that define each name of specs/."""
    found = collections.defaultdict(set)
    for crate, path in files("specs", ".antt"):
        for line in path.read_text(encoding="utf-8").splitlines():
            match = DEFINED.match(line)
            if match and match[1] not in ROLES:
                found[match[1]].add(crate)
    return found


def main(words: list[str]) -> int:
    status = 0
    for what, found in (("lemmas", lemmas()), ("functions", functions()), ("names", names())):
        twice = {it: crates for it, crates in found.items() if len(crates) > 1}
        if words == ["--list"]:
            for it, crates in sorted(twice.items()):
                print(f"{what}: {', '.join(sorted(crates))}: {' / '.join(it.splitlines())[:120]}")
        print(f"{len(twice)} {what} in two crates, of at most {MOST[what]}")
        status |= len(twice) > MOST[what]
    return status


if __name__ == "__main__":
    sys.exit(main(sys.argv[1:]))
