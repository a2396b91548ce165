"""The wrong bodies of the crates: where they are, whether each can be applied, and which were tried on today's sources.

checks/wrong_bodies/TRIED has a line for each crate whose wrong bodies were all tried and refused: the crate, and the sum
of its own files and its wrong bodies as they were. With other files the sum is another one, so a line is never out of
date: it only counts for nothing. The crates below are not in the sum. If a merge leaves several lines of a crate, each
counts.
"""
from __future__ import annotations

import hashlib
import os
import re
import sys
from collections.abc import Iterator
from pathlib import Path

TOP = Path(__file__).resolve().parents[2]
sys.path.insert(0, str(TOP))
sys.dont_write_bytecode = True
from script.crates import files_of  # noqa: E402

MOVED = TOP / "checks" / "wrong_bodies"
RECORD = MOVED / "TRIED"
# The first line of the record, and as much of a sum as it has.
HEAD = "# Crates of which all wrong bodies were tried and refused, each with the sum of its files (checks/lib/bodies.py)."
DIGITS = 16
NAME = re.compile(r"[A-Za-z0-9_-][A-Za-z0-9_.-]*\.edit")
BEGINS = ("file: ", "old: ", "new:")
REMARKS = ("#", "--", "//")


def crates() -> list[str]:
    """Returns the crates of the repository, in the order of crates.txt."""
    lines = (TOP / "crates.txt").read_text(encoding="utf-8").splitlines()
    heads = [line.partition("#")[0].partition(":") for line in lines]
    return [head.split()[0] for head, colon, _ in heads if colon]


def tried_by_the_gate(crate: str) -> dict[str, Path]:
    """Returns the edits of a crate that `rt ci` tries, by their names."""
    return {edit.stem: edit for edit in sorted((TOP / "crates" / crate / "must-fail").glob("*.edit"))}


def others_of(crate: str) -> dict[str, Path]:
    """Returns the edits of a crate that `rt ci` does not try, by their names."""
    return {edit.stem: edit for edit in sorted((MOVED / crate).glob("*.edit"))}


def edits_of(crate: str) -> dict[str, Path]:
    """Returns the edits of a crate by their names, of both folders."""
    found, others = tried_by_the_gate(crate), others_of(crate)
    for name in others:
        if name in found:
            sys.exit(f"{others[name]} has the name of another edit: {found[name]}")
    return {**found, **others}


def parts_of(edit: str) -> Iterator[tuple[str, str, str]]:
    """Yields the file of each pair of an edit, with the old text and the new one, as the kit reads them."""
    file = old = ""
    for line in edit.split("\n"):
        if line.startswith("file: "):
            file = line.removeprefix("file: ").strip()
        elif line.startswith("old: "):
            old = line.removeprefix("old: ")
        elif line.startswith("new:"):
            yield file, old, line.removeprefix("new:").removeprefix(" ")
            old = ""


def fault_of(edit: str, sources: dict[str, str]) -> str | None:
    """Returns why an edit cannot be applied to the sources, which are given by their paths, or None if it can."""
    now, pairs = dict(sources), 0
    for file, old, new in parts_of(edit):
        if file not in now:
            return f"there is no file {file}" if file else "a pair has no line `file:` before it"
        if not old:
            return "a line `new:` has no line `old:` before it"
        found = now[file].count(old)
        if found != 1:
            return f"an old text is in {file} {found} times: {old.strip()[:60]}"
        now[file] = now[file].replace(old, new)
        pairs += 1
    unread = [line for line in edit.split("\n") if line.strip() and not line.startswith((*BEGINS, *REMARKS))]
    if unread:
        return f"a line is not read: {unread[0].strip()[:60]}"
    if not pairs:
        return "it has no pair of lines `old:` and `new:`"
    return "it changes nothing" if now == sources else None


def sources_of(crate: str) -> dict[str, str]:
    """Returns the texts of a crate's files, by their paths below its folder."""
    below = f"crates/{crate}/"
    return {file.removeprefix(below): (TOP / file).read_text(encoding="utf-8") for file in files_of(crate)}


def sum_of(crate: str) -> str:
    """Returns the sum of a crate's own files and all its wrong bodies, wherever these stand."""
    texts = [*sources_of(crate).items()]
    texts += [(f"{name}.edit", edit.read_text(encoding="utf-8")) for name, edit in sorted(edits_of(crate).items())]
    return hashlib.sha256(repr(texts).encode()).hexdigest()[:DIGITS]


def read_record() -> dict[str, set[str]]:
    """Returns the sums with which the wrong bodies of each crate were all tried and refused."""
    found: dict[str, set[str]] = {}
    lines = RECORD.read_text(encoding="utf-8").splitlines() if RECORD.exists() else []
    for line in lines:
        crate, _, total = line.partition(" ")
        if total and crate != "#":
            found.setdefault(crate, set()).add(total)
    return found


def record(crate: str, total: str) -> None:
    """Records that all wrong bodies of a crate were tried and refused when it had this sum."""
    known = {**read_record(), crate: {total}}
    lines = [f"{it} {each}" for it in sorted(known) for each in sorted(known[it])]
    new = RECORD.with_name(f"TRIED.{os.getpid()}")
    new.write_text("".join(f"{line}\n" for line in (HEAD, *lines)), encoding="utf-8")
    os.replace(new, RECORD)
