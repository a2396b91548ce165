"""What a tool was built from: the sums of the contents of its sources, and its own.

A copy of a checkout, a hard link or a touched file has the same contents, and so nothing is built. So that not every call
reads all files, the record has the size and the time of each: a file with both is taken as it was.
"""
from __future__ import annotations

import hashlib
import json
import os
import time
from collections.abc import Iterable
from typing import NamedTuple

from script.places import TOP
from script.tools import crate_of, path_of

# A file that was changed this shortly before it was recorded may change again with the same time.
A_SECOND = 1_000_000_000


class Mark(NamedTuple):
    """A file as it was: its size, when it was changed, in nanoseconds, and the sum of its contents."""

    size: int
    changed: int
    sum: str


Marks = dict[str, Mark]


def sum_of(file: str) -> str:
    """Returns the sum of a file's contents."""
    with open(f"{TOP}/{file}", "rb") as contents:
        return hashlib.sha256(contents.read()).hexdigest()


def mark_of(file: str, before: Mark | None = None) -> Mark:
    """Returns a file as it is. It is not read if it has the size and the time of before."""
    it = os.stat(f"{TOP}/{file}")
    if before and before.changed and (it.st_size, it.st_mtime_ns) == (before.size, before.changed):
        return before
    is_settled = it.st_mtime_ns < time.time_ns() - A_SECOND
    return Mark(it.st_size, it.st_mtime_ns if is_settled else 0, sum_of(file))


def marks_of(files: Iterable[str], before: Marks | None = None) -> Marks:
    """Returns all these files as they are."""
    return {file: mark_of(file, (before or {}).get(file)) for file in files}


def are_same(some: Marks, others: Marks) -> bool:
    """Returns whether these are the same files with the same contents."""
    return {file: it.sum for file, it in some.items()} == {file: it.sum for file, it in others.items()}


def record_of(tool: str) -> str:
    """Returns the path of the record beside a tool: what it was built from, and which file that made."""
    return f"{TOP}/crates/{crate_of(tool)}/out/built_from.json"


def read_record(tool: str) -> Marks | None:
    """Returns what was recorded of a tool, or nothing if there is no record."""
    try:
        with open(record_of(tool), encoding="utf-8") as file:
            return {name: Mark(*mark) for name, mark in json.load(file).items()}
    except (OSError, ValueError, TypeError, AttributeError):
        return None


def write_record(tool: str, marks: Marks) -> None:
    """Records the sources of a tool and the tool."""
    record = record_of(tool)
    new = f"{record}.{os.getpid()}"
    with open(new, "w", encoding="utf-8") as file:
        json.dump(marks, file, indent=0)
    os.replace(new, record)


def with_tool(tool: str, files: Iterable[str]) -> list[str]:
    """Returns the paths of the sources with that of the tool."""
    return [*files, os.path.relpath(path_of(tool), TOP)]


def is_fresh(tool: str, files: Iterable[str]) -> bool:
    """Returns whether the tool is there and neither it nor a source has other contents than when it was built."""
    before = read_record(tool)
    if before is None:
        return False
    try:
        now = marks_of(with_tool(tool, files), before)
    except OSError:
        return False
    if not are_same(before, now):
        return False
    if before != now:
        try:
            write_record(tool, now)
        except OSError:
            # (a checkout that can't be written to is read once more each time)
            pass
    return True
