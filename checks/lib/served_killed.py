#!/usr/bin/env python3
"""Serves the bank, and kills itself at a point: KILLED_AT=POINT:COUNT, at the COUNT-th time that it comes there.

    checks/lib/served_killed.py PROGRAM [OPTION ..]     the words of `serve` after the program that has the command `bank`
"""
from __future__ import annotations

import os
import pathlib
import signal
import sqlite3
import sys
from typing import Any

sys.path.insert(0, str(pathlib.Path(__file__).resolve().parents[2]))

from script.serving import connections, desk, journal, serve, server  # noqa: E402

# Before and after the steps of a batch; a snapshot is written by two statements, and the second deletes batches.
POINTS = (
    "before-append", "after-append", "before-save", "before-delete", "after-delete", "after-save", "before-batch", "after-batch",
    "before-apply", "after-apply", "before-answer", "after-answer",
)
POINT, _, COUNT = os.environ.get("KILLED_AT", "none:0").partition(":")
left = int(COUNT)


def come_to(point: str) -> None:
    """Kills this process, if it is at its point for the last time."""
    global left
    left -= point == POINT
    if point == POINT and left <= 0:
        os.kill(os.getpid(), signal.SIGKILL)


def watch(owner: type, name: str, step: str) -> None:
    """Puts points before and after a call."""
    call = getattr(owner, name)

    def watched(*words: Any, **named: Any) -> Any:
        come_to(f"before-{step}")
        result = call(*words, **named)
        come_to(f"after-{step}")
        return result

    setattr(owner, name, watched)


class Base:
    """A connection of SQLite with points before and after what deletes."""

    def __init__(self, base: sqlite3.Connection) -> None:
        self.base = base

    def execute(self, statement: str, *words: Any) -> sqlite3.Cursor:
        is_deleting = statement.startswith("DELETE")
        if is_deleting:
            come_to("before-delete")
        result = self.base.execute(statement, *words)
        if is_deleting:
            come_to("after-delete")
        return result

    def close(self) -> None:
        self.base.close()


def main() -> int:
    for owner, name, step in (
        (journal.Journal, "_append", "append"), (journal.Journal, "_save", "save"), (server.Server, "carry_out", "batch"),
        (desk.Desk, "apply", "apply"), (connections.Connection, "write", "answer"),
    ):
        watch(owner, name, step)
    connect = sqlite3.connect
    setattr(sqlite3, "connect", lambda *words, **named: Base(connect(*words, **named)))
    return serve.call([sys.argv[1]], sys.argv[2:])


if __name__ == "__main__":
    sys.exit(main())
