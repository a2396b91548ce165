"""The journal: SQLite with a write-ahead log, one transaction and one sync for each batch of entries."""
from __future__ import annotations

import asyncio
import fcntl
import os
import sqlite3
from collections.abc import Awaitable, Callable, Iterator, Sequence
from concurrent.futures import ThreadPoolExecutor

Restore = Callable[["str | None"], object]
Replay = Callable[[Sequence[str]], object]

TABLES = (
    "CREATE TABLE IF NOT EXISTS batch (sequence INTEGER PRIMARY KEY, entries TEXT NOT NULL)",
    "CREATE TABLE IF NOT EXISTS snapshot (one INTEGER PRIMARY KEY CHECK (one = 1), sequence INTEGER, body TEXT)",
)


class WrongJournal(Exception):
    """The folder has no journal that can be used; the text says why."""


def locked(folder: str) -> int:
    """Makes a folder if it is not there, and returns the file whose lock says that this process alone has it."""
    os.makedirs(folder, mode=0o700, exist_ok=True)
    lock = os.open(os.path.join(folder, "lock"), os.O_RDWR | os.O_CREAT | os.O_CLOEXEC, 0o600)
    try:
        fcntl.flock(lock, fcntl.LOCK_EX | fcntl.LOCK_NB)
    except BlockingIOError:
        os.close(lock)
        raise WrongJournal("another server has this journal") from None
    return lock


class Journal:
    """A journal in a folder. One process at a time has it, and one thread makes all calls of SQLite."""

    def __init__(self, folder: str) -> None:
        self.lock = locked(folder)
        self.thread = ThreadPoolExecutor(1, "journal")
        self.sequence = 0
        self.since_snapshot = 0
        self.base: sqlite3.Connection = self.thread.submit(self._open, os.path.join(folder, "journal.db")).result()

    @staticmethod
    def _open(path: str) -> sqlite3.Connection:
        # (nobody else may read the keys of the sessions)
        os.close(os.open(path, os.O_RDWR | os.O_CREAT | os.O_CLOEXEC, 0o600))
        base = sqlite3.connect(path, isolation_level=None)
        (mode,) = base.execute("PRAGMA journal_mode=WAL").fetchone()
        if mode != "wal":
            raise WrongJournal("this file system has no shared memory for a write-ahead log")
        base.execute("PRAGMA synchronous=FULL")
        for table in TABLES:
            base.execute(table)
        return base

    async def load(self, restore: Restore, replay: Replay) -> None:
        """Makes the state anew, from the snapshot and the batches after it."""
        body, batches = self.read()
        restore(body)
        for entries in batches:
            replay(entries)

    def read(self) -> tuple[str | None, Iterator[list[str]]]:
        """Returns the snapshot, if there is one, and the batches after it."""
        return self.thread.submit(self._read).result()

    def _read(self) -> tuple[str | None, Iterator[list[str]]]:
        found = self.base.execute("SELECT sequence, body FROM snapshot").fetchone()
        upto, body = found or (0, None)
        rows = self.base.execute("SELECT sequence, entries FROM batch WHERE sequence > ? ORDER BY sequence", (upto,)).fetchall()
        for number, (sequence, _) in enumerate(rows, upto + 1):
            if sequence != number:
                raise WrongJournal(f"batch {number} of the journal is missing")
        self.sequence = upto + len(rows)
        self.since_snapshot = len(rows)
        return body, (entries.split("\n") for _, entries in rows)

    async def follow(self, restore: Restore, replay: Replay) -> None:
        """Returns once this process leads: it does at once, since nobody else can have the journal."""

    def is_mine(self) -> bool:
        """Returns whether nobody else can have led up to now."""
        return True

    def leads_at(self) -> str:
        """Returns where clients reach another leader: there is none."""
        return ""

    def append(self, entries: Sequence[str]) -> Awaitable[None]:
        """Writes a batch, which is durable once the result is there. If this fails, nothing more may be answered."""
        self.sequence += 1
        self.since_snapshot += 1
        return asyncio.get_running_loop().run_in_executor(self.thread, self._append, self.sequence, "\n".join(entries))

    def _append(self, sequence: int, entries: str) -> None:
        self.base.execute("INSERT INTO batch VALUES (?, ?)", (sequence, entries))

    def save(self, body: str) -> Awaitable[None]:
        """Puts a snapshot in the place of all batches that were written, at once."""
        self.since_snapshot = 0
        return asyncio.get_running_loop().run_in_executor(self.thread, self._save, self.sequence, body)

    def _save(self, sequence: int, body: str) -> None:
        self.base.execute("BEGIN IMMEDIATE")
        self.base.execute("INSERT OR REPLACE INTO snapshot VALUES (1, ?, ?)", (sequence, body))
        self.base.execute("DELETE FROM batch WHERE sequence <= ?", (sequence,))
        self.base.execute("COMMIT")

    async def resign(self) -> None:
        """Lets others lead: there are none."""

    def close(self) -> None:
        """Closes the journal."""
        self.thread.submit(self.base.close).result()
        self.thread.shutdown()
        os.close(self.lock)
