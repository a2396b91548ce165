"""Copies of a journal: made while a server has it, and put into the place of one."""
from __future__ import annotations

import os
import sqlite3
import tempfile
from collections.abc import Iterator
from contextlib import closing, contextmanager, suppress

from script.serving.journal import WrongJournal, locked


def path_of(folder: str) -> str:
    """Returns the database of a journal that is there."""
    path = os.path.join(folder, "journal.db")
    if not os.path.exists(path):
        raise WrongJournal("there is no journal in this folder")
    return path


def copy(path: str, to: str) -> None:
    """Copies the database of a journal as of one moment, to a file that is there whole or not at all."""
    part = f"{to}.part"
    with suppress(FileNotFoundError):
        os.unlink(part)
    # (nobody else may read the keys of the sessions)
    os.close(os.open(part, os.O_RDWR | os.O_CREAT | os.O_EXCL, 0o600))
    try:
        with closing(sqlite3.connect(path)) as source, closing(sqlite3.connect(part, isolation_level=None)) as target:
            source.backup(target)
            # (a copy is one file)
            target.execute("PRAGMA journal_mode=DELETE")
            look_at(target)
        sync(part)
        os.link(part, to)
        sync(os.path.dirname(os.path.abspath(to)))
    except sqlite3.DatabaseError as fault:
        raise WrongJournal(f"{path} is no journal: {fault}") from fault
    except FileExistsError:
        raise WrongJournal(f"{to} is there already") from None
    finally:
        os.unlink(part)


def look_at(base: sqlite3.Connection) -> None:
    """Raises WrongJournal if a database is spoiled, and DatabaseError if it is not that of a journal."""
    (told,) = base.execute("PRAGMA integrity_check(1)").fetchone()
    if told != "ok":
        raise WrongJournal(f"the copy is spoiled: {told}")
    base.execute("SELECT count(*) FROM batch").fetchone()
    base.execute("SELECT count(*) FROM snapshot").fetchone()


def sync(path: str) -> None:
    """Makes a file or a folder durable."""
    opened = os.open(path, os.O_RDONLY)
    try:
        os.fsync(opened)
    finally:
        os.close(opened)


def back_up(folder: str, to: str) -> None:
    """Copies a journal to a file. Raises WrongJournal if the file is there already."""
    if os.path.lexists(to):
        raise WrongJournal(f"{to} is there already")
    copy(path_of(folder), to)


def restore(folder: str, file: str) -> None:
    """Makes a journal of a copy. Raises WrongJournal if a server has the folder, or if there is a journal already."""
    if not os.path.isfile(file):
        raise WrongJournal(f"{file} is no file")
    lock = locked(folder)
    try:
        path = os.path.join(folder, "journal.db")
        if os.path.lexists(path):
            raise WrongJournal("there is a journal in this folder already")
        copy(file, path)
    finally:
        os.close(lock)


@contextmanager
def copied(folder: str | None) -> Iterator[str | None]:
    """Gives a folder with a copy of a journal, also while a server has that; nothing of nothing."""
    if folder is None:
        yield None
        return
    with tempfile.TemporaryDirectory(prefix="parbegin-journal-") as made:
        copy(path_of(folder), os.path.join(made, "journal.db"))
        yield made
