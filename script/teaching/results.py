"""Who has solved what: in memory, or in a file with `--keep`. Names are kept only with `--names`."""
from __future__ import annotations

import csv
import io
import re
import sqlite3
import time
from typing import Any

MOST_STUDENTS, MOST_NAME = 1_000, 40
# What a page has drawn for itself.
STUDENT = re.compile("[0-9a-f]{32}")
NOTE = (
    "insert into results values (?1, ?2, 1, ?3, ?4, ?5) on conflict do update set tries = tries + (solved is null), "
    "solved = coalesce(solved, ?3), said = case when solved is null then ?4 else said end, last = ?5"
)
TABLES = (
    "create table if not exists students (id text primary key, name text not null, number integer not null)",
    "create table if not exists results (student text not null, exercise text not null, tries integer not null, "
    "solved text, said text not null, last text not null, primary key (student, exercise))",
)


class Results:
    """A row for each student and each exercise: tries, and when it was solved. No text is kept."""

    def __init__(self, file: str | None, names: bool) -> None:
        self.names = names
        self.store = sqlite3.connect(file or ":memory:", isolation_level=None)
        if file:
            self.store.execute("pragma journal_mode=wal")
            self.store.execute("pragma synchronous=normal")
        for table in TABLES:
            self.store.execute(table)

    def close(self) -> None:
        """Writes all that is kept."""
        self.store.close()

    def note(self, student: str, name: str, exercise: str, right: bool, said: str) -> None:
        """Notes a try, unless there are too many students."""
        if not STUDENT.fullmatch(student):
            return
        name = re.sub(r"[^\w .,'@+-]", "", name)[:MOST_NAME].strip() if self.names else ""
        (known,) = self.store.execute("select count(*) from students").fetchone()
        if not self.store.execute("select 1 from students where id = ?", [student]).fetchone():
            if known >= MOST_STUDENTS:
                return
            self.store.execute("insert into students values (?, ?, ?)", [student, name, known + 1])
        elif name:
            self.store.execute("update students set name = ? where id = ?", [name, student])
        now = time.strftime("%Y-%m-%d %H:%M:%S")
        self.store.execute(NOTE, [student, exercise, now if right else None, said, now])

    def table(self) -> list[dict[str, Any]]:
        """Returns the students, each with what he has tried."""
        rows: dict[str, dict[str, Any]] = {}
        listed = self.store.execute("select id, name, number from students order by name = '', name, number")
        for student, name, number in listed:
            rows[student] = {"name": name or f"student {number}", "tried": {}}
        for student, exercise, tries, solved, said, last in self.store.execute("select * from results"):
            if student in rows:
                rows[student]["tried"][exercise] = {"tries": tries, "solved": solved, "said": said, "last": last}
        return list(rows.values())

    def csv(self, exercises: list[str]) -> str:
        """Returns the table as CSV; a name that a spreadsheet would take for a formula has an apostrophe before it."""
        file = io.StringIO()
        writer = csv.writer(file, lineterminator="\n")
        writer.writerow(["student", "exercise", "solved", "tries", "last try", "last verdict"])
        for row in self.table():
            name = str(row["name"])
            name = "'" + name if name[:1] in "=+-@" else name
            for exercise in exercises:
                if it := row["tried"].get(exercise):
                    writer.writerow([name, exercise, it["solved"] or "", it["tries"], it["last"], it["said"]])
        return file.getvalue()

    def clear(self) -> None:
        """Forgets all."""
        self.store.executescript("delete from results; delete from students")
