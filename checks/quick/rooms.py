#!/usr/bin/env python3
"""Compares the rooms of crates.txt with docs/ARCHITECTURE.md.

    checks/quick/rooms.py

A room is a section of crates.txt, which begins with a comment line `# NAME: SENTENCE`. The document has a section for
each room, in the same order, with that sentence, and a table of the room's crates in the order of crates.txt, at most
15 words each; its last column names crates that test the row's crate, so they use it, maybe by way of others. No crate
stands before one that it uses, no folder of crates/ is without its line, and a line of the drawing leads from one room
down to another exactly if the first uses the second and does not reach it by way of a third. And the table of the
section on `run` has the files that its contract cites, by themselves or through one another, each behind those that it
cites. Of the tables of commands each command of script/tools.py has a row, with its tool; each file of a row is there, the
engine's file cites the file of its contract, and a command of one word has an engine there. The status is 0 if all that is
so, and 1 if not.
"""
from __future__ import annotations

import re
import sys
from collections import defaultdict
from pathlib import Path

TOP = Path(__file__).resolve().parents[2]
sys.path.insert(1, str(TOP))

from script.tools import CALLS, COMMANDS, crate_of, tool_of  # noqa: E402

WORDS = 15
UP, DOWN, LEFT, RIGHT = (-1, 0), (1, 0), (0, -1), (0, 1)
LINES = {
    "│": {UP, DOWN},
    "─": {LEFT, RIGHT},
    "┌": {DOWN, RIGHT},
    "┐": {DOWN, LEFT},
    "└": {UP, RIGHT},
    "┘": {UP, LEFT},
    "├": {UP, DOWN, RIGHT},
    "┤": {UP, DOWN, LEFT},
    "┬": {LEFT, RIGHT, DOWN},
    "┴": {LEFT, RIGHT, UP},
}
Rooms = dict[str, tuple[str, list[str]]]
RUN = TOP / "crates/pb_engines/src/run.rt"
SECTION = "## What the contract of `run` rests on\n"
TABLES_OF_COMMANDS = "## From a command to its files\n"
FOLDERS = ("checks", "extras", "script")
CITED = re.compile(r"^(?:pub |ghost )?use Rattle\.(pb_\w+)\.specs\.(declared\.)?(\w+)", re.M)


def read_crates(text: str) -> tuple[Rooms, dict[str, list[str]]]:
    """Returns the rooms, each with its sentence and its crates, and which crates of the repository each crate uses."""
    rooms: Rooms = {}
    uses: dict[str, list[str]] = {}
    for line in text.splitlines():
        begins = re.fullmatch(r"# (\w+): (.+)", line)
        if begins:
            rooms[begins[1]] = (begins[2], [])
        elif line and not line.startswith("#"):
            crate, used = line.split(":")[0].split()[0], line.split(":")[1].split()
            rooms[list(rooms)[-1]][1].append(crate)
            uses[crate] = used
    return rooms, {crate: [it for it in used if it in uses] for crate, used in uses.items()}


def reached(arrows: dict[str, list[str]], start: str) -> set[str]:
    """Returns what arrows lead to from `start`, one or several."""
    found: set[str] = set()
    waiting = [start]
    while waiting:
        for it in set(arrows.get(waiting.pop(), ())) - found:
            found.add(it)
            waiting.append(it)
    return found


def wanted_arrows(rooms: Rooms, uses: dict[str, list[str]]) -> set[tuple[str, str]]:
    """Returns the pairs of rooms of which the first uses the second and does not reach it by way of a third."""
    room_of = {crate: room for room, (_, crates) in rooms.items() for crate in crates}
    arrows = {
        room: sorted({room_of[used] for crate in crates for used in uses[crate]} - {room})
        for room, (_, crates) in rooms.items()
    }
    return {
        (room, lower)
        for room, lowers in arrows.items()
        for lower in lowers
        if not any(lower in reached(arrows, other) for other in lowers if other != lower)
    }


def names_of(drawing: list[str]) -> dict[tuple[int, int], str]:
    """Returns the name that each letter of the drawing belongs to, by the letter's row and column."""
    return {
        (row, column): name[0]
        for row, line in enumerate(drawing)
        for name in re.finditer(r"[a-z]+", line)
        for column in range(*name.span())
    }


def led_down(drawing: list[str], names: dict[tuple[int, int], str], start: tuple[int, int]) -> set[str]:
    """Returns the names that a line leads down to which is entered at `start` from above."""
    lower, seen, waiting = set(), set(), [(start, DOWN)]
    while waiting:
        at, way = waiting.pop()
        sign = drawing[at[0]][at[1] : at[1] + 1] if at[0] < len(drawing) else ""
        if (at, way) in seen or sign in ("", " "):
            continue
        seen.add((at, way))
        back = (-way[0], -way[1])
        if at in names:
            lower |= {names[at]} if way == DOWN else set()
        elif sign == "┼" or back in LINES[sign]:
            ways = {way} if sign == "┼" else LINES[sign] - {back}
            waiting += [((at[0] + row, at[1] + column), (row, column)) for row, column in ways]
    return lower


def drawn_arrows(drawing: list[str]) -> set[tuple[str, str]]:
    """Returns the pairs of rooms of which a line of the drawing leads from the first down to the second."""
    names = names_of(drawing)
    return {(name, it) for (row, column), name in names.items() for it in led_down(drawing, names, (row + 1, column))}


def tables_of(document: str) -> Rooms:
    """Returns the sections of the document that hold a table of crates: their sentences, and the rows."""
    found: Rooms = {}
    for section in document.split("\n### ")[1:]:
        name, _, body = section.split("\n## ")[0].partition("\n")
        rows = re.findall(r"^\| ((?:pb|parbegin)_\w+ \| .*) \|$", body, re.M)
        if "| Crate | What it holds | Tested in |" in body:
            found[name] = (" ".join(body.split("\n|")[0].split()), rows)
    return found


def faults_of_tables(rooms: Rooms, uses: dict[str, list[str]], tables: Rooms) -> list[str]:
    """Returns what the tables of the document have wrong."""
    faults = []
    if list(rooms) != list(tables):
        faults.append(f"rooms: {list(rooms)} in crates.txt, {list(tables)} in the document")
    for room in rooms.keys() & tables.keys():
        rows = [row.split(" | ") for row in tables[room][1]]
        if rooms[room][0] != tables[room][0]:
            faults.append(f"{room}: the sentences differ")
        if rooms[room][1] != [row[0] for row in rows]:
            faults.append(f"{room}: {rooms[room][1]} in crates.txt, {[row[0] for row in rows]} in the document")
        for crate, what, *tests in rows:
            if len(what.split()) > WORDS:
                faults.append(f"{crate}: more than {WORDS} words")
            for test in re.findall(r"pb_\w+", " ".join(tests)):
                if crate not in reached(uses, test):
                    faults.append(f"{crate}: {test} does not use it")
    return faults


def faults_of_order(rooms: Rooms, uses: dict[str, list[str]]) -> list[str]:
    """Returns which crates stand before one that they use, and which stand in crates.txt or in crates/ alone."""
    order = [crate for _, crates in rooms.values() for crate in crates]
    folders = {it.parent.parent.name for it in TOP.glob("crates/*/src/*.rt")}
    faults = [f"{crate}: is only in crates.txt or only in crates/" for crate in sorted(folders ^ set(order))]
    for number, crate in enumerate(order):
        faults += [f"{crate}: stands before {used}, which it uses" for used in uses[crate] if used in order[number:]]
    return faults


def cited_by(file: Path) -> set[Path]:
    """Returns the files of specs/ that a file cites, and those of src/ whose declarations it does."""
    cited = CITED.findall(file.read_text(encoding="utf-8"))
    return {TOP / f"crates/{crate}" / (f"src/{name}.rt" if at else f"specs/{name}.antt") for crate, at, name in cited}


def rests_on(file: Path) -> set[Path]:
    """Returns the files that a file cites, by themselves or through one another."""
    found: set[Path] = set()
    waiting = [file]
    while waiting:
        new = {it for it in cited_by(waiting.pop()) if it.exists()} - found
        found |= new
        waiting += [it for it in new if it.suffix == ".antt"]
    return found


def files_of_table(section: str) -> list[Path]:
    """Returns the files that the table of a section names, in order."""
    found = []
    for path in re.findall(r"crates/[\w/{},]+\.(?:rt|antt)", section):
        before, _, others = path.partition("{")
        names, _, behind = others.partition("}")
        found += [TOP / f"{before}{name}{behind}" for name in names.split(",")] if others else [TOP / path]
    return found


def faults_of_run(document: str) -> list[str]:
    """Returns what the section on `run` has wrong."""
    section = document.partition(SECTION)[2].partition("\n## ")[0]
    table, wanted = files_of_table(section), rests_on(RUN)
    faults = [f"the table of `run` lacks {it.relative_to(TOP)}" for it in sorted(wanted - set(table))]
    faults += [f"the table of `run` has {it.relative_to(TOP)}" for it in sorted(set(table) - wanted)]
    for number, file in enumerate(table):
        behind = cited_by(file) & set(table[number + 1 :]) if file.suffix == ".antt" else set()
        faults += [f"the table of `run`: {file.relative_to(TOP)} cites {it.name}, which is behind it" for it in sorted(behind)]
    counts = [str(sum(it.suffix == suffix for it in table)) for suffix in (".antt", ".rt")]
    if re.findall(r"(\d+) files of `", section) != counts:
        faults.append(f"the table of `run` has {' and '.join(counts)} files of specs/ and src/")
    return faults


def path_of_cell(cell: str) -> Path:
    """Returns the file that a cell of a table of commands names: below crates/, or with a folder of its own."""
    return TOP / cell if cell.partition("/")[0] in FOLDERS else TOP / "crates" / cell


def faults_of_engine(command: str, tool: str, engine: str, contract: str) -> list[str]:
    """Returns what a row of a command of the program has wrong beside files that are not there."""
    word = command.partition(" ")[0]
    faults = [] if word in COMMANDS and crate_of(tool_of(word) or "") == tool else [f"{command}: {tool} has no such command"]
    file = path_of_cell(engine)
    if not file.is_file():
        return faults
    if path_of_cell(contract) not in cited_by(file):
        faults.append(f"{command}: {engine} does not cite {contract}")
    if word == command and not re.search(r"^pub fn \w+_engine\b", file.read_text(encoding="utf-8"), re.M):
        faults.append(f"{command}: {engine} has no engine")
    return faults


def faults_of_commands(document: str) -> list[str]:
    """Returns what the tables of commands have wrong."""
    section = document.partition(TABLES_OF_COMMANDS)[2].partition("\n## ")[0]
    rows = [row.split(" | ") for row in re.findall(r"^\| (`.*) \|$", section, re.M)]
    names = [name for row in rows for name in re.findall(r"`([^`]+)`", row[0])]
    faults = [f"the tables of commands lack {name}" for name in sorted({*COMMANDS, *CALLS} - set(names))]
    for row in rows:
        command = row[0].split("`")[1]
        faults += [f"{command}: there is no {it}" for it in row[1:-1] if "/" in it and not path_of_cell(it).is_file()]
        if len(row) == 6:
            faults += faults_of_engine(command, *row[1:4])
    return faults


def main() -> int:
    rooms, uses = read_crates((TOP / "crates.txt").read_text(encoding="utf-8"))
    document = (TOP / "docs/ARCHITECTURE.md").read_text(encoding="utf-8")
    wanted, drawn = wanted_arrows(rooms, uses), drawn_arrows(document.split("```")[1].splitlines())
    faults = faults_of_order(rooms, uses) + faults_of_tables(rooms, uses, tables_of(document)) + faults_of_run(document)
    faults += faults_of_commands(document)
    faults += [f"the drawing lacks {above} -> {below}" for above, below in sorted(wanted - drawn)]
    faults += [f"the drawing has {above} -> {below}" for above, below in sorted(drawn - wanted)]
    for fault in faults:
        print(fault)
    print(f"{len(rooms)} rooms, {len(uses)} crates, {len(wanted)} arrows, {len(faults)} faults")
    return 1 if faults else 0


if __name__ == "__main__":
    sys.exit(main())
