#!/usr/bin/env python3
"""Counts the configurations that `outcomes --prints` keeps of exercises, beside those that single picks reach.

    benches/printed.py [PROGRAM]     PROGRAM is the one that ./parbegin has built if none is given

The exercises are those of benches/printed and the texts of examples/10-grading that are not refused. The first count is the
least number of --states with which the search ends; the second is that of a search through all orders of all picks over
checks/lib/reference.py, which keeps what was printed beside each state. Nothing is timed.
"""
from __future__ import annotations

import sys
from collections.abc import Iterator
from pathlib import Path

from scratch import TOP, print_table

sys.path.insert(0, str(TOP / "checks/lib"))
import reference  # noqa: E402
from calls import call  # noqa: E402
from states import count_states  # noqa: E402

MOST = 1_000_000
FOLDERS = ("benches/printed", "examples/10-grading")


def ends_within(text: bytes, states: int) -> bool:
    return call(["outcomes", "--prints", "--states", str(states)], text)[0] == 0


def kept(text: bytes) -> int:
    """Returns the least number of configurations with which the search ends."""
    low, high = 1, 2
    while not ends_within(text, high):
        low, high = high + 1, 2 * high
    while low < high:
        middle = (low + high) // 2
        low, high = (low, middle) if ends_within(text, middle) else (middle + 1, high)
    return low


def start_of(text: bytes) -> reference.Machine | None:
    """Returns the machine before its first pick, unless the text is refused."""
    try:
        machine = reference.Machine(text.decode())
        machine.refuse_claims()
    except reference.Refused:
        return None
    return machine


def rows(folder: str) -> Iterator[tuple[str, ...]]:
    """Yields a row for each text, and one for all."""
    total, whole = 0, 0
    for path in sorted((TOP / folder).glob("*.pb")):
        start = start_of(path.read_bytes())
        if start is None:
            continue
        few, many = kept(path.read_bytes()), count_states(start, MOST)
        assert many, f"{path} reaches more than {MOST} states"
        total, whole = total + few, whole + many
        yield path.stem, f"{many:,}", f"{few:,}", f"{many / few:.1f}"
    yield "all", f"{whole:,}", f"{total:,}", f"{whole / total:.1f}"


def main() -> None:
    for folder in FOLDERS:
        print_table((folder, "Single picks", "Kept", "Ratio"), rows(folder))


main()
