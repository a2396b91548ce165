"""The numbers of a call: integers, and nothing that only looks like one."""
from __future__ import annotations

import operator
from collections.abc import Iterable

from .answers import MAX_JOBS, NEGATIVE, NO_REQUEST, Fault

ALL_INTEGERS = {int}


def number_of(given: int) -> int:
    """Returns an integer as it is. Raises TypeError for anything else: floats, texts, and bools too."""
    if type(given) is int:
        return given
    if isinstance(given, bool):
        raise TypeError(f"{given} is a bool, and an integer is wanted")
    return operator.index(given)


def slot_of(job: int) -> int:
    """Returns the slot of a job. Raises Fault for one that no job can have."""
    slot = number_of(job)
    if not 0 <= slot < MAX_JOBS:
        raise Fault(NO_REQUEST)
    return slot


def amounts_of(amounts: Iterable[int]) -> list[int]:
    """Returns the amounts. Raises TypeError if they are not integers, and Fault if one is negative."""
    if isinstance(amounts, (str, bytes, bytearray)):
        raise TypeError(f"{amounts!r} are no amounts: a list of integers is wanted, one for each resource")
    row = list(amounts)
    if not ALL_INTEGERS.issuperset(map(type, row)):
        row = [number_of(amount) for amount in row]
    if row and min(row) < 0:
        raise Fault(NEGATIVE)
    return row
