"""The library libparbegin.so, by ctypes: a bank in this process, and the commands."""
from __future__ import annotations

import ctypes
import ctypes.util
import os
from collections.abc import Callable, Iterable, Sequence
from ctypes import POINTER, byref, c_char_p, c_size_t, c_uint8, c_uint32
from pathlib import Path

from .answers import ANSWERS, CLOSED, FAULTS, MAX_JOBS, MAX_RESOURCES, NO_BANK, Answer, Ended, Fault, Reason, Reply


class Tables(ctypes.Structure):
    """The bank of parbegin.h."""

    _fields_ = [
        ("slots", c_size_t),
        ("resources", c_size_t),
        ("capital", c_uint32 * MAX_RESOURCES),
        ("cash", c_uint32 * MAX_RESOURCES),
        ("claims", (c_uint32 * MAX_RESOURCES) * MAX_JOBS),
        ("loans", (c_uint32 * MAX_RESOURCES) * MAX_JOBS),
        ("order", c_uint8 * MAX_JOBS),
        ("jobs", c_uint8 * MAX_JOBS),
    ]


class Why(ctypes.Structure):
    """The pb_why of parbegin.h."""

    _fields_ = [("resource", c_size_t), ("rest", c_uint8 * MAX_JOBS)]


class Word(ctypes.Structure):
    """A word of a call."""

    _fields_ = [("text", c_char_p), ("length", c_size_t)]


# The names, what they return, and their parameters.
BANK, AMOUNTS, BYTES, SIZE = POINTER(Tables), POINTER(c_uint32), POINTER(c_uint8), POINTER(c_size_t)
DECLARED = {
    "pb_bank_new": (c_uint32, BANK, AMOUNTS, c_size_t),
    "pb_bank_adopt": (c_uint32, BANK),
    "pb_bank_join": (c_uint32, BANK, AMOUNTS, c_size_t, SIZE),
    "pb_bank_leave": (c_uint32, BANK, c_size_t),
    "pb_bank_ask": (c_uint32, BANK, c_size_t, AMOUNTS, c_size_t),
    "pb_bank_give": (c_uint32, BANK, c_size_t, AMOUNTS, c_size_t),
    "pb_bank_drop_all": (c_uint32, BANK, c_size_t),
    "pb_bank_order": (c_size_t, BANK, BYTES),
    "pb_bank_why": (c_uint32, BANK, c_size_t, AMOUNTS, c_size_t, POINTER(Why)),
    "pb_call": (c_uint8, POINTER(Word), c_size_t, c_char_p, c_size_t, BYTES, c_size_t, SIZE),
    "pb_check": (c_uint8, c_char_p, c_size_t, BYTES, c_size_t, SIZE),
    "pb_claims": (c_uint8, c_char_p, c_size_t, BYTES, c_size_t, SIZE),
    "pb_plan": (c_uint8, c_char_p, c_size_t, BYTES, c_size_t, SIZE),
}
# The commands that have a function of their own.
OF_TEXTS = ("check", "claims", "plan")


def find() -> str | None:
    """Returns the name of the library, or nothing if there is none."""
    beside = Path(__file__).resolve().parent / "libparbegin.so"
    named = os.environ.get("PARBEGIN_SO")
    return named if named is not None else str(beside) if beside.exists() else ctypes.util.find_library("parbegin")


def load(kind: type[ctypes.CDLL]) -> ctypes.CDLL | None:
    """Returns the library, or nothing if there is none."""
    found = find()
    if not found:
        return None
    library = kind(found)
    for name, (result, *parameters) in DECLARED.items():
        function = getattr(library, name)
        function.restype, function.argtypes = result, parameters
    return library


# For banks, whose calls take microseconds; and for commands, in which other threads of Python go on.
LIBRARY, COMMANDS = load(ctypes.PyDLL), load(ctypes.CDLL)


def row_of(amounts: Sequence[int]) -> tuple[ctypes.Array[c_uint32], int]:
    """Returns the amounts as C takes them; one that is too large is one that no bank has."""
    count = len(amounts)
    if count and max(amounts) > 0xFFFFFFFF:
        amounts = [min(amount, 0xFFFFFFFF) for amount in amounts]
    return (c_uint32 * count)(*amounts), count


class LibraryBank:
    """A bank in this process."""

    def __init__(self, library: ctypes.CDLL, capital: Sequence[int] | None) -> None:
        """Opens a bank with this capital; with none, one that `adopt` is to fill."""
        self.library = library
        self.tables = Tables()
        self.at = byref(self.tables)
        self.is_closed = False
        if capital is not None:
            self.done(library.pb_bank_new(self.at, *row_of(capital)))

    @staticmethod
    def done(said: int) -> None:
        if said:
            raise Fault(FAULTS[said])

    def adopt(self, given: bytes) -> None:
        """Takes over the tables of a bank."""
        if len(given) != ctypes.sizeof(Tables):
            raise Fault(NO_BANK)
        ctypes.memmove(self.at, given, len(given))
        self.done(self.library.pb_bank_adopt(self.at))

    def join(self, claims: Sequence[int]) -> int:
        slot = c_size_t()
        self.done(self.library.pb_bank_join(self.at, *row_of(claims), byref(slot)))
        return slot.value

    def leave(self, job: int) -> None:
        self.done(self.library.pb_bank_leave(self.at, job))

    def ask(self, job: int, amounts: Sequence[int]) -> Answer:
        said = self.library.pb_bank_ask(self.at, job, *row_of(amounts))
        answer = ANSWERS.get(said)
        if answer is None:
            raise Fault(FAULTS[said])
        return answer

    def give(self, job: int, amounts: Sequence[int]) -> None:
        self.done(self.library.pb_bank_give(self.at, job, *row_of(amounts)))

    def drop_all(self, job: int) -> None:
        self.done(self.library.pb_bank_drop_all(self.at, job))

    def order(self) -> list[int]:
        order = (c_uint8 * MAX_JOBS)()
        count = self.library.pb_bank_order(self.at, order)
        return [slot for slot in order[:count] if self.tables.jobs[slot]]

    def why(self, job: int, amounts: Sequence[int]) -> Reason:
        why = Why()
        said = self.library.pb_bank_why(self.at, job, *row_of(amounts), byref(why))
        if said == 0:
            return Reason("allowed")
        if said == 1:
            return Reason("rest", None, tuple(slot for slot in range(MAX_JOBS) if why.rest[slot]))
        if said in (2, 9):
            return Reason("over claim" if said == 2 else "over cash", why.resource)
        raise Fault(FAULTS[said])

    def row(self, name: str, job: int | None) -> list[int]:
        table = getattr(self.tables, name)
        return list((table if job is None else table[job])[: self.tables.resources])

    def loans_of(self, jobs: Iterable[int]) -> dict[int, list[int]]:
        return {job: self.row("loans", job) for job in jobs}

    def has_job(self, job: int) -> bool:
        return bool(self.tables.jobs[job])

    def check(self) -> None:
        if self.is_closed:
            raise Ended(CLOSED)

    def settle(self) -> None:
        """Does nothing: a call of the library is made or not."""

    def kill(self) -> None:
        """Does nothing: no call of the library waits for anything."""

    def close(self) -> None:
        self.is_closed = True

    def leave_to_parent(self) -> None:
        """Does nothing: a forked process has a copy of the bank."""


def grow(called: Callable[..., int]) -> Reply:
    """Calls with more and more room, until there is enough for the reply."""
    room = 4_096
    while True:
        output, needed = (c_uint8 * room)(), c_size_t()
        status = called(output, room, byref(needed))
        if needed.value <= room:
            return Reply(status, bytes(output[: needed.value]).decode(errors="replace"))
        room = needed.value


def call(library: ctypes.CDLL, words: Sequence[str], given: bytes) -> Reply:
    """Does what the program does with these words and this input."""
    if len(words) == 1 and words[0] in OF_TEXTS:
        called = getattr(library, f"pb_{words[0]}")
        return grow(lambda *room: called(given, len(given), *room))
    spelled = [word.encode() for word in words]
    array = (Word * len(spelled))(*[(word, len(word)) for word in spelled])
    return grow(lambda *room: library.pb_call(array, len(spelled), given, len(given), *room))
