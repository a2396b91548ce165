"""What the calls answer, and why one did nothing."""
from __future__ import annotations

import enum
from typing import NamedTuple

MAX_JOBS = 64
MAX_RESOURCES = 16
MAX_AMOUNT = 1_000_000


class Fault(Exception):
    """A call that did nothing; the text says why."""


class Ended(Fault):
    """There is no bank any more: its program has ended, or it was closed. Each later call raises this too."""


class Answer(enum.Enum):
    """The answer to a request."""

    GRANTED = "granted"
    NOT_NOW = "not now"
    OVER_CLAIM = "over claim"


class Reason(NamedTuple):
    """Why a request would be granted or not.

    `kind` is "allowed"; or "over claim" or "over cash", with the resource; or "rest", with the jobs that could not
    finish after it.
    """

    kind: str
    resource: int | None = None
    jobs: tuple[int, ...] = ()


class Reply(NamedTuple):
    """What a command writes, and its exit status: 0 if it did what was asked."""

    status: int
    text: str


class Outcome(NamedTuple):
    """What `run` made: the lines of the events, and how the run ended ("done", or "open" if its steps were used up)."""

    events: list[str]
    end: str


# Why a call did nothing.
NO_REQUEST = "no such job, or not an amount for each resource"
NOT_HELD = "the job does not hold so much"
NO_BANK = "the numbers make no bank"
OVER_CAPITAL = "a claim is over the capital"
FULL = "there are 64 jobs already"
NOT_SAFE = "not all jobs could finish"
HAS_WISH = "the job has a wish in the queue"
NO_WISH = "the job has no wish in the queue"
NEGATIVE = "an amount is negative"
CLOSED = "the bank is closed"
WITHIN_A_CALL = "a call of a bank within another call of it, as in the handler of a signal"
# What the library says, as numbers.
FAULTS = {3: NO_REQUEST, 4: NOT_HELD, 6: NO_BANK, 7: OVER_CAPITAL, 8: FULL, 10: NOT_SAFE}
# What the program says, as codes.
REFUSALS = {
    "B4": NO_REQUEST, "B5": NO_REQUEST, "B9": FULL, "B10": OVER_CAPITAL, "B11": NOT_HELD, "B12": HAS_WISH, "B13": NO_WISH,
}
ANSWERS = {0: Answer.GRANTED, 1: Answer.NOT_NOW, 2: Answer.OVER_CLAIM}
