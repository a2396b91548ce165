"""What the desk knows of a session, and what an entry has led to."""
from __future__ import annotations

from collections import deque
from dataclasses import dataclass, field
from typing import Any, NamedTuple

from script.serving.words import KEPT

Amounts = dict[str, int]


class Notice(NamedTuple):
    """`notice NUMBER LINE`, which is to be sent to a session."""

    session: int
    number: int
    line: str


class Done(NamedTuple):
    """What an entry has led to: the answer to it, and notices to sessions. `is_new` is whether it was not a repetition."""

    session: int
    number: int
    answer: list[str]
    notices: list[Notice]
    is_new: bool = True


def new_notices() -> deque[tuple[int, str]]:
    """Returns a place for the notices that are kept."""
    return deque(maxlen=KEPT)


@dataclass
class Session:
    """A session: its key, its lease, its last requests with their answers, and its last notices.

    `jobs` are its own. `shares` are what it got itself for each job that it owns or uses.
    """

    key: str
    lease: int
    last: int = 0
    answers: dict[int, list[str]] = field(default_factory=dict)
    noted: int = 0
    notices: deque[tuple[int, str]] = field(default_factory=new_notices)
    jobs: list[str] = field(default_factory=list)
    shares: dict[str, Amounts] = field(default_factory=dict)

    def uses(self) -> list[str]:
        """Returns the jobs of other sessions that it may ask for."""
        return [job for job in self.shares if job not in self.jobs]

    def keep(self, number: int, answer: list[str]) -> None:
        """Keeps the answer to a request, and drops the oldest one."""
        self.last = number
        self.answers[number] = answer
        self.answers.pop(number - KEPT, None)
        if len(self.answers) > KEPT:
            del self.answers[next(iter(self.answers))]

    def note(self, line: str) -> int:
        """Keeps a notice, and returns its number."""
        self.noted += 1
        self.notices.append((self.noted, line))
        return self.noted

    def count(self, job: str, amounts: Amounts, sign: int) -> None:
        """Counts what was got for a job, or given back."""
        share = self.shares[job]
        for name, amount in amounts.items():
            share[name] = share.get(name, 0) + sign * amount

    def to_json(self) -> dict[str, Any]:
        """Returns the session as a snapshot has it."""
        return {
            "key": self.key, "lease": self.lease, "last": self.last, "answers": self.answers, "noted": self.noted,
            "notices": list(self.notices), "jobs": self.jobs, "shares": self.shares,
        }

    @classmethod
    def from_json(cls, given: dict[str, Any]) -> Session:
        """Returns the session that a snapshot has."""
        it = cls(**given)
        it.answers = {int(number): answer for number, answer in it.answers.items()}
        it.notices = new_notices()
        it.notices.extend((number, line) for number, line in given["notices"])
        return it
