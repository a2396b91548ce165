"""The bank, over the library or the program, and its queue."""
from __future__ import annotations

import functools
import os
import threading
import weakref
from collections.abc import Callable, Iterable, Sequence
from typing import Any, Protocol, TypeVar, cast

from ._library import LIBRARY, LibraryBank
from ._numbers import amounts_of, slot_of
from ._pipes import GRACE
from ._program import ProgramBank, find
from ._saved import seal, unseal
from .answers import CLOSED, HAS_WISH, NO_REQUEST, NO_WISH, WITHIN_A_CALL, Answer, Ended, Fault, Reason

Call = TypeVar("Call", bound=Callable[..., Any])


class Backend(Protocol):
    """What a bank is made of."""

    def join(self, claims: Sequence[int]) -> int: ...
    def leave(self, job: int) -> None: ...
    def ask(self, job: int, amounts: Sequence[int]) -> Answer: ...
    def give(self, job: int, amounts: Sequence[int]) -> None: ...
    def drop_all(self, job: int) -> None: ...
    def order(self) -> list[int]: ...
    def why(self, job: int, amounts: Sequence[int]) -> Reason: ...
    def row(self, name: str, job: int | None) -> list[int]: ...
    def loans_of(self, jobs: Iterable[int]) -> dict[int, list[int]]: ...
    def has_job(self, job: int) -> bool: ...

    def check(self) -> None:
        """Raises Ended if there is no bank any more."""

    def settle(self) -> None:
        """Brings to its end what an interrupted call has left."""

    def kill(self) -> None:
        """Ends a call that waits in another thread."""

    def close(self) -> None:
        """Ends the bank."""

    def leave_to_parent(self) -> None:
        """Lets go, in a forked process, of what only its parent may use."""


def in_turn(call: Call) -> Call:
    """Makes a call of a bank one that holds its lock from the first step to the last."""

    @functools.wraps(call)
    def taken(self: Bank, *words: Any, **named: Any) -> Any:
        # (else the handler of a signal would wait for the call that it stands in)
        if self._lock._is_owned():  # type: ignore[attr-defined]
            raise Fault(WITHIN_A_CALL)
        with self._lock:
            self._bank.check()
            if self._is_closing:
                raise Ended(CLOSED)
            if not self._is_settled:
                self._settle()
            self._is_settled = False
            answer = call(self, *words, **named)
            self._is_settled = True
            return answer

    return cast(Call, taken)


class Bank:
    """A banker of jobs that come and go: at most 64 at once, over 1 to 16 resources, with at most 1,000,000 of each.

    A job is named by its slot, a number from 0 to 63 that `join` returns. After each call all jobs can finish in some
    order: a request is granted exactly if claim and cash allow it and that stays so. A call that raises Fault changes
    nothing. The queue of `want` is kept here, over the bank's `ask`, by the rule of the command `bank`.

    Any thread may call: each call is one step for all others. If the handler of a signal raises in a call, that call was
    made or was not, and the next one goes on from there: `loans` and `wishes` say which.
    """

    def __init__(self, capital: Iterable[int], program: str | None = None) -> None:
        """Opens a bank with this capital and no jobs. `program` is a program to ask in place of the library."""
        amounts = amounts_of(capital)
        library = None if program else LIBRARY
        self._begin(LibraryBank(library, amounts) if library else ProgramBank(program or find(), amounts))

    def _begin(self, bank: Backend) -> None:
        self._bank, self._lock, self._is_settled = bank, threading.RLock(), True
        # (threads that call again and again would keep their lock from whoever closes)
        self._is_closing = False
        # the queue: the wish of each job that waits, in the order in which they came
        self._wishes: dict[int, list[int]] = {}
        # jobs whose wishes were granted, as long as no call has returned them
        self._granted: list[int] = []
        # what the jobs that wait held before the wishes were asked for, as long as that goes on
        self._before: dict[int, list[int]] | None = None
        BANKS.add(self)

    @in_turn
    def join(self, claims: Iterable[int]) -> int:
        """A job joins with a claim on each resource, the most that it will hold at once. Returns its slot."""
        return self._bank.join(amounts_of(claims))

    @in_turn
    def leave(self, job: int) -> list[int]:
        """A job leaves: all that it holds comes back, its slot is free, and its wish is gone.

        Returns the jobs whose wishes are granted now, in the order in which they came.
        """
        slot = slot_of(job)
        self._bank.leave(slot)
        self._wishes.pop(slot, None)
        return self._serve()

    @in_turn
    def ask(self, job: int, amounts: Iterable[int]) -> Answer:
        """Asks for an amount of each resource, all or none of them. A job that has a wish may not ask."""
        return self._ask(slot_of(job), amounts_of(amounts))

    def _ask(self, job: int, amounts: list[int]) -> Answer:
        if job in self._wishes:
            raise Fault(HAS_WISH)
        return self._bank.ask(job, amounts)

    @in_turn
    def want(self, job: int, amounts: Iterable[int]) -> Answer:
        """Asks, and waits: a request that is not granted now, but is within the claim, joins the queue.

        `give`, `drop_all` and `leave` say when it is granted. A wish never holds back those behind it.
        """
        slot, wish = slot_of(job), amounts_of(amounts)
        answer = self._ask(slot, wish)
        if answer is Answer.NOT_NOW:
            self._wishes[slot] = wish
        return answer

    @in_turn
    def drop(self, job: int) -> None:
        """Takes the wish of a job out of the queue."""
        slot = slot_of(job)
        if slot not in self._wishes:
            raise Fault(NO_WISH if self._bank.has_job(slot) else NO_REQUEST)
        del self._wishes[slot]

    @in_turn
    def wishes(self) -> list[tuple[int, list[int]]]:
        """Returns the queue: each job that waits, with the amounts that it wants."""
        return [(job, list(amounts)) for job, amounts in self._wishes.items()]

    def _serve(self) -> list[int]:
        """Grants each wish that is allowed, and returns the jobs of those that were granted and not yet returned."""
        self._serve_all()
        granted, self._granted = self._granted, []
        return granted

    def _serve_all(self) -> None:
        """Grants each wish that is allowed, in the order of the queue."""
        if not self._wishes:
            return
        self._before = self._bank.loans_of(self._wishes)
        for job, amounts in list(self._wishes.items()):
            if self._bank.ask(job, amounts) is Answer.GRANTED:
                self._grant(job)
        self._before = None

    def _grant(self, job: int) -> None:
        """Notes that the wish of a job was granted."""
        if job not in self._granted:
            self._granted.append(job)
        self._wishes.pop(job, None)

    def _settle(self) -> None:
        """Brings to its end what an interrupted call has left, so that the queue and the bank agree again."""
        self._bank.settle()
        for job in list(self._wishes):
            if not self._bank.has_job(job):
                del self._wishes[job]
        if self._before is not None:
            now = self._bank.loans_of(self._wishes)
            for job in list(self._wishes):
                if now[job] != self._before.get(job, now[job]):
                    self._grant(job)
            self._before = None
        self._serve_all()

    @in_turn
    def give(self, job: int, amounts: Iterable[int]) -> list[int]:
        """Gives back an amount of each resource, all or none of them.

        Returns the jobs whose wishes are granted now, in the order in which they came.
        """
        self._bank.give(slot_of(job), amounts_of(amounts))
        return self._serve()

    @in_turn
    def drop_all(self, job: int) -> list[int]:
        """Gives back all that a job holds; it stays, with its claim and its wish. Returns what `give` returns."""
        self._bank.drop_all(slot_of(job))
        return self._serve()

    @in_turn
    def order(self) -> list[int]:
        """Returns an order in which all jobs can finish, each next one the first that fits."""
        return self._bank.order()

    @in_turn
    def why(self, job: int, amounts: Iterable[int]) -> Reason:
        """Returns why a request would be granted or not, and changes nothing."""
        return self._bank.why(slot_of(job), amounts_of(amounts))

    @in_turn
    def capital(self) -> list[int]:
        """Returns the capital of each resource."""
        return self._bank.row("capital", None)

    @in_turn
    def cash(self) -> list[int]:
        """Returns the capital of each resource less all loans of it."""
        return self._bank.row("cash", None)

    @in_turn
    def loans(self, job: int) -> list[int]:
        """Returns what a job holds of each resource."""
        return self._of_job("loans", slot_of(job))

    @in_turn
    def claims(self, job: int) -> list[int]:
        """Returns what a job claims of each resource."""
        return self._of_job("claims", slot_of(job))

    def _of_job(self, name: str, job: int) -> list[int]:
        if not self._bank.has_job(job):
            raise Fault(NO_REQUEST)
        return self._bank.row(name, job)

    @in_turn
    def to_bytes(self) -> bytes:
        """Returns the bytes of the bank, for `from_bytes`: its jobs and its loans, and not its queue.

        Only a bank in the library has them. They begin with a magic word, a version and a checksum.
        """
        if not isinstance(self._bank, LibraryBank):
            raise Fault("only a bank in the library has bytes")
        return seal(bytes(self._bank.tables))

    @classmethod
    def from_bytes(cls, given: bytes) -> Bank:
        """Makes a bank of bytes that come from anywhere, or raises Fault if they are none, and says why."""
        if LIBRARY is None:
            raise Fault("only a bank in the library has bytes")
        inside = LibraryBank(LIBRARY, None)
        inside.adopt(unseal(bytes(given)))
        bank = cls.__new__(cls)
        bank._begin(inside)
        return bank

    def close(self) -> None:
        """Ends the bank, and the program that was asked, if there is one. Later calls raise Ended.

        It never raises. A call of another thread that does not end is broken off, and raises Ended.
        """
        self._is_closing = True
        has_turn = self._lock.acquire(timeout=GRACE)
        if not has_turn:
            self._bank.kill()
            has_turn = self._lock.acquire(timeout=GRACE)
        try:
            self._bank.close()
        finally:
            if has_turn:
                self._lock.release()

    def __enter__(self) -> Bank:
        return self

    def __exit__(self, *fault: object) -> None:
        self.close()


# All banks of this process.
BANKS: weakref.WeakSet[Bank] = weakref.WeakSet()


def after_fork() -> None:
    """Lets a forked process begin with free locks, and without the pipes of its parent, whose banks would outlive it."""
    for bank in list(BANKS):
        bank._lock, bank._is_settled = threading.RLock(), False
        bank._bank.leave_to_parent()


os.register_at_fork(after_in_child=after_fork)
