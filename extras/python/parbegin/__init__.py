"""A proved banker for jobs that come and go, and the commands of parbegin, from Python.

    from parbegin import Bank, Answer

    bank = Bank([1, 1])                 # one tape and one disk
    first = bank.join([1, 1])           # a job joins with its claims
    if bank.ask(first, [1, 0]) is Answer.GRANTED:
        ...
    bank.leave(first)                   # all comes back

It calls libparbegin.so by ctypes: the file that the variable PARBEGIN_SO names, else the one in this folder, else the
one that the loader finds. If there is none, it talks with the program `parbegin` through pipes, by its command `bank` and
the others: the program that the variable PARBEGIN names, else the one on the path. Both say the same. `RemoteBank` is a
client of a bank that `parbegin serve` serves, and `AsyncRemoteBank` one for asyncio.

Any thread may call any bank: a bank has a lock, which each of its calls holds from its first step to its last. There are no
dependencies.
"""
from __future__ import annotations

from typing import TYPE_CHECKING, Any

from .answers import Answer, Ended, Fault, Outcome, Reason, Reply
from .bank import Bank
from .commands import check, claims, outcomes, plan, run
from .plans import Claim, Need, Nest, Plan
from .remote import NamedReason, RemoteBank

if TYPE_CHECKING:
    from .remote_async import AsyncRemoteBank

__all__ = [
    "Answer", "AsyncRemoteBank", "Bank", "Claim", "Ended", "Fault", "NamedReason", "Need", "Nest", "Outcome", "Plan", "Reason",
    "RemoteBank", "Reply", "check", "claims", "outcomes", "plan", "run",
]


def __getattr__(name: str) -> Any:
    """Returns what is imported once it is used: asyncio takes long to import."""
    if name == "AsyncRemoteBank":
        from .remote_async import AsyncRemoteBank

        return AsyncRemoteBank
    raise AttributeError(f"module {__name__!r} has no attribute {name!r}")
