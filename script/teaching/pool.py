"""Places for processes, and a fair queue before them; and how often somebody may ask."""
from __future__ import annotations

import asyncio
import collections
from collections.abc import AsyncIterator
from contextlib import asynccontextmanager

MOST_KNOWN = 20_000


class Busy(Exception):
    """The queue is full, or somebody has too many wishes in it."""


class Pool:
    """So many places, and a queue before them in which clients take turns, each after its own wishes. One client may have half
    of the places at once, so nobody can hold up the others; and `of_one` wishes, if there is such a limit."""

    def __init__(self, places: int, queue: int, of_one: int | None) -> None:
        self.free, self.each, self.queue, self.of_one = places, max(1, places // 2), queue, of_one
        self.waiting: collections.OrderedDict[str, collections.deque[asyncio.Future[None]]] = collections.OrderedDict()
        self.wishes: collections.Counter[str] = collections.Counter()
        self.running: collections.Counter[str] = collections.Counter()

    def length(self) -> int:
        """Returns how many wait."""
        return sum(len(it) for it in self.waiting.values())

    @asynccontextmanager
    async def place(self, client: str) -> AsyncIterator[None]:
        """Has a place while the block runs."""
        if self.of_one is not None and (self.wishes[client] >= self.of_one or self.length() >= self.queue):
            raise Busy
        self.wishes[client] += 1
        try:
            await self.turn_of(client)
            try:
                yield
            finally:
                self.release(client)
        finally:
            self.wishes[client] -= 1
            if not self.wishes[client]:
                del self.wishes[client]

    async def turn_of(self, client: str) -> None:
        """Waits for a place. One that comes while the wait is cancelled is given back."""
        turn: asyncio.Future[None] = asyncio.get_running_loop().create_future()
        self.waiting.setdefault(client, collections.deque()).append(turn)
        self.serve()
        try:
            await turn
        except asyncio.CancelledError:
            if turn.done() and not turn.cancelled():
                self.release(client)
            else:
                self.waiting[client].remove(turn)
                if not self.waiting[client]:
                    del self.waiting[client]
            raise

    def serve(self) -> None:
        """Gives free places to the clients whose turn it is."""
        while self.free:
            client = next((it for it in self.waiting if self.running[it] < self.each), None)
            if client is None:
                return
            wishes = self.waiting.pop(client)
            turn = wishes.popleft()
            if wishes:
                self.waiting[client] = wishes
            self.free -= 1
            self.running[client] += 1
            turn.set_result(None)

    def release(self, client: str) -> None:
        """Takes a place back."""
        self.free += 1
        self.running[client] -= 1
        if not self.running[client]:
            del self.running[client]
        self.serve()


class Buckets:
    """How often somebody may ask: so many a second, and so many at once; as often as he likes if the rate is 0."""

    def __init__(self, rate: float, at_once: float) -> None:
        self.rate, self.at_once = rate, at_once
        self.left: collections.OrderedDict[str, tuple[float, float]] = collections.OrderedDict()

    def take(self, who: str, now: float) -> bool:
        """Takes one, and returns whether there was one."""
        if not self.rate:
            return True
        left, at = self.left.pop(who, (self.at_once, now))
        left = min(self.at_once, left + (now - at) * self.rate)
        self.left[who] = (left - 1 if left >= 1 else left, now)
        if len(self.left) > MOST_KNOWN:
            self.left.popitem(last=False)
        return left >= 1
