"""A session with a bank that `parbegin serve` serves, for asyncio."""
from __future__ import annotations

import asyncio
import contextlib
import os
import time
from collections.abc import AsyncIterator

from ._wire import Addresses, Elsewhere, Lost, host_and_port, is_of_unix, words_of
from .answers import CLOSED, Answer, Ended, Fault
from .remote import LATE, LOOK, PAUSE, SILENCE, TOLD, Amounts, NamedReason, named_reason, spell

# Seconds for a greeting, and the most bytes of what is read at once.
GREETING, PIECE = 3.0, 65_536
# What ends a connection, but not the session.
PASSING = (OSError, asyncio.TimeoutError, asyncio.IncompleteReadError)


class AsyncRequest:
    """A request that was made: its line, and who waits for its answer."""

    def __init__(self, line: str) -> None:
        self.line = line
        self.sent = time.monotonic()
        self.answer: asyncio.Future[list[str]] = asyncio.get_running_loop().create_future()


def taken(answer: list[str]) -> list[str]:
    """Returns the lines of an answer. Raises Fault if it is a refusal."""
    if answer and answer[0].startswith("refused"):
        raise Fault(answer[0])
    return answer


def told_of(answer: list[str]) -> Answer:
    """Returns what the answer to a request says."""
    return TOLD[taken(answer)[0].split(" ")[0]]


class AsyncWire:
    """The session of a client, over one connection at a time."""

    def __init__(self, address: str, lease: int, token: str | None, authority: str | None) -> None:
        self.addresses, self.lease, self.token, self.authority = Addresses(address), lease, token, authority
        self.sid = self.key = ""
        self.reader: asyncio.StreamReader | None = None
        self.writer: asyncio.StreamWriter | None = None

    async def connect(self) -> tuple[asyncio.StreamReader, asyncio.StreamWriter]:
        """Connects to the path of a socket, to `HOST:PORT`, or by TLS to `tls:HOST:PORT`."""
        address = self.addresses.first()
        if is_of_unix(address):
            return await asyncio.open_unix_connection(address)
        host, port = host_and_port(address)
        if not address.startswith("tls:"):
            return await asyncio.open_connection(host, port)
        # (needed here alone)
        import ssl

        return await asyncio.open_connection(host, port, ssl=ssl.create_default_context(cafile=self.authority))

    async def open(self, noticed: int) -> None:
        """Connects, and begins the session or goes on with it. Raises OSError if that fails for now, and Lost if it has ended."""
        self.close()
        self.reader, self.writer = await self.connect()
        if self.token:
            await self.greet(f"auth {self.token}")
        words = await self.greet(f"attach {self.sid} {self.key} {noticed}" if self.sid else f"session {self.lease}")
        if words[0] == "session":
            self.sid, self.key = words[1], words[2]

    async def greet(self, line: str) -> list[str]:
        """Sends a line of the greeting, and returns the words of its answer."""
        assert self.reader is not None
        self.send(line)
        lines: list[str] = []
        while (told := (await self.reader.readuntil(b"\n"))[:-1].decode("latin-1")) != "ready":
            lines.append(told)
        return words_of(lines, bool(self.sid))

    def send(self, *lines: str) -> None:
        """Sends lines, if there is a connection."""
        if self.writer is not None and lines:
            self.writer.write("".join(f"{line}\n" for line in lines).encode("latin-1", "replace"))

    def close(self) -> None:
        """Ends the connection."""
        if self.writer is not None:
            self.writer.close()
        self.reader = self.writer = None


class AsyncRemoteBank:
    """A session with a served bank, as `RemoteBank`, whose calls are awaited.

        async with AsyncRemoteBank("/run/parbegin/socket") as bank:
            await bank.join("night", {"tape": 1, "disk": 2})
            async with bank.holding("night", {"tape": 1}):
                ...

    All tasks of one loop may call. A task of its own keeps the lease, connects again when a connection ends, and sends what
    has no answer once more, which the server carries out once.
    """

    def __init__(
        self, address: str | None = None, *, lease: int = 30, token: str | None = None, authority: str | None = None,
        patience: float = 10.0,
    ) -> None:
        where = os.environ.get("PARBEGIN_SOCKET", "") if address is None else address
        self._wire, self._lease, self._patience = AsyncWire(where, lease, token, authority), lease, patience
        self._requests: dict[int, AsyncRequest] = {}
        self._parts: dict[int, list[str]] = {}
        self._number = self._noticed = 0
        self._is_open = False
        # the number of the notice by which each job was granted something last, or has left, and the last one before its wish
        self._granted: dict[str, int] = {}
        self._left: dict[str, int] = {}
        self._before: dict[str, int] = {}
        self._told: asyncio.Event
        self._ended = ""
        self._keeper: asyncio.Future[None] | None = None

    # The task that keeps the session

    async def open(self) -> None:
        """Begins the session. Raises Fault if no server answers in time."""
        # (in the loop that is to wait for it)
        self._told, end = asyncio.Event(), time.monotonic() + self._patience
        while True:
            try:
                await self._connect()
                break
            except PASSING as fault:
                if time.monotonic() > end:
                    raise Fault(f"no server answers at {self._wire.addresses}: {fault or 'in time'}") from fault
                await self._next_server(fault)
        self._keeper = asyncio.ensure_future(self._keep())

    async def _next_server(self, fault: Exception) -> None:
        self._is_open = False
        self._wire.close()
        if not self._wire.addresses.is_told(fault):
            await asyncio.sleep(PAUSE)

    async def _connect(self) -> None:
        """Connects, and sends all that has no answer."""
        opening = asyncio.ensure_future(self._wire.open(self._noticed))
        try:
            if not (await asyncio.wait([opening], timeout=GREETING))[0]:
                raise asyncio.TimeoutError
            opening.result()
        finally:
            opening.cancel()
        self._parts.clear()
        self._is_open = True
        for number, request in self._requests.items():
            request.sent = time.monotonic()
            self._wire.send(f"{number} {request.line}")

    async def _keep(self) -> None:
        """Reads what comes and keeps the lease, until the session ends."""
        while not self._ended:
            try:
                if not self._is_open:
                    await self._connect()
                await self._read()
            except Lost as why:
                self._end(str(why))
            except Fault:
                # (as many clients as there can be, for a while)
                self._is_open = False
                await asyncio.sleep(PAUSE)
            except PASSING as fault:
                await self._next_server(fault)

    async def _read(self) -> None:
        """Takes what comes over one connection, until that ends."""
        assert self._wire.reader is not None
        unread, beaten = b"", time.monotonic()
        reading = asyncio.ensure_future(self._wire.reader.read(PIECE))
        try:
            while not self._ended:
                if (await asyncio.wait([reading], timeout=min(LOOK, self._lease / 8)))[0]:
                    piece = reading.result()
                    if not piece:
                        raise ConnectionError("the server has gone")
                    *lines, unread = (unread + piece).split(b"\n")
                    for line in lines:
                        self._take(line.decode("latin-1"))
                    reading = asyncio.ensure_future(self._wire.reader.read(PIECE))
                if time.monotonic() - beaten > self._lease / 4:
                    beaten = time.monotonic()
                    self._make("beat")
                if any(time.monotonic() - it.sent > SILENCE for it in self._requests.values()):
                    # (it may be paused, and another one lead)
                    raise ConnectionError("the server is silent")
        finally:
            reading.cancel()

    def _take(self, line: str) -> None:
        """Takes a line: a notice, or a part of an answer."""
        head, _, rest = line.partition(" ")
        if head == "notice":
            number, _, told = rest.partition(" ")
            if int(number) > self._noticed:
                self._noticed = int(number)
                verb, job, *_ = told.split(" ")
                (self._granted if verb == "granted" else self._left)[job] = self._noticed
                self._tell()
        elif not head.isdigit():
            # (why the connection ends)
            return
        elif rest != "ready":
            self._parts.setdefault(int(head), []).append(rest)
        else:
            self._answer(int(head), self._parts.pop(int(head), []))

    def _answer(self, number: int, lines: list[str]) -> None:
        """Gives a whole answer to who waits for it."""
        if lines and lines[0].startswith("refused S2"):
            raise Elsewhere(lines[0])
        request = self._requests.pop(number, None)
        if request is None:
            return
        if lines and lines[0].startswith("refused S5") and not request.line.startswith("use "):
            if not request.answer.done():
                request.answer.set_exception(Ended("the session has ended"))
                # (who made it may have gone)
                request.answer.exception()
            raise Lost("the session has ended")
        if not request.answer.done():
            request.answer.set_result(lines)

    def _tell(self) -> None:
        """Wakes who waits for a notice."""
        self._told.set()
        self._told = asyncio.Event()

    def _end(self, why: str) -> None:
        self._ended = self._ended or why
        self._wire.close()
        self._tell()
        for request in self._requests.values():
            if not request.answer.done():
                request.answer.set_exception(Ended(self._ended))
                request.answer.exception()
        self._requests.clear()

    # Requests

    def _make(self, line: str) -> AsyncRequest:
        """Makes a request."""
        if self._ended:
            raise Ended(self._ended)
        if "\n" in line:
            raise Fault("a command is one line")
        self._number += 1
        request = self._requests[self._number] = AsyncRequest(line)
        if self._is_open:
            self._wire.send(f"{self._number} {line}")
        return request

    async def say(self, line: str) -> list[str]:
        """Sends a command of `bank`, and returns the lines of its answer. Raises Fault if it is refused."""
        return taken(await self._make(line).answer)

    async def join(self, job: str, claim: Amounts) -> None:
        """A job joins with its claims, the most that it will hold at once."""
        await self.say(f"job {job} {spell(claim)}")

    async def use(self, job: str, key: str) -> None:
        """May ask for a job of another session, whose `key` this is. What this session gets for the job is its own."""
        await self.say(f"use {job} {key}")

    async def leave(self, job: str) -> None:
        """A job leaves: all that it holds comes back."""
        await self.say(f"leave {job}")

    async def ask(self, job: str, amounts: Amounts) -> Answer:
        """Asks for amounts, all or none of them."""
        return told_of(await self._make(f"ask {job} {spell(amounts)}").answer)

    async def want(self, job: str, amounts: Amounts) -> Answer:
        """Asks, and waits: what is not granted now, but is within the claim, joins the queue. `wait` says when it is granted."""
        return told_of(await self._wish(job, amounts).answer)

    def _wish(self, job: str, amounts: Amounts) -> AsyncRequest:
        """Makes the request of a wish."""
        self._before[job] = self._noticed
        return self._make(f"want {job} {spell(amounts)}")

    async def wait(self, job: str, timeout: float | None = None) -> bool:
        """Waits until the wish of a job is granted. Returns whether it was in time; the wish stays in the queue.

        Raises Fault if the job is that of another session, and has left.
        """
        before, end = self._before.get(job, 0), None if timeout is None else time.monotonic() + timeout
        while True:
            if self._granted.get(job, 0) > before:
                return True
            if self._left.get(job, 0) > before:
                raise Fault("the job has left, with all that it held")
            if self._ended:
                raise Ended(self._ended)
            left = None if end is None else end - time.monotonic()
            if left is not None and left <= 0:
                return False
            told = asyncio.ensure_future(self._told.wait())
            try:
                await asyncio.wait([told], timeout=left)
            finally:
                told.cancel()

    async def drop(self, job: str) -> None:
        """Takes the wish of a job out of the queue."""
        await self.say(f"drop {job}")

    async def obtain(self, job: str, amounts: Amounts, timeout: float | None = None) -> bool:
        """Waits until the amounts are granted. Returns whether they were in time; if not, nothing is left in the queue."""
        wish = self._wish(job, amounts)
        try:
            answer = told_of(await asyncio.shield(wish.answer))
            if answer is Answer.OVER_CLAIM:
                raise Fault("the claim of the job does not allow as much")
            return answer is Answer.GRANTED or await self.wait(job, timeout) or await self._is_late(job)
        except asyncio.CancelledError:
            # (who waits no more does not want it any more)
            await asyncio.shield(asyncio.ensure_future(self._take_back(job, amounts, wish)))
            raise

    async def _is_late(self, job: str) -> bool:
        """Takes a wish back. Returns whether it was granted at the last moment."""
        try:
            await self.drop(job)
        except Fault as why:
            if str(why).startswith(LATE):
                return True
            raise
        return False

    async def _take_back(self, job: str, amounts: Amounts, wish: AsyncRequest) -> None:
        """Leaves nothing of a wish, in the queue or granted."""
        with contextlib.suppress(Fault):
            answer = told_of(await wish.answer)
            if answer is Answer.GRANTED or answer is Answer.NOT_NOW and await self._is_late(job):
                await self.give(job, amounts)

    @contextlib.asynccontextmanager
    async def holding(self, job: str, amounts: Amounts, timeout: float | None = None) -> AsyncIterator[int]:
        """Holds amounts within `async with`, and gives the fence. Raises Fault if it is too late."""
        if not await self.obtain(job, amounts, timeout):
            raise Fault("not granted in time")
        try:
            yield await self.fence()
        finally:
            await self.give(job, amounts)

    async def give(self, job: str, amounts: Amounts) -> None:
        """Gives back amounts, all or none of them."""
        await self.say(f"give {job} {spell(amounts)}")

    async def why(self, job: str, amounts: Amounts) -> NamedReason:
        """Returns why a request would be granted or not, and changes nothing."""
        return named_reason((await self.say(f"why {job} {spell(amounts)}"))[0])

    async def order(self) -> list[str]:
        """Returns an order in which all jobs can finish, each next one the first that fits."""
        return (await self.say("order"))[0].split(" ")[1:]

    async def state(self) -> list[str]:
        """Returns the lines of `state`."""
        return await self.say("state")

    async def fence(self) -> int:
        """Returns a number that rises with each command, also over restarts of the server."""
        return int((await self.say("fence"))[0].split(" ")[1])

    @property
    def key(self) -> str:
        """The key of the session, by which others may use its jobs."""
        return self._wire.key

    async def close(self) -> None:
        """Ends the session: its jobs leave. It never raises, and later calls raise Ended."""
        with contextlib.suppress(Fault):
            await asyncio.wait([self._make("end").answer], timeout=2.0)
        self._end(CLOSED)
        if self._keeper is not None:
            self._keeper.cancel()
            with contextlib.suppress(asyncio.CancelledError):
                await self._keeper

    async def __aenter__(self) -> AsyncRemoteBank:
        await self.open()
        return self

    async def __aexit__(self, *fault: object) -> None:
        await self.close()
