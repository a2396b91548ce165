"""A session with a bank that `parbegin serve` serves."""
from __future__ import annotations

import contextlib
import os
import threading
import time
from collections.abc import Iterator, Mapping
from typing import NamedTuple

from ._wire import Elsewhere, Lost, Wire
from .answers import CLOSED, Answer, Ended, Fault

Amounts = Mapping[str, int]
# By the first word of the answer to a request.
TOLD = {"granted": Answer.GRANTED, "queued": Answer.NOT_NOW, "wait": Answer.NOT_NOW, "over": Answer.OVER_CLAIM}
# The refusals of `drop` of a wish that was granted: none waits, or that of another session.
LATE = ("refused B13", "refused S13")
# Seconds between two tries to reach a server, in which a request wants an answer, and between two looks at that.
PAUSE, SILENCE, LOOK = 0.1, 5.0, 1.0


class NamedReason(NamedTuple):
    """Why a request would be granted or not, as `Reason`, with names of resources and jobs."""

    kind: str
    resource: str | None = None
    jobs: tuple[str, ...] = ()


def spell(amounts: Amounts) -> str:
    """Returns amounts as commands have them."""
    return ", ".join(f"{int(amount)} {resource}" for resource, amount in amounts.items())


def named_reason(line: str) -> NamedReason:
    """Returns the reason that a line says."""
    words = line.split(" ")
    if words[:2] == ["wait", "rest"]:
        return NamedReason("rest", None, tuple(words[2:]))
    if words[:2] == ["wait", "cash"]:
        return NamedReason("over cash", words[2])
    return NamedReason("over claim", words[2]) if words[0] == "over" else NamedReason(words[0])


class Request:
    """A request that was made: its line, and its answer once that has come."""

    def __init__(self, line: str) -> None:
        self.line = line
        self.sent = time.monotonic()
        self.answer: list[str] | None = None


class RemoteBank:
    """A session with a served bank, whose jobs and resources have names.

        with RemoteBank("/run/parbegin/socket") as bank:
            bank.join("night", {"tape": 1, "disk": 2})
            with bank.holding("night", {"tape": 1}):
                ...

    Any thread may call. A thread of its own keeps the lease, connects again when a connection ends, and sends what has no
    answer once more, which the server carries out once. When the session has ended each call raises Ended: all that its
    jobs held has come back.
    """

    def __init__(
        self, address: str | None = None, *, lease: int = 30, token: str | None = None, authority: str | None = None,
        patience: float = 10.0,
    ) -> None:
        """Begins a session. The address is the path of a socket, `HOST:PORT` or `tls:HOST:PORT`; else PARBEGIN_SOCKET has it.
        Several, with commas between, are those of servers of which one leads.

        Raises Fault if no server answers within `patience` seconds. Over TLS `token` lets the client in, and `authority` is a
        file with the certificate of who signed that of the server.
        """
        where = os.environ.get("PARBEGIN_SOCKET", "") if address is None else address
        self._wire = Wire(where, lease, token, authority)
        self._lease = lease
        self._turn = threading.Condition()
        self._requests: dict[int, Request] = {}
        self._parts: dict[int, list[str]] = {}
        self._number = self._noticed = 0
        # the number of the notice by which each job was granted something last, and the last one before its wish
        self._granted: dict[str, int] = {}
        # the same of the notice by which each job of another session has left
        self._left: dict[str, int] = {}
        self._before: dict[str, int] = {}
        self._ended = ""
        end = time.monotonic() + patience
        while not self._connect(end):
            pass
        self._keeper = threading.Thread(target=self._keep, name="parbegin-remote", daemon=True)
        self._keeper.start()

    # The thread that keeps the session

    def _connect(self, end: float | None = None) -> bool:
        """Connects, and sends all that has no answer. Returns whether a server answers."""
        try:
            self._wire.open(self._noticed)
        except OSError as fault:
            if end is not None and time.monotonic() > end:
                raise Fault(f"no server answers at {self._wire.addresses}: {fault.strerror or fault}") from fault
            if not self._wire.addresses.is_told(fault):
                time.sleep(PAUSE)
            return False
        with self._turn:
            self._parts.clear()
            # (what is sent from here on is sent by who makes the request)
            self._wire.is_open = True
            for request in self._requests.values():
                request.sent = time.monotonic()
            self._send(*(f"{number} {it.line}" for number, it in self._requests.items()))
        return True

    def _is_silent(self) -> bool:
        """Returns whether a request has waited too long for its answer over this connection."""
        with self._turn:
            return any(time.monotonic() - it.sent > SILENCE for it in self._requests.values())

    def _keep(self) -> None:
        """Reads what comes and keeps the lease, until the session ends."""
        beaten = time.monotonic()
        while not self._ended:
            try:
                if not self._wire.is_open and not self._connect():
                    continue
                for line in self._wire.lines(min(LOOK, self._lease / 8)):
                    self._take(line)
                if self._is_silent():
                    # (it may be paused, and another one lead)
                    raise ConnectionError("the server is silent")
                if time.monotonic() - beaten > self._lease / 4:
                    beaten = time.monotonic()
                    self._make("beat")
            except Lost as why:
                self._end(str(why))
            except Fault:
                # (as many clients as there can be, for a while)
                time.sleep(PAUSE)
            except OSError as fault:
                self._wire.close()
                self._wire.addresses.is_told(fault)

    def _take(self, line: str) -> None:
        """Takes a line: a notice, or a part of an answer."""
        head, _, rest = line.partition(" ")
        with self._turn:
            if head == "notice":
                number, _, told = rest.partition(" ")
                if int(number) > self._noticed:
                    self._noticed = int(number)
                    verb, job, *_ = told.split(" ")
                    (self._granted if verb == "granted" else self._left)[job] = self._noticed
                    self._turn.notify_all()
            elif not head.isdigit():
                # (why the connection ends)
                return
            elif rest != "ready":
                self._parts.setdefault(int(head), []).append(rest)
            else:
                self._answer(int(head), self._parts.pop(int(head), []))

    def _answer(self, number: int, lines: list[str]) -> None:
        """Gives a whole answer to who waits for it."""
        if lines and lines[0].startswith("refused S2"):
            raise Elsewhere(lines[0])
        request = self._requests.pop(number, None)
        if request is not None and lines and lines[0].startswith("refused S5") and not request.line.startswith("use "):
            raise Lost("the session has ended")
        if request is not None:
            request.answer = lines
            self._turn.notify_all()

    def _end(self, why: str) -> None:
        with self._turn:
            self._ended = self._ended or why
            self._turn.notify_all()
        self._wire.close()

    # Requests

    def _send(self, *lines: str) -> None:
        """Sends lines, if there is a connection. One that fails is found by the keeper."""
        if self._wire.is_open and lines:
            with contextlib.suppress(OSError):
                self._wire.send(*lines)

    def _make(self, line: str) -> Request:
        """Makes a request."""
        with self._turn:
            if self._ended:
                raise Ended(self._ended)
            self._number += 1
            request = self._requests[self._number] = Request(line)
            self._send(f"{self._number} {line}")
        return request

    def say(self, line: str) -> list[str]:
        """Sends a command of `bank`, and returns the lines of its answer. Raises Fault if it is refused."""
        if "\n" in line:
            raise Fault("a command is one line")
        request = self._make(line)
        with self._turn:
            while request.answer is None:
                if self._ended:
                    raise Ended(self._ended)
                self._turn.wait()
        if request.answer and request.answer[0].startswith("refused"):
            raise Fault(request.answer[0])
        return request.answer

    def join(self, job: str, claim: Amounts) -> None:
        """A job joins with its claims, the most that it will hold at once."""
        self.say(f"job {job} {spell(claim)}")

    def use(self, job: str, key: str) -> None:
        """May ask for a job of another session, whose `key` this is. What this session gets for the job is its own."""
        self.say(f"use {job} {key}")

    def leave(self, job: str) -> None:
        """A job leaves: all that it holds comes back."""
        self.say(f"leave {job}")

    def ask(self, job: str, amounts: Amounts) -> Answer:
        """Asks for amounts, all or none of them."""
        return TOLD[self.say(f"ask {job} {spell(amounts)}")[0].split(" ")[0]]

    def want(self, job: str, amounts: Amounts) -> Answer:
        """Asks, and waits: what is not granted now, but is within the claim, joins the queue. `wait` says when it is granted."""
        with self._turn:
            before = self._noticed
        answer = TOLD[self.say(f"want {job} {spell(amounts)}")[0].split(" ")[0]]
        with self._turn:
            self._before[job] = before
        return answer

    def wait(self, job: str, timeout: float | None = None) -> bool:
        """Waits until the wish of a job is granted. Returns whether it was in time; the wish stays in the queue.

        Raises Fault if the job is that of another session, and has left.
        """
        with self._turn:
            before = self._before.get(job, 0)
            self._turn.wait_for(lambda: max(self._granted.get(job, 0), self._left.get(job, 0)) > before or self._ended, timeout)
            if self._granted.get(job, 0) > before:
                return True
            if self._left.get(job, 0) > before:
                raise Fault("the job has left, with all that it held")
            if self._ended:
                raise Ended(self._ended)
            return False

    def drop(self, job: str) -> None:
        """Takes the wish of a job out of the queue."""
        self.say(f"drop {job}")

    def obtain(self, job: str, amounts: Amounts, timeout: float | None = None) -> bool:
        """Waits until the amounts are granted. Returns whether they were in time; if not, nothing is left in the queue."""
        answer = self.want(job, amounts)
        if answer is Answer.OVER_CLAIM:
            raise Fault("the claim of the job does not allow as much")
        if answer is Answer.GRANTED or self.wait(job, timeout):
            return True
        try:
            self.drop(job)
        except Fault as why:
            # (it was granted at the last moment)
            if str(why).startswith(LATE):
                return True
            raise
        return False

    @contextlib.contextmanager
    def holding(self, job: str, amounts: Amounts, timeout: float | None = None) -> Iterator[int]:
        """Holds amounts within `with`, and gives the fence, a number that rises with each grant. Raises Fault if it is too late."""
        if not self.obtain(job, amounts, timeout):
            raise Fault("not granted in time")
        try:
            yield self.fence()
        finally:
            self.give(job, amounts)

    def give(self, job: str, amounts: Amounts) -> None:
        """Gives back amounts, all or none of them."""
        self.say(f"give {job} {spell(amounts)}")

    def why(self, job: str, amounts: Amounts) -> NamedReason:
        """Returns why a request would be granted or not, and changes nothing."""
        return named_reason(self.say(f"why {job} {spell(amounts)}")[0])

    def order(self) -> list[str]:
        """Returns an order in which all jobs can finish, each next one the first that fits."""
        return self.say("order")[0].split(" ")[1:]

    def state(self) -> list[str]:
        """Returns the lines of `state`."""
        return self.say("state")

    def fence(self) -> int:
        """Returns a number that rises with each command, also over restarts of the server."""
        return int(self.say("fence")[0].split(" ")[1])

    @property
    def key(self) -> str:
        """The key of the session, by which others may use its jobs."""
        return self._wire.key

    def close(self) -> None:
        """Ends the session: its jobs leave. It never raises, and later calls raise Ended."""
        with contextlib.suppress(Fault):
            request = self._make("end")
            with self._turn:
                self._turn.wait_for(lambda: request.answer is not None or self._ended, 2.0)
        self._end(CLOSED)

    def __enter__(self) -> RemoteBank:
        return self

    def __exit__(self, *fault: object) -> None:
        self.close()
