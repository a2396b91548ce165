"""What a class asks, and what it is answered (docs/formats/class.md)."""
from __future__ import annotations

import asyncio
import collections
import hmac
import sqlite3
import time
from collections.abc import Awaitable, Callable, Coroutine
from dataclasses import dataclass, field
from typing import Any
from urllib.parse import unquote

from script.places import say, shown
from script.teaching.asking import Asking
from script.teaching.calls import Call
from script.teaching.checker import Checkers
from script.teaching.children import Children, Limits
from script.teaching.exercises import Asked
from script.teaching.files import File
from script.teaching.judge import Judge, Verdict
from script.teaching.pool import Buckets, Busy, Pool
from script.teaching.results import STUDENT, Results
from script.web import Answer, Refused, Request, answer_json

# How many wishes one browser may have in the pools, how many wait in each, how many times as much one address may ask, and
# how many times of answers are kept.
QUICK_OF_ONE, SEARCHES_OF_ONE, QUICK_QUEUE, SEARCHES_QUEUE, OF_ADDRESS, MOST_TIMES = 12, 2, 400, 120, 30, 2_000
# A judge makes some searches, which have so many times the time of one.
SEARCHES_OF_JUDGE = 3


def buckets_of(rate: int) -> Buckets:
    """Returns buckets for so many requests a minute, of which a fifteenth may come at once."""
    return Buckets(rate / 60, max(1.0, rate / 15))


def summary(times: collections.deque[float]) -> list[float]:
    """Returns the time within which half of the answers came, in milliseconds, that of 99 of 100, and how many there are."""
    in_order = sorted(times)
    return [*(round(1_000 * in_order[int(len(in_order) * part)], 1) for part in (0.5, 0.99)), len(in_order)]


@dataclass
class Settings:
    """How a class is served."""

    title: str = "parbegin"
    url: str = ""
    key: str = ""
    names: bool = False
    keep: str | None = None
    is_behind_proxy: bool = False
    states: int = 100_000
    search: Limits = Limits()
    quick: Limits = Limits()
    jobs: int = 2
    searches: int = 1
    rate: int = 600


@dataclass
class Room:
    """A class: its exercises, its results, its processes."""

    settings: Settings
    exercises: dict[str, Asked]
    files: dict[str, File]
    examples: list[dict[str, str]]
    picture: bytes = b""
    children: Children = field(default_factory=Children)

    def __post_init__(self) -> None:
        it = self.settings
        is_limited = it.rate > 0
        self.results = Results(it.keep, it.names)
        self.quick = Pool(it.jobs, QUICK_QUEUE, QUICK_OF_ONE if is_limited else None)
        self.searches = Pool(it.searches, SEARCHES_QUEUE, SEARCHES_OF_ONE if is_limited else None)
        self.checkers = Checkers(self.children, max(2, it.jobs // 2), it.quick)
        self.of_client, self.of_address = buckets_of(it.rate), buckets_of(OF_ADDRESS * it.rate)
        self.times: dict[str, collections.deque[float]] = {}
        self.calls: collections.Counter[str] = collections.Counter()
        asking = Asking(self)
        self.asks: dict[tuple[str, str], Callable[[Request], Awaitable[Answer]]] = {
            ("GET", "/api/about"): self.about, ("GET", "/api/exercises"): self.list_exercises,
            ("GET", "/api/examples"): self.list_examples, ("POST", "/api/grade"): self.grade,
            **{(method, f"/api/{name}"): ask for (method, name), ask in asking.asks.items()},
            ("GET", "/api/teacher"): self.teacher, ("GET", "/api/teacher/csv"): self.teacher_csv,
            ("GET", "/api/teacher/qr"): self.teacher_qr, ("POST", "/api/teacher/clear"): self.teacher_clear,
        }

    def client(self, request: Request) -> str:
        """Returns who asks: an address, and what a page has drawn for itself."""
        own = request.headers.get("x-client", "")
        return f"{request.address} {own if STUDENT.fullmatch(own) else ''}"

    async def handle(self, request: Request) -> Answer:
        """Answers a request."""
        if self.settings.is_behind_proxy:
            request.address = request.headers.get("x-forwarded-for", request.address).rpartition(",")[2].strip()[:45]
        method = "GET" if request.method == "HEAD" else request.method
        file = self.files.get(request.path) if method == "GET" else None
        if file:
            return file.answer(request)
        ask = self.asks.get((method, request.path))
        if ask is None:
            raise Refused(404, "there is nothing here")
        now = time.monotonic()
        if not self.of_client.take(self.client(request), now) or not self.of_address.take(request.address, now):
            raise Refused(429, "too many requests: wait a moment")
        self.calls[request.path] += 1
        try:
            answer = await ask(request)
        except Busy:
            raise Refused(503, "too many are asking: try again in a moment") from None
        if answer.parts is None:
            self.times.setdefault(request.path, collections.deque(maxlen=MOST_TIMES)).append(time.monotonic() - now)
        return answer

    async def unless_gone(self, request: Request, work: Coroutine[Any, Any, Any]) -> Any:
        """Returns what the work returns; it is ended if the client leaves."""
        task, gone = asyncio.ensure_future(work), asyncio.ensure_future(request.gone.wait())
        try:
            await asyncio.wait({task, gone}, return_when=asyncio.FIRST_COMPLETED)
            if not task.done():
                self.calls["left by the client"] += 1
                raise ConnectionError("the client has left")
            return task.result()
        finally:
            gone.cancel()
            if not task.done():
                task.cancel()
                await asyncio.gather(task, return_exceptions=True)

    async def about(self, _: Request) -> Answer:
        """What kind of class this is."""
        it = self.settings
        more = {"most": it.states, "seconds": it.search.processor}
        return answer_json({"names": it.names, "kept": bool(it.keep), "title": it.title, **more})

    async def list_exercises(self, _: Request) -> Answer:
        """The exercises, without what is for the judge."""
        return answer_json([it.shown() for it in self.exercises.values()])

    async def list_examples(self, _: Request) -> Answer:
        """Texts to begin with."""
        return answer_json(self.examples)

    # ---- exercises

    async def grade(self, request: Request) -> Answer:
        """Whether a text does what an exercise asks, under every schedule."""
        exercise = self.exercises.get(request.query.get("exercise", ""))
        if exercise is None:
            raise Refused(404, "there is no such exercise")
        text = Asking.text(request)
        judge = Judge(exercise, text).judge()

        async def work() -> Verdict:
            async with self.searches.place(self.client(request)):
                return await asyncio.wait_for(self.judged(judge), SEARCHES_OF_JUDGE * self.settings.search.clock)

        try:
            verdict = await self.unless_gone(request, work())
        except asyncio.TimeoutError:
            verdict = Verdict("limit", "This could not be judged: it took too long.")
        name = unquote(request.headers.get("x-name", ""), errors="replace")
        try:
            self.results.note(request.headers.get("x-client", ""), name, exercise.name, verdict.right, verdict.said)
        except sqlite3.Error as fault:
            # (a student learns the verdict all the same)
            say(f"{shown(self.settings.keep or '')}: a result is not kept: {fault}")
        return answer_json(verdict.shown())

    async def judged(self, judge: Any) -> Verdict:
        """Makes the calls of a judge."""
        try:
            call: Call = next(judge)
            while True:
                call = judge.send(await self.children.call(call, self.settings.search))
        except StopIteration as end:
            verdict: Verdict = end.value
            return verdict

    # ---- for who teaches

    def allow(self, request: Request) -> None:
        """Refuses who has not the key."""
        if not hmac.compare_digest(request.headers.get("x-key", "").encode(), self.settings.key.encode()):
            self.calls["wrong keys"] += 1
            raise Refused(403, "the key is wrong")

    async def teacher(self, request: Request) -> Answer:
        """The table, and how the server is."""
        self.allow(request)
        return answer_json({
            "exercises": [{"name": it.name, "title": it.title} for it in self.exercises.values()],
            "table": self.results.table(), "times": {path: summary(it) for path, it in self.times.items()},
            "names": self.settings.names, "kept": self.settings.keep or "", "url": self.settings.url, "calls": dict(self.calls),
            "waiting": [self.quick.length(), self.searches.length()], "qr": bool(self.picture)})

    async def teacher_csv(self, request: Request) -> Answer:
        """The table as CSV."""
        self.allow(request)
        return Answer(self.results.csv(list(self.exercises)).encode("utf-8-sig"), "text/csv; charset=utf-8")

    async def teacher_qr(self, request: Request) -> Answer:
        """The address as a picture, which was made when the class began."""
        self.allow(request)
        if not self.picture:
            raise Refused(404, "qrencode is not there")
        return Answer(self.picture, "image/svg+xml")

    async def teacher_clear(self, request: Request) -> Answer:
        """Forgets all results."""
        self.allow(request)
        self.results.clear()
        return answer_json({})
