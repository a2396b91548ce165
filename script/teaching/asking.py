"""What a class asks of the program: each request is one or two calls, within limits, answered as the program wrote it."""
from __future__ import annotations

import asyncio
import json
import re
import time
from collections.abc import AsyncGenerator, Awaitable, Callable
from typing import TYPE_CHECKING, Any

from script.places import DEADLOCK, LIMIT
from script.teaching.calls import Call, Said
from script.teaching.checker import CHECKED, as_checked, edits_of
from script.teaching.children import Lost
from script.teaching.pool import Busy
from script.web import Answer, Refused, Request, answer_json

if TYPE_CHECKING:
    from script.teaching.room import Room

# The longest text, and the most that is told of a refusal.
MOST_TEXT, MOST_TOLD, PART = 65_536, 3_000, 1 << 16
# A search begins with so many configurations, and goes again further while they do not suffice.
ROUNDS = (1_000, 10_000, 100_000)
# The most configurations of a graph, rows of a run, and steps of one that is drawn.
MOST_NODES, MOST_ROWS, MOST_STEPS, STEPS = 10_000, 20_000, 20_000, 5_000
# A position of a run, and a command about it.
MOST_PICKS, COMMAND = 10_000_000, re.compile("[ -~]{1,256}")
# Seconds after which it is told how far a search is, at first and then.
FIRST_PAUSE, PAUSE = 0.25, 0.5
CODE, NAME = re.compile("[A-Z][0-9]{1,2}"), re.compile(r"\w{1,64}", re.ASCII)
LEND, NO_YES = ("banker", "cash"), ("no", "yes")
JSON_LINES = "application/x-ndjson"


class Asking:
    """The requests of a room."""

    def __init__(self, room: Room) -> None:
        self.room, self.explained = room, dict[str, bytes]()
        self.asks: dict[tuple[str, str], Callable[[Request], Awaitable[Answer]]] = {
            ("GET", "explain"): self.explain, ("POST", "check"): self.check, ("POST", "hover"): self.hover,
            ("POST", "complete"): self.complete, ("POST", "rename"): self.rename, ("POST", "run"): self.run,
            ("POST", "record"): self.record, ("POST", "states"): self.states, ("POST", "graph"): self.graph,
            ("POST", "debug"): self.debug,
            ("POST", "outcomes"): self.outcomes, ("POST", "plan"): self.plan, ("POST", "claims"): self.claims,
        }

    # ---- what requests have in common

    @staticmethod
    def text(request: Request) -> bytes:
        """Returns the text of a request."""
        if len(request.body) > MOST_TEXT:
            raise Refused(413, f"L1: a text has at most {MOST_TEXT} bytes")
        return request.body

    @staticmethod
    def with_more(request: Request) -> bytes:
        """Returns a text with what follows a line `%%`."""
        if len(request.body.partition(b"\n%%\n")[0]) > MOST_TEXT:
            raise Refused(413, f"L1: a text has at most {MOST_TEXT} bytes")
        return request.body

    async def calls(self, request: Request, *calls: Call) -> list[Said]:
        """Makes calls that need no more than a moment, in one place of the pool. The first that is refused is the last."""
        async def work() -> list[Said]:
            found: list[Said] = []
            async with self.room.quick.place(self.room.client(request)):
                for it in calls:
                    given = it if it.given or not found else Call(it.words, found[-1].out)
                    found.append(await self.room.children.call(given, self.room.settings.quick))
                    if found[-1].stopped or found[-1].status not in (0, LIMIT, DEADLOCK):
                        break
            return found

        made: list[Said] = await self.room.unless_gone(request, work())
        return made

    def refused(self, said: Said) -> Answer:
        """Says why there is no document."""
        if said.stopped:
            return answer_json({"stopped": said.stopped})
        return answer_json({"refused": said.out.decode("ascii", "replace").strip()[:300], "told": said.told[:MOST_TOLD]})

    def document(self, said: Said) -> Answer:
        """Returns the document of a run, as the program wrote it."""
        if said.stopped or not said.out.startswith(b"{"):
            return self.refused(said)
        return Answer(b'{"run":%s}' % said.out.strip())

    # ---- a text, as it is typed

    async def explain(self, request: Request) -> Answer:
        """The page of a code."""
        code = request.query.get("code", "")
        if not CODE.fullmatch(code):
            raise Refused(400, "a code is a letter and a number")
        if code not in self.explained:
            (said,) = await self.calls(request, Call(["--json", "explain", code], b""))
            if said.status:
                raise Refused(404, "no refusal has this code")
            self.explained[code] = json.dumps(said.lines()).encode()
        return Answer(self.explained[code], headers={"Cache-Control": "max-age=3600"})

    async def of_editor(self, request: Request, *asked: tuple[str, dict[str, Any]]) -> list[Any]:
        """Returns what a language server says of a text."""
        text = self.text(request).decode("utf-8", "replace")
        try:
            found: list[Any] = await self.room.unless_gone(request, self.room.checkers.ask(text, *asked))
        except Lost:
            raise Refused(503, "this text was not looked at: try again in a moment") from None
        return found

    async def check(self, request: Request) -> Answer:
        """Diagnostics, mends and claims."""
        return answer_json(as_checked(await self.of_editor(request, *CHECKED)))

    @staticmethod
    def position(request: Request) -> dict[str, Any]:
        """Returns a position of a text."""
        return {"position": {name: request.number(name, 0, MOST_TEXT, 0) for name in ("line", "character")}}

    async def hover(self, request: Request) -> Answer:
        """What stands at a position, in words."""
        (found,) = await self.of_editor(request, ("textDocument/hover", self.position(request)))
        contents = (found or {}).get("contents", "")
        return answer_json({"text": contents.get("value", "") if isinstance(contents, dict) else contents})

    async def complete(self, request: Request) -> Answer:
        """The words that may be meant at a position."""
        (found,) = await self.of_editor(request, ("textDocument/completion", self.position(request)))
        items = found.get("items", []) if isinstance(found, dict) else found or []
        return answer_json({"words": [it["label"] for it in items]})

    async def rename(self, request: Request) -> Answer:
        """The edits that give the name at a position another name."""
        name = request.query.get("name", "")
        if not NAME.fullmatch(name):
            raise Refused(400, "a name has letters, digits and underscores")
        (found,) = await self.of_editor(request, ("textDocument/rename", {**self.position(request), "newName": name}))
        return answer_json({"edits": edits_of(found)})

    # ---- runs

    @staticmethod
    def words_of_run(request: Request) -> list[str]:
        """Returns the words of `record`."""
        lend = request.choice("lend", LEND)
        words = ["record", "--steps", str(request.number("steps", 0, MOST_STEPS, STEPS))]
        if "seed" in request.query or lend == "cash":
            words += ["--seed", str(request.number("seed", 0, 2**64 - 1, 1)), "--lend", lend]
        return words

    async def record(self, request: Request) -> Answer:
        """A run as a file."""
        (said,) = await self.calls(request, Call(self.words_of_run(request), self.text(request)))
        if said.stopped or said.status not in (0, DEADLOCK):
            return self.refused(said)
        return Answer(said.out, "text/plain; charset=utf-8")

    @staticmethod
    def words_of_states(request: Request) -> list[str]:
        """Returns the words of `states`."""
        return ["states", "--lend", request.choice("lend", LEND), "--rows", str(MOST_ROWS)]

    async def run(self, request: Request) -> Answer:
        """A run, as a document for a page."""
        calls = Call(self.words_of_run(request), self.text(request) or b"\n"), Call(self.words_of_states(request), b"")
        return self.document((await self.calls(request, *calls))[-1])

    async def states(self, request: Request) -> Answer:
        """The document of a run that picks make."""
        (said,) = await self.calls(request, Call(self.words_of_states(request), self.with_more(request)))
        return self.document(said)

    async def debug(self, request: Request) -> Answer:
        """What the debugger answers to a command at a position of a run that picks make."""
        command, at = request.query.get("command", ""), request.number("at", 0, MOST_PICKS, 0)
        if not COMMAND.fullmatch(command):
            raise Refused(400, "a command is a line of 256 letters at most")
        text, _, picks = self.with_more(request).partition(b"\n%%\n")
        if b"\n%%\n" in b"\n" + picks + b"\n":
            raise Refused(400, "after the text there are picks alone")
        picks = picks.rstrip(b"\n") + b"\n" if picks.strip() else b""
        given = b"%s\n%%%%\n%s%%%%\nto %d\n%s\n" % (text, picks, at, command.encode())
        (said,) = await self.calls(request, Call(["debug", "--lend", request.choice("lend", LEND)], given))
        if said.stopped or said.status:
            return self.refused(said)
        answers = said.out.decode("ascii", "replace").splitlines()[1:]
        return answer_json({"answers": answers, "told": said.told[:MOST_TOLD]})

    async def graph(self, request: Request) -> Answer:
        """All schedules, by the banker and by the cash alone."""
        text = self.text(request) or b"\n"
        words = ["outcomes", "--graph", "--states", str(request.number("states", 1, MOST_NODES, MOST_NODES))]
        found = await self.calls(request, Call(words, text))
        # (without resources nobody lends)
        if found[0].out.startswith(b"{") and b"\\nresources 0\\n" not in found[0].out:
            found += await self.calls(request, Call(["--quiet", *words, "--lend", "cash"], text))
        wrong = next((it for it in found if it.stopped or not it.out.startswith(b"{")), None)
        if wrong is not None:
            return self.refused(wrong)
        return Answer(b"{%s}" % b",".join(b'"%s":%s' % (name, it.out.strip()) for name, it in zip((b"banker", b"cash"), found)))

    # ---- plans

    async def lines(self, request: Request, *words: str) -> Answer:
        """The JSON lines of a call, as a list."""
        (said,) = await self.calls(request, Call(["--json", *words], self.text(request)))
        if said.stopped:
            return self.refused(said)
        told = json.dumps(said.told[:MOST_TOLD]).encode()
        return Answer(b'{"lines":[%s],"told":%s}' % (b",".join(said.out.splitlines()), told))

    async def plan(self, request: Request) -> Answer:
        """What a plan needs."""
        return await self.lines(request, "plan", "--lend", request.choice("lend", LEND))

    async def claims(self, request: Request) -> Answer:
        """The claims."""
        return await self.lines(request, "claims")

    # ---- searches

    async def outcomes(self, request: Request) -> Answer:
        """Every outcome, with what is known on the way; or a run that never ends."""
        words = ["--json", "outcomes", "--lend", request.choice("lend", LEND)]
        expect = request.choice("expect", ("no", "same", "any"))
        compared: dict[str, list[str]] = {"no": [], "same": ["--expect"], "any": ["--expect", "--any-order"]}
        words += compared[expect]
        flags = [it for it in ("prints", "fair", "first-deadlock", "endless") if request.choice(it, NO_YES) == "yes"]
        if "endless" in flags and (expect != "no" or "prints" in flags or "first-deadlock" in flags):
            raise Refused(400, "endless goes with lend, fair and states alone")
        words += [f"--{it}" for it in flags]
        most = request.number("states", 1, self.room.settings.states, self.room.settings.states)
        given = self.with_more(request) if expect != "no" else self.text(request)
        given = given if given.endswith(b"\n") else given + b"\n"
        return Answer(kind=JSON_LINES, parts=self.search(request, words, given, most))

    async def search(self, request: Request, words: list[str], given: bytes, most: int) -> AsyncGenerator[bytes, None]:
        """Yields how far a search is, and in the end what it has found."""
        known: dict[str, Any] = {"kind": "progress", "configurations": 0, "outcomes": 0, "deadlocks": 0}
        began, pause = time.monotonic(), FIRST_PAUSE
        task = asyncio.ensure_future(self.rounds(request, words, given, most, known))
        gone = asyncio.ensure_future(request.gone.wait())
        try:
            while not task.done() and not gone.done():
                await asyncio.wait({task, gone}, timeout=pause, return_when=asyncio.FIRST_COMPLETED)
                pause = PAUSE
                if not task.done() and not gone.done():
                    waiting = 0 if "is_begun" in known else self.room.searches.length()
                    shown = {key: it for key, it in known.items() if key != "is_begun"}
                    yield line({**shown, "seconds": round(time.monotonic() - began, 1), "waiting": waiting})
            if not task.done():
                return
            for part in found_lines(task, known):
                yield part
            yield line({"kind": "time", "seconds": round(time.monotonic() - began, 2)})
        finally:
            gone.cancel()
            if not task.done():
                self.room.calls["searches left by the client"] += 1
                task.cancel()
                await asyncio.gather(task, return_exceptions=True)

    async def rounds(self, request: Request, words: list[str], given: bytes, most: int, known: dict[str, Any]) -> Said:
        """Searches, at first not far."""
        async with self.room.searches.place(self.room.client(request)):
            known["is_begun"] = True
            for states in [it for it in ROUNDS if it < most]:
                said = await self.room.children.call(Call([*words, "--states", str(states)], given), self.room.settings.search)
                if said.status != LIMIT or said.stopped:
                    return said
                counts = {f"{kind}s": said.out.count(b'{"kind":"%s"' % kind.encode()) for kind in ("outcome", "deadlock")}
                known.update(configurations=states, outcomes=counts["outcomes"], deadlocks=counts["deadlocks"])
            return await self.room.children.call(Call([*words, "--states", str(most)], given), self.room.settings.search)


def line(value: object) -> bytes:
    """Returns a line of JSON."""
    return json.dumps(value, separators=(",", ":")).encode() + b"\n"


def found_lines(task: asyncio.Task[Said], known: dict[str, Any]) -> list[bytes]:
    """Returns what a search has found, in parts."""
    try:
        said = task.result()
    except Busy:
        return [line({"kind": "busy"})]
    if said.stopped:
        counts = {name: known[name] for name in ("configurations", "outcomes", "deadlocks")}
        return [line({"kind": "stopped", "by": said.stopped, "known": counts})]
    told = [line({"kind": "told", "text": said.told[:MOST_TOLD]})] if said.told else []
    return told + [said.out[at : at + PART] for at in range(0, len(said.out), PART)]
