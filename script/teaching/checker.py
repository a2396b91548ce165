"""Language servers that stay, for one text after another: diagnostics, mends and claims, and what an editor asks of a place."""
from __future__ import annotations

import asyncio
import json
from typing import Any

from script.teaching.children import MEGABYTE, Child, Children, Limits, Lost

# How many texts a language server has before another one takes its place, the processor time that all of them may take, and
# the most bytes of an answer.
LIFE, PROCESSOR, MOST_ANSWER = 2_000, 3_600, 8 * MEGABYTE
HEADER = b"Content-Length: "
EVERYWHERE = {"start": {"line": 0, "character": 0}, "end": {"line": 99_999, "character": 0}}
Asked = tuple[str, dict[str, Any]]
CHECKED: tuple[Asked, ...] = (
    ("textDocument/diagnostic", {}), ("textDocument/codeAction", {"range": EVERYWHERE, "context": {"diagnostics": []}}),
    ("textDocument/inlayHint", {"range": EVERYWHERE}),
)


def message(**keys: object) -> bytes:
    """Returns a message of the protocol."""
    content = json.dumps({"jsonrpc": "2.0", **keys}).encode()
    return b"%s%d\r\n\r\n%s" % (HEADER, len(content), content)


def edits_of(edit: dict[str, Any] | None) -> list[dict[str, Any]]:
    """Returns the edits that an answer proposes."""
    return [it for edits in (edit or {}).get("changes", {}).values() for it in edits]


def as_checked(answers: list[Any]) -> dict[str, object]:
    """Returns the answers to what is asked of each text, as the editor of a class takes them."""
    diagnostics, mends, hints = answers
    told = ("code", "message", "range", "relatedInformation")
    return {
        "diagnostics": [{key: it[key] for key in told if key in it} for it in (diagnostics or {}).get("items", [])],
        "mends": [{"title": it["title"], "edits": edits_of(it.get("edit"))} for it in mends or []],
        "hints": [{"position": it["position"], "label": it["label"]} for it in hints or []],
    }


BEGIN = message(id=0, method="initialize", params={"capabilities": {}}) + message(method="initialized", params={})
# How an answer fails that is late, cut or broken.
BROKEN = (asyncio.TimeoutError, asyncio.IncompleteReadError, asyncio.LimitOverrunError, OSError, KeyError, ValueError)


class Checker:
    """A language server that has one text at a time. What is late, cut or broken ends it, so that nothing of one text comes to
    another."""

    def __init__(self, children: Children, limits: Limits) -> None:
        self.children, self.clock = children, limits.clock
        self.limits = Limits(PROCESSOR, limits.memory, limits.clock, 1 << 40)
        self.child: Child | None = None
        self.texts, self.number = 0, 0

    async def read(self, child: Child) -> dict[str, Any]:
        """Returns the next message."""
        head = await child.out.readuntil(b"\r\n\r\n")
        size = int(head[len(HEADER) :])
        if not head.startswith(HEADER) or size > MOST_ANSWER:
            raise Lost
        answer = json.loads(await child.out.readexactly(size))
        if not isinstance(answer, dict):
            raise Lost
        return answer

    async def begin(self) -> Child:
        """Starts a server, if none is there."""
        if self.child is None:
            self.child, self.texts = self.children.begin(["lsp"], self.limits), 0
            self.child.give(BEGIN)
            await self.read(self.child)
        return self.child

    async def answers(self, text: str, asked: tuple[Asked, ...]) -> list[Any]:
        """Returns what is said of a text: the results of what is asked, or `None` in the place of an error."""
        child = await self.begin()
        first, self.number = self.number + 1, self.number + len(asked)
        self.texts += 1
        uri = f"file:///{first}"
        document = {"textDocument": {"uri": uri}}
        opened = {"textDocument": {"uri": uri, "languageId": "parbegin", "version": 1, "text": text}}
        given = [message(id=first + at, method=method, params={**document, **more}) for at, (method, more) in enumerate(asked)]
        child.give(b"".join([message(method="textDocument/didOpen", params=opened), *given,
                             message(method="textDocument/didClose", params=document)]))
        found: dict[int, Any] = {}
        # (a notification comes of the open, and one of the close)
        notices = 0
        while len(found) < len(asked) or notices < 2:
            it = await self.read(child)
            if "method" in it:
                notices += 1
            else:
                found[it["id"]] = it.get("result")
        return [found[first + at] for at in range(len(asked))]

    async def ask(self, text: str, asked: tuple[Asked, ...]) -> list[Any]:
        """The same, in time, or `Lost`."""
        is_well = False
        try:
            found = await asyncio.wait_for(self.answers(text, asked), self.clock)
            is_well = self.texts < LIFE
            return found
        except BROKEN as why:
            raise Lost from why
        finally:
            if not is_well and self.child is not None:
                self.child.kill()
                self.child = None


class Checkers:
    """Some language servers, each of which has one text at a time."""

    def __init__(self, children: Children, count: int, limits: Limits) -> None:
        self.idle: asyncio.LifoQueue[Checker] = asyncio.LifoQueue()
        for _ in range(count):
            self.idle.put_nowait(Checker(children, limits))

    async def ask(self, text: str, *asked: Asked) -> list[Any]:
        """Returns what is said of a text; another server is tried once if one is lost."""
        checker = await self.idle.get()
        try:
            try:
                return await checker.ask(text, asked)
            except Lost:
                return await checker.ask(text, asked)
        finally:
            self.idle.put_nowait(checker)
