"""HTTP/1.1 over asyncio, with a bound on all that a client can choose: for what `serve` shows, and for a class.

A request has a method, a path of letters, digits, `_`, `.`, `-` and `/`, a query, headers and a body. Anything else is
answered by a status and the end of the connection. No path of a file is ever made of a request.
"""
from __future__ import annotations

import asyncio
import collections
import gzip
import json
import re
import socket
import ssl
import struct
import time
from collections.abc import AsyncGenerator, Awaitable, Callable
from contextlib import suppress
from dataclasses import dataclass, field
from typing import Any
from urllib.parse import parse_qsl

from script.places import say

LINE = re.compile(rb"([A-Z]{1,20}) (/[A-Za-z0-9_./-]{0,200})(?:\?([!-~]{0,2000}))? HTTP/1\.[01]")
FIELD = re.compile(rb"([A-Za-z0-9-]{1,60}):[ \t]*([\t -~]*?)[ \t]*")
ONCE = ("content-length", "host", "transfer-encoding")
MOST_FIELDS, MOST_WORDS, LEAST_PACKED, GREETING, BACKLOG = 60, 20, 2_000, 5, 1_024
# Seconds after which connections that have not ended are ended once more.
BETWEEN_CANCELS = 0.5
# How much of a request is read that is not looked at, in parts.
MOST_UNREAD, PART = 1 << 20, 1 << 14
REASONS = {
    200: "OK", 304: "Not Modified", 400: "Bad Request", 403: "Forbidden", 404: "Not Found", 405: "Method Not Allowed",
    408: "Request Timeout", 411: "Length Required", 413: "Content Too Large", 421: "Misdirected Request",
    429: "Too Many Requests", 431: "Request Header Fields Too Large", 500: "Internal Server Error", 503: "Service Unavailable",
}
# Statuses of a refusal after which the connection may go on: all of the request was read.
GOES_ON = (400, 404, 429, 503)
SAFE = {
    "X-Content-Type-Options": "nosniff", "Referrer-Policy": "no-referrer", "Cross-Origin-Opener-Policy": "same-origin",
    "Cross-Origin-Resource-Policy": "same-origin", "Permissions-Policy": "camera=(), microphone=(), geolocation=()",
}


@dataclass(frozen=True)
class Bounds:
    """Bytes of a head and of a body; the seconds for a head from its first byte, for a body, between two requests, and to take
    an answer; the most connections, in all and of one address."""

    head: int = 8_192
    body: int = 0
    head_time: float = 10.0
    body_time: float = 20.0
    idle_time: float = 60.0
    send_time: float = 30.0
    connections: int = 1_500
    of_one_address: int = 400


class Refused(Exception):
    """A request that is not answered, with a status and why."""

    def __init__(self, status: int, why: str) -> None:
        super().__init__(why)
        self.status, self.why = status, why


@dataclass
class Request:
    """What a client asks for; `gone` is set when it has left."""

    method: str
    path: str
    query: dict[str, str]
    headers: dict[str, str]
    address: str
    gone: asyncio.Event
    body: bytes = b""

    def number(self, name: str, least: int, most: int, default: int) -> int:
        """Returns a number of the query."""
        word = self.query.get(name, str(default))
        if not re.fullmatch("[0-9]{1,20}", word) or not least <= int(word) <= most:
            raise Refused(400, f"{name} is from {least} to {most}")
        return int(word)

    def choice(self, name: str, words: tuple[str, ...]) -> str:
        """Returns a word of the query, the first of these if none is given."""
        word = self.query.get(name, words[0])
        if word not in words:
            raise Refused(400, f"{name} is one of {', '.join(words)}")
        return word


@dataclass
class Answer:
    """What is said: bytes, or parts that come one by one."""

    body: bytes = b""
    kind: str = "application/json"
    status: int = 200
    headers: dict[str, str] = field(default_factory=dict)
    parts: AsyncGenerator[bytes, None] | None = None


Handle = Callable[[Request], Awaitable[Answer]]


def answer_json(value: object, status: int = 200) -> Answer:
    """Returns an answer of JSON."""
    return Answer(json.dumps(value, separators=(",", ":")).encode(), status=status)


class Connection(asyncio.StreamReaderProtocol):
    """A protocol that tells when its client has left, also while a request is worked on."""

    def __init__(self, serve: Callable[..., Awaitable[None]], most: int) -> None:
        self.gone = asyncio.Event()
        reader = asyncio.StreamReader(limit=most)
        super().__init__(reader, lambda given, writer: serve(given, writer, self.gone))

    def eof_received(self) -> bool:
        self.gone.set()
        return bool(super().eof_received())

    def connection_lost(self, exc: Exception | None) -> None:
        self.gone.set()
        super().connection_lost(exc)


class Service:
    """Answers requests by one function. With `hosts` only those who ask for one of these names are answered."""

    def __init__(self, handle: Handle, policy: str, bounds: Bounds, hosts: set[str] | None = None) -> None:
        self.handle, self.bounds, self.hosts = handle, bounds, hosts
        self.headers = {"Content-Security-Policy": policy, **SAFE}
        self.counts: collections.Counter[str] = collections.Counter()
        self.open: collections.Counter[str] = collections.Counter()
        self.tasks: set[asyncio.Task[Any]] = set()
        self.is_ending = False

    async def listen(self, sock: socket.socket, context: ssl.SSLContext | None = None) -> asyncio.AbstractServer:
        """Makes ready to answer at a socket that is bound."""
        return await asyncio.get_running_loop().create_server(
            lambda: Connection(self.serve, self.bounds.head), sock=sock, backlog=BACKLOG, ssl=context,
            ssl_handshake_timeout=GREETING if context else None, start_serving=False)

    async def end(self, seconds: float) -> bool:
        """Ends all connections, and returns whether that was done in time."""
        self.is_ending, last = True, time.monotonic() + seconds
        while self.tasks and time.monotonic() < last:
            # (older versions of Python lose a cancellation that comes together with what is waited for)
            for it in self.tasks:
                it.cancel()
            await asyncio.wait(self.tasks, timeout=BETWEEN_CANCELS)
        return not self.tasks

    async def serve(self, reader: asyncio.StreamReader, writer: asyncio.StreamWriter, gone: asyncio.Event) -> None:
        """Answers at a connection until it ends."""
        address, task = str((writer.get_extra_info("peername") or ("?",))[0]), asyncio.current_task()
        assert task is not None
        self.tasks.add(task)
        is_full = sum(self.open.values()) >= self.bounds.connections or self.open[address] >= self.bounds.of_one_address
        self.open[address] += 1
        self.counts["connections refused" if is_full else "connections"] += 1
        try:
            exchange = Exchange(self, reader, writer, address, gone)
            if is_full:
                await exchange.send(answer_json({"error": "too many connections"}, 503))
            else:
                while await exchange.answer():
                    exchange = Exchange(self, reader, writer, address, gone)
            if exchange.is_unread:
                await exchange.linger()
        except (OSError, asyncio.IncompleteReadError, asyncio.TimeoutError):
            self.counts["connections cut"] += 1
        except asyncio.CancelledError:
            # (the service ends; what called this task has nothing to do with that)
            pass
        finally:
            self.tasks.discard(task)
            self.open[address] -= 1
            if not self.open[address]:
                del self.open[address]
            close(writer)


def close(writer: asyncio.StreamWriter) -> None:
    """Closes a connection. What its client does not take is not kept, not by the system either."""
    with suppress(OSError, AttributeError):
        if writer.transport.get_write_buffer_size():
            writer.get_extra_info("socket").setsockopt(socket.SOL_SOCKET, socket.SO_LINGER, struct.pack("ii", 1, 0))
            writer.transport.abort()
    writer.close()


def headers_of(lines: list[bytes]) -> dict[str, str]:
    """Reads the headers of a request."""
    headers: dict[str, str] = {}
    for line in lines:
        pair = FIELD.fullmatch(line)
        if not pair or len(lines) > MOST_FIELDS:
            raise Refused(400, "a header is malformed")
        name = pair[1].decode().lower()
        if name in ONCE and name in headers:
            raise Refused(400, "a header comes twice")
        headers[name] = pair[2].decode()
    return headers


def words_of(query: bytes | None) -> dict[str, str]:
    """Reads what stands after `?`."""
    try:
        return dict(parse_qsl((query or b"").decode(), max_num_fields=MOST_WORDS, encoding="utf-8", errors="replace"))
    except ValueError:
        raise Refused(400, "too many words after the ?") from None


class Exchange:
    """One request and its answer."""

    def __init__(
        self, service: Service, reader: asyncio.StreamReader, writer: asyncio.StreamWriter, address: str, gone: asyncio.Event,
    ) -> None:
        self.service, self.reader, self.writer, self.address, self.gone = service, reader, writer, address, gone
        self.is_last, self.is_head, self.packs, self.is_unread = True, False, False, False

    async def answer(self) -> bool:
        """Answers a request, and returns whether another one may follow."""
        counts = self.service.counts
        try:
            try:
                first = await asyncio.wait_for(self.reader.readexactly(1), self.service.bounds.idle_time)
            except (asyncio.IncompleteReadError, asyncio.TimeoutError):
                return False
            request = await self.read(first)
            self.is_head = request.method == "HEAD"
            self.is_last = request.headers.get("connection", "").lower() == "close"
            self.packs = "gzip" in request.headers.get("accept-encoding", "")
            answer = await self.service.handle(request)
        except Refused as refused:
            answer = answer_json({"error": refused.why}, refused.status)
            self.is_last = self.is_unread = self.is_last or refused.status not in GOES_ON
        except (OSError, asyncio.IncompleteReadError):
            raise
        except Exception as fault:  # pylint: disable=broad-except
            counts["faults"] += 1
            say(f"a fault of the server: {fault!r}")
            answer, self.is_last = answer_json({"error": "the server has a fault"}, 500), True
        counts[f"answers {answer.status}"] += 1
        await self.send(answer)
        return not self.is_last and not self.service.is_ending

    async def read(self, first: bytes) -> Request:
        """Reads a request after its first byte."""
        bounds = self.service.bounds
        try:
            head = first + await asyncio.wait_for(self.reader.readuntil(b"\r\n\r\n"), bounds.head_time)
        except asyncio.LimitOverrunError:
            raise Refused(431, f"a head has at most {bounds.head} bytes") from None
        except asyncio.TimeoutError:
            raise Refused(408, "the head of the request takes too long") from None
        line, *rest = head[:-4].split(b"\r\n")
        words = LINE.fullmatch(line)
        if not words:
            raise Refused(400, "not a request that is answered here")
        if words[1] not in (b"GET", b"HEAD", b"POST"):
            raise Refused(405, "only GET, HEAD and POST")
        request = Request(words[1].decode(), words[2].decode(), {}, headers_of(rest), self.address, self.gone)
        self.look_at(request)
        request.body = await self.body_of(request)
        request.query = words_of(words[3])
        return request

    def look_at(self, request: Request) -> None:
        """Refuses who asks for another host, and what a page of another server asks."""
        hosts, named = self.service.hosts, request.headers.get("host", "")
        if hosts is not None and named not in hosts and named.rpartition(":")[0].strip("[]") not in hosts:
            raise Refused(421, "this is not the host that is asked for")
        if request.method == "POST" and request.headers.get("sec-fetch-site", "same-origin") not in ("same-origin", "none"):
            raise Refused(403, "only the pages of this server may ask it")

    async def body_of(self, request: Request) -> bytes:
        """Reads the body of a request."""
        size, bounds = request.headers.get("content-length", ""), self.service.bounds
        if request.method != "POST":
            if size not in ("", "0") or "transfer-encoding" in request.headers:
                raise Refused(400, "only a POST has a body")
            return b""
        if "transfer-encoding" in request.headers or not re.fullmatch("[0-9]{1,9}", size):
            raise Refused(411, "a length is needed")
        if int(size) > bounds.body:
            raise Refused(413, f"a body has at most {bounds.body} bytes")
        if request.headers.get("expect", "").lower() == "100-continue":
            self.writer.write(b"HTTP/1.1 100 Continue\r\n\r\n")
        try:
            return await asyncio.wait_for(self.reader.readexactly(int(size)), bounds.body_time)
        except asyncio.TimeoutError:
            raise Refused(408, "the body of the request takes too long") from None

    async def send(self, answer: Answer) -> None:
        """Sends an answer."""
        headers = {"Content-Type": answer.kind, "Cache-Control": "no-store", **self.service.headers, **answer.headers}
        body = answer.body
        if self.is_last:
            headers["Connection"] = "close"
        if self.packs and len(body) > LEAST_PACKED and "Content-Encoding" not in headers:
            body, headers["Content-Encoding"] = gzip.compress(body, 1), "gzip"
        if answer.parts is None:
            headers["Content-Length"] = str(len(body))
        else:
            headers["Transfer-Encoding"] = "chunked"
        lines = "".join(f"{name}: {value}\r\n" for name, value in headers.items())
        self.writer.write(f"HTTP/1.1 {answer.status} {REASONS[answer.status]}\r\n{lines}\r\n".encode())
        if answer.parts is None or self.is_head:
            self.writer.write(b"" if self.is_head else body)
            await self.flush()
        else:
            await self.send_parts(answer.parts)

    async def send_parts(self, parts: AsyncGenerator[bytes, None]) -> None:
        """Sends parts as they come, until the client leaves."""
        try:
            async for part in parts:
                self.writer.write(b"%x\r\n%s\r\n" % (len(part), part))
                await asyncio.wait_for(self.writer.drain(), self.service.bounds.send_time)
                if self.gone.is_set():
                    raise ConnectionError("the client has left")
        finally:
            await parts.aclose()
        self.writer.write(b"0\r\n\r\n")
        await self.flush()

    async def linger(self) -> None:
        """Reads on for a while what is not looked at: a client that still sends would else not see why it was refused."""
        with suppress(OSError, NotImplementedError):
            self.writer.write_eof()
        end = time.monotonic() + self.service.bounds.head_time
        for _ in range(MOST_UNREAD // PART):
            left = end - time.monotonic()
            if left <= 0 or not await asyncio.wait_for(self.reader.read(PART), left):
                return

    async def flush(self) -> None:
        """Waits until all is taken: only then the next request is read."""
        await asyncio.wait_for(self.writer.drain(), self.service.bounds.send_time)
        end = time.monotonic() + self.service.bounds.send_time
        while self.writer.transport.get_write_buffer_size():
            if time.monotonic() > end:
                raise ConnectionError("an answer is not taken")
            await asyncio.sleep(0.05)
