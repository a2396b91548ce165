"""Calls of etcd by its JSON gateway, over HTTP/1.1, with nothing but the standard library."""
from __future__ import annotations

import asyncio
import base64
import json
import ssl
from collections.abc import AsyncGenerator, Awaitable, Sequence
from typing import Any, NamedTuple, TypeVar

T = TypeVar("T")
Stream = tuple[asyncio.StreamReader, asyncio.StreamWriter]
# The most bytes of an answer that has no length before it; the tries of a call, and seconds between two of them.
MOST_ANSWER, TRIES, PAUSE = 1 << 26, 4, 0.02
# Codes of gRPC that pass: the time is over, too many requests, no member leads.
PASSING = (4, 8, 14)
UNKNOWN_TOKEN = ("invalid auth token", "user name is empty")
FULL = "space exceeded"


class NoEtcd(Exception):
    """No member of etcd answers in time."""


class EtcdRefused(Exception):
    """etcd refuses a call, and would again; the text says why."""


class Access(NamedTuple):
    """How etcd is reached: its members, TLS, and a user with a password."""

    members: Sequence[str]
    context: ssl.SSLContext | None = None
    user: str = ""
    password: str = ""


def encoded(text: str) -> str:
    """Returns a text as the gateway has bytes."""
    return base64.b64encode(text.encode("latin-1")).decode()


def decoded(text: str) -> str:
    """Returns the text of bytes as the gateway has them."""
    return base64.b64decode(text).decode("latin-1")


async def within(seconds: float, call: Awaitable[T]) -> T:
    """Waits for a call so long. (wait_for within wait_for can swallow that a task is cancelled.)"""
    task = asyncio.ensure_future(call)
    try:
        done, _ = await asyncio.wait([task], timeout=seconds)
        if not done:
            raise asyncio.TimeoutError
        return task.result()
    finally:
        if not task.done():
            task.cancel()
            await asyncio.wait([task])


async def chunks(reader: asyncio.StreamReader) -> AsyncGenerator[bytes, None]:
    """Yields the chunks of an answer."""
    while True:
        size = int(await reader.readline(), 16)
        if not size:
            # (fields may come at the end: an answer that tells of a fault has some)
            while (await reader.readline()).strip():
                pass
            return
        yield await reader.readexactly(size)
        await reader.readline()


class Gateway:
    """Calls of etcd over any of its members. `patience` is in seconds."""

    def __init__(self, access: Access, patience: float) -> None:
        self.access, self.patience = access, patience
        self.members = list(access.members)
        self.token = ""
        self.idle: list[Stream] = []

    async def open(self) -> Stream:
        """Connects to the member whose turn it is."""
        host, _, port = self.members[0].rpartition(":")
        name = host.strip("[]")
        return await asyncio.open_connection(name, int(port), limit=MOST_ANSWER, ssl=self.access.context)

    async def send(self, writer: asyncio.StreamWriter, path: str, body: dict[str, Any]) -> None:
        """Sends a call."""
        given = json.dumps(body).encode()
        token = f"Authorization: {self.token}\r\n" if self.token else ""
        fields = f"Host: etcd\r\n{token}Content-Type: application/json\r\nContent-Length: {len(given)}\r\n"
        writer.write(f"POST /v3/{path} HTTP/1.1\r\n{fields}\r\n".encode() + given)
        await writer.drain()

    @staticmethod
    async def read_head(reader: asyncio.StreamReader) -> tuple[int, dict[str, str]]:
        """Reads the status of an answer and its fields."""
        first, *rest = (await reader.readuntil(b"\r\n\r\n")).decode("latin-1").split("\r\n")
        fields = dict(line.lower().split(": ", 1) for line in rest if ": " in line)
        return int(first.split(" ")[1] if " " in first else "none"), fields

    async def once(self, path: str, body: dict[str, Any]) -> dict[str, Any]:
        """Makes a call over one member, and returns its answer."""
        reader, writer = self.idle.pop() if self.idle else await self.open()
        is_kept = False
        try:
            await self.send(writer, path, body)
            status, fields = await self.read_head(reader)
            if "content-length" in fields:
                got = await reader.readexactly(int(fields["content-length"]))
            else:
                got = b"".join([chunk async for chunk in chunks(reader)])
            is_kept = fields.get("connection") != "close"
        finally:
            if is_kept:
                self.idle.append((reader, writer))
            else:
                writer.close()
        said: dict[str, Any] = json.loads(got)
        if status != 200:
            self.refuse(said)
        return said

    def refuse(self, said: dict[str, Any]) -> None:
        """Raises what an answer means that is a fault."""
        why = str(said.get("message") or said.get("error") or said)
        if any(it in why for it in UNKNOWN_TOKEN) and self.access.user:
            self.token = ""
        elif said.get("code") not in PASSING or FULL in why:
            raise EtcdRefused(f"etcd: {why}")
        raise ConnectionError(f"etcd: {why}")

    async def call(self, path: str, body: dict[str, Any], tries: int = TRIES) -> dict[str, Any]:
        """Calls etcd, and another member if one does not answer. So a call may be carried out twice: callers see to that."""
        fault: BaseException | None = None
        for _ in range(tries):
            try:
                return await within(self.patience, self.with_token(path, body))
            except (OSError, asyncio.TimeoutError, asyncio.IncompleteReadError, ValueError) as what:
                fault = what
                self.rotate()
                await asyncio.sleep(PAUSE)
        raise NoEtcd(f"no member of etcd answers: {fault or 'in time'}")

    async def with_token(self, path: str, body: dict[str, Any]) -> dict[str, Any]:
        """Makes a call over one member, with a token if there is a user."""
        if self.access.user and not self.token:
            said = await self.once("auth/authenticate", {"name": self.access.user, "password": self.access.password})
            self.token = said["token"]
        return await self.once(path, body)

    def rotate(self) -> None:
        """Goes on with the next member."""
        for _, writer in self.idle:
            writer.close()
        self.idle.clear()
        self.members.append(self.members.pop(0))

    async def watch(self, prefix: str, revision: int) -> AsyncGenerator[dict[str, Any], None]:
        """Yields what the watch of a prefix says, from a revision on, until the connection ends."""
        reader, writer = await within(self.patience, self.open())
        try:
            request = {"key": encoded(prefix), "range_end": encoded(after(prefix)), "start_revision": str(revision)}
            await self.send(writer, "watch", {"create_request": request})
            await within(self.patience, self.read_head(reader))
            kept = b""
            async for chunk in chunks(reader):
                *lines, kept = (kept + chunk).split(b"\n")
                for line in lines:
                    yield result_of(line)
        finally:
            writer.close()

    def close(self) -> None:
        """Closes the connections that wait for a call."""
        for _, writer in self.idle:
            writer.close()
        self.idle.clear()


def result_of(line: bytes) -> dict[str, Any]:
    """Returns what a line of a watch says. Raises ConnectionError if it ends."""
    said: dict[str, Any] = json.loads(line)
    if "result" not in said:
        raise ConnectionError(f"the watch ends: {said}")
    result: dict[str, Any] = said["result"]
    return result


def after(prefix: str) -> str:
    """Returns the first text after all that begin so."""
    return prefix[:-1] + chr(ord(prefix[-1]) + 1)
