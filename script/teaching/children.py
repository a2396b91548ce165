"""Processes of the program with limits: of processor time, memory, time on the clock and output. Each has a group of its own,
by which it is ended. No thread is used.

The limits are set by `prlimit` after a process has started and before it is given a byte of its input, so nothing has to run
between fork and exec.
"""
from __future__ import annotations

import asyncio
import os
import resource
import signal
import subprocess
import time
from contextlib import suppress
from dataclasses import dataclass
from typing import IO

from script.teaching.calls import MEMORY, Call, Said
from script.teaching.pool import Busy
from script.tools import command_of, path_of, tool_of

MEGABYTE = 1 << 20
MOST_TOLD, PART, MOST_FILES = 1 << 15, 1 << 16, 16


@dataclass(frozen=True)
class Limits:
    """What a process may use: seconds of a processor, bytes of memory, seconds by the clock, bytes of output."""

    processor: int = 5
    memory: int = 512 * MEGABYTE
    clock: float = 10.0
    output: int = 8 * MEGABYTE


class Lost(Exception):
    """A process that does not answer as it should."""


def start(words: list[str], limits: Limits) -> subprocess.Popen[bytes]:
    """Starts the program with nothing of the environment of the server."""
    tool = tool_of(command_of(words))
    process = subprocess.Popen(
        [path_of(tool or "run"), *words], stdin=subprocess.PIPE, stdout=subprocess.PIPE, stderr=subprocess.PIPE,
        env={"LC_ALL": "C"}, cwd="/", start_new_session=True)
    with suppress(ProcessLookupError):
        for kind, most in (
            (resource.RLIMIT_CPU, limits.processor), (resource.RLIMIT_AS, limits.memory), (resource.RLIMIT_FSIZE, 0),
            (resource.RLIMIT_CORE, 0), (resource.RLIMIT_NOFILE, MOST_FILES),
        ):
            # (at the first limit of processor time a process is told, at the second it is killed)
            resource.prlimit(process.pid, kind, (most, most + (kind == resource.RLIMIT_CPU)))
    return process


class Child:
    """A process of the program, whose pipes are read and written as they allow."""

    def __init__(self, children: Children, words: list[str], limits: Limits) -> None:
        self.children, self.limits = children, limits
        self.loop = asyncio.get_running_loop()
        self.process = start(words, limits)
        self.out = asyncio.StreamReader(limit=limits.output)
        self.told, self.left, self.size, self.stopped = bytearray(), bytearray(), 0, ""
        self.is_last = False
        self.over: asyncio.Future[int] = self.loop.create_future()
        try:
            self.ends = os.pidfd_open(self.process.pid)
        except OSError:
            self.process.kill()
            self.process.wait()
            raise
        given, out, told = self.process.stdin, self.process.stdout, self.process.stderr
        assert given is not None and out is not None and told is not None
        for file in (given, out, told):
            os.set_blocking(file.fileno(), False)
        self.loop.add_reader(out, self.read_out)
        self.loop.add_reader(told, self.read_told)
        self.loop.add_reader(self.ends, self.end)
        children.all.add(self)

    def give(self, given: bytes, is_last: bool = False) -> None:
        """Gives input to the process; after the last of it its input is at its end."""
        self.left += given
        self.is_last = self.is_last or is_last
        self.write()

    def write(self) -> None:
        """Writes what the process takes."""
        file = self.process.stdin
        if file is None or file.closed:
            return
        try:
            del self.left[: os.write(file.fileno(), self.left[:PART]) if self.left else 0]
        except BlockingIOError:
            pass
        except OSError:
            # (it reads no further)
            self.left.clear()
        if self.left:
            self.loop.add_writer(file, self.write)
            return
        self.loop.remove_writer(file)
        if self.is_last:
            file.close()

    def read_out(self) -> bool:
        """Reads what it has written, and returns whether there was something."""
        part = self.part_of(self.process.stdout)
        self.size += len(part)
        if self.size > self.limits.output:
            self.stopped = "output"
            self.kill()
        elif part:
            self.out.feed_data(part)
        return bool(part)

    def read_told(self) -> bool:
        """Reads what it has told on standard error, whose first part is kept, and returns whether there was something."""
        part = self.part_of(self.process.stderr)
        self.told += part[: MOST_TOLD - len(self.told)]
        return bool(part)

    def part_of(self, file: IO[bytes] | None) -> bytes:
        """Returns what can be read of a pipe now. At its end it is not watched any more."""
        assert file is not None
        try:
            part = os.read(file.fileno(), PART)
        except BlockingIOError:
            return b""
        except OSError:
            part = b""
        if not part:
            self.loop.remove_reader(file)
        return part

    def end(self) -> None:
        """Notes that the process is over, with what is left in its pipes."""
        status = self.process.wait()
        while self.read_out():
            pass
        while self.read_told():
            pass
        for file in (self.process.stdin, self.process.stdout, self.process.stderr):
            if file is not None and not file.closed:
                self.loop.remove_reader(file)
                self.loop.remove_writer(file)
                with suppress(OSError):
                    file.close()
        self.loop.remove_reader(self.ends)
        os.close(self.ends)
        self.children.all.discard(self)
        self.out.feed_eof()
        if not self.over.done():
            self.over.set_result(status)

    def kill(self) -> None:
        """Ends the process, with all that it may have started."""
        if self.process.returncode is None:
            with suppress(ProcessLookupError):
                os.killpg(self.process.pid, signal.SIGKILL)

    def why_stopped(self, status: int) -> str:
        """Returns what stopped the process, if its end was none of its own."""
        if self.stopped:
            return self.stopped
        if status in (-signal.SIGXCPU, -signal.SIGKILL):
            return "processor"
        return "memory" if status == MEMORY else f"signal {-status}" if status < 0 else ""


class Children:
    """All processes that a server has started."""

    def __init__(self) -> None:
        self.all: set[Child] = set()

    def begin(self, words: list[str], limits: Limits) -> Child:
        """Starts a process, or raises `Busy` if the system has no room for one more."""
        try:
            return Child(self, words, limits)
        except OSError as fault:
            raise Busy from fault

    async def call(self, it: Call, limits: Limits) -> Said:
        """Makes a call, and returns what it says; if it is cancelled its process is ended."""
        child = self.begin(it.words, limits)
        try:
            child.give(it.given, is_last=True)
            out = await asyncio.wait_for(child.out.read(), limits.clock)
            status = await asyncio.wait_for(asyncio.shield(child.over), limits.clock)
        except asyncio.TimeoutError:
            return Said(b"", "", -1, "clock")
        finally:
            child.kill()
        return Said(out, child.told.decode("ascii", "replace"), status, child.why_stopped(status))

    def kill(self) -> None:
        """Kills all processes."""
        for it in list(self.all):
            it.kill()

    def end(self, seconds: float) -> bool:
        """Kills all processes, and returns whether they were gone in time."""
        self.kill()
        last = time.monotonic() + seconds
        try:
            for it in list(self.all):
                it.process.wait(max(0.0, last - time.monotonic()))
        except subprocess.TimeoutExpired:
            return False
        return True
