#!/usr/bin/env python3
"""Calls the built program with standard inputs and outputs that fail, and with some that work, by every command.

    checks/quick/standard_devices.py [PROGRAM]     PROGRAM is the one that ./parbegin has built if none is given

What standard input and output really carry no contract can say: so a read that fails and is told as the end of the
input, or a write that writes nothing, can only be seen from outside. A failed read must give status 6 and no byte, or in
`debug --live` the answers so far; a failed write status 6 and the first part of the answer that was let through. It
writes a line for each case; its status is 0 if all is as wanted, and 1 if not.
"""
from __future__ import annotations

import contextlib
import os
import resource
import signal
import socket
import subprocess
import sys
import tempfile
import time
from collections.abc import Callable
from pathlib import Path
from typing import NamedTuple

sys.path.insert(0, str(Path(__file__).resolve().parents[1] / "lib"))

from calls import DEVICE, TOP, WATCHDOG, Tally, call, inputs, program  # noqa: E402

# How many bytes of an answer the output takes that fails after some.
ROOM = 2
TEXT = "devices.pb"


class Call(NamedTuple):
    """A call of the program, with what it writes and its status if nothing fails."""

    words: list[str]
    given: bytes
    status: int
    whole: bytes


def calls() -> list[Call]:
    """Returns a call of each command."""
    found = [(words, given) for name, words, given in inputs() if name.endswith(f" {TEXT}")]
    found.append((["explain"], b""))
    return [Call(words, given, *call(words, given)) for words, given in found]


def ended(of: Call, before: Callable[[], None] | None = None, **how) -> int:
    """Makes a call with these devices, and returns its status."""
    how = {"stderr": subprocess.DEVNULL, "timeout": WATCHDOG, "check": False, "preexec_fn": before, **how}
    return subprocess.run([program(of.words), *of.words], **how).returncode


def told(of: Call, before: Callable[[], None] | None = None, **how) -> tuple[int, bytes]:
    """Makes a call with this input, and returns its status and what it writes."""
    with tempfile.TemporaryFile() as output:
        status = ended(of, before, stdout=output, **how)
        output.seek(0)
        return status, output.read()


def broken_input(of: Call) -> tuple[int, bytes]:
    """Gives the whole input by a socket whose next read fails."""
    reader, writer = socket.socketpair()
    with reader:
        writer.sendall(of.given)
        # (one that is closed with a byte that it has not read resets the other end)
        reader.send(b"-")
        writer.close()
        return told(of, stdin=reader)


def slow_input(of: Call) -> tuple[int, bytes]:
    """Gives the input in two parts, and the end some time later."""
    half = len(of.given) // 2
    with tempfile.TemporaryFile() as output:
        words = [program(of.words), *of.words]
        with subprocess.Popen(words, stdin=subprocess.PIPE, stdout=output, stderr=subprocess.DEVNULL) as ran:
            for part in (of.given[:half], of.given[half:]):
                # (a program that takes the first part for the whole may have ended)
                with contextlib.suppress(BrokenPipeError):
                    os.write(ran.stdin.fileno(), part)
                time.sleep(0.02)
            ran.stdin.close()
            status = ran.wait(WATCHDOG)
        output.seek(0)
        return status, output.read()


def written_only(of: Call) -> tuple[int, bytes]:
    with tempfile.NamedTemporaryFile() as file, open(file.name, "wb") as stdin:
        return told(of, stdin=stdin)


def directory(of: Call) -> tuple[int, bytes]:
    number = os.open(TOP, os.O_RDONLY)
    try:
        return told(of, stdin=number)
    finally:
        os.close(number)


FAILED_INPUTS = {
    "input closed": lambda it: told(it, lambda: os.close(0)),
    "input a directory": directory,
    "input open for writing alone": written_only,
    "input that fails after its last byte": broken_input,
}


def full_output(of: Call) -> tuple[int, bytes]:
    with open("/dev/full", "wb") as full:
        return ended(of, input=of.given, stdout=full), b""


def read_only(of: Call) -> tuple[int, bytes]:
    with open(os.devnull, "rb") as stdout:
        return ended(of, input=of.given, stdout=stdout), b""


def no_reader(of: Call) -> tuple[int, bytes]:
    reader, writer = os.pipe()
    os.close(reader)
    try:
        return ended(of, input=of.given, stdout=writer), b""
    finally:
        os.close(writer)


def limit_files() -> None:
    """Lets no file become longer than ROOM bytes: a write beyond that fails."""
    signal.signal(signal.SIGXFSZ, signal.SIG_IGN)
    resource.setrlimit(resource.RLIMIT_FSIZE, (ROOM, ROOM))


FAILED_OUTPUTS = {
    "output closed": lambda it: (ended(it, lambda: os.close(1), input=it.given), b""),
    "output full": full_output,
    "output open for reading alone": read_only,
    "output a pipe that nobody reads": no_reader,
    f"output with room for {ROOM} bytes": lambda it: told(it, limit_files, input=it.given),
}
WORKING = {
    "output a file": lambda it: told(it, input=it.given),
    "input by parts": slow_input,
}


def look_at(tally: Tally, of: Call, name: str, got: tuple[int, bytes], is_right: bool) -> None:
    line = f"status {got[0]}: {' '.join(of.words)}, {name}"
    tally.expect(is_right, line, got[1])
    if is_right:
        print(line)


def try_call(tally: Tally, of: Call) -> None:
    is_live = "--live" in of.words
    for name, make in FAILED_INPUTS.items() if of.given else ():
        got = make(of)
        is_part = of.whole.startswith(got[1]) if is_live else not got[1]
        look_at(tally, of, name, got, got[0] == DEVICE and is_part)
    for name, make in FAILED_OUTPUTS.items():
        got = make(of)
        room = ROOM if "room" in name else 0
        look_at(tally, of, name, got, got == (DEVICE, of.whole[:room]))
    for name, make in WORKING.items():
        got = make(of)
        look_at(tally, of, name, got, got == (of.status, of.whole))


def look_at_words(tally: Tally) -> None:
    """Looks whether a person is told of an output that is full, unless the call is to be quiet."""
    for words, wanted in ((["run"], b"device: "), (["--quiet", "run"], b"")):
        with open("/dev/full", "wb") as full:
            done = subprocess.run([program(words), *words], input=b"process p begin print 1 end\n", stdout=full, stderr=subprocess.PIPE,
                                  timeout=WATCHDOG, check=False)
        tally.expect(done.stderr[:8] == wanted, *words, "says", done.stderr)


def main() -> None:
    tally = Tally()
    for of in calls():
        tally.expect(len(of.whole) > ROOM, *of.words, "writes", of.whole)
        try_call(tally, of)
    look_at_words(tally)
    tally.end("standard devices")


if __name__ == "__main__":
    main()
