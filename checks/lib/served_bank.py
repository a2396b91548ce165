"""A served bank for checks: a server that is started and ended, a connection to it, and commands that are drawn."""
from __future__ import annotations

import hashlib
import os
import pathlib
import random
import re
import signal
import socket
import subprocess
import time
from collections.abc import Callable, Container, Iterator, Sequence

from calls import DONE, Tally

CAPITAL = {"tape": 3, "disk": 5, "gpu": 2}
AMOUNTS = ", ".join(f"{amount} {name}" for name, amount in CAPITAL.items())
# Seconds in which a server has to answer, on a machine that does other work.
PATIENCE = 60.0
# The last line of an answer, with the number of a numbered request.
READY = re.compile(r"(?:\d+ )?ready")


class Served:
    """A server in a folder of its own, with a journal and a socket."""

    def __init__(self, start: Sequence[str], folder: pathlib.Path, *more: str, capital: str = AMOUNTS) -> None:
        self.words = [*start, "--journal", f"{folder}/journal", "--capital", capital, *more]
        self.socket, self.log = f"{folder}/socket", folder / "log"
        self.words += ["--socket", self.socket]
        self.process: subprocess.Popen[bytes] | None = None

    def start(self, **environment: str) -> None:
        """Starts it, and waits until it answers."""
        with open(self.log, "ab") as log:
            self.process = subprocess.Popen(self.words, stdin=subprocess.DEVNULL, stderr=log, env={**os.environ, **environment})
        end = time.monotonic() + PATIENCE
        while time.monotonic() < end and self.process.poll() is None:
            try:
                with Wire(self.socket) as wire:
                    wire.say("hello")
                return
            except OSError:
                time.sleep(0.05)
        raise RuntimeError(f"the server does not answer: {self.log.read_text()}")

    def end(self, number: int = signal.SIGTERM) -> int:
        """Ends it by a signal, and returns its status."""
        assert self.process is not None
        self.process.send_signal(number)
        return self.process.wait(PATIENCE)

    def kill(self) -> None:
        """Kills it, if it is there."""
        if self.process is not None and self.process.poll() is None:
            self.end(signal.SIGKILL)


class Wire:
    """A connection to a served bank, in bytes as they come."""

    def __init__(self, path: str) -> None:
        self.socket = socket.socket(socket.AF_UNIX)
        self.socket.settimeout(PATIENCE)
        self.notices: list[str] = []
        self.file = self.socket.makefile("rb")
        try:
            self.socket.connect(path)
        except OSError:
            self.close()
            raise

    def send(self, *lines: str) -> None:
        """Sends lines."""
        self.socket.sendall("".join(f"{line}\n" for line in lines).encode("latin-1"))

    def line(self) -> str:
        """Reads a line that is no notice; the empty one is the end."""
        while (line := self.file.readline().decode("latin-1").rstrip("\n")).startswith("notice "):
            self.notices.append(line)
        return line

    def answer(self) -> list[str]:
        """Reads an answer, without `ready`."""
        lines: list[str] = []
        while not READY.fullmatch(line := self.line()):
            if not line:
                return [*lines, "closed"]
            lines.append(line)
        return lines

    def say(self, line: str) -> list[str]:
        """Sends a line, and returns the answer to it."""
        self.send(line)
        return self.answer()

    def close(self) -> None:
        self.file.close()
        self.socket.close()

    def __enter__(self) -> Wire:
        return self

    def __exit__(self, *fault: object) -> None:
        self.close()


def wait_for(condition: Callable[[], object]) -> None:
    """Waits until something is so."""
    end = time.monotonic() + PATIENCE
    while not condition():
        if time.monotonic() > end:
            raise TimeoutError("it does not come to that")
        time.sleep(0.05)


def certified(folder: pathlib.Path, *addresses: str) -> list[str]:
    """Makes a certificate of this machine and of these addresses, and returns the options of a server that has it and lets
    one token in."""
    kind = ["-newkey", "ec", "-pkeyopt", "ec_paramgen_curve:prime256v1", "-nodes"]
    words = ["req", "-x509", *kind, "-days", "2", "-subj", "/CN=localhost"]
    names = ",".join(["DNS:localhost", *(f"IP:{it}" for it in addresses)])
    files = ["-keyout", f"{folder}/key", "-out", f"{folder}/cert", "-addext", f"subjectAltName={names}"]
    subprocess.run(["openssl", *words, *files], stderr=subprocess.DEVNULL, check=True)
    (folder / "tokens").write_text(f"{hashlib.sha256(b'right').hexdigest()}\n")
    return ["--cert", f"{folder}/cert", "--key", f"{folder}/key", "--tokens", f"{folder}/tokens"]


def free_port() -> int:
    """Returns a port at which nobody answers."""
    with socket.socket() as it:
        it.bind(("localhost", 0))
        port: int = it.getsockname()[1]
    return port


def drawn_amounts(rng: random.Random) -> str:
    """Returns amounts, of which few are over the capital."""
    names = rng.sample(list(CAPITAL), rng.randint(1, len(CAPITAL)))
    return ", ".join(f"{rng.randint(0, CAPITAL[name] + (rng.random() < 0.05))} {name}" for name in names)


def drawn_commands(rng: random.Random, count: int, jobs: int = 7) -> Iterator[str]:
    """Yields commands that change the bank, of which some are refused."""
    names = [f"j{at}" for at in range(jobs)]
    verbs = ["job"] * 3 + ["ask"] * 3 + ["want"] * 4 + ["give"] * 3 + ["leave", "drop", "hold"]
    for _ in range(count):
        verb, name = rng.choice(verbs), rng.choice(names)
        yield f"{verb} {name}" if verb in ("leave", "drop") else f"{verb} {name} {drawn_amounts(rng)}"


def try_parts(tally: Tally, served: Served, calls: dict[str, Callable[[], None]], parts: Container[str]) -> None:
    """Makes the calls of these parts over a server, which ends with status 0 after them."""
    try:
        for part, call in calls.items():
            if part in parts:
                call()
        tally.expect(served.end() == DONE, "SIGTERM does not end a server with status 0")
    finally:
        served.kill()
