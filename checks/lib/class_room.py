"""A class that is served, as checks call it."""
from __future__ import annotations

import http.client
import json
import os
import re
import signal
import socket
import ssl
import subprocess
import time
from pathlib import Path
from typing import Any

WATCHDOG = 120
# Limits that cannot matter, however slow the machine is.
FAR = ("--rate", "0", "--seconds", "1200")
# A text whose search takes long, and options by which it may.
ARMS = "; ".join(f"while {name} < 90 do {name} := {name} + 1 od" for name in "abcd")
LONG = f"process p begin integer a, b, c, d; parbegin {ARMS} parend; print a end\n"
AT_LENGTH = ("--states", "4000000", "--memory", "2000")
OWN = "0123456789abcdef" * 2


class ClassRoom:
    """A server of `class` on a free port, with limits that cannot matter unless others are given."""

    def __init__(self, script: str, folder: Path, *words: str, limits: tuple[str, ...] = FAR) -> None:
        self.words, self.folder = [script, "class", "--listen", "127.0.0.1:0", *limits, *words], folder
        self.port, self.key = 0, ""
        self.process: subprocess.Popen[bytes] | None = None

    def start(self) -> None:
        """Starts it, and waits until it says its address."""
        self.process = subprocess.Popen(
            self.words, cwd=self.folder, stdin=subprocess.DEVNULL, stdout=subprocess.PIPE, stderr=subprocess.PIPE)
        assert self.process.stdout is not None and self.process.stderr is not None
        said = self.process.stdout.readline() + self.process.stdout.readline()
        found = re.search(rb"https?://[^ ]*:(\d+)/teacher#key=(\S+)", said)
        if not found:
            raise RuntimeError(f"class does not start: {said!r} {self.process.stderr.read()!r}")
        self.port, self.key = int(found[1]), found[2].decode()

    def send(
        self, method: str, path: str, body: bytes | None = None, headers: dict[str, str] | None = None,
    ) -> tuple[int, dict[str, str], bytes]:
        """Sends a request, and returns its status, its headers and its body."""
        connection: http.client.HTTPConnection
        if "--cert" in self.words:
            context = ssl.create_default_context(cafile=self.words[self.words.index("--cert") + 1])
            connection = http.client.HTTPSConnection("localhost", self.port, timeout=WATCHDOG, context=context)
        else:
            connection = http.client.HTTPConnection("127.0.0.1", self.port, timeout=WATCHDOG)
        try:
            connection.request(method, path, body=body, headers={"X-Client": OWN, **(headers or {})})
            answer = connection.getresponse()
            return answer.status, {name.lower(): value for name, value in answer.getheaders()}, answer.read()
        finally:
            connection.close()

    def ask(self, name: str, text: str | None = None, headers: dict[str, str] | None = None) -> Any:
        """Returns the answer of a request of the program or the class, read as JSON, or as JSON lines if it comes so."""
        given = None if text is None else text.encode()
        _, told, body = self.send("GET" if text is None else "POST", f"/api/{name}", given, headers)
        if told.get("content-type") == "application/x-ndjson":
            return [json.loads(line) for line in body.splitlines()]
        return json.loads(body)

    def processes(self) -> list[int]:
        """Returns the processes that the server has started, and that go on."""
        assert self.process is not None
        found = []
        for path in Path("/proc").glob("[0-9]*/stat"):
            try:
                state, parent = path.read_text().rpartition(")")[2].split()[:2]
            except OSError:
                continue
            if int(parent) == self.process.pid and state != "Z":
                found.append(int(path.parent.name))
        return found

    def searches(self, word: str = "") -> list[int]:
        """Returns those of them that are searches with this word. (Before it is the program a process has the words of the
        server.)"""
        found = []
        for pid in self.processes():
            try:
                words = Path(f"/proc/{pid}/cmdline").read_bytes()
            except OSError:
                continue
            if b"outcomes" in words and word.encode() in words:
                found.append(pid)
        return found

    def searching(self) -> socket.socket:
        """Returns a connection for which the server searches now, as far as `AT_LENGTH` allows. A search that is over before
        that is seen is begun anew."""
        while True:
            it = socket.create_connection(("127.0.0.1", self.port), WATCHDOG)
            head = f"POST /api/outcomes HTTP/1.1\r\nHost: localhost\r\nContent-Length: {len(LONG)}\r\n\r\n"
            it.sendall(head.encode() + LONG.encode())
            it.settimeout(0.02)
            said = b""
            while b'"kind":"time"' not in said and b"HTTP/1.1 5" not in said:
                if self.searches(AT_LENGTH[1]):
                    return it
                try:
                    said += it.recv(1 << 16)
                except socket.timeout:
                    continue
            it.close()

    def threads(self) -> int:
        """Returns how many threads the server has."""
        assert self.process is not None
        return len(os.listdir(f"/proc/{self.process.pid}/task"))

    def end(self, number: int = signal.SIGTERM) -> tuple[int, bytes]:
        """Ends it by a signal, and returns its status and what it said on standard error."""
        assert self.process is not None
        self.process.send_signal(number)
        said = self.process.communicate(timeout=WATCHDOG)[1]
        return self.process.returncode, said

    def kill(self) -> None:
        """Kills it, if it goes on."""
        if self.process is not None and self.process.poll() is None:
            self.process.kill()
            self.process.communicate()


def certified(folder: Path) -> list[str]:
    """Makes a certificate of localhost with its key, and returns the options of a server that has them."""
    kind = ["-newkey", "ec", "-pkeyopt", "ec_paramgen_curve:prime256v1", "-nodes", "-subj", "/CN=localhost"]
    files = ["-keyout", f"{folder}/tls.key", "-out", f"{folder}/tls.cert", "-addext", "subjectAltName=DNS:localhost"]
    words = ["openssl", "req", "-x509", *kind, "-days", "2", *files]
    subprocess.run(words, stdin=subprocess.DEVNULL, stderr=subprocess.DEVNULL, check=True)
    return ["--cert", f"{folder}/tls.cert", "--key", f"{folder}/tls.key"]


def wait_until(is_so: Any) -> bool:
    """Waits until something is so, and returns whether it came to that."""
    end = time.monotonic() + WATCHDOG
    while not is_so():
        if time.monotonic() > end:
            return False
        time.sleep(0.02)
    return True


def is_gone(pid: int) -> bool:
    """Returns whether a process is over."""
    try:
        return Path(f"/proc/{pid}/stat").read_text().rpartition(")")[2].split()[0] == "Z"
    except OSError:
        return True
