"""A connection to a served bank: the greeting, and lines."""
from __future__ import annotations

import contextlib
import select
import socket
import threading
from collections.abc import Iterator

from .answers import Fault

# Seconds in which a server has to answer a greeting, and take what it is sent.
PATIENCE = 3.0
PIECE = 65_536


class Lost(Fault):
    """The session has ended."""


class Elsewhere(ConnectionError):
    """This server does not answer now: another one leads, or none."""


def is_of_unix(address: str) -> bool:
    """Returns whether an address is the path of a socket."""
    return "/" in address or ":" not in address


def host_and_port(address: str) -> tuple[str, int]:
    """Returns the host and the port of `HOST:PORT` or `tls:HOST:PORT`."""
    host, _, port = address.removeprefix("tls:").rpartition(":")
    return host.strip("[]"), int(port)


def words_of(lines: list[str], has_session: bool) -> list[str]:
    """Returns the words of the answer to a greeting. Raises what a refusal means."""
    words = lines[0].split(" ") if lines else [""]
    if words[0] != "refused":
        return words
    if words[1] == "S2":
        raise Elsewhere(lines[0])
    raise Lost("the session has ended") if words[1] == "S5" and has_session else Fault(lines[0])


class Addresses:
    """The servers of which one leads, first the one that is tried next."""

    def __init__(self, text: str) -> None:
        self.all = [it for it in text.split(",") if it]
        if not self.all:
            raise Fault("neither an address nor PARBEGIN_SOCKET says where the bank is served")

    def first(self) -> str:
        """Returns the server that is tried next."""
        return self.all[0]

    def is_told(self, fault: Exception) -> bool:
        """Takes the next server, after one that did not answer. Returns whether that one told which leads."""
        leads = str(fault).partition(", but ")[2] if isinstance(fault, Elsewhere) else ""
        if not leads or leads == self.all[0]:
            self.all.append(self.all.pop(0))
            return False
        self.all = [leads, *(it for it in self.all if it != leads)]
        return True

    def __str__(self) -> str:
        return ",".join(self.all)


class Wire:
    """The session of a client, over one connection at a time."""

    def __init__(self, address: str, lease: int, token: str | None, authority: str | None) -> None:
        self.addresses = Addresses(address)
        self.lease, self.token, self.authority = lease, token, authority
        self.sid = self.key = ""
        self.is_open = False
        self.socket: socket.socket | None = None
        self.unread = b""
        # (TLS does not let one thread read while another one writes)
        self.use = threading.Lock()

    def connect(self) -> socket.socket:
        """Connects to the path of a socket, to `HOST:PORT`, or by TLS to `tls:HOST:PORT`."""
        address = self.addresses.first()
        if is_of_unix(address):
            it = socket.socket(socket.AF_UNIX)
            it.settimeout(PATIENCE)
            try:
                it.connect(address)
            except OSError:
                it.close()
                raise
            return it
        host, port = host_and_port(address)
        it = socket.create_connection((host, port), PATIENCE)
        it.setsockopt(socket.IPPROTO_TCP, socket.TCP_NODELAY, 1)
        if not address.startswith("tls:"):
            return it
        # (needed here alone)
        import ssl

        return ssl.create_default_context(cafile=self.authority).wrap_socket(it, server_hostname=host)

    def open(self, noticed: int) -> None:
        """Connects, and begins the session or goes on with it. Raises OSError if that fails for now, and Lost if it has ended."""
        self.close()
        self.socket, self.unread = self.connect(), b""
        try:
            if self.token:
                self.greet(f"auth {self.token}")
            words = self.greet(f"attach {self.sid} {self.key} {noticed}" if self.sid else f"session {self.lease}")
        except BaseException:
            self.close()
            raise
        if words[0] == "session":
            self.sid, self.key = words[1], words[2]

    def greet(self, line: str) -> list[str]:
        """Sends a line of the greeting, and returns the words of its answer."""
        self.send(line)
        lines: list[str] = []
        while (told := self.next_line()) != "ready":
            lines.append(told)
        return words_of(lines, bool(self.sid))

    def send(self, *lines: str) -> None:
        """Sends lines."""
        if self.socket is None:
            raise ConnectionError("there is no connection")
        with self.use:
            self.socket.sendall("".join(f"{line}\n" for line in lines).encode("latin-1", "replace"))

    def next_line(self) -> str:
        """Reads a line. Raises OSError at the end."""
        while b"\n" not in self.unread:
            with self.use:
                piece = self.socket.recv(PIECE) if self.socket is not None else b""
            if not piece:
                raise ConnectionError("the server has gone")
            self.unread += piece
        line, _, self.unread = self.unread.partition(b"\n")
        return line.decode("latin-1")

    def lines(self, seconds: float) -> Iterator[str]:
        """Waits for what comes, at most some seconds, and yields the lines of it."""
        it = self.socket
        if it is None:
            raise ConnectionError("there is no connection")
        # (TLS may have read more than was taken)
        is_waiting = b"\n" in self.unread or getattr(it, "pending", int)()
        try:
            if not is_waiting and not select.select([it], [], [], seconds)[0]:
                return
        except ValueError as closed:
            raise ConnectionError("the connection was closed") from closed
        yield self.next_line()
        while b"\n" in self.unread:
            yield self.next_line()

    def close(self) -> None:
        """Ends the connection."""
        self.is_open = False
        if self.socket is not None:
            with contextlib.suppress(OSError):
                self.socket.close()
        self.socket = None
