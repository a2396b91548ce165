"""A client of a served bank, for `hold`: one thread, one connection at a time, and few imports, since each `hold` pays for them.

A request that was sent and has no answer is sent again over the next connection, with its number: it is carried out once.
"""
from __future__ import annotations

# (`socket` is this with names of its constants, which take longer to import than Python takes to start)
import _socket
import select
import time

TYPE_CHECKING = False
if TYPE_CHECKING:
    import socket
    from collections.abc import Callable

# Seconds in which a server has to answer before the connection is given up, at most, and as a share of the lease; seconds between
# two tries to connect.
SILENCE, OF_LEASE, PAUSE = 5.0, 0.2, 0.1
PIECE = 65_536


class Fault(Exception):
    """A call that did nothing; the text says why."""


class Unreachable(Fault):
    """No server answers."""


class Elsewhere(OSError):
    """This server does not answer now."""


class SessionLost(Fault):
    """The session has ended: its jobs have left, and all that they held has come back."""


def now() -> float:
    """Returns seconds by a clock that goes on while the machine is suspended, as leases do."""
    return time.clock_gettime(time.CLOCK_BOOTTIME)


def connect(address: str, authority: str | None, patience: float) -> _socket.socket:
    """Connects to the path of a socket, to `HOST:PORT`, or by TLS to `tls:HOST:PORT`."""
    if "/" not in address and ":" in address:
        return connect_over_network(address, authority, patience)
    it = _socket.socket(_socket.AF_UNIX, _socket.SOCK_STREAM)
    it.settimeout(patience)
    it.connect(address)
    return it


def connect_over_network(address: str, authority: str | None, patience: float) -> socket.socket:
    """Connects to `HOST:PORT`, or by TLS to `tls:HOST:PORT`."""
    # (needed here alone)
    import socket
    import ssl

    host, _, port = address.removeprefix("tls:").rpartition(":")
    host = host.strip("[]")
    it = socket.create_connection((host, int(port)), patience)
    it.setsockopt(socket.IPPROTO_TCP, socket.TCP_NODELAY, 1)
    is_plain = not address.startswith("tls:")
    return it if is_plain else ssl.create_default_context(cafile=authority).wrap_socket(it, server_hostname=host)


class Client:
    """A session with a served bank. `patience` is how long it tries to reach a server; None is without end.

    Several addresses, with commas between, are those of servers of which one leads.
    """

    def __init__(
        self, address: str, lease: int, token: str | None = None, authority: str | None = None, patience: float | None = None
    ) -> None:
        self.address, self.lease, self.token, self.authority = address, lease, token, authority
        self.patience, self.silence = patience, min(SILENCE, OF_LEASE * lease)
        # the one that is tried next is the first
        self.addresses = address.split(",")
        self.socket: _socket.socket | None = None
        self.sid = self.key = ""
        self.number = self.noticed = 0
        self.unread = b""
        # the requests that have no answer, the lines of answers that are not whole, and whole answers
        self.waiting: dict[int, str] = {}
        self.parts: dict[int, list[str]] = {}
        self.answers: dict[int, list[str]] = {}
        # jobs whose wishes were granted, and those that have left with what this session had got for them
        self.granted: list[str] = []
        self.left_jobs: list[str] = []
        # the lease lasts surely from here on: from before the last request that was answered
        self.confirmed = now()
        self.sent: dict[int, float] = {}
        # who is told that no server answers
        self.on_silence: Callable[[str], None] = lambda why: None
        # who is told of a notice
        self.on_notice: Callable[[str], None] = lambda line: None

    # Connections

    def open(self, lines: list[str]) -> list[int]:
        """Connects, begins a session and sends these requests at once. Returns their numbers."""
        numbers = [self._note(line) for line in lines]
        self._reach(None if self.patience is None else now() + self.patience)
        return numbers

    def _reach(self, end: float | None) -> None:
        """Tries until a server answers. Raises Unreachable if none has until then."""
        began, is_told = now(), False
        while True:
            try:
                self._greet()
                return
            except (OSError, EOFError) as fault:
                if self.drop_server(fault):
                    continue
                why = f"no server answers at {self.address}: {getattr(fault, 'strerror', None) or fault or 'it ends'}"
                if end is not None and now() + PAUSE > end:
                    raise Unreachable(why) from fault
                if not is_told and now() - began > self.silence:
                    is_told = True
                    self.on_silence(f"{why}; waits for one")
            time.sleep(PAUSE)

    def _greet(self) -> None:
        """Connects once: begins a session or goes on with it, and sends all that has no answer."""
        self.drop()
        self.socket = connect(self.addresses[0], self.authority, self.silence)
        auth = [f"auth {self.token}"] if self.token else []
        first = f"attach {self.sid} {self.key} {self.noticed}" if self.sid else f"session {self.lease}"
        asked = now()
        requests = [f"{number} {line}" for number, line in self.waiting.items()]
        for number in self.waiting:
            self.sent[number] = asked
        # (after `attach` the requests go at once; so they do after `session`, which cannot be lost without them)
        self.socket.sendall("".join(f"{line}\n" for line in (*auth, first, *requests)).encode("latin-1"))
        if auth:
            self._plain_answer()
        words = self._plain_answer()[0].split(" ")
        if words[0] == "session":
            self.sid, self.key = words[1], words[2]
        self.confirmed = asked

    def _plain_answer(self) -> list[str]:
        """Reads an answer without a number. Raises Fault if it is a refusal that does not pass."""
        lines: list[str] = []
        while (line := self._line()) != "ready":
            lines.append(line)
        if lines and lines[0].startswith("refused"):
            code = lines[0].split(" ")[1]
            if code == "S2":
                raise Elsewhere(lines[0])
            raise SessionLost("the session has ended") if code == "S5" and self.sid else Fault(lines[0])
        return lines

    def drop_server(self, fault: BaseException) -> bool:
        """Lets go of the connection, and takes the next server. Returns whether the one that leads was told."""
        self.drop()
        leads = str(fault).partition(", but ")[2] if isinstance(fault, Elsewhere) else ""
        if not leads or leads == self.addresses[0]:
            self.addresses.append(self.addresses.pop(0))
            return False
        if leads in self.addresses:
            self.addresses.remove(leads)
        self.addresses.insert(0, leads)
        return True

    def drop(self) -> None:
        """Lets go of the connection."""
        if self.socket is not None:
            self.socket.close()
        self.socket, self.unread = None, b""
        self.parts.clear()

    # Lines

    def _line(self) -> str:
        """Reads a line. Raises EOFError at the end, and OSError if none comes in time."""
        assert self.socket is not None
        while b"\n" not in self.unread:
            piece = self.socket.recv(PIECE)
            if not piece:
                raise EOFError
            self.unread += piece
        line, _, self.unread = self.unread.partition(b"\n")
        return line.decode("latin-1")

    def _take(self, line: str) -> None:
        """Takes a line of an answer, or a notice."""
        head, _, rest = line.partition(" ")
        if head == "notice":
            number, _, told = rest.partition(" ")
            if int(number) > self.noticed:
                self.noticed = int(number)
                verb, job, *_ = told.split(" ")
                (self.granted if verb == "granted" else self.left_jobs).append(job)
                self.on_notice(line)
        elif head.isdigit() and rest == "ready":
            lines = self.parts.pop(int(head), [])
            if lines and lines[0].startswith("refused S2"):
                raise Elsewhere(lines[0])
            request = self.waiting.pop(int(head), None)
            if request is not None:
                self.answers[int(head)] = lines
                self.confirmed = max(self.confirmed, self.sent.pop(int(head), self.confirmed))
            if lines and lines[0].startswith("refused S5") and not (request or "").startswith("use "):
                raise SessionLost("the session has ended")
        elif head.isdigit():
            self.parts.setdefault(int(head), []).append(rest)

    def _note(self, line: str) -> int:
        self.number += 1
        self.waiting[self.number] = line
        return self.number

    # Requests

    def begin(self, line: str) -> int:
        """Sends a request, and returns its number."""
        number = self._note(line)
        self.sent[number] = now()
        try:
            if self.socket is not None:
                self.socket.sendall(f"{number} {line}\n".encode("latin-1"))
        except OSError:
            self.drop()
        return number

    def answer(self, number: int, patience: float | None = None) -> list[str]:
        """Waits for the answer to a request. Raises Unreachable if no server gives one in time."""
        end = None if patience is None else now() + patience
        while number not in self.answers:
            if self.socket is None:
                self._reach(end)
            try:
                self._take(self._line())
            except (OSError, EOFError) as fault:
                self.drop_server(fault)
        return self.answers.pop(number)

    def tell(self, line: str) -> list[str]:
        """Sends a request, and returns its answer."""
        return self.answer(self.begin(line), self.patience)

    def say(self, line: str) -> list[str]:
        """Sends a request, and returns its answer. Raises Fault if it is refused."""
        lines = self.tell(line)
        if lines and lines[0].startswith("refused"):
            raise Fault(lines[0])
        return lines

    def wait(self, seconds: float) -> None:
        """Takes what comes within some seconds, at least one line if one comes. A server that is gone is left alone."""
        try:
            if self.socket is None:
                self._greet()
            assert self.socket is not None
            if b"\n" not in self.unread and not getattr(self.socket, "pending", int)():
                if not select.select([self.socket], [], [], max(0.0, seconds))[0]:
                    return
            self._take(self._line())
        except (OSError, EOFError) as fault:
            if not self.drop_server(fault):
                time.sleep(min(PAUSE, max(0.0, seconds)))

    def beat(self) -> None:
        """Keeps the lease: asks for nothing, and waits for the answer no longer than a moment."""
        if "beat" not in self.waiting.values():
            self.begin("beat")
        self.wait(0.05)

    def left(self) -> float:
        """Returns for how many seconds the lease surely lasts."""
        return self.confirmed + self.lease - now()

    def close(self) -> None:
        """Ends the session, if a server can be reached soon."""
        try:
            if self.sid:
                self.answer(self.begin("end"), self.silence)
        except Fault:
            # (what it held comes back when its lease has ended)
            pass
        self.drop()
