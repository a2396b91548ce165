"""A client's connection: the lines that it sends, and what it is told."""
from __future__ import annotations

import asyncio
import hmac
from collections.abc import Callable, Sequence
from typing import TYPE_CHECKING, NamedTuple

from script.serving.objects import WrongObject, answer_of, line_of, notice_of
from script.serving.words import (
    CHANGING, KEPT, MAX_COMMAND, MAX_LEASE, MAX_UNREAD, MIN_LEASE, NOT_A_COMMAND, VERSION, read_command, read_number, refused,
)

if TYPE_CHECKING:
    from script.serving.server import Server

# The lease of a session that was not asked for: it ends with its connection, or so many seconds after a restart.
PLAIN_LEASE = 30
# Seconds in which a client over the network has to say its token.
PATIENCE = 5
# The number of a session that has ended, which no session has.
ENDED = -1


class Item(NamedTuple):
    """A request in the queue: an entry for the journal, or a command that only reads, or else an answer that waits its turn."""

    to: Connection | None
    number: int
    entry: str = ""
    read: str = ""
    answer: Sequence[str] = ()
    is_silent: bool = False


class Connection:
    """A connection, with the session that it speaks for: 0 if there is none."""

    def __init__(self, server: Server, reader: asyncio.StreamReader, writer: asyncio.StreamWriter, is_trusted: bool) -> None:
        self.server, self.reader, self.writer, self.is_trusted = server, reader, writer, is_trusted
        self.sid = 0
        self.is_plain = False
        # whether the client has said the token of an operator, and whether it speaks JSON
        self.is_operator = False
        self.is_json = False
        self.in_work = 0
        self.room = asyncio.Event()

    def send(self, number: int, lines: Sequence[str]) -> None:
        """Writes an answer; each line of it has the number of a numbered request before it."""
        if self.is_json:
            self.write(f"{answer_of(number, lines)}\n")
            return
        before = f"{number} " if number else ""
        self.write("".join(f"{before}{line}\n" for line in (*lines, "ready")))

    def tell(self, number: int, line: str) -> None:
        """Writes a notice."""
        self.write(f"{notice_of(number, line)}\n" if self.is_json else f"notice {number} {line}\n")

    def write(self, text: str) -> None:
        """Writes to the client, and cuts it off if it leaves too much unread."""
        if self.writer.is_closing():
            return
        self.writer.write(text.encode("latin-1"))
        if self.writer.transport.get_write_buffer_size() > MAX_UNREAD:
            # (who reads on after all finds why at the end; what it leaves unread is not more than that)
            last = answer_of(0, [refused("S14")]) if self.is_json else refused("S14")
            self.writer.write(f"{last}\n".encode())
            self.writer.close()

    def cut_off(self) -> None:
        """Ends the connection at once."""
        self.writer.transport.abort()

    def is_done(self) -> None:
        """Notes that a request has its answer."""
        self.in_work -= 1
        self.room.set()

    async def run(self) -> None:
        """Reads lines until the connection ends."""
        while (raw := await self.read()) is not None:
            if not self.take(raw.rstrip(b"\n").decode("latin-1")):
                return
            while self.in_work >= KEPT:
                self.room.clear()
                await self.room.wait()

    async def read(self) -> bytes | None:
        """Returns the next line, or nothing at the end of all of them."""
        try:
            return await asyncio.wait_for(self.reader.readuntil(b"\n"), None if self.is_trusted else PATIENCE)
        except asyncio.LimitOverrunError:
            self.send(0, [refused("S8")])
        except asyncio.IncompleteReadError as end:
            return end.partial or None
        except (asyncio.TimeoutError, OSError):
            pass
        return None

    async def finish(self) -> None:
        """Waits for the answers to what was read, for some seconds."""
        while self.in_work and self.server.is_leading:
            self.room.clear()
            await asyncio.wait_for(self.room.wait(), PATIENCE)

    def take(self, text: str) -> bool:
        """Takes a line, and returns whether the connection goes on."""
        self.is_json = self.is_json or text.startswith("{")
        try:
            number, line = line_of(text) if self.is_json else read_number(text)
        except WrongObject as wrong:
            number, line = wrong.number, ""
        if self.is_json and not line or len(line) > MAX_COMMAND:
            return self.refuse(number, NOT_A_COMMAND)
        verb, *words = line.split(" ")
        if not self.is_trusted:
            return self.let_in(number, verb, words)
        if not self.server.is_answering():
            if verb == "hello" and not self.server.stopping.is_set():
                self.send(number, [f"parbegin-serve {VERSION} follower {self.server.log.leads_at()}".rstrip()])
                return True
            self.send(number, [self.server.elsewhere()])
            return False
        self.server.hear(self.sid)
        own = OWN.get(verb)
        if own is not None:
            own(self, number, words)
        else:
            self.give_on(number, line)
        return True

    def refuse(self, number: int, line: str) -> bool:
        """Refuses a line in its turn, and returns whether the connection goes on."""
        if not self.is_trusted:
            self.send(number, [refused("S1")])
        elif self.server.is_answering():
            self.push(Item(self, number, answer=[line]))
        else:
            self.send(number, [self.server.elsewhere()])
        return self.is_trusted and self.server.is_answering()

    def let_in(self, number: int, verb: str, words: list[str]) -> bool:
        """Takes the first line over the network, and returns whether it has a token that is known."""
        if verb == "auth" and len(words) == 1:
            self.take_token(words[0])
        self.send(number, [] if self.is_trusted else [refused("S1")])
        return self.is_trusted

    def take_token(self, token: str) -> None:
        """Takes a token: it lets a client in, or makes it an operator."""
        tokens = self.server.tokens
        self.is_operator = self.server.is_known(token, tokens.operators)
        self.is_trusted = self.is_trusted or self.is_operator or self.server.is_known(token, tokens.clients)

    def give_on(self, number: int, line: str) -> None:
        """Puts a line that is not the server's own into the queue, for the bank."""
        command = read_command(line)
        if command is None:
            # (the bank says nothing to these, not even `ready`)
            if number:
                self.push(Item(self, number))
        elif command.verb not in CHANGING and command.verb != "use":
            self.push(Item(self, number, read=command.line))
        elif self.sid == ENDED:
            self.push(Item(self, number, answer=[refused("S5")]))
        elif self.sid:
            self.push(Item(self, number, entry=f"{self.kind_of(command.verb)} {self.sid} {number} {command.line}"))
        elif number:
            self.push(Item(self, number, answer=[refused("S9")]))
        elif self.begin(PLAIN_LEASE, Item(self, 0, is_silent=True)):
            self.is_plain = True
            self.push(Item(self, 0, entry=f"{self.kind_of(command.verb)} {self.sid} 0 {command.line}"))

    def kind_of(self, verb: str) -> str:
        """Returns the kind of the entry of a command: one of its own, if an operator changes the capital."""
        return "P" if verb == "capital" and self.is_operator else "C"

    def push(self, item: Item) -> None:
        """Puts a request of this connection into the queue."""
        self.in_work += 1
        self.server.push(item)

    # What the server itself is asked

    def auth(self, number: int, words: list[str]) -> None:
        if len(words) == 1:
            self.take_token(words[0])
        self.push(Item(self, number))

    def hello(self, number: int, words: list[str]) -> None:
        self.push(Item(self, number, answer=[f"parbegin-serve {VERSION} leader"]))

    def beat(self, number: int, words: list[str]) -> None:
        self.push(Item(self, number, read="beat"))

    def fence(self, number: int, words: list[str]) -> None:
        self.push(Item(self, number, read="fence"))

    def session(self, number: int, words: list[str]) -> None:
        """Begins a session of its own lease."""
        if len(words) == 1 and words[0].isascii() and words[0].isdigit() and MIN_LEASE <= int(words[0][:9]) <= MAX_LEASE:
            self.begin(int(words[0]), Item(self, number))
        else:
            self.push(Item(self, number, answer=[refused("S10")]))

    def begin(self, lease: int, item: Item) -> bool:
        """Begins a session, and returns whether there was room for it. `item` says where its answer goes."""
        sid, entry = self.server.new_session(lease)
        if not sid:
            self.push(item._replace(answer=[refused("S7")], is_silent=False))
            return False
        self.detach()
        self.sid = sid
        self.server.attached[sid] = self
        self.push(item._replace(entry=entry))
        return True

    def attach(self, number: int, words: list[str]) -> None:
        """Goes on with a session that an earlier connection began, and sends the later notices again."""
        is_read = len(words) == 3 and all(it.isascii() and it.isdigit() and len(it) <= 18 for it in (words[0], words[2]))
        session = self.server.desk.sessions.get(int(words[0])) if is_read else None
        if session is None or not hmac.compare_digest(session.key.encode(), words[1].encode()):
            self.push(Item(self, number, answer=[refused("S5")]))
            return
        self.detach()
        self.sid = int(words[0])
        other = self.server.attached.get(self.sid)
        if other is not None and other is not self:
            other.sid = 0
            other.cut_off()
        self.server.attached[self.sid] = self
        self.server.hear(self.sid)
        self.send(number, [f"attached {session.last}"])
        for noted, line in session.notices:
            if noted > int(words[2]):
                self.tell(noted, line)

    def end(self, number: int, words: list[str]) -> None:
        """Ends the session."""
        if self.sid > 0:
            self.push(Item(self, number, entry=f"E {self.sid}"))
        else:
            self.push(Item(self, number, answer=[refused("S5")]))

    def detach(self) -> None:
        """Lets go of the session. One that was not asked for ends."""
        if self.is_plain and self.sid > 0 and self.server.is_leading:
            self.server.push(Item(None, 0, entry=f"E {self.sid}"))
        self.is_plain = False
        if self.sid and self.server.attached.get(self.sid) is self:
            del self.server.attached[self.sid]
        self.sid = 0


OWN: dict[str, Callable[[Connection, int, list[str]], None]] = {
    "auth": Connection.auth, "hello": Connection.hello, "beat": Connection.beat, "fence": Connection.fence,
    "session": Connection.session, "attach": Connection.attach, "end": Connection.end,
}
