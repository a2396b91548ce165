"""`./parbegin bank --connect ADDRESS`: the commands of `bank`, answered by a bank that is served."""
from __future__ import annotations

import os
import select
import sys

from script.options import WrongWords, read_options, tell_wrong
from script.places import DEVICE, say
from script.serving.client import Client, Fault, SessionLost
from script.serving.words import NOT_A_COMMAND, read_command
from script.standard import write

USE = "parbegin bank --connect ADDRESS"
HELP = """Answer commands from standard input by a bank that `parbegin serve` serves

Usage: parbegin bank --connect ADDRESS

The commands are those of `parbegin bank`, and so are the answers. A line `notice N granted ..` comes at any time: a wish is
granted. What the session's jobs hold comes back at the end of the input. If the server is gone, it is tried again, and a command
without an answer is sent once more; it is carried out once.

Options:
      --connect <ADDRESS>  PATH, HOST:PORT or tls:HOST:PORT, or several with commas between, of which one leads
      --lease <SECONDS>    How long the bank keeps what is lent if nothing is heard any more, 2 to 86400 [default: 30]
  -h, --help               Print help

PARBEGIN_TOKEN is the token over TLS, or that of an operator, and PARBEGIN_CA a file with the certificate of who signed that of
the server.
"""
LEASE, MIN_LEASE, MAX_LEASE = 30, 2, 86_400
# Seconds in which a server has to be found, and bytes that are read at once.
PATIENCE, PIECE = 10.0, 65_536
PROMPT = "bank> "
# Lines of a client, of which this one sees to itself.
OF_CLIENT = ("auth", "hello", "session", "attach", "beat", "end")


class Terminal:
    """A session between standard input and a served bank."""

    def __init__(self, client: Client) -> None:
        self.client = client
        self.is_terminal = os.isatty(0) and os.isatty(1)
        client.on_notice = self.tell_notice

    def write(self, text: str) -> None:
        """Writes to standard output."""
        sys.stdout.buffer.write(text.encode("latin-1"))
        sys.stdout.buffer.flush()

    def tell_notice(self, line: str) -> None:
        """Writes a notice."""
        self.write(f"\r{line}\n{PROMPT}" if self.is_terminal else f"{line}\n")

    def answer(self, line: str) -> None:
        """Writes the answer to a command; none to an empty line and a comment."""
        command = read_command(line)
        if command is None:
            return
        lines = [NOT_A_COMMAND] if command.verb in OF_CLIENT else self.client.tell(line)
        self.write("".join(f"{it}\n" for it in (lines if self.is_terminal else [*lines, "ready"])))

    def wait_for_line(self) -> bytes:
        """Waits until standard input has more, and keeps the lease meanwhile. Returns what there is; nothing at the end."""
        while True:
            while b"\n" in self.client.unread:
                self.client.wait(0.0)
            socket = self.client.socket
            ready = select.select([0, *([socket] if socket is not None else [])], [], [], self.client.lease / 8)[0]
            if 0 in ready:
                return os.read(0, PIECE)
            if ready:
                self.client.wait(0.0)
            if self.client.left() < 0.75 * self.client.lease:
                self.client.beat()

    def run(self) -> None:
        """Answers all commands."""
        unread = b""
        while True:
            if self.is_terminal:
                self.write(PROMPT)
            while b"\n" not in unread:
                piece = self.wait_for_line()
                if not piece:
                    self.answer(unread.decode("latin-1"))
                    return
                unread += piece
            line, _, unread = unread.partition(b"\n")
            self.answer(line.decode("latin-1"))


def connect(words: list[str]) -> int:
    """Answers the commands of standard input, and returns the status."""
    given = read_options(words, ("--connect", "--lease"))
    if given.others:
        raise WrongWords(f"unexpected argument '{given.others[0]}' found")
    if not given.options["--connect"]:
        raise WrongWords("'--connect' wants the address of a served bank")
    lease = given.number("--lease", LEASE, MIN_LEASE, MAX_LEASE)
    address = given.options["--connect"]
    client = Client(address, lease, os.environ.get("PARBEGIN_TOKEN"), os.environ.get("PARBEGIN_CA"), PATIENCE)
    client.on_silence = say
    try:
        client.open([])
        Terminal(client).run()
        return 0
    except SessionLost as why:
        say(f"{why}: what its jobs held has come back")
        return DEVICE
    except Fault as why:
        say(why)
        return DEVICE
    finally:
        client.close()


def call(words: list[str]) -> int:
    """Does what the words of a call say, and returns the status."""
    if any(word in ("-h", "--help") for word in words):
        return write(HELP)
    try:
        return connect(words)
    except WrongWords as wrong:
        return tell_wrong(wrong, USE)
