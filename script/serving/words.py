"""The words of the protocol: limits, refusals, and how a command line is read."""
from __future__ import annotations

import re
import time
from typing import NamedTuple

VERSION = 1
# The most bytes of a command, as the bank has it; and of a line, which may have a number before it.
MAX_COMMAND = 4_096
MAX_LINE = MAX_COMMAND + 32
# The answers and notices that are kept of a session; so also how many requests of a connection may be without an answer.
KEPT = 64
MAX_SESSIONS = 1_024
MAX_CLIENTS = 1_024
# Seconds of a lease.
MIN_LEASE, MAX_LEASE = 1, 86_400
# The bytes that a client may leave unread.
MAX_UNREAD = 1 << 20
# Jobs of these names stand in free slots, while a snapshot is taken over.
HOLE = "-hole-"

REFUSED = {
    "S1": "the first line over this transport is `auth TOKEN`, with a token that is known",
    "S2": "this server does not answer now",
    "S3": "the job belongs to another session",
    "S4": "only an operator changes the capital, and resources are declared at the first start",
    "S5": "no such session, or not its key",
    "S6": "the answer to this request is no longer kept",
    "S7": "too many sessions or clients",
    "S8": "the line is too long",
    "S9": "a command that changes the bank needs a session",
    "S10": f"a lease is {MIN_LEASE} to {MAX_LEASE} seconds",
    "S11": f"names that begin with {HOLE} are the server's",
    "S12": "the session itself did not get as much of it for this job",
    "S13": "the wish of the job is that of another session",
    "S14": "too much was left unread",
}
CHANGING = frozenset(("resource", "capital", "claim", "job", "ask", "hold", "want", "drop", "give", "leave"))
# What the owner of a job alone may say of it.
OF_OWNER = ("claim", "leave")
NOT_A_COMMAND = "refused B1 not a command"
AMOUNT = re.compile(r"0|[1-9][0-9]{0,6}")
# Words as the bank cuts them: blanks part them, and a comma is a word. (Python's split() knows other blanks.)
WORD = re.compile(r"[^ \t\r,]+|,")
COMMA = re.compile(r" ?, ?")


def now() -> float:
    """Returns seconds by a clock that goes on while the machine is suspended, as leases do."""
    return time.clock_gettime(time.CLOCK_BOOTTIME)


def refused(code: str) -> str:
    """Returns the line of a refusal."""
    return f"refused {code} {REFUSED[code]}"


def elsewhere(address: str) -> str:
    """Returns the line of a refusal to who has to go to another server, which is at this address if one leads."""
    return f"{refused('S2')}, but {address}" if address else refused("S2")


class Command(NamedTuple):
    """A command in its one spelling, which has the words that the line has, and is not longer."""

    verb: str
    # the second word: a job or a resource, if the command has one
    subject: str
    line: str
    words: list[str]

    def amounts(self) -> dict[str, int]:
        """Returns resources and amounts, of a command that the bank has taken."""
        return {name: int(amount) for amount, name in zip(self.words[2::3], self.words[3::3])}

    def are_amounts(self) -> bool:
        """Returns whether `VERB J K R, ..` is what the words are, with no resource twice."""
        amounts, names, commas = self.words[2::3], self.words[3::3], self.words[4::3]
        is_list = len(self.words) % 3 == 1 and len(self.words) > 3 and set(commas) <= {","} and "," not in (*amounts, *names)
        return is_list and all(map(AMOUNT.fullmatch, amounts)) and len(set(names)) == len(names)


def read_command(text: str) -> Command | None:
    """Returns the command of a line, or nothing if it is empty or a comment. Only the bank says whether it is one.

    What the bank is sent is the one spelling that this makes, so that bank and desk cannot read a line differently.
    """
    words = WORD.findall(text)
    if not words or words[0].startswith("#"):
        return None
    return Command(words[0], words[1] if len(words) > 1 else "", COMMA.sub(",", " ".join(words)), words)


def read_number(text: str) -> tuple[int, str]:
    """Returns the number of a request and the line after it; 0 and the whole line, if it has none."""
    head, _, rest = text.partition(" ")
    if head.isascii() and head.isdigit() and len(head) <= 18:
        return int(head), rest
    return 0, text
