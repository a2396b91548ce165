"""A session of the program's `debug --live` over a text or an object, asked command by command."""
from __future__ import annotations

import re
import signal
import subprocess
from collections.abc import Iterator
from contextlib import contextmanager, suppress

from script.code import Code
from script.picks import Picks
from script.places import say

# A search for a value looks through so many picks first, and then through twice as many each time.
LOOKED_AHEAD = 64
REFUSAL = re.compile(r"refused G\d$")
# Tells where an answer ends that may have any number of lines.
MARK = "mark 0"
# The line of a pick that is not enabled, with its number.
NOT_ENABLED = re.compile(r"refused H1 at (\d+)")


@contextmanager
def interrupts_ignored() -> Iterator[None]:
    """Ignores Ctrl-C for a while."""
    before = signal.signal(signal.SIGINT, signal.SIG_IGN)
    try:
        yield
    finally:
        signal.signal(signal.SIGINT, before)


class Refused(Exception):
    """The program refused the text, the object or the picks; it has said why."""

    def __init__(self, status: int, told: str) -> None:
        super().__init__(told)
        self.status, self.told = status, told


class Denied(Exception):
    """The program refused a command."""


class Session:
    """The program at a position of a run."""

    def __init__(self, start: list[str], given: bytes, code: Code, picks: Picks, options: list[str] | None = None) -> None:
        self.words, self.given, self.code, self.picks = [*start, "debug", "--live", *(options or [])], given, code, picks
        self.position = 0
        self.open()

    def open(self) -> None:
        """Starts the program, at the position where the session is."""
        # (in a group of its own, so that an interrupt at the terminal ends a command, and not the program)
        self.process = subprocess.Popen(
            self.words, stdin=subprocess.PIPE, stdout=subprocess.PIPE, start_new_session=True)
        lines = "".join(f"{line}\n" for line in self.picks.lines()).encode()
        with suppress(BrokenPipeError):
            self.write(self.given + b"%%\n" + lines + b"%%\n")
            self.write(f"to {self.position}\n".encode())
        line = self.read()
        while not line.startswith("at "):
            if line.startswith(("refused ", "memory")) or not line:
                raise Refused(self.close(), line)
            line = self.read()

    def write(self, given: bytes) -> None:
        """Gives the program some bytes."""
        assert self.process.stdin is not None
        self.process.stdin.write(given)
        self.process.stdin.flush()

    def read(self) -> str:
        """Returns the next line of the program, without its end; nothing at the end."""
        assert self.process.stdout is not None
        return self.process.stdout.readline().decode(errors="replace").rstrip("\n")

    def close(self) -> int:
        """Ends the program, and returns its status."""
        with suppress(OSError):
            self.process.communicate()
        return self.process.wait()

    def again(self) -> None:
        """Ends a command that takes long: the program is started anew, at the position where the session is."""
        # (one interrupt is enough: another one would end the start halfway)
        with interrupts_ignored():
            self.process.kill()
            self.process.communicate()
            self.open()

    def ask(self, command: str) -> str:
        """Returns the first line of the answer to a command."""
        try:
            self.write(f"{command}\n".encode())
        except BrokenPipeError:
            raise Refused(self.close(), "the session has ended") from None
        line = self.read()
        if REFUSAL.match(line):
            raise Denied(line)
        if not line:
            raise Refused(self.close(), "the session has ended")
        return line

    def lines(self, command: str, count: int) -> list[str]:
        """Returns an answer of so many lines, at least one."""
        first = self.ask(command)
        return [first, *(self.read() for _ in range(count - 1))]

    def listed(self, command: str) -> list[str]:
        """Returns all lines of an answer, of which there may be none."""
        try:
            lines = [self.ask(f"{command}\n{MARK}")]
        except Denied:
            self.read()
            raise
        while lines[-1] != MARK:
            lines.append(self.read())
            if not lines[-1]:
                raise Refused(self.close(), "the session has ended")
        return lines[:-1]

    def does(self, arm: str) -> str:
        """Returns what the next pick of an arm does, in words: `p.2 line 8: reads x (0)`."""
        return self.ask(f"does {arm}")

    def did(self, pick: int) -> str:
        """Returns what the pick with this number did. The session stays where it is."""
        here = self.position
        self.go(pick)
        told = self.does(self.picks.arm_of(pick))
        self.go(here)
        return told.replace(": asks for ", ": is granted ", 1)

    def move(self, command: str) -> str | None:
        """Makes a move, and returns what is told after the new position, or nothing if there is no such position."""
        answer = self.ask(command)
        at, _, told = answer.removeprefix("at ").partition(" ")
        if not answer.startswith("at "):
            return None
        self.position = int(at)
        return told

    def go(self, position: int) -> None:
        """Goes to a position."""
        if position != self.position:
            self.move(f"to {position}")

    def integers(self, process: str) -> dict[str, int]:
        """Returns the integers of a process."""
        count = len(self.code.processes[process].integers)
        lines = self.lines(f"vars {process}", count) if count else []
        return {name: int(value) for name, value in (line.split(" ") for line in lines)}

    def becomes(self, process: str, integer: str, value: int) -> bool:
        """Goes to the next position at which an integer is changed to this value, and returns whether there is one."""
        here, total = self.position, self.picks.total
        first, width = here, LOOKED_AHEAD
        while first < total:
            last = min(first + width, total)
            found = [at for at in self.changes(process, integer, first, last) if self.value_at(at, process, integer) == value]
            if found:
                self.go(min(found))
                return True
            first, width = last, 2 * width
        self.go(here)
        return False

    def value_at(self, position: int, process: str, integer: str) -> int:
        """Goes to a position, and returns the value of an integer there."""
        self.go(position)
        return self.integers(process)[integer]

    def changes(self, process: str, integer: str, first: int, last: int) -> Iterator[int]:
        """Yields the positions after the first one and up to the last just after which a pick changed an integer, the
        last first."""
        at = last
        while True:
            self.go(at)
            answer = self.ask(f"wrote {process} {integer}")
            at = 0 if answer == "never" else int(answer.split()[1])
            if at <= first:
                return
            yield at
            at -= 1

    def places(self, process: str) -> dict[str, int | str]:
        """Returns the place of each arm of a process, or `idle`, `ended` or `faulted`."""
        arms = self.code.processes[process].arms()
        first = self.ask(f"threads {process}")
        if first == "faulted":
            return dict.fromkeys(arms, "faulted")
        states = [line.split(" ", 1)[1] for line in [first, *(self.read() for _ in arms[1:])]]
        return {arm: int(it[3:]) if it.startswith("at ") else it for arm, it in zip(arms, states)}

    def has_faulted(self, process: str) -> bool:
        """Returns whether a process has faulted."""
        return "faulted" in self.places(process).values()

    def circle(self) -> list[tuple[str, str, str]]:
        """Returns arm, resource and holder of each link of a circular wait: the last holder is the first process."""
        links = [self.ask("circle").split()]
        if links == [["no", "circle"]]:
            return []
        while links[-1][-1] != links[0][0].split(".")[0]:
            links.append(self.read().split())
        return [(arm, resource, holder) for arm, _, resource, _, holder in links]

    def loans(self) -> tuple[list[tuple[str, str, int, int]], dict[str, int]]:
        """Returns process, resource, amount and claim of each loan, and the cash of each resource."""
        resources, count = self.code.resources, len(self.code.resources)
        lines = self.lines("loans", count * len(self.code.processes) + count) if count else []
        cash = {line.split()[2]: int(line.split()[1]) for line in lines[len(lines) - count :]}
        held = [line.split() for line in lines[: len(lines) - count]]
        assert len(cash) == len(resources)
        return [(it[0], it[3], int(it[2]), int(it[5])) for it in held], cash


def session_of(start: list[str], given: bytes, code: Code, picks: Picks, options: list[str]) -> Session:
    """Starts a session of these picks; or if one of them is not enabled, of those before it, and says so."""
    try:
        return Session(start, given, code, picks, options)
    except Refused as refused:
        stopped = NOT_ENABLED.fullmatch(refused.told)
        if not stopped:
            raise
        count = int(stopped[1])
        say(f"this session has the picks before that one: `to {count}`, and then `why {picks.arm_of(count)}`")
        return Session(start, given, code, picks.first(count), options)
