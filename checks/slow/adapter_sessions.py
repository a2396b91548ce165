#!/usr/bin/env python3
"""Plays drawn sessions of `parbegin dap` beside the debugger of `parbegin debug`.

    checks/slow/adapter_sessions.py [PROGRAM [SESSIONS]]     PROGRAM is the one that ./parbegin has built if none is given

Each run is that of a drawn program, its picks drawn by a seed. What `debug` says of it at each position is read once;
from that alone follows what the adapter has to answer to a drawn session over it: where breakpoints, steps and their
reverses stop, which arms there are, their lines, integers and operands. 1,000 sessions are played if no number is given;
the draws are the same in each call. The status is 0 if all is as wanted, and 1 if not.
"""
from __future__ import annotations

import json
import random
import re
import subprocess
import sys
from dataclasses import dataclass
from pathlib import Path
from typing import Any

sys.path.insert(0, str(Path(__file__).resolve().parents[1] / "lib"))

import drawn_programs  # noqa: E402
from calls import program  # noqa: E402

SESSIONS, ASKED = 1000, 25
Arm = tuple[int, int]
Message = dict[str, Any]


@dataclass
class Position:
    """What `debug` says at a position."""

    # The arms that are not idle, and the body of each process.
    arms: set[Arm]
    lines: dict[Arm, int]
    operands: dict[Arm, list[str]]
    integers: list[dict[str, str]]


def answers(program: str, given: str, commands: list[str]) -> list[list[str]]:
    """Returns what a session answers to each command."""
    told = "".join(f"{command}\nmark {number}\n" for number, command in enumerate(commands))
    ran = subprocess.run([program, "debug", "--live"], input=f"{given}%%\n{told}".encode(), capture_output=True, check=True)
    lines = ran.stdout.decode().splitlines()
    found: list[list[str]] = [[]]
    for line in lines:
        if line == f"mark {len(found) - 1}":
            found.append([])
        else:
            found[-1].append(line)
    return found[:-1]


def position_at(program: str, given: str, processes: list[str], at: int) -> Position:
    """Returns what a session says at a position."""
    threads = answers(program, given, [f"to {at}", *(f"threads {name}" for name in processes)])
    arms: set[Arm] = set()
    every: list[Arm] = []
    for process, said in enumerate(threads[1:]):
        for line in said:
            number = line.split()[0]
            if number.isdigit():
                every.append((process, int(number)))
                if int(number) == 0 or not line.endswith(" idle"):
                    arms.add((process, int(number)))
            else:
                arms.add((process, 0))
    asked = [f"{what} {processes[p]}.{a}" for p, a in every for what in ("line", "stack")]
    said = answers(program, given, [f"to {at}", *asked, *(f"vars {name}" for name in processes)])
    lines, operands = {}, {}
    for number, arm in enumerate(every):
        word = said[1 + 2 * number][0].split()[1]
        lines[arm] = 0 if word == "none" else int(word)
        operands[arm] = said[2 + 2 * number][0].split()[1:]
    integers = [dict(line.split() for line in some) for some in said[1 + len(asked):]]
    return Position(arms, lines, operands, integers)


@dataclass
class Run:
    """A recorded run, and what `debug` says at each of its positions."""

    text: str
    picks: list[Arm]
    processes: list[str]
    positions: list[Position]

    def moves(self, at: int, arm: Arm) -> bool:
        """Whether the pick to this position moves the arm to another line."""
        before, after = self.positions[at - 1], self.positions[at]
        return before.lines.get(arm, 0) != after.lines.get(arm, 0)

    def comes(self, at: int, stops: set[int]) -> bool:
        """Whether some arm comes to one of these lines at this position."""
        before, after = self.positions[at - 1], self.positions[at]
        return any(line in stops and before.lines.get(arm, 0) != line for arm, line in after.lines.items())


def recorded(program: str, text: str, seed: int) -> str | None:
    """Returns a text with the picks of a run of it, or None if it is refused."""
    ran = subprocess.run([program, "record", "--seed", str(seed), "--steps", "60"], input=text.encode(), capture_output=True, check=False)
    given = ran.stdout.decode()
    return given if "%%\n" in given else None


def drawn_run(program: str, draw: random.Random) -> Run:
    """Returns a run of a program that is accepted, with at least ten picks."""
    while True:
        text = re.sub(r"(; | do | then | begin |parbegin )", lambda found: found[0].rstrip() + "\n", drawn_programs.drawn_program(draw))
        given = recorded(program, text, draw.randrange(1000))
        if given is None:
            continue
        processes = re.findall(r"process (\w+)", text)
        picks: list[Arm] = []
        for line in given.split("%%\n")[1].splitlines():
            name, number, count = re.fullmatch(r"(\w+)\.(\d+) (\d+)", line).groups()  # type: ignore[union-attr]
            picks += [(processes.index(name), int(number))] * int(count)
        if len(picks) >= 10:
            return Run(given, picks, processes, [position_at(program, given, processes, at) for at in range(len(picks) + 1)])


class Session:
    """A drawn session over a run, and how often the adapter said something else than the run has."""

    def __init__(self, program: str, run: Run, draw: random.Random) -> None:
        self.run, self.draw, self.wrong, self.seq = run, draw, 0, 0
        self.at, self.stops = 0, set[int]()
        self.child = subprocess.Popen([program, "dap"], stdin=subprocess.PIPE, stdout=subprocess.PIPE)

    def hear(self) -> Message:
        assert self.child.stdout
        head = self.child.stdout.readline()
        self.child.stdout.readline()
        message: Message = json.loads(self.child.stdout.read(int(head[16:])))
        return message

    def ask(self, command: str, **arguments: Any) -> Any:
        assert self.child.stdin
        self.seq += 1
        content = json.dumps({"seq": self.seq, "type": "request", "command": command, "arguments": arguments}).encode()
        self.child.stdin.write(b"Content-Length: %d\r\n\r\n%s" % (len(content), content))
        self.child.stdin.flush()
        said = self.hear()
        self.check(f"{command} is answered", (said["request_seq"], said["success"]), (self.seq, True))
        return said.get("body")

    def check(self, what: str, said: Any, wanted: Any) -> None:
        if said != wanted:
            self.wrong += 1
            print(f"{what} at {self.at}: {said}, and wanted is {wanted}, in\n{self.run.text}")

    def goes(self, command: str, wanted: int, **arguments: Any) -> None:
        """Asks for a move, which must end at this position."""
        self.ask(command, **arguments)
        told = self.hear()
        self.check(command, (told["event"], told["body"]["description"]), ("stopped", f"position {wanted}"))
        self.at = wanted

    def begin(self) -> None:
        self.ask("initialize", adapterID="parbegin")
        self.ask("launch", program="drawn.run", text=self.run.text)
        self.check("initialized", self.hear()["event"], "initialized")
        self.goes("configurationDone", 0)

    def thread(self, arm: Arm) -> int:
        return 64 * arm[0] + arm[1] + 1

    def look(self) -> None:
        """Compares what is told of the position with what `debug` says of it."""
        here = self.run.positions[self.at]
        told = {it["name"] for it in self.ask("threads")["threads"]}
        self.check("threads", told, {f"{self.run.processes[p]}.{a}" for p, a in here.arms})
        arm = self.draw.choice(sorted(here.arms))
        frames = self.ask("stackTrace", threadId=self.thread(arm))["stackFrames"]
        self.check("stackTrace", [frame["line"] for frame in frames], [here.lines.get(arm, 0)])
        scopes = {it["name"]: it["variablesReference"] for it in self.ask("scopes", frameId=frames[0]["id"])["scopes"]}
        shown = self.ask("variables", variablesReference=scopes["Integers"])["variables"]
        self.check("integers", {it["name"]: it["value"] for it in shown}, here.integers[arm[0]])
        shown = self.ask("variables", variablesReference=scopes["Operands"])["variables"]
        self.check("operands", [it["value"] for it in shown], here.operands.get(arm, []))

    def draw_stops(self) -> None:
        lines = sorted({line for position in self.run.positions for line in position.lines.values() if line})
        self.stops = set(self.draw.sample(lines, min(len(lines), self.draw.randint(0, 3))))
        self.ask("setBreakpoints", breakpoints=[{"line": line} for line in sorted(self.stops)])

    def first(self, later: range, holds: Any, otherwise: int) -> int:
        return next((at for at in later if holds(at)), otherwise)

    def move(self) -> None:
        """Makes a drawn move."""
        last = len(self.run.picks)
        later, earlier = range(self.at + 1, last + 1), range(self.at - 1, 0, -1)
        arm = self.draw.choice(sorted(self.run.positions[self.at].arms))
        kind = self.draw.choice(["continue", "reverseContinue", "next", "stepBack", "restart", "evaluate"])
        if kind == "continue":
            self.goes(kind, self.first(later, lambda at: self.run.comes(at, self.stops), last), threadId=1)
        elif kind == "reverseContinue":
            self.goes(kind, self.first(earlier, lambda at: self.run.comes(at, self.stops), 0), threadId=1)
        elif kind == "stepBack":
            self.goes(kind, self.first(earlier, lambda at: self.run.moves(at, arm), 0), threadId=self.thread(arm))
        elif kind == "next":
            wanted = self.first(later, lambda at: self.run.moves(at, arm), -1)
            if wanted >= 0:
                self.goes(kind, wanted, threadId=self.thread(arm))
        elif kind == "restart":
            self.goes(kind, 0)
        else:
            wanted = self.draw.randint(0, last)
            if wanted != self.at:
                self.goes(kind, wanted, expression=f"to {wanted}")

    def play(self) -> int:
        self.begin()
        for _ in range(ASKED):
            self.draw.choice([self.look, self.move, self.move, self.draw_stops])()
        self.ask("disconnect")
        self.check("the status", self.child.wait(10), 0)
        return self.wrong


def main() -> int:
    tool, sessions = program(), int(sys.argv[2]) if sys.argv[2:] else SESSIONS
    draw = random.Random(1)
    wrong = 0
    for number in range(sessions):
        if number % 10 == 0:
            run = drawn_run(tool, draw)
        wrong += Session(tool, run, draw).play()
    print(f"{sessions} sessions, {wrong} wrong")
    return 1 if wrong else 0


sys.exit(main())
