#!/usr/bin/env python3
"""Times commands of `bank` through pipes: many at once, and one by one with Python on the other side.

    benches/bank_pipe.py [PROGRAM]     PROGRAM is the one that ./parbegin has built if none is given

The bank has 64 jobs and 16 resources. Says commands a second, of the least of some rounds, so that what else the machine
does is mostly left out. In a round a program is started, gets the jobs, and then the commands; the time of a round without
commands is taken off.
"""
from __future__ import annotations

import os
import subprocess
import sys
from collections.abc import Callable, Iterator
from pathlib import Path
from time import perf_counter

TOP = Path(__file__).resolve().parent.parent
JOBS, RESOURCES, CLAIM = 64, 16, 1_000
ROUNDS = 9


def opening() -> bytes:
    """Returns the commands that set up the bank."""
    lines = [f"resource r{r} 1000000" for r in range(RESOURCES)]
    claims = ", ".join(f"{CLAIM} r{r}" for r in range(RESOURCES))
    return "".join(f"{line}\n" for line in [*lines, *(f"job j{p} {claims}" for p in range(JOBS))]).encode()


def asks(count: int) -> Iterator[str]:
    """Each is granted: no job comes to its claim, and the cash suffices for all claims."""
    for n in range(count):
        yield f"ask j{n % JOBS} 1 r{n // JOBS % RESOURCES}\n"


def asks_and_gives(count: int) -> Iterator[str]:
    """Each ask is granted, and what it lends comes back."""
    for n in range(count // 2):
        yield f"ask j{n % JOBS} 1 r{n % RESOURCES}\ngive j{n % JOBS} 1 r{n % RESOURCES}\n"


def wide_asks(count: int) -> Iterator[str]:
    """Each asks for all resources at once, and is granted."""
    amounts = ", ".join(f"1 r{r}" for r in range(RESOURCES))
    for n in range(count):
        yield f"ask j{n % JOBS} {amounts}\n"


KINDS = (
    ("asks of one resource", asks, 200_000),
    ("asks and gives in turn", asks_and_gives, 200_000),
    ("asks of 16 resources", wide_asks, 50_000),
)


def at_once(program: str, commands: bytes) -> float:
    """Returns the seconds that a program takes over these commands, written and read through pipes."""
    start = perf_counter()
    subprocess.run([program, "bank"], input=opening() + commands, stdout=subprocess.PIPE, check=True)
    return perf_counter() - start


def one_by_one(program: str, lines: list[bytes]) -> float:
    """Returns the seconds that commands take if each is sent once the one before it is answered."""
    with subprocess.Popen([program, "bank"], stdin=subprocess.PIPE, stdout=subprocess.PIPE) as ran:
        assert ran.stdin is not None and ran.stdout is not None
        given, told = ran.stdin.fileno(), ran.stdout.fileno()
        os.write(given, opening())
        left = JOBS + RESOURCES
        while left:
            left -= os.read(told, 65_536).count(b"ready\n")
        start = perf_counter()
        for line in lines:
            os.write(given, line)
            while not os.read(told, 65_536).endswith(b"ready\n"):
                pass
        taken = perf_counter() - start
        ran.stdin.close()
        return taken


def least(call: Callable[[], float]) -> float:
    return min(call() for _ in range(ROUNDS))


def main() -> None:
    program = sys.argv[1] if len(sys.argv) > 1 else str(TOP / "script/tools.sh")
    empty = least(lambda: at_once(program, b""))
    print("| commands | how | a second |\n| --- | --- | --- |")
    for name, kind, count in KINDS:
        commands = "".join(kind(count)).encode()
        print(f"| {name} | at once | {count / (least(lambda: at_once(program, commands)) - empty):,.0f} |", flush=True)
    lines = [line.encode() for line in asks(20_000)]
    print(f"| asks of one resource | one by one | {len(lines) / least(lambda: one_by_one(program, lines)):,.0f} |", flush=True)
    states = b"state\n" * 200
    print(f"| `state` | at once | {200 / (least(lambda: at_once(program, states)) - empty):,.0f} |", flush=True)


if __name__ == "__main__":
    main()
