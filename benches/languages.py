#!/usr/bin/env python3
"""Times a turn of the bank, an ask and a give, from C, Rust and Python, beside a plain banker in Python.

    benches/languages.py FOLDER [PROGRAM]

FOLDER holds the library, as `./parbegin library FOLDER` writes it. With the built program, if it has the command `bank`,
Python asks through pipes too. Wants `gcc` and `cargo`. Says nanoseconds a turn, the least of many short rounds, so that
what else the machine does is mostly left out. benches/banker.py times the proved call by itself (*kept* is this request), and
benches/bank_pipe.py many commands at once.
"""
from __future__ import annotations

import os
import subprocess
import sys
import tempfile
from collections.abc import Callable
from pathlib import Path
from timeit import repeat

TOP = Path(__file__).resolve().parent.parent
HERE = TOP / "benches" / "languages"
SIZES = ((4, 1), (16, 4), (64, 16))


class Plain:
    """A banker of fixed claims, as somebody would write it in Python."""

    def __init__(self, capital: list[int], claims: list[list[int]]) -> None:
        self.cash = list(capital)
        self.claims = claims
        self.loans = [[0] * len(capital) for _ in claims]

    def is_safe(self) -> bool:
        cash, waiting = list(self.cash), list(range(len(self.claims)))
        while waiting:
            for p in waiting:
                if all(claim - loan <= have for claim, loan, have in zip(self.claims[p], self.loans[p], cash)):
                    cash = [have + loan for have, loan in zip(cash, self.loans[p])]
                    waiting.remove(p)
                    break
            else:
                return False
        return True

    def move(self, p: int, amounts: list[int], sign: int) -> None:
        self.loans[p] = [loan + sign * amount for loan, amount in zip(self.loans[p], amounts)]
        self.cash = [have - sign * amount for have, amount in zip(self.cash, amounts)]

    def ask(self, p: int, amounts: list[int]) -> bool:
        if any(loan + amount > claim for loan, amount, claim in zip(self.loans[p], amounts, self.claims[p])):
            return False
        if any(amount > have for amount, have in zip(amounts, self.cash)):
            return False
        self.move(p, amounts, 1)
        if self.is_safe():
            return True
        self.move(p, amounts, -1)
        return False

    def give(self, p: int, amounts: list[int]) -> None:
        self.move(p, amounts, -1)


def least(turn: Callable[[], None], number: int) -> float:
    """Returns the nanoseconds of a turn."""
    return min(repeat(turn, number=number, repeat=60)) / number * 1e9


def turn_of(bank: object, resources: int) -> Callable[[], None]:
    amounts = [1] + [0] * (resources - 1)

    def turn() -> None:
        bank.ask(1, amounts)
        bank.give(1, amounts)

    return turn


def native(library: Path, room: Path) -> dict[str, Path]:
    """Builds the programs in C and Rust."""
    source = (f"-I{library}", str(HERE / "ask.c"), str(library / "libparbegin.a"))
    subprocess.run(["gcc", "-std=gnu11", "-O2", *source, "-pthread", "-o", str(room / "ask_c")], check=True)
    # (cargo writes a lock file beside the manifest)
    where = {**os.environ, "PARBEGIN_LIB": str(library), "CARGO_TARGET_DIR": str(room / "target")}
    subprocess.run(["cargo", "build", "--offline", "--quiet", "--release"], cwd=HERE, env=where, check=True)
    return {"C": room / "ask_c", "Rust": room / "target" / "release" / "ask"}


def main(words: list[str]) -> None:
    if len(words) not in (1, 2):
        sys.exit("usage: benches/languages.py FOLDER [PROGRAM]")
    library = Path(words[0]).resolve()
    os.environ["PARBEGIN_SO"] = str(library / "libparbegin.so")
    sys.dont_write_bytecode = True
    sys.path.insert(0, str(TOP / "extras" / "python"))
    import parbegin

    with tempfile.TemporaryDirectory() as name:
        programs = native(library, Path(name))
        for jobs, resources in SIZES:
            capital, claims = [100] * resources, [[50] * resources for _ in range(jobs)]
            times = {}
            for language, program in programs.items():
                ran = subprocess.run([program, str(jobs), str(resources)], stdout=subprocess.PIPE, text=True, check=True)
                times[language] = float(ran.stdout)
            banks: dict[str, object] = {"Python, ctypes": parbegin.Bank(capital)}
            if len(words) == 2:
                banks["Python, pipes"] = parbegin.Bank(capital, words[1])
            for language, bank in banks.items():
                for row in claims:
                    bank.join(row)
                times[language] = least(turn_of(bank, resources), 200)
                bank.close()
            times["plain Python"] = least(turn_of(Plain(capital, claims), resources), 20)
            told = ", ".join(f"{language} {time:,.0f}" for language, time in times.items())
            print(f"{jobs} jobs, {resources} resources: an ask and a give in nanoseconds: {told}")


if __name__ == "__main__":
    main(sys.argv[1:])
