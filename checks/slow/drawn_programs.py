#!/usr/bin/env python3
"""Draws programs, and compares what the program says of each with a second reading of the documents, reference.py.

    checks/slow/drawn_programs.py [PROGRAM]     PROGRAM is the one that ./parbegin has built if none is given

Each drawn program is run with a drawn quantum and number of steps, its claims are shown, and a run of it is recorded by
a seed under each lender and replayed under it, by cash with as little of each resource as the claims allow; picks that
the cash alone lets go on are replayed under both. Output and status must be the same on both sides, and a record ends in
a deadlock exactly if its replay does. A program that faults, is refused by its claims or
never ends is as good as any other. The draws are the same in each call. It is run by hand; its status is 0 if all is as
wanted, and 1 if not.
"""
import collections
import random
import re
import sys
from pathlib import Path

sys.path.insert(0, str(Path(__file__).resolve().parents[1] / "lib"))

import reference  # noqa: E402
from calls import Tally, call  # noqa: E402

PROGRAMS, STEPS = 1000, 400
INTEGERS = ["x", "y", "z"]
RESOURCES = ["r", "s", "t"]
BINARY = ["+", "-", "*", "div", "mod", "=", "<>", "<", "<=", ">", ">=", "and", "or"]
NUMBERS = [0, 1, 2, 3, 7, 100, 9223372036854775807]


def expression(draw, deep):
    kind = draw.choice(["number", "name", "name"] if deep == 0 else ["number", "name", "binary", "binary", "unary"])
    if kind == "number":
        return str(draw.choice(NUMBERS))
    if kind == "name":
        return draw.choice(INTEGERS)
    if kind == "unary":
        return f"({draw.choice(['-', 'not '])}{expression(draw, deep - 1)})"
    return f"({expression(draw, deep - 1)} {draw.choice(BINARY)} {expression(draw, deep - 1)})"


def statements(draw, deep):
    return "; ".join(statement(draw, deep) for _ in range(draw.randint(1, 3)))


def statement(draw, deep):
    kinds = ["skip", "assign", "assign", "print"]
    if deep:
        kinds += ["if", "while", "hold", "hold", "hold", "parbegin", "begin"]
    kind = draw.choice(kinds)
    if kind == "assign":
        return f"{draw.choice(INTEGERS)} := {expression(draw, 2)}"
    if kind == "print":
        return f"print {expression(draw, 2)}"
    if kind == "if":
        other = f" else {statements(draw, deep - 1)}" if draw.random() < 0.5 else ""
        return f"if {expression(draw, 1)} then {statements(draw, deep - 1)}{other} fi"
    if kind == "while":
        return f"while {draw.choice(INTEGERS)} < {draw.randint(0, 3)} do {statements(draw, deep - 1)}; {step(draw)} od"
    if kind == "hold":
        named = draw.sample(RESOURCES, draw.randint(1, 2))
        pairs = ", ".join(f"{draw.randint(1, 2)} of {it}" for it in named)
        return f"hold {pairs} do {statements(draw, deep - 1)} od"
    if kind == "parbegin":
        return f"parbegin {'; '.join(statement(draw, deep - 1) for _ in range(draw.randint(1, 3)))} parend"
    return f"begin {statements(draw, deep - 1)} end" if kind == "begin" else "skip"


def step(draw):
    name = draw.choice(INTEGERS)
    return f"{name} := {name} + 1"


def drawn_program(draw):
    resources = "".join(f"resource {it} = {draw.randint(2, 6)};\n" for it in RESOURCES)
    processes = [
        f"process p{number} begin integer x, y, z; {statements(draw, 3)} end\n" for number in range(draw.randint(1, 4))
    ]
    return resources + "".join(processes)


def scarce(text):
    """Returns the text with as little of each resource as its claims allow, so that loans by cash may end in a deadlock."""
    machine = reference.Machine(text)
    for it in machine.capital:
        most = max(claim.get(it, 0) for claim in machine.claims)
        text = re.sub(rf"resource {it} = \d+;", f"resource {it} = {most};", text)
    return text


def wandered(draw, text):
    """Returns the text with picks that are drawn from those that the cash alone lets go on, up to 60 of them."""
    try:
        machine = reference.Till(text)
        machine.refuse_claims()
    except reference.Refused:
        return text
    arms = [(number, arm) for number, it in enumerate(machine.processes) for arm in it.arms]
    for _ in range(60):
        if not any(machine.step(*it) for it in draw.sample(arms, len(arms))):
            break
    return "".join(f"{line}\n" for line in [text.rstrip("\n"), "%%", *machine.pick_lines()])


def main():
    tally, draw, ended = Tally(), random.Random(5), collections.Counter()
    for _ in range(PROGRAMS):
        text = drawn_program(draw)
        run = ["run", "--quantum", str(draw.choice([1, 2, 5, 64])), "--steps", str(draw.randint(0, STEPS))]
        record = ["record", "--steps", str(draw.randint(0, STEPS)), "--seed", str(draw.randrange(2**64))]
        recorded = call(record, text.encode())[1].decode()
        lent = [*record, "--lend", "cash"]
        poor = scarce(text)
        ending, lent_picks = call(lent, poor.encode())
        moved = wandered(draw, text)
        by_cash = ["replay", "--lend", "cash"]
        calls = [(run, text), (["claims"], text), (record, text), (["replay"], recorded), (by_cash, recorded)]
        calls += [(lent, poor), (by_cash, lent_picks.decode())]
        for words, given in [*calls, (by_cash, moved), (["replay"], moved)]:
            status, said = call(words, given.encode())
            tally.expect((status, said.decode()) == reference.says(words, given), *words, "of", given)
            ended[words[0] + " by cash" * ("cash" in words), status] += 1
        replayed = call(by_cash, lent_picks)[0]
        tally.expect((ending == 9) == (replayed == 9), "a record and its replay end otherwise:", *lent, "of", poor)
    print(", ".join(f"{command} {status}: {count}" for (command, status), count in sorted(ended.items())))
    tally.end("drawn programs")


if __name__ == "__main__":
    main()
