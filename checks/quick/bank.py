#!/usr/bin/env python3
"""Draws short sessions of `bank`, and compares each answer with a model written from docs/formats/bank.md alone.

    checks/quick/bank.py [PROGRAM]     PROGRAM is the one that ./parbegin has built if none is given

The model is checks/lib/bank_model.py. Every command is drawn, also with words that are refused. Each kind of answer has to
come at least once, so that nobody draws past what is to be compared. Its status is 0 if all is as wanted, and 1 if not.
"""
from __future__ import annotations

import random
import sys
from pathlib import Path

sys.path.insert(0, str(Path(__file__).resolve().parents[1] / "lib"))

from bank_model import MOST_JOBS, MOST_RESOURCES, Model  # noqa: E402
from calls import DONE, Tally, call  # noqa: E402

SESSIONS, LINES = 60, 150
JOBS, RESOURCES = "abcd", ("tape", "disk")
# How often each command is drawn.
WEIGHTS = {
    "ask": 12, "want": 24, "give": 9, "claim": 20, "capital": 8, "job": 6, "leave": 2, "drop": 2, "hold": 4, "why": 6, "order": 6,
    "state": 3, "resource": 1, "odd": 3,
}
ODD = (
    "lend a 1 tape", "claim", "claim a", "claim a 1 tape, 1 disk", "claim a 1 tape disk", "claim a -1 tape", "claim a 01 tape",
    "claim zoe 1 tape", "claim a 1 floppy", "capital tape", "capital tape two", "capital tape 1000001", "job a,b 1 tape",
    "job x/y 1 tape", "ask a 1 tape, 1 tape", "want a , 1 tape", "resource late", "# no command", " \t ", "leave a b", "drop \x7f",
    f"job {'x' * 33} 1 tape", "state now", "order a zoe", "ask a 1 tape 1 disk",
)
# Some answer of the drawn sessions must begin so, to a command of the word before.
WANTED = (
    ("claim", "ready"), ("claim", "granted"), ("claim", "wait rest"), ("claim", "refused B1 "), ("claim", "refused B2"),
    ("claim", "refused B4"), ("claim", "refused B5"), ("claim", "refused B10"), ("claim", "refused B14"), ("capital", "ready"),
    ("capital", "granted"), ("capital", "claimed"), ("capital", "wait cash"), ("capital", "wait rest"), ("ask", "granted"),
    ("ask", "over claim"), ("ask", "wait cash"), ("ask", "wait rest"), ("ask", "refused B12"), ("want", "granted"), ("want", "queued"),
    ("want", "over claim"), ("want", "refused B12"), ("give", "granted"), ("give", "refused B11"), ("leave", "granted"), ("drop", "ready"),
    ("drop", "refused B13"), ("job", "refused B7"), ("job", "refused B10"), ("hold", "held"), ("why", "allowed"), ("why", "wait rest"),
    ("order", "order"), ("order", "finishes"), ("order", "lacks"), ("order", "twice"), ("order", "missing"), ("state", "resource"),
    ("resource", "refused B8"),
)


def amounts(draw: random.Random, most: int) -> str:
    """Draws `K R, ..`."""
    named = draw.sample(RESOURCES, draw.choice((1, 1, 2)))
    return ", ".join(f"{draw.randint(0 if draw.randrange(4) == 0 else most // 2, most)} {resource}" for resource in named)


def line_of(draw: random.Random, word: str) -> str:
    """Draws a line of a command."""
    job, resource = draw.choice(JOBS), draw.choice(RESOURCES)
    if word == "odd":
        return draw.choice(ODD)
    if word in ("capital", "resource"):
        return f"{word} {resource} {draw.randint(2, 7)}"
    if word == "claim":
        return f"claim {job} {draw.choice((0, 1, 2, 2, 3, 3, 4, 5, 6))} {resource}"
    if word in ("leave", "drop"):
        return f"{word} {job}"
    if word == "order":
        return " ".join(["order", *draw.choices(JOBS, k=draw.choice((0, 2, 4)))])
    if word == "state":
        return word
    return f"{word} {job} {amounts(draw, 5 if word == 'job' else 2)}"


def session_of(seed: int) -> list[str]:
    """Draws the lines of a session: resources and jobs first, then anything."""
    draw = random.Random(seed)
    lines = [f"resource {resource} {draw.randint(4, 6)}" for resource in RESOURCES]
    lines += [f"job {job} {draw.randint(2, 4)} tape, {draw.randint(1, 4)} disk" for job in JOBS[:draw.randint(2, len(JOBS))]]
    return lines + [line_of(draw, word) for word in draw.choices(list(WEIGHTS), list(WEIGHTS.values()), k=LINES)]


def full_session() -> list[str]:
    """Returns a session with as many resources and jobs as there can be, and one more of each."""
    resources = [f"resource r{at} 3" for at in range(MOST_RESOURCES + 1)]
    jobs = [f"job j{at} 2 r0, 1 r{at % MOST_RESOURCES}" for at in range(1, MOST_JOBS + 2)]
    return [*resources, *jobs, "claim j2 3 r2", f"claim j{MOST_JOBS} 3 r0", "ask j1 1 r0", "ask j2 2 r0", "claim j1 3 r0", "leave j1", "state"]


def answers_of(lines: list[str]) -> list[tuple[str, list[str]]]:
    """Returns each line that is answered, with the lines of its answer by the model."""
    model = Model()
    return [(line, [*answer, "ready"]) for line in lines if (answer := model.do(line)) is not None]


def compare(tally: Tally, name: str, lines: list[str], wanted: list[tuple[str, list[str]]]) -> None:
    """Compares a session with the model, answer by answer."""
    status, written = call(["bank"], "".join(f"{line}\n" for line in lines).encode("latin-1"))
    tally.expect(status == DONE, name, "the status is", status)
    said = written.decode("latin-1").split("\n")[:-1]
    for line, answer in wanted:
        here, said = said[:len(answer)], said[len(answer):]
        tally.expect(here == answer, name, repr(line), "is answered with", here, "and wanted is", answer)
        if here != answer:
            return
    tally.expect(not said, name, "more is said:", said)


def main() -> None:
    tally, seen = Tally(), set()
    for seed in range(SESSIONS):
        lines = session_of(seed)
        wanted = answers_of(lines)
        seen |= {(line.split()[0], it) for line, answer in wanted for it in answer}
        compare(tally, f"session {seed}:", lines, wanted)
    for word, start in WANTED:
        tally.expect(any(said.startswith(start) for of, said in seen if of == word), "no answer to", word, "begins with", start)
    lines = full_session()
    compare(tally, "as many as there can be:", lines, answers_of(lines))
    tally.end("bank")


if __name__ == "__main__":
    main()
