"""`plan --table`: plans files, each by itself, and tells of all in a table or as CSV."""
from __future__ import annotations

import os
import re
import subprocess
import sys
from collections.abc import Iterable, Iterator
from dataclasses import dataclass, field

from script.files import MOST_READ, opened, reason_of
from script.gradebook import csv_line, plain_name
from script.helping import are_refused
from script.options import Given, WrongWords, read_options, tell_wrong
from script.places import DEADLOCK, DEVICE, REFUSED, WORDS, say, shown
from script.side_by_side import workers
from script.standard import write

USE = "parbegin plan --table [--csv] [--lend WHO] [--capital R=K ..] [--jobs N] FILE .."
NEED = re.compile(r"(\w+) capital (\d+) least (\d+) free (\d+)")
BOTTLENECK = re.compile(r"bottleneck ([A-Za-z]\w*)")
ORDER = re.compile(r"order((?: [A-Za-z]\w*)*)")
NO_ORDER, NONE_WAITS = "no order", "no request waits"
HEADS = ("plan", "bottleneck", "order", "capital (least, free)")
COLUMNS = ("plan", "status", "resource", "capital", "least", "free", "bottleneck", "order", "refusal")
# The words of the sums, by the status of a plan; that of 1 with lines about resources is another one.
KINDS = {0: "fit", DEADLOCK: "may deadlock", REFUSED: "refused"}
OVER, UNDECIDED = "with a claim over its capital", "not decided"
ORDER_OF_KINDS = (KINDS[0], KINDS[DEADLOCK], OVER, KINDS[REFUSED], UNDECIDED, "not read")


@dataclass
class Plan:
    """What the program says of the plan of a file: its status, what each resource needs, the bottleneck and the order."""

    name: str
    status: int
    needs: list[tuple[str, ...]] = field(default_factory=list)
    bottleneck: str = ""
    order: str = ""
    refusal: str = ""

    @property
    def kind(self) -> str:
        """Returns in words what came of the plan."""
        return OVER if self.status == REFUSED and self.needs else KINDS.get(self.status, UNDECIDED)


def read_plan(name: str, status: int, lines: list[str]) -> Plan:
    """Reads what the program writes."""
    plan = Plan(name, status)
    for line in lines:
        need, bottleneck, order = NEED.fullmatch(line), BOTTLENECK.fullmatch(line), ORDER.fullmatch(line)
        if need:
            plan.needs.append(need.groups())
        elif bottleneck or line == NONE_WAITS:
            plan.bottleneck = bottleneck[1] if bottleneck else line
        elif order or line == NO_ORDER:
            plan.order = order[1].strip() if order else line
    if not plan.bottleneck:
        plan.refusal = lines[-1] if lines else "no answer"
    return plan


@dataclass(frozen=True)
class Planner:
    """Plans files by calls of the program."""

    call: list[str]

    def plan(self, name: str) -> Plan | None:
        """Returns the plan of a file, if it can be read."""
        file = opened(name)
        if file is None:
            return None
        try:
            with file:
                given = file.read(MOST_READ + 1)
        except OSError as fault:
            say(f"{shown(name)}: {reason_of(fault)}")
            return None
        ran = subprocess.run(self.call, input=given, capture_output=True, check=False)
        status = ran.returncode if ran.returncode >= 0 else 128 - ran.returncode
        return read_plan(name, status, ran.stdout.decode(errors="replace").splitlines())


def row_of(plan: Plan) -> tuple[str, ...]:
    """Returns the cells of a plan: a refused one has its refusal in the place of all others."""
    if plan.refusal:
        return shown(plan.name), plan.refusal
    needs = ", ".join(f"{name} {capital} ({least}, {free})" for name, capital, least, free in plan.needs)
    return shown(plan.name), plan.bottleneck, plan.order or "any", needs or "no resources"


def table(plans: list[Plan]) -> Iterator[str]:
    """Yields a row for each plan, with columns that are as wide as they have to be."""
    rows = [HEADS, *map(row_of, plans)]
    whole = [row for row in rows if len(row) == len(HEADS)]
    widths = [max(len(row[0]) for row in rows), *(max(len(row[at]) for row in whole) for at in range(1, len(HEADS)))]
    for row in rows:
        yield "  ".join(f"{cell:{width}}" for cell, width in zip(row, widths)).rstrip() + "\n"


def csv_rows(plans: Iterable[Plan]) -> Iterator[str]:
    """Yields lines of CSV: for each plan one for each of its resources, and one if it has none."""
    yield csv_line(COLUMNS)
    for plan in plans:
        for need in plan.needs or [("", "", "", "")]:
            yield csv_line([plain_name(shown(plan.name)), str(plan.status), *need, plan.bottleneck, plan.order, plan.refusal])


def sums(plans: list[Plan], count: int) -> str:
    """Returns how many plans there are, and what came of them."""
    kinds = [plan.kind for plan in plans] + ["not read"] * (count - len(plans))
    told = ", ".join(f"{kinds.count(kind)} {kind}" for kind in ORDER_OF_KINDS if kind in kinds)
    return f"{count} plan{'' if count == 1 else 's'}: {told}"


def read_words(start: list[str], words: list[str]) -> Given:
    """Reads the words of a call."""
    given = read_options(words, ("--lend", "--jobs"), ("--table", "--csv"), ("--capital",))
    if "--json" in start:
        raise WrongWords("plan --table has no '--json': --csv is for programs")
    if not given.others:
        raise WrongWords("plan --table takes files, and here are none")
    return given


def plan_table(start: list[str], words: list[str]) -> int:
    """Plans the files that the words name, each by itself, tells of all, and returns the greatest status."""
    try:
        given = read_words(start, words)
        jobs = given.number("--jobs", len(os.sched_getaffinity(0)))
    except WrongWords as wrong:
        return tell_wrong(wrong, USE)
    call = ["plan", *given.for_program("--lend", "--capital")]
    if are_refused(start[:1], call):
        return WORDS
    planner = Planner([*start[:1], "--quiet", *call])
    with workers(jobs) as pool:
        plans = [it for it in pool.map(planner.plan, given.others) if it is not None]
    # (a name of bytes that are no text is written as it is)
    sys.stdout.reconfigure(errors="surrogateescape")
    failed = write("".join(csv_rows(plans) if "--csv" in given.options else table(plans)))
    if failed:
        return failed
    if "--quiet" not in start:
        say(sums(plans, len(given.others)))
    return max([DEVICE] * (len(plans) < len(given.others)) + [plan.status for plan in plans])
