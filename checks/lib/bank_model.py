#!/usr/bin/env python3
"""A model of the command `bank`, written from docs/formats/bank.md alone, with which checks compare what a bank answers.

    checks/lib/bank_model.py     reads commands from standard input, and answers them as `parbegin bank` does
"""
from __future__ import annotations

import re
import sys
from collections.abc import Iterable
from dataclasses import dataclass, field

MOST_AMOUNT, MOST_JOBS, MOST_RESOURCES, MOST_COMMAND = 1_000_000, 64, 16, 4_096
NAME = re.compile(r"[A-Za-z0-9_.-]{1,32}")
AMOUNT = re.compile(r"0|[1-9][0-9]{0,6}")
NOT_A_COMMAND = "B1 not a command"
Amounts = dict[str, int]


class Refused(Exception):
    """A command that changes nothing; the text is its code and why."""


@dataclass
class Job:
    """A job: what it claims and holds of each resource that it named."""

    name: str
    claim: Amounts
    holds: Amounts = field(default_factory=dict)

    def needs(self, resource: str) -> int:
        """Returns what the job may still ask for."""
        return self.claim.get(resource, 0) - self.holds.get(resource, 0)


def printable(word: str) -> str:
    """Returns a word as refusals show it."""
    return "".join(it if " " < it < "\x7f" else "?" for it in word)


def amount_of(word: str) -> int:
    """Reads an amount."""
    if not AMOUNT.fullmatch(word) or int(word) > MOST_AMOUNT:
        raise Refused(f"B2 an amount is not in 0..={MOST_AMOUNT}: {printable(word)}")
    return int(word)


def spell(amounts: Amounts) -> str:
    """Returns amounts as answers have them."""
    return ", ".join(f"{amount} {resource}" for resource, amount in amounts.items())


class Model:
    """A bank."""

    def __init__(self) -> None:
        self.capital: Amounts = {}
        self.slots: list[Job | None] = []
        self.wishes: dict[str, Amounts] = {}

    # The state

    def jobs(self) -> list[Job]:
        """Returns the jobs, in the order of their slots."""
        return [job for job in self.slots if job is not None]

    def cash(self, resource: str) -> int:
        """Returns what is not lent."""
        return self.capital[resource] - sum(job.holds.get(resource, 0) for job in self.jobs())

    def finish(self) -> tuple[list[Job], list[Job]]:
        """Returns an order in which jobs can finish, each next one the first that fits; and the jobs that cannot."""
        cash, left, order = {it: self.cash(it) for it in self.capital}, self.jobs(), []
        while (job := next((it for it in left if all(it.needs(r) <= cash[r] for r in cash)), None)) is not None:
            left.remove(job)
            order.append(job)
            for resource in cash:
                cash[resource] += job.holds.get(resource, 0)
        return order, left

    def reason(self, job: Job, amounts: Amounts) -> str | None:
        """Returns why a request is not granted; nothing if it is allowed."""
        over = next((it for it, amount in amounts.items() if amount > job.needs(it)), None)
        if over is not None:
            return f"over claim {over}"
        short = next((it for it, amount in amounts.items() if amount > self.cash(it)), None)
        if short is not None:
            return f"wait cash {short} {self.cash(short)}"
        self.lend(job, amounts)
        rest = self.finish()[1]
        self.lend(job, {it: -amount for it, amount in amounts.items()})
        return f"wait rest {' '.join(it.name for it in rest)}" if rest else None

    @staticmethod
    def lend(job: Job, amounts: Amounts) -> None:
        for resource, amount in amounts.items():
            job.holds[resource] = job.holds.get(resource, 0) + amount

    def serve(self) -> list[str]:
        """Serves the queue, and returns a line for each wish that is granted."""
        told = []
        for name, amounts in list(self.wishes.items()):
            job = self.job_of(name)
            if self.reason(job, amounts) is None:
                self.lend(job, amounts)
                del self.wishes[name]
                told.append(f"granted {name} {spell(amounts)}")
        return told

    # What commands name

    def job_of(self, name: str) -> Job:
        """Returns the job of this name."""
        found = next((it for it in self.jobs() if it.name == name), None)
        if found is None:
            raise Refused(f"B5 no such job: {printable(name)}")
        return found

    def amounts_of(self, words: list[str]) -> Amounts:
        """Reads `K R, ..`, along the line."""
        amounts: Amounts = {}
        while True:
            if len(words) < 2:
                raise Refused(NOT_A_COMMAND)
            amount, resource = amount_of(words[0]), words[1]
            if resource not in self.capital:
                raise Refused(f"B4 no such resource: {printable(resource)}")
            if resource in amounts:
                raise Refused(f"B6 a resource is named twice: {resource}")
            amounts[resource] = amount
            if not words[2:]:
                return amounts
            if words[2] != ",":
                raise Refused(f"{NOT_A_COMMAND}: a comma is missing before {printable(words[2])}")
            words = words[3:]

    def new_name(self, name: str, taken: Iterable[str]) -> str:
        """Returns a name that is new."""
        if not NAME.fullmatch(name):
            raise Refused("B3 not a name of 1 to 32 bytes")
        if name in taken:
            raise Refused(f"B7 the name is taken: {name}")
        return name

    # The commands

    def do_resource(self, words: list[str]) -> list[str]:
        if len(words) != 2:
            raise Refused(NOT_A_COMMAND)
        amount = amount_of(words[1])
        if not NAME.fullmatch(words[0]):
            raise Refused("B3 not a name of 1 to 32 bytes")
        if self.slots:
            raise Refused("B8 a job was there before the resource")
        name = self.new_name(words[0], self.capital)
        if len(self.capital) == MOST_RESOURCES:
            raise Refused(f"B9 there are as many as there can be: {name}")
        self.capital[name] = amount
        return []

    def do_job(self, words: list[str]) -> list[str]:
        if not words:
            raise Refused(NOT_A_COMMAND)
        name = self.new_name(words[0], [it.name for it in self.jobs()])
        claim = self.amounts_of(words[1:])
        over = next((it for it in self.capital if claim.get(it, 0) > self.capital[it]), None)
        if over is not None:
            raise Refused(f"B10 a claim is over the capital: {over}")
        if len(self.jobs()) == MOST_JOBS:
            raise Refused(f"B9 there are as many as there can be: {name}")
        if None not in self.slots:
            self.slots.append(None)
        self.slots[self.slots.index(None)] = Job(name, claim)
        return self.serve()

    def request(self, words: list[str], is_free: bool = True) -> tuple[Job, Amounts]:
        """Reads a job and amounts; a job with a wish is refused, unless it may have one."""
        if not words:
            raise Refused(NOT_A_COMMAND)
        job = self.job_of(words[0])
        amounts = self.amounts_of(words[1:])
        if is_free and job.name in self.wishes:
            raise Refused(f"B12 the job has a wish in the queue: {job.name}")
        return job, amounts

    def do_ask(self, words: list[str], word: str = "granted") -> list[str]:
        job, amounts = self.request(words)
        reason = self.reason(job, amounts)
        if reason is None:
            self.lend(job, amounts)
        return [reason or f"{word} {job.name} {spell(amounts)}"]

    def do_hold(self, words: list[str]) -> list[str]:
        return self.do_ask(words, "held")

    def do_why(self, words: list[str]) -> list[str]:
        return [self.reason(*self.request(words, is_free=False)) or "allowed"]

    def do_want(self, words: list[str]) -> list[str]:
        job, amounts = self.request(words)
        reason = self.reason(job, amounts)
        if reason is None or reason.startswith("over"):
            return self.do_ask(words)
        self.wishes[job.name] = amounts
        return ["queued"]

    def do_drop(self, words: list[str]) -> list[str]:
        name = self.one_job(words).name
        if name not in self.wishes:
            raise Refused(f"B13 the job has no wish in the queue: {name}")
        del self.wishes[name]
        return []

    def do_give(self, words: list[str]) -> list[str]:
        job, amounts = self.request(words, is_free=False)
        over = next((it for it, amount in amounts.items() if amount > job.holds.get(it, 0)), None)
        if over is not None:
            raise Refused(f"B11 the job does not hold as much: {over}")
        self.lend(job, {it: -amount for it, amount in amounts.items()})
        return self.serve()

    def one_job(self, words: list[str]) -> Job:
        """Reads a job, and nothing after it."""
        if len(words) != 1:
            raise Refused(NOT_A_COMMAND)
        return self.job_of(words[0])

    def do_capital(self, words: list[str]) -> list[str]:
        if len(words) != 2:
            raise Refused(NOT_A_COMMAND)
        if words[0] not in self.capital:
            raise Refused(f"B4 no such resource: {printable(words[0])}")
        resource, amount = words[0], amount_of(words[1])
        claimed = [job.name for job in self.jobs() if job.claim.get(resource, 0) > amount]
        if claimed:
            return [" ".join(["claimed", *claimed])]
        before, cash = self.capital[resource], self.cash(resource)
        if before - amount > cash:
            return [f"wait cash {resource} {cash}"]
        self.capital[resource] = amount
        rest = self.finish()[1]
        if rest:
            self.capital[resource] = before
            return [" ".join(["wait rest", *(job.name for job in rest)])]
        return self.serve()

    def do_claim(self, words: list[str]) -> list[str]:
        job, amounts = self.request(words, is_free=False)
        if len(amounts) != 1:
            raise Refused(NOT_A_COMMAND)
        (resource, amount), = amounts.items()
        if amount > self.capital[resource]:
            raise Refused(f"B10 a claim is over the capital: {resource}")
        if amount < job.holds.get(resource, 0) + self.wishes.get(job.name, {}).get(resource, 0):
            raise Refused(f"B14 the job holds or waits for more: {resource}")
        before = job.claim.get(resource, 0)
        job.claim[resource] = amount
        rest = self.finish()[1]
        if rest:
            job.claim[resource] = before
            return [" ".join(["wait rest", *(it.name for it in rest)])]
        return self.serve()

    def do_leave(self, words: list[str]) -> list[str]:
        job = self.one_job(words)
        self.slots[self.slots.index(job)] = None
        self.wishes.pop(job.name, None)
        return self.serve()

    def do_order(self, words: list[str]) -> list[str]:
        if not words:
            return [" ".join(["order", *(job.name for job in self.finish()[0])])]
        jobs = [self.job_of(name) for name in words]
        cash = {it: self.cash(it) for it in self.capital}
        for at, job in enumerate(jobs):
            if job in jobs[:at]:
                return [f"twice {job.name}"]
            lacks = next((it for it in cash if job.needs(it) > cash[it]), None)
            if lacks is not None:
                return [f"lacks {job.name} {lacks}"]
            for resource in cash:
                cash[resource] += job.holds.get(resource, 0)
        missing = next((it for it in self.jobs() if it not in jobs), None)
        return [f"missing {missing.name}" if missing else "finishes"]

    def do_state(self, words: list[str]) -> list[str]:
        if words:
            raise Refused(NOT_A_COMMAND)
        told = [f"resource {it} capital {amount} cash {self.cash(it)}" for it, amount in self.capital.items()]
        for job in self.jobs():
            for it in self.capital:
                told.append(f"job {job.name} {it} claim {job.claim.get(it, 0)} holds {job.holds.get(it, 0)} needs {job.needs(it)}")
        return told + [f"wish {name} {spell(amounts)}" for name, amounts in self.wishes.items()]

    def do(self, line: str) -> list[str] | None:
        """Answers a line, without `ready`; nothing, if it is one that is not answered."""
        command = line.strip(" \t\r")
        words = re.findall(r"[^ \t\r,]+|,", command)
        if not words or words[0].startswith("#"):
            return None
        known = getattr(self, f"do_{words[0]}", None) if words[0].isidentifier() else None
        try:
            if known is None or len(command) > MOST_COMMAND:
                raise Refused(NOT_A_COMMAND)
            answer: list[str] = known(words[1:])
            return answer
        except Refused as why:
            return [f"refused {why}"]


def main() -> int:
    model = Model()
    for raw in sys.stdin.buffer:
        answer = model.do(raw.decode("latin-1").rstrip("\n"))
        if answer is not None:
            sys.stdout.buffer.write("".join(f"{it}\n" for it in [*answer, "ready"]).encode("latin-1"))
            sys.stdout.buffer.flush()
    return 0


if __name__ == "__main__":
    sys.exit(main())
