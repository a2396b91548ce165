"""The program parbegin: a bank through pipes, by its command `bank`, and the other commands."""
from __future__ import annotations

import os
import shutil
import subprocess
import weakref
from collections.abc import Iterable, Sequence

from ._pipes import Pipes
from .answers import (
    FULL, MAX_AMOUNT, MAX_JOBS, MAX_RESOURCES, NO_BANK, NO_REQUEST, NOT_HELD, OVER_CAPITAL, REFUSALS, Answer, Fault, Reason,
    Reply,
)

# By the first word of the answer to a request.
TOLD = {"granted": Answer.GRANTED, "wait": Answer.NOT_NOW, "over": Answer.OVER_CLAIM}


def find() -> str:
    """Returns the program `parbegin`."""
    found = os.environ.get("PARBEGIN") or shutil.which("parbegin")
    if not found:
        raise Fault("there is neither libparbegin.so nor a program parbegin")
    return found


def call(words: Sequence[str], given: bytes) -> Reply:
    """Calls the program with these words and this input."""
    program = find()
    try:
        ran = subprocess.run([program, *words], input=given, stdout=subprocess.PIPE, stderr=subprocess.DEVNULL, check=False)
    except OSError as fault:
        raise Fault(f"{program} could not be started: {fault.strerror}") from fault
    return Reply(ran.returncode, ran.stdout.decode(errors="replace"))


def are_too_large(amounts: Sequence[int]) -> bool:
    """Returns whether one of the amounts is more than any bank has."""
    return max(amounts, default=0) > MAX_AMOUNT


def behind(word: str, words: Sequence[str]) -> int:
    """Returns the number that stands behind a word."""
    return int(words[words.index(word) + 1])


class ProgramBank:
    """A bank in the program `parbegin`, asked by its command `bank`. Resource r is named `r`, and the job p `p`."""

    def __init__(self, program: str, capital: Sequence[int]) -> None:
        if not 1 <= len(capital) <= MAX_RESOURCES or are_too_large(capital):
            raise Fault(NO_BANK)
        self.resources = len(capital)
        self.jobs: set[int] = set()
        self.pipes = Pipes(program)
        # (else the pipes of a bank that nobody has any more would stay open as long as its program has not ended)
        weakref.finalize(self, self.pipes.close)
        try:
            for resource, amount in enumerate(capital):
                self.say(f"resource {resource} {amount}")
        except BaseException:
            self.pipes.close()
            raise

    def say(self, command: str) -> list[list[str]]:
        """Sends a command, and returns the words of each line of its answer. Raises Fault if it is refused."""
        lines = self.pipes.say(command)
        words = [line.split() for line in lines]
        if words and words[0][:1] == ["refused"]:
            raise Fault(REFUSALS.get("".join(words[0][1:2]), f"the program of the bank says: {lines[0]}"))
        return words

    def pairs(self, amounts: Sequence[int]) -> str:
        """Returns the amounts as commands name them; one that is too large is the largest that they take."""
        if len(amounts) != self.resources:
            raise Fault(NO_REQUEST)
        return ", ".join(f"{min(amount, MAX_AMOUNT)} {resource}" for resource, amount in enumerate(amounts))

    def request(self, job: int, amounts: Sequence[int]) -> str:
        """Returns a job and amounts as commands name them."""
        if job not in self.jobs:
            raise Fault(NO_REQUEST)
        return f"{job} {self.pairs(amounts)}"

    def join(self, claims: Sequence[int]) -> int:
        claimed = self.pairs(claims)
        if are_too_large(claims):
            raise Fault(OVER_CAPITAL)
        free = next((slot for slot in range(MAX_JOBS) if slot not in self.jobs), None)
        if free is None:
            # (as the library, which looks at the claims first)
            raise Fault(OVER_CAPITAL if any(map(int.__gt__, claims, self.row("capital", None))) else FULL)
        self.say(f"job {free} {claimed}")
        self.jobs.add(free)
        return free

    def leave(self, job: int) -> None:
        if job not in self.jobs:
            raise Fault(NO_REQUEST)
        self.say(f"leave {job}")
        self.jobs.remove(job)

    def ask(self, job: int, amounts: Sequence[int]) -> Answer:
        request = self.request(job, amounts)
        if are_too_large(amounts):
            return Answer.OVER_CLAIM
        said = self.say(f"ask {request}")
        answer = TOLD.get("".join(said[0][:1])) if said else None
        if answer is None:
            raise self.pipes.refuse(f"{said} to ask {request}")
        return answer

    def give(self, job: int, amounts: Sequence[int]) -> None:
        request = self.request(job, amounts)
        if are_too_large(amounts):
            raise Fault(NOT_HELD)
        self.say(f"give {request}")

    def drop_all(self, job: int) -> None:
        self.give(job, self.row("loans", job))

    def order(self) -> list[int]:
        return [int(word) for word in self.say("order")[0][1:]]

    def why(self, job: int, amounts: Sequence[int]) -> Reason:
        request = self.request(job, amounts)
        said = self.say(f"why {request}")
        reason = self.reason(said[0] if said else [], request)
        large = next((resource for resource, amount in enumerate(amounts) if amount > MAX_AMOUNT), None)
        if large is None or reason.kind == "over claim" and reason.resource is not None and reason.resource < large:
            return reason
        return Reason("over claim", large)

    def reason(self, said: list[str], request: str) -> Reason:
        """Returns the reason that the words of a line say."""
        if said[:1] == ["allowed"]:
            return Reason("allowed")
        if said[:2] == ["wait", "rest"]:
            return Reason("rest", None, tuple(map(int, said[2:])))
        if said[:2] == ["wait", "cash"]:
            return Reason("over cash", behind("cash", said))
        if said[:2] == ["over", "claim"]:
            return Reason("over claim", behind("claim", said))
        raise self.pipes.refuse(f"{said} to why {request}")

    def row(self, name: str, job: int | None) -> list[int]:
        """Reads the state: `resource R capital K cash K` and `job J R claim K holds K needs K`."""
        lines = self.say("state")
        if job is None:
            return [behind(name, line) for line in lines if line[0] == "resource"]
        named = {"claims": "claim", "loans": "holds"}[name]
        return [behind(named, line) for line in lines if line[:2] == ["job", str(job)]]

    def loans_of(self, jobs: Iterable[int]) -> dict[int, list[int]]:
        loans: dict[int, list[int]] = {job: [] for job in jobs}
        for line in self.say("state"):
            if line[0] == "job" and int(line[1]) in loans:
                loans[int(line[1])].append(behind("holds", line))
        return loans

    def has_job(self, job: int) -> bool:
        return job in self.jobs

    def check(self) -> None:
        self.pipes.check()

    def settle(self) -> None:
        self.pipes.catch_up()
        self.jobs = {int(line[1]) for line in self.say("state") if line[0] == "job"}

    def kill(self) -> None:
        self.pipes.kill()

    def close(self) -> None:
        self.pipes.close()

    def leave_to_parent(self) -> None:
        self.pipes.leave()
