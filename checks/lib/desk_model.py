"""A model of the sessions of a served bank, written from docs/SERVING.md alone ("Lines", "Whose jobs"), over the model of a bank.

It is given what clients say, and answers with lines and notices. It knows nothing of journals, snapshots and digests.
"""
from __future__ import annotations

import re
from dataclasses import dataclass, field

from bank_model import Amounts, Model

KEPT = 64
LIST = re.compile(r"(?:0|[1-9][0-9]{0,6}) [^ ,]+(?:, (?:0|[1-9][0-9]{0,6}) [^ ,]+)*")
S3 = "refused S3 the job belongs to another session"
S4 = "refused S4 only an operator changes the capital, and resources are declared at the first start"
S5 = "refused S5 no such session, or not its key"
S6 = "refused S6 the answer to this request is no longer kept"
S11 = "refused S11 names that begin with -hole- are the server's"
S12 = "refused S12 the session itself did not get as much of it for this job"
S13 = "refused S13 the wish of the job is that of another session"


@dataclass
class Holder:
    """A session: what it got itself for each job, its own or one that it uses; its answers and how many notices it had."""

    key: str
    got: dict[str, Amounts] = field(default_factory=dict)
    answers: list[tuple[int, list[str]]] = field(default_factory=list)
    notices: int = 0


@dataclass
class Owned:
    """A job: the session that made it, those that use it, and the one whose wish waits."""

    owner: int
    users: set[int] = field(default_factory=set)
    wisher: int | None = None


def amounts_of(text: str) -> Amounts:
    """Reads `K R, ..`."""
    return {it.split(" ")[1]: int(it.split(" ")[0]) for it in text.split(", ")}


class DeskModel:
    """Sessions over a bank."""

    def __init__(self, capital: Amounts) -> None:
        self.bank = Model()
        self.sessions: dict[int, Holder] = {}
        self.jobs: dict[str, Owned] = {}
        # notices since the last look: session, number, line
        self.told: list[tuple[int, int, str]] = []
        for name, amount in capital.items():
            self.ask_bank(f"resource {name} {amount}")

    def ask_bank(self, line: str) -> list[str]:
        """Asks the bank."""
        answer = self.bank.do(line)
        assert answer is not None, line
        return answer

    def tell(self, sid: int, line: str) -> None:
        """Tells a session something, if it is there."""
        if sid in self.sessions:
            self.sessions[sid].notices += 1
            self.told.append((sid, self.sessions[sid].notices, line))

    # Sessions

    def begin(self, sid: int, key: str) -> None:
        self.sessions[sid] = Holder(key)

    def end(self, sid: int) -> list[str]:
        """Ends a session: its wishes for jobs of others are dropped, what it got for them comes back, its own jobs leave."""
        if sid not in self.sessions:
            return [S5]
        for name in list(self.sessions[sid].got):
            if self.jobs[name].owner == sid:
                continue
            job = self.jobs[name]
            job.users.discard(sid)
            if job.wisher == sid:
                job.wisher = None
                self.ask_bank(f"drop {name}")
            back = {it: amount for it, amount in self.sessions[sid].got.pop(name).items() if amount}
            if back:
                self.serve(self.ask_bank(f"give {name} " + ", ".join(f"{amount} {it}" for it, amount in back.items())))
        own = [name for name, job in self.jobs.items() if job.owner == sid]
        del self.sessions[sid]
        for name in own:
            self.leave(name)
        return []

    def leave(self, name: str) -> None:
        """Lets a job leave, and tells those that use it."""
        granted = self.ask_bank(f"leave {name}")
        job = self.jobs.pop(name)
        for sid, session in self.sessions.items():
            session.got.pop(name, None)
            if sid in job.users:
                self.tell(sid, f"left {name}")
        self.serve(granted)

    def serve(self, lines: list[str]) -> None:
        """Tells those whose wishes the bank has granted."""
        for line in lines:
            _, name, amounts = line.split(" ", 2)
            job = self.jobs[name]
            sid, job.wisher = job.wisher, None
            assert sid is not None, line
            if sid in self.sessions:
                self.add(sid, name, amounts_of(amounts))
                self.tell(sid, line)

    def add(self, sid: int, name: str, amounts: Amounts, sign: int = 1) -> None:
        """Adds to what a session got for a job."""
        got = self.sessions[sid].got.setdefault(name, {})
        for it, amount in amounts.items():
            got[it] = got.get(it, 0) + sign * amount

    # Requests

    def say(self, sid: int, number: int, line: str, is_operator: bool = False) -> list[str]:
        """Answers a request of a session, once for each number."""
        session = self.sessions.get(sid)
        if session is None:
            return [S5]
        if number and session.answers and number <= session.answers[-1][0]:
            return next((answer for other, answer in session.answers if other == number), [S6])
        answer = self.carry_out(sid, session, line, is_operator)
        if number:
            session.answers = [*session.answers, (number, answer)][-KEPT:]
        return answer

    def carry_out(self, sid: int, session: Holder, line: str, is_operator: bool) -> list[str]:
        """Answers a request for the first time."""
        verb, name, rest = (line + "  ").split(" ", 2)
        rest = rest.rstrip(" ")
        if verb == "use":
            return self.use(sid, session, name, rest)
        refusal = self.refusal(sid, verb, name, rest, is_operator)
        if refusal is not None:
            return [refusal]
        if verb == "leave" and name in self.jobs and not rest:
            before = len(self.told)
            self.leave(name)
            return [told for _, _, told in self.told[before:] if told.startswith("granted")]
        answer = self.ask_bank(line)
        if not (answer and answer[0].startswith("refused")):
            self.follow(sid, verb, name, rest, answer)
        return answer

    def follow(self, sid: int, verb: str, name: str, rest: str, answer: list[str]) -> None:
        """Notes what a command that the bank has taken means."""
        if verb in ("ask", "want", "hold"):
            if answer[0].startswith(("granted ", "held ")):
                self.add(sid, name, amounts_of(rest))
            elif answer == ["queued"]:
                self.jobs[name].wisher = sid
            return
        if verb == "job":
            self.jobs[name] = Owned(sid)
            self.sessions[sid].got[name] = {}
        elif verb == "drop":
            self.jobs[name].wisher = None
        elif verb == "give":
            self.add(sid, name, amounts_of(rest), -1)
        self.serve([it for it in answer if it.startswith("granted ")])

    def use(self, sid: int, session: Holder, name: str, key: str) -> list[str]:
        """Lets a session use a job of another one, if it has that one's key."""
        job = self.jobs.get(name)
        if job is None or self.sessions[job.owner].key != key:
            return [S5]
        if job.owner != sid:
            job.users.add(sid)
            session.got.setdefault(name, {})
        return []

    def refusal(self, sid: int, verb: str, name: str, rest: str, is_operator: bool) -> str | None:
        """Returns why a session may not say something, if it may not."""
        if verb == "resource" or verb == "capital" and not is_operator:
            return S4
        if verb == "job" and name.startswith("-hole-"):
            return S11
        job = self.jobs.get(name)
        if verb in ("job", "capital") or job is None:
            return None
        is_owner = job.owner == sid
        if not is_owner and (sid not in job.users or verb in ("leave", "claim")):
            return S3
        if verb == "drop" and job.wisher not in (None, sid):
            return S13
        if verb == "give" and LIST.fullmatch(rest) and len(amounts_of(rest)) == rest.count(",") + 1:
            held = next(it for it in self.bank.jobs() if it.name == name).holds
            back, got = amounts_of(rest), self.sessions[sid].got.get(name, {})
            is_there = all(amount <= held.get(it, 0) for it, amount in back.items())
            if is_there and any(amount > got.get(it, 0) for it, amount in back.items()):
                return S12
        return None
