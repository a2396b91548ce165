"""The desk: sessions, whose jobs they are, and which requests were done. It decides nothing about loans.

It is a deterministic machine over entries, which are lines of text. It has no clock, draws nothing, and reads nothing
but the entries and the answers of its bank: two desks that were given the same entries are the same. It is not proved.

    O SID KEY LEASE           a session begins
    E SID                     it ends, or its lease has ended: its jobs leave
    C SID NUMBER COMMAND      a command of a session; NUMBER is 0 if its answer is not to be kept
    P SID NUMBER COMMAND      the same of an operator, who may change the capital
    A COMMAND                 a resource that the first start declares
    D COUNT DIGEST            what all answers up to entry COUNT came to where this was written
"""
from __future__ import annotations

import hashlib

from script.serving.amounts import spell
from script.serving.bank import BankProcess
from script.serving.sessions import Amounts, Done, Notice, Session
from script.serving.words import HOLE, OF_OWNER, Command, read_command, refused

# Entries between two marks, and the marks that are kept.
BETWEEN_MARKS, MARKS = 256, 64
# Commands whose line `granted` or `held` is of the job that asks.
ASKING = ("ask", "want", "hold")


class Diverged(Exception):
    """This desk or its bank has answered otherwise than the one that wrote the entries."""


class Desk:
    """The sessions over one bank."""

    def __init__(self, bank: BankProcess) -> None:
        self.bank = bank
        self.sessions: dict[int, Session] = {}
        self.owners: dict[str, int] = {}
        # who waits for the wish of a job: the session, and its amounts
        self.wishes: dict[str, tuple[int, Amounts]] = {}
        # which job is in which slot, since `state` does not say it and `order` goes by it
        self.slots: list[str | None] = []
        self.had_job = False
        # what the first start declared, which operators may have changed since
        self.declared: Amounts = {}
        self.last_sid = 0
        self.digest = ""
        self.marks: dict[int, str] = {}
        self.newest_mark = 0
        self.counts = {"entries": 0, "repeated": 0, "granted": 0, "queued": 0, "refused": 0, "ended": 0}

    def apply(self, entry: str) -> Done:
        """Carries out an entry. The digest goes over all answers, so that two desks that differ do not go on unnoticed."""
        done = self._of_entry(entry)
        self.counts["entries"] += 1
        told = "\n".join([self.digest, *done.answer, *(notice.line for notice in done.notices)])
        self.digest = hashlib.blake2b(told.encode(), digest_size=8).hexdigest()
        if self.counts["entries"] % BETWEEN_MARKS == 0:
            self.newest_mark = self.counts["entries"]
            self.marks[self.newest_mark] = self.digest
            if len(self.marks) > MARKS:
                del self.marks[next(iter(self.marks))]
        return done

    def _of_entry(self, entry: str) -> Done:
        kind, _, rest = entry.partition(" ")
        if kind in ("C", "P"):
            sid, number, line = rest.split(" ", 2)
            return self._of_client(int(sid), int(number), line, kind == "P")
        if kind == "O":
            return self._begin(*rest.split(" "))
        if kind == "E":
            return self._end(int(rest))
        if kind == "D":
            self._compare(*rest.split(" "))
            return Done(0, 0, [], [])
        return self._declare(rest)

    def _declare(self, line: str) -> Done:
        """Declares a resource at the first start."""
        command = read_command(line)
        if command is None or command.verb != "resource":
            return Done(0, 0, [refused("S4")], [])
        answer = self.bank.say(command.line)
        if not answer:
            self.declared[command.subject] = int(command.words[2])
        return Done(0, 0, answer, [])

    def _begin(self, sid: str, key: str, lease: str) -> Done:
        self.sessions[int(sid)] = Session(key, int(lease))
        self.last_sid = max(self.last_sid, int(sid))
        return Done(int(sid), 0, [f"session {sid} {key} {lease}"], [])

    def _compare(self, count: str, digest: str) -> None:
        if self.marks.get(int(count), digest) != digest:
            raise Diverged(f"up to entry {count} of the journal other answers were given than this bank gives")

    def _of_client(self, sid: int, number: int, line: str, is_operator: bool) -> Done:
        session = self.sessions.get(sid)
        if session is None:
            return Done(sid, number, [refused("S5")], [])
        if number and number <= session.last:
            self.counts["repeated"] += 1
            return Done(sid, number, session.answers.get(number, [refused("S6")]), [], False)
        notices: list[Notice] = []
        if line.startswith("use "):
            answer = self._use(sid, session, line.split(" "))
        else:
            command = read_command(line)
            answer = self._carry_out(sid, session, command, is_operator, notices) if command else []
        if number:
            session.keep(number, answer)
        return Done(sid, number, answer, notices)

    def _use(self, sid: int, session: Session, words: list[str]) -> list[str]:
        """Carries out `use J KEY`: who knows the key of the job's session may ask within the job's claim."""
        owner = self.owners.get(words[1], 0) if len(words) == 3 else 0
        if owner not in self.sessions or self.sessions[owner].key != words[2]:
            return [refused("S5")]
        if owner != sid:
            session.shares.setdefault(words[1], {})
        return []

    def _refusal(self, sid: int, session: Session, command: Command, is_operator: bool) -> str | None:
        """Returns why a session may not send a command, if it may not."""
        verb, job = command.verb, command.subject
        if verb == "resource" or verb == "capital" and not is_operator:
            return refused("S4")
        if verb == "capital":
            return None
        if verb == "job":
            return refused("S11") if job.startswith(HOLE) else None
        owner = self.owners.get(job, sid)
        if owner != sid and (job not in session.shares or verb in OF_OWNER):
            return refused("S3")
        if verb == "drop" and job in self.wishes and self.wishes[job][0] != sid:
            return refused("S13")
        return refused("S12") if verb == "give" and self._is_of_others(session, command) else None

    def _is_of_others(self, session: Session, command: Command) -> bool:
        """Returns whether what is to be given back is there, but was got in part by other sessions for the same job."""
        if not command.are_amounts():
            return False
        job, back = command.subject, command.amounts()
        share = session.shares.get(job, {})
        if all(amount <= share.get(name, 0) for name, amount in back.items()):
            return False
        shares = [it.shares[job] for it in self.sessions.values() if job in it.shares]
        return all(amount <= sum(it.get(name, 0) for it in shares) for name, amount in back.items())

    def _carry_out(self, sid: int, session: Session, command: Command, is_operator: bool, notices: list[Notice]) -> list[str]:
        """Gives a command to the bank, keeps what follows for the sessions, and returns the answer."""
        refusal = self._refusal(sid, session, command, is_operator)
        if refusal:
            return [refusal]
        answer = self.bank.say(command.line)
        first = answer[0].partition(" ")[0] if answer else ""
        if first == "refused":
            self.counts["refused"] += 1
            return answer
        self._keep(sid, session, command, first, notices)
        if command.verb not in ASKING:
            self._tell(answer, notices)
        return answer

    def _keep(self, sid: int, session: Session, command: Command, first: str, notices: list[Notice]) -> None:
        """Keeps what a command that the bank has taken means for the sessions."""
        verb, job = command.verb, command.subject
        if verb == "job":
            self._join(sid, session, job)
        elif verb == "leave":
            self._gone(job, notices)
        elif verb == "drop":
            self.wishes.pop(job, None)
        elif verb == "give":
            session.count(job, command.amounts(), -1)
        elif first == "queued":
            self.counts["queued"] += 1
            self.wishes[job] = (sid, command.amounts())
        elif first in ("granted", "held") and verb in ASKING:
            self.counts["granted"] += first == "granted"
            session.count(job, command.amounts(), 1)

    def _join(self, sid: int, session: Session, job: str) -> None:
        self.had_job = True
        if None in self.slots:
            self.slots[self.slots.index(None)] = job
        else:
            self.slots.append(job)
        self.owners[job] = sid
        session.jobs.append(job)
        session.shares[job] = {}

    def _gone(self, job: str, notices: list[Notice]) -> None:
        """Forgets a job that has left, and makes a notice for each session that uses it."""
        self.slots[self.slots.index(job)] = None
        self.wishes.pop(job, None)
        owner = self.owners.pop(job)
        for sid, session in self.sessions.items():
            if session.shares.pop(job, None) is not None and sid != owner:
                line = f"left {job}"
                notices.append(Notice(sid, session.note(line), line))
        if owner in self.sessions:
            self.sessions[owner].jobs.remove(job)

    def _tell(self, answer: list[str], notices: list[Notice]) -> None:
        """Makes a notice of each line `granted J K R, ..`, for the session whose wish it was."""
        for line in answer:
            verb, _, rest = line.partition(" ")
            if verb != "granted":
                continue
            job = rest.partition(" ")[0]
            sid, amounts = self.wishes.pop(job)
            self.counts["granted"] += 1
            session = self.sessions.get(sid)
            if session is not None:
                session.count(job, amounts, 1)
                notices.append(Notice(sid, session.note(line), line))

    def _end(self, sid: int) -> Done:
        """Ends a session: what it got for jobs of others comes back, and its own jobs leave."""
        session = self.sessions.get(sid)
        if session is None:
            return Done(sid, 0, [refused("S5")], [])
        notices: list[Notice] = []
        self.counts["ended"] += 1
        for job in session.uses():
            if job in self.wishes and self.wishes[job][0] == sid:
                self._surely(f"drop {job}")
                self.wishes.pop(job)
            back = {name: amount for name, amount in session.shares.pop(job).items() if amount}
            if back:
                self._tell(self._surely(f"give {job} {spell(back)}"), notices)
        del self.sessions[sid]
        for job in session.jobs:
            answer = self._surely(f"leave {job}")
            self._gone(job, notices)
            self._tell(answer, notices)
        return Done(sid, 0, [], notices)

    def _surely(self, line: str) -> list[str]:
        """Gives a command to the bank that it takes, as what each session got is known."""
        answer = self.bank.say(line)
        if answer and answer[0].startswith("refused"):
            raise Diverged(f"the bank does not take {line}: {answer[0]}")
        return answer
