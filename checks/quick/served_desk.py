#!/usr/bin/env python3
"""Gives drawn histories to the desk of a served bank, and compares what it answers with a model of it.

    checks/quick/served_desk.py [PROGRAM [HISTORIES]]     PROGRAM is the one that ./parbegin has built if none is given

Sessions join jobs, ask, wait, use jobs of one another, say what is of others, repeat requests and end. Each answer and each
notice has to be that of the model, which is written from docs/SERVING.md over a model of the bank; and the same if the entries
are replayed, and from each snapshot on. Its status is 0 if all is as wanted, and 1 if not.
"""
from __future__ import annotations

import pathlib
import random
import sys
from contextlib import suppress

sys.path.insert(0, str(pathlib.Path(__file__).resolve().parents[1] / "lib"))

from calls import Tally, program  # noqa: E402
from desk_model import DeskModel  # noqa: E402
from served_bank import CAPITAL, drawn_amounts, drawn_commands  # noqa: E402

from script.serving.bank import BankProcess  # noqa: E402
from script.serving.desk import Desk, Diverged  # noqa: E402
from script.serving.sessions import Done  # noqa: E402
from script.serving.snapshots import restored, snapshot  # noqa: E402

HISTORIES, COMMANDS, SESSIONS, MOST_COPIES = 6, 400, (1, 2, 3, 4), 4
# What the drawn commands are not, in shares of them.
USES, REPETITIONS, SNAPSHOTS, ENDS, CAPITALS, CLAIMS, GIVES, DROPS = 0.15, 0.05, 0.02, 0.01, 0.03, 0.05, 0.3, 0.1
# Who says a command: who uses the job, or anybody; else its owner.
BY_USER, BY_ANYBODY = 0.4, 0.1
# Refusals that have to be among what was drawn.
REFUSALS = ("S3", "S4", "S5", "S6", "S12", "S13")


def new_desk() -> Desk:
    """Returns a desk over a bank of its own."""
    return Desk(BankProcess([program(["bank"]), "bank"]))


def seen(desk: Desk) -> tuple[object, ...]:
    """Returns all that later answers of a desk depend on."""
    bank = desk.bank.say("state"), desk.bank.say("order")
    of_desk = desk.sessions, desk.owners, desk.wishes, desk.slots, desk.had_job, desk.declared, desk.digest, desk.marks, desk.counts
    return *bank, *of_desk


class History:
    """Entries that are drawn, with what a desk answered to each, and desks that were made of snapshots on the way."""

    def __init__(self, seed: int, tally: Tally) -> None:
        self.rng, self.tally, self.desk, self.model = random.Random(seed), tally, new_desk(), DeskModel(CAPITAL)
        self.entries: list[str] = []
        self.done: list[Done] = []
        self.copies: list[tuple[int, Desk]] = []
        self.numbers = dict.fromkeys(SESSIONS, 0)
        self.sent: dict[int, list[str]] = {sid: [] for sid in SESSIONS}
        for name, amount in CAPITAL.items():
            self.apply(f"A resource {name} {amount}", [])

    def apply(self, entry: str, wanted: list[str]) -> None:
        """Gives an entry to the desk, and compares answer and notices with those of the model."""
        done = self.desk.apply(entry)
        told = [(it.session, it.number, it.line) for it in done.notices]
        self.tally.expect(done.answer == wanted, entry, "is answered", done.answer, "and not", wanted)
        self.tally.expect(told == self.model.told, entry, "tells", told, "and not", self.model.told)
        self.model.told = []
        self.entries.append(entry)
        self.done.append(done)

    def say(self, sid: int, line: str, is_operator: bool = False) -> None:
        """Says a line of a session, which begins if it is not there."""
        if sid not in self.desk.sessions:
            self.numbers[sid] = 0
            self.sent[sid] = []
            self.model.begin(sid, f"key{sid}")
            self.apply(f"O {sid} key{sid} 60", [f"session {sid} key{sid} 60"])
        self.numbers[sid] += 1
        entry = f"{'P' if is_operator else 'C'} {sid} {self.numbers[sid]} {line}"
        self.sent[sid].append(entry)
        self.apply(entry, self.model.say(sid, self.numbers[sid], line, is_operator))

    def draw(self) -> None:
        """Draws a history."""
        for line in drawn_commands(self.rng, COMMANDS):
            self.say(self.drawn_session(line.split(" ")[1]), line)
            for share, step in (
                (USES, self.draw_use), (REPETITIONS, self.repeat), (SNAPSHOTS, self.copy), (ENDS, self.end),
                (CAPITALS, self.draw_capital), (CLAIMS, self.draw_claim), (GIVES, self.draw_give), (DROPS, self.draw_drop),
            ):
                if self.rng.random() < share:
                    step()

    def drawn_session(self, job: str) -> int:
        """Returns a session that says something of a job."""
        owner, drawn = self.desk.owners.get(job), self.rng.random()
        users = [sid for sid, it in self.desk.sessions.items() if job in it.shares and sid != owner]
        if users and drawn < BY_USER:
            return self.rng.choice(users)
        return owner if owner and drawn > BY_USER + BY_ANYBODY else self.rng.choice(SESSIONS)

    def draw_give(self) -> None:
        """Gives back what a job holds, whoever got it."""
        rows = [line.split(" ") for line in self.desk.bank.say("state") if line.startswith("job ")]
        held = [(row[1], f"{self.rng.randint(1, int(row[6]))} {row[2]}") for row in rows if row[6] != "0"]
        if held:
            job, amounts = self.rng.choice(held)
            self.say(self.drawn_session(job), f"give {job} {amounts}")

    def draw_drop(self) -> None:
        """Takes a wish back, in half of the cases one of another session that uses the job."""
        if self.desk.wishes:
            job, (wishing, _) = self.rng.choice(list(self.desk.wishes.items()))
            others = [sid for sid, it in self.desk.sessions.items() if job in it.shares and sid != wishing]
            is_of_others = others and self.rng.random() < 0.5
            self.say(self.rng.choice(others) if is_of_others else self.drawn_session(job), f"drop {job}")

    def draw_use(self) -> None:
        """Lets a session use a job, mostly by the right key."""
        if self.desk.owners:
            job, owner = self.rng.choice(list(self.desk.owners.items()))
            key = f"key{owner if self.rng.random() < 0.9 else owner + 1}"
            self.say(self.rng.choice(SESSIONS), f"use {job if self.rng.random() < 0.95 else 'none'} {key}")

    def draw_capital(self) -> None:
        """Changes the capital, mostly as an operator."""
        name = self.rng.choice(list(CAPITAL))
        self.say(self.rng.choice(SESSIONS), f"capital {name} {self.rng.randint(0, CAPITAL[name] + 2)}", self.rng.random() < 0.8)

    def draw_claim(self) -> None:
        """Changes a claim, or tries to, of whatever session the job is."""
        if self.desk.owners:
            self.say(self.rng.choice(SESSIONS), f"claim {self.rng.choice(list(self.desk.owners))} {drawn_amounts(self.rng)}")

    def repeat(self) -> None:
        """Sends a request once more: nothing may change."""
        sid = self.rng.choice(SESSIONS)
        if sid in self.desk.sessions and self.sent[sid]:
            entry, before = self.rng.choice(self.sent[sid]), self.desk.bank.say("state")
            kind, _, number, line = entry.split(" ", 3)
            self.apply(entry, self.model.say(sid, int(number), line, kind == "P"))
            self.tally.expect(self.desk.bank.say("state") == before, "a repetition changes the bank:", entry)

    def copy(self) -> None:
        """Makes a desk of a snapshot."""
        if len(self.copies) < MOST_COPIES:
            self.copies.append((len(self.entries), restored(new_desk().bank, snapshot(self.desk))))

    def end(self) -> None:
        """Ends a session."""
        sid = self.rng.choice(SESSIONS)
        self.apply(f"E {sid}", self.model.end(sid))

    def compare_shares(self) -> None:
        """Compares what the sessions got for each job with what the bank has lent to it."""
        rows = [line.split(" ") for line in self.desk.bank.say("state") if line.startswith("job ")]
        for _, job, resource, _, _, _, holds, *_ in rows:
            got = sum(it.shares.get(job, {}).get(resource, 0) for it in self.desk.sessions.values())
            self.tally.expect(got == int(holds), job, "holds", holds, "of", resource, "and its sessions got", got)


def try_history(tally: Tally, seed: int) -> set[str]:
    """Draws a history, and compares the desk with one that replays it, and with those that were made of snapshots.

    Returns the codes of what was refused.
    """
    it = History(seed, tally)
    it.draw()
    it.compare_shares()
    tally.expect(len(it.copies) > 0, "no snapshot was taken")
    for at, copy in [(0, new_desk()), *it.copies]:
        later = [copy.apply(entry) for entry in it.entries[at:]]
        tally.expect(later == it.done[at:], "history", seed, "from entry", at, "has other answers")
        tally.expect(seen(copy) == seen(it.desk), "history", seed, "from entry", at, "leads to another desk")
        copy.bank.close()
    with suppress(Diverged):
        it.desk.apply(f"D {it.desk.newest_mark} 0")
        tally.expect(False, "a desk goes on where other answers were given")
    it.desk.bank.close()
    return {line.split(" ")[1] for done in it.done for line in done.answer if line.startswith("refused ")}


def main() -> None:
    tally, codes = Tally(), set[str]()
    for seed in range(int(sys.argv[2]) if len(sys.argv) > 2 else HISTORIES):
        codes |= try_history(tally, seed)
    tally.expect(codes >= set(REFUSALS), "no history came to", *set(REFUSALS) - codes)
    tally.end("served_desk")


if __name__ == "__main__":
    main()
