"""Snapshots of a desk: a line of JSON, in which the bank stands as commands that lead to it.

`state` does not say all. The slots of jobs that have left are not in it, and the next job takes the first free one, on
which `order` and `wait rest` depend; and a bank that had a job takes no more resources. So the desk keeps the slots, and
the commands put jobs into the free ones, which leave again before the first `hold`.
"""
from __future__ import annotations

import json
from collections import defaultdict

from script.serving.bank import BankProcess
from script.serving.desk import Desk
from script.serving.sessions import Session
from script.serving.words import HOLE

VERSION = 2
# What the bank answers to the commands of a snapshot.
EXPECTED = ("held", "queued")


class WrongSnapshot(Exception):
    """A snapshot does not lead to the state that it has."""


def jobs_of(slots: list[str | None], claims: dict[str, list[str]], resource: str) -> list[str]:
    """Returns the commands by which each job gets its slot, with jobs that leave again in those that are free."""
    holes = [f"{HOLE}{slot}" for slot, job in enumerate(slots) if job is None]
    nothing = [f"0 {resource}"]
    joins = [f"job {job or f'{HOLE}{slot}'} {', '.join(claims.get(job or '', nothing))}" for slot, job in enumerate(slots)]
    return joins + [f"leave {hole}" for hole in holes]


def commands_of(desk: Desk, state: list[str]) -> list[str]:
    """Returns commands that lead a fresh bank to the one of a desk."""
    resources: list[str] = []
    claims: dict[str, list[str]] = defaultdict(list)
    loans: dict[str, list[str]] = defaultdict(list)
    wishes: list[str] = []
    for line in state:
        words = line.split(" ")
        if words[0] == "resource":
            resources.append(f"resource {words[1]} {words[3]}")
        elif words[0] == "wish":
            wishes.append(f"want {line.partition(' ')[2]}")
        else:
            for rows, amount in ((claims, words[4]), (loans, words[6])):
                if amount != "0":
                    rows[words[1]].append(f"{amount} {words[2]}")
    # (a bank that had a job takes no more resources, even if all have left)
    slots = desk.slots or ([None] if desk.had_job else [])
    jobs = jobs_of(slots, claims, resources[0].split(" ")[1]) if slots else []
    return [*resources, *jobs, *(f"hold {job} {', '.join(held)}" for job, held in loans.items()), *wishes]


def snapshot(desk: Desk) -> str:
    """Returns a desk and its bank as one line of text."""
    state = desk.bank.say("state")
    body = {
        "version": VERSION, "commands": commands_of(desk, state), "state": state, "slots": desk.slots, "had_job": desk.had_job,
        "last_sid": desk.last_sid, "digest": desk.digest, "marks": desk.marks, "wishes": desk.wishes, "counts": desk.counts,
        "declared": desk.declared,
        "sessions": {sid: session.to_json() for sid, session in desk.sessions.items()},
    }
    return json.dumps(body, separators=(",", ":"))


def restored(bank: BankProcess, text: str) -> Desk:
    """Returns the desk of a snapshot, over a fresh bank. Raises WrongSnapshot if the bank's state is another."""
    body = json.loads(text)
    if body["version"] != VERSION:
        raise WrongSnapshot(f"the snapshot has version {body['version']}, and this server reads {VERSION}")
    answers = bank.say_all(body["commands"])
    told = zip(body["commands"], answers)
    wrong = [f"{line}: {answer[0]}" for line, answer in told if answer and not answer[0].startswith(EXPECTED)]
    if wrong or bank.say("state") != body["state"]:
        raise WrongSnapshot(f"the snapshot does not lead to its state: {'; '.join(wrong[:3]) or 'the state is another'}")
    desk = Desk(bank)
    desk.sessions = {int(sid): Session.from_json(session) for sid, session in body["sessions"].items()}
    desk.owners = {job: sid for sid, session in desk.sessions.items() for job in session.jobs}
    desk.wishes = {job: (sid, amounts) for job, (sid, amounts) in body["wishes"].items()}
    desk.slots, desk.had_job, desk.declared = body["slots"], body["had_job"], body["declared"]
    desk.last_sid, desk.counts, desk.digest = body["last_sid"], body["counts"], body["digest"]
    desk.marks = {int(count): digest for count, digest in body["marks"].items()}
    desk.newest_mark = max(desk.marks, default=0)
    return desk
