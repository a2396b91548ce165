"""What is said at a terminal after a run: in which line a process faulted, or which processes had not ended."""
from __future__ import annotations

import subprocess
from contextlib import suppress

from script import files
from script.code import read_code
from script.helping import ran_on
from script.picks import Picks
from script.places import DEVICE, FAULT, LIMIT, say
from script.session import Refused, Session


def run_at_terminal(start: list[str], command: str, options: list[str], name: str) -> int:
    """Runs a command on a file, says more of a fault or a limit, and returns the status."""
    file = files.opened(name)
    if file is None:
        return DEVICE
    with file:
        status = subprocess.run([*start, command, *options], stdin=file, check=False).returncode
    if status in (FAULT, LIMIT):
        with suppress(OSError):
            say_more(start, command, options, name, status)
    return status if status >= 0 else 128 - status


def say_more(start: list[str], command: str, options: list[str], name: str, status: int) -> None:
    """Says where processes faulted in a run of a file, or which had not ended."""
    with open(name, "rb") as file:
        given = file.read(files.MOST_READ)
    if command == "run":
        given = ran_on(start, ["record", *options], given)[1]
    say_of_picks(start, given, options if command == "replay" else [], status)


def say_of_picks(start: list[str], given: bytes, options: list[str], status: int) -> None:
    """Says where processes faulted by the picks after a text, or which had not ended."""
    # (no more than what the program has said is said of a file that was changed meanwhile, or of too many picks)
    with suppress(OSError, Refused, ValueError, IndexError):
        session = end_of(start, given, options)
        told = faults(session) if status == FAULT else unended(session)
        session.close()
        for line in told:
            say(line)


def end_of(start: list[str], given: bytes, options: list[str]) -> Session:
    """Returns a session at the end of a run."""
    text, lines = files.parts_of(given)[:2]
    text += b"" if text.endswith(b"\n") else b"\n"
    picks = Picks(lines.decode().splitlines())
    session = Session(start, text, read_code(ran_on(start, ["emit"], text)[1].decode()), picks, options)
    session.go(picks.total)
    return session


def faults(session: Session) -> list[str]:
    """Returns where each process faulted that did: `p.2 faulted in line 3: 7 div 0`."""
    answers = [session.ask(f"fault {name}") for name in session.code.processes]
    told = [answer.split(" ", 3) for answer in answers if answer != "no fault"]
    return [f"{arm} faulted{'' if line == 'none' else f' in line {line}'}: {formula}" for arm, _, line, formula in told]


def unended(session: Session) -> list[str]:
    """Returns which processes have neither ended nor faulted: `not ended: p, q`; nothing if all have."""
    places = {name: session.places(name)[f"{name}.0"] for name in session.code.processes}
    names = [name for name, place in places.items() if place not in ("ended", "faulted")]
    return [f"not ended: {', '.join(names)}"] if names else []
