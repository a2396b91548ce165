"""What a session shows beside picks: the source with its arms, the arms, integers, loans, and why an arm waits."""
from __future__ import annotations

import re
from collections.abc import Iterator

from script.session import Session

# How a line begins that says what an arm does at a source line.
AT_LINE = re.compile(r"(\S+) line (\d+): ")
# A text of more lines is shown around its arms, with so many lines before and after.
MOST_LINES, AROUND = 40, 3


def lines_of_arms(session: Session) -> dict[int, list[str]]:
    """Returns for source lines the arms that are there."""
    found: dict[int, list[str]] = {}
    lines = {at[1]: int(at[2]) for at in map(AT_LINE.match, session.listed("arms")) if at}
    for process in session.code.processes.values():
        for arm in process.arms():
            if arm in lines:
                found.setdefault(lines[arm], []).append(arm)
    return found


def listing(session: Session, text: list[str], around: int | None) -> Iterator[str]:
    """Yields the lines of the source, each with its number and the arms that are there."""
    arms = lines_of_arms(session)
    if around is not None:
        shown = range(around - 2 * AROUND, around + 2 * AROUND + 1)
    else:
        shown = range(1, len(text) + 1)
    near = {line + by for line in arms for by in range(-AROUND, AROUND + 1)}
    width, last = len(str(len(text))), 0
    for number in shown:
        if not 1 <= number <= len(text) or around is None and len(text) > MOST_LINES and number not in near:
            continue
        if last and number > last + 1:
            yield "  .."
        last = number
        here = " ".join(arms.get(number, []))
        line = f"{'>' if here else ' '} {number:{width}} {text[number - 1]}"
        yield f"{line:<60}  {here}" if here else line


def reason(answer: str) -> str:
    """Returns the answer of the program's `why` in words."""
    word, _, rest = answer.partition(" ")
    if word == "cash":
        amount, _, resource = rest.partition(" ")
        return f"only {amount} of {resource} is there"
    if word == "rest":
        return f"it is there, but if it were granted none of these could be sure to finish: {rest}"
    if word == "order":
        return f"it can be granted: all could finish, in the order {rest}"
    if word == "granted":
        return "it can be granted: all that it asks for is there"
    return "it is not asking for anything" if answer == "not asking" else answer


def arms(session: Session) -> Iterator[str]:
    """Yields for each arm that is alive what it would do, the one of the next pick with a mark, those that wait last."""
    picks = session.picks
    following = picks.arm_of(session.position) if session.position < picks.total else None
    for line in session.listed("arms"):
        yield f"{'>' if re.split('[ :]', line, maxsplit=1)[0] == following else ' '} {line}"
    for name in session.code.processes:
        if session.has_faulted(name):
            yield f"  {name} has faulted"


def integers(session: Session, process: str) -> str:
    """Returns the integers of a process in a line."""
    values = session.integers(process)
    return f"  {process}: {', '.join(f'{name} = {value}' for name, value in values.items()) or 'no integers'}"


def threads(session: Session, process: str) -> Iterator[str]:
    """Yields where each arm of a process is."""
    for arm, place in session.places(process).items():
        line = session.ask(f"line {arm}") if isinstance(place, int) else place
        yield f"  {arm}: {'at its end' if line == 'line none' else line}"


def circle(session: Session) -> Iterator[str]:
    """Yields who waits for whom in a circle, if some do."""
    for arm, resource, holder in session.circle():
        yield f"  {arm} waits for {resource}, some of which {holder} holds"


def loans(session: Session, only: str | None = None) -> Iterator[str]:
    """Yields who holds what, and the cash, of one resource or of all."""
    held, cash = session.loans()
    for process, resource, amount, claim in held:
        if only in (None, resource) and (amount or claim):
            yield f"  {process} holds {amount} of {resource}, and claims {claim}"
    for resource, amount in cash.items():
        if only in (None, resource):
            yield f"  cash: {amount} of {session.code.resources[resource]} {resource}"
