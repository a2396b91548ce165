"""Where a run goes wrong, by the lines of its text: which arm faulted, and which lines the arms of a circle go round."""
from __future__ import annotations

from collections.abc import Iterable
from contextlib import suppress

from script.afterwards import end_of, faults
from script.picks import Picks
from script.program import is_built
from script.session import Refused, Session
from script.tools import tool_of

# The most picks of a circle whose lines are asked for: a longer one says little in a sentence.
MOST_ASKED = 2_000


def can_tell() -> bool:
    """Returns whether the tool is there that knows the line of a pick: no other call builds it."""
    return is_built(str(tool_of("debug")))


def session_after(start: list[str], text: bytes, picks: list[str], options: list[str]) -> Session:
    """Returns a session at the end of the picks of a text."""
    ended = text if text.endswith(b"\n") else text + b"\n"
    return end_of(start, ended + b"%%\n" + "".join(f"{line}\n" for line in picks).encode(), options)


def faults_of(start: list[str], text: bytes, picks: list[str], options: list[str]) -> list[str]:
    """Returns where each process of a run faulted that did, `p.2 faulted in line 3: 7 div 0`; nothing if that cannot be told."""
    if can_tell():
        with suppress(OSError, Refused, ValueError, IndexError):
            session = session_after(start, text, picks, options)
            told = faults(session)
            session.close()
            return told
    return []


def rounds_of(start: list[str], text: bytes, lead: list[str], around: list[str], options: list[str]) -> list[str]:
    """Returns which lines each arm goes round in a run that never ends, `p.1 goes round line 5`; nothing if that cannot be told."""
    first, total = Picks(lead).total, Picks([*lead, *around]).total
    if can_tell() and total - first <= MOST_ASKED:
        with suppress(OSError, Refused, ValueError, IndexError):
            session = session_after(start, text, [*lead, *around], options)
            lines = lines_of_arms(session, range(first, total))
            session.close()
            return [f"{arm} goes round line{'' if len(found) == 1 else 's'} {listed(found)}" for arm, found in lines.items()]
    return []


def lines_of_arms(session: Session, picks: Iterable[int]) -> dict[str, list[int]]:
    """Returns for each arm that makes some of these picks the lines at which it makes them, in order."""
    lines: dict[str, list[int]] = {}
    for pick in picks:
        session.go(pick)
        arm = session.picks.arm_of(pick)
        word, _, number = session.ask(f"line {arm}").partition(" ")
        if word == "line" and number.isdigit() and int(number) not in lines.setdefault(arm, []):
            lines[arm].append(int(number))
    return {arm: sorted(found) for arm, found in lines.items() if found}


def listed(numbers: list[int]) -> str:
    """Returns numbers in a sentence: `4`, `4 and 5`, `4, 5 and 7`."""
    *before, last = map(str, numbers)
    return f"{', '.join(before)} and {last}" if before else last
