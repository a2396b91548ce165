"""The commands of parbegin over texts."""
from __future__ import annotations

from collections.abc import Sequence

from . import _library, _program
from ._numbers import number_of
from .answers import Fault, Outcome, Reply
from .plans import Plan, read_plan

MOST_SEED, MOST_STEPS = 2**64 - 1, 10_000_000


def bytes_of(text: str | bytes) -> bytes:
    """Returns the bytes of a text. Raises TypeError for anything else."""
    if not isinstance(text, (str, bytes)):
        raise TypeError(f"a text is a str or bytes, and not {type(text).__name__}")
    return text.encode() if isinstance(text, str) else text


def word_of(given: int, most: int, what: str) -> str:
    """Returns a number as a word. Raises TypeError for what is no integer, and Fault for one that is not of its range."""
    number = number_of(given)
    if not 0 <= number <= most:
        raise Fault(f"{what} are from 0 to {most}, and not {number}")
    return str(number)


def reply(words: Sequence[str], text: str | bytes) -> Reply:
    """Does what the program does with these words and this input."""
    given = bytes_of(text)
    library = _library.COMMANDS
    return _library.call(library, words, given) if library else _program.call(words, given)


def check(text: str | bytes) -> Reply:
    """Checks a text: the status is 0 and the line `ok` if it is a program, else 1 with its refusal line."""
    return reply(["check"], text)


def claims(text: str | bytes) -> Reply:
    """Returns what each process of a text claims of each resource, as the command `claims` writes it."""
    return reply(["claims"], text)


def plan(*texts: str | bytes) -> Plan:
    """Plans texts whose processes run beside one another, also if the capital is too little for a claim.

    Raises Fault with the refusal line of the first text that is not a program, or not one together with those before it.
    """
    joined = b""
    for number, text in enumerate(map(bytes_of, texts)):
        mark = b"" if not number else b"%%\n" if not joined or joined.endswith(b"\n") else b"\n%%\n"
        joined += mark + text
    said = reply(["plan"], joined).text.splitlines()
    if len(said) < 2:
        raise Fault("".join(said))
    return read_plan(said)


def outcomes(text: str | bytes, lend: str = "banker") -> Reply:
    """Returns every outcome of a text, as the command `outcomes` writes them; `lend` is "banker" or "cash"."""
    if lend not in ("banker", "cash"):
        raise Fault(f'lend is "banker" or "cash", and not {lend!r}')
    return reply(["outcomes", f"--lend={lend}"], text)


def run(text: str | bytes, seed: int = 0, steps: int | None = None) -> Outcome:
    """Runs a text without threads, by picks that are drawn with a seed, and returns what it did.

    Raises Fault with the refusal line of a text that is not a program, and for a number that is not of its range.
    """
    limit = [] if steps is None else ["--steps", word_of(steps, MOST_STEPS, "steps")]
    recorded = reply(["record", "--seed", word_of(seed, MOST_SEED, "seeds"), *limit], text)
    if recorded.status:
        raise Fault(recorded.text.strip())
    replayed = reply(["replay"], recorded.text)
    *events, end = replayed.text.splitlines() or [""]
    return Outcome(events, end)
