"""The protocol as JSON: an object is read as the line that it stands for, and an answer is written as an object."""
from __future__ import annotations

import json
from collections.abc import Sequence
from typing import Any

# The fields of a request after its verb, in the order of the line; those in brackets may be missing.
FIELDS: dict[str, tuple[str, ...]] = {
    "auth": ("token",), "hello": (), "session": ("lease",), "attach": ("session", "key", "after"), "beat": (), "end": (),
    "use": ("job", "key"), "fence": (), "state": (), "help": (), "order": ("[jobs]",), "resource": ("resource", "amount"),
    "capital": ("resource", "amount"), "drop": ("job",), "leave": ("job",),
    **{verb: ("job", "amounts") for verb in ("job", "ask", "hold", "want", "give", "why", "claim")},
}
ANSWERING = ("granted", "held")


class WrongObject(Exception):
    """A line that is no request; with its number, if it has one."""

    def __init__(self, number: int) -> None:
        super().__init__()
        self.number = number


def word_of(value: object) -> str:
    """Returns a name or a number as a word of a line. Raises ValueError for anything else."""
    word = str(value)
    if isinstance(value, bool) or not isinstance(value, (str, int)) or not word or not word.isascii() or not word.isprintable():
        raise ValueError(value)
    if " " in word or "," in word:
        raise ValueError(value)
    return word


def words_of(name: str, value: Any) -> str:
    """Returns the value of a field as words of a line."""
    if name == "jobs":
        return " ".join(word_of(it) for it in value)
    if name == "amounts":
        return ", ".join(f"{word_of(amount)} {word_of(resource)}" for resource, amount in value.items())
    return word_of(value)


def number_of(given: object) -> int:
    """Returns the number of a request; 0, if it has none."""
    number = given.get("id", 0) if isinstance(given, dict) else 0
    return number if type(number) is int and 0 <= number < 10**18 else 0


def line_of(text: str) -> tuple[int, str]:
    """Returns the number of a request and its line. Raises WrongObject if the text is no request."""
    given: object = None
    try:
        given = json.loads(text)
        if not isinstance(given, dict):
            raise ValueError(text)
        fields = FIELDS[given["do"]]
        if set(given) - {"id", "do"} - {it.strip("[]") for it in fields} or given.get("id", 0) != number_of(given):
            raise ValueError(text)
        words = [words_of(it.strip("[]"), given[it.strip("[]")]) for it in fields if it[0] != "[" or it.strip("[]") in given]
        return number_of(given), " ".join([given["do"], *words])
    except (ValueError, KeyError, TypeError, AttributeError, RecursionError) as wrong:
        raise WrongObject(number_of(given)) from wrong


def amounts_of(words: Sequence[str]) -> dict[str, int]:
    """Returns `K R, ..` as an object."""
    return {words[at + 1].rstrip(","): int(words[at]) for at in range(0, len(words) - 1, 2)}


def state_of(lines: Sequence[str]) -> dict[str, Any]:
    """Returns the lines of `state` as an object."""
    rows = [line.split(" ") for line in lines]
    return {
        "resources": [{"resource": it[1], "capital": int(it[3]), "cash": int(it[5])} for it in rows if it[0] == "resource"],
        "jobs": [
            {"job": it[1], "resource": it[2], "claim": int(it[4]), "holds": int(it[6]), "needs": int(it[8])}
            for it in rows if it[0] == "job"
        ],
        "wishes": [{"job": it[1], "amounts": amounts_of(it[2:])} for it in rows if it[0] == "wish"],
    }


def one_line(line: str) -> dict[str, Any]:
    """Returns a line of an answer as fields."""
    verb, *words = line.split(" ")
    if verb == "refused":
        return {"refused": words[0], "why": " ".join(words[1:])}
    if verb == "wait" and words[0] == "rest":
        return {"wait": "rest", "jobs": words[1:]}
    if verb == "wait":
        return {"wait": "cash", "resource": words[1], "cash": int(words[2])}
    if verb == "over":
        return {"over": "claim", "resource": words[1]}
    if verb == "session":
        return {"session": int(words[0]), "key": words[1], "lease": int(words[2])}
    if verb in ("order", "claimed"):
        return {verb: words}
    if verb in ("attached", "fence"):
        return {verb: int(words[0])}
    if verb in ("twice", "missing", "left"):
        return {verb: words[0]}
    if verb == "lacks":
        return {"lacks": words[0], "resource": words[1]}
    if verb == "parbegin-serve":
        return {"version": int(words[0]), "is": words[1], **({"leader": words[2]} if words[2:] else {})}
    return {verb: True} if not words else {verb: {"job": words[0], "amounts": amounts_of(words[1:])}}


def fields_of(lines: Sequence[str]) -> dict[str, Any]:
    """Returns the lines of an answer as fields."""
    kinds = {line.split(" ")[0] for line in lines}
    if not lines:
        return {"ok": True}
    if "resource" in kinds or len(kinds) > 1 and kinds <= {"job", "wish"}:
        return state_of(lines)
    if kinds == {"granted"}:
        return {"granted": [one_line(line)["granted"] for line in lines]}
    return one_line(lines[0]) if len(lines) == 1 else {"lines": list(lines)}


def answer_of(number: int, lines: Sequence[str]) -> str:
    """Returns an answer as a line of JSON."""
    return json.dumps({**({"id": number} if number else {}), **fields_of(lines)}, separators=(",", ":"))


def notice_of(number: int, line: str) -> str:
    """Returns a notice as a line of JSON."""
    return json.dumps({"notice": number, **one_line(line)}, separators=(",", ":"))
