"""Amounts of resources, as commands have them: `1 tape, 2 disk`. It imports nothing, since each `hold` reads it."""
from __future__ import annotations


def spell(amounts: dict[str, int]) -> str:
    """Returns amounts as commands have them."""
    return ", ".join(f"{amount} {resource}" for resource, amount in amounts.items())


def read_amounts(text: str) -> dict[str, int]:
    """Reads `K R, ..`. Raises ValueError if the text is not that, or names a resource twice."""
    amounts: dict[str, int] = {}
    for part in text.split(","):
        words = part.split()
        if len(words) != 2 or not (words[0].isascii() and words[0].isdigit()) or words[1] in amounts:
            raise ValueError(f"'{text}' is not a list of amounts, as '1 tape, 2 disk'")
        amounts[words[1]] = int(words[0])
    return amounts
