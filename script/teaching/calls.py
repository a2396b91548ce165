"""Calls of the program: what is asked, and what it says."""
from __future__ import annotations

import json
import subprocess
from dataclasses import dataclass
from typing import Any, NamedTuple

# The program's status if memory does not suffice.
MEMORY = 5


class Call(NamedTuple):
    """The words of a call, and its input."""

    words: list[str]
    given: bytes


@dataclass(frozen=True)
class Said:
    """What the program has written, what it told on standard error, its status, and what stopped it, if something did."""

    out: bytes
    told: str
    status: int
    stopped: str = ""

    def lines(self) -> list[dict[str, Any]]:
        """Returns the objects of its JSON lines."""
        return [json.loads(it) for it in self.out.splitlines() if it.startswith(b"{")]


def call_here(start: list[str], it: Call) -> Said:
    """Makes a call, and waits for its end."""
    ran = subprocess.run([*start, *it.words], input=it.given, capture_output=True, check=False)
    return Said(ran.stdout, ran.stderr.decode(errors="replace"), ran.returncode, "memory" if ran.returncode == MEMORY else "")
