"""Commands that the script has and the program does not: each is carried out by calls of the program."""
from __future__ import annotations

import importlib
from typing import NamedTuple

from script.helping import HELPFUL
from script.options import WrongWords, tell_wrong
from script.program import program
from script.standard import write
from script.tools import CALLS

# The module of each. It has its USE, its HELP, and `call`, which returns the status.
MODULES = {"class": "teaching.teach", "grade": "grading", "page": "pages", "sample": "sampling", "serve": "serving.serve"}
BEFORE = ("--quiet", "--json", "help")


class Own(NamedTuple):
    """A call of such a command: the command, the words before it that say how, and the words after it."""

    command: str
    before: list[str]
    words: list[str]


def own_call(words: list[str]) -> Own | None:
    """Returns the call of a command of the script, if the words are one."""
    at = next((at for at, word in enumerate(words) if word not in BEFORE), len(words))
    if at == len(words) or words[at] not in MODULES or words[:at].count("help") > 1:
        return None
    # (these may stand after the command too)
    behind = [word for word in words[at + 1 :] if word in BEFORE[:2]]
    return Own(words[at], words[:at] + behind, [word for word in words[at + 1 :] if word not in BEFORE[:2]])


def run_own(it: Own) -> int:
    """Carries out a command of the script by calls of the program, and returns the status. Help needs no program."""
    module = importlib.import_module(f"script.{MODULES[it.command]}")
    if "help" in it.before or any(word in HELPFUL for word in it.words):
        return write(module.HELP)
    try:
        for word in {*it.before}:
            if it.before.count(word) > 1:
                raise WrongWords(f"the argument '{word}' cannot be used multiple times")
        if "--json" in it.before:
            raise WrongWords(f"{it.command} has no '--json'")
        return module.call([program(*CALLS[it.command]), *it.before], it.words)
    except WrongWords as wrong:
        return tell_wrong(wrong, module.USE)
