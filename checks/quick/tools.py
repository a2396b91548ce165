#!/usr/bin/env python3
"""Compares the table of tools with what they answer: each command is answered by exactly one tool, the one that the
table of script/tools.py names, and by the front script/tools.sh as by that one.

    checks/quick/tools.py

Its status is 0 if all is as wanted, and 1 if not.
"""
from __future__ import annotations

import re
import sys
from pathlib import Path

sys.path.insert(0, str(Path(__file__).resolve().parents[1] / "lib"))

from calls import WORDS, Tally, call  # noqa: E402
from script.tools import COMMANDS, COMMANDS_OF, FRONT, path_of, tool_of  # noqa: E402

# What a tool says of the command of another one.
ELSEWHERE = re.compile(rb"error: this command is answered by parbegin-([a-z]+)\n")


def commands_of_help(tool: str) -> list[str]:
    """Returns the commands that the help of a tool lists."""
    _, told = call(["--help"], b"", of=path_of(tool))
    listed = re.search(r"^Commands:\n((?:  .*\n)+)", told.decode(), re.M)
    named = re.findall(r"^  ([a-z]+)\b", listed[1], re.M) if listed else []
    return sorted(name for name in named if name != "help")


def try_command(tally: Tally, command: str) -> None:
    """Tries each tool on a command, with no input."""
    answers = {tool: call([command], b"", of=path_of(tool)) for tool in COMMANDS_OF}
    owner = tool_of(command)
    for tool, (status, told) in answers.items():
        elsewhere = ELSEWHERE.fullmatch(told) if status == WORDS else None
        if tool == owner:
            tally.expect(elsewhere is None, f"{tool} does not answer", command)
        else:
            named = elsewhere and elsewhere[1].decode()
            tally.expect(named == owner, f"{tool} names {named} for", command)
    tally.expect(call([command], b"", of=FRONT) == answers[owner], "the front answers otherwise", command)


def main() -> None:
    tally = Tally()
    for tool in COMMANDS_OF:
        tally.expect(commands_of_help(tool) == list(COMMANDS), f"the help of {tool} lists other commands", "")
    for command in COMMANDS:
        try_command(tally, command)
    for words in ([], ["fly"], ["--version"], ["--quiet"], ["--json", "fly"]):
        one = call(words, b"", of=FRONT)
        for tool in COMMANDS_OF:
            tally.expect(call(words, b"", of=path_of(tool)) == one, f"{tool} says something else of", words)
    tally.end("tools")


if __name__ == "__main__":
    main()
