"""The tools: the programs that together answer all commands, each built of what its own commands need."""
from __future__ import annotations

import os

from script.places import TOP, is_installed

# The commands of each tool. tools.sh has the same table, and checks/quick/tools.py compares both with what the tools answer.
COMMANDS_OF = {
    "bank": ("bank",),
    "run": ("check", "claims", "emit", "exec", "explain", "migrate", "record", "replay", "run"),
    "search": ("outcomes", "plan", "states"),
    "debug": ("dap", "debug", "draw"),
    "edit": ("findings", "lsp"),
}
# All commands, as `--help` lists them by name.
COMMANDS = tuple(sorted(command for commands in COMMANDS_OF.values() for command in commands))
# What each command of the script calls.
CALLS = {
    "page": ("emit", "states"), "grade": ("outcomes", "states"), "sample": ("record", "replay"), "package": COMMANDS, "build": COMMANDS,
    "library": (), "serve": ("bank",), "hold": (), "class": ("check", "outcomes", "lsp", "debug"),
}
# Becomes the tool that has the command of its words.
FRONT = f"{TOP}/script/tools.sh"


def crate_of(tool: str) -> str:
    """Returns the crate of a tool."""
    return f"parbegin_{tool}"


def path_of(tool: str) -> str:
    """Returns the path of a tool."""
    return f"{TOP}/parbegin-{tool}" if is_installed() else f"{TOP}/crates/{crate_of(tool)}/out/{crate_of(tool)}"


def tool_of(command: str | None) -> str | None:
    """Returns the tool that has a command, if one has."""
    return next((tool for tool, commands in COMMANDS_OF.items() if command in commands), None)


def any_tool() -> str:
    """Returns a tool that is there, since each says the same of words without a command; or the one that is built soonest."""
    return next((tool for tool in COMMANDS_OF if os.path.exists(path_of(tool))), "bank")


def tools_of(commands: tuple[str, ...]) -> list[str]:
    """Returns the tools that have these commands, each once; any tool, if none is named."""
    named = {tool_of(command) for command in commands}
    return [tool for tool in COMMANDS_OF if tool in named] or [any_tool()]


def command_of(words: list[str]) -> str | None:
    """Returns the command of some words: the first that is not one of the two in front."""
    return next((word for word in words if word not in ("--quiet", "--json")), None)
