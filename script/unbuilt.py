"""Help, and words that are no command, where no tool is built yet: so that nothing is proved for them."""
from __future__ import annotations

import os
import re
import textwrap
from collections.abc import Iterator

from script.helping import VERSION, asks_for_help, command_of_help, help_on_words
from script.places import TOP, WORDS, say, shown
from script.standard import write
from script.tools import COMMANDS

MANUAL = f"{TOP}/docs/parbegin.1"
WIDTH = 100
# A request of the manual page whose words have two letters in turn, and one whose words have one.
LETTERS = re.compile(r"\.(?:B|I|BI|BR|RB|RI|IR) (.*)")
HEAD = "No tool is built yet, so this is of the manual page. `./parbegin --unproved {}` compiles what says more.\n\n"


def plain(line: str) -> str:
    """Returns a line of the manual page without what says how it is set."""
    found = LETTERS.fullmatch(line)
    # (words in quotation marks, and those after them, stand together)
    words = re.sub(r'"([^"]*)" ?', r"\1", found[1]) if found else line
    return re.sub(" +", " ", words.replace("\\-", "-").replace("\\&", ""))


def joined(lines: list[str]) -> str:
    """Returns lines of the manual page as one."""
    return re.sub(r" ([.,;])(?= |\Z)", r"\1", " ".join(map(plain, lines)))


def sections() -> dict[str, list[str]]:
    """Returns the lines of the manual page about each command."""
    with open(MANUAL, encoding="utf-8") as file:
        part = file.read().partition("\n.SH COMMANDS\n")[2].partition("\n.SH ")[0]
    found = {}
    for section in re.split(r"^\.SS ", part, flags=re.M)[1:]:
        name, *lines = section.splitlines()
        found[name] = lines
    return found


def meaning(lines: list[str]) -> str:
    """Returns what a command does."""
    before = lines[: lines.index(".TP")] if ".TP" in lines else lines
    return joined(before)


def options(lines: list[str]) -> Iterator[str]:
    """Yields the options of a command, each with what it means."""
    for option in "\n".join(lines).split("\n.TP\n")[1:]:
        name, *told = option.splitlines()
        yield f"  {plain(name)}\n{textwrap.indent(textwrap.fill(joined(told), WIDTH - 6), '      ')}\n"


def show_unbuilt(words: list[str]) -> int:
    """Writes the help that the manual page has, and returns the status."""
    on_words = help_on_words(words)
    if on_words:
        return write(on_words)
    if words[0] in VERSION:
        say("no tool is built yet, and each says its version: ./parbegin --unproved --version")
        return 0
    command, commands = command_of_help(words), sections()
    if command in commands:
        told = textwrap.fill(f"parbegin {command}: {meaning(commands[command])}", WIDTH)
        return write(HEAD.format(f"{command} --help") + told + "\n\n" + "".join(options(commands[command])))
    rows = [f"  {name:9} {meaning(lines).partition('. ')[0].rstrip('.')}" for name, lines in commands.items()]
    rows = [textwrap.fill(row, WIDTH, subsequent_indent=" " * 12) for row in rows]
    return write(HEAD.format("--help") + "Usage: parbegin COMMAND [OPTIONS] [FILE]\n\nCommands:\n" + "\n".join(rows) + "\n")


def answer(words: list[str]) -> int | None:
    """Answers words that ask for help or have no command, and returns the status; nothing if they have one."""
    left = [word for word in words if word not in ("--quiet", "--json")]
    if asks_for_help(left):
        return show_unbuilt(left)
    if left and left[0] in COMMANDS:
        return None
    if left and os.path.isfile(left[0]):
        say("{0} is a file, and a command comes before it: parbegin run {0}".format(shown(left[0])))
    else:
        say(f"{f'{shown(left[0])} is no command' if left else 'a command is missing'}: parbegin --help lists the commands")
    return WORDS
