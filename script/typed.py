"""What a person types at the prompt: commands that are cut short, numbers and names, and their completion."""
from __future__ import annotations

import os
from collections.abc import Callable, Iterable

from script.manual import COMMANDS, ELSEWHERE, SHORT
from script.session import Session


class Mistake(Exception):
    """A command that can't be carried out, with the reason in words."""


def there_are(names: Iterable[str]) -> str:
    """Returns which names there are, in words."""
    listed = list(names)
    return "there are none" if not listed else f"there {'is' if len(listed) == 1 else 'are'} {', '.join(listed)}"


class Typed:
    """The names that a session has, found among the words of a command."""

    session: Session

    def full(self, line: str) -> str:
        """Returns a line with its command written out."""
        word, _, rest = line.strip().partition(" ")
        if word in COMMANDS or word in ("", "EOF"):
            return line.strip()
        found = [SHORT[word]] if word in SHORT else [it for it in COMMANDS if it.startswith(word)]
        if len(found) == 1:
            return f"{found[0]} {rest}".strip()
        if found:
            raise Mistake(f"{word} may be {' or '.join(found)}")
        like = f"`{ELSEWHERE[word]}` is what may be meant; " if word in ELSEWHERE else ""
        raise Mistake(f"no command {word}; {like}`help` lists the commands")

    def number(self, word: str, default: int | None = None) -> int:
        """Returns a number that was typed."""
        if not word and default is not None:
            return default
        if not (word.isascii() and word.isdigit()) or len(word) > 8:
            raise Mistake(f"{word} is no number" if word else "a number is missing; `help` shows where")
        return int(word)

    def process(self, word: str) -> str:
        """Returns the name of a process that was typed."""
        names = list(self.session.code.processes)
        if not word and len(names) == 1:
            return names[0]
        if word not in names:
            raise Mistake(f"{f'no process {word}' if word else 'a process is missing'}; {there_are(names)}")
        return word

    def arm(self, word: str) -> str:
        """Returns the name of an arm that was typed; a process without more is its body."""
        name, point, number = word.partition(".")
        process = self.session.code.processes[self.process(name)]
        arm = f"{process.name}.{number if point else 0}"
        if arm not in process.arms():
            last = len(process.entries) - 1
            raise Mistake(f"no arm {arm}; {process.name} has {f'the arms 0 to {last}' if last else 'only the arm 0'}")
        return arm

    def resource(self, word: str) -> str:
        """Returns the name of a resource that was typed."""
        names = self.session.code.resources
        if word not in names:
            raise Mistake(f"{f'no resource {word}' if word else 'a resource is missing'}; {there_are(names)}")
        return word

    def integer(self, process: str, word: str) -> str:
        """Returns the name of an integer that was typed."""
        names = self.session.code.processes[process].integers
        if word not in names:
            raise Mistake(f"{f'no integer {word} in {process}' if word else 'an integer is missing'}; {there_are(names)}")
        return word


class Completion(Typed):
    """Completion of commands, and of what may follow each."""

    def completenames(self, text: str, *_: object) -> list[str]:
        """Completes a command."""
        return [f"{it} " for it in COMMANDS if it.startswith(text)]

    def completedefault(self, text: str, line: str, *_: object) -> list[str]:
        """Completes what follows a command."""
        try:
            words = self.full(line).split()
        except Mistake:
            return []
        before = len(words) - (1 if text else 0)
        makers: dict[str, Callable[[], Iterable[str]]] = {
            "P": lambda: self.session.code.processes,
            "P.a": lambda: [it for process in self.session.code.processes.values() for it in process.arms()],
            "X": lambda: self.session.code.processes[words[1]].integers if words[1] in self.session.code.processes else [],
            "R": lambda: self.session.code.resources, "COMMAND": lambda: COMMANDS,
            "FILE": lambda: [f"{it}/" if os.path.isdir(it) else it for it in os.listdir()],
        }
        form = COMMANDS[words[0]].form.replace("[", "").replace("]", "").split()
        if before >= len(form) or form[before] not in makers:
            return []
        return [it for it in makers[form[before]]() if it.startswith(text)]

    complete_help = completedefault
