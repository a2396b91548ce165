"""Which words of a call name files, and what the files hold."""
from __future__ import annotations

import os
import re
import stat
import subprocess
import sys
import tempfile
from collections.abc import Sequence
from typing import BinaryIO, NamedTuple

from script.places import DEVICE, say, shown

# Commands whose words are never files.
NO_FILES = ("explain", "help")
# Commands that read one text, an object, and a text with picks, but for those that read an object with picks too.
OF_TEXTS = ("run", "claims", "plan", "emit", "record", "outcomes")
OF_OBJECTS = ("exec", "migrate")
OF_PICKS = ("replay", "draw")
# Options of the program that have no value.
WITHOUT_VALUE = ("--quiet", "--json", "--help", "--live", "--first-deadlock", "--prints", "--fair", "--expect", "--any-order", "--endless", "--graph")
# Commands that an editor starts, and what its messages begin with.
OF_MESSAGES = ("dap", "findings", "lsp")
MESSAGE = b"Content-Length:"
# What each command waits for at a terminal; any other waits for a text.
AWAITED = {
    "check": "texts, with lines %% between them", "plan": "a text, or several with lines %% between them", "exec": "an object", "migrate": "an object",
    "replay": "a text, a line %% and pick lines", "draw": "a text, a line %% and pick lines",
    "debug": "a text, a line %%, pick lines, a line %% and commands", "states": "a text or an object, a line %% and pick lines",
    "bank": "commands, which `help` lists", "dap": "messages of the Debug Adapter Protocol",
    "lsp": "messages of the Language Server Protocol", "findings": "messages, of each file its name and its bytes",
}
PICK = re.compile(rb"[A-Za-z]\w*\.\d+ \d+$")
# A file of which the kind is looked for is read up to here: the longest input of the program.
MOST_READ = 4_194_304


class Words(NamedTuple):
    """The words of a call: those that name files, in order, and the others."""

    named: list[str]
    others: list[str]

    @property
    def missing(self) -> list[str]:
        """Returns the names for which there is no file."""
        return [name for name in self.named if not os.path.exists(name)]


def takes_value(start: list[str], command: str, option: str) -> bool:
    """Returns whether the option of a command has a value after it, as the program's help says."""
    plain = [word for word in start if word != "--json"]
    ran = subprocess.run([*plain, command, "--help"], stdin=subprocess.DEVNULL, capture_output=True, check=False)
    return re.search(rf"{re.escape(option)}[ =]<", ran.stdout.decode(errors="replace")) is not None


def sort_words(start: list[str], command: str, words: list[str]) -> Words:
    """Says of each word whether it names a file. What is after an option that has a value is that value."""
    sorted_words = Words([], [])
    for before, word in zip(["", *words], words):
        follows = before.startswith("--") and "=" not in before
        is_other = word.startswith("-") or follows and (word.isdigit() or takes_value(start, command, before))
        (sorted_words.others if is_other else sorted_words.named).append(word)
    return sorted_words


def named_unasked(command: str, words: list[str]) -> list[str]:
    """Returns the words of a call that name files, as far as that is known without the program's help."""
    if command in NO_FILES:
        return []
    behind = words[words.index(command) + 1 :]
    values = [before.startswith("--") and "=" not in before and before not in WITHOUT_VALUE for before in ["", *behind]]
    return [word for word, is_value in zip(behind, values) if not word.startswith("-") and not is_value]


def tell_too_many(command: str, names: list[str], words: Sequence[str] = ()) -> None:
    """Says that a command reads one file, and not these."""
    several = "; `check --format json` tells of several" if command == "check" else ""
    if "--expect" in words:
        several = ": a text, a line %%, and the lines that are wanted; `grade FOLDER EXERCISE` judges texts by a file of lines"
    say(f"{command} reads one file, and here are {len(names)}: {', '.join(map(shown, names))}{several}")


def tell_missing(name: str) -> None:
    """Says that there is no such file."""
    say(f"no such file: {shown(name)}")


def reason_of(fault: OSError) -> str:
    """Returns why a file can't be read."""
    return "no such file" if isinstance(fault, FileNotFoundError) else fault.strerror or str(fault)


def tell_not_read(name: str, fault: OSError) -> None:
    """Says why a file can't be read."""
    if isinstance(fault, FileNotFoundError):
        tell_missing(name)
    else:
        say(f"{shown(name)}: {reason_of(fault)}")


def opened(name: str) -> BinaryIO | None:
    """Opens a file to read, or says why it can't be."""
    try:
        return open(name, "rb")
    except OSError as fault:
        tell_not_read(name, fault)
    return None


def can_be_opened(name: str) -> bool:
    """Returns whether a file can be opened to read, and says why if not."""
    file = opened(name)
    if file is not None:
        file.close()
    return file is not None


def give_file(name: str) -> None:
    """Makes a file the standard input, or ends the script."""
    file = opened(name)
    if file is None:
        sys.exit(DEVICE)
    with file:
        os.dup2(file.fileno(), 0)


def tell_what_it_awaits(command: str) -> None:
    """Says what is to be typed, if standard input is a terminal."""
    if os.isatty(0):
        say(f"waiting at the terminal for {AWAITED.get(command, 'a text')}. Ctrl-D at the start of a line ends it")


def read_input() -> bytes:
    """Returns what standard input has, or ends the script if it cannot be read."""
    try:
        with open(0, "rb", closefd=False) as file:
            return file.read(MOST_READ + 1)
    except OSError as fault:
        say(f"standard input: {fault.strerror}")
        sys.exit(DEVICE)


def joined(inputs: list[bytes]) -> bytes:
    """Returns inputs with lines `%%` between them."""
    *others, last = inputs
    return b"".join(it + (b"%%\n" if not it or it.endswith(b"\n") else b"\n%%\n") for it in others) + last


def give_together(names: list[str]) -> list[int]:
    """Makes several files, with lines `%%` between them, the standard input, or ends the script. Returns how many texts each
    has."""
    inputs = []
    for name in names:
        file = opened(name)
        if file is None:
            sys.exit(DEVICE)
        with file:
            inputs.append(file.read(MOST_READ + 1))
    with tempfile.TemporaryFile() as whole:
        whole.write(joined(inputs))
        whole.seek(0)
        os.dup2(whole.fileno(), 0)
    return [len(parts_of(given)) for given in inputs]


def tell_numbers(names: list[str], counts: list[int]) -> None:
    """Says which file each text is, or which of the texts of a file that has several."""
    texts = []
    for name, count in zip(names, counts):
        texts += [shown(name)] if count == 1 else [f"text {part} of {shown(name)}" for part in range(1, count + 1)]
    say(", ".join(f"text {number} is {text}" for number, text in enumerate(texts, 1)))


def parts_of(given: bytes) -> list[bytes]:
    """Returns the parts of an input between its lines `%%`."""
    return re.split(rb"^%%(?:\n|\Z)", given, flags=re.M)


def is_object(given: bytes) -> bool:
    """Returns whether this is no text but an object."""
    return given.startswith(b"PBO ")


def has_picks(parts: list[bytes]) -> bool:
    """Returns whether the second part is pick lines."""
    return all(PICK.match(line) for line in parts[1].splitlines())


def advice_on_prints(name: str, parts: list[bytes]) -> str | None:
    """Returns what is missing for `outcomes --expect`."""
    if len(parts) > 1:
        return None
    return f"{name} has no line %% with the prints that are expected after it: so none are"


def advice(command: str, words: list[str], name: str, given: bytes) -> str | None:
    """Returns which command reads this, if this one can't, or what is missing."""
    parts = parts_of(given)
    if len(parts) == 1 and b"\n%%\r" in given:
        return f"the lines of {name} end with a carriage return, the line %% too: save it with the line ends of Unix: a line feed alone"
    if command == "outcomes" and "--expect" in words:
        return advice_on_prints(name, parts)
    if is_object(given) and command in (*OF_TEXTS, *OF_PICKS, "check"):
        if len(parts) > 1:
            return f"{name} is an object with picks: debug and states read it"
        return f"{name} is an object: exec runs it, and debug and migrate read it"
    if command in OF_TEXTS and len(parts) > 1 and has_picks(parts):
        return f"{name} has picks after a line %%: replay makes them, and debug and draw read them"
    if command in OF_TEXTS and command != "plan" and len(parts) > 1:
        return f"{name} has several texts, between lines %%: check reads these, and {command} one text"
    if command in OF_MESSAGES and given.strip() and not given.startswith(MESSAGE):
        return f"{name} holds no messages: an editor starts {command} and writes them; extras/README.md says how"
    if command in OF_PICKS and len(parts) == 1:
        return f"{name} has no line %% with picks after it: record writes a text with those of a run"
    if command in OF_OBJECTS and not is_object(given) and given.strip():
        return f"{name} is no object, which begins with PBO: run runs a text, and emit writes its object"
    return None


def advise(command: str, words: list[str], name: str | None) -> None:
    """Says which command reads a file or standard input, if this one can't, or what is missing. Nothing is taken from it."""
    try:
        if name is None and not stat.S_ISREG(os.fstat(0).st_mode):
            return
        # (a read at a place leaves a file where it is)
        file = os.open(name, os.O_RDONLY | os.O_NONBLOCK) if name else 0
        given = os.pread(file, MOST_READ + 1, 0)
        if file:
            os.close(file)
    except OSError:
        return
    told = advice(command, words, shown(name or "the input"), given)
    if told:
        say(told)
