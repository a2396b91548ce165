"""Where the files are, the statuses that the script ends with, and how it says something."""
from __future__ import annotations

import os
import re
import sys
from contextlib import suppress
from typing import NoReturn

# The top of a checkout; or PREFIX/libexec/parbegin, where install.sh puts this folder beside the tools.
TOP = os.path.dirname(os.path.dirname(os.path.realpath(__file__)))
# The program's statuses of a refused input, of refused words, of a limit, of a fault, of a failed read or write, of a
# deadlock, and of a run that is not as expected; the script's of no program.
REFUSED, WORDS, LIMIT, FAULT, DEVICE, DEADLOCK, UNEXPECTED, NO_PROGRAM = 1, 2, 3, 4, 6, 9, 10, 8


def shown(name: str) -> str:
    """Returns the name of a file with its control characters escaped, as `\\n` and `\\x1b`, so that it stays in its line."""
    return re.sub(r"[\x00-\x1f\x7f-\x9f\u2028\u2029]", lambda it: it[0].encode("unicode_escape").decode(), name)


def write_message(message: str | bytes) -> None:
    """Writes to standard error, if that takes it. If not, nothing is written there any more, and the status stays as it is."""
    if sys.stderr is None:
        return
    try:
        given = message if isinstance(message, bytes) else message.encode(sys.stderr.encoding, "backslashreplace")
        sys.stderr.flush()
        sys.stderr.buffer.write(given)
        sys.stderr.buffer.flush()
    except (OSError, ValueError):
        # (what could not be written would fail once more when Python ends, which then has a status of its own)
        with suppress(OSError):
            os.dup2(os.open(os.devnull, os.O_WRONLY), 2)


def say(text: object) -> None:
    """Writes a line to standard error, if that takes it."""
    write_message(f"parbegin: {text}\n")


def stop(text: object) -> NoReturn:
    """Says why there is no program to run, and ends the script."""
    say(text)
    sys.exit(NO_PROGRAM)


def is_installed() -> bool:
    """Returns whether the script is installed, without sources."""
    return not os.path.exists(f"{TOP}/crates.txt")
