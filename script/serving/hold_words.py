"""The words of `./parbegin hold`, read without the imports that other commands have."""
from __future__ import annotations

import os

from script.serving.amounts import read_amounts

TYPE_CHECKING = False
if TYPE_CHECKING:
    from collections.abc import Iterator

USE = 'parbegin hold [OPTIONS] "K R, .." -- COMMAND ..'
HELP = """Run a command while it holds resources of a served bank, as flock(1) does with a file, and without deadlock

Usage: parbegin hold [OPTIONS] "K R, .." -- COMMAND ..

Waits until the bank lends the amounts, runs the command, and gives back whatever comes. A hold within the command of
another one is within its claim. The status is that of the command, 128 and N of one that signal N ended.

Options:
      --socket <ADDRESS>  The socket of `parbegin serve`: PATH, HOST:PORT or tls:HOST:PORT, or several with commas between
                          [default: PARBEGIN_SOCKET]
      --claim <AMOUNTS>   The most that the command will hold at once, with what holds within it get [default: the amounts]
      --name <NAME>       The name of the job [default: of the command, the machine and the process]
  -n, --nowait            End with status 1 if the amounts are not lent at once
  -w, --timeout <SECONDS> End with status 1 if they are not lent in time
  -E <STATUS>             The status in the place of this 1; also --conflict-exit-code
      --lease <SECONDS>   How long the bank keeps what is lent if nothing is heard any more, 2 to 86400 [default: 10]
  -v, --verbose           Say on standard error why it waits, as it does at a terminal
  -h, --help              Print help

The command has PARBEGIN_FENCE, a number that rises with each grant. Over TLS PARBEGIN_TOKEN is the token, and PARBEGIN_CA a
file with the certificate of who signed that of the server. Status 69: refused, or no server; 75: the bank could not be
reached, and the command was ended.
"""
WITH_VALUE = {
    "--socket": "socket", "--claim": "claim", "--name": "name", "-w": "timeout", "--timeout": "timeout", "--wait": "timeout",
    "-E": "conflict", "--conflict-exit-code": "conflict", "--lease": "lease",
}
WITHOUT = {"-n": "nowait", "--nowait": "nowait", "--nonblock": "nowait", "--nb": "nowait", "-v": "verbose", "--verbose": "verbose"}
HELPFUL = ("-h", "--help")
MIN_LEASE, MAX_LEASE = 2, 86_400


class WrongWords(Exception):
    """Words that are refused, with the reason."""


class Options:
    """What the words of a call say."""

    def __init__(self, given: dict[str, str], amounts: str, command: list[str]) -> None:
        self.amounts, self.command = amounts_of(amounts), command
        self.claim = amounts_of(given["claim"]) if "claim" in given else None
        self.name = given.get("name")
        around = os.environ.get("PARBEGIN_SOCKET", "")
        self.address = absolute(given.get("socket", around))
        # the job within whose command this one is, if it is at the same server
        is_inside = self.claim is None and self.name is None and self.address == absolute(around)
        self.inside = os.environ.get("PARBEGIN_JOB", "") if is_inside else ""
        self.is_patient, self.is_verbose = "nowait" not in given, "verbose" in given
        self.timeout = seconds_of(given["timeout"]) if "timeout" in given else None
        self.conflict = number_of("-E", given.get("conflict", "1"), 0, 255)
        self.lease = number_of("--lease", given.get("lease", "10"), MIN_LEASE, MAX_LEASE)
        if not self.address:
            raise WrongWords("neither '--socket' nor PARBEGIN_SOCKET says where the bank is served")


def absolute(addresses: str) -> str:
    """Returns addresses, with commas between, that are the same from every folder."""
    named = [it for it in addresses.split(",") if it]
    return ",".join(os.path.abspath(it) if "/" in it or ":" not in it else it for it in named)


def amounts_of(text: str) -> dict[str, int]:
    """Reads amounts."""
    try:
        return read_amounts(text)
    except ValueError as wrong:
        raise WrongWords(str(wrong)) from wrong


def number_of(name: str, value: str, least: int, most: int) -> int:
    """Reads a number of a range."""
    if not (value.isascii() and value.isdigit()) or len(value) > 9 or not least <= int(value) <= most:
        raise WrongWords(f"invalid value '{value}' for '{name}': it is a number from {least} to {most}")
    return int(value)


def seconds_of(value: str) -> float:
    """Reads seconds, which may have a fraction."""
    whole, _, fraction = value.partition(".")
    if not (whole + fraction).isdigit() or not value.isascii() or len(value) > 12:
        raise WrongWords(f"invalid value '{value}' for '--timeout': it is a number of seconds")
    return float(value)


def value_of(name: str, left: Iterator[str]) -> str:
    """Returns the next word, as the value of an option."""
    for value in left:
        return value
    raise WrongWords(f"a value is required for '{name}' but none was supplied")


def read_options(words: list[str]) -> tuple[dict[str, str], list[str]]:
    """Returns the options before the command, and the other words."""
    given: dict[str, str] = {}
    others: list[str] = []
    left = iter(words)
    for word in left:
        name, sign, value = word.partition("=") if word.startswith("--") else (word, "", "")
        if not word.startswith("-") or word == "-":
            others.append(word)
        elif name in WITHOUT and not sign:
            given[WITHOUT[name]] = ""
        elif name in WITH_VALUE:
            given[WITH_VALUE[name]] = value if sign else value_of(name, left)
        else:
            raise WrongWords(f"unexpected argument '{word}' found")
    return given, others


def read_words(words: list[str]) -> Options | None:
    """Reads the words of a call; nothing, if they ask for help."""
    at = words.index("--") if "--" in words else len(words)
    if any(word in HELPFUL for word in words[:at]):
        return None
    given, others = read_options(words[:at])
    if len(others) != 1:
        raise WrongWords(f"there is one list of amounts before '--', as \"1 tape, 2 disk\", and here are {len(others)}")
    if not words[at + 1 :]:
        raise WrongWords("there is no '--' with a command after it")
    return Options(given, others[0], words[at + 1 :])
