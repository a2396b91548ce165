"""Options that the script takes itself: in any order, as `--name VALUE` or `--name=VALUE`, each once but for a few."""
from __future__ import annotations

from collections.abc import Collection
from dataclasses import dataclass, field

from script.places import WORDS, write_message


class WrongWords(Exception):
    """Words that are refused, with the reason."""


@dataclass
class Given:
    """The words of a call: the values of its options, "" of one that has none, all values of those that may be given several
    times, and the other words."""

    options: dict[str, str] = field(default_factory=dict)
    others: list[str] = field(default_factory=list)
    several: dict[str, list[str]] = field(default_factory=dict)

    def for_program(self, *names: str) -> list[str]:
        """Returns the words that give these options to the program."""
        values = [(name, value) for name in names for value in self.several.get(name, [self.options[name]] if name in self.options else [])]
        return [f"{name}={value}" for name, value in values]

    def number(self, name: str, default: int, least: int = 1, most: int = 1_000_000) -> int:
        """Returns the value of an option that is a number of a range."""
        value = self.options.get(name)
        if value is None:
            return default
        if not (value.isascii() and value.isdigit()) or len(value) > 20 or not least <= int(value) <= most:
            raise WrongWords(f"invalid value '{value}' for '{name}': it is a number from {least} to {most}")
        return int(value)


def read_options(words: list[str], with_value: Collection[str], without: Collection[str] = (), several: Collection[str] = ()) -> Given:
    """Takes options from words; those of the last kind have a value, and may be given several times. One that is not known, is
    given twice or lacks its value is refused."""
    given, left = Given(), iter(words)
    for word in left:
        name, sign, value = word.partition("=")
        if not word.startswith("-") or word == "-":
            given.others.append(word)
            continue
        if name not in (*with_value, *several) and word not in without:
            raise WrongWords(f"unexpected argument '{word}' found")
        if name in given.options:
            raise WrongWords(f"the argument '{name}' cannot be used multiple times")
        if name in without and sign:
            raise WrongWords(f"unexpected value '{value}' for '{name}' found; no more were expected")
        if name in (*with_value, *several) and not sign:
            following = next(left, None)
            if following is None:
                raise WrongWords(f"a value is required for '{name}' but none was supplied")
            value = following
        if name in several:
            given.several.setdefault(name, []).append(value)
        else:
            given.options[name] = value
    return given


def tell_wrong(wrong: WrongWords, use: str) -> int:
    """Says what is wrong with the words of a command, as the program does, and returns the status."""
    write_message(f"error: {wrong}\n\nUsage: {use}\n\nFor more information, try '--help'.\n")
    return WORDS
