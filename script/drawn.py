"""`run --seed N` and `run --lend WHO`: the run that `record` writes, made by `replay` under the same lender."""
from __future__ import annotations

import os
import subprocess

from script import files
from script.helping import are_refused, ran_on
from script.places import DEADLOCK, DEVICE, FAULT, LIMIT, WORDS, say, shown, write_message
from script.program import is_built
from script.standard import write
from script.tools import tool_of

# The options of `record` that `run` has by this, and the seed of a run by the cash alone, if none is given.
OPTIONS, SEED = ("--seed", "--lend"), "1"
STEPS = "1000000"
# The last line of a replay that ends before all processes have, and that of a run which its steps ended, plain and as JSON.
OPEN = (b"open\n", b'{"kind":"open"}\n')
LIMITED = ("limit {}\n", '{{"kind":"limit","limit":{}}}\n')


def is_drawn(words: list[str]) -> bool:
    """Returns whether a seed or a lender is given to `run`."""
    return any(word.partition("=")[0] in OPTIONS for word in words)


def value_of(words: list[str], option: str) -> str | None:
    """Returns the value of an option of the program, if it is given."""
    for word, following in zip(words, [*words[1:], ""]):
        name, sign, value = word.partition("=")
        if name == option:
            return value if sign else following
    return None


def with_seed(words: list[str]) -> list[str]:
    """Returns the words of `record`: by the cash alone a run is always drawn."""
    is_given = value_of(words, "--seed") is not None or value_of(words, "--lend") != "cash"
    return words if is_given else [*words, "--seed", SEED]


def lending(words: list[str]) -> list[str]:
    """Returns the words that say who lends."""
    lender = value_of(words, "--lend")
    return [] if lender is None else ["--lend", lender]


def run_drawn(start: list[str], words: files.Words) -> int:
    """Makes a run that is drawn, of a file or of standard input, and returns the status of a run."""
    options = with_seed(words.others)
    if are_refused(start, ["record", *options], "run"):
        return WORDS
    for name in words.missing:
        files.tell_missing(name)
    if words.missing:
        return DEVICE
    if len(words.named) > 1:
        say(f"run reads one file, and here are {len(words.named)}: {', '.join(map(shown, words.named))}")
        return WORDS
    name = words.named[0] if words.named else None
    if "--quiet" not in start:
        files.advise("run", words.others, name)
    if name:
        files.give_file(name)
    else:
        files.tell_what_it_awaits("run")
    given = files.read_input()
    status, recorded, messages = ran_on(start, ["record", *options], given)
    if status not in (0, DEADLOCK):
        return refused(start, options, given, (status, recorded, messages))
    return replayed(start, options, given, recorded)


def refused(start: list[str], options: list[str], given: bytes, answer: tuple[int, bytes, bytes]) -> int:
    """Says why no run is drawn, and returns the status."""
    status, told, messages = answer
    if told == b"refused output\n":
        if "--quiet" not in start:
            say(f"a run of {value_of(options, '--steps') or STEPS} steps that is drawn takes too many pick lines: --steps N allows fewer")
        return write(told) or status
    # (a text that is refused is refused by `run` in the same words)
    ran = subprocess.run([*start, "run"], input=given, check=False)
    return ran.returncode if ran.returncode == status else write(told) or status


def replayed(start: list[str], options: list[str], given: bytes, recorded: bytes) -> int:
    """Makes the picks that were drawn, tells of them as of a run, and returns the status."""
    ran = subprocess.run([*start, "replay", *lending(options)], input=recorded, capture_output=True, check=False)
    told, status = ran.stdout, ran.returncode
    if told.endswith(OPEN):
        before = told[: told.rfind(b"\n", 0, -1) + 1]
        limit = LIMITED["--json" in start].format(value_of(options, "--steps") or STEPS)
        told, status = before + limit.encode(), LIMIT
    failed = write(told)
    if failed:
        return failed
    if "--quiet" not in start:
        tell(start, options, given, recorded, ran.stderr, status)
    return status if status >= 0 else 128 - status


def tell(start: list[str], options: list[str], given: bytes, recorded: bytes, messages: bytes, status: int) -> None:
    """Says what is said of a run that a limit ended, or in which a process faulted."""
    if status == LIMIT:
        # (in the program's words, by a run that has no step)
        messages = ran_on(start, ["run", "--steps", "0"], given)[2]
    write_message(messages if status != FAULT else messages.partition(b"\n")[0] + b"\n")
    if status == FAULT:
        words = " ".join(["record", *(word for word in options)])
        say(f"`parbegin {words} FILE > my.run` writes this run, and `parbegin debug my.run` goes along it")
    if status in (FAULT, LIMIT) and os.isatty(2) and "--json" not in start and is_built(tool_of("debug")):
        from script.afterwards import say_of_picks

        say_of_picks(start, recorded, lending(options), status)
