#!/usr/bin/env python3
"""Compares two builds of each tool, as the two compilers of the kit make them.

    checks/slow/two_builds.py

Both are called by every command on every example, by each call of examples/expected/calls.txt, on each forged object of
checks/slow/forged_objects.py, on a text at each limit of the language and one beyond it, and on texts that are refused; each
call must end with the same status and write the same bytes. `rt ci` leaves both builds in the out/ of a tool's crate:
parbegin_run, which LLVM compiled, and parbegin_run.by-rattle, which Rattle's own compiler did, and so of each. It is run
by hand; its status is 0 if all is as wanted, and 1 if not.
"""
import concurrent.futures
import os
import sys
from pathlib import Path

sys.path.insert(0, str(Path(__file__).resolve().parents[1] / "lib"))

import texts  # noqa: E402
from calls import EXAMPLES, TOP, Tally, call, inputs  # noqa: E402
from forgeries import LIMITS, forgeries, objects  # noqa: E402
from script.tools import any_tool, command_of, path_of, tool_of  # noqa: E402

STEPS = ["--steps", "10000"]


def calls_of_examples():
    """Yields the calls of examples whose output is kept."""
    folder = TOP / "examples"
    for line in (folder / "expected/calls.txt").read_text().splitlines():
        if line and not line.startswith("#"):
            _, _, file, *words = line.split()
            yield file, words, (folder / file).read_bytes()


def cases():
    """Yields words and what they are called on."""
    yield from inputs()
    yield from calls_of_examples()
    for kind, most in texts.LIMITS.items():
        for count in (most, most + 1):
            for command in ("check", "claims", "plan", "emit", "run", "record"):
                yield f"{count} {kind}", [command, *(STEPS if command in ("run", "record") else [])], texts.many(kind, count)
    for given in objects():
        for forgery in forgeries(given):
            yield "a forgery", ["exec", *STEPS], forgery
            yield "a forgery", ["migrate"], forgery
    for name, both in LIMITS.items():
        for given, _ in both:
            yield f"limit {name}", ["exec", *STEPS], given
    for file in EXAMPLES:
        text = file.read_bytes()
        yield from (("a part of a text", ["check"], text[:end]) for end in range(len(text)))
    for words in ([], ["--help"], ["run", "--help"], ["--version"], ["fly"], ["run", "--steps", "x"]):
        yield "words", words, b""


def main():
    tally = Tally()

    def compare(case):
        _, words, given = case
        tool = path_of(tool_of(command_of(words)) or any_tool())
        return case, call(words, given, of=tool) == call(words, given, of=f"{tool}.by-rattle")

    with concurrent.futures.ThreadPoolExecutor(os.cpu_count()) as pool:
        for (name, words, given), is_same in pool.map(compare, cases()):
            tally.expect(is_same, name, words, given[:200])
    tally.end("two builds")


main()
