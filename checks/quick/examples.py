#!/usr/bin/env python3
"""Runs every example by the program and compares what it writes, and its status, with what is expected.

    checks/quick/examples.py [PROGRAM]     PROGRAM is the one that ./parbegin has built if none is given

examples/expected/calls.txt lists the calls. The gate makes those of up to 6,000 bytes too, in crates/pb_engine_tests,
which example_tests.py writes. Each expected output is compared also with what reference.py, a second
reading of the documents, makes of the same call, where it knows the command. Every file of examples/ must be in a call,
with a comment at its head. Its status is 0 if all is as wanted, and 1 if not.
"""

import sys
from pathlib import Path

sys.path.insert(0, str(Path(__file__).resolve().parents[1] / "lib"))

import reference  # noqa: E402
from calls import DONE, KINDS, TOP, Tally, call  # noqa: E402

FOLDER = TOP / "examples"
EXPECTED = FOLDER / "expected"
SLOW = 20_000


def calls():
    """Returns the rows of the list: the expected output, the status, the input, and the words."""
    for line in (EXPECTED / "calls.txt").read_text().splitlines():
        if line and not line.startswith("#"):
            name, status, file, *words = line.split()
            yield EXPECTED / f"{name}.out", int(status), FOLDER / file, words


def try_program(tally, expected, status, file, words):
    got = call(words, file.read_bytes())
    tally.expect(got[0] == status, "the status of", *words, file, "is", got[0])
    tally.expect(got[1] == expected.read_bytes(), "the output of", *words, file, "is not that of", expected)


def try_reference(tally, expected, status, file, words):
    """Returns whether the second reading knows the command and has time for it."""
    if len(expected.read_bytes()) > SLOW:
        return False
    says = reference.says(words, file.read_text())
    if says is None:
        return False
    tally.expect(says == (status, expected.read_text()), "reference.py says something else of", *words, file)
    return True


def main():
    tally, used, compared, made = Tally(), set(), 0, set()
    for row in calls():
        used.add(row[2])
        made.add(row[0])
        try_program(tally, *row)
        compared += try_reference(tally, *row)
    for file in [file for kind in KINDS for file in FOLDER.rglob(f"*{kind}")]:
        tally.expect(file in used, "no call names", file)
    for file in FOLDER.rglob("*.pb"):
        tally.expect(file.name == "hello.pb" or file.read_text().startswith("// "), "no comment at the head of", file)
    for file in EXPECTED.glob("*.out"):
        tally.expect(file in made, "no call names", file)
    print(f"{len(made)} expected outputs, {compared} of them compared with the second reading; {len(used)} examples")
    tally.end("examples")


main()
