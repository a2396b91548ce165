#!/usr/bin/env python3
"""Writes the tests that run the examples in the gate, which reads no file beside its crates.

    checks/example_tests.py            says whether the two crates have what examples/ has
    checks/example_tests.py --write    writes them anew, after a change of an example or of examples/expected

Each folder of examples/ becomes a file of crates/pb_example_texts, with its texts and objects, and each section of
examples/expected/calls.txt a file of crates/pb_engine_tests/src/examples, with the calls and what is expected of each. The
status is 0 if all is as wanted, and 1 if not.
"""
import re
import sys
import textwrap
from pathlib import Path, PurePath

sys.path.insert(0, str(Path(__file__).resolve().parent / "lib"))

from calls import KINDS, TOP, constant  # noqa: E402

FOLDER = TOP / "examples"
EXPECTED = FOLDER / "expected"
TESTS = TOP / "crates/pb_engine_tests/src/examples"
TEXTS = TOP / "crates/pb_example_texts/src"
STATUSES = {0: "Done", 1: "Refused", 2: "Words", 3: "Limit", 4: "Fault", 5: "Memory", 6: "Device", 7: "Threads", 9: "Deadlock", 10: "Unexpected"}
# A longer input is left to checks/quick/examples.py: pb_tests makes texts of that length itself.
LONGEST = 6_000
# A constant has at most 10,000 parts, of which each byte of a text is one.
LARGEST = 9_000
# The most columns that `rt fmt` gives a line of code.
WIDTH = 100
# What `run`, `exec` and `record` are told if no word says otherwise.
QUANTUM, STEPS = 64, 1_000_000


def size(name, file):
    """Returns the bytes of an input and of its output."""
    return (FOLDER / file).stat().st_size + (EXPECTED / f"{name}.out").stat().st_size


def sections():
    """Returns the sections of the list, each with its heading and its rows."""
    found = []
    for line in (EXPECTED / "calls.txt").read_text().splitlines():
        if line.startswith("# "):
            found.append((line[2:], []))
        elif line:
            name, status, file, *words = line.split()
            if size(name, file) <= LONGEST:
                found[-1][1].append((name, int(status), file, words))
    return [(heading, rows) for heading, rows in found if rows]


def literal(data):
    """Returns the bytes as a literal."""
    return 'b"' + data.decode("ascii").replace("\\", "\\\\").replace('"', '\\"') + '"'


def imports(files):
    """Returns the lines that import the constants of these files."""
    found = {}
    for module, name in sorted(constant(file) for file in files):
        found.setdefault(module, []).append(name)
    lines = []
    for module, names in found.items():
        line = f"use pb_example_texts::{module}::{{{', '.join(names)}}};" if names[1:] else f"use pb_example_texts::{module}::{names[0]};"
        if len(line) > WIDTH:
            packed = textwrap.wrap(", ".join(names) + ",", WIDTH - 4)
            line = "\n".join([f"use pb_example_texts::{module}::{{", *(f"    {it}" for it in packed), "};"])
        lines.append(line)
    return lines


def number(given):
    return f"{int(given):_}"


def command(words):
    """Returns the words of a call as a value of `Command`."""
    word, options = words[0], dict(zip(words[1::2], words[2::2]))
    quantum, steps = number(options.get("--quantum", QUANTUM)), number(options.get("--steps", STEPS))
    if word in ("run", "exec"):
        return f"Command::{word.title()} {{ quantum: {quantum}, steps: {steps} }}"
    if word == "record":
        lender = "ByCash" if options.get("--lend") == "cash" else ""
        return f"Command::Record{lender} {{ seed: {number(options['--seed'])} }}"
    if word in ("plan", "replay") and options.get("--lend") == "cash":
        return f"Command::{word.title()}ByCash"
    return f"Command::{word.title()}"


def parts(rows):
    """Returns the rows in parts, each for one constant."""
    found, left = [], 0
    for row in rows:
        needs = size(row[0], row[2]) + 50
        if needs > left:
            found.append([])
            left = LARGEST
        found[-1].append(row)
        left -= needs
    return found


def table(name, rows):
    lines = ["#[rattlefmt::skip]", f"const {name}: [Call; {len(rows)}] = ["]
    for name, status, file, words in rows:
        lines += ["    Call {", f'        name: "{name}",', f"        command: {command(words)},", f"        input: {constant(file)[1]},"]
        output = literal((EXPECTED / f"{name}.out").read_bytes())
        lines += [f"        status: Status::{STATUSES[status]},", f"        output: {output},", "    },"]
    return [*lines, "];", ""]


def test_file(heading, rows):
    lines = [f"//! {heading}, by the calls of `examples/expected/calls.txt`. Written by checks/example_tests.py.", ""]
    lines += ["use crate::examples::calls::{Call, Command, first_wrong};", "use pb_command_io::Status;"]
    lines += [*imports(dict.fromkeys(row[2] for row in rows)), "use std::test::Fail;", ""]
    for at, part in enumerate(parts(rows), 1):
        lines += table(f"CALLS_{at}", part)
        lines += ["#[test]", f"fn are_as_expected_{at}(rt: HostRuntime) -> Result<(), Fail> {{"]
        lines += [f"    assert_eq!(rt; first_wrong(&rt, CALLS_{at}.as_slice()), None);", "    Ok(())", "}", ""]
    return "\n".join(lines)


def text_files():
    """Returns the files of crates/pb_example_texts, each with its text."""
    found = {}
    for path in sorted(FOLDER.rglob("*")):
        if path.suffix in KINDS and path.stat().st_size <= LONGEST:
            file = path.relative_to(FOLDER).as_posix()
            module, name = constant(file)
            found.setdefault(module, []).append((file, name, path.read_bytes()))
    for module, rows in found.items():
        where = f"examples/{PurePath(rows[0][0]).parent}".removesuffix("/.")
        lines = [f"//! The files of `{where}`. Written by checks/example_tests.py.", ""]
        for file, name, data in rows:
            lines += [f"/// The file {file}.", "#[rattlefmt::skip]", f"pub const {name}: &[u8] = {literal(data)};", ""]
        yield TEXTS / f"{module}.rt", "\n".join(lines)


def test_files():
    """Returns the files of crates/pb_engine_tests/src/examples, each with its text."""
    for heading, rows in sections():
        yield TESTS / (re.sub(r"\W+", "_", heading).lower().removeprefix("the_") + ".rt"), test_file(heading, rows)


def main():
    wrong = []
    for file, text in [*text_files(), *test_files()]:
        if "--write" in sys.argv[1:]:
            file.write_text(text)
        elif not file.is_file() or file.read_text() != text:
            wrong.append(file.name)
    print("wrong:" if wrong else "as examples/ has it", *wrong)
    sys.exit(1 if wrong else 0)


main()
