#!/usr/bin/env python3
"""Writes the schedules by which a test of the debugger walks through the examples, forward and back.

    checks/quick/schedules.py [PROGRAM]             says whether crates/pb_runtime_tests has the examples as they are, each
                                                    with its picks
    checks/quick/schedules.py --write [PROGRAM]     writes them anew, after a change of an example (then rt fmt in the crate)

PROGRAM is the one that ./parbegin has built if none is given. The picks are those of `record --seed 7`. An example with more
than 400 picks is left out, as is one that cannot be recorded. The status is 0 if all is as wanted, and 1 if not.
"""
import re
import sys
from pathlib import Path

sys.path.insert(0, str(Path(__file__).resolve().parents[1] / "lib"))

from calls import TOP, call, constant, writes  # noqa: E402

FILE = TOP / "crates/pb_runtime_tests/src/recorded.rt"
MOST = 400
# The most parts of a table, of which each byte of a text is one. A constant may have 10,000.
LARGEST = 3_000
HEAD = """\
//! The examples that make at most 400 picks under `record --seed 7`, each with the picks of that record.

use pb_example_texts::{MODULES};

/// A text, and the picks that were recorded: a process, an arm and how often it is picked, three bytes for
/// each.
pub(crate) struct Example {
    pub text: &'static [u8],
    pub picks: &'static [u8],
}

"""


def picks_of(text):
    """Returns the picks of a recorded run, as process, arm and count; none if it cannot be recorded or is too long."""
    _, said = call(["record", "--seed", "7"], text)
    said = said.split(b"\n%%\n")
    if len(said) != 2:
        return None
    names = re.findall(r"^\s*process\s+(\w+)", re.sub(r"//.*", "", text.decode()), re.M)
    found = []
    for line in said[1].decode().splitlines():
        process, arm, count = re.fullmatch(r"(\w+)\.(\d+) (\d+)", line).groups()
        found.append((names.index(process), int(arm), int(count)))
    return found if sum(count for _, _, count in found) <= MOST else None


def in_bytes(picks):
    """Returns the bytes of picks, none of whose counts is over 255."""
    for process, arm, count in picks:
        while count > 0:
            yield from (process, arm, min(count, 255))
            count -= 255


def cases():
    """Returns the examples that are recorded, each with its module, its constant, its picks in bytes, and its parts."""
    examples = TOP / "examples"
    for file in [*sorted(examples.glob("*.pb")), *sorted(examples.glob("[1-6]-*/*.pb"))]:
        text = file.read_bytes()
        picks = picks_of(text)
        if picks is not None:
            row = [str(byte) for byte in in_bytes(picks)]
            yield *constant(file.relative_to(examples)), ", ".join(row), len(text) + len(row)


def wanted():
    tables, modules, left = [], set(), 0
    for module, name, row, parts in cases():
        if parts > left:
            tables.append([])
            left = LARGEST
        tables[-1].append(f"    Example {{\n        text: {module}::{name},\n        picks: &[{row}],\n    }},\n")
        modules.add(module)
        left -= parts
    lines = [HEAD.replace("{MODULES}", f"{{{', '.join(sorted(modules))}}}")]
    for number, table in enumerate(tables, 1):
        lines.append(f"pub(crate) const EXAMPLES_{number}: [Example; {len(table)}] = [\n{''.join(table)}];\n")
    return "\n".join(lines).replace("}\n\n\n", "}\n\n")


def bare(text):
    """Returns a text without what `rt fmt` changes."""
    return re.sub(r",(?=[\]}])", "", re.sub(r"\s", "", text))


def main():
    is_written = writes()
    text = wanted()
    if is_written:
        FILE.write_text(text)
    is_same = bare(FILE.read_text()) == bare(text)
    print(f"schedules: {'the examples as they are' if is_same else 'crates/pb_runtime_tests has other examples or picks'}")
    return 0 if is_same else 1


if __name__ == "__main__":
    sys.exit(main())
