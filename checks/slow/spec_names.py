#!/usr/bin/env python3
"""Says which names of specs/ that the contract of `run` rests on have a second meaning in another crate.

    checks/slow/spec_names.py

The files are those of the table in docs/ARCHITECTURE.md under "What the contract of `run` rests on".
Exits with 1 if there is such a name.
"""
import collections
import pathlib
import re
import sys

TOP = pathlib.Path(__file__).resolve().parents[2]
HEADING = "## What the contract of `run` rests on"
FILES = re.compile(r"crates/(\w+)/specs/(?:\{([\w,]+)\}|(\w+))\.antt")
DEFINED = re.compile(r"(?:(?:abbrev|unfoldable|opaque|inductive|data|record|pub|type) )+([A-Za-z_][\w-]*)\b")


def believed():
    """Returns the files of the table, as pairs of a crate and a name."""
    text = (TOP / "docs/ARCHITECTURE.md").read_text(encoding="utf-8")
    table = text.split(HEADING)[1].split("\n## ")[0]
    return {(crate, name) for crate, several, one in FILES.findall(table) for name in (several or one).split(",")}


def defined():
    """Returns the crates and files that define each name."""
    places = collections.defaultdict(set)
    for path in TOP.glob("crates/*/specs/**/*.antt"):
        crate = path.relative_to(TOP).parts[1]
        for line in path.read_text(encoding="utf-8").splitlines():
            match = DEFINED.match(line)
            if match and " pub " in f" {match.group(0)}" and match.group(1) not in ("mod", "use"):
                places[match.group(1)].add((crate, path.stem))
    return places


def main():
    files, twice = believed(), 0
    for name, places in sorted(defined().items()):
        if places & files and len({crate for crate, _ in places}) > 1:
            twice += 1
            print(f"{name}: " + ", ".join(f"crates/{crate}/specs/{stem}.antt" for crate, stem in sorted(places)))
    print(f"{len(files)} files, {twice} names with a second meaning")
    return 1 if twice else 0


sys.exit(main())
