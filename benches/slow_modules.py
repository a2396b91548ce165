#!/usr/bin/env python3
"""Prints which modules of a crate took longest to prove, from a check from nothing by one job.

    rm -rf crates/CRATE/out && (cd crates/CRATE && rt check --jobs 1) && benches/slow_modules.py crates/CRATE/out [COUNT]

A check writes each module when it is done with it, so the time between one file and the one before it is what the later
one took. By the clock, so on a machine that does little else. The name of a module says what it is of: `F.Lts` has the
paths through the function F, `F.Proof` its answers, and all others are lemmas and definitions.
"""
import os
import sys

DONE = ".oantt"


def modules(top):
    """Returns the time at which each module was written, with its name, in the order of these times."""
    found = []
    for at, _, names in os.walk(top):
        found += [(os.stat(f"{at}/{name}").st_mtime, name[: -len(DONE)]) for name in names if name.endswith(DONE)]
    return sorted(found)


def main(top, count=20):
    written = modules(top)
    if len(written) < 2:
        sys.exit(f"{top}: a check from nothing leaves its modules here, and there are none")
    took = sorted(((now - before, name) for (before, _), (now, name) in zip(written, written[1:])), reverse=True)
    whole = written[-1][0] - written[0][0]
    print(f"{len(written)} modules in {whole:.0f} seconds")
    for seconds, name in took[: int(count)]:
        print(f"{seconds:8.1f} s  {100 * seconds / whole:4.1f} %  {name.removesuffix('.decls')}")


main(*sys.argv[1:3])
