#!/usr/bin/env python3
"""Gives this checkout the libraries that `rt ci` has proved and built on this machine of the same files.

    checks/take_libraries.py [CRATE ..]     those below these crates; below all crates if none is named

`rt check` then begins above them, and need not prove them once more. A library whose files, or those of a crate below,
are not what the gate has kept is left out; one that is built already stays. It says how many it has given.
"""
from __future__ import annotations

import sys
from pathlib import Path

TOP = Path(__file__).resolve().parent.parent
sys.path[:0] = [str(TOP / "checks/lib"), str(TOP)]
sys.dont_write_bytecode = True

from script.kept import KEPT_LIBRARIES, kept  # noqa: E402
from bodies import crates  # noqa: E402


def main(words: list[str]) -> int:
    unknown = [word for word in words if word not in crates()]
    if unknown:
        sys.exit(f"{unknown[0]} is no crate of crates.txt")
    given = kept(KEPT_LIBRARIES, str(TOP), words or crates())
    print(f"{given or 0} libraries given")
    return 0 if given else 1


if __name__ == "__main__":
    sys.exit(main(sys.argv[1:]))
