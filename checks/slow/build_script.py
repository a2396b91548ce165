#!/usr/bin/env python3
"""Shows that ./parbegin works with the kit that is installed, in a fresh clone of what is committed: builds the two
lowest crates side by side and one above them, as the first call builds all, and runs a text by --unproved. Takes some
minutes. (checks/quick/rebuilds.py shows, without the kit, when it builds at all.)

    checks/slow/build_script.py

Its status is 0 if the crates were built and the text ran, and 1 if not.
"""
from __future__ import annotations

import subprocess
import sys
import tempfile
from pathlib import Path

sys.path.insert(0, str(Path(__file__).resolve().parents[1] / "lib"))

from calls import TOP  # noqa: E402

# Two crates on nothing, and one that waits for the first of them.
CRATES: dict[str, list[str]] = {"pb_base": [], "pb_options": [], "pb_code": ["pb_base"]}


def is_tried(clone: str) -> bool:
    """Returns whether a trial run shows what the program writes, with one line of the script before it."""
    with open(f"{clone}/examples/devices.pb", "rb") as text:
        ran = subprocess.run([f"{clone}/parbegin", "--unproved", "run"], stdin=text, capture_output=True, check=False)
    lines = ran.stderr.decode().splitlines()
    return ran.returncode == 0 and ran.stdout.endswith(b"done\n") and len(lines) == 1 and "not the proved" in lines[0]


def build(clone: str) -> str | None:
    """Builds the crates by the script of the clone, and returns what went wrong."""
    sys.path.insert(0, clone)
    from script.building import Build, Failed
    from script.crates import crates_below

    listed = crates_below()
    for crate, below in CRATES.items():
        if set(listed[crate]) != set(below):
            return f"{crate} stands on {listed[crate]}, and not on {below}"
    try:
        Build(CRATES).run()
    except Failed as failure:
        return str(failure)
    return None


def main() -> int:
    with tempfile.TemporaryDirectory() as folder:
        clone = f"{folder}/parbegin"
        subprocess.run(["git", "clone", "-q", str(TOP), clone], check=True)
        wrong = build(clone) or (None if is_tried(clone) else "the trial run is not as wanted")
    if wrong:
        print(wrong)
    return 1 if wrong else 0


if __name__ == "__main__":
    sys.exit(main())
