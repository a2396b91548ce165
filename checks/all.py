#!/usr/bin/env python3
"""Runs the checks of the built program, one after the other, and counts those that passed.

    checks/all.py quick     those of checks/quick, which take seconds, as the gate does; together less than two minutes
    checks/all.py slow      those of checks/slow, which take minutes, each by itself; together some hours

`./parbegin` builds the program first, if what the gate has kept does not have it. It writes a line for each check, with
its seconds, and after that of one that failed what the check says. The last line is `N passed, M failed`; the status is
0 if all passed, and 1 if not.
"""
from __future__ import annotations

import os
import subprocess
import sys
import time
from pathlib import Path

TOP = Path(__file__).resolve().parent.parent
# The first one builds the program.
BUILD = "./parbegin build"
# What stands beside the folders of the sets, since crates name it by its path.
BESIDE = {"quick": ("checks/statuses.sh", "checks/example_tests.py"), "slow": ()}
# What is called by hand alone: it wants words, hours, or the prover.
BY_HAND = ("build_script", "languages", "page_bugs", "spec_names", "two_builds")
# A check of a set that takes longer hangs; the first of each may have to build the program.
WATCHDOGS = {"quick": 600, "slow": 7200}
BUILDING = 7200


def checks_of(name: str) -> list[str]:
    """Returns the calls of a set: the build, what stands beside its folder, and the scripts of its folder by their names."""
    scripts = sorted((TOP / "checks" / name).glob("*.py"))
    return [BUILD, *BESIDE[name], *(str(it.relative_to(TOP)) for it in scripts if it.stem not in BY_HAND)]


def run(check: str, watchdog: int) -> tuple[bool, str]:
    """Runs a check for at most `watchdog` seconds, and returns whether it passed, with what it wrote."""
    limit = BUILDING if check == BUILD else watchdog
    how = {"stdin": subprocess.DEVNULL, "stdout": subprocess.PIPE, "stderr": subprocess.STDOUT}
    # (so that a checkout stays as it was)
    where = {**os.environ, "PYTHONDONTWRITEBYTECODE": "1"}
    try:
        ran = subprocess.run(check.split(), cwd=TOP, env=where, timeout=limit, errors="replace", check=False, **how)
    except subprocess.TimeoutExpired as late:
        return False, f"{(late.stdout or b'').decode(errors='replace')}\nit had not ended after {limit} seconds"
    except OSError as fault:
        return False, str(fault)
    return ran.returncode == 0, ran.stdout


def main(words: list[str]) -> int:
    if len(words) != 1 or words[0] not in BESIDE:
        sys.exit(f"usage: checks/all.py {'|'.join(BESIDE)}")
    passed = failed = 0
    for check in checks_of(words[0]):
        began = time.monotonic()
        is_well, said = run(check, WATCHDOGS[words[0]])
        print(f"{'passed' if is_well else 'FAILED'} {time.monotonic() - began:6.1f} s  {check}", flush=True)
        if not is_well:
            print(said.rstrip("\n"), flush=True)
        passed, failed = passed + is_well, failed + (not is_well)
    print(f"{passed} passed, {failed} failed")
    return 1 if failed else 0


if __name__ == "__main__":
    sys.exit(main(sys.argv[1:]))
