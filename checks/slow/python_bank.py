#!/usr/bin/env python3
"""Runs the tests of the Python package: its calls, sixteen threads in one bank, and how banks end.

    checks/slow/python_bank.py [PROGRAM [FOLDER]] [--minute]     PROGRAM is the one that ./parbegin has built if none is given

The bank is asked through pipes, by the command `bank` of the program; and if FOLDER is named, which holds the library
as `./parbegin library FOLDER` writes it, in the library too. Of the calls of commands only those of a whole library are
tried (checks/slow/languages.py). With --minute the threads go on for a minute, and not for seconds. For each kind of
bank a copy of the package without its lock has to fail. The status is 0 if all is as it should be, and 1 if not.
"""
from __future__ import annotations

import os
import shutil
import subprocess
import sys
import tempfile
from pathlib import Path

TOP = Path(__file__).resolve().parents[2]
PACKAGE = TOP / "extras" / "python"
# What ./parbegin has built.
BUILT = TOP / "script" / "tools.sh"
# The tests of banks and of what is refused before a call, and those of the commands too.
BANKS = ("test_parbegin.Banks", "test_parbegin.Words", "test_threads", "test_ends")
ALL = ("test_parbegin", *BANKS[2:])
LOCK = "threading.RLock()"
# A lock that keeps nobody out.
UNLOCKED = """
class Unlocked:
    def _is_owned(self): return False
    def __enter__(self): return self
    def __exit__(self, *fault): pass
    def acquire(self, timeout=0): return True
    def release(self): pass
"""
THREADS = "test_threads.Threads.test_each_call_is_one_step"
SECONDS = 3.0
MINUTE = 60.0


def python_with(**names: str) -> dict[str, str]:
    """Returns the environment in which the package finds what is named, and nothing else."""
    others = {name: value for name, value in os.environ.items() if not name.startswith(("PARBEGIN", "PYTHON"))}
    return {**others, "PYTHONDONTWRITEBYTECODE": "1", **names}


def by_library(folder: Path) -> dict[str, str]:
    """Returns the environment in which a bank is one of the library."""
    return python_with(PARBEGIN_SO=str(folder / "libparbegin.so"))


def through_pipes(program: Path) -> dict[str, str]:
    """Returns the environment in which a bank is asked through pipes."""
    return python_with(PARBEGIN_SO="", PARBEGIN=str(program), PARBEGIN_TEST_PROGRAM=str(program))


def tested(package: Path, where: dict[str, str], *tests: str) -> tuple[bool, str]:
    """Runs tests of the package in this folder, and returns whether they passed, with what they wrote."""
    words = [sys.executable, "-m", "unittest", "-q", *tests]
    how = {"stdout": subprocess.PIPE, "stderr": subprocess.STDOUT, "text": True}
    ran = subprocess.run(words, cwd=package, env=where, check=False, **how)
    return ran.returncode == 0, ran.stdout


def fails_without_lock(where: dict[str, str]) -> tuple[bool, str]:
    """Returns whether the threads find that a copy of the package has no lock, with what they wrote."""
    with tempfile.TemporaryDirectory(prefix="parbegin-unlocked-") as name:
        copy = Path(name, "python")
        shutil.copytree(PACKAGE, copy, ignore=shutil.ignore_patterns("__pycache__"))
        bank = copy / "parbegin" / "bank.py"
        text = bank.read_text()
        if LOCK not in text:
            return False, f"{bank.name} has no {LOCK}"
        bank.write_text(text.replace(LOCK, "Unlocked()") + UNLOCKED)
        passed, told = tested(copy, {**where, "PARBEGIN_TEST_SECONDS": "2", "PARBEGIN_TEST_PATIENCE": "3"}, THREADS)
    return not passed and "FAIL: test_each_call_is_one_step" in told, told


def faults_of(where: dict[str, str], seconds: float, tests: tuple[str, ...]) -> list[str]:
    """Runs all tests of one kind of bank, and returns what was wrong."""
    passed, told = tested(PACKAGE, {**where, "PARBEGIN_TEST_SECONDS": str(seconds)}, *tests)
    is_found, seen = fails_without_lock(where)
    return [*([] if passed else [told]), *([] if is_found else [f"the threads do not find that the lock is gone:\n{seen}"])]


def main(words: list[str]) -> int:
    named = [word for word in words if word != "--minute"]
    if len(named) > 2:
        sys.exit("usage: checks/slow/python_bank.py [PROGRAM [FOLDER]] [--minute]")
    seconds = MINUTE if "--minute" in words else SECONDS
    kinds = {"through pipes": through_pipes(Path(named[0]).absolute() if named else BUILT)}
    if len(named) == 2:
        kinds["in the library"] = by_library(Path(named[1]).resolve())
    status = 0
    for kind, where in kinds.items():
        faults = faults_of(where, seconds, BANKS)
        print(f"a bank {kind}: {'well' if not faults else chr(10).join(faults)}", flush=True)
        status = 1 if faults else status
    return status


if __name__ == "__main__":
    sys.exit(main(sys.argv[1:]))
