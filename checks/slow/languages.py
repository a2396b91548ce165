#!/usr/bin/env python3
"""Builds and runs the library from C, C++, Rust and Python, and compares what each writes.

    checks/slow/languages.py PROGRAM FOLDER

FOLDER holds the library, as `./parbegin library FOLDER` writes it. The same calls are compared with what PROGRAM, the built
one, writes, and the bank is asked through pipes too. What is not installed (gcc, g++,
cargo, valgrind) is passed over with a line that says so. The programs of docs/LIBRARY.md are among those that are run.
The status is 0 if all is as it should be, and 1 if not.
"""
from __future__ import annotations

import os
import shutil
import subprocess
import sys
import tempfile
from collections.abc import Callable
from pathlib import Path

from python_bank import ALL, SECONDS, by_library, faults_of, through_pipes

TOP = Path(__file__).resolve().parents[2]
EXTRAS = TOP / "extras"
TESTS = TOP / "checks" / "languages"
C_FLAGS = ("-std=gnu11", "-O2", "-Wall", "-Wextra", "-Werror", "-pthread")
PLAN = TOP / "examples" / "devices.pb"
# What a call is compared on: words, and a text, or several with lines %% between them.
CALLS = (
    (["check"], "examples/devices.pb"),
    (["claims"], "examples/devices.pb"),
    (["plan"], "examples/devices.pb"),
    (["plan", "--lend=cash"], "examples/devices.pb"),
    (["plan"], "examples/9-plan/copies.pb examples/9-plan/lists.pb"),
    (["emit"], "examples/devices.pb"),
    (["outcomes"], "examples/devices.pb"),
    (["outcomes", "--lend=cash"], "examples/devices.pb"),
    (["record", "--seed", "7"], "examples/hello.pb"),
    (["explain", "N3"], "examples/hello.pb"),
    (["fly"], "examples/hello.pb"),
)


class Wrong(Exception):
    """Something is not as it should be; the text says what."""


def run(*words: object, given: bytes = b"", status: int = 0, **how: object) -> str:
    """Runs a program with this input, and returns what it prints; raises Wrong at another status."""
    spelled = [str(word) for word in words]
    ran = subprocess.run(spelled, input=given, stdout=subprocess.PIPE, stderr=subprocess.PIPE, check=False, **how)
    told = ran.stdout.decode(errors="replace")
    if ran.returncode != status:
        raise Wrong(f"{' '.join(spelled)}: status {ran.returncode}\n{told}{ran.stderr.decode(errors='replace')}")
    return told


def compare(what: str, told: str, wanted: str) -> None:
    if told != wanted:
        raise Wrong(f"{what} wrote\n{told}and not\n{wanted}")


def compiled(source: Path, library: Path, room: Path) -> Path:
    """Builds a C program over libparbegin.a."""
    program = room / source.stem
    run("gcc", *C_FLAGS, f"-I{library}", source, library / "libparbegin.a", "-o", program)
    return program


def in_c(library: Path, room: Path) -> None:
    """The examples and the tests in C."""
    night = compiled(EXTRAS / "library" / "night.c", library, room)
    compare("night.c", run(night), (EXTRAS / "library" / "night.stdout").read_text())
    plan = compiled(EXTRAS / "library" / "plan.c", library, room)
    compare("plan.c", run(plan, given=PLAN.read_bytes()), (EXTRAS / "library" / "plan.stdout").read_text())
    compare("plan.c", run(plan, given=b"process p begin print q end", status=1), "refused N3 at 22\n")
    for name in ("wrong", "words"):
        compare(f"{name}.c", run(compiled(TESTS / f"{name}.c", library, room)), "well\n")
    compare("threads.c", run(compiled(TESTS / "threads.c", library, room)), "0 wrong\n")
    run(compiled(TESTS / "drawn.c", library, room))


def by_shared_library(library: Path, room: Path) -> None:
    """The night over libparbegin.so, found by parbegin.pc's names; it gives out the header's functions alone."""
    program = room / "night_shared"
    source = EXTRAS / "library" / "night.c"
    run("gcc", *C_FLAGS, f"-I{library}", source, f"-L{library}", "-lparbegin", "-o", program)
    where = {**os.environ, "LD_LIBRARY_PATH": str(library)}
    compare("night.c", run(program, env=where), (EXTRAS / "library" / "night.stdout").read_text())
    names = [line.split()[-1] for line in run("nm", "-D", "--defined-only", library / "libparbegin.so").splitlines()]
    header = (library / "parbegin.h").read_text()
    others = [name for name in names if f"{name}(" not in header]
    if others:
        raise Wrong(f"libparbegin.so gives out {others}")


def in_cpp(library: Path, room: Path) -> None:
    """The header, read by a C++ compiler."""
    source = room / "header.cpp"
    source.write_text("#include <parbegin.h>\nint main() { static pb_bank bank; return pb_bank_adopt(&bank) != PB_NO_BANK; }\n")
    run("g++", "-Wall", "-Wextra", "-Werror", "-pthread", f"-I{library}", source, library / "libparbegin.a", "-o", room / "header")
    run(room / "header")


def under_valgrind(library: Path, room: Path) -> None:
    """No read or write beside what is there, and every block is freed."""
    how = ("valgrind", "--quiet", "--error-exitcode=9", "--leak-check=full")
    for source in (EXTRAS / "library" / "night.c", TESTS / "wrong.c", TESTS / "words.c"):
        run(*how, compiled(source, library, room))


def in_rust(library: Path, room: Path) -> None:
    """The tests and the example in Rust."""
    where = {**os.environ, "PARBEGIN_LIB": str(library), "CARGO_TARGET_DIR": str(room / "target")}
    how = {"cwd": EXTRAS / "rust", "env": where}
    run("cargo", "test", "--offline", "--quiet", **how)
    told = run("cargo", "run", "--offline", "--quiet", "--example", "night", **how)
    compare("night.rs", told, (EXTRAS / "rust" / "examples" / "night.stdout").read_text())


def in_python(library: Path, _room: Path) -> None:
    """The tests and the example in Python."""
    try_python(by_library(library))


def try_python(where: dict[str, str]) -> None:
    """The tests and the example in Python, over the library or the program."""
    faults = faults_of(where, SECONDS, ALL)
    if faults:
        raise Wrong("\n".join(faults))
    told = run(sys.executable, "night.py", cwd=EXTRAS / "python", env=where)
    compare("night.py", told, (EXTRAS / "python" / "night.stdout").read_text())


def calls_as_the_program(library: Path, room: Path, program: Path) -> None:
    """Each call writes what the program writes, with its status."""
    caller = compiled(TESTS / "call.c", library, room)
    for words, names in CALLS:
        text = b"%%\n".join((TOP / name).read_bytes() for name in names.split())
        ran = [
            subprocess.run([it, *words], input=text, stdout=subprocess.PIPE, stderr=subprocess.DEVNULL, check=False)
            for it in (caller, program)
        ]
        if (ran[0].returncode, ran[0].stdout) != (ran[1].returncode, ran[1].stdout):
            raise Wrong(f"{' '.join(words)} of {names}: the library does not write what the program writes")


def check(name: str, needs: str, does: Callable[[Path, Path], None], library: Path, room: Path) -> bool:
    """Does a check if the program that it needs is installed, says so, and returns whether nothing was wrong."""
    if shutil.which(needs) is None:
        print(f"{name}: passed over, since {needs} is not installed")
        return True
    try:
        does(library, room)
    except Wrong as fault:
        print(f"{name}: {fault}")
        return False
    print(f"{name}: well")
    return True


def has_bank(program: Path) -> bool:
    """Returns whether the program has the command `bank`."""
    ran = subprocess.run([program, "bank"], input=b"", stdout=subprocess.DEVNULL, stderr=subprocess.DEVNULL, check=False)
    return ran.returncode == 0


def with_program(library: Path, room: Path, program: Path) -> bool:
    well = check("calls as the program", "gcc", lambda *_: calls_as_the_program(library, room, program), library, room)
    if not has_bank(program):
        print("Python through pipes: passed over, since the program has no command bank")
        return well
    return check("Python through pipes", "cat", lambda *_: try_python(through_pipes(program)), library, room) and well


def main(words: list[str]) -> int:
    if len(words) != 2:
        sys.exit("usage: checks/slow/languages.py PROGRAM FOLDER")
    program, library = Path(words[0]).resolve(), Path(words[1]).resolve()
    checks = (
        ("C", "gcc", in_c),
        ("the shared library", "gcc", by_shared_library),
        ("C++", "g++", in_cpp),
        ("valgrind", "valgrind", under_valgrind),
        ("Rust", "cargo", in_rust),
        ("Python", sys.executable, in_python),
    )
    with tempfile.TemporaryDirectory() as name:
        room = Path(name)
        well = [check(*it, library, room) for it in checks]
        well.append(with_program(library, room, program))
    return 0 if all(well) else 1


if __name__ == "__main__":
    sys.exit(main(sys.argv[1:]))
