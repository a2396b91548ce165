"""`./parbegin library`: the library for C, and for whatever calls C."""
from __future__ import annotations

import importlib.util
import json
import os
import shutil
from types import ModuleType

from script.building import Build, run_to_end
from script.crates import Crates, sources, with_those_below
from script.helping import HELPFUL, write
from script.kept import take_libraries
from script.places import DEVICE, TOP, WORDS, is_installed, say, stop, write_message
from script.program import wait_for_others
from script.sums import sum_of

# The crates whose archives the library is made of.
ARCHIVES = ("pb_c_bank", "pb_c_call")
# The sums of what they were built from, and of themselves.
RECORD = f"{TOP}/crates/{ARCHIVES[-1]}/out/library_built_from.json"
USE = "usage: parbegin library FOLDER"
HELP = """Build the library for C, and for whatever calls C: libparbegin.a, libparbegin.so, parbegin.h and parbegin.pc

Usage: parbegin library FOLDER

They are written to FOLDER, which has to be there. What is not built yet of the crates below is proved and built first,
which takes an hour or more from nothing; standard error says how far it is, and an interrupt keeps what is built. What the
gate has kept on this machine of the same files is taken, and a library that was built of the same files is only linked
again. docs/LIBRARY.md says what the library does.

Wants the kit's rt, gcc and ar.

Options:
  -h, --help  Print help
"""


def library(words: list[str]) -> int:
    """Builds libparbegin.a, libparbegin.so, parbegin.h and parbegin.pc into a folder, and returns the status."""
    if any(word in HELPFUL for word in words):
        return write(HELP)
    if len(words) != 1 or words[0].startswith("-"):
        write_message(f"{USE}\n")
        return WORDS
    if is_installed():
        stop("library is for a checkout")
    if not is_usable(words[0]):
        return DEVICE
    missing = [name for name in ("rt", "gcc", "ar") if shutil.which(name) is None]
    if missing:
        stop(f"the library wants {' and '.join(missing)}, not on the path")
    build_archives()
    maker = maker_of_libraries()
    try:
        made = maker.write_library([archive(crate) for crate in ARCHIVES], words[0])
    except maker.Unbuilt as fault:
        stop(fault)
    say(f"{words[0]}: {' '.join(made)}")
    return 0


def is_usable(folder: str) -> bool:
    """Returns whether files can be written to a folder; if not, standard error says why."""
    if not os.path.exists(folder):
        say(f"no such folder: {folder}. Nothing is built for it: mkdir -p makes it")
        return False
    if not os.path.isdir(folder):
        say(f"{folder} is not a folder")
        return False
    if not os.access(folder, os.W_OK | os.X_OK):
        say(f"{folder}: no file may be written there")
        return False
    return True


def maker_of_libraries() -> ModuleType:
    """Returns the module that makes a library of archives."""
    where = importlib.util.spec_from_file_location("build_library", f"{TOP}/extras/library/build.py")
    module = importlib.util.module_from_spec(where)
    where.loader.exec_module(module)
    return module


def archive(crate: str) -> str:
    """Returns the path of a crate's archive."""
    return f"{TOP}/crates/{crate}/out/lib{crate}.a"


def sums(files: list[str]) -> dict[str, str]:
    """Returns the sums of the contents of these files."""
    return {file: sum_of(file) for file in files}


def made_from(crates: Crates) -> dict[str, str]:
    """Returns the sums of what the archives are made from, and of the archives."""
    return sums([*sources(crates), *(os.path.relpath(archive(crate), TOP) for crate in ARCHIVES)])


def are_built(crates: Crates) -> bool:
    """Returns whether the archives are there, and neither they nor a source have other contents than when they were built."""
    try:
        with open(RECORD, encoding="utf-8") as file:
            return json.load(file) == made_from(crates)
    except (OSError, ValueError):
        return False


def build_archives() -> None:
    """Builds the archives, which proves them, unless they are there as their sources are."""
    crates = with_those_below(ARCHIVES)
    with open(f"{TOP}/crates.txt", "rb") as lock:
        wait_for_others(lock)
        if are_built(crates):
            say("the crates of the library are built already")
            return
        before = sums(sources(crates))
        prove(crates)
        made = made_from(crates)
        if before.items() <= made.items():
            with open(RECORD, "w", encoding="utf-8") as file:
                json.dump(made, file, indent=0)


def prove(crates: Crates) -> None:
    """Builds the crates, and says how far it is; libraries that the gate has kept of the same files are taken."""
    take_libraries(TOP, ARCHIVES)
    work = Build(crates)
    say(f"building the library, which proves it first: up to {work.slots} jobs; an interrupt keeps what is built")
    run_to_end(work)
