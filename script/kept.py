"""What the gate has kept on this machine of what it proved and built, if the kit keeps it."""
from __future__ import annotations

import os
import shutil
import subprocess
import sys
from collections.abc import Iterable

from script.kit import kit
from script.places import TOP, say
from script.tools import crate_of, path_of

# `rt ci` keeps on this machine what it has proved and built, by sums: of all that a crate's proof reads, with the kit, and
# of the libraries below as they were built. What follows takes it by the same sums, in the folder where it is called.
WHAT_IS_KEPT = """
import hashlib, json, os, runpy, shutil, sys
kit = runpy.run_path(sys.argv[1], run_name="kit")
library = sys.modules["rtlib"]
library.Crate, top = kit["Crate"], os.getcwd()
library.Crate.allowed = kit["handles_of"](top)
wanted = [it for it in library.crates_below(top) if it.name in sys.argv[2:]]
kept = kit["Kept"]([])
"""
# Prints the path of the program that is kept, if its files and those of all crates below it were just these.
KEPT_PROGRAM = WHAT_IS_KEPT + """
program = wanted[0]
for crate in [*program.below(), program]:
    key = kept.key(crate)
    place = kept.place(crate, False, key)
    with open(f"{place}/made.json", encoding="utf-8") as file:
        made = json.load(file)
    if made["key"] != key:
        sys.exit(1)
    files = [(path, sum) for path, sum in made["files"]]
    kept.rlibs[crate.name] = hashlib.sha256(repr(files).encode()).hexdigest()
number = [path for path, _ in files].index(program.name)
if library.sum_of(f"{place}/{number}") != files[number][1]:
    sys.exit(1)
print(f"{place}/{number}")
"""
# Gives the crates below the named ones the libraries that are kept of just these files, over just the libraries that are
# there, and says how many. A library that is built already stays.
KEPT_LIBRARIES = WHAT_IS_KEPT + """
below = {below.name: below for it in wanted for below in it.below()}
crates = sorted(below.values(), key=lambda it: len(it.below()))
held, given = library.lock(crates), 0
for crate in crates:
    if any(it.name not in kept.rlibs for it in crate.below()):
        continue
    if not crate.is_built():
        key, stamp = kept.key(crate), crate.stamp()
        if not os.path.isdir(kept.place(crate, False, key)):
            continue
        shutil.rmtree(f"{crate.folder}/out/rlib", ignore_errors=True)
        if not kept.give(crate, False, key):
            continue
        with open(f"{crate.folder}/out/rlib/stamp", "w", encoding="utf-8") as file:
            file.write(stamp)
        given += 1
    kept.is_built(crate)
print(given)
"""


def kept(script: str, folder: str, crates: Iterable[str]) -> str:
    """Runs one of the scripts above, and returns what it prints, or nothing if it could not."""
    rt = kit()
    if len(rt) == 1:
        return ""
    words = [sys.executable, "-c", script, rt[-1], *crates]
    quiet = subprocess.DEVNULL
    ran = subprocess.run(words, cwd=folder, stdin=quiet, stdout=subprocess.PIPE, stderr=quiet, check=False, text=True)
    return "" if ran.returncode else ran.stdout.strip()


def take_libraries(folder: str, crates: Iterable[str]) -> None:
    """Gives a checkout the libraries below these crates that the gate has kept of the same files."""
    given = kept(KEPT_LIBRARIES, folder, crates)
    if given not in ("", "0"):
        say(f"taking {given} libraries that the gate has proved and built of these files on this machine")


def is_taken(tool: str) -> bool:
    """Takes over the tool that the gate has kept of just these files, and returns whether it could."""
    found = kept(KEPT_PROGRAM, TOP, [crate_of(tool)])
    if not found:
        return False
    path = path_of(tool)
    try:
        os.makedirs(os.path.dirname(path), exist_ok=True)
        new = f"{path}.{os.getpid()}"
        shutil.copyfile(found, new)
        os.chmod(new, 0o755)
        os.replace(new, path)
    except OSError:
        return False
    say(f"taking parbegin-{tool} as the gate has proved and built it of these files on this machine")
    return True
