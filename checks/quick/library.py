#!/usr/bin/env python3
"""Shows what `./parbegin library` builds and when, what pkg-config says of its folder, and that no call for help packs.

    checks/quick/library.py

It works on a copy of the script with four crates, and with a command in place of the kit's rt that writes down what it was
called for, and gives archives of stubs. It wants gcc, ar and pkg-config. Its status is 0 if all is as wanted, and 1 if not.
"""
from __future__ import annotations

import os
import pathlib
import re
import shlex
import shutil
import subprocess
import sys
import tempfile

sys.path.insert(0, str(pathlib.Path(__file__).resolve().parents[1] / "lib"))

from calls import DEVICE, DONE, TOP, WORDS, Tally  # noqa: E402

# In place of rt: writes down the crate that it was called in, and makes its archive.
RT = """#!/bin/sh
crate=${PWD##*/}
echo "$crate" >>"$CALLS"
[ "$crate" != "$FAILS" ] || { echo "no proof of $crate"; exit 1; }
[ ! -e "$STUBS/lib$crate.a" ] || { mkdir -p out && cp "$STUBS/lib$crate.a" out/; }
"""
CRATES = {"pb_base": "", "pb_banker": "pb_base", "pb_c_bank": "pb_base pb_banker", "pb_c_call": "pb_base"}
ARCHIVES = ("pb_c_bank", "pb_c_call")
MADE = ("libparbegin.a", "libparbegin.so", "parbegin.h", "parbegin.pc")
NO_PROGRAM = 8
CALLER = "#include <parbegin.h>\nint main(void) { static pb_bank bank; return (int)pb_bank_leave(&bank, 0); }\n"
# What the stub of each function returns.
STATUS = 7


class Checkout:
    """A copy of the checkout, and the calls of rt that its script makes."""

    def __init__(self, folder: pathlib.Path) -> None:
        self.folder, self.top, self.calls = folder, folder / "top", folder / "calls"
        path = f"{folder}/bin:{os.environ['PATH']}"
        self.where = {**os.environ, "PATH": path, "CALLS": str(self.calls), "STUBS": f"{folder}/stubs"}

    def run(self, *words: str, fails: str = "") -> tuple[int, str, list[str]]:
        """Calls the script, and returns its status, what it wrote, and the crates that it built."""
        self.calls.write_text("")
        ran = subprocess.run(
            [self.top / "parbegin", *words], cwd=self.folder, env={**self.where, "FAILS": fails}, stdout=subprocess.PIPE,
            stderr=subprocess.STDOUT, text=True, check=False)
        return ran.returncode, ran.stdout, self.calls.read_text().split()


def stub(folder: pathlib.Path, archive: str, text: str) -> None:
    """Makes an archive of one object."""
    source, made = folder / f"{archive}.c", folder / f"{archive}.o"
    source.write_text(text)
    subprocess.run(["gcc", "-fPIC", "-c", source, "-o", made], check=True)
    (folder / f"lib{archive}.a").unlink(missing_ok=True)
    subprocess.run(["ar", "rcs", folder / f"lib{archive}.a", made], check=True)


def copied(folder: pathlib.Path) -> Checkout:
    """Returns a copy of the sources, with the command in place of rt, and archives of stubs."""
    it = Checkout(folder)
    for part in ("script", "extras/library", *(f"crates/{crate}/src" for crate in CRATES)):
        shutil.copytree(TOP / part, it.top / part, ignore=shutil.ignore_patterns("__pycache__"))
    shutil.copy(TOP / "parbegin", it.top / "parbegin")
    (it.top / "crates.txt").write_text("".join(f"{crate}: {below}\n" for crate, below in CRATES.items()))
    for name in ("bin", "c", "stubs"):
        (folder / name).mkdir()
    (folder / "bin/rt").write_text(RT)
    (folder / "bin/rt").chmod(0o755)
    names = re.findall(r"\b(pb_[a-z_]+)\(", (TOP / "extras/library/parbegin.h").read_text())
    texts = [f"int {name}(void) {{ return {STATUS}; }}\n" for name in sorted(set(names))]
    stub(folder / "stubs", ARCHIVES[0], "".join(text for text in texts if "pb_bank_" in text))
    stub(folder / "stubs", ARCHIVES[1], "".join(text for text in texts if "pb_bank_" not in text))
    stub(folder / "c", "libc_c", "int of_the_kit;\n")
    return it


def try_words(tally: Tally, it: Checkout) -> None:
    """Tries calls that build nothing, and say at once why."""
    (it.folder / "file").write_text("")
    for words, status, said in (
        (("library",), WORDS, "usage: parbegin library FOLDER"),
        (("library", "made", "more"), WORDS, "usage: parbegin library FOLDER"),
        (("library", "--fast"), WORDS, "usage: parbegin library FOLDER"),
        (("library", "nowhere/made"), DEVICE, "no such folder: nowhere/made"),
        (("library", "file"), DEVICE, "file is not a folder"),
        (("library", "--help"), DONE, "Usage: parbegin library FOLDER"),
        (("library", "nowhere", "-h"), DONE, "Usage: parbegin library FOLDER"),
        (("help", "library"), DONE, "Usage: parbegin library FOLDER"),
        (("package", "--help"), DONE, "Usage: parbegin package"),
        (("package", "-h"), DONE, "Usage: parbegin package"),
        (("help", "package"), DONE, "Usage: parbegin package"),
        (("package", "all"), WORDS, "usage: parbegin package"),
    ):
        found, told, built = it.run(*words)
        tally.expect((found, built) == (status, []) and said in told, *words, found, told, built)
    tally.expect(not (it.folder / "nowhere").exists(), "a folder was made")


def try_builds(tally: Tally, it: Checkout, into: pathlib.Path) -> None:
    """Tries when crates are built, and what is told meanwhile."""
    status, told, built = it.run("library", str(into), fails="pb_c_bank")
    is_told = status == NO_PROGRAM and "no proof of pb_c_bank" in told
    tally.expect(is_told and not list(into.iterdir()), "a proof that fails", told)
    status, told, built = it.run("library", str(into))
    tally.expect(status == DONE and sorted(built) == sorted(CRATES), "the first call", status, told, built)
    tally.expect("0 of 4 crates are done" in told and "3 of 4 crates are done" in told, "how far it is", told)
    tally.expect(all((into / name).is_file() for name in MADE), "the files", list(into.iterdir()))
    (into / "libparbegin.so").unlink()
    status, told, built = it.run("library", str(into))
    tally.expect((status, built) == (DONE, []) and "built already" in told, "the second call", told, built)
    tally.expect((into / "libparbegin.so").is_file(), "the second call links nothing")
    source = next((it.top / "crates/pb_base/src").glob("*.rt"))
    os.utime(source)
    tally.expect(it.run("library", str(into))[2] == [], "a file that was touched is built")
    source.write_bytes(source.read_bytes() + b"\n")
    tally.expect(len(it.run("library", str(into))[2]) == len(CRATES), "a source that was changed is overlooked")
    archive = it.top / "crates/pb_c_call/out/libpb_c_call.a"
    archive.write_bytes(archive.read_bytes()[:-1])
    tally.expect(len(it.run("library", str(into))[2]) == len(CRATES), "an archive that was changed is taken")
    archive.unlink()
    tally.expect(len(it.run("library", str(into))[2]) == len(CRATES), "an archive that is gone is not seen")


def try_pkg_config(tally: Tally, it: Checkout, into: pathlib.Path, files: pathlib.Path) -> None:
    """Builds a program as pkg-config says, which reads the file in this folder, and runs it."""
    source, program = it.folder / "caller.c", it.folder / "caller"
    source.write_text(CALLER)
    there = {**os.environ, "PKG_CONFIG_PATH": str(files)}
    asked = ["pkg-config", "--cflags", "--libs", "parbegin"]
    said = subprocess.run(asked, env=there, capture_output=True, text=True, check=False)
    words = ["gcc", source, *shlex.split(said.stdout), "-o", program]
    ran = subprocess.run(words, cwd="/", capture_output=True, text=True, check=False)
    tally.expect(ran.returncode == 0, "pkg-config in", files, said.stdout, said.stderr, ran.stderr)
    if ran.returncode == 0:
        shared = {**os.environ, "LD_LIBRARY_PATH": str(into)}
        tally.expect(subprocess.run([program], env=shared, check=False).returncode == STATUS, "what was built in", files)


def try_prefix(tally: Tally, it: Checkout, into: pathlib.Path) -> None:
    """Puts the files where install.sh puts them, and asks pkg-config there."""
    prefix = it.folder / "usr"
    for name, folder in zip(MADE, ("lib", "lib", "include")):
        (prefix / folder).mkdir(parents=True, exist_ok=True)
        shutil.copy(into / name, prefix / folder)
    (prefix / "lib/libparbegin.so.0").symlink_to("libparbegin.so")
    put = re.search(r'^put 644 "\$top/(\S+)" "\$prefix/lib/pkgconfig" parbegin.pc$', (TOP / "install.sh").read_text(), re.M)
    tally.expect(put, "install.sh puts no parbegin.pc")
    (prefix / "lib/pkgconfig").mkdir()
    shutil.copy(TOP / (put[1] if put else "extras/library/parbegin.pc"), prefix / "lib/pkgconfig")
    try_pkg_config(tally, it, prefix / "lib", prefix / "lib/pkgconfig")


def main() -> None:
    tally = Tally()
    with tempfile.TemporaryDirectory(prefix="parbegin-library-") as name:
        it = copied(pathlib.Path(name))
        into = it.folder / "a library"
        into.mkdir()
        try_words(tally, it)
        try_builds(tally, it, into)
        try_pkg_config(tally, it, into, into)
        try_prefix(tally, it, into)
    tally.end("library")


main()
