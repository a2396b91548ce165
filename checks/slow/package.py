#!/usr/bin/env python3
"""Unpacks what `./parbegin package` writes, the Debian package and the tar.gz, each into an empty folder, and runs the
program there, with no kit on the path; and calls the library from C, by pkg-config, and from Python.

    checks/slow/package.py

It wants gcc and pkg-config. Its status is 0 if all is as wanted, and 1 if not.
"""
from __future__ import annotations

import os
import pathlib
import re
import shutil
import subprocess
import sys
import tarfile
import tempfile

sys.path.insert(0, str(pathlib.Path(__file__).resolve().parents[1] / "lib"))

from calls import DONE, REFUSED, TOP, Tally  # noqa: E402

EMPTY = {"PATH": "/usr/bin:/bin", "HOME": "/", "LANG": "C.UTF-8"}
# Where the parts are below /usr, or below the folder of the tar.gz.
PARTS = (
    "bin/parbegin", "libexec/parbegin/parbegin-run", "libexec/parbegin/parbegin-bank", "libexec/parbegin/parbegin-search",
    "libexec/parbegin/parbegin-debug", "libexec/parbegin/parbegin-edit", "libexec/parbegin/script/tools.sh",
    "libexec/parbegin/script/main.py", "libexec/parbegin/script/serving/serve.py",
    "libexec/parbegin/script/serving/page.html", "libexec/parbegin/script/teaching/teach.py", "share/parbegin/class/class.html",
    "share/parbegin/exercises/01-three-orders.md", "bin/parbegin-hold", "share/man/man1/parbegin.1",
    "share/bash-completion/completions/parbegin", "share/fish/vendor_completions.d/parbegin.fish",
    "share/vim/vimfiles/syntax/parbegin.vim", "share/parbegin/vscode/package.json", "share/doc/parbegin/README.md",
    "share/doc/parbegin/docs/LANGUAGE.md", "share/doc/parbegin/examples/devices.pb",
    "lib/python3/dist-packages/parbegin/__init__.py", "share/parbegin/page/page.html", "lib/libparbegin.a", "lib/libparbegin.so",
    "lib/pkgconfig/parbegin.pc", "include/parbegin.h",
)


# Files of the sources that a document names by their path.
NAMED = re.compile(r"(?<![\w./-])\w[\w.-]*(?:/[\w.-]*\w)+")


def unpacked(folder: pathlib.Path) -> dict[str, pathlib.Path]:
    """Unpacks both files of dist/, and returns where each has its parts."""
    (package,) = sorted((TOP / "dist").glob("*.deb"))
    (archive,) = sorted((TOP / "dist").glob("*.tar.gz"))
    subprocess.run(["dpkg-deb", "-x", package, folder / "deb"], check=True)
    with tarfile.open(archive) as it:
        it.extractall(folder / "tar")
    (top,) = (folder / "tar").iterdir()
    return {package.name: folder / "deb/usr", archive.name: top}


def run(prefix: pathlib.Path, *words: str, given: bytes = b"") -> tuple[int, bytes, bytes]:
    """Calls the script below a prefix, in the folder of the examples."""
    ran = subprocess.run(
        [prefix / "bin/parbegin", *words], cwd=prefix / "share/doc/parbegin/examples", env=EMPTY, input=given,
        capture_output=True, check=False)
    return ran.returncode, ran.stdout, ran.stderr


def try_prefix(tally: Tally, name: str, prefix: pathlib.Path) -> None:
    """Looks for the parts below a prefix, and runs what is there."""
    for part in PARTS:
        tally.expect((prefix / part).is_file(), name, "has no", part)
    for it in prefix.rglob("*"):
        tally.expect(os.access(it, os.R_OK) and it.name != "out" and it.suffix != ".pyc", name, "has", it)
    hello = (TOP / "examples/expected/hello.out").read_bytes()
    tally.expect(run(prefix, "run", "hello.pb") == (DONE, hello, b""), name, "run")
    tally.expect(run(prefix, "debug", "lost.run", given=b"to 3\nvars p\n")[:2] == (DONE, b"at 3\nx 0\n"), name, "debug")
    tally.expect(run(prefix, "draw", "lost.run")[1].startswith(b"<svg"), name, "draw")
    tally.expect(run(prefix, "page", "lost.run")[1].rstrip().endswith(b"</html>"), name, "page")
    status, told, _ = run(prefix, "check", "--format", "gcc", "4-claims/too_much.pb")
    tally.expect(status == REFUSED and b": error: C1: " in told, name, "check")
    tally.expect(run(prefix, "--version")[0] == DONE, name, "the version")


def try_documents(tally: Tally, name: str, prefix: pathlib.Path) -> None:
    """Looks for what docs/LIBRARY.md names, and for the licence."""
    documents = prefix / "share/doc/parbegin"
    named = {path for path in NAMED.findall((documents / "docs/LIBRARY.md").read_text()) if (TOP / path).exists()}
    tally.expect(len(named) > 20, name, "docs/LIBRARY.md names", named)
    for path in named:
        tally.expect((documents / path).exists(), name, "docs/LIBRARY.md names", path)
    said = (documents / "copyright").read_text()
    tally.expect(said.startswith("Format: https://www.debian.org/doc/packaging-manuals/copyright-format/1.0/\n"), name, "copyright")
    terms = [line for line in (TOP / "LICENSE").read_text().splitlines()[3:] if line]
    tally.expect(all(f"\n {line}\n" in said for line in terms), name, "the terms of the licence")


def try_library(tally: Tally, name: str, prefix: pathlib.Path, folder: pathlib.Path) -> None:
    """Builds and runs the night of a batch runner in C, as pkg-config says, and the one in Python."""
    there = {**EMPTY, "PKG_CONFIG_PATH": f"{prefix}/lib/pkgconfig", "LD_LIBRARY_PATH": f"{prefix}/lib"}
    night, wanted = folder / "night", (TOP / "extras/library/night.stdout").read_bytes()
    flags = subprocess.run(["pkg-config", "--cflags", "--libs", "parbegin"], env=there, capture_output=True, text=True, check=False)
    programs = prefix / "share/doc/parbegin/extras"
    words = ["gcc", programs / "library/night.c", *flags.stdout.split(), "-o", night]
    tally.expect(subprocess.run(words, env=there, check=False).returncode == 0, name, "the night in C is not built")
    ran = subprocess.run([night], env=there, capture_output=True, check=False)
    tally.expect((ran.returncode, ran.stdout) == (DONE, wanted), name, "the night in C", ran)
    # (there is no program on the path that it could ask in place of the library)
    python = {**there, "PYTHONPATH": f"{prefix}/lib/python3/dist-packages", "PYTHONDONTWRITEBYTECODE": "1"}
    copied, wanted = shutil.copy(programs / "python/night.py", folder), (TOP / "extras/python/night.stdout").read_bytes()
    ran = subprocess.run(["python3", copied], env=python, capture_output=True, check=False)
    tally.expect((ran.returncode, ran.stdout) == (DONE, wanted), name, "the night in Python", ran)


def main() -> None:
    tally = Tally()
    ran = subprocess.run([TOP / "parbegin", "package"], stderr=subprocess.PIPE, text=True, check=False)
    if ran.returncode:
        sys.exit(ran.stderr)
    with tempfile.TemporaryDirectory(prefix="parbegin-package-") as folder:
        for name, prefix in unpacked(pathlib.Path(folder)).items():
            try_prefix(tally, name, prefix)
            try_documents(tally, name, prefix)
            try_library(tally, name, prefix, pathlib.Path(folder))
    tally.end("package")


main()
