"""Makes the library for C, and for whatever calls C, of the archives of crates: libparbegin.a, libparbegin.so, parbegin.h
and parbegin.pc. `./parbegin library FOLDER` builds the archives first (script/library.py). Wants `rt`, `gcc` and `ar`.
"""
from __future__ import annotations

import shutil
import subprocess
import tempfile
from pathlib import Path

HERE = Path(__file__).resolve().parent
# The names that the shared library gives out.
NAMES = (
    "pb_bank_new",
    "pb_bank_adopt",
    "pb_bank_join",
    "pb_bank_leave",
    "pb_bank_ask",
    "pb_bank_give",
    "pb_bank_drop_all",
    "pb_bank_order",
    "pb_bank_why",
    "pb_call",
    "pb_check",
    "pb_claims",
    "pb_plan",
)


class Unbuilt(Exception):
    """The library could not be built; the text says why."""


def run(*words: object, folder: Path | None = None) -> str:
    """Runs a program, and returns what it prints."""
    given = [str(word) for word in words]
    try:
        ran = subprocess.run(given, cwd=folder, stdout=subprocess.PIPE, stderr=subprocess.STDOUT, text=True, check=False)
    except OSError as fault:
        raise Unbuilt(f"{given[0]}: {fault.strerror}") from fault
    if ran.returncode:
        raise Unbuilt(f"{' '.join(given)}\n{ran.stdout}")
    return ran.stdout


def heap() -> Path:
    """Returns the kit's archive that ties a program to malloc, realloc and free."""
    rt = shutil.which("rt")
    if rt is None:
        raise Unbuilt("the kit's command rt is not on the path")
    return Path(rt).resolve().parent.parent / "c" / "liblibc_c.a"


def merge(parts: list[Path], archive: Path) -> None:
    """Writes one archive with the object files of others."""
    with tempfile.TemporaryDirectory() as name:
        for part in parts:
            room = Path(name) / part.stem
            room.mkdir()
            run("ar", "x", part, folder=room)
        objects = sorted(Path(name).glob("*/*.o"))
        archive.unlink(missing_ok=True)
        run("ar", "rcsD", archive, *objects)


def link(archive: Path, shared: Path) -> None:
    """Links a shared library that gives out the functions of the header and nothing else."""
    with tempfile.NamedTemporaryFile("w", suffix=".map") as script:
        script.write("{ global: " + " ".join(f"{name};" for name in NAMES) + " local: *; };\n")
        script.flush()
        named = f"-Wl,--version-script={script.name}"
        run("gcc", "-shared", "-Wl,--whole-archive", archive, "-Wl,--no-whole-archive", "-Wl,-z,defs", named,
            f"-Wl,-soname,{shared.name}.0", "-o", shared)
    soname = shared.with_name(f"{shared.name}.0")
    soname.unlink(missing_ok=True)
    soname.symlink_to(shared.name)


def pc_beside() -> str:
    """Returns what pkg-config reads of a library that lies beside it; parbegin.pc is for one under a prefix."""
    text = (HERE / "parbegin.pc").read_text()
    for under, beside in (("${pcfiledir}/../..", "${pcfiledir}"), ("${prefix}/lib\n", "${prefix}\n"), ("${prefix}/include\n", "${prefix}\n")):
        text = text.replace(under, beside)
    return text


def write_library(archives: list[str], into: str) -> list[str]:
    """Makes the library of these archives in a folder, and returns the names of its files.

    Raises Unbuilt if a program that it needs is not there or fails.
    """
    folder = Path(into)
    archive, shared = folder / "libparbegin.a", folder / "libparbegin.so"
    merge([*map(Path, archives), heap()], archive)
    link(archive, shared)
    shutil.copyfile(HERE / "parbegin.h", folder / "parbegin.h")
    (folder / "parbegin.pc").write_text(pc_beside())
    return [archive.name, shared.name, "parbegin.h", "parbegin.pc"]
