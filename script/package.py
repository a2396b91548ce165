"""`./parbegin package`: the program, the script and what belongs to them, as a Debian package and as a tar.gz."""
from __future__ import annotations

import os
import pathlib
import re
import shutil
import subprocess
import tarfile
import tempfile

from script.helping import HELPFUL, ran_on, write
from script.places import TOP, WORDS, is_installed, say, stop, write_message

USE = "usage: parbegin package"
HELP = """Pack the program, the script and what belongs to them: a Debian package and a tar.gz

Usage: parbegin package

Writes dist/parbegin_VERSION_amd64.deb and dist/parbegin_VERSION_amd64.tar.gz below the top of the checkout, and removes what
was in dist before. The program and the library are built first if they have to be, and standard error says how far that is.
The package puts all below /usr; the tar.gz has the same in a folder of its own.

Wants dpkg-deb, and for the library the kit's rt, gcc and ar.

Options:
  -h, --help  Print help
"""

# What is packed beside what install.sh puts under a prefix: a pattern below the top, and the folder of the prefix.
CONTENTS = (
    ("README.md", "share/doc/parbegin"), ("LICENSE", "share/doc/parbegin"), ("docs", "share/doc/parbegin"),
    ("examples", "share/doc/parbegin"), ("extras/vim/*", "share/vim/vimfiles"), ("extras/vscode", "share/parbegin"),
    ("extras/README.md", "share/parbegin"), ("extras/systemd", "share/parbegin"), ("extras/hold/*.[ch]", "share/parbegin/hold"),
    ("extras/hold/build.sh", "share/parbegin/hold"),
    # (what docs/LIBRARY.md names)
    ("extras/library/*.c", "share/doc/parbegin/extras/library"), ("extras/library/*.stdout", "share/doc/parbegin/extras/library"),
    ("extras/python", "share/doc/parbegin/extras"), ("extras/rust", "share/doc/parbegin/extras"),
    ("crates/pb_example_[bp]*", "share/doc/parbegin/crates"), ("crates/pb_c_bank/specs", "share/doc/parbegin/crates/pb_c_bank"),
    ("checks/languages", "share/doc/parbegin/checks"), ("checks/slow/languages.py", "share/doc/parbegin/checks/slow"),
    ("checks/slow/python_bank.py", "share/doc/parbegin/checks/slow"),
)
NO_CONTENTS = ("out", "target", "__pycache__", "*.pyc")
CONTROL = """Package: parbegin
Version: {version}
Architecture: amd64
Maintainer: {maintainer}
Depends: python3 (>= 3.9), libc6
Recommends: libjs-codemirror, qrencode
Section: devel
Priority: optional
Installed-Size: {size}
Description: programs of cooperating jobs that cannot deadlock
 A compiler and runtime for a small language in Dijkstra's notation of
 parbegin and parend, with a debugger, proved by the prover of Rattle.
"""


COPYRIGHT = """Format: https://www.debian.org/doc/packaging-manuals/copyright-format/1.0/
Upstream-Name: parbegin

Files: *
Copyright: {owner}
License: Expat

License: Expat
{terms}
"""


def answer(words: list[str]) -> int:
    """Answers a call that packs nothing, and returns the status."""
    if any(word in HELPFUL for word in words):
        return write(HELP)
    write_message(f"{USE}\n")
    return WORDS


def copyright_of(text: str) -> str:
    """Returns the licence as Debian has it: the terms as one field, with a dot in each empty line."""
    owner = re.search(r"^Copyright \(c\) (.+)$", text, re.M)
    terms = text[owner.end() :].strip().splitlines()
    return COPYRIGHT.format(owner=owner[1], terms="\n".join(f" {line or '.'}" for line in terms))


def version(start: list[str]) -> str:
    """Returns the version of the program."""
    found = re.search(rb"(\d+(?:\.\d+)+)", ran_on(start, ["--version"])[1])
    return found[1].decode() if found else "0"


def fill(prefix: str) -> None:
    """Puts all that is packed under a prefix, the library for C too."""
    subprocess.run([f"{TOP}/install.sh", prefix, "library"], stdout=subprocess.DEVNULL, check=True)
    # (where Debian's Python looks for packages)
    shutil.move(f"{prefix}/share/parbegin/python", f"{prefix}/lib/python3/dist-packages")
    for pattern, folder in CONTENTS:
        for path in sorted(pathlib.Path(TOP).glob(pattern)):
            to = pathlib.Path(prefix, folder, path.name)
            to.parent.mkdir(parents=True, exist_ok=True)
            if path.is_dir():
                shutil.copytree(path, to, ignore=shutil.ignore_patterns(*NO_CONTENTS), dirs_exist_ok=True)
            else:
                shutil.copy(path, to)
    folder = pathlib.Path(prefix, "share/doc/parbegin")
    (folder / "copyright").write_text(copyright_of((folder / "LICENSE").read_text()))


def write_control(root: str, number: str) -> None:
    """Writes what dpkg has to know, and that the loader has a new library to find."""
    files = [path for path in pathlib.Path(root).rglob("*") if path.is_file()]
    size = sum(path.stat().st_size for path in files) // 1024 + 1
    (pathlib.Path(root) / "DEBIAN").mkdir()
    maintainer = "the authors of parbegin <parbegin@localhost>"
    (pathlib.Path(root) / "DEBIAN/control").write_text(CONTROL.format(version=number, size=size, maintainer=maintainer))
    (pathlib.Path(root) / "DEBIAN/triggers").write_text("activate-noawait ldconfig\n")


def write_package(root: str, file: str) -> None:
    """Writes the Debian package."""
    words = ["dpkg-deb", "--root-owner-group", "--build", root, file]
    ran = subprocess.run(words, stdout=subprocess.PIPE, stderr=subprocess.STDOUT, text=True, check=False)
    if ran.returncode:
        stop(f"dpkg-deb wrote no package: {ran.stdout.strip()}")


def owned_by_root(it: tarfile.TarInfo) -> tarfile.TarInfo | None:
    """Returns an entry of the tar.gz with root as its owner; none of what only dpkg reads."""
    it.uid = it.gid = 0
    it.uname = it.gname = "root"
    return None if "/DEBIAN" in it.name else it


def package(start: list[str]) -> int:
    """Writes dist/parbegin_VERSION_amd64.deb and dist/parbegin_VERSION_amd64.tar.gz, and returns the status."""
    if is_installed():
        stop("package is for a checkout")
    if not shutil.which("dpkg-deb"):
        stop("dpkg-deb is not on the path")
    number = version(start)
    name = f"{TOP}/dist/parbegin_{number}_amd64"
    shutil.rmtree(f"{TOP}/dist", ignore_errors=True)
    os.makedirs(f"{TOP}/dist")
    with tempfile.TemporaryDirectory(prefix="parbegin-package-") as root:
        os.chmod(root, 0o755)
        fill(f"{root}/usr")
        with tarfile.open(f"{name}.tar.gz", "w:gz") as packed:
            packed.add(f"{root}/usr", arcname=f"parbegin-{number}", filter=owned_by_root)
        write_control(root, number)
        write_package(root, f"{name}.deb")
    for kind in ("deb", "tar.gz"):
        say(f"{name}.{kind}: {os.path.getsize(f'{name}.{kind}') / 1e6:.1f} MB")
    return 0
