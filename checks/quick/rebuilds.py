#!/usr/bin/env python3
"""Shows when ./parbegin builds, and what: the tool of the command, only if a file that it is made from has other contents.

    checks/quick/rebuilds.py

It works on a copy of the script with the crate of each tool over one other, and with a command in place of the kit's rt
that only writes down what it was called for.
Its status is 0 if all is as wanted, and 1 if not.
"""
from __future__ import annotations

import os
import pathlib
import shutil
import subprocess
import sys
import tempfile
import time

sys.path.insert(0, str(pathlib.Path(__file__).resolve().parents[1] / "lib"))

from calls import TOP, WORDS, Tally  # noqa: E402
from script.tools import COMMANDS_OF, crate_of  # noqa: E402

# In place of rt: writes down its call, and as a build of the program makes one that says so.
RT = """#!/bin/sh
echo "$PWD $*" >>"$CALLS"
case "$1" in
run)
    tool=out/${PWD##*/}
    printf '#!/bin/sh\\necho a program\\nexit %d\\n' "$(cat status 2>/dev/null || echo 0)" >$tool.new
    chmod +x $tool.new
    mv $tool.new $tool
    exit "$(cat status 2>/dev/null || echo 0)"
    ;;
esac
"""
CRATES = {"pb_base": "", **{crate_of(tool): "pb_base" for tool in COMMANDS_OF}}
RUN = crate_of("run")
# What `run` needs: its tool, and the crate below.
OF_RUN = 2
SOURCE = "crates/pb_base/src/lib.rt"
NO_PROGRAM = 8


class Checkout:
    """A copy of the checkout, and the calls of rt that its script makes."""

    def __init__(self, top: pathlib.Path, folder: pathlib.Path) -> None:
        self.top, self.calls = top, folder / "calls"
        self.where = {**os.environ, "PATH": f"{folder}/bin:{os.environ['PATH']}", "CALLS": str(self.calls)}

    def run(self, *words: str) -> tuple[int, bytes, int]:
        """Calls the script, and returns its status, what it wrote, and how many crates it built."""
        self.calls.write_text("")
        words = words or ("run", "examples/hello.pb")
        ran = subprocess.run(
            [str(self.top / "parbegin"), *words], cwd=self.top, env=self.where, capture_output=True, check=False)
        return ran.returncode, ran.stdout, len(self.calls.read_text().splitlines())

    def builds(self) -> bool:
        """Calls the script, and returns whether it built the tool of `run`, all crates of it and no others."""
        status, told, built = self.run()
        assert told == b"a program\n", (status, told)
        assert built in (0, OF_RUN), built
        return built > 0


def copied(folder: pathlib.Path) -> Checkout:
    """Returns a copy of the sources, with the command in place of rt."""
    first = folder / "first"
    for part in ("script", *(f"crates/{crate}/src" for crate in CRATES)):
        shutil.copytree(TOP / part, first / part, ignore=shutil.ignore_patterns("__pycache__"))
    for tool in COMMANDS_OF:
        for file in ("args", "stdin", "status"):
            if (TOP / f"crates/{crate_of(tool)}/{file}").exists():
                shutil.copy(TOP / f"crates/{crate_of(tool)}/{file}", first / f"crates/{crate_of(tool)}/{file}")
    (first / "examples").mkdir()
    (first / "docs").mkdir()
    for file in ("parbegin", "examples/hello.pb", "docs/parbegin.1"):
        shutil.copy(TOP / file, first / file)
    (first / "crates.txt").write_text("".join(f"{crate}: {below}\n" for crate, below in CRATES.items()))
    (folder / "bin").mkdir()
    (folder / "bin/rt").write_text(RT)
    (folder / "bin/rt").chmod(0o755)
    return Checkout(first, folder)


def try_nothing_built(tally: Tally, it: Checkout) -> None:
    """Tries help, and words that are no command, where nothing is built: nothing is built for them."""
    for words, status, part in [
        (["--help"], 0, b"  outcomes  Prints every way"), (["help"], 0, b"  bank      "), (["plan", "--help"], 0, b"  --table\n"),
        (["help", "race"], 0, b"race: "), (["--version"], 0, b""), (["fly"], WORDS, b""), ([""], WORDS, b""), (["examples/hello.pb"], WORDS, b""),
    ]:
        told = it.run(*words)
        tally.expect(told[0] == status and part in told[1] and told[2] == 0, words, "where nothing is built", told)


def try_changes(tally: Tally, it: Checkout) -> None:
    """Tries changes of a source in place."""
    source = it.top / SOURCE
    contents = source.read_bytes()
    tally.expect(it.builds(), "the first call builds nothing")
    tally.expect(not it.builds(), "the second call builds")
    os.utime(source)
    tally.expect(not it.builds(), "a file that was touched is built")
    new = source.with_suffix(".new")
    new.write_bytes(contents)
    os.replace(new, source)
    tally.expect(not it.builds(), "a file that was written anew is built")
    source.write_bytes(contents.replace(b"a", b"b", 1))
    tally.expect(it.builds(), "other contents of the same length are not built")
    source.write_bytes(contents)
    tally.expect(it.builds(), "the contents from before are not built")
    (source.parent / "more.rt").write_bytes(b"")
    tally.expect(it.builds(), "a new file is not built")
    (source.parent / "more.rt").unlink()
    tally.expect(it.builds(), "a file that is gone is not seen")
    program = it.top / f"crates/{RUN}/out/{RUN}"
    program.write_bytes(program.read_bytes() + b"# by hand\n")
    tally.expect(it.builds(), "a program that was changed is taken")
    built = it.run("build")[2]
    tally.expect(built == len(CRATES) - OF_RUN + 1, "all tools are built of", built, "crates")
    tally.expect(it.run("build")[2] == 0, "all tools are built once more")
    tally.expect(not it.builds(), "the tool of `run` is built once more")


def try_copies(tally: Tally, it: Checkout, folder: pathlib.Path) -> None:
    """Tries a copy of what is built, and one by hard links."""
    shutil.copytree(it.top, folder / "copy", copy_function=shutil.copyfile)
    for file in ("parbegin", "script/tools.sh", *(f"crates/{crate_of(it)}/out/{crate_of(it)}" for it in COMMANDS_OF)):
        (folder / "copy" / file).chmod(0o755)
    tally.expect(not Checkout(folder / "copy", folder).builds(), "a copy is built")
    shutil.copytree(it.top, folder / "links", copy_function=os.link)
    tally.expect(not Checkout(folder / "links", folder).builds(), "a copy by hard links is built")
    tally.expect(not it.builds(), "a checkout with hard links to it is built")


def forget(records: list[pathlib.Path]) -> None:
    """Removes the records of what the tools were built from."""
    for record in records:
        record.unlink(missing_ok=True)


def try_gate(tally: Tally, it: Checkout) -> None:
    """Tries to take over the tools that the gate has built."""
    outs = [it.top / f"crates/{crate_of(tool)}/out" for tool in COMMANDS_OF]
    records, option = [out / "built_from.json" for out in outs], "--built-by-the-gate"
    forget(records)
    began = str(time.time())
    tally.expect(it.run(option, began)[0] == NO_PROGRAM, "tools from before the gate are taken")
    for out in outs:
        os.utime(out / out.parent.name)
    tally.expect(it.run(option, began) == (0, b"", 0), "the gate's tools are not taken")
    tally.expect(not it.builds(), "the gate's tools are built once more")
    forget(records)
    tally.expect(it.run(option)[0] == 0, "the gate's tools are not taken without a time")
    forget(records)
    os.utime(it.top / SOURCE)
    tally.expect(it.run(option, began)[0] == NO_PROGRAM, "a source that changed during the gate is overlooked")
    tally.expect(it.run(option)[0] == NO_PROGRAM, "a source newer than the tools is overlooked")
    tally.expect(not any(record.exists() for record in records), "something was recorded")
    tally.expect(it.builds(), "what the gate has not proved is not built")


def main() -> None:
    tally = Tally()
    with tempfile.TemporaryDirectory(prefix="parbegin-rebuilds-") as name:
        folder = pathlib.Path(name)
        it = copied(folder)
        try_nothing_built(tally, it)
        try_changes(tally, it)
        try_copies(tally, it, folder)
        try_gate(tally, it)
    tally.end("rebuilds")


main()
