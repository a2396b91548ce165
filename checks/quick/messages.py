#!/usr/bin/env python3
"""Compares what a refusal says on standard error with the files of checks/messages/.

    checks/quick/messages.py [PROGRAM]             PROGRAM is the one that ./parbegin has built if none is given
    checks/quick/messages.py --write [PROGRAM]     writes the files of the examples anew, after a change of crates/pb_messages

CODE.txt is what the example of `explain CODE` says. NAME.txt beside a program NAME.pb is what `check` says of it, and
beside picks NAME.run what `replay` says; their first word is the code of the refusal. Those were written down before
the program was asked, and --write leaves them as they are. `--quiet` before the command must leave the message out and
change neither standard output nor the status; nor may a standard error that is closed or full. Its status is 0 if all
is as wanted, and 1 if not.
"""
import os
import pathlib
import re
import shlex
import subprocess
import sys
import tempfile

sys.path.insert(0, str(pathlib.Path(__file__).resolve().parents[1] / "lib"))

from calls import DONE, REFUSED, TOP, Tally, call, program, writes  # noqa: E402

FOLDER = TOP / "checks/messages"
EXAMPLE = re.compile(r"\nFor example:\n\n((?:[^\n]+\n)+)\nshows\n")
COMMANDS = {".pb": "check", ".run": "replay"}


def examples():
    """Returns the call of each code that has one, as a line for a shell."""
    status, listed = call(["explain"], b"")
    assert status == DONE, status
    for line in listed.decode().splitlines():
        code = line.split(":")[0]
        found = EXAMPLE.search(call(["explain", code], b"")[1].decode())
        if found:
            yield code, found[1]


def inputs():
    """Returns the call of each input of the folder, as a line for a shell."""
    for file in sorted(FOLDER.iterdir()):
        if file.suffix in COMMANDS:
            yield file.stem, f"parbegin {COMMANDS[file.suffix]} < {shlex.quote(str(file))}"


def shell(line, folder, error=subprocess.PIPE):
    """Makes the call, and returns its status and what it wrote on standard output and on standard error."""
    where = {**os.environ, "PATH": f"{folder}:{os.environ['PATH']}"}
    ran = subprocess.run(["bash", "-o", "pipefail", "-c", line], env=where, stdout=subprocess.PIPE, stderr=error, check=False)
    return ran.returncode, ran.stdout, (ran.stderr or b"").decode(errors="replace")


def wanted(name):
    """Returns what a call is to say on standard error: nothing of a command of the bank, whose session goes on, nor of an
    accepted text."""
    if re.fullmatch(r"[BW]\d+", name):
        return ""
    file = FOLDER / f"{name}.txt"
    return file.read_text(encoding="utf-8") if file.is_file() else None


def compare(tally, name, line, folder, full):
    """Compares what a call says with its file, and tries it without a standard error."""
    status, told, message = shell(line, folder)
    tally.expect(message == wanted(name), name, "says", message)
    refused = status == REFUSED and told.decode().split()[:2] == ["refused", name.split("-")[0]]
    tally.expect(refused or "-" not in name, name, "is told as", told)
    quiet = re.sub(r"\bparbegin ", "parbegin --quiet ", line)
    tally.expect(shell(quiet, folder) == (status, told, ""), name, "is not quiet")
    tally.expect(shell(line, folder, full)[:2] == (status, told), name, "depends on standard error")
    tally.expect(shell(f"exec 2>&-\n{line}", folder)[:2] == (status, told), name, "needs a standard error")


def main():
    is_written = writes()
    tally = Tally()
    with tempfile.TemporaryDirectory() as folder, open("/dev/full", "wb") as full:
        (pathlib.Path(folder) / "parbegin").symlink_to(program())
        for code, line in examples():
            if is_written and wanted(code) != "":
                (FOLDER / f"{code}.txt").write_text(shell(line, folder)[2], encoding="utf-8")
            compare(tally, code, line, folder, full)
        for name, line in inputs():
            compare(tally, name, line, folder, full)
    tally.end("messages")


main()
