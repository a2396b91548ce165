"""Runs the sources once with no proof, by the kit's trial run."""
from __future__ import annotations

import contextlib
import re
import shutil
import subprocess
import tempfile

from script.kit import rt_path
from script.places import TOP, is_installed, say, stop, write_message
from script.tools import any_tool, command_of, crate_of, tool_of

# How the lines begin that a trial run writes to standard error after those of the program, before its last one.
LINES_OF_A_TRIAL = ("checked: ", "races: ")
UNPROVED = (
    "this is not the proved program: the sources of {} are compiled with no proof, and run once"
)


def tried(tool: str, words: list[str]) -> str:
    """Makes the trial run of a tool on all of standard input, and returns what it writes to standard error."""
    with tempfile.TemporaryFile() as given, tempfile.TemporaryFile() as told:
        # (rt takes what standard input has until it is silent for two seconds)
        with contextlib.suppress(OSError), open(0, "rb", closefd=False) as standard_input:
            shutil.copyfileobj(standard_input, given)
        given.seek(0)
        command = [rt_path(), "try", "--", *words]
        with subprocess.Popen(command, cwd=f"{TOP}/crates/{crate_of(tool)}", stdin=given, stderr=told) as trial:
            try:
                trial.wait()
            except KeyboardInterrupt:
                trial.terminate()
                raise
        told.seek(0)
        return told.read().decode(errors="replace")


def messages_of(told: str) -> list[str]:
    """Returns the lines that the program wrote, without those of the trial run after them."""
    lines = told.splitlines()[:-1]
    while lines and lines[-1].startswith(LINES_OF_A_TRIAL):
        lines.pop()
    return lines


def run_unproved(words: list[str]) -> int:
    """Runs the sources by rt try, and returns the status that the program ended with."""
    if is_installed():
        stop("--unproved is for a checkout, with its sources")
    rt_path()
    tool = tool_of(command_of(words)) or any_tool()
    say(UNPROVED.format(f"parbegin-{tool}"))
    told = tried(tool, words)
    ended = re.search(r"^run=ended status=(\d+) .*proved=no\n\Z", told, re.M)
    if not ended:
        stop("\n  ".join(["the trial run gave no answer:", *told.splitlines()]))
    warned = [line for line in told.splitlines() if line.startswith("rt: ")]
    for line in warned:
        say(line)
    for line in messages_of(told):
        if line not in warned:
            write_message(f"{line}\n")
    return int(ended[1])
