#!/usr/bin/env python3
"""Runs the built program on every example under valgrind.

    checks/slow/memory_use.py [PROGRAM]     PROGRAM is the one that ./parbegin has built if none is given

memcheck looks at each command for reads and writes outside of what was allocated, for jumps that depend on bytes that
were never written, and for memory that is lost (threads.supp names what the C library keeps for a thread, which is not);
helgrind and drd look at runs of four workers for data races. It is run by hand on Linux with valgrind; its status is 0
if nothing was found, and 1 if not.
"""
import subprocess
import sys
import tempfile
from pathlib import Path

sys.path.insert(0, str(Path(__file__).resolve().parents[1] / "lib"))

from calls import EXAMPLES, TOP, Tally, debugged, first_object_of, object_of, program, recorded  # noqa: E402

FOUND = 99
TOOLS = {
    "memcheck": ["--tool=memcheck", "--leak-check=full", "--show-leak-kinds=definite,indirect,possible",
                 "--errors-for-leak-kinds=definite,indirect,possible", f"--suppressions={TOP}/checks/threads.supp"],
    "helgrind": ["--tool=helgrind"],
    "drd": ["--tool=drd"],
}


def look(tally, tool, words, given, name):
    """Runs the program under a tool of valgrind."""
    with tempfile.NamedTemporaryFile() as log:
        # (not on standard error, where the program explains a refusal)
        how = ["valgrind", "-q", f"--log-file={log.name}", f"--error-exitcode={FOUND}", *TOOLS[tool], program(words), *words]
        ran = subprocess.run(how, input=given, stdout=subprocess.DEVNULL, stderr=subprocess.DEVNULL, check=False)
        found = log.read().decode(errors="replace")
    tally.expect(ran.returncode != FOUND and not found, tool, name, words, found[:2000])


def main():
    tally = Tally()
    for file in EXAMPLES:
        text = file.read_bytes()
        for words in (["check"], ["check", "--heap", "1048576"], ["claims"], ["plan"], ["run"], ["emit"],
                      ["emit", "--object", "1"], ["record"], ["record", "--seed", "7"], ["run", "--workers", "4", "--quantum", "1"], ["outcomes"]):
            look(tally, "memcheck", words, text, file.name)
        look(tally, "memcheck", ["exec"], object_of(text), file.name)
        look(tally, "memcheck", ["migrate"], first_object_of(text), file.name)
        for words in (["replay"], ["draw"]):
            look(tally, "memcheck", words, recorded(text), file.name)
        for words in (["debug"], ["debug", "--live"]):
            look(tally, "memcheck", words, debugged(text), file.name)
        for tool in ("helgrind", "drd"):
            for quantum in ("1", "64"):
                look(tally, tool, ["run", "--workers", "4", "--quantum", quantum], text, file.name)
    tally.end("memory use")


main()
