#!/usr/bin/env python3
"""Calls the script as people do who make a mistake, or ask for help, and compares its status and what it writes.

    checks/quick/usage.py [PROGRAM]     PROGRAM is the one that ./parbegin has built if none is given

Its status is 0 if all is as wanted, and 1 if not.
"""
from __future__ import annotations

import os
import pathlib
import shutil
import subprocess
import sys
import tempfile

sys.path.insert(0, str(pathlib.Path(__file__).resolve().parents[1] / "lib"))

from calls import DEADLOCK, DEVICE, DONE, FAULT, LIMIT, REFUSED, TOP, WORDS, Tally, installed  # noqa: E402
from pseudo_terminal import Terminal  # noqa: E402

# The status of `outcomes --expect` if some run is not as expected.
UNEXPECTED = 10
# The words of a call, its status, and what standard output and standard error must have: a part of it, or none.
CALLS = [
    (["run", "hello.pb"], DONE, "p.0 print 1\np end\ndone\n", None),
    (["run", "hello.txt"], DONE, "p end\n", None),
    (["run", "nosuch.pb"], DEVICE, None, "parbegin: no such file: nosuch.pb\n"),
    (["explain", "N3"], DONE, "N3: ", None),
    (["explain", "n3"], DONE, "N3: ", None),
    (["explain", "nosuch"], WORDS, None, "no refusal and no warning has this code"),
    (["run", "folder"], DEVICE, None, "parbegin: folder: Is a directory\n"),
    (["run", "hello.pb", "lost.pb"], WORDS, None, "run reads one file, and here are 2"),
    (["plan", "hello.pb", "missing.pb"], DEVICE, None, "no such file: missing.pb"),
    (["run", "--steps", "x", "hello.pb"], WORDS, None, "invalid value 'x'"),
    (["run", "--steps", "5", "hello.pb"], DONE, "p end\n", None),
    (["run", "--steps=5", "hello.pb"], DONE, "p end\n", None),
    (["fly"], WORDS, None, "unrecognized subcommand 'fly'"),
    (["fly", "hello.pb"], WORDS, None, "unrecognized subcommand 'fly'"),
    ([], WORDS, None, "Usage"),
    (["--help"], DONE, "a FILE may be named", None),
    (["help"], DONE, "a FILE may be named", None),
    (["run", "--help"], DONE, "--workers", None),
    (["help", "check"], DONE, "--format", None),
    (["help", "debug"], DONE, "until P.a N", None),
    (["debug", "--help"], DONE, "until P.a N", None),
    (["help", "fly"], WORDS, None, "fly"),
    (["serve", "--help"], DONE, "--snapshot-every", None),
    (["help", "serve"], DONE, "--snapshot-every", None),
    (["serve"], WORDS, None, "not provided: --journal <DIR>"),
    (["help", "bank"], DONE, "--connect <ADDRESS>", None),
    (["bank", "--connect", "a", "--fly"], WORDS, None, "unexpected argument '--fly' found"),
    (["hold", "--help"], DONE, "Usage: parbegin hold", None),
    (["help", "hold"], DONE, "Usage: parbegin hold", None),
    (["hold", "1 tape"], WORDS, None, "there is no '--' with a command after it"),
    (["help", "words"], DONE, "critical section", None),
    (["help", "Critical", "section"], DONE, "critical section: steps of which only one process", None),
    (["run", "--help"], DONE, "--lend <WHO>", None),
    (["--version"], DONE, "parbegin ", None),
    (["outcomes", "--lend", "cash", "hello.pb"], DONE, "1 outcome\n", None),
    (["outcomes", "--lend", "banker", "hello.pb"], DONE, "1 outcome\n", None),
    (["plan", "--lend", "cash", "hello.pb"], DONE, "order\n", None),
    (["plan", "--lend", "cash", "devices.pb"], DEADLOCK, "no order\n", None),
    (["plan", "--lend=banker", "devices.pb"], DONE, "no order\n", None),
    (["--quiet", "plan", "--lend", "cash", "devices.pb", "hello.pb"], DEADLOCK, "a of text 1 holds tape line 7", None),
    (["plan", "--lend", "cash", "too_much.pb"], REFUSED, "no order\n", "C1"),
    (["plan", "--lend", "till", "hello.pb"], WORDS, None, "the value of '--lend' is banker or cash"),
    (["states", "--lend", "till", "lost.run"], WORDS, None, "the value of '--lend' is banker or cash"),
    (["replay", "--lend", "cash", "lost.run"], DONE, "done\n", None),
    (["record", "--seed", "3", "--lend", "cash", "hello.pb"], DONE, "p.0 3\n", None),
    (["record", "--lend", "cash", "hello.pb"], WORDS, None, "'--lend cash' of 'record' needs '--seed N'"),
    (["draw", "--lend=cash", "lost.run"], DONE, "<svg", None),
    (["run", "cash"], DONE, "p end\n", None),
    (["run", "sum.pbo"], REFUSED, "refused ", "parbegin: sum.pbo is an object: exec runs it"),
    (["check", "sum.pbo"], REFUSED, "sum.pbo: refused ", "parbegin: sum.pbo is an object: exec runs it"),
    (["run", "lost.run"], REFUSED, "refused L2 at 335", "parbegin: lost.run has picks after a line %%: replay makes them"),
    (["claims", "two.pb"], REFUSED, "refused L2", "parbegin: two.pb has several texts, between lines %%: check reads these"),
    (["exec", "hello.pb"], REFUSED, "refused O1 at 0", "parbegin: hello.pb is no object"),
    (["lsp", "hello.pb"], REFUSED, "this is not the header of a message", "parbegin: hello.pb holds no messages: an editor starts lsp"),
    (["help", "lsp"], DONE, "An editor starts this", None),
    (["dap", "--help"], DONE, "An editor starts this", None),
    (["replay", "hello.pb"], DONE, "open\n", "parbegin: hello.pb has no line %% with picks"),
    (["replay", "crlf.run"], REFUSED, "refused L2", "save it with the line ends of Unix"),
    (["outcomes", "--expect", "answer.pb"], DONE, "as expected\n", None),
    (["outcomes", "--expect", "two_prints.pb"], UNEXPECTED, "other prints\n", "parbegin: line 2 of the prints: wanted p.0 print 3, got p.0 print 2\n"),
    (["outcomes", "--expect", "too_few.pb"], UNEXPECTED, "other prints\n", "parbegin: line 2 of the prints: wanted p.0 print 3, got no more\n"),
    (["outcomes", "--expect", "dos_prints.pb"], REFUSED, "refused K1 at 0", "error K1: this line ends with a carriage return\n  --> print line 1, "),
    (["outcomes", "--expect", "other_name.pb"], REFUSED, "refused K1 at 0", "error K1: there is no process `q`\n  --> print line 1, "),
    (["outcomes", "--expect", "required.pb"], UNEXPECTED, "other prints\n", "parbegin: line 1 of the prints: wanted p.0 print 3, got p.0 print 1\n"),
    (["outcomes", "--expect", "unmet.pb"], UNEXPECTED, "not as expected: has a parbegin\n", None),
    (["outcomes", "--expect", "no_resource.pb"], UNEXPECTED, "not as expected: claims at least 1 disk\n", None),
    (["outcomes", "--expect", "misspelt.pb"], REFUSED, "refused K1 at 11", "  = hint: did you mean `has a parbegin`?\n"),
    (["outcomes", "--expect", "too_late.pb"], REFUSED, "refused K1 at 12", "error K1: a requirement stands before the print lines\n"),
    (["outcomes", "--expect", "no_amount.pb"], REFUSED, "refused K1 at 11", "`claims at least K R`: K is from 1 to 1000000"),
    (["outcomes", "--expect", "--any-order", "two_prints.pb"], UNEXPECTED, "other prints\n", "wanted p.0 print 3, got p.0 print 2\n"),
    (["--quiet", "outcomes", "--expect", "two_prints.pb"], UNEXPECTED, "other prints\n", None),
    (["outcomes", "--endless", "spins.pb"], DONE, "endless\nreached by\n", None),
    (["outcomes", "--endless", "--fair", "spins.pb"], DONE, "every fair run ends\n", None),
    (["outcomes", "--endless", "hello.pb"], DONE, "every run ends\n", None),
    (["outcomes", "--endless", "--run", "1", "hello.pb"], WORDS, None, "error: these options of 'outcomes' mean nothing together\n"),
    (["outcomes", "--any-order", "hello.pb"], WORDS, None, "  --any-order goes with --expect alone"),
    (["--json", "outcomes", "--endless", "spins.pb"], DONE, '{"kind":"round",', None),
    (["outcomes", "--expect", "spins_wanted.pb"], UNEXPECTED, "some run does not end\n", "parbegin: a run that does not end: p.0 1, and then again and again p.1 5\nparbegin: p.1 goes round line 1\n"),
    (["outcomes", "--expect", "divides_wanted.pb"], UNEXPECTED, "a fault\n", "got no more\nparbegin: p.0 faulted in line 1: 7 div 0\n"),
    (["outcomes", "--expect", "hello.pb", "lost.pb"], WORDS, None, "`grade FOLDER EXERCISE` judges texts by a file of lines\n"),
    (["outcomes", "--expect", "--fair", "spins_wanted.pb"], DONE, "as expected\n", None),
    (["outcomes", "--expect", "hello.pb"], UNEXPECTED, "not as expected: other prints\n", "parbegin: hello.pb has no line %% with the prints"),
    (["hello.pb"], WORDS, None, "hello.pb is a file, and a command comes before it: parbegin run hello.pb"),
    (["page", "--help"], DONE, "--states <N>", None),
    (["help", "page"], DONE, "--states <N>", None),
    (["page", "hello.pb"], DONE, "</html>", None),
    (["page", "--states", "1", "hello.pb"], DONE, "</html>", "there are more than 1 configurations"),
    (["--quiet", "page", "--states", "1", "hello.pb"], DONE, "</html>", None),
    (["page"], WORDS, None, "Usage: parbegin page "),
    (["page", "hello.pb", "--states=1"], DONE, "</html>", "there are more than 1 configurations"),
    (["page", "hello.pb", "--quiet", "--states", "1"], DONE, "</html>", None),
    (["page", "--seed", "1", "--seed=2", "hello.pb"], WORDS, None, "the argument '--seed' cannot be used multiple times"),
    (["page", "--fly", "hello.pb"], WORDS, None, "unexpected argument '--fly' found"),
    (["page", "hello.pb", "--seed"], WORDS, None, "a value is required for '--seed'"),
    (["page", "hello.pb", "lost.pb"], WORDS, None, "page reads one file, and here are 2"),
    (["page", "--seed", "x", "hello.pb"], WORDS, None, "invalid value 'x'"),
    (["--json", "page", "hello.pb"], WORDS, None, "page has no '--json'"),
    (["page", "wrong.pb"], REFUSED, "refused N3 at 16\n", "error N3: "),
    (["page", "folder"], DEVICE, None, "parbegin: folder: Is a directory\n"),
    (["class", "--help"], DONE, "--names", None),
    (["help", "class"], DONE, "--names", None),
    (["class", "hello.pb"], WORDS, None, "unexpected argument 'hello.pb' found"),
    (["--json", "class"], WORDS, None, "class has no '--json'"),
    (["grade", "folder", "wrong.md"], WORDS, None, "wrong.md: the first line is no heading"),
    (["grade", "--help"], DONE, "FOLDER EXERCISE", None),
    (["help", "sample"], DONE, "--runs <N>", None),
    (["check", "--format", "gcc", "--format", "json", "hello.pb"], WORDS, None, "cannot be used multiple times"),
    (["check", "--jobs=1", "hello.pb", "--jobs", "2"], WORDS, None, "cannot be used multiple times"),
    (["check", "--json", "hello.pb", "lost.pb"], WORDS, None, "here are 2: hello.pb, lost.pb; `check --format json` tells of several"),
    (["check", "--json", "--format", "gcc", "hello.pb"], WORDS, None, "check --format has no '--json'"),
    (["run", "--seed", "1", "--seed", "2", "hello.pb"], WORDS, None, "Usage: parbegin run [OPTIONS]\n"),
    (["build", "--help"], DONE, "Usage: parbegin build\n", None),
    (["help", "build"], DONE, "Usage: parbegin build\n", None),
    (["build", "run"], WORDS, None, "usage: parbegin build\n"),
    (["--quiet", "run", "--quiet", "hello.pb"], WORDS, None, "--quiet"),
    (["run", "hello.pb", "--steps", "5", "--steps=6"], WORDS, None, "cannot be used multiple times"),
    (["--unproved", "run", "nosuch"], DEVICE, None, "parbegin: no such file: nosuch\n"),
    (["--unproved", "outcomes", "--prints", "nosuch"], DEVICE, None, "parbegin: no such file: nosuch\n"),
    (["--unproved", "run", "--steps", "5", "hello.pb", "lost.pb"], WORDS, None, "here are 2: hello.pb, lost.pb"),
    (["--unproved", "fly"], WORDS, None, "--unproved takes a command of the program"),
    (["run", "odd\nname"], DEVICE, None, "parbegin: no such file: odd\\nname\n"),
    (["--quiet", "exec", "hello.pb"], REFUSED, "refused O1 at 0", None),
    (["run", "--steps", "2", "hello.pb"], LIMIT, "limit 2\n", "--steps N allows N steps"),
    (["run", "--steps", "2", "hello.pb"], LIMIT, "limit 2\n", "a process with no line `end` or `fault` had not ended"),
    (["--quiet", "run", "--steps", "2", "hello.pb"], LIMIT, "limit 2\n", None),
    (["run", "fault.pb"], FAULT, "broken.2 fault divide\n", "`parbegin record FILE > my.run`"),
    (["--quiet", "run", "fault.pb"], FAULT, "broken.2 fault divide\n", None),
    (["--json", "run", "fault.pb"], FAULT, '"fault":"divide"', "`parbegin record FILE > my.run`"),
    (["outcomes", "--states", "1", "hello.pb"], LIMIT, "there may be others\n", "--states N allows N configurations"),
    (["--json", "run", "hello.pb"], DONE, '"value":1}\n', None),
    (["--json", "check", "hello.pb"], DONE, '{"kind":"ok"}\n', None),
    (["run", "--json", "hello.pb"], DONE, '"value":1}\n', None),
    (["run", "hello.pb", "--json"], DONE, '"value":1}\n', None),
    (["--quiet", "--json", "exec", "hello.pb"], REFUSED, '{"kind":"refused","code":"O1","at":0}\n', None),
    (["exec", "hello.pb", "--quiet"], REFUSED, "refused O1 at 0", None),
    (["--json", "--quiet", "exec", "hello.pb"], REFUSED, '{"kind":"refused","code":"O1","at":0}\n', None),
    (["--json", "run", "--steps", "x", "hello.pb"], WORDS, None, "invalid value 'x'"),
    (["draw", "lost.run"], DONE, "<svg", None),
    (["debug", "nosuch.run"], DEVICE, None, "parbegin: no such file: nosuch.run\n"),
]


def fits(told: str, wanted: str | None) -> bool:
    """Returns whether this has what is wanted, or nothing if nothing is."""
    return wanted in told if wanted else not told


def fill(folder: pathlib.Path) -> None:
    """Puts files of the examples into a folder, and some with names that are also words."""
    for name in ("hello.pb", "devices.pb", "lost.pb", "lost.run", "1-arms/fault.pb", "4-claims/too_much.pb", "6-objects/sum.pbo"):
        shutil.copy(TOP / "examples" / name, folder)
    hello = (folder / "hello.pb").read_bytes()
    for name in ("hello.txt", "cash", "banker", "5"):
        (folder / name).write_bytes(hello)
    (folder / "two.pb").write_bytes(hello + b"%%\n" + hello)
    (folder / "crlf.run").write_bytes(b"process p begin print 1 end\r\n%%\r\np.0 3\r\n")
    (folder / "answer.pb").write_text("process p begin print 1 end\n%%\np.0 print 1\n")
    (folder / "dos_prints.pb").write_bytes(b"process p begin print 1 end\n%%\np.0 print 1\r\n")
    (folder / "other_name.pb").write_text("process p begin print 1 end\n%%\nq.0 print 1\n")
    (folder / "two_prints.pb").write_text("process p begin print 1; print 2 end\n%%\np.0 print 1\np.0 print 3\n")
    spins = "process p begin integer x; parbegin while x = 0 do skip od; x := 1 parend; print x end\n"
    (folder / "spins.pb").write_text(spins)
    (folder / "spins_wanted.pb").write_text(f"{spins}%%\np.0 print 1\n")
    (folder / "divides_wanted.pb").write_text("process p begin integer x; print 7 div x end\n%%\np.0 print 1\n")
    (folder / "too_few.pb").write_text("process p begin print 1 end\n%%\np.0 print 1\np.0 print 3\n")
    held = "resource tape = 2; process p begin hold 2 of tape do print 1 od end\n%%\nhas a hold\n"
    (folder / "required.pb").write_text(f"{held}claims at least 2 tape\np.0 print 3\n")
    (folder / "unmet.pb").write_text(f"{held}has a parbegin\nclaims at least 3 tape\np.0 print 3\n")
    (folder / "no_resource.pb").write_text(f"{held}claims at least 1 disk\np.0 print 1\n")
    (folder / "misspelt.pb").write_text(f"{held}has a parbegn\np.0 print 1\n")
    (folder / "too_late.pb").write_text("process p begin print 1 end\n%%\np.0 print 1\nclaims at least 1 disk\n")
    (folder / "no_amount.pb").write_text(f"{held}claims at least 0 tape\np.0 print 1\n")
    (folder / "wanted.txt").write_text("p.0 print 1\n")
    (folder / "wrong.pb").write_text("process p begin x := 1 end\n")
    (folder / "wrong.md").write_text("no heading\n")
    (folder / "folder").mkdir()


# Calls that write something themselves, and do not only start the program.
WRITING = (
    ["--help"], ["help", "debug"], ["page", "--help"], ["page", "lost.run"], ["page", "wrong.pb"], ["check", "hello.pb", "wrong.pb"],
    ["check", "--format", "gcc", "wrong.pb"], ["check", "--format", "json", "wrong.pb"], ["check", "--format", "sarif", "wrong.pb"],
    ["grade", ".", "wanted.txt"], ["grade", "--csv", ".", "wanted.txt"], ["sample", "--runs", "3", "lost.pb"],
    ["run", "--seed", "1", "lost.pb"], ["run", "--seed", "1", "wrong.pb"], ["outcomes", "--expect", "answer.pb"],
)
# Calls that read standard input.
WAITING = (
    ["run"], ["run", "--seed", "1"], ["check"], ["check", "--format", "gcc"], ["plan"], ["plan", "--format", "json"], ["sample"],
    ["outcomes", "--expect"],
)
# Calls that write to standard error alone.
REFUSING = (["fly"], ["run", "nosuch.pb"], ["run", "--workers", "99", "lost.pb"], ["sample", "--runs", "0", "lost.pb"], ["library"])


def try_outputs(tally: Tally, script: str, folder: pathlib.Path) -> None:
    """Calls with a standard output that takes nothing, with one that is closed, and with other files that are closed."""
    for words in WRITING:
        call = {"args": [script, *words], "cwd": folder, "stdin": subprocess.DEVNULL, "check": False}
        with open("/dev/full", "w") as full:
            ran = subprocess.run(**call, stdout=full, stderr=subprocess.PIPE)
        is_told = ran.stderr.endswith(b"parbegin: standard output: No space left on device\n") or b"error N3: " in ran.stderr
        tally.expect(ran.returncode == DEVICE and is_told and b"Traceback" not in ran.stderr, words, "on a full device", ran)
        ran = subprocess.run(**call, preexec_fn=lambda: os.close(1), stderr=subprocess.PIPE)
        is_told = ran.stderr.endswith(b"parbegin: standard output: Bad file descriptor\n") or b"error N3: " in ran.stderr
        tally.expect(ran.returncode == DEVICE and is_told and b"Traceback" not in ran.stderr, words, "with no output", ran)
        usual = subprocess.run(**call, capture_output=True)
        ran = subprocess.run(**call, preexec_fn=lambda: os.close(2), stdout=subprocess.PIPE)
        tally.expect((ran.returncode, ran.stdout) == (usual.returncode, usual.stdout), words, "with no standard error", ran)
        with open("/dev/full", "w") as full:
            ran = subprocess.run(**call, stdout=subprocess.PIPE, stderr=full)
        tally.expect((ran.returncode, ran.stdout) == (usual.returncode, usual.stdout), words, "with a full standard error", ran)
        ran = subprocess.run([script, *words], cwd=folder, preexec_fn=lambda: os.close(0), capture_output=True, check=False)
        tally.expect((ran.returncode, ran.stdout, ran.stderr) == (usual.returncode, usual.stdout, usual.stderr), words, "with no input", ran)
    ran = subprocess.run(f"{script} page lost.run | head -n 1", shell=True, cwd=folder, capture_output=True, check=False)
    tally.expect((ran.stdout, ran.stderr) == (b"<!doctype html>\n", b""), "a reader that ends early", ran)


def try_messages(tally: Tally, script: str, folder: pathlib.Path) -> None:
    """Calls with a standard error that takes nothing, which changes no status."""
    for words in REFUSING:
        call = {"args": [script, *words], "cwd": folder, "stdin": subprocess.DEVNULL, "check": False}
        usual = subprocess.run(**call, capture_output=True)
        with open("/dev/full", "w") as full:
            ran = subprocess.run(**call, stdout=subprocess.PIPE, stderr=full)
        is_same = (ran.returncode, ran.stdout) == (usual.returncode, usual.stdout)
        tally.expect(usual.stderr and is_same, words, "with a full standard error", ran, usual)


def try_waiting(tally: Tally, script: str, folder: pathlib.Path) -> None:
    """Calls without a file at a terminal, where each says what it waits for."""
    for words in WAITING:
        terminal = Terminal([script, *words], str(folder))
        is_told = terminal.wait_for(r"Ctrl-D at the start of a line ends it\n")
        terminal.type("\x04")
        terminal.end()
        tally.expect(is_told and terminal.shown.startswith("parbegin: waiting at the terminal for "), words, terminal.shown)


def try_names(tally: Tally, script: str, folder: pathlib.Path) -> None:
    """Calls with a file whose name has control characters, which are escaped in the title of a page and at a prompt."""
    (folder / "a\n\x1b[1m.pb").write_bytes((folder / "hello.pb").read_bytes())
    ran = subprocess.run([script, "page", "a\n\x1b[1m.pb"], cwd=folder, stdin=subprocess.DEVNULL, capture_output=True, check=False)
    tally.expect(ran.returncode == DONE and b"<title>a\\n\\x1b[1m.pb" in ran.stdout and b"\x1b" not in ran.stdout, "a page", ran)
    terminal = Terminal([script, "debug", "a\n\x1b[1m.pb"], str(folder))
    terminal.wait_for("0/0> ")
    terminal.type("quit\n")
    terminal.end()
    tally.expect(terminal.shown.startswith("a\\n\\x1b[1m.pb: process p; "), "a session", terminal.shown)


def try_modules(tally: Tally, script: str, folder: pathlib.Path) -> None:
    """Calls with modules beside, and on PYTHONPATH, that have the names of modules of Python, and stop whoever takes them."""
    beside = folder / "beside"
    beside.mkdir()
    for name in ("json", "subprocess", "csv", "script"):
        (beside / f"{name}.py").write_text(f"raise SystemExit('the wrong module {name}')\n")
    (beside / "hello.pb").write_bytes((folder / "hello.pb").read_bytes())
    for start in ([script], [sys.executable, script], [sys.executable, "-S", script]):
        for path in ("", ".", str(beside)):
            ran = subprocess.run(
                [*start, "check", "--format", "json", "hello.pb"], cwd=beside, env={**os.environ, "PYTHONPATH": path},
                stdin=subprocess.DEVNULL, capture_output=True, check=False)
            tally.expect(ran.returncode == DONE and b'"accepted": true' in ran.stdout, start, repr(path), "takes another module", ran)


def main() -> None:
    tally = Tally()
    with tempfile.TemporaryDirectory(prefix="parbegin-usage-") as name:
        folder = pathlib.Path(name)
        script = installed(folder / "installed")
        fill(folder)
        for words, status, told, said in CALLS:
            ran = subprocess.run([script, *words], cwd=folder, input=b"", capture_output=True, check=False)
            is_right = ran.returncode == status and fits(ran.stdout.decode(), told) and fits(ran.stderr.decode(), said)
            tally.expect(is_right, words, ran)
        with open(folder / "lost.run", "rb") as given:
            ran = subprocess.run([script, "run"], cwd=folder, stdin=given, capture_output=True, check=False)
        is_told = b"parbegin: the input has picks" in ran.stderr and ran.stdout == b"refused L2 at 335\n"
        tally.expect(is_told, "picks on standard input", ran)
        try_outputs(tally, script, folder)
        try_messages(tally, script, folder)
        try_waiting(tally, script, folder)
        try_names(tally, script, folder)
        try_modules(tally, script, folder)
    tally.end("usage")


main()
