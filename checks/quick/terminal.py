#!/usr/bin/env python3
"""Plays sessions of `./parbegin debug FILE` at a terminal, and compares what they show.

    checks/quick/terminal.py [PROGRAM]     PROGRAM is the one that ./parbegin has built if none is given

First, without a terminal: along a run of each example, what is told of each pick must be the events that `replay` writes.
Then sessions are played by Python's pexpect; if it is missing, that is said, and they are not played. Its status is 0 if
all is as wanted, and 1 if not.
"""
from __future__ import annotations

import os
import pathlib
import re
import subprocess
import sys
import tempfile

sys.path.insert(0, str(pathlib.Path(__file__).resolve().parents[1] / "lib"))

from calls import DONE, EXAMPLES, FAULT, LIMIT, REFUSED, TOP, WATCHDOG, Tally, call, installed, program, recorded  # noqa: E402

sys.path.insert(0, str(TOP))
sys.dont_write_bytecode = True
from script.code import read_code  # noqa: E402
from script.picks import Picks  # noqa: E402
from script.session import Session  # noqa: E402

try:
    import pexpect
except ImportError:
    pexpect = None

PROMPT = r"\d+/\d+> "
LOST = TOP / "examples/lost.run"
DEVICES = TOP / "examples/devices.pb"
CIRCLE = TOP / "examples/5-deadlock/circle.run"
# A run with more picks is followed so far.
MOST_PICKS = 300
# An interrupt that has no effect is sent so often.
MOST_INTERRUPTS = 8
# How the words of a pick begin that shows an event, with the word of the event line.
EVENTS = {"prints ": "print", "is granted ": "grant", "gives back ": "return"}
# What fifteen keys show of examples/lost.run.
LOST_PICKS = """1/15 p.0 line 6: starts p.1 and p.2
2/15 p.2 line 8: reads x (0)
3/15 p.2 line 8: takes the number 1
4/15 p.1 line 7: reads x (0)
5/15 p.1 line 7: takes the number 1
6/15 p.1 line 7: computes 0 + 1: 1
7/15 p.1 line 7: assigns 1 to x (it was 0)
8/15 p.1: ends
9/15 p.2 line 8: computes 0 + 1: 1
10/15 p.2 line 8: assigns 1 to x (it was 1)
11/15 p.2: ends
12/15 p.0 line 6: goes on after p.1 and p.2
13/15 p.0 line 10: reads x (1)
14/15 p.0 line 10: prints 1
15/15 p.0: ends the process""".splitlines()
# What is said of examples/1-arms/fault.pb.
FAULTED = "parbegin: broken.2 faulted in line 9: 1 div 0\r\n"
# Commands at the end of that run, with a part of what each shows.
ASKED = [
    ("", "the picks end here"), ("vars", "p: x = 1"), ("vars q", "no process q; there is p"),
    ("why p.7", "p has the arms 0 to 2"),
    ("wrote p x", "7/15 p.1 line 7: assigns 1 to x (it was 0)"), ("wrote p y", "no integer y in p; there is x"),
    ("wrote p", "an integer is missing; there is x"), ("fault", "p has not faulted"), ("who tape", "no resource tape; there are none"),
    ("frob", "no command frob"), ("t", "a number is missing"), ("to 16", "the positions are 0 to 15"),
    ("to x", "x is no number"), ("pick p.1", "p.1 can't be picked: idle"), ("b", "14/15 before p.0: ends the process"),
    ("", "13/15 before p.0 line 10: prints 1"),
    ("pick p.0", "`to 15` goes there"), ("to 3", "3/15 before p.1 line 7: reads x (0)"), ("threads", "p.2: line 8"),
    ("list", ">  8     x := x + 1"), ("list 10", "print x"), ("arms", "p.0 line 6: waits for p.1 and p.2"),
    ("n", "14/15 p.0 line 10: prints 1"), ("prev", "no event before this position"),
    ("until p.0 6", "it does not come there"), ("until p.0 12", "the text has the lines 1 to 11"), ("print x", "`vars` is what may be meant"),
    ("until p 8", "p.0 never comes to line 8, which is of p.2: `until p.2 8`"), ("until p.1 2", "no arm is ever at line 2"),
    ("to 0", "0/15 before p.0 line 6: starts p.1 and p.2"), ("find p x 1", "7/15 p.1 line 7: assigns 1 to x (it was 0)"),
    ("", "x does not become 1 in the picks that follow"), ("find p x", "a value is missing"), ("find p y 1", "no integer y in p; there is x"),
    ("find p x z", "z is no integer"), ("search", "`find` is what may be meant"), ("end", "`to end` is what may be meant"),
    ("help words", "critical section"), ("help Lost  update", "lost update: an addition without effect"), ("help find", "for example: find p x 2"),
    ("to end", "15/15 p.0: ends the process"), ("back", "14/15 before p.0: ends the process"),
    ("help", "until P.a N"), ("help u", "for example: until p.1 8"), ("wh", "wh may be who or why"),
    ("line p.0", "p.0: ends the process"), ("loans", "there are no resources"),
    ("circle", "no processes wait for one another"), ("save", "names the file"),
]


def event_of(told: str) -> list[str]:
    """Returns the event line of what is told of a pick, or nothing if it shows none."""
    arm, words = re.fullmatch(r"([\w.]+)(?: line \d+)?: (.*)", told).groups()
    if words == "ends the process":
        return [f"{arm.split('.')[0]} end"]
    fault = re.match(r"faults \((\w+)\)", words)
    if fault:
        return [f"{arm} fault {fault[1]}"]
    found = [f"{arm} {event} {words.removeprefix(begin)}" for begin, event in EVENTS.items() if words.startswith(begin)]
    return [it.replace(" and ", " ") for it in found]


def try_example(tally: Tally, name: str, run: bytes) -> None:
    """Follows a run pick by pick, and compares what is told with its events."""
    text, _, lines = run.partition(b"\n%%\n")
    made = call(["emit"], text + b"\n")[1].decode()
    picks = Picks(lines.decode().splitlines())
    session = Session([program()], text + b"\n", read_code(made), picks)
    most = min(picks.total, MOST_PICKS)
    told = [session.did(pick) for pick in range(most)]
    tally.expect(session.position == 0, name, "a pick that is told of moves the session")
    session.close()
    wanted = call(["replay"], run)[1].decode().splitlines()[:-1]
    found = [line for it in told for line in event_of(it)]
    tally.expect(found == wanted[: len(found)], name, "tells other events", found, wanted)
    tally.expect(most < picks.total or len(found) == len(wanted), name, "tells of too few events")


class Player:
    """A session at a terminal."""

    def __init__(self, script: str, *words: str, folder: str | None = None) -> None:
        where = {**os.environ, "TERM": "dumb", "PYTHONDONTWRITEBYTECODE": "1"}
        how = {"encoding": "utf-8", "timeout": WATCHDOG, "dimensions": (50, 240), "env": where, "cwd": folder}
        self.it = pexpect.spawn(script, list(words), **how)

    def shown(self) -> str:
        """Returns what is shown up to the next prompt, or up to the end."""
        at = self.it.expect([PROMPT, pexpect.EOF])
        lines = self.it.before.replace("\r", "").split("\n")
        return "\n".join(lines if at else lines[:-1] if not lines[-1] else lines)

    def type(self, line: str) -> str:
        """Types a line, and returns what is shown after it."""
        self.it.sendline(line)
        return self.shown().partition("\n")[2]

    def keys(self, typed: str) -> None:
        """Types keys, and waits until they are taken in."""
        self.it.send(typed)
        self.it.expect_exact(typed.replace("\n", "\r\n"))

    def interrupt(self) -> str:
        """Types Ctrl-C, and returns what is shown up to the next prompt."""
        for _ in range(MOST_INTERRUPTS):
            self.it.sendintr()
            if self.it.expect([PROMPT, pexpect.TIMEOUT], timeout=5) == 0:
                break
            # (an interrupt drops the keys that are not yet read, and readline waits on if it was to read one of them)
            self.it.send(" ")
            self.it.expect_exact([" ", pexpect.TIMEOUT], timeout=5)
        else:
            sys.exit("terminal: an interrupt brings no prompt")
        return self.it.before

    def end(self) -> int:
        """Types the end of file, and returns the status."""
        self.it.sendeof()
        self.it.expect(pexpect.EOF)
        self.it.close()
        return self.it.exitstatus


def try_lost(tally: Tally, script: str, folder: str) -> None:
    """Plays a run through by one key for each pick, and asks at its end."""
    it = Player(script, "debug", str(LOST), folder=folder)
    tally.expect("process p; 15 picks; no resources" in it.shown(), "what was loaded")
    shown = [it.type("step" if not at else "") for at in range(15)]
    tally.expect(shown == LOST_PICKS, "fifteen keys show", shown)
    for command, wanted in ASKED:
        answer = it.type(command)
        tally.expect(wanted in answer, repr(command), "shows", answer)
    tally.expect("p: x = 1" in it.type("va\t"), "va is not completed")
    tally.expect("x" in it.type("wrote \t \t"), "what follows wrote is not completed")
    it.keys("step 1")
    it.interrupt()
    tally.expect("p: x = 1" in it.type("vars p"), "an interrupt at the prompt ends the session")
    tally.expect(it.end() == DONE, "the status of a session")


def try_devices(tally: Tally, script: str, folder: str) -> None:
    """Makes picks by hand, saves them, and replays what was saved."""
    it = Player(script, "debug", str(DEVICES), folder=folder)
    tally.expect("processes a, b; 0 picks; resources: 1 tape, 1 disk" in it.shown(), "what was loaded of devices.pb")
    for command, wanted in [
        ("pick a", "1/1 a.0 line 7: is granted 1 tape"), ("pick b.0", "b.0 can't be picked: it asks for 1 disk, and waits"),
        ("arms", "a.0 line 7: asks for 1 disk"), ("who disk", "b.0 asks for 1 disk"), ("loans", "cash: 0 of 1 tape"),
        ("why b", "could be sure to finish: a b"), ("circle", "no processes wait for one another"), ("pick a", "2/2 a.0 line 7: is granted 1 disk"),
        ("", "3/3 a.0 line 7: takes the number 1"),
        ("why a", "it is not asking for anything"), ("save mine.run", "mine.run has the run with its 3 picks"),
        ("save mine.run", "there is a file mine.run"),
    ]:
        answer = it.type(command)
        tally.expect(wanted in answer, repr(command), "shows", answer)
    it.it.sendline("quit")
    it.it.expect(pexpect.EOF)
    saved = pathlib.Path(folder, "mine.run").read_bytes()
    tally.expect(saved == DEVICES.read_bytes() + b"%%\na.0 3\n", "what was saved", saved)


def try_circle(tally: Tally, script: str, folder: str) -> None:
    """Goes into a deadlock by the cash alone, asks for the circle, and comes back."""
    it = Player(script, "debug", "--lend", "cash", str(CIRCLE), folder=folder)
    it.shown()
    for command, wanted in [
        ("to 2", "2/2"), ("circle", "a.0 waits for disk, some of which b holds"), ("why a", "disk"),
        ("arms", "a.0 line"), ("back", "1/2 before b.0"), ("circle", "no processes wait for one another in a circle"),
    ]:
        answer = it.type(command)
        tally.expect(wanted in answer, repr(command), "shows", answer)
    tally.expect(it.end() == DONE, "the status of a session by the cash")
    it = Player(script, "debug", str(CIRCLE), folder=folder)
    shown = it.shown()
    tally.expect("error H1: b.0 " in shown and "`to 1`, and then `why b.0`" in shown and "; 1 pick;" in shown, "a refused pick", shown)
    tally.expect("1/1 a.0 line " in it.type("step") and "could be sure to finish: a b" in it.type("why b"), "the picks before a refused one")
    it.it.sendline("exit")
    it.it.expect(pexpect.EOF)


def try_long(tally: Tally, script: str, folder: str) -> None:
    """Interrupts a command that may take long: the session goes on where it was."""
    text = "process p begin integer x; while 1 do x := x + 1 od;\nprint x end\n%%\np.0 9000000\n"
    pathlib.Path(folder, "long.run").write_text(text)
    it = Player(script, "debug", "long.run", folder=folder)
    it.shown()
    it.type("step 3")
    it.keys("until p.0 2\n")
    shown = it.interrupt() + it.type("vars") + it.type("step")
    tally.expect("p: x = " in shown and "/9000000 p.0 line 1: " in shown, "an interrupt ends the session", shown)
    tally.expect(it.end() == DONE, "the status after an interrupt")


def try_others(tally: Tally, script: str, folder: str) -> None:
    """Plays a refused text, a session over an object, one with commands in the file, and a terminal with no file."""
    top = pathlib.Path(folder)
    (top / "wrong.pb").write_text("process p begin x := 1 end\n")
    it = Player(script, "debug", "wrong.pb", folder=folder)
    shown = it.shown()
    it.it.close()
    tally.expect("refused N3 at 16" in shown and it.it.exitstatus == REFUSED, "a refused text", shown)
    (top / "sum.pbo").write_bytes((TOP / "examples/6-objects/sum.pbo").read_bytes())
    it = Player(script, "debug", "sum.pbo", folder=folder)
    it.shown()
    tally.expect("an object has no source" in it.type("list"), "the source of an object")
    it.end()
    (top / "with.run").write_bytes(LOST.read_bytes() + b"%%\nto 3\nvars p\n")
    it = Player(script, "debug", "with.run", folder=folder)
    shown = it.shown() + it.shown() + it.shown()
    tally.expect("p: x = 0" in shown, "commands in the file", shown)
    it.end()
    it = Player(script, "run", folder=folder)
    it.it.expect("parbegin: waiting at the terminal for a text")
    it.it.send("process p begin print 7 end\n")
    tally.expect(it.end() == DONE and "p.0 print 7" in it.it.before, "a text that is typed", it.it.before)


def try_ends(tally: Tally, script: str, folder: str) -> None:
    """Runs what a fault or a limit ends: where it was, and which processes had not ended, is said at a terminal alone."""
    loop = "process p begin print 1 end\nprocess q begin integer x; while 1 do x := x + 1 od end\n"
    pathlib.Path(folder, "loop.pb").write_text(loop)
    fault = TOP / "examples/1-arms/fault.pb"
    pathlib.Path(folder, "fault.run").write_bytes(recorded(fault.read_bytes()))
    for words, wanted, status in [
        (["run", str(fault)], FAULTED, FAULT), (["replay", "fault.run"], FAULTED, FAULT),
        (["run", "--steps", "500", "loop.pb"], "parbegin: not ended: q\r\n", LIMIT), (["run", str(LOST.with_suffix(".pb"))], "", DONE),
    ]:
        told, ended = pexpect.run(f"{script} {' '.join(words)}", withexitstatus=True, cwd=folder, encoding="utf-8")
        tally.expect(wanted in told and ended == status, words, "say", told)
        ran = subprocess.run([script, *words], cwd=folder, capture_output=True, check=False)
        tally.expect(ran.returncode == status and b"parbegin: " not in ran.stderr, words, "say on pipes", ran.stderr)


def try_pipes(tally: Tally, script: str, folder: str) -> None:
    """On pipes the program answers, and commands in the file are its first."""
    given = LOST.read_bytes() + b"%%\nto 3\nvars p\n"
    pathlib.Path(folder, "with.run").write_bytes(given)
    for words, typed in ((["debug"], b"step 1\n"), (["debug", "--live"], b"step 1\nfly\n")):
        ran = subprocess.run([script, *words, "with.run"], cwd=folder, input=typed, capture_output=True, check=False)
        tally.expect((ran.returncode, ran.stdout) == call(["debug", "--live"], given + typed), "on pipes", ran.stdout)
    ran = subprocess.run([script, "debug", str(DEVICES)], input=b"to 0\n", capture_output=True, check=False)
    tally.expect((ran.returncode, ran.stdout) == (DONE, b"at 0\n"), "a text on pipes", ran.stdout)


def main() -> None:
    tally = Tally()
    for file in EXAMPLES:
        for words in (["--steps", "1000"], ["--steps", "1000", "--seed", "7"]):
            try_example(tally, file.name, recorded(file.read_bytes(), *words))
    with tempfile.TemporaryDirectory(prefix="parbegin-terminal-") as folder:
        script = installed(f"{folder}/installed")
        try_pipes(tally, script, folder)
        for play in (try_lost, try_devices, try_circle, try_long, try_others, try_ends) if pexpect else ():
            play(tally, script, folder)
    if not pexpect:
        print("no session was played, since Python has no module pexpect")
    tally.end("terminal")


main()
