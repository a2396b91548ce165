#!/usr/bin/env python3
"""Gives the built program inputs at the limits of the language and the longest ones, with little stack and little time.

    checks/slow/sizes.py [PROGRAM]     PROGRAM is the one that ./parbegin has built if none is given

Each call has a stack of 256 KiB, and must end within a second of processor time by itself, with the answer that is
wanted where one is named: each kind of nesting at its limit is accepted, and one level more is refused; 65,536 bytes
of one thing after the other; 4,194,304 bytes of each kind of input to each command, and one byte more. It is run by
hand on Linux; its status is 0 if all is as wanted, and 1 if not.
"""
import resource
import subprocess
import sys
from pathlib import Path

sys.path.insert(0, str(Path(__file__).resolve().parents[1] / "lib"))

from calls import DONE, LIMIT, MOST_INPUT, MOST_TEXT, REFUSED, Tally, program  # noqa: E402
from texts import LIMITS, in_process, many  # noqa: E402

STACK = 256 * 1024
SECONDS = 1.0


def with_little_stack():
    resource.setrlimit(resource.RLIMIT_STACK, (STACK, STACK))


def call_with_little_stack(words, given):
    """Calls the program with little stack, and returns its status and what it wrote."""
    with subprocess.Popen([program(words), *words], stdin=subprocess.PIPE, stdout=subprocess.PIPE,
                          stderr=subprocess.DEVNULL, preexec_fn=with_little_stack) as ran:
        said = ran.communicate(given)[0]
        ran.stdout.close()
    return ran.returncode, said


def seconds_of_children():
    used = resource.getrusage(resource.RUSAGE_CHILDREN)
    return used.ru_utime + used.ru_stime


class Trial:
    """A tally that notes the longest time."""

    def __init__(self):
        self.tally, self.longest = Tally(), (0.0, "")

    def answer(self, name, words, given):
        before = seconds_of_children()
        status, said = call_with_little_stack(words, given)
        took = seconds_of_children() - before
        self.longest = max(self.longest, (took, f"{' '.join(words)}: {name}"))
        self.tally.expect(0 <= status <= 6 and took < SECONDS, name, words, status, f"{took:.2f} seconds", said[:60])
        return status, said

    def expect(self, name, words, given, wanted):
        status, said = self.answer(name, words, given)
        self.tally.expect(status == wanted, name, words, status, said[:60])


FULL_TEXTS = ["(", ")", "-", "not ", "begin ", "parbegin ", "1+", "x:=1;", "while 1 do ", "if 1 then ", "hold 1 of r do ",
              "print 1;", "// ", "\n", " ", "process p ", "9", "a", "\0", "\xff", "%%\n"]
# (more configurations take more than a second)
OUTCOMES = ["outcomes", "--states", "1000"]
COMMANDS = [["check"], ["check", "--heap", "16777216"], ["claims"], ["plan"], ["run"], ["emit"], ["emit", "--object", "1"],
            ["record"], ["record", "--seed", "1"], ["replay"], ["exec"], ["migrate"], ["draw"], ["debug"], OUTCOMES]


def at_the_limits(trial):
    for kind, most in LIMITS.items():
        for command in ("check", "run", "emit", "claims", "plan", "record"):
            trial.expect(f"{most} {kind}", [command], many(kind, most), DONE)
            trial.expect(f"{most + 1} {kind}", [command], many(kind, most + 1), REFUSED)
        trial.answer(f"{most} {kind}", OUTCOMES, many(kind, most))
        trial.expect(f"{most + 1} {kind}", OUTCOMES, many(kind, most + 1), REFUSED)
    # (refused for its height, which is measured by the same recursion)
    kind = "brackets after an operator of each kind"
    trial.expect(f"255 {kind}", ["check"], many(kind, 255), REFUSED)


def full_texts(trial):
    for piece in FULL_TEXTS:
        piece = piece.encode("latin-1")
        text = (piece * MOST_TEXT)[:MOST_TEXT]
        for command in COMMANDS:
            trial.answer(f"65,536 bytes of {piece!r}", command, text)
            trial.answer(f"65,536 bytes of {piece!r} in a process", command, in_process("")[:-4] + text[:-40] + b" end")


def full_inputs(trial):
    text, pick = b"process p begin integer i; while 1 do i := i + 1 od end\n", b"p.0 1\n"
    for name, piece in {"one text again and again": text + b"%%\n", "pick lines": pick, "marks": b"%%\n", "spaces": b" ",
                        "lines": b"\n", "letters": b"a", "brackets": b"("}.items():
        for begin in (b"", text + b"%%\n", b"PBO 2\n"):
            given = (begin + piece * (MOST_INPUT // len(piece) + 1))[:MOST_INPUT]
            for command in COMMANDS:
                trial.answer(f"4,194,304 bytes of {name} after {begin[:8]!r}", command, given)
                status, said = trial.answer(f"4,194,305 bytes of {name} after {begin[:8]!r}", command, given + b" ")
                trial.tally.expect(status == REFUSED and said.startswith(b"refused"), name, command, status, said[:60])
    picks = text + b"%%\n" + pick * ((MOST_INPUT - 100) // len(pick))
    trial.expect("as many pick lines as fit", ["replay"], picks, DONE)
    trial.expect("10,000,000 picks", ["run", "--steps", "10000000"], text, LIMIT)


def sessions(trial):
    session = b"process p begin integer i; i := 1; print i end\n%%\np.0 3\n%%\nstep 1\n"
    for command in ("vars p", "threads p", "loans", "why p.0", "line p.0", "text p.0", "step 1", "fly"):
        line = command.encode() + b"\n"
        given = (session + line * (MOST_INPUT // len(line)))[:MOST_INPUT]
        for words in (["debug"], ["debug", "--live"]):
            trial.answer(f"4,194,304 bytes of {command}", words, given)
    # (a move makes picks again from a copy of the machine: 4,194,304 bytes of them take longer than a second)
    for command in ("to 1", "back 1", "next", "prev"):
        line = command.encode() + b"\n"
        for words in (["debug"], ["debug", "--live"]):
            trial.answer(f"65,536 bytes of {command}", words, session + (line * MOST_TEXT)[:MOST_TEXT])


def main():
    trial = Trial()
    at_the_limits(trial)
    full_texts(trial)
    full_inputs(trial)
    sessions(trial)
    print(f"the longest call took {trial.longest[0]:.2f} seconds of processor time: {trial.longest[1]}")
    trial.tally.end("sizes")


main()
