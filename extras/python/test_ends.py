"""How banks end, and what does not end them, by `python3 -m unittest`.

With PARBEGIN_TEST_PROGRAM the bank is asked through pipes.
"""
from __future__ import annotations

import os
import random
import signal
import subprocess
import sys
import tempfile
import threading
import time
import unittest
import unittest.mock
from collections.abc import Callable
from pathlib import Path

from parbegin import Answer, Bank, Ended, Fault

PROGRAM = os.environ.get("PARBEGIN_TEST_PROGRAM")
# Seconds in which what ends has ended.
PATIENCE = 10.0
# A program in the place of `parbegin`, which gives the same answer to each ask.
ANSWERING = """#!/bin/sh
while read -r word rest; do
    [ "$word" = ask ] && cat "$0.answer"
    [ "$word" = state ] && echo 'job 0 0 claim 2 holds 0 needs 2'
    echo ready
done
"""
# A runner that goes on after an interrupt, and says how.
INTERRUPTED = """
import sys, time
from parbegin import Bank
bank = Bank([2], sys.argv[1] or None)
bank.join([2])
try:
    print("opened", flush=True)
    time.sleep(60)
except KeyboardInterrupt:
    print(bank.ask(0, [1]).value, bank.loans(0))
bank.close()
"""
# A runner that does not close its bank. One child of it tries to use the bank, another one only lives on.
UNCLOSED = """
import os, sys, time
from parbegin import Bank
bank = Bank([2], sys.argv[1])
trying = os.fork()
if trying == 0:
    try:
        bank.join([1])
    except Exception as fault:
        os.write(1, f"child {type(fault).__name__}\\n".encode())
    bank.close()
    os._exit(0)
os.waitpid(trying, 0)
living = os.fork()
if living == 0:
    time.sleep(60)
    os._exit(0)
print(bank._bank.pipes.process.pid, living, bank.join([2]), flush=True)
time.sleep(60)
"""


class Raised(TimeoutError):
    """What the handler of a signal raises: an OSError, as a broken pipe is."""


def calls_of(bank: Bank) -> list[Callable[[], object]]:
    """Returns a call of each kind."""
    return [
        lambda: bank.join([1]), lambda: bank.leave(0), lambda: bank.ask(0, [1]), lambda: bank.want(0, [1]),
        lambda: bank.drop(0), bank.wishes, lambda: bank.give(0, [1]), lambda: bank.drop_all(0), bank.order,
        lambda: bank.why(0, [1]), bank.capital, bank.cash, lambda: bank.loans(0), lambda: bank.claims(0), bank.to_bytes,
    ]


def is_there(process: int) -> bool:
    """Returns whether a process has not ended."""
    try:
        return Path(f"/proc/{process}/stat").read_text().rpartition(")")[2].split()[0] != "Z"
    except OSError:
        return False


def has_ended(process: int) -> bool:
    """Returns whether a process ends in time."""
    ends = time.monotonic() + PATIENCE
    while is_there(process) and time.monotonic() < ends:
        time.sleep(0.01)
    return not is_there(process)


def runner(text: str) -> subprocess.Popen[str]:
    """Starts a runner, in a session of its own, as a terminal does."""
    words = [sys.executable, "-c", text, PROGRAM or ""]
    return subprocess.Popen(words, stdout=subprocess.PIPE, text=True, start_new_session=True)


class Ends(unittest.TestCase):
    """Banks that end."""

    def open(self, capital: list[int], program: str | None = PROGRAM) -> Bank:
        bank = Bank(capital, program)
        self.addCleanup(bank.close)
        return bank

    def answering(self, answer: str) -> Bank:
        """Opens a bank whose program gives this answer to each ask."""
        folder = tempfile.TemporaryDirectory()
        self.addCleanup(folder.cleanup)
        program = Path(folder.name, "program")
        program.write_text(ANSWERING)
        program.chmod(0o755)
        Path(f"{program}.answer").write_text(answer)
        bank = self.open([2], str(program))
        bank.join([2])
        return bank

    def test_a_closed_bank_raises_one_error(self) -> None:
        bank = self.open([2])
        bank.join([1])
        bank.close()
        bank.close()
        for call in calls_of(bank):
            self.assertRaises(Ended, call)
        bank.close()

    @unittest.skipUnless(PROGRAM, "a bank in the library has no process")
    def test_a_bank_whose_program_was_killed_raises_one_error(self) -> None:
        for first in range(len(calls_of(self.open([2])))):
            bank = self.open([2])
            bank.join([1])
            process = bank._bank.pipes.process
            os.kill(process.pid, signal.SIGKILL)
            calls = calls_of(bank)
            if first % 2:
                with self.assertRaisesRegex(Ended, "signal 9"):
                    while True:
                        bank.order()
            elif not has_ended(process.pid):
                self.fail("the program lives on")
            for call in (calls[first], *calls):
                with self.assertRaisesRegex(Ended, "signal 9"):
                    call()
            bank.close()
            self.assertEqual(process.returncode, -signal.SIGKILL)

    @unittest.skipUnless(PROGRAM, "a bank in the library has no process")
    def test_close_ends_a_program_that_answers_nothing(self) -> None:
        bank = self.open([2])
        process = bank._bank.pipes.process
        os.kill(process.pid, signal.SIGSTOP)
        with unittest.mock.patch("parbegin._pipes.GRACE", 0.2):
            bank.close()
        self.assertEqual(process.returncode, -signal.SIGKILL)

    def test_close_comes_before_calls_that_wait(self) -> None:
        bank, said = self.open([4]), []

        def call() -> None:
            try:
                said.append(bank.cash())
            except Ended as fault:
                said.append(str(fault))

        threads = [threading.Thread(target=it) for it in (call, bank.close)]
        with bank._lock:
            for thread in threads:
                thread.start()
                time.sleep(0.1)
        for thread in threads:
            thread.join(PATIENCE)
        self.assertEqual(said, ["the bank is closed"])

    def test_an_answer_with_no_end(self) -> None:
        with self.assertRaisesRegex(Ended, "one has no end, and begins with b'bank"):
            Bank([1], "/usr/bin/yes")

    def test_programs_that_are_none(self) -> None:
        for program, kind in (
            ("/bin/false", Ended), ("/bin/true", Ended), ("/nowhere/parbegin", Fault), ("/etc/passwd", Fault),
        ):
            self.assertRaises(kind, Bank, [1], program)

    def test_a_refusal_is_no_answer(self) -> None:
        for answer, said in (
            ("refused B12 the job has a wish", "has a wish"), ("refused B5 no such job 0", "no such job"), ("refused X9 what", "X9"),
        ):
            bank = self.answering(answer + "\n")
            for call in (bank.ask, bank.want):
                with self.assertRaisesRegex(Fault, said) as caught:
                    call(0, [1])
                self.assertNotIsInstance(caught.exception, Ended)
            self.assertEqual(bank.wishes(), [])

    def test_what_is_no_answer_ends_the_bank(self) -> None:
        for answer in ("", "lent\n", "grantedly 0\n", "\n"):
            bank = self.answering(answer)
            for _ in range(2):
                with self.assertRaisesRegex(Ended, "answers that are none"):
                    bank.ask(0, [1])

    def test_answers_may_say_more(self) -> None:
        for answer, meant in (
            ("granted\n", Answer.GRANTED), ("granted 0 ask 1 0\n", Answer.GRANTED), ("over claim 0 of 0\n", Answer.OVER_CLAIM),
            ("wait cash 0 1\n", Answer.NOT_NOW), ("wait rest 0 1\nwhat else\n", Answer.NOT_NOW),
        ):
            self.assertEqual(self.answering(answer).ask(0, [1]), meant)

    def test_an_interrupt_of_the_runner_is_none_of_the_bank(self) -> None:
        with runner(INTERRUPTED) as ran:
            assert ran.stdout is not None
            self.assertEqual(ran.stdout.readline(), "opened\n")
            os.killpg(ran.pid, signal.SIGINT)
            self.assertEqual(ran.stdout.read(), "granted [1]\n")
        self.assertEqual(ran.returncode, 0)

    @unittest.skipUnless(PROGRAM, "a bank in the library has no process")
    def test_an_unclosed_bank_ends_with_its_runner(self) -> None:
        with runner(UNCLOSED) as ran:
            assert ran.stdout is not None
            self.assertEqual(ran.stdout.readline(), "child Ended\n")
            bank, child, slot = map(int, ran.stdout.readline().split())
            self.assertEqual((slot, is_there(bank)), (0, True))
            ran.kill()
            ran.wait()
            self.assertTrue(has_ended(bank), "the bank lives on")
            self.assertTrue(is_there(child))
            os.kill(child, signal.SIGKILL)

    @unittest.skipUnless(PROGRAM, "a bank in the library has no process")
    def test_a_forgotten_bank_ends(self) -> None:
        bank = Bank([1], PROGRAM)
        process = bank._bank.pipes.process.pid
        del bank
        self.assertTrue(has_ended(process), "the bank lives on")


class Interrupts(unittest.TestCase):
    """Handlers of signals that raise in the middle of calls, or call."""

    def setUp(self) -> None:
        self.bank = Bank([4, 4], PROGRAM)
        self.addCleanup(self.bank.close)
        self.addCleanup(signal.signal, signal.SIGALRM, signal.getsignal(signal.SIGALRM))
        self.addCleanup(signal.setitimer, signal.ITIMER_REAL, 0)

    def raise_it(self, *_: object) -> None:
        raise Raised

    def interrupted(self, call: Callable[[], object], drawn: random.Random) -> object:
        """Makes a call that is interrupted, or is not, and returns what it answers."""
        signal.signal(signal.SIGALRM, self.raise_it)
        try:
            signal.setitimer(signal.ITIMER_REAL, drawn.uniform(1e-6, 3e-4 if PROGRAM else 6e-5))
            answer = call()
            signal.setitimer(signal.ITIMER_REAL, 0)
        except Raised:
            return None
        return answer

    def test_an_interrupted_call_was_made_or_was_not(self) -> None:
        bank, drawn, interrupts = self.bank, random.Random(7), 0
        self.assertEqual([bank.join([3, 3]), bank.join([3, 3]), bank.join([4, 4])], [0, 1, 2])
        for turn in range(5_000):
            if turn >= 200 and interrupts > 20:
                break
            bank.drop_all(0)
            bank.ask(0, [1, 2])
            calls = (lambda: bank.ask(0, [1, 1]), lambda: bank.give(0, [1, 0]), lambda: bank.drop_all(0), bank.order)
            call = drawn.choice(calls)
            interrupts += self.interrupted(call, drawn) is None
            held = bank.loans(0)
            self.assertIn(held, ([1, 2], [2, 3], [0, 2], [0, 0]))
            self.assertEqual(bank.cash(), [4 - held[0], 4 - held[1]])
            self.assertEqual((bank.capital(), bank.order()), ([4, 4], [0, 1, 2]))
        self.assertGreater(interrupts, 20)

    def test_an_interrupted_join_or_leave_has_its_slot(self) -> None:
        bank, drawn, interrupts = self.bank, random.Random(8), 0
        for turn in range(5_000):
            if turn >= 100 and interrupts > 20:
                break
            interrupts += self.interrupted(lambda: bank.join([1, 1]), drawn) is None
            for job in bank.order():
                self.assertEqual(bank.claims(job), [1, 1])
                interrupts += self.interrupted(lambda: bank.leave(0), drawn) is None
            for job in bank.order():
                bank.leave(job)
            self.assertEqual(bank.join([2, 2]), 0)
            bank.leave(0)
        self.assertGreater(interrupts, 20)

    def test_an_interrupted_queue_grants_each_wish_once(self) -> None:
        bank, drawn, interrupts = self.bank, random.Random(9), 0
        for turn in range(5_000):
            if turn >= 100 and interrupts > 20:
                break
            self.assertEqual([bank.join([4, 4]) for _ in range(4)], [0, 1, 2, 3])
            bank.ask(0, [4, 4])
            for job in (1, 2, 3):
                self.assertEqual(bank.want(job, [1, 1]), Answer.NOT_NOW)
            told = self.interrupted(lambda: bank.leave(0), drawn)
            interrupts += told is None
            told = told or []
            if bank.join([0, 0]) != 0:
                told += bank.leave(0)
                bank.join([0, 0])
            told += bank.give(0, [0, 0])
            self.assertEqual([job for job in (1, 2, 3) if bank.loans(job) == [1, 1]], [1])
            self.assertEqual(bank.wishes(), [(2, [1, 1]), (3, [1, 1])])
            self.assertIn(told, ([1], []))
            for job in bank.order():
                bank.leave(job)
            self.assertEqual((bank.cash(), bank.wishes()), ([4, 4], []))
        self.assertGreater(interrupts, 20)

    def test_a_handler_may_close(self) -> None:
        signal.signal(signal.SIGALRM, lambda *_: self.bank.close())
        signal.setitimer(signal.ITIMER_REAL, 5e-3)
        with self.assertRaises(Ended):
            while True:
                self.bank.order()

    def test_a_handler_that_calls_does_not_wait_for_itself(self) -> None:
        bank, said = self.bank, []

        def call(*_: object) -> None:
            try:
                said.append(bank.cash())
            except Fault as fault:
                said.append(str(fault))

        bank.join([1, 1])
        signal.signal(signal.SIGALRM, call)
        signal.setitimer(signal.ITIMER_REAL, 1e-3, 3e-4)
        ends = time.monotonic() + 0.5
        while time.monotonic() < ends:
            self.assertEqual(bank.ask(0, [1, 0]), Answer.GRANTED)
            bank.give(0, [1, 0])
        signal.setitimer(signal.ITIMER_REAL, 0)
        self.assertIn("a call of a bank within another call of it, as in the handler of a signal", said)


if __name__ == "__main__":
    unittest.main()
