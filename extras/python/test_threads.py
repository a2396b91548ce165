"""Sixteen threads in one bank, by `python3 -m unittest`: each calls as it likes, and none waits for ever.

With PARBEGIN_TEST_PROGRAM the bank is asked through pipes. PARBEGIN_TEST_SECONDS is how long new jobs come, and
PARBEGIN_TEST_PATIENCE how many seconds the last ones have to end in.
"""
from __future__ import annotations

import os
import random
import sys
import threading
import time
import unittest

from parbegin import Answer, Bank, Ended

PROGRAM = os.environ.get("PARBEGIN_TEST_PROGRAM")
SECONDS = float(os.environ.get("PARBEGIN_TEST_SECONDS", "3"))
THREADS, CAPITAL = 16, [6, 4, 3]
# Seconds in which every wish is granted once no new jobs come. (While they come, a large wish may wait on.)
PATIENCE = float(os.environ.get("PARBEGIN_TEST_PATIENCE", "20"))


class Night:
    """A bank, the threads that wait, by their slots, and what went wrong."""

    def __init__(self, bank: Bank) -> None:
        self.bank = bank
        self.woken: dict[int, threading.Event] = {}
        self.ends = time.monotonic() + SECONDS
        self.faults: list[str] = []

    def wake(self, jobs: list[int]) -> None:
        """Wakes the threads of jobs whose wishes were granted."""
        for job in jobs:
            self.woken[job].set()

    def goes_on(self) -> bool:
        return not self.faults and time.monotonic() < self.ends

    def fail(self, why: str) -> None:
        """Notes what went wrong, and wakes all."""
        self.faults.append(why)
        for woken in list(self.woken.values()):
            woken.set()


class Job(threading.Thread):
    """A thread whose jobs come, want devices, give them back, and leave."""

    def __init__(self, night: Night, seed: int) -> None:
        super().__init__(daemon=True)
        self.night, self.drawn = night, random.Random(seed)
        self.turns = self.waits = 0

    def run(self) -> None:
        try:
            while self.night.goes_on():
                self.work()
        except BaseException as fault:  # noqa: BLE001 (any of them is one)
            self.night.fail(f"{type(fault).__name__}: {fault}")

    def draw(self, most: list[int]) -> list[int]:
        return [self.drawn.randint(0, it) for it in most]

    def work(self) -> None:
        """Does the work of one job."""
        bank = self.night.bank
        claims = self.draw(CAPITAL)
        job = bank.join(claims)
        woken = self.night.woken[job] = threading.Event()
        held = [0] * len(CAPITAL)
        for _ in range(self.drawn.randint(1, 6)):
            wish = self.draw([claim - loan for claim, loan in zip(claims, held)])
            self.get(job, wish, woken)
            held = [loan + amount for loan, amount in zip(held, wish)]
            self.look(job, claims, held)
            back = self.draw(held)
            self.night.wake(bank.give(job, back))
            held = [loan - amount for loan, amount in zip(held, back)]
            self.turns += 1
        self.look(job, claims, held)
        self.night.wake(bank.drop_all(job) if self.drawn.random() < 0.3 else [])
        self.night.wake(bank.leave(job))

    def get(self, job: int, wish: list[int], woken: threading.Event) -> None:
        """Wants the amounts, and waits until they are granted."""
        woken.clear()
        answer = self.night.bank.want(job, wish)
        if answer is Answer.NOT_NOW:
            self.waits += 1
            if not woken.wait(self.night.ends + PATIENCE - time.monotonic()):
                raise AssertionError(f"job {job} waits for ever")
        elif answer is not Answer.GRANTED:
            raise AssertionError(f"{answer} to a wish within the claim")

    def look(self, job: int, claims: list[int], held: list[int]) -> None:
        """Compares what the bank says of the job with what the job knows."""
        bank = self.night.bank
        if self.night.faults:
            return
        said = bank.loans(job), bank.claims(job), bank.why(job, [0, 0, 0]).kind, job in bank.order(), bank.capital()
        if said != (held, claims, "allowed", True, CAPITAL):
            raise AssertionError(f"{said} of a job that holds {held} and claims {claims}")


class Threads(unittest.TestCase):
    """One bank, called by many threads."""

    def setUp(self) -> None:
        # (so that threads change places within a call too)
        self.addCleanup(sys.setswitchinterval, sys.getswitchinterval())
        sys.setswitchinterval(1e-6)

    def test_each_call_is_one_step(self) -> None:
        bank = Bank(CAPITAL, PROGRAM)
        night = Night(bank)
        jobs = [Job(night, seed) for seed in range(THREADS)]
        for job in jobs:
            job.start()
        for job in jobs:
            job.join(max(0.0, night.ends + PATIENCE + 1 - time.monotonic()))
        stuck = sum(job.is_alive() for job in jobs)
        if stuck:
            night.fail(f"{stuck} threads have not come back from a call")
        self.addCleanup(bank.close)
        self.assertEqual(night.faults, [])
        self.assertEqual((bank.cash(), bank.order(), bank.wishes()), (CAPITAL, [], []))
        self.assertGreater(sum(job.waits for job in jobs), THREADS)
        print(f"{sum(job.turns for job in jobs)} turns, {sum(job.waits for job in jobs)} of them after a wait", file=sys.stderr)

    def test_close_breaks_off_what_others_call(self) -> None:
        bank = Bank(CAPITAL, PROGRAM)
        bank.join([1, 1, 1])
        raised: list[BaseException] = []

        def ask() -> None:
            try:
                while True:
                    bank.order()
            except BaseException as fault:  # noqa: BLE001
                raised.append(fault)

        threads = [threading.Thread(target=ask, daemon=True) for _ in range(THREADS)]
        for thread in threads:
            thread.start()
        time.sleep(0.05)
        bank.close()
        for thread in threads:
            thread.join(PATIENCE)
        self.assertEqual([type(fault) for fault in raised], [Ended] * THREADS)


if __name__ == "__main__":
    unittest.main()
