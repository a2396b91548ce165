"""The tests of the package, by `python3 -m unittest`. With PARBEGIN_TEST_PROGRAM the bank is asked through pipes."""
from __future__ import annotations

import os
import unittest

import parbegin
from parbegin import Answer, Bank, Claim, Fault, Need, Nest, Reason
from parbegin._saved import seal

PROGRAM = os.environ.get("PARBEGIN_TEST_PROGRAM")
COPIES = """resource tape = 2;
resource disk = 1;
process copy
begin
  hold 1 of disk do
    hold 2 of tape do print 1 od
  od
end
"""
LISTS = """resource tape = 2; resource disk = 1;
process list
begin
  hold 1 of tape do
    hold 1 of disk do print 2 od
  od
end"""
PLAN = "resource tape = 1; process a begin hold 1 of tape do print 1 od end"


class Banks(unittest.TestCase):
    """The calls of the bank."""

    def open(self, *capital: int) -> Bank:
        bank = Bank(capital, PROGRAM)
        self.addCleanup(bank.close)
        return bank

    def test_lends_what_is_safe(self) -> None:
        bank = self.open(10)
        self.assertEqual([bank.join([claim]) for claim in (8, 8, 4)], [0, 1, 2])
        self.assertEqual(bank.ask(0, [4]), Answer.GRANTED)
        self.assertEqual(bank.ask(1, [4]), Answer.NOT_NOW)
        self.assertEqual(bank.why(1, [4]), Reason("rest", None, (0, 1, 2)))
        self.assertEqual(bank.why(1, [7]), Reason("over cash", 0))
        self.assertEqual(bank.why(1, [9]), Reason("over claim", 0))
        self.assertEqual(bank.why(2, [1]), Reason("allowed"))
        self.assertEqual(bank.ask(2, [5]), Answer.OVER_CLAIM)
        self.assertEqual((bank.loans(0), bank.claims(0), bank.cash(), bank.capital()), ([4], [8], [6], [10]))
        bank.give(0, [1])
        self.assertEqual(bank.loans(0), [3])
        bank.drop_all(0)
        self.assertEqual((bank.loans(0), bank.order()), ([0], [0, 1, 2]))

    def test_refuses_what_is_not_there(self) -> None:
        bank = self.open(3, 3)
        bank.join([2, 2])
        for wrong in (
            lambda: bank.ask(1, [1, 0]),
            lambda: bank.ask(-1, [1, 0]),
            lambda: bank.ask(0, [1]),
            lambda: bank.ask(0, [1, -1]),
            lambda: bank.give(0, [1, 0]),
            lambda: bank.join([4, 0]),
            lambda: bank.join([1]),
            lambda: bank.leave(7),
            lambda: bank.loans(7),
            lambda: Bank([], PROGRAM),
            lambda: Bank([1_000_001], PROGRAM),
        ):
            self.assertRaises(Fault, wrong)
        self.assertEqual(bank.ask(0, [2**40, 0]), Answer.OVER_CLAIM)
        self.assertEqual(bank.cash(), [3, 3])

    def test_serves_the_queue_in_its_order(self) -> None:
        bank = self.open(4)
        for claim in (4, 4, 2, 1):
            bank.join([claim])
        bank.ask(0, [3])
        self.assertEqual(bank.want(1, [3]), Answer.NOT_NOW)
        self.assertEqual(bank.want(2, [2]), Answer.NOT_NOW)
        self.assertEqual(bank.want(3, [2]), Answer.OVER_CLAIM)
        self.assertRaises(Fault, bank.ask, 1, [1])
        self.assertRaises(Fault, bank.want, 2, [1])
        self.assertRaises(Fault, bank.drop, 3)
        self.assertEqual(bank.wishes(), [(1, [3]), (2, [2])])
        # a wish that is too large does not hold back the one behind it
        self.assertEqual(bank.give(0, [1]), [2])
        self.assertEqual(bank.drop_all(2), [])
        self.assertEqual((bank.leave(0), bank.wishes(), bank.loans(1)), ([1], [], [3]))
        self.assertEqual(bank.want(2, [2]), Answer.NOT_NOW)
        bank.drop(2)
        self.assertEqual(bank.leave(1), [])

    def test_jobs_come_and_go(self) -> None:
        bank = self.open(2)
        self.assertEqual([bank.join([2]) for _ in range(64)], list(range(64)))
        self.assertRaises(Fault, bank.join, [2])
        bank.ask(9, [2])
        bank.leave(9)
        self.assertEqual((bank.cash(), len(bank.order()), bank.join([1])), ([2], 63, 9))

    def test_takes_integers_alone(self) -> None:
        bank = self.open(3)
        bank.join([2])
        for wrong in (1.0, "1", b"1", True, None, [1], 1j):
            for call in (
                lambda it: Bank([it], PROGRAM), lambda it: bank.join([it]), lambda it: bank.ask(0, [it]),
                lambda it: bank.want(0, [it]), lambda it: bank.give(0, [it]), lambda it: bank.why(0, [it]),
                lambda it: bank.ask(it, [1]), lambda it: bank.want(it, [1]), lambda it: bank.give(it, [1]),
                lambda it: bank.why(it, [1]), bank.leave, bank.drop, bank.drop_all, bank.loans, bank.claims,
            ):
                self.assertRaises(TypeError, call, wrong)
        for wrong in ("1", b"1", 1, None):
            self.assertRaises(TypeError, bank.ask, 0, wrong)
        self.assertEqual((bank.order(), bank.cash(), bank.wishes()), ([0], [3], []))
        self.assertEqual(bank.ask(0, (it for it in (1,))), Answer.GRANTED)

    def test_takes_no_number_for_another(self) -> None:
        bank = self.open(1_000_000, 2)
        bank.join([1_000_000, 1])
        for large in (1_000_001, 2**32, 2**64, 2**64 + 1):
            self.assertEqual(bank.ask(0, [large, 0]), Answer.OVER_CLAIM)
            self.assertEqual(bank.why(0, [large, 2]), Reason("over claim", 0))
            self.assertEqual(bank.why(0, [0, large]), Reason("over claim", 1))
            self.assertRaises(Fault, bank.give, 0, [large, 0])
            self.assertRaises(Fault, bank.join, [large, 0])
            self.assertRaises(Fault, bank.leave, large)
            self.assertRaises(Fault, bank.loans, large)
        self.assertEqual((bank.cash(), bank.order()), ([1_000_000, 2], [0]))

    @unittest.skipIf(PROGRAM, "a bank in the program has no bytes")
    def test_adopts_what_was_saved(self) -> None:
        bank = self.open(3)
        bank.join([2])
        empty = bank.to_bytes()
        bank.ask(0, [1])
        saved = bank.to_bytes()
        self.assertEqual(Bank.from_bytes(saved).loans(0), [1])
        self.assertEqual(Bank.from_bytes(bytearray(saved)).to_bytes(), saved)
        half = len(saved) // 2
        for wrong, said in (
            (bytes(len(saved)), "magic word"), (bytes(8_464), "magic word"), (b"", "magic word"),
            (b"\xff" * len(saved), "magic word"), (saved[20:], "magic word"), (saved[:7], "cut off"), (saved[:20], "not whole"),
            (saved[:-1], "not whole"), (saved + b"\0", "not whole"), (saved[:8] + b"\2" + saved[9:], "version 2"),
            (saved[:half] + bytes(len(saved) - half), "damaged"),
            (empty[:half] + saved[half:], "damaged"), (saved[:20] + bytes(len(saved) - 20), "damaged"),
        ):
            with self.assertRaisesRegex(Fault, said):
                Bank.from_bytes(wrong)
        with self.assertRaisesRegex(Fault, "no bank"):
            Bank.from_bytes(seal(bytes(8_464)))
        for at in range(len(saved)):
            damaged = bytearray(saved)
            damaged[at] ^= 1 << at % 8
            self.assertRaises(Fault, Bank.from_bytes, damaged)


class Words(unittest.TestCase):
    """What the calls of the commands do not take."""

    def test_numbers_that_are_none(self) -> None:
        for named in ({"seed": "1"}, {"seed": 1.0}, {"seed": True}, {"steps": "5"}):
            self.assertRaises(TypeError, parbegin.run, PLAN, **named)
        for named in ({"seed": -1}, {"seed": 2**64}, {"steps": -1}, {"steps": 10_000_001}):
            with self.assertRaisesRegex(Fault, "are from 0 to"):
                parbegin.run(PLAN, **named)

    def test_texts_and_lenders_that_are_none(self) -> None:
        for call in (parbegin.check, parbegin.claims, parbegin.plan, parbegin.outcomes, parbegin.run):
            for text in (None, 3, [PLAN]):
                self.assertRaises(TypeError, call, text)
        with self.assertRaisesRegex(Fault, "'nobody'"):
            parbegin.outcomes(PLAN, lend="nobody")


class Commands(unittest.TestCase):
    """The calls of the commands."""

    def test_says_what_the_program_says(self) -> None:
        self.assertEqual(parbegin.check(PLAN), (0, "ok\n"))
        self.assertEqual(parbegin.check("process p begin print q end"), (1, "refused N3 at 22\n"))
        self.assertEqual(parbegin.claims(PLAN).status, 0)
        self.assertIn("tape", parbegin.claims(PLAN).text)
        self.assertEqual(parbegin.outcomes(PLAN).status, 0)

    def test_plans_a_text(self) -> None:
        plan = parbegin.plan(COPIES)
        self.assertEqual(plan.claims, [Claim("copy", 1, "tape", 2, (6,)), Claim("copy", 1, "disk", 1, (5,))])
        self.assertEqual(plan.needs, [Need("tape", 2, 2, 2), Need("disk", 1, 1, 1)])
        self.assertEqual((plan.bottleneck, plan.order, plan.circle, plan.fits), (None, ["disk", "tape"], [], True))
        self.assertEqual(parbegin.plan("process p begin skip end").order, [])

    def test_plans_texts_together(self) -> None:
        plan = parbegin.plan(COPIES, LISTS.encode())
        self.assertEqual([(it.process, it.text, it.lines) for it in plan.claims if it.resource == "disk"], [("copy", 1, (5,)), ("list", 2, (5,))])
        self.assertEqual((plan.needs[0], plan.bottleneck, plan.order, plan.fits), (Need("tape", 2, 2, 3), "tape", None, True))
        self.assertEqual(sorted(plan.circle), [Nest("copy", 1, "disk", 5, "tape", 6), Nest("list", 2, "tape", 4, "disk", 5)])
        # without a line feed at its end a text comes first too
        self.assertEqual(len(parbegin.plan(LISTS, COPIES).claims), 4)

    def test_plans_what_is_too_much(self) -> None:
        plan = parbegin.plan(COPIES.replace("tape = 2", "tape = 1"))
        self.assertEqual((plan.fits, plan.bottleneck), (False, "tape"))
        for texts, said in (
            (("process p begin print q end",), "refused N3 at 22"),
            ((COPIES, LISTS.replace("disk = 1", "disk = 3")), "text 2 refused N2 at 28"),
            ((), "refused P1 at 0"),
        ):
            with self.assertRaises(Fault) as caught:
                parbegin.plan(*texts)
            self.assertEqual(str(caught.exception), said)

    def test_runs(self) -> None:
        ran = parbegin.run(PLAN, seed=7)
        self.assertEqual(ran.end, "done")
        self.assertIn("a.0 print 1", ran.events)
        self.assertEqual(parbegin.run(PLAN, seed=7), ran)
        self.assertRaises(Fault, parbegin.run, "process p begin print q end")


if __name__ == "__main__":
    unittest.main()
