"""What many clients of a served bank see, and whether it fits: with the capital, with what the bank says, and with its journal."""
from __future__ import annotations

import random
import sys
import threading
import time
from collections.abc import Callable, Iterable, Sequence

from bank_model import Model
from calls import TOP, Tally
from served_bank import CAPITAL, PATIENCE, wait_for

sys.path.insert(1, str(TOP / "extras/python"))

from parbegin import Answer, Fault, RemoteBank  # noqa: E402

from script.serving.bank import BankProcess  # noqa: E402
from script.serving.desk import Desk  # noqa: E402

CLIENTS = 8
# Answers that have to come between two things that go wrong, so that the clients have found their way.
BETWEEN = 40
# What is not in the journal, and may be answered anew.
READING = ("state", "why", "order", "fence", "beat", "end")


class ModelBank(BankProcess):
    """The model of a bank, in the place of the process."""

    def __init__(self) -> None:
        self.model = Model()

    def say(self, line: str) -> list[str]:
        answer = self.model.do(line)
        assert answer is not None, line
        return answer


class Seen:
    """What all clients saw: their answers, when they surely held what, and what was wrong."""

    def __init__(self) -> None:
        self.answers: dict[tuple[int, int], tuple[str, list[str]]] = {}
        self.held: list[tuple[float, int, dict[str, int]]] = []
        self.wrong: list[tuple[object, ...]] = []
        self.compared = 0
        # set once the clients are to end
        self.is_over = threading.Event()

    def over_capital(self) -> list[str]:
        """Returns the resources of which more was held at some moment than there is."""
        now, over = dict.fromkeys(CAPITAL, 0), set()
        for _, sign, amounts in sorted(self.held, key=lambda it: it[:2]):
            for name, amount in amounts.items():
                now[name] += sign * amount
                over |= {name} if now[name] > CAPITAL[name] else set()
        return sorted(over)


class Client(RemoteBank):
    """A client that remembers each answer."""

    seen: Seen

    def _answer(self, number: int, lines: list[str]) -> None:
        request = self._requests.get(number)
        if request is not None and not (lines and lines[0].startswith(("refused S2", "refused S5"))):
            self.seen.answers[int(self._wire.sid), number] = request.line, lines
        super()._answer(number, lines)


class Worker(threading.Thread):
    """A client whose jobs come and go, and that knows what they hold."""

    def __init__(self, at: int, address: str, seen: Seen, seed: int, **access: str) -> None:
        super().__init__(daemon=True)
        self.at, self.address, self.seen, self.rng = at, address, seen, random.Random(f"{seed}-{at}")
        self.token, self.authority = access.get("token"), access.get("authority")

    def run(self) -> None:
        try:
            Client.seen = self.seen
            with Client(self.address, lease=600, patience=PATIENCE, token=self.token, authority=self.authority) as bank:
                count = 0
                while not self.seen.is_over.is_set():
                    count += 1
                    self.one_job(bank, f"w{self.at}-{count}")
        except Fault as fault:
            self.seen.wrong.append((self.at, "a call failed", fault))

    def one_job(self, bank: RemoteBank, job: str) -> None:
        """A job joins, asks, waits, gives back and leaves."""
        claim = {name: self.rng.randint(0, amount) for name, amount in CAPITAL.items()}
        holds = dict.fromkeys(CAPITAL, 0)
        bank.join(job, claim)
        for _ in range(self.rng.randint(2, 12)):
            names = self.rng.sample(list(CAPITAL), self.rng.randint(1, 3))
            need = {name: self.rng.randint(0, claim[name] - holds[name]) for name in names}
            step = self.rng.random()
            if step < 0.35:
                self.got(bank.ask(job, need) is Answer.GRANTED, holds, need)
            elif step < 0.65:
                self.got(bank.obtain(job, need, self.rng.choice((0.05, 0.5, 2.0))), holds, need)
            elif step < 0.9:
                self.give(bank, job, holds, {name: self.rng.randint(0, amount) for name, amount in holds.items()})
            else:
                self.compare(bank, job, holds)
        self.compare(bank, job, holds)
        self.seen.held.append((time.monotonic(), -1, dict(holds)))
        bank.leave(job)

    def got(self, is_granted: bool, holds: dict[str, int], need: dict[str, int]) -> None:
        """Counts what was granted."""
        if is_granted:
            self.seen.held.append((time.monotonic(), 1, need))
            for name, amount in need.items():
                holds[name] += amount

    def give(self, bank: RemoteBank, job: str, holds: dict[str, int], back: dict[str, int]) -> None:
        """Gives back."""
        self.seen.held.append((time.monotonic(), -1, back))
        bank.give(job, back)
        for name, amount in back.items():
            holds[name] -= amount

    def compare(self, bank: RemoteBank, job: str, holds: dict[str, int]) -> None:
        """Compares what the job holds with what the bank says."""
        rows = [line.split(" ") for line in bank.state() if line.startswith(f"job {job} ")]
        self.seen.compared += 1
        if {row[2]: int(row[6]) for row in rows} != holds:
            self.seen.wrong.append((job, "holds", holds, "and the bank says", rows))


def seen_while(tally: Tally, address: str, what: str, seed: int, faults: Iterable[Callable[[], None]], **access: str) -> Seen:
    """Lets clients use a bank while one thing after the other goes wrong. Returns what they saw, of which nothing may be
    wrong; and at the end nothing is left in the bank."""
    seen = Seen()
    workers = [Worker(at, address, seen, seed, **access) for at in range(CLIENTS)]
    for worker in workers:
        worker.start()
    for fault in faults:
        before = len(seen.answers)
        wait_for(lambda: len(seen.answers) > before + BETWEEN or seen.wrong)
        fault()
    seen.is_over.set()
    for worker in workers:
        worker.join(5 * PATIENCE)
    tally.expect(not any(worker.is_alive() for worker in workers), what, "a client waits for ever")
    tally.expect(not seen.wrong, what, len(seen.wrong), "are wrong:", *seen.wrong[:3])
    tally.expect(not seen.over_capital(), what, "more is lent than there is:", *seen.over_capital())
    with RemoteBank(address, patience=PATIENCE, token=access.get("token"), authority=access.get("authority")) as bank:
        left = [line for line in bank.state() if line.startswith(("job", "wish"))]
    tally.expect(not left, what, "something is left", *left)
    return seen


def compare_answers(tally: Tally, entries: Sequence[str], seen: Seen) -> int:
    """Replays a journal over the model, and compares each answer that a client got with what comes of it."""
    desk, said = Desk(ModelBank()), {}
    for entry in entries:
        done = desk.apply(entry)
        if entry[0] == "C" and done.is_new:
            said[done.session, done.number] = done.answer
    told = {key: it for key, it in seen.answers.items() if it[0].split(" ")[0] not in READING}
    wrong = [(key, it, said.get(key)) for key, it in told.items() if said.get(key) != it[1]]
    tally.expect(not wrong, len(wrong), "answers are not those of the journal:", *wrong[:3])
    return len(told)


