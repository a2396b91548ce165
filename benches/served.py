#!/usr/bin/env python3
"""Times a served bank: clients each of which has one request without an answer, and calls of `hold` beside flock.

    benches/served.py [SECONDS]     each row is measured so long, 5 seconds if it is not said

Each command changes the bank, an `ask` and a `give` in turn, and is in the journal before its answer; `why` only reads. The
program is the one that ./parbegin has built.
"""
from __future__ import annotations

import pathlib
import resource
import selectors
import shutil
import subprocess
import sys
import tempfile
import time

TOP = pathlib.Path(__file__).resolve().parent.parent
sys.path.insert(0, str(TOP / "checks/lib"))

from calls import installed  # noqa: E402
from served_bank import Served, Wire  # noqa: E402

CLIENTS, CALLS = (1, 16, 64), 20


class Client:
    """A client with a job of its own, that asks and gives in turn."""

    def __init__(self, served: Served, number: int, is_reading: bool) -> None:
        self.wire, self.job, self.is_reading = Wire(served.socket), f"b{number}", is_reading
        self.number, self.sent = 1, 0.0
        self.wire.say("session 60")
        self.wire.say(f"1 job {self.job} 1 tape")

    def send(self) -> None:
        """Sends the next request."""
        self.number += 1
        verb = "why" if self.is_reading else "give" if self.number % 2 else "ask"
        self.sent = time.perf_counter()
        self.wire.send(f"{self.number} {verb} {self.job} 1 tape")

    def answer(self) -> float:
        """Reads the answer, and returns the seconds that it took."""
        answer = self.wire.answer()
        if answer and "granted" not in answer[0] and "allowed" not in answer[0]:
            raise ValueError(f"{self.job} is answered {answer}")
        return time.perf_counter() - self.sent


def timed(served: Served, count: int, seconds: float, is_reading: bool) -> str:
    """Returns how many commands a second clients have answered, and how long one waits."""
    clients = [Client(served, number, is_reading) for number in range(count)]
    found: list[float] = []
    with selectors.DefaultSelector() as selector:
        for client in clients:
            selector.register(client.wire.socket, selectors.EVENT_READ, client)
            client.send()
        end = time.perf_counter() + seconds
        while time.perf_counter() < end:
            for key, _ in selector.select(1):
                found.append(key.data.answer())
                key.data.send()
    for client in clients:
        client.answer()
        client.wire.say("end")
        client.wire.close()
    found.sort()
    return f"{len(found) / seconds:,.0f} | {found[len(found) // 2] * 1e3:.2f} | {found[len(found) * 99 // 100] * 1e3:.2f}"


def per_call(words: list[str]) -> str:
    """Returns the milliseconds by the clock and of processors that a call takes."""
    before, began = resource.getrusage(resource.RUSAGE_CHILDREN), time.perf_counter()
    for _ in range(CALLS):
        subprocess.run(words, check=True)
    clock, after = time.perf_counter() - began, resource.getrusage(resource.RUSAGE_CHILDREN)
    spent = after.ru_utime + after.ru_stime - before.ru_utime - before.ru_stime
    return f"{clock * 1e3 / CALLS:.1f} | {spent * 1e3 / CALLS:.1f}"


def main() -> None:
    seconds = float(sys.argv[1]) if len(sys.argv) > 1 else 5.0
    with tempfile.TemporaryDirectory(prefix="parbegin-served-") as name:
        folder = pathlib.Path(name)
        script = installed(folder / "installed")
        served = Served([script, "serve"], folder, capital="1000 tape")
        served.start()
        try:
            print("| clients | commands | a second | half of them within, ms | 99 of 100 within, ms |\n|---|---|---|---|---|")
            for is_reading in (False, True):
                for count in CLIENTS:
                    print(f"| {count} | {'`why`' if is_reading else '`ask` and `give`'} | {timed(served, count, seconds, is_reading)} |", flush=True)
            print("\n| call | ms | ms of processors |\n|---|---|---|")
            hold = [script, "hold", "--socket", served.socket, "1 tape", "--", "true"]
            calls = {"`hold \"1 tape\" -- true`": hold, "`python3 -I -S -c pass`": ["python3", "-I", "-S", "-c", "pass"]}
            calls |= {"`flock FILE true`": ["flock", f"{folder}/file", "true"]} if shutil.which("flock") else {}
            for told, words in calls.items():
                print(f"| {told} | {per_call(words)} |", flush=True)
        finally:
            served.kill()


if __name__ == "__main__":
    main()
