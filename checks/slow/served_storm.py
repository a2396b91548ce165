#!/usr/bin/env python3
"""Kills a served bank again and again while many clients use it, and looks whether anything is lost or done twice.

    checks/slow/served_storm.py [PROGRAM [SECONDS [SEED [PART ..]]]]

PROGRAM is the one that ./parbegin has built if none is given; all parts are tried if none is named.

Each client compares what it holds with `state`. What they surely held at each moment is added up, and has to be within
the capital. Then the journal is replayed over a second bank, the model of checks/lib/bank_model.py, and each answer that a
client got has to be the one that comes of it. The server is killed at random, and at points that are chosen: before and
after a batch is written, carried out and answered, and while a snapshot takes the place of batches. Besides, write-ahead
logs are cut and spoiled after what was acknowledged, the disk is full, and a thousand clients are there. Its status is 0 if
all is as wanted, and 1 if not.
"""
from __future__ import annotations

import asyncio
import os
import pathlib
import random
import resource
import shutil
import signal
import sqlite3
import sys
import tempfile
import threading
import time
from collections.abc import Sequence
from contextlib import ExitStack, closing, suppress

sys.path.insert(0, str(pathlib.Path(__file__).resolve().parents[1] / "lib"))

from calls import DEVICE, TOP, Tally, installed, program  # noqa: E402
from served_bank import PATIENCE, Served, Wire  # noqa: E402
from served_history import Seen, Worker, compare_answers  # noqa: E402
from served_killed import POINTS  # noqa: E402

sys.path.insert(1, str(TOP / "extras/python"))

from parbegin import Answer, RemoteBank  # noqa: E402
from script.serving.journal import Journal  # noqa: E402

CLIENTS, SECONDS, LOGS = 8, 20.0, 300
PARTS = ("torn", "full", "crowd", "random", "points")
KILLED = TOP / "checks/lib/served_killed.py"
# How often the server comes to its point before it is killed there: those of a snapshot are seldom.
SELDOM, OFTEN = (1, 2, 3), (3, 10, 30, 100)


def batches_of(folder: pathlib.Path) -> list[str]:
    """Returns the entries of a journal that has no snapshot."""
    with closing(sqlite3.connect(folder / "journal/journal.db")) as base:
        assert not base.execute("SELECT * FROM snapshot").fetchall()
        return [it for (entries,) in base.execute("SELECT entries FROM batch ORDER BY sequence") for it in entries.split("\n")]


def storm(tally: Tally, served: Served, kind: str, seconds: float, seed: int) -> None:
    """Lets clients use the bank while the server is killed, and looks at what they saw."""
    rng, seen = random.Random(seed), Seen()
    # (it may come to its point before it answers)
    with suppress(RuntimeError):
        served.start(**killed_at(rng, kind))
    end = time.monotonic() + seconds
    workers = [Worker(at, served.socket, seen, seed) for at in range(CLIENTS)]
    try:
        kills = kill_again(served, rng, kind, end, seen, workers)
        tally.expect(not any(worker.is_alive() for worker in workers), kind, "a client waits for ever")
        tally.expect(not seen.wrong, kind, len(seen.wrong), "are wrong:", *seen.wrong[:3])
        tally.expect(not seen.over_capital(), kind, "more is lent than there is:", *seen.over_capital())
        with RemoteBank(served.socket, patience=PATIENCE) as bank:
            left = [line for line in bank.state() if line.startswith(("job", "wish"))]
        tally.expect(not left, kind, "something is left", *left)
    finally:
        served.kill()
    folder = pathlib.Path(served.socket).parent
    answers = compare_answers(tally, batches_of(folder), seen) if kind == "random" else len(seen.answers)
    print(f"{kind}: {kills} kills, {answers} answers, {seen.compared} looks at the state, seed {seed}", flush=True)


def kill_again(
    served: Served, rng: random.Random, kind: str, end: float, seen: Seen, workers: Sequence[threading.Thread]
) -> int:
    """Starts the clients, and kills the server until their time is up. Returns how often it was killed."""
    kills = 0
    for worker in workers:
        worker.start()
    last = end + 10 * PATIENCE
    while any(worker.is_alive() for worker in workers) and time.monotonic() < last:
        if time.monotonic() > end:
            seen.is_over.set()
        time.sleep(rng.uniform(0.3, 1.5) if kind == "random" else 0.02)
        if kind == "random" and time.monotonic() < end:
            served.kill()
        assert served.process is not None
        if served.process.poll() is not None:
            kills += 1
            with suppress(RuntimeError):
                served.start(**(killed_at(rng, kind) if time.monotonic() < end else {}))
    return kills


def killed_at(rng: random.Random, kind: str) -> dict[str, str]:
    """Returns where the server is to be killed."""
    if kind != "points":
        return {}
    point = rng.choice(POINTS)
    return {"KILLED_AT": f"{point}:{rng.choice(SELDOM if 'save' in point or 'delete' in point else OFTEN)}"}


def spoiled(rng: random.Random, tail: bytes) -> bytes:
    """Returns the end of a log cut off, zeroed, overwritten, or with one bit flipped."""
    kind = rng.choice(("cut", "zero", "noise", "flip"))
    if kind == "flip" and tail:
        at = rng.randrange(min(len(tail), 200))
        return tail[:at] + bytes([tail[at] ^ 1 << rng.randrange(8)]) + tail[at + 1 :]
    return {"zero": bytes(len(tail)), "noise": rng.randbytes(len(tail))}.get(kind, b"")


async def write_batches(folder: str, rng: random.Random) -> tuple[list[list[str]], list[int]]:
    """Writes batches, and returns them with the sizes of the log after each."""
    log, batches = f"{folder}/journal.db-wal", []
    with closing(Journal(folder)) as journal:
        journal.read()
        sizes = [os.path.getsize(log)]
        for number in range(rng.randint(5, 40)):
            batches.append([f"C 1 {number} {'x' * rng.randint(0, 3000)}" for _ in range(rng.randint(1, 8))])
            await journal.append(batches[-1])
            sizes.append(os.path.getsize(log))
        shutil.copytree(folder, f"{folder}.copy")
    return batches, sizes


def try_torn(tally: Tally, folder: pathlib.Path, rng: random.Random) -> None:
    """Spoils write-ahead logs anywhere after what was acknowledged: that has to be there."""
    for at in range(LOGS // 20):
        batches, sizes = asyncio.run(write_batches(f"{folder}/{at}", rng))
        for again in range(20):
            copy = f"{folder}/{at}.{again}"
            shutil.copytree(f"{folder}/{at}.copy", copy)
            whole = pathlib.Path(copy, "journal.db-wal").read_bytes()
            cut = rng.randint(sizes[rng.randrange(len(sizes))], sizes[-1])
            pathlib.Path(copy, "journal.db-wal").write_bytes(whole[:cut] + spoiled(rng, whole[cut:]))
            pathlib.Path(copy, "journal.db-shm").unlink(missing_ok=True)
            with closing(Journal(copy)) as journal:
                found = list(journal.read()[1])
            acknowledged = max(number for number, size in enumerate(sizes) if size <= cut)
            is_kept = found == batches[: len(found)] and len(found) >= acknowledged
            tally.expect(is_kept, "a spoiled log:", acknowledged, "batches were acknowledged, and", len(found), "are there")
            shutil.rmtree(copy)


def try_crowd(tally: Tally, start: list[str], folder: pathlib.Path) -> None:
    """Has a thousand clients that say nothing, some that flood and never read, and some that send any bytes: others are answered."""
    # (it has to ask for more files than a shell gives)
    rng, served = random.Random(1), Served(["sh", "-c", 'ulimit -Sn 1024; exec "$@"', "sh", *start], folder)
    served.start()
    with ExitStack() as all_of_them:
        crowd = [all_of_them.enter_context(Wire(served.socket)) for _ in range(1000)]
        tally.expect(all(wire.say("hello") for wire in crowd), "a client of many is not answered")
        for wire in crowd[:8]:
            wire.socket.settimeout(2)
            with suppress(OSError):
                for _ in range(500):
                    wire.send(*["help"] * 100)
        for wire in crowd[8:40]:
            with suppress(OSError):
                wire.socket.sendall(rng.randbytes(20_000))
        slowest = 0.0
        with RemoteBank(served.socket, patience=PATIENCE) as bank:
            bank.join("a", {"tape": 3})
            for _ in range(100):
                began = time.monotonic()
                tally.expect(bank.ask("a", {"tape": 1}) is Answer.GRANTED, "a client of many is not granted anything")
                bank.give("a", {"tape": 1})
                slowest = max(slowest, time.monotonic() - began)
        tally.expect(slowest < PATIENCE / 4, "a client of many waits", slowest, "seconds")
        print(f"crowd: two answers take at most {slowest:.2f} seconds", flush=True)
    tally.expect(served.end() == 0, "a server with a crowd does not end")


def start_again(served: Served, words: list[str], statuses: list[int]) -> None:
    """Starts a server anew, by other words, once it has ended."""
    assert served.process is not None
    statuses.append(served.process.wait())
    served.words = words
    served.start()


def try_full(tally: Tally, start: list[str], folder: pathlib.Path) -> None:
    """Lets the disk be full while a client is answered: the server ends, and the next one has all that it answered."""
    served, statuses, held = Served(start, folder), list[int](), 0
    words, served.words = served.words, ["sh", "-c", 'ulimit -f 300; exec "$@"', "sh", *served.words]
    served.start()
    watcher = threading.Thread(target=start_again, args=(served, words, statuses), daemon=True)
    watcher.start()
    with RemoteBank(served.socket, lease=300, patience=PATIENCE) as bank:
        bank.join("a", {"tape": 3})
        for number in range(3000):
            if number % 2 and held:
                bank.give("a", {"tape": 1})
                held -= 1
            elif bank.ask("a", {"tape": 1}) is Answer.GRANTED:
                held += 1
            if statuses:
                break
        watcher.join(PATIENCE)
        row = next(line.split(" ") for line in bank.state() if line.startswith("job a tape "))
        tally.expect(statuses == [DEVICE], "a full disk ends a server with status", *statuses)
        tally.expect(int(row[6]) == held, "after a full disk the bank says", row, "and the client holds", held)
    served.end(signal.SIGKILL)


def allow_files() -> None:
    """Lets this check have the files of a crowd."""
    hard = resource.getrlimit(resource.RLIMIT_NOFILE)[1]
    resource.setrlimit(resource.RLIMIT_NOFILE, (hard, hard))


def main() -> None:
    allow_files()
    seconds = float(sys.argv[2]) if len(sys.argv) > 2 else SECONDS
    seed = int(sys.argv[3]) if len(sys.argv) > 3 else random.randrange(1_000_000)
    tally, parts = Tally(), sys.argv[4:] or PARTS
    with tempfile.TemporaryDirectory(prefix="parbegin-storm-") as name:
        folder = pathlib.Path(name)
        start = [installed(folder / "installed"), "serve"]
        killed = [sys.executable, str(KILLED), program(["bank"])]
        for part in PARTS:
            (folder / part).mkdir()
        if "torn" in parts:
            try_torn(tally, folder / "torn", random.Random(seed))
        if "full" in parts:
            try_full(tally, start, folder / "full")
        if "crowd" in parts:
            try_crowd(tally, start, folder / "crowd")
        for kind, words, every in (("random", start, "1000000"), ("points", killed, "20")):
            if kind in parts:
                storm(tally, Served(words, folder / kind, "--snapshot-every", every), kind, seconds, seed)
    tally.end("served_storm")


if __name__ == "__main__":
    main()
