#!/usr/bin/env python3
"""Calls a served bank from Python and Rust, by JSON and by `bank --connect`, over kills of the server.

    checks/quick/served_clients.py [PROGRAM [PART ..]]     PROGRAM is the one that ./parbegin has built if none is given

What clients hold is compared with what the bank says. All parts are tried if none is named. Its status is 0 if all is as
wanted, and 1 if not.
"""
from __future__ import annotations

import asyncio
import json
import pathlib
import shutil
import signal
import subprocess
import sys
import tempfile
import threading
from collections.abc import Callable
from contextlib import suppress

sys.path.insert(0, str(pathlib.Path(__file__).resolve().parents[1] / "lib"))

from calls import DONE, TOP, WATCHDOG, Tally, installed, program  # noqa: E402
from served_bank import CAPITAL, PATIENCE, Served, Wire, try_parts, wait_for  # noqa: E402

sys.path.insert(1, str(TOP / "extras/python"))

from parbegin import Answer, AsyncRemoteBank, Ended, Fault, RemoteBank  # noqa: E402

PARTS = ("remote", "async", "json", "terminal", "rust")
# Requests in JSON with what is answered; a number stands in both.
OBJECTS: tuple[tuple[str, object], ...] = (
    ('{"id":1,"do":"session","lease":600}', None), ('{"id":1,"do":"job","job":"a","amounts":{"tape":2,"disk":1}}', {"ok": True}),
    ('{"id":2,"do":"ask","job":"a","amounts":{"tape":1,"disk":1}}', {"granted": [{"job": "a", "amounts": {"tape": 1, "disk": 1}}]}),
    ('{"id":2,"do":"ask","job":"a","amounts":{"tape":1,"disk":1}}', {"granted": [{"job": "a", "amounts": {"tape": 1, "disk": 1}}]}),
    ('{"id":3,"do":"why","job":"a","amounts":{"tape":2}}', {"over": "claim", "resource": "tape"}),
    ('{"id":4,"do":"job","job":"b","amounts":{"tape":3}}', {"ok": True}),
    ('{"id":5,"do":"want","job":"b","amounts":{"tape":3}}', {"queued": True}),
    ('{"id":6,"do":"why","job":"b","amounts":{"tape":3}}', {"wait": "cash", "resource": "tape", "cash": 2}),
    ('{"id":7,"do":"order"}', {"order": ["a", "b"]}), ('{"id":8,"do":"order","jobs":["a","b"]}', {"finishes": True}),
    ('{"id":9,"do":"give","job":"a","amounts":{"tape":1}}', {"granted": [{"job": "b", "amounts": {"tape": 3}}]}),
    ('{"id":10,"do":"give","job":"a","amounts":{"tape":1}}', {"refused": "B11", "why": "the job does not hold as much: tape"}),
    ('{"id":11,"do":"leave","job":"b"}', {"ok": True}),
    ('{"id":12,"do":"drop","job":"b"}', {"refused": "B5", "why": "no such job: b"}),
    ('{"id":13,"do":"frob"}', {"refused": "B1", "why": "not a command"}), ('[1]', {"refused": "B1", "why": "not a command"}),
    ('{"id":14,"do":"ask","job":"a b","amounts":{}}', {"refused": "B1", "why": "not a command"}),
    ('{"id":15,"do":"ask","job":"a","amounts":{"tape":true}}', {"refused": "B1", "why": "not a command"}),
    ('{"id":16,"do":"end","more":1}', {"refused": "B1", "why": "not a command"}), ('{"id":17,"do":"beat"}', {"ok": True}),
    ('{"id":18,"do":"end"}', {"ok": True}),
)


def try_remote(tally: Tally, served: Served) -> None:
    """Calls the Python client from several threads, kills the server meanwhile, and compares what it holds with `state`."""
    with RemoteBank(served.socket, lease=600, patience=PATIENCE) as bank:
        def work(name: str) -> None:
            bank.join(name, CAPITAL)
            for _ in range(6):
                with bank.holding(name, {"tape": 2}):
                    held.append(name)
                    tally.expect(len(held) == 1, "two jobs hold more than there is", held)
                    held.remove(name)
            bank.leave(name)

        held: list[str] = []
        threads = [threading.Thread(target=work, args=(f"t{at}",)) for at in range(3)]
        for thread in threads:
            thread.start()
        served.end(signal.SIGKILL)
        served.start()
        for thread in threads:
            thread.join(WATCHDOG)
        tally.expect(not any(thread.is_alive() for thread in threads), "a thread waits for ever")
        tally.expect(not any(line.startswith(("job t", "wish")) for line in bank.state()), "a job is left", bank.state())
        bank.join("a", {"tape": 1})
        tally.expect(bank.ask("a", {"tape": 2}) is Answer.OVER_CLAIM, "more than the claim is granted")
        tally.expect(bank.why("a", {"tape": 2}) == ("over claim", "tape", ()), "why", bank.why("a", {"tape": 2}))
        tally.expect(bank.order() == ["a"] and bank.fence() < bank.fence() + 1, "order and fence", bank.order())
        with RemoteBank(served.socket, lease=600, patience=PATIENCE) as other:
            other.join("b", {"tape": 3})
            other.obtain("b", {"tape": 3})
            tally.expect(not bank.obtain("a", {"tape": 1}, 0.1), "what another holds is granted")
            tally.expect(bank.want("a", {"tape": 1}) is Answer.NOT_NOW, "want")
        tally.expect(bank.wait("a", WATCHDOG), "what an ended session held does not come back")
    with suppress(Ended):
        bank.state()
        tally.expect(False, "a closed bank answers")


async def work_async(tally: Tally, bank: AsyncRemoteBank, name: str, held: list[str]) -> None:
    """A job that holds two tapes again and again, which is more than others leave."""
    await bank.join(name, CAPITAL)
    for _ in range(6):
        async with bank.holding(name, {"tape": 2}):
            held.append(name)
            tally.expect(len(held) == 1, "two jobs hold more than there is", held)
            held.remove(name)
    await bank.leave(name)


async def try_tasks(tally: Tally, served: Served) -> None:
    """Calls the client for asyncio from several tasks, and kills the server meanwhile; cancels one that waits."""
    async with AsyncRemoteBank(served.socket, lease=600, patience=PATIENCE) as bank:
        held: list[str] = []
        tasks = [asyncio.ensure_future(work_async(tally, bank, f"t{at}", held)) for at in range(3)]
        await asyncio.get_running_loop().run_in_executor(None, served.end, signal.SIGKILL)
        await asyncio.get_running_loop().run_in_executor(None, served.start)
        done, late = await asyncio.wait(tasks, timeout=WATCHDOG)
        tally.expect(not late, "a task waits for ever")
        for task in done:
            task.result()
        tally.expect(not any(line.startswith(("job t", "wish")) for line in await bank.state()), "a job is left")
        await bank.join("a", {"tape": 3})
        tally.expect(await bank.ask("a", {"tape": 4}) is Answer.OVER_CLAIM, "more than the claim is granted")
        tally.expect(await bank.why("a", {"tape": 4}) == ("over claim", "tape", ()), "why")
        async with AsyncRemoteBank(served.socket, lease=600, patience=PATIENCE) as other:
            await try_between(tally, bank, other)
        tally.expect(await bank.wait("a", WATCHDOG), "what an ended session held does not come back")
        with suppress(Fault):
            await bank.say("job \n")
            tally.expect(False, "a command of two lines")
    with suppress(Ended):
        await bank.state()
        tally.expect(False, "a closed bank answers")


async def try_between(tally: Tally, bank: AsyncRemoteBank, other: AsyncRemoteBank) -> None:
    """Tries what one session sees of another one: waits, uses of jobs, and who waits no more."""
    await other.join("b", {"tape": 3})
    await other.obtain("b", {"tape": 2})
    tally.expect(not await bank.obtain("a", {"tape": 2}, 0.1), "what another holds is granted")
    waiting = asyncio.ensure_future(bank.obtain("a", {"tape": 2}))
    while not any(line.startswith("wish") for line in await bank.state()):
        await asyncio.sleep(0)
    waiting.cancel()
    with suppress(asyncio.CancelledError):
        await waiting
    tally.expect(not any(line.startswith("wish") for line in await bank.state()), "who waits no more leaves a wish")
    await bank.use("b", other.key)
    tally.expect(await bank.ask("b", {"tape": 1}) is Answer.GRANTED, "who has the key is not granted anything")
    with suppress(Fault):
        await bank.give("b", {"tape": 3})
        tally.expect(False, "who uses a job gives back what its owner got")
    tally.expect(await bank.want("a", {"tape": 1}) is Answer.NOT_NOW, "want")


def try_json(tally: Tally, served: Served) -> None:
    """Sends objects, and compares what is answered."""
    with Wire(served.socket) as wire:
        for line, wanted in OBJECTS:
            wire.send(line)
            told = json.loads(wire.line())
            while "notice" in told:
                tally.expect(told == {"notice": 1, "granted": {"job": "b", "amounts": {"tape": 3}}}, "a notice", told)
                told = json.loads(wire.line())
            number = json.loads(line)["id"] if line.startswith("{") else None
            tally.expect(told.pop("id", None) == number, line, "is answered without its number", told)
            tally.expect(wanted is None or told == wanted, line, "is answered", told, "and not", wanted)
        wire.send('{"do":"state"}', '{"do":"hello"}')
        state, hello = json.loads(wire.line()), json.loads(wire.line())
        tape = {"resource": "tape", "capital": 3, "cash": 3}
        tally.expect(tape in state["resources"] and state["wishes"] == [], "state", state)
        tally.expect(hello == {"version": 1, "is": "leader"}, "hello", hello)


def try_terminal(tally: Tally, script: str, served: Served) -> None:
    """Gives the same commands to `bank` and to `bank --connect`, with a kill of the server between two of them."""
    text = "\n".join((
        "# none", "", "job a 2 tape", "ask a 1 tape", "why a 2 tape", "frob", "session 60", "job b 3 tape", "want b 3 tape",
        "give a 1 tape", "state", "order", "drop b",
    ))
    capital = "".join(f"resource {name} {amount}\n" for name, amount in CAPITAL.items())
    ran = subprocess.run([program(["bank"]), "bank"], input=(capital + text).encode(), capture_output=True, check=True)
    wanted = ran.stdout.decode().split("\n")[len(CAPITAL) :]
    words = [script, "bank", f"--connect={served.socket}", "--lease", "600"]
    with subprocess.Popen(words, stdin=subprocess.PIPE, stdout=subprocess.PIPE) as it:
        assert it.stdin is not None and it.stdout is not None
        lines = [f"{line}\n".encode() for line in text.split("\n")]
        it.stdin.write(b"".join(lines[:4]))
        it.stdin.flush()
        first = [it.stdout.readline() for _ in range(3)]
        served.end(signal.SIGKILL)
        served.start()
        try:
            rest = it.communicate(b"".join(lines[4:])[:-1], WATCHDOG)[0]
        finally:
            it.kill()
        told = (b"".join(first) + rest).decode().split("\n")
        notices = [line for line in told if line.startswith("notice")]
        tally.expect([line for line in told if line not in notices] == wanted, "--connect answers otherwise", told, wanted)
        tally.expect(notices == ["notice 1 granted b 3 tape"], "notices at a terminal", notices)
    tally.expect(it.returncode == DONE, "--connect ends with", it.returncode)
    with Wire(served.socket) as wire:
        wait_for(lambda: not any(line.startswith("job") for line in wire.say("state")))
    for words, told in ((["--connect"], "a value is required"), (["--connect", "/no/such"], "no server answers")):
        late = subprocess.run(
            [script, "bank", *words], capture_output=True, check=False, timeout=WATCHDOG
        )
        tally.expect(told in late.stderr.decode(), "bank", *words, "says", late.stderr.decode())


def try_rust(tally: Tally, folder: pathlib.Path, served: Served) -> None:
    """Runs the example of the Rust client, if there is a compiler, with a kill of the server between two of its calls."""
    if shutil.which("rustc") is None:
        return
    (folder / "rust").mkdir()
    how = ["rustc", "--edition", "2024", "-D", "warnings"]
    # (the client needs no library)
    library = [*how, "--crate-name", "parbegin", "--crate-type", "rlib", "-o", "libparbegin.rlib", TOP / "extras/rust/src/remote.rs"]
    subprocess.run(library, cwd=folder / "rust", check=True)
    example = [*how, "--extern", "parbegin=libparbegin.rlib", "-o", "served", TOP / "extras/rust/examples/served.rs"]
    subprocess.run(example, cwd=folder / "rust", check=True)
    with subprocess.Popen([folder / "rust/served", served.socket], stdin=subprocess.PIPE, stdout=subprocess.PIPE) as it:
        assert it.stdout is not None
        try:
            tally.expect(it.stdout.readline() == b"asked\n", "the client in Rust does not ask")
            served.end(signal.SIGKILL)
            served.start()
            told = it.communicate(b"\n", WATCHDOG)[0]
        finally:
            it.kill()
    tally.expect(told == b"refused B5 no such job: none\nended\n" and it.returncode == DONE, "the client in Rust", told, it.returncode)


def main() -> None:
    tally, parts = Tally(), sys.argv[2:] or PARTS
    with tempfile.TemporaryDirectory(prefix="parbegin-clients-") as name:
        folder = pathlib.Path(name)
        script = installed(folder / "installed")
        served = Served([script, "serve"], folder, "--snapshot-every", "40")
        served.start()
        calls: dict[str, Callable[[], None]] = {
            "remote": lambda: try_remote(tally, served), "async": lambda: asyncio.run(try_tasks(tally, served)),
            "json": lambda: try_json(tally, served), "terminal": lambda: try_terminal(tally, script, served),
            "rust": lambda: try_rust(tally, folder, served),
        }
        try_parts(tally, served, calls, parts)
    tally.end("served_clients")


if __name__ == "__main__":
    main()
