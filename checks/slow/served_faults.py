#!/usr/bin/env python3
"""Plants faults in the server and in `hold`, each of which a check has to find.

    checks/slow/served_faults.py [PROGRAM [NAME ..]]     PROGRAM is the one that ./parbegin has built if none is given

Each fault takes one safeguard away, in a copy of the script; the named check has to end with a status other than 0. Those that
only checks/slow/served_etcd.py finds are left out where there is no etcd. Its status is 0 if each fault was found, and 1 if not.
"""
from __future__ import annotations

import os
import pathlib
import shutil
import signal
import subprocess
import sys
import tempfile
from typing import NamedTuple

sys.path.insert(0, str(pathlib.Path(__file__).resolve().parents[1] / "lib"))

from calls import TOP, Tally, program  # noqa: E402
from etcd_members import Members  # noqa: E402
from script.tools import COMMANDS_OF, path_of  # noqa: E402

COPIED = (
    "script", "parbegin", "checks/lib", "checks/quick", "checks/slow", "extras/python", "extras/page", "extras/hold", "extras/systemd",
    "examples/11-serving", "crates.txt",
)
STORM = "slow/served_storm.py random"
# What a check may take that waits for something which never comes.
WATCHDOG = 900


class Fault(NamedTuple):
    """A fault: its name, the check and the part of it that finds it, and what stands where in which files of script/serving."""

    name: str
    check: str
    edits: list[tuple[str, str, str]]


DESK, HOLD, SERVER, CLIENTS = "quick/served_desk.py", "quick/served_hold.py", "quick/served.py", "quick/served_clients.py"
ETCD = "slow/served_etcd.py"
FAULTS = (
    Fault("free slots are left out of snapshots", DESK, [
        ("snapshots", "slots = desk.slots or ([None] if desk.had_job else [])", "slots = [it for it in desk.slots if it]"),
    ]),
    Fault("wishes are left out of snapshots", DESK, [("snapshots", "in loans.items()), *wishes]", "in loans.items())]")]),
    Fault("kept answers are left out of snapshots", DESK, [("sessions", '"answers": self.answers', '"answers": {}')]),
    Fault("requests are carried out again", DESK, [("desk", "if number and number <= session.last:", "if False:")]),
    Fault("other answers go unnoticed", DESK, [("desk", "self.marks.get(int(count), digest) != digest", "False")]),
    Fault("who uses a job changes its claim", DESK, [("words", 'OF_OWNER = ("claim", "leave")', 'OF_OWNER = ("leave",)')]),
    Fault("who uses a job gives back what its owner got", DESK, [("desk", 'if verb == "give" and self._is', 'if False and self._is')]),
    Fault("wishes of others are dropped", DESK, [("desk", "and self.wishes[job][0] != sid:", "and False:")]),
    Fault("who uses a job is not told that it has left", DESK, [("desk", "is not None and sid != owner:", "is not None and False:")]),
    Fault("everybody changes the capital", DESK, [("desk", 'verb == "capital" and not is_operator:', "False:")]),
    Fault("what was got by `use` does not come back", DESK, [("desk", "            if back:", "            if False:")]),
    Fault("jobs of others can be changed", f"{SERVER} refusals", [
        ("desk", "if owner != sid and (job not in session.shares or verb in OF_OWNER):", "if False:"),
    ]),
    Fault("blanks are those of Python", f"{SERVER} lines", [("words", r'r"[^ \t\r,]+|,"', r'r"[^\s,]+|,"')]),
    Fault("every client is an operator", f"{SERVER} operators", [
        ("connections", "self.is_operator = self.server.is_known(token, tokens.operators)", "self.is_operator = True"),
        ("connections", 'verb == "capital" and self.is_operator', 'verb == "capital"'),
    ]),
    Fault("copies are not whole", f"{SERVER} copies", [("copies", "            source.backup(target)", "            pass")]),
    Fault("there is no limit on sessions", f"{SERVER} limits", [("server", "+ self.beginning >= self.limits.sessions", "< 0")]),
    Fault("who does not read is cut off without a word", f"{SERVER} limits", [
        ("connections", '            self.writer.write(f"{last}\\n".encode())\n', ""),
    ]),
    Fault("the fence does not rise", f"{HOLD} statuses", [("server", "fence {self.desk.counts['entries']}", "fence 1")]),
    Fault("signals are not passed on", f"{HOLD} waits", [("hold", "        os.kill(pid, came.si_signo)", "        pass")]),
    Fault("a hold that is stopped does not end its session", f"{HOLD} waits", [("hold", "        client.close()", "        client.drop()")]),
    Fault("a hold goes on though its job has left", f"{HOLD} inside", [("hold", "return 0.0 if self.has_left() else", "return")]),
    Fault("notices are not sent again", f"{HOLD} kill", [("connections", "if noted > int(words[2])", "if False")]),
    Fault("a lease never ends", f"{HOLD} kill", [("server", "> session.lease:", "> 1e9:")]),
    Fault("a command lives on without its hold", f"{HOLD} kill", [
        ("hold", "_ctypes.call_function(prctl, (PR_SET_PDEATHSIG, signal.SIGKILL))", "pass"),
    ]),
    Fault("every token is let in", f"{HOLD} tls", [("listening", "is_trusted=not server.tokens.clients", "is_trusted=True")]),
    Fault("objects are answered without their number", f"{CLIENTS} json", [("objects", '{"id": number} if number else {}', "{}")]),
    Fault("what has no answer is not sent again", f"{CLIENTS} terminal", [
        ("client", 'for number, line in self.waiting.items()]', 'for number, line in self.waiting.items() if not self.sid]'),
    ]),
    Fault("it answers before the journal has it", STORM, [
        ("server", "            if writing is not None:\n                await writing\n", (
            "            if writing is not None:\n                self.carry_out(batch)\n                batch = []\n                await writing\n"
        )),
        ("journal", "    def _append(", "    @staticmethod\n    def wait() -> None:\n        __import__('time').sleep(0.05)\n\n    def _append("),
        ("journal", 'self.base.execute("INSERT INTO batch', 'self.wait() or self.base.execute("INSERT INTO batch'),
    ]),
    Fault("reads of a leader that was paused are answered", f"{ETCD} paused", [
        ("etcd", "return bool(self.term) and now() < self.deadline", "return bool(self.term)"),
    ]),
    Fault("a follower leads from where it is", f"{ETCD} missed", [
        ("etcd", "        if self.sequence != last:\n            await self.load(restore, replay)\n        if self.sequence != last:", "        if False:"),
        ("etcd", "        if not sequence:\n", "        if True:\n            return self.fence()\n        if not sequence:\n"),
    ]),
)


def copied(folder: pathlib.Path) -> None:
    """Copies what the checks need."""
    ignored = shutil.ignore_patterns("__pycache__", "out", "target")
    for name in COPIED:
        (folder / name).parent.mkdir(parents=True, exist_ok=True)
        if (TOP / name).is_dir():
            shutil.copytree(TOP / name, folder / name, ignore=ignored)
        else:
            shutil.copy(TOP / name, folder / name)
    for tool in COMMANDS_OF:
        path = folder / os.path.relpath(path_of(tool), TOP)
        path.parent.mkdir(parents=True)
        path.symlink_to(path_of(tool))


def plant(folder: pathlib.Path, fault: Fault) -> None:
    """Plants a fault."""
    for module, old, new in fault.edits:
        file = folder / f"script/serving/{module}.py"
        text = file.read_text()
        if text.count(old) != 1:
            raise ValueError(f"{fault.name}: {file.name} has {text.count(old)} times {old}")
        file.write_text(text.replace(old, new))


def is_found(folder: pathlib.Path, fault: Fault) -> bool:
    """Returns whether the check finds a fault: at the first thing that is wrong it is ended."""
    given = program(["bank"])
    check, *parts = fault.check.split(" ")
    if check.startswith("slow/"):
        parts = ["4" if check == ETCD else "20", "1", *parts]
    words = [check, given, *parts]
    how = {"cwd": folder, "env": {**os.environ, "PYTHONDONTWRITEBYTECODE": "1"}, "text": True, "start_new_session": True}
    with subprocess.Popen(
        [sys.executable, f"checks/{words[0]}", *words[1:]], stderr=subprocess.PIPE, stdout=subprocess.DEVNULL, **how
    ) as ran:
        assert ran.stderr is not None
        told = next((line for line in ran.stderr if line.startswith(("wrong:", "Traceback"))), None)
        if told:
            # (with the servers that it has started)
            os.killpg(ran.pid, signal.SIGKILL)
        status = ran.wait(WATCHDOG)
    print(f"{'found' if status else 'NOT FOUND'}: {fault.name}: {(told or '').strip()[:120]}", flush=True)
    return status != 0


def main() -> None:
    tally = Tally()
    for fault in FAULTS:
        if sys.argv[2:] and fault.name not in sys.argv[2:] or fault.check.startswith(ETCD) and not Members.is_there():
            continue
        with tempfile.TemporaryDirectory(prefix="parbegin-fault-") as name:
            folder = pathlib.Path(name)
            copied(folder)
            plant(folder, fault)
            tally.expect(is_found(folder, fault), "not found:", fault.name)
    tally.end("served_faults")


if __name__ == "__main__":
    main()
