#!/usr/bin/env python3
"""Calls `hold` at a served bank, in both of its forms: `parbegin hold`, and `parbegin-hold`, which is in C.

    checks/quick/served_hold.py [PROGRAM [PART ..]]     PROGRAM is the one that ./parbegin has built if none is given

Its statuses are tried, that it waits, gives up, is stopped and is granted at last, that holds within one another are within
one claim, what is left of one that is killed, a server that is killed meanwhile, and TLS. Two scripts that take tape and disk in
opposite order have to end. All parts are tried if none is named. Its status is 0 if all is as wanted, and 1 if not.
"""
from __future__ import annotations

import os
import pathlib
import shutil
import signal
import socket
import ssl
import subprocess
import sys
import tempfile
from collections.abc import Callable, Sequence
from contextlib import suppress

sys.path.insert(0, str(pathlib.Path(__file__).resolve().parents[1] / "lib"))

from calls import DONE, TOP, WATCHDOG, WORDS, Tally, installed  # noqa: E402
from served_bank import Served, Wire, certified, free_port, wait_for  # noqa: E402

UNAVAILABLE, LOST, NOT_FOUND = 69, 75, 127
PARTS = ("statuses", "waits", "inside", "kill", "tls", "opposite")
SCRIPTS = sorted((TOP / "examples/11-serving").glob("*.sh"))


class Holds:
    """Calls of one form of `hold` at a served bank."""

    def __init__(self, call: Sequence[str], served: Served) -> None:
        self.call, self.where = list(call), {**os.environ, "PARBEGIN_SOCKET": served.socket}

    def run(self, *words: str) -> tuple[int, str]:
        """Calls it, and returns its status with what it wrote on both."""
        ran = subprocess.run(
            [*self.call, *words], env=self.where, stdin=subprocess.DEVNULL, stdout=subprocess.PIPE, stderr=subprocess.STDOUT,
            timeout=WATCHDOG, check=False,
        )
        return ran.returncode, ran.stdout.decode()

    def start(self, *words: str) -> subprocess.Popen[bytes]:
        """Starts it, and lets it run."""
        return subprocess.Popen([*self.call, *words], env=self.where, stdin=subprocess.DEVNULL, stdout=subprocess.PIPE)

    def started(self, *words: str) -> tuple[subprocess.Popen[bytes], str]:
        """Starts it, and returns it with the first line that its command writes."""
        it = self.start(*words)
        assert it.stdout is not None
        return it, it.stdout.readline().decode()


def try_statuses(tally: Tally, it: Holds) -> None:
    """Tries the statuses of `hold`, with nobody else there."""
    for words, status, told in (
        (["1 tape", "--", "true"], DONE, ""),
        (["1 tape", "--", "sh", "-c", "exit 7"], 7, ""),
        (["1 tape", "--", "sh", "-c", "kill -TERM $$"], 128 + signal.SIGTERM, ""),
        (["1 tape, 2 disk", "--", "echo", "--nowait"], DONE, "--nowait\n"),
        (["1 tape ,2  disk", "--", "true"], DONE, ""),
        (["2 tape", "--", *it.call, "2 tape", "--", "true"], UNAVAILABLE, "does not allow as much of tape"),
        (["2 tape", "--", *it.call, "--name", "own", "1 tape", "--", "echo", "own"], DONE, "own\n"),
        (["1 tape", "--", "/no/such"], NOT_FOUND, "there is no such command"),
        (["9 tape", "--", "true"], UNAVAILABLE, "refused B10"),
        (["--claim", "1 tape", "1 disk", "--", "true"], UNAVAILABLE, "does not allow as much of disk"),
        (["--claim", "1 tape", "1 drum", "--", "true"], UNAVAILABLE, "refused B4"),
        (["--socket", "/no/such", "--timeout", "0.1", "1 tape", "--", "true"], UNAVAILABLE, "no server answers"),
        (["--socket", "/no/such,/nor/this", "--timeout", "0.5", "1 tape", "--", "true"], UNAVAILABLE, "no server answers"),
        (["one tape", "--", "true"], WORDS, "is not a list of amounts"),
        (["1 tape, 2 tape", "--", "true"], WORDS, "is not a list of amounts"),
        (["1 tape,", "--", "true"], WORDS, "is not a list of amounts"),
        (["1 tape"], WORDS, "there is no '--'"),
        (["1 tape", "1 disk", "--", "true"], WORDS, "and here are 2"),
        (["--lease", "1", "1 tape", "--", "true"], WORDS, "it is a number from 2 to 86400"),
        (["-w", "x", "1 tape", "--", "true"], WORDS, "it is a number of seconds"),
        (["-E"], WORDS, "a value is required for '-E'"),
        (["--fly", "1 tape", "--", "true"], WORDS, "unexpected argument '--fly'"),
        (["--help"], DONE, "Usage: parbegin"),
    ):
        got = it.run(*words)
        tally.expect(got[0] == status and told in got[1], *it.call, *words, "ends with", *got)
    fences = [int(it.run("1 tape", "--", "sh", "-c", "echo $PARBEGIN_FENCE")[1]) for _ in range(3)]
    tally.expect(sorted(set(fences)) == fences, "the fence does not rise", fences)


def has_wish(wire: Wire) -> bool:
    """Returns whether a wish waits."""
    return any(line.startswith("wish") for line in wire.say("state"))


def try_waits(tally: Tally, it: Holds, served: Served) -> None:
    """Tries `hold` while another one holds all tapes: it waits, gives up, is stopped, and is granted at last."""
    holder, _ = it.started("3 tape", "--", "sh", "-c", "echo held; exec sleep 600")
    for words, status in (
        (["-n", "1 tape", "--", "true"], 1), (["--nowait", "-E", "9", "1 tape", "--", "true"], 9),
        (["-w", "0.2", "1 tape", "--", "true"], 1), (["--timeout=0.2", "-E", "0", "1 tape", "--", "false"], 0),
    ):
        # (with a long lease a server has its time to answer)
        got = it.run("--lease", "600", *words)
        tally.expect(got == (status, ""), *it.call, *words, "ends with", *got)
    said = it.run("-v", "--lease", "600", "--name", "second", "-w", "0.2", "1 tape", "--", "true")[1]
    tally.expect("second waits for 1 tape: 0 of tape left" in said, "it does not say why it waits", said)
    with Wire(served.socket) as wire:
        stopped = it.start("1 tape", "--", "true")
        wait_for(lambda: has_wish(wire))
        stopped.terminate()
        tally.expect(stopped.wait(WATCHDOG) == 128 + signal.SIGTERM, "a signal does not end a hold that waits")
        tally.expect(not has_wish(wire), "a hold that was stopped leaves its wish")
        waits = it.start("1 tape", "--", "echo", "granted")
        wait_for(lambda: has_wish(wire))
        holder.terminate()
        tally.expect(holder.wait(WATCHDOG) == 128 + signal.SIGTERM, "a signal is not passed on")
        tally.expect(waits.communicate(timeout=WATCHDOG)[0] == b"granted\n", "a hold that waited does not run")
        tally.expect(not any(line.startswith("job") for line in wire.say("state")), "a hold leaves its job")


def try_inside(tally: Tally, it: Holds, served: Served, folder: pathlib.Path) -> None:
    """Tries holds within one another: they are within one claim, and one that outlives the other is told that the job has left."""
    inner = " ".join(f"'{word}'" for word in it.call)
    told = it.run("--claim", "2 disk", "1 disk", "--", "sh", "-c", f'{inner} "1 disk" -- sh -c "echo \\$PARBEGIN_JOB"; echo $PARBEGIN_JOB')
    names = told[1].split()
    tally.expect(told[0] == DONE and len(names) == 2 and names[0] == names[1], "a hold within a hold", *told)
    over = it.run("--claim", "2 disk", "2 disk", "--", "sh", "-c", f'{inner} "1 disk" -- true')
    tally.expect(over[0] == UNAVAILABLE, "a hold within a hold gets more than the claim", *over)
    ready, status = folder / "ready", folder / "status"
    for path in (ready, status):
        path.unlink(missing_ok=True)
    os.mkfifo(ready)
    command = f'{inner} --lease 4 "1 disk" -- sh -c "echo in > {ready}; exec sleep 600"'
    outer = it.run("--claim", "2 disk", "1 disk", "--", "sh", "-c", f"({command}; echo $? > {status}) >/dev/null 2>&1 & read line < {ready}")
    tally.expect(outer[0] == DONE, "a command that starts another hold", *outer)
    wait_for(lambda: status.exists() and status.read_text())
    tally.expect(status.read_text() == f"{LOST}\n", "a hold goes on though its job has left", status.read_text())
    with Wire(served.socket) as wire:
        tally.expect(not any(line.startswith("job") for line in wire.say("state")), "a hold within a hold leaves something")


def has_ended(pid: int) -> bool:
    """Returns whether a process has ended, also if nobody has asked for its status."""
    with suppress(OSError):
        return ") Z " in pathlib.Path(f"/proc/{pid}/stat").read_text()
    return True


def try_kill(tally: Tally, it: Holds, served: Served) -> None:
    """Kills the server while a hold runs and a client waits: both go on with the next one. Kills a hold: all comes back."""
    holder, _ = it.started("--lease", "600", "3 tape", "--", "sh", "-c", "echo held; read line; echo ended")
    lasting, _ = it.started("--lease", "600", "--name", "lasting", "2 gpu", "--", "sh", "-c", "echo held; exec sleep 600")
    holder.wait(WATCHDOG)
    with Wire(served.socket) as wire:
        session = wire.say("session 600")[0].split(" ")
        tally.expect(wire.say("1 job waits 2 gpu") == [] and wire.say("2 want waits 2 gpu") == ["2 queued"], "a wish does not wait")
        before = wire.say("state")
    served.end(signal.SIGKILL)
    served.start()
    with Wire(served.socket) as wire:
        tally.expect(wire.say("state") == before, "a killed server forgets", before, wire.say("state"))
        tally.expect(wire.say(f"attach {session[1]} {session[2]} 0") == ["attached 2"], "a session is lost")
        tally.expect(wire.say("2 want waits 2 gpu") == ["2 queued"], "an answer is lost")
        lasting.terminate()
        tally.expect(lasting.wait(WATCHDOG) == 128 + signal.SIGTERM, "a hold ends with its server", lasting.returncode)
        wait_for(lambda: wire.say("3 why waits 0 gpu") and wire.notices)
        tally.expect(wire.notices == ["notice 1 granted waits 2 gpu"], "other notices came", wire.notices)
    with Wire(served.socket) as wire:
        wire.say(f"attach {session[1]} {session[2]} 0")
        wire.say("hello")
        tally.expect(wire.notices == ["notice 1 granted waits 2 gpu"], "a notice is not sent again")
        wire.say("end")
        killed, line = it.started("--lease", "2", "3 tape", "--", "sh", "-c", "echo $$; exec sleep 600")
        killed.kill()
        wait_for(lambda: not any(line.startswith("job") for line in wire.say("state")))
        wait_for(lambda: has_ended(int(line)))
        killed.communicate()


def try_tls(tally: Tally, it: Holds, folder: pathlib.Path, port: int) -> None:
    """Tries TLS with the right token, with another one and none, and TCP without TLS."""
    it.where = {**it.where, "PARBEGIN_SOCKET": f"tls:localhost:{port}", "PARBEGIN_CA": f"{folder}/cert"}
    for token, status, told in (("right", DONE, "in\n"), ("wrong", UNAVAILABLE, "refused S1"), ("", UNAVAILABLE, "refused S1")):
        it.where["PARBEGIN_TOKEN"] = token
        got = it.run("-w", "60", "1 tape", "--", "echo", "in")
        tally.expect(got[0] == status and told in got[1], *it.call, "with the token", repr(token), *got)
    with socket.create_connection(("localhost", port), WATCHDOG) as plain, suppress(OSError):
        plain.sendall(b"state\n")
        tally.expect(b"resource" not in plain.recv(100), "TCP without TLS is answered")
    with suppress(ssl.SSLError), socket.create_connection(("localhost", port), WATCHDOG) as opened:
        ssl.create_default_context().wrap_socket(opened, server_hostname="localhost")
        tally.expect(False, "a certificate of nobody is believed")


def try_opposite(tally: Tally, script: str, folder: pathlib.Path) -> None:
    """Starts the two scripts of the examples, which take a tape and a disk in opposite order: both have to end."""
    served = Served([script, "serve"], folder, capital="1 tape, 1 disk")
    served.start()
    path = f"{pathlib.Path(script).parent}:{os.environ['PATH']}"
    where = {**os.environ, "PATH": path, "PARBEGIN_SOCKET": served.socket}
    try:
        started = [subprocess.Popen([it], env=where, stdout=subprocess.PIPE) for it in SCRIPTS]
        told = [it.communicate(timeout=WATCHDOG)[0].decode() for it in started]
        wanted = [f"{it.stem} has both\n" for it in SCRIPTS]
        tally.expect(told == wanted, "two scripts in opposite order do not both end", told)
    finally:
        served.kill()


def try_form(tally: Tally, call: Sequence[str], served: Served, port: int, parts: Sequence[str]) -> None:
    """Tries one form of `hold`."""
    folder = pathlib.Path(served.socket).parent
    calls: dict[str, Callable[[Holds], None]] = {
        "statuses": lambda it: try_statuses(tally, it), "waits": lambda it: try_waits(tally, it, served),
        "inside": lambda it: try_inside(tally, it, served, folder), "kill": lambda it: try_kill(tally, it, served),
        "tls": lambda it: try_tls(tally, it, folder, port),
    }
    for part, attempt in calls.items():
        if part in parts and (part != "tls" or port):
            attempt(Holds(call, served))


def main() -> None:
    tally, parts = Tally(), sys.argv[2:] or PARTS
    with tempfile.TemporaryDirectory(prefix="parbegin-hold-") as name:
        folder = pathlib.Path(name)
        script = installed(folder / "installed")
        forms = [[script, "hold"]]
        if shutil.which("cc"):
            forms.append([str(pathlib.Path(script).with_name("parbegin-hold"))])
            subprocess.run([TOP / "extras/hold/build.sh", forms[-1][0]], check=True)
        for part in ("one", "opposite"):
            (folder / part).mkdir()
        port = free_port() if shutil.which("openssl") else 0
        tls = ["--tcp", f"localhost:{port}", *certified(folder / "one")] if port else []
        served = Served([script, "serve"], folder / "one", *tls, "--snapshot-every", "40")
        served.start()
        try:
            for form in forms if {*parts} - {"opposite"} else ():
                try_form(tally, form, served, port, parts)
            tally.expect(served.end() == DONE, "SIGTERM does not end a server with status 0")
        finally:
            served.kill()
        if "opposite" in parts:
            try_opposite(tally, script, folder / "opposite")
    tally.end("served_hold")


if __name__ == "__main__":
    main()
