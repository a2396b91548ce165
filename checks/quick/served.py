#!/usr/bin/env python3
"""Serves the bank, and tries what the server itself does: lines, refusals, limits, operators, copies of its journal.

    checks/quick/served.py [PROGRAM [PART ..]]     PROGRAM is the one that ./parbegin has built if none is given

Odd lines have to be answered as by the bank itself. Each refusal of the server is brought about, what is shown over HTTP is
compared with what the bank says, and a journal is copied and put back. All parts are tried if none is named. Its status is 0
if all is as wanted, and 1 if not.
"""
from __future__ import annotations

import hashlib
import json
import os
import pathlib
import random
import shutil
import socket
import subprocess
import sys
import tempfile
import time
import urllib.request
from collections.abc import Callable, Sequence
from contextlib import suppress

sys.path.insert(0, str(pathlib.Path(__file__).resolve().parents[1] / "lib"))

from calls import DONE, FAULT, TOP, WATCHDOG, WORDS, Tally, installed, program  # noqa: E402
from served_bank import AMOUNTS, CAPITAL, PATIENCE, Served, Wire, certified, drawn_amounts, free_port, try_parts  # noqa: E402

from script.serving.bank import BankProcess  # noqa: E402
from script.serving.words import KEPT, MAX_COMMAND, MAX_LINE  # noqa: E402

LINES = 1500
AT_SERVER = ("lines", "refusals", "uses", "operators", "http", "words", "copies")
PARTS = (*AT_SERVER, "limits", "activation", "units")
OPERATOR = "operator"


def odd_line(rng: random.Random) -> str:
    """Draws a line with odd blanks, commas, names and amounts."""
    def blank() -> str:
        return rng.choice([" "] * 12 + ["  ", "\t", " \r", "\v", "\f", "\x85", "\xa0", ""])

    name = rng.choice(["a", "b", "c.1", "-x_", "A" * 32, "A" * 33, "\xe9", "a\vb", "a,b", "\0", "ready", "notice", "7", "-hole-1x"])
    if rng.random() < 0.1:
        return "x" + "".join(rng.choice(" \t\r,abjoask019\0\v\xff-#") for _ in range(rng.randint(0, 30)))
    verb = rng.choice(["job", "ask", "hold", "why", "want", "drop", "give", "leave", "order", "state"])
    if verb in ("drop", "leave", "order", "state"):
        return f"{verb}{blank()}{rng.choice([name, ''])}"
    amounts = drawn_amounts(rng).replace(" ", blank()).replace(",", rng.choice([",", ",", ",", ",,", " ", "\r,"]))
    if rng.random() < 0.1:
        amounts = rng.choice(["01", "1000001", "-1", "+1", "1_0", "\xb2", "9" * 20, "x", ""]) + blank() + "tape"
    return f"{verb}{blank()}{name}{blank()}{amounts}"


def try_lines(tally: Tally, served: Served) -> None:
    """Sends odd lines to the served bank and to another one, and compares the answers."""
    rng, bank = random.Random(1), BankProcess([program(["bank"]), "bank"])
    bank.say_all([f"resource {name} {amount}" for name, amount in CAPITAL.items()])
    with Wire(served.socket) as wire:
        for _ in range(LINES):
            line = odd_line(rng)
            if line[:1].isdigit() or line.split()[1:2] and line.split()[1].startswith("-hole-"):
                continue
            told, wanted = wire.say(line), bank.say(line)
            tally.expect(told == wanted, "the served bank answers otherwise to", repr(line), told, wanted)
        tally.expect(wire.say("state") == bank.say("state"), "the served bank is in another state")
        long = "state" + " " * (MAX_COMMAND - 5)
        tally.expect(wire.say(long) == bank.say("state"), "a command of the greatest length")
        tally.expect(wire.say(f"{long} ") == ["refused B1 not a command"], "a command that is longer")
    bank.close()


def code_of(answer: list[str]) -> str:
    return answer[0].partition("refused ")[2].split(" ")[0] if answer else ""


def try_refusals(tally: Tally, served: Served) -> None:
    """Brings about the refusals of the server."""
    with Wire(served.socket) as first, Wire(served.socket) as second:
        _, sid, key, _ = first.say("session 600")[0].split(" ")
        tally.expect(first.say("1 job a 2 tape") == [], "a job does not join")
        second.say("session 600")
        for line, code in (
            ("1 ask a 1 tape", "S3"), ("2 leave a", "S3"), ("3 resource more 1", "S4"), ("4 capital tape 9", "S4"), (f"5 use a {key[::-1]}x", "S5"),
            ("6 job -hole-1 1 tape", "S11"), ("attach 999999 x 0", "S5"), (f"attach {sid} x 0", "S5"), ("session 0", "S10"),
            ("session 86401", "S10"), ("session", "S10"), ("session \xb2", "S10"),
        ):
            tally.expect(code_of(second.say(line)) == code, line, "is not refused by", code)
        tally.expect(second.say(f"7 use a {key}") == [], "the key of a session does not let others in")
        tally.expect(second.say("8 ask a 1 tape") == ["8 granted a 1 tape"], "who has the key is not granted anything")
        tally.expect(second.say("8 ask a 1 tape") == ["8 granted a 1 tape"], "a repetition has another answer")
        tally.expect(first.say("2 give a 2 tape") == ["2 refused B11 the job does not hold as much: tape"], "it was granted twice")
        second.say("end")
        tally.expect("job a tape claim 2 holds 0 needs 2" in first.say("state"), "an ended session keeps what it got by `use`")
        for number in range(3, KEPT + 4):
            first.say(f"{number} give a 0 tape")
        tally.expect(code_of(first.say("2 give a 1 tape")) == "S6", "an answer is kept for ever")
        first.say("end")
        tally.expect(code_of(first.say("100 ask a 1 tape")) == "S5", "a session that has ended goes on")
    with Wire(served.socket) as it:
        tally.expect(code_of(it.say("1 job a 1 tape")) == "S9", "a numbered request needs no session")
        it.send("x" * (MAX_LINE + 1))
        tally.expect(code_of(it.answer()) == "S8", "a line has no limit")
        tally.expect(it.line() == "", "a connection goes on after a line that is too long")


def last_words(wire: Wire) -> str:
    """Asks much, and reads the answers later and later, until the server cuts off who does not read. Returns its last line."""
    count, pause = 600, 0.5
    while pause < PATIENCE:
        wire.socket.settimeout(pause)
        with suppress(OSError):
            wire.send(*["state"] * count)
        time.sleep(pause)
        wire.socket.settimeout(PATIENCE)
        last, line = "", " "
        with suppress(OSError):
            # (after what may be the first part of a line)
            wire.send("", "7 beat")
        with suppress(ConnectionError):
            while line and not line.startswith("7 "):
                last, line = line, wire.line()
        if not line.startswith("7 "):
            return line.strip() or last
        pause *= 2
    return "all was read in time"


def try_limits(tally: Tally, script: str, folder: pathlib.Path) -> None:
    """Tries the limits on sessions, connections and unread answers, and what a client is told of them."""
    served = Served([script, "serve"], folder, "--clients", "4", "--sessions", "2")
    served.start()
    try:
        with Wire(served.socket) as first, Wire(served.socket) as second, Wire(served.socket) as third:
            for wire in (first, second):
                wire.say("session 600")
            tally.expect(code_of(third.say("session 600")) == "S7", "there are more sessions than allowed")
            told = third.say("job x 1 tape")
            tally.expect(code_of(told) == "S7", "there are more sessions than allowed, by lines without numbers")
            with Wire(served.socket) as fourth, Wire(served.socket) as fifth:
                fourth.say("hello")
                tally.expect(code_of(fifth.answer()) == "S7" and fifth.line() == "", "there are more connections than allowed")
            for number in range(1, 61):
                first.say(f"{number} job j{number} 1 tape")
            tally.expect(last_words(third).startswith("refused S14"), "one that does not read is not told why it is cut off")
            tally.expect(first.say("61 job a 1 tape") == [], "others wait for one that never reads")
        tally.expect(served.end() == DONE, "SIGTERM does not end a server with status 0")
    finally:
        served.kill()


def try_activation(tally: Tally, script: str, folder: pathlib.Path) -> None:
    """Hands a server its socket, as systemd does, and waits for it to say that it is ready."""
    with socket.socket(socket.AF_UNIX, socket.SOCK_DGRAM) as told, socket.socket(socket.AF_UNIX) as handed:
        told.settimeout(WATCHDOG)
        told.bind(f"{folder}/told")
        handed.bind(f"{folder}/handed")
        handed.listen()
        words = [script, "serve", "--journal", f"{folder}/journal", "--capital", "1 tape"]
        start = 'LISTEN_PID=$$ LISTEN_FDS=1 exec "$@" 3<&0 </dev/null'
        where = {**os.environ, "NOTIFY_SOCKET": f"{folder}/told"}
        with subprocess.Popen(["sh", "-c", start, "sh", *words], stdin=handed, env=where, stderr=subprocess.DEVNULL) as served:
            try:
                tally.expect(told.recv(100) == b"READY=1", "a server does not say that it is ready")
                with Wire(f"{folder}/handed") as wire:
                    tally.expect(wire.say("state") == ["resource tape capital 1 cash 1"], "a socket that was handed on")
            finally:
                served.terminate()
            tally.expect(told.recv(100) == b"STOPPING=1", "a server does not say that it ends")


def get(address: str) -> str:
    with urllib.request.urlopen(f"http://{address}", timeout=WATCHDOG) as it:
        told: str = it.read().decode()
    return told


def try_http(tally: Tally, served: Served, address: str) -> None:
    """Compares what is shown over HTTP with what the bank says."""
    with Wire(served.socket) as wire:
        for line in ("session 600", "1 job a 2 tape", "2 job b 3 tape", "3 ask a 1 tape", "4 want b 3 tape"):
            wire.say(line)
        state = json.loads(get(f"{address}/state"))
        names = [job["name"] for job in state["jobs"]]
        queue = [{"job": "b", "wants": "3 tape", "why": "wait cash tape 2"}]
        tally.expect(names == ["a", "b"] and state["queue"] == queue, "/state", state)
        tally.expect(state["order"] == wire.say("5 order")[0].split(" ")[2:], "/state has another order", state)
        metrics = get(f"{address}/metrics")
        tally.expect('parbegin_cash{resource="tape"} 2\n' in metrics and "parbegin_wishes 1\n" in metrics, "/metrics", metrics)
        tally.expect(get(f"{address}/health") == "serves\n" and "<title>" in get(f"{address}/"), "/health and the page")
        wire.say("end")
    if shutil.which("promtool"):
        ran = subprocess.run(["promtool", "check", "metrics"], input=metrics.encode(), capture_output=True, check=False)
        tally.expect(ran.returncode == 0, "promtool", ran.stderr.decode())


def try_words(tally: Tally, script: str, served: Served) -> None:
    """Tries words of `serve` that are refused, and what a second server over the same journal is told."""
    journal = served.words[served.words.index("--journal") + 1]
    for words, status, told in (
        (["--socket", "s"], WORDS, "--journal <DIR>"), (["--journal", "j"], WORDS, "nobody can reach the server"),
        (["--journal", "j", "--tcp", "example.org:1", "--socket", "s", "--capital", "1 a"], WORDS, "wants TLS"),
        (["--journal", "j", "--socket", "s", "--mode", "999"], WORDS, "octal"),
        (["--journal", "j", "--socket", "s", "--capital", "1000001 a"], WORDS, "refused B2"),
        (["--journal", "j", "--socket", "s"], WORDS, "does not say what there is"),
        (["--journal", journal, "--socket", "s", "--capital", AMOUNTS], 4, "another server has this journal"),
        (["--journal", "j2", "--socket", served.socket, "--capital", AMOUNTS], WORDS, "another server answers"),
        (["--help"], DONE, "--snapshot-every"),
    ):
        ran = subprocess.run(
            [script, "serve", *words], cwd=pathlib.Path(served.socket).parent, capture_output=True, timeout=WATCHDOG, check=False
        )
        said = (ran.stdout + ran.stderr).decode()
        tally.expect(ran.returncode == status and told in said, "serve", *words, "ends with", ran.returncode, said)


def try_uses(tally: Tally, served: Served) -> None:
    """Tries what sessions may say of jobs of one another: neither costs the other one what it got."""
    with Wire(served.socket) as owner, Wire(served.socket) as user, Wire(served.socket) as other:
        key = owner.say("session 600")[0].split(" ")[2]
        for line in ("1 job a 3 tape, 2 disk", "2 ask a 1 tape"):
            owner.say(line)
        for wire in (user, other):
            wire.say("session 600")
        for wire, line, wanted in (
            (user, f"1 use a {key}", ""), (user, "2 ask a 1 tape", "granted a 1 tape"),
            (user, "3 give a 2 tape", "refused S12"), (owner, "3 give a 2 tape", "refused S12"),
            (user, "4 leave a", "refused S3"), (user, "5 claim a 1 tape", "refused S3"),
            (other, "1 claim a 9 tape", "refused S3"), (other, "2 give a 1 tape", "refused S3"),
            (owner, "4 give a 3 tape", "refused B11"), (other, "3 job b 1 tape", ""),
            (other, "4 ask b 1 tape", "granted b 1 tape"), (user, "6 want a 1 disk, 1 tape", "queued"),
            (owner, "5 drop a", "refused S13"), (other, "5 drop a", "refused S3"), (user, "7 drop a", ""),
            (user, "8 drop a", "refused B13"), (user, "9 want a 1 disk, 1 tape", "queued"),
            (other, "6 leave b", "granted a 1 disk, 1 tape"), (owner, "6 give a 1 disk", "refused S12"),
            (owner, "7 give a 1 tape", ""), (user, "10 give a 2 tape", ""),
        ):
            told = wire.say(line)
            before = f"{line.split(' ')[0]} {wanted}"
            is_right = bool(wanted) and told[0].startswith(before) if told else not wanted
            tally.expect(is_right, line, "is answered", told, "and not", wanted)
        tally.expect("job a disk claim 2 holds 1 needs 1" in user.say("state"), "what a session got by a wish is lost")
        owner.say("end")
        wanted = ["notice 1 granted a 1 disk, 1 tape", "notice 2 left a"]
        user.say("hello")
        tally.expect(user.notices == wanted, "who uses a job that leaves is told", user.notices)
        for wire in (user, other):
            wire.say("end")


def try_operators(tally: Tally, served: Served) -> None:
    """Tries who may change the capital, that it is done once, and that the next start has it."""
    with Wire(served.socket) as it, Wire(served.socket) as other:
        it.say(f"auth {OPERATOR}")
        for wire in (it, other):
            wire.say("session 600")
        other.say("1 job a 3 tape")
        for wire, line, wanted in (
            (other, "2 capital tape 4", "2 refused S4"), (it, "1 capital tape 2", "1 claimed a"), (it, "2 capital tape 5", ""),
            (it, "3 resource more 1", "3 refused S4"), (it, "4 ask a 1 tape", "4 refused S3"), (it, "2 capital tape 5", ""),
        ):
            told = wire.say(line)
            tally.expect(told[0].startswith(wanted) if told else not wanted, line, "is answered", told, "and not", wanted)
        other.say("end")
    before = f"resource tape capital {CAPITAL['tape'] + 2} cash {CAPITAL['tape'] + 2}"
    tally.expect(served.end() == DONE, "SIGTERM does not end a server with status 0")
    served.start()
    with Wire(served.socket) as it:
        tally.expect(before in it.say("state"), "a start has another capital", it.say("state"))
        it.say(f"auth {OPERATOR}")
        tally.expect(it.say(f"capital tape {CAPITAL['tape']}") == [], "a capital without a number")


def serve(script: str, served: Served, *words: str) -> tuple[int, str]:
    """Calls `serve` with these words, and returns its status and what it wrote."""
    folder = pathlib.Path(served.socket).parent
    ran = subprocess.run([script, "serve", *words], cwd=folder, capture_output=True, timeout=WATCHDOG, check=False)
    return ran.returncode, (ran.stdout + ran.stderr).decode()


def try_copies(tally: Tally, script: str, served: Served) -> None:
    """Copies the journal while the server has it, replays it, and serves from the copy."""
    folder = pathlib.Path(served.socket).parent
    with Wire(served.socket) as it:
        for line in ("session 600", "1 job copied 1 tape", "2 ask copied 1 tape"):
            it.say(line)
        for words, status, told in (
            (["--backup", "copy"], DONE, ""), (["--backup", "copy"], FAULT, "is there already"), (["--replay"], DONE, "lead to"),
            (["--restore", "copy"], FAULT, "another server has this journal"),
        ):
            got = serve(script, served, "--journal", "journal", *words)
            tally.expect(got[0] == status and told in got[1], "serve", *words, "ends with", *got)
        state = it.say("state")
        (folder / "spoiled").write_bytes((folder / "copy").read_bytes()[:5000])
        for words, status, told in (
            (["--journal", "second", "--restore", "spoiled"], FAULT, ""), (["--journal", "second", "--restore", "copy"], DONE, ""),
            (["--journal", "second", "--restore", "copy"], FAULT, "there is a journal in this folder already"),
            (["--journal", "third", "--backup", "copy3"], FAULT, "there is no journal in this folder"),
        ):
            got = serve(script, served, *words)
            tally.expect(got[0] == status and told in got[1], "serve", *words, "ends with", *got)
        (folder / "again").mkdir()
        (folder / "second").rename(folder / "again/journal")
        second = Served([script, "serve"], folder / "again")
        second.start()
        with Wire(second.socket) as wire:
            tally.expect(wire.say("state") == state, "a copy leads to another bank", wire.say("state"), state)
        tally.expect(second.end() == DONE, "SIGTERM does not end a server with status 0")
        it.say("end")


def try_units(tally: Tally) -> None:
    """Lets systemd look at the units, if it is there."""
    if shutil.which("systemd-analyze") is None:
        return
    with tempfile.TemporaryDirectory(prefix="parbegin-units-") as name:
        for unit in sorted((TOP / "extras/systemd").glob("*.s*")):
            # (what they start is not installed)
            text = unit.read_text().replace("/usr/bin/parbegin", "/bin/true")
            pathlib.Path(name, unit.name).write_text(text)
        units = [str(it) for it in sorted(pathlib.Path(name).iterdir()) if it.suffix in (".service", ".socket")]
        where = {**os.environ, "SYSTEMD_UNIT_PATH": f"{name}:"}
        ran = subprocess.run(["systemd-analyze", "verify", "--man=no", *units], env=where, capture_output=True, check=False)
        said = [line for line in ran.stderr.decode().splitlines() if "parbegin" in line]
        tally.expect(ran.returncode == 0 and not said, "systemd-analyze", ran.returncode, *said)


def try_at_server(tally: Tally, script: str, folder: pathlib.Path, parts: Sequence[str]) -> None:
    """Tries the parts that need one server."""
    port, page = free_port(), f"localhost:{free_port()}"
    tls = ["--tcp", f"localhost:{port}", *certified(folder)] if shutil.which("openssl") else []
    (folder / "operators").write_text(f"{hashlib.sha256(OPERATOR.encode()).hexdigest()}\n")
    more = ["--http", page, *tls, "--snapshot-every", "40", "--operators", f"{folder}/operators"]
    served = Served([script, "serve"], folder, *more)
    served.start()
    calls: dict[str, Callable[[], None]] = {
        "lines": lambda: try_lines(tally, served), "refusals": lambda: try_refusals(tally, served),
        "uses": lambda: try_uses(tally, served), "operators": lambda: try_operators(tally, served),
        "http": lambda: try_http(tally, served, page), "words": lambda: try_words(tally, script, served),
        "copies": lambda: try_copies(tally, script, served),
    }
    try_parts(tally, served, calls, parts)


def main() -> None:
    tally, parts = Tally(), sys.argv[2:] or PARTS
    with tempfile.TemporaryDirectory(prefix="parbegin-served-") as name:
        folder = pathlib.Path(name)
        script = installed(folder / "installed")
        for part in ("one", "limits", "activation"):
            (folder / part).mkdir()
        if {*parts} & {*AT_SERVER}:
            try_at_server(tally, script, folder / "one", parts)
        if "limits" in parts:
            try_limits(tally, script, folder / "limits")
        if "activation" in parts:
            try_activation(tally, script, folder / "activation")
        if "units" in parts:
            try_units(tally)
    tally.end("served")


if __name__ == "__main__":
    main()
