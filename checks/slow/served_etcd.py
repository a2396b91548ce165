#!/usr/bin/env python3
"""Serves a bank by three servers over three members of etcd, and kills and pauses all of them while clients use it.

    checks/slow/served_etcd.py [PROGRAM [ROUNDS [SEED [PART ..]]]]

PROGRAM is the one that ./parbegin has built if none is given; all parts are tried if none is named. It needs etcd.

    history     leaders are killed and paused, members are killed and paused; then the journal is replayed over the model
                of checks/lib/bank_model.py, and each answer that a client got has to be the one that comes of it
    snapshots   the same with a snapshot at each few batches, and leaders that are ended
    paused      a leader is paused, another one leads, and the old one goes on with requests in its sockets: it answers none
    holds       `hold`, in both of its forms, finds the leader, and goes on when that is killed
    missed      a follower that has missed a snapshot when it is elected does not lead from where it is
    secured     etcd wants TLS and a password

In each, what clients surely held at each moment is added up, and has to be within the capital; and each client compares what
it holds with `state`. Its status is 0 if all is as wanted, and 1 if not.
"""
from __future__ import annotations

import asyncio
import os
import pathlib
import random
import signal
import socket
import subprocess
import sys
import tempfile
from collections.abc import Sequence
from contextlib import suppress
from functools import partial

sys.path.insert(0, str(pathlib.Path(__file__).resolve().parents[1] / "lib"))

from calls import DEVICE, DONE, TOP, Tally, installed  # noqa: E402
from etcd_members import Members  # noqa: E402
from served_bank import AMOUNTS, PATIENCE, certified, wait_for  # noqa: E402
from served_fleet import SERVERS, Fleet, entries_of  # noqa: E402
from served_history import compare_answers, seen_while  # noqa: E402

sys.path.insert(1, str(TOP / "extras/python"))

from parbegin import RemoteBank  # noqa: E402

from script.serving.etcd import EtcdLog, Where  # noqa: E402
from script.serving.gateway import Access  # noqa: E402

ROUNDS = 10
PARTS = ("history", "snapshots", "paused", "holds", "missed", "secured")
KINDS = ("kill", "pause", "kill-member", "pause-member")
# The end of a leader leaves a snapshot, so that its log is not there to be replayed.
WITH_ENDS = (*KINDS, "end")
PAUSES = 4


class Nemesis:
    """What goes wrong, one thing after the other."""

    def __init__(self, tally: Tally, fleet: Fleet, members: Members, rng: random.Random) -> None:
        self.tally, self.fleet, self.members, self.rng = tally, fleet, members, rng
        self.counts = dict.fromkeys(WITH_ENDS, 0)

    def do(self, kind: str) -> None:
        """Lets something go wrong, and mends it once another server leads, or at once."""
        self.counts[kind] += 1
        if kind.endswith("-member"):
            self.of_member(kind)
            return
        wait_for(lambda: self.fleet.leader() is not None)
        at = self.fleet.leader()
        if at is None:
            return
        if kind == "pause":
            self.fleet.signal(at, signal.SIGSTOP)
            wait_for(lambda: self.fleet.leader(at) is not None)
            self.fleet.signal(at, signal.SIGCONT)
            return
        status = self.fleet.end(at, signal.SIGKILL if kind == "kill" else signal.SIGTERM)
        self.tally.expect(kind == "kill" or status == DONE, "SIGTERM ends a leader with status", status)
        if self.rng.random() < 0.5:
            wait_for(lambda: self.fleet.leader() is not None)
        self.fleet.start(at)

    def of_member(self, kind: str) -> None:
        """Kills a member of etcd or pauses it, for a while."""
        at = self.rng.randrange(len(self.members.clients))
        self.members.signal(at, signal.SIGKILL if kind == "kill-member" else signal.SIGSTOP)
        wait_for(lambda: self.fleet.leader() is not None)
        if kind == "kill-member":
            self.members.start(at)
        else:
            self.members.signal(at, signal.SIGCONT)
        wait_for(self.members.are_well)


def try_storm(tally: Tally, fleet: Fleet, members: Members, kind: str, rounds: int, seed: int) -> None:
    """Lets clients use the bank while things go wrong, and looks at what they saw."""
    rng = random.Random(seed)
    nemesis, kinds = Nemesis(tally, fleet, members, rng), KINDS if kind == "history" else WITH_ENDS
    drawn = (kinds[number] if number < len(kinds) else rng.choice(kinds) for number in range(rounds))
    seen = seen_while(tally, fleet.addresses(), kind, seed, (partial(nemesis.do, it) for it in drawn))
    answers = compare_answers(tally, entries_of(members), seen) if kind == "history" else len(seen.answers)
    what = ", ".join(f"{count} {name}" for name, count in nemesis.counts.items())
    print(f"{kind}: {what}; {answers} answers, {seen.compared} looks at the state, seed {seed}", flush=True)


def opened(fleet: Fleet, at: int) -> socket.socket:
    """Returns a connection to a server."""
    it = socket.create_connection(("127.0.0.1", fleet.ports[at]), PATIENCE)
    it.settimeout(PATIENCE)
    return it


def answer_of(it: socket.socket, *lines: str) -> bytes:
    """Sends lines, and returns what comes up to an end of an answer, or of the connection."""
    told = b""
    with suppress(ConnectionError):
        it.sendall("".join(f"{line}\n" for line in lines).encode())
        while not told.endswith(b"ready\n") and (piece := it.recv(65_536)):
            told += piece
    return told


def try_paused(tally: Tally, fleet: Fleet) -> None:
    """Pauses leaders, and lets them go on once another one leads: what lay in their sockets is not answered as by a leader."""
    for number in range(PAUSES):
        wait_for(lambda: fleet.leader() is not None)
        old = fleet.leader()
        assert old is not None
        with opened(fleet, old) as writing, opened(fleet, old) as reading, opened(fleet, old) as beating:
            tally.expect(b"refused" not in answer_of(writing, "session 600"), "no session")
            tally.expect(answer_of(writing, f"1 job p{number} 2 tape") == b"1 ready\n", "a job does not join")
            answer_of(reading, "state")
            answer_of(beating, "session 600")
            fleet.signal(old, signal.SIGSTOP)
            # (a write after the read in every other round: without one only the lease can say that the read is old)
            if number % 2:
                writing.sendall(f"2 ask p{number} 1 tape\n".encode())
            reading.sendall(b"1 state\n")
            beating.sendall(b"1 beat\n")
            wait_for(lambda: fleet.leader(old) is not None)
            fleet.signal(old, signal.SIGCONT)
            for it in (reading, beating, *([writing] if number % 2 else [])):
                told = answer_of(it)
                tally.expect(not told or b"refused S2" in told, "a leader that was paused answers", told)
        with opened(fleet, fleet.leader() or 0) as it:
            answer_of(it, "state")


def try_hold(tally: Tally, fleet: Fleet, call: Sequence[str]) -> None:
    """Lets one form of `hold` begin at a follower, and kills the leader while its command runs."""
    wait_for(lambda: fleet.leader() is not None)
    leads = fleet.leader()
    assert leads is not None
    # (the leader is told by the follower)
    where = {**os.environ, "PARBEGIN_SOCKET": f"{fleet.address((leads + 1) % SERVERS)},{fleet.address((leads + 2) % SERVERS)}"}
    words = [*call, "--lease", "600", "--name", "lasting", "1 tape", "--", "sh", "-c", "echo held; read line; echo $line"]
    with subprocess.Popen(words, env=where, stdin=subprocess.PIPE, stdout=subprocess.PIPE) as it:
        assert it.stdin is not None and it.stdout is not None
        tally.expect(it.stdout.readline() == b"held\n", *call, "finds no leader")
        fleet.end(leads, signal.SIGKILL)
        fleet.start(leads)
        wait_for(lambda: fleet.leader() is not None)
        told, _ = it.communicate(b"ends\n", PATIENCE)
        tally.expect(told == b"ends\n" and it.returncode == DONE, *call, "over a kill of the leader", told, it.returncode)
    with RemoteBank(fleet.addresses(), patience=PATIENCE) as bank:
        wait_for(lambda: not any(line.startswith("job lasting ") for line in bank.state()))


async def missed(members: Members) -> tuple[int, list[str]]:
    """Lets one follower miss a snapshot, and elects it. Returns where it leads from, and what it has."""
    got: dict[str, list[str]] = {"a": [], "b": []}
    logs = {name: EtcdLog(Where(Access(members.clients), "/missed", name, name, 10)) for name in got}

    def restore(name: str, body: str | None) -> None:
        got[name][:] = body.split(",") if body else []

    calls = {name: (lambda body, name=name: restore(name, body), got[name].extend) for name in got}
    for name, log in logs.items():
        await log.load(*calls[name])
    assert await logs["a"].campaign(*calls["a"])
    for number in range(1, 6):
        await logs["a"].append([f"x{number}"])
    await logs["a"].save(",".join(f"x{number}" for number in range(1, 6)))
    await logs["a"].resign()
    assert await logs["b"].campaign(*calls["b"])
    sequence = logs["b"].sequence
    await logs["b"].append(["y"])
    await logs["b"].resign()
    return sequence, got["b"]


def try_missed(tally: Tally, members: Members) -> None:
    """Elects a follower that has missed a snapshot."""
    sequence, got = asyncio.run(missed(members))
    tally.expect(sequence == 5 and got == [f"x{number}" for number in range(1, 6)], "a follower leads from", sequence, got)


def etcdctl(members: Members, folder: pathlib.Path, *words: str) -> None:
    """Calls etcdctl over TLS."""
    where = {**os.environ, "ETCDCTL_API": "3"}
    member = members.clients[0].replace("127.0.0.1", "localhost")
    front = ["etcdctl", "--cacert", f"{folder}/cert", "--endpoints", f"https://{member}"]
    subprocess.run([*front, *words], env=where, check=True, stdout=subprocess.DEVNULL)


def try_secured(tally: Tally, start: Sequence[str], folder: pathlib.Path) -> None:
    """Serves over an etcd that wants TLS and a password, with the right one and with another one."""
    certified(folder)
    members = Members(folder, 1, ["--cert-file", f"{folder}/cert", "--key-file", f"{folder}/key"], "https")
    members.start_all()
    try:
        for words in (("user", "add", "root:right"), ("user", "grant-role", "root", "root"), ("auth", "enable")):
            etcdctl(members, folder, *words)
        address = members.addresses().replace("127.0.0.1", "localhost")
        where = ["--etcd", address, "--etcd-ca", f"{folder}/cert", "--capital", AMOUNTS]
        words = [*start, *where, "--advertise", "here", "--etcd-user", "root", "--etcd-password", f"{folder}/password"]
        (folder / "password").write_text("wrong\n")
        ran = subprocess.run([*words, "--socket", f"{folder}/socket"], capture_output=True, timeout=PATIENCE, check=False)
        is_refused = ran.returncode == DEVICE and b"authentication failed" in ran.stderr
        tally.expect(is_refused, "a wrong password", ran.returncode, ran.stderr)
        (folder / "password").write_text("right\n")
        with subprocess.Popen([*words, "--socket", f"{folder}/socket"]) as served:
            try:
                with RemoteBank(f"{folder}/socket", patience=PATIENCE) as bank:
                    bank.join("a", {"tape": 1})
                    tally.expect(any(line.startswith("job a ") for line in bank.state()), "a job does not join")
            finally:
                served.terminate()
            tally.expect(served.wait(PATIENCE) == DONE, "SIGTERM does not end a server with status 0")
    finally:
        members.kill_all()


def try_fleet(tally: Tally, start: Sequence[str], folder: pathlib.Path, part: str, rounds: int, seed: int) -> None:
    """Tries a part over three members and three servers."""
    members = Members(folder)
    members.start_all()
    fleet = Fleet(start, members, folder, "--snapshot-every", "20" if part == "snapshots" else "1000000")
    try:
        if part == "missed":
            try_missed(tally, members)
            return
        fleet.start_all()
        if part == "paused":
            try_paused(tally, fleet)
        elif part == "holds":
            for form in ([start[0], "hold"], [str(pathlib.Path(start[0]).with_name("parbegin-hold"))]):
                try_hold(tally, fleet, form)
        else:
            try_storm(tally, fleet, members, part, rounds, seed)
        # (one that was just started would not know the signal yet)
        wait_for(lambda: all(fleet.ask(at, "hello") for at in range(SERVERS)))
        leads = fleet.leader()
        for at in [it for it in range(SERVERS) if it != leads] + ([leads] if leads is not None else []):
            status = fleet.end(at, signal.SIGTERM)
            tally.expect(status == DONE, part, "SIGTERM ends a server with status", status, fleet.log.read_text()[-2000:])
    finally:
        fleet.kill_all()
        members.kill_all()


def main() -> None:
    if not Members.is_there():
        sys.exit("etcd is not there: apt-get install etcd-server etcd-client")
    rounds = int(sys.argv[2]) if len(sys.argv) > 2 else ROUNDS
    seed = int(sys.argv[3]) if len(sys.argv) > 3 else random.randrange(1_000_000)
    tally, parts = Tally(), sys.argv[4:] or PARTS
    with tempfile.TemporaryDirectory(prefix="parbegin-etcd-") as name:
        folder = pathlib.Path(name)
        start = [installed(folder / "installed"), "serve"]
        subprocess.run([TOP / "extras/hold/build.sh", pathlib.Path(start[0]).with_name("parbegin-hold")], check=True)
        for part in PARTS:
            (folder / part).mkdir()
            if part in parts and part != "secured":
                try_fleet(tally, start, folder / part, part, rounds, seed)
        if "secured" in parts:
            try_secured(tally, start, folder / "secured")
    tally.end("served_etcd")


if __name__ == "__main__":
    main()
