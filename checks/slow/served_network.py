#!/usr/bin/env python3
"""Serves a bank by three hosts, and cuts the lines between them while clients use it.

    checks/slow/served_network.py [PROGRAM [ROUNDS [SEED [PART ..]]]]

PROGRAM is the one that ./parbegin has built if none is given; all parts are tried if none is named. Each host is a network
namespace with a server and a member of etcd; the clients are on this machine, and speak TLS. It needs root, iproute2, etcd, and
faketime for the second part.

    lines       the host of the leader is cut off, or that of a follower; two hosts at once, so that none can lead; a host that
                can be sent to and sends nothing to another one
    clocks      the wall clocks of servers jump a day forward and back while hosts are cut off

In each, the log is replayed over the model of checks/lib/bank_model.py, each answer that a client got has to be the one that
comes of it, what clients surely held at each moment has to be within the capital, and each client compares what it holds with
`state`. Its status is 0 if all is as wanted, and 1 if not.
"""
from __future__ import annotations

import pathlib
import random
import socket
import sys
import tempfile
from collections.abc import Sequence
from functools import partial

sys.path.insert(0, str(pathlib.Path(__file__).resolve().parents[1] / "lib"))

from calls import Tally, installed  # noqa: E402
from etcd_members import Members  # noqa: E402
from network_hosts import Hosts  # noqa: E402
from served_bank import certified, wait_for  # noqa: E402
from served_fleet import SERVERS, Fleet, entries_of  # noqa: E402
from served_history import compare_answers, seen_while  # noqa: E402

ROUNDS, PORT = 10, 4004
CUTS = ("leader", "follower", "majority", "one way")
JUMPS = ("+86400", "-86400")
PARTS = ("lines", "clocks")


class FleetOfHosts(Fleet):
    """Servers on hosts. Checks ask them over sockets in the file system, which no cut concerns."""

    def __init__(self, start: Sequence[str], members: Members, folder: pathlib.Path, hosts: Hosts, has_clocks: bool) -> None:
        super().__init__(start, members, folder, *certified(folder, *hosts.addresses), "--snapshot-every", "1000000")
        self.hosts, self.folder, self.has_clocks = hosts, folder, has_clocks
        for at in range(SERVERS):
            self.set_clock(at, "+0")

    def address(self, at: int) -> str:
        return f"tls:{self.hosts.addresses[at]}:{PORT}"

    def set_clock(self, at: int, seconds: str) -> None:
        """Sets the wall clock of a server, as seconds beside this machine's."""
        (self.folder / f"clock{at}").write_text(seconds)

    def words_of(self, at: int) -> list[str]:
        clock = [
            "env", f"LD_PRELOAD={faketime()}", f"FAKETIME_TIMESTAMP_FILE={self.folder}/clock{at}", "FAKETIME_NO_CACHE=1",
            "FAKETIME_DONT_FAKE_MONOTONIC=1",
        ]
        listens = ["--tcp", f"{self.hosts.addresses[at]}:{PORT}", "--socket", f"{self.folder}/s{at}"]
        words = [*self.words, *listens, "--advertise", self.address(at), "--name", f"server{at}"]
        return [*self.hosts.within(at), *(clock if self.has_clocks else []), *words]

    def connect(self, at: int) -> socket.socket:
        it = socket.socket(socket.AF_UNIX)
        it.settimeout(2)
        it.connect(f"{self.folder}/s{at}")
        return it


def faketime() -> str:
    """Returns the library that gives a program another clock; an empty text if it is not there."""
    return next((str(it) for it in pathlib.Path("/usr/lib").glob("*/faketime/libfaketime.so.1")), "")


class Nemesis:
    """What goes wrong, one thing after the other."""

    def __init__(self, fleet: FleetOfHosts, members: Members, rng: random.Random) -> None:
        self.fleet, self.members, self.hosts, self.rng = fleet, members, fleet.hosts, rng
        self.counts = dict.fromkeys((*CUTS, *(JUMPS if fleet.has_clocks else ())), 0)

    def leader(self) -> int:
        """Waits until a server leads, and returns which one."""
        wait_for(lambda: self.fleet.leader() is not None)
        leads = self.fleet.leader()
        return self.leader() if leads is None else leads

    def jump(self, kind: str) -> None:
        """Lets the clock of the leader jump, or that of any server."""
        self.fleet.set_clock(self.rng.choice((self.leader(), self.rng.randrange(SERVERS))), kind)

    def do(self, kind: str) -> None:
        """Lets something go wrong, and mends it once another server leads, or after a while."""
        self.counts[kind] += 1
        if kind in JUMPS:
            self.jump(kind)
            return
        leads = self.leader()
        others = [at for at in range(SERVERS) if at != leads]
        if kind == "leader":
            self.hosts.cut(leads)
            wait_for(lambda: self.fleet.leader(leads) is not None)
        elif kind == "follower":
            self.hosts.cut(self.rng.choice(others))
        elif kind == "majority":
            for at in others:
                self.hosts.cut(at)
            wait_for(lambda: self.fleet.leader() is None)
        else:
            at, other = self.rng.sample(range(SERVERS), 2)
            self.hosts.cut_between(at, other)
            wait_for(lambda: self.fleet.leader() is not None)
        for at in range(SERVERS):
            self.hosts.mend(at)
        wait_for(self.members.are_well)


def try_storm(tally: Tally, fleet: FleetOfHosts, members: Members, part: str, rounds: int, seed: int) -> None:
    """Lets clients use the bank while things go wrong, and looks at what they saw."""
    rng = random.Random(seed)
    nemesis = Nemesis(fleet, members, rng)
    kinds = list(nemesis.counts)
    drawn = (kinds[number] if number < len(kinds) else rng.choice(kinds) for number in range(rounds))
    faults = (partial(nemesis.do, it) for it in drawn)
    seen = seen_while(tally, fleet.addresses(), part, seed, faults, token="right", authority=f"{fleet.folder}/cert")
    answers = compare_answers(tally, entries_of(members), seen)
    what = ", ".join(f"{count} {name}" for name, count in nemesis.counts.items())
    print(f"{part}: {what}; {answers} answers, {seen.compared} looks at the state, seed {seed}", flush=True)


def try_part(tally: Tally, start: Sequence[str], folder: pathlib.Path, part: str, rounds: int, seed: int) -> None:
    """Tries a part over three hosts."""
    hosts = Hosts(SERVERS)
    members = Members(folder, SERVERS, hosts=hosts)
    fleet = FleetOfHosts(start, members, folder, hosts, part == "clocks")
    try:
        hosts.make()
        members.start_all()
        fleet.start_all()
        try_storm(tally, fleet, members, part, rounds, seed)
    finally:
        fleet.kill_all()
        members.kill_all()
        hosts.remove()


def main() -> None:
    if not (Members.is_there() and Hosts.can_be()):
        sys.exit("it needs root, and: apt-get install iproute2 etcd-server faketime")
    rounds = int(sys.argv[2]) if len(sys.argv) > 2 else ROUNDS
    seed = int(sys.argv[3]) if len(sys.argv) > 3 else random.randrange(1_000_000)
    tally, parts = Tally(), sys.argv[4:] or [it for it in PARTS if it != "clocks" or faketime()]
    with tempfile.TemporaryDirectory(prefix="parbegin-network-") as name:
        folder = pathlib.Path(name)
        start = [installed(folder / "installed"), "serve"]
        for part in parts:
            (folder / part).mkdir()
            try_part(tally, start, folder / part, part, rounds, seed)
    tally.end("served_network")


if __name__ == "__main__":
    main()
