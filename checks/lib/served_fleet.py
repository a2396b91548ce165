"""Servers of a bank over one etcd, for checks, and what their log has."""
from __future__ import annotations

import base64
import json
import pathlib
import socket
import subprocess
import urllib.request
from collections.abc import Sequence
from contextlib import suppress

from etcd_members import Members, free_ports
from served_bank import AMOUNTS, PATIENCE, wait_for

SERVERS, LEASE = 3, 2


class Fleet:
    """Servers over one etcd, of which one leads; all of them on loopback."""

    def __init__(self, start: Sequence[str], members: Members, folder: pathlib.Path, *more: str) -> None:
        self.ports = free_ports(SERVERS)
        self.processes: list[subprocess.Popen[bytes] | None] = [None] * SERVERS
        self.log = folder / "servers.log"
        self.words = [*start, "--etcd", members.addresses(), "--capital", AMOUNTS, "--lead-for", str(LEASE), *more]

    def address(self, at: int) -> str:
        return f"127.0.0.1:{self.ports[at]}"

    def addresses(self) -> str:
        """Returns the addresses of all servers."""
        return ",".join(self.address(at) for at in range(SERVERS))

    def words_of(self, at: int) -> list[str]:
        """Returns the words that start a server."""
        return [*self.words, "--tcp", self.address(at), "--advertise", self.address(at), "--name", f"server{at}"]

    def start(self, at: int) -> None:
        """Starts a server."""
        with open(self.log, "ab") as log:
            self.processes[at] = subprocess.Popen(self.words_of(at), stdin=subprocess.DEVNULL, stderr=log)

    def start_all(self) -> None:
        """Starts all servers, and waits until one leads."""
        for at in range(SERVERS):
            self.start(at)
        wait_for(lambda: self.leader() is not None)

    def connect(self, at: int) -> socket.socket:
        """Connects to a server."""
        return socket.create_connection(("127.0.0.1", self.ports[at]), 2)

    def ask(self, at: int, line: str) -> str:
        """Asks a server a line, and returns the first one of its answer; nothing if it does not answer."""
        with suppress(OSError), self.connect(at) as it:
            it.sendall(f"{line}\n".encode())
            return it.makefile().readline()
        return ""

    def leader(self, besides: int | None = None) -> int | None:
        """Returns which server leads, if one does."""
        others = [at for at in range(SERVERS) if at != besides]
        return next((at for at in others if self.ask(at, "hello").endswith(" leader\n")), None)

    def signal(self, at: int, number: int) -> None:
        """Sends a signal to a server that is there."""
        process = self.processes[at]
        assert process is not None
        process.send_signal(number)

    def end(self, at: int, number: int) -> int:
        """Ends a server, and returns its status."""
        process = self.processes[at]
        assert process is not None
        process.send_signal(number)
        return process.wait(PATIENCE)

    def kill_all(self) -> None:
        """Kills all servers."""
        for process in self.processes:
            if process is not None and process.poll() is None:
                process.kill()
                process.wait()


def entries_of(members: Members) -> list[str]:
    """Returns the entries of a log that has no snapshot."""
    def of(text: str) -> str:
        return base64.b64encode(text.encode()).decode()

    body = json.dumps({"key": of("/parbegin/log/"), "range_end": of("/parbegin/log0")}).encode()
    with urllib.request.urlopen(f"http://{members.clients[0]}/v3/kv/range", body, PATIENCE) as it:
        rows = json.load(it)["kvs"]
    keys = [base64.b64decode(row["key"]).decode() for row in rows]
    assert keys == sorted(keys) and int(keys[-1][-16:]) == len(keys), "batches are missing"
    return [entry for row in rows for entry in base64.b64decode(row["value"]).decode("latin-1").split("\n")[1:]]
