"""Members of etcd for checks, on loopback or on hosts: started, killed, paused and started anew. They need Debian's etcd-server."""
from __future__ import annotations

import pathlib
import shutil
import signal
import socket
import subprocess
import time
import urllib.request
from collections.abc import Sequence
from contextlib import suppress

from network_hosts import Hosts

# Seconds in which members have to find one another, on a machine that does other work.
PATIENCE = 120.0


def free_ports(count: int) -> list[int]:
    """Returns ports at which nobody answers."""
    sockets = [socket.socket() for _ in range(count)]
    for it in sockets:
        it.bind(("127.0.0.1", 0))
    ports = [int(it.getsockname()[1]) for it in sockets]
    for it in sockets:
        it.close()
    return ports


class Members:
    """Some members of etcd in a folder."""

    def __init__(
        self, folder: pathlib.Path, count: int = 3, words: Sequence[str] = (), scheme: str = "http", hosts: Hosts | None = None,
    ) -> None:
        ports = free_ports(2 * count)
        self.folder, self.words, self.scheme, self.hosts = folder, list(words), scheme, hosts
        addresses = ["127.0.0.1"] * count if hosts is None else hosts.addresses
        self.clients = [f"{it}:{port}" for it, port in zip(addresses, ports)]
        self.peers = [f"http://{it}:{port}" for it, port in zip(addresses, ports[count:])]
        self.processes: list[subprocess.Popen[bytes] | None] = [None] * count

    @staticmethod
    def is_there() -> bool:
        """Returns whether etcd is installed."""
        return shutil.which("etcd") is not None

    def addresses(self) -> str:
        """Returns the addresses of all members, as `serve --etcd` has them."""
        return ",".join(self.clients)

    def start(self, at: int) -> None:
        """Starts a member, or starts it anew."""
        cluster = ",".join(f"e{number}={peer}" for number, peer in enumerate(self.peers))
        client, peer = f"{self.scheme}://{self.clients[at]}", self.peers[at]
        words = [
            *([] if self.hosts is None else self.hosts.within(at)), "etcd", "--name", f"e{at}", "--data-dir", f"{self.folder}/e{at}", "--listen-peer-urls", peer,
            "--initial-advertise-peer-urls", peer, "--listen-client-urls", client, "--advertise-client-urls", client,
            "--initial-cluster", cluster, "--initial-cluster-state", "new", "--auto-compaction-mode", "revision",
            "--auto-compaction-retention", "1000", *self.words,
        ]
        with open(self.folder / f"e{at}.log", "ab") as log:
            self.processes[at] = subprocess.Popen(words, stdin=subprocess.DEVNULL, stdout=log, stderr=log)

    def start_all(self) -> None:
        """Starts all members, and waits until they answer."""
        for at in range(len(self.clients)):
            self.start(at)
        end = time.monotonic() + PATIENCE
        while not self.are_well():
            if time.monotonic() > end:
                raise RuntimeError(f"etcd does not answer: {self.folder}")
            time.sleep(0.1)

    def are_well(self) -> bool:
        """Returns whether each member answers, and one of them leads."""
        if self.scheme != "http":
            return all(self.is_open(it) for it in self.clients)
        with suppress(OSError):
            for client in self.clients:
                with urllib.request.urlopen(f"http://{client}/health", timeout=2) as it:
                    if b'"true"' not in it.read():
                        return False
            return True
        return False

    @staticmethod
    def is_open(client: str) -> bool:
        host, _, port = client.rpartition(":")
        with suppress(OSError), socket.create_connection((host, int(port)), 2):
            return True
        return False

    def signal(self, at: int, number: int) -> None:
        """Sends a signal to a member; one that is killed has then ended."""
        process = self.processes[at]
        if process is not None and process.poll() is None:
            process.send_signal(number)
            if number == signal.SIGKILL:
                process.wait()

    def kill_all(self) -> None:
        """Kills all members."""
        for at in range(len(self.clients)):
            self.signal(at, signal.SIGKILL)
