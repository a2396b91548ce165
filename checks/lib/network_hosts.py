"""Hosts for checks: network namespaces of this machine on one bridge, whose lines can be cut. They need root and iproute2."""
from __future__ import annotations

import os
import shutil
import subprocess
from contextlib import suppress


def ip(*words: str) -> None:
    """Calls ip(8)."""
    subprocess.run(["ip", *words], check=True, capture_output=True)


class Hosts:
    """Some hosts, each with an address, and this machine as one more."""

    def __init__(self, count: int) -> None:
        self.front = f"pb{os.getpid() % 100_000}"
        self.addresses = [f"10.213.77.{at + 1}" for at in range(count)]

    @staticmethod
    def can_be() -> bool:
        """Returns whether hosts can be made here."""
        return shutil.which("ip") is not None and os.geteuid() == 0

    def line(self, at: int) -> str:
        """Returns the name of the end of a host's line at the bridge."""
        return f"{self.front}l{at}"

    def within(self, at: int) -> list[str]:
        """Returns the words before a command that is to run on a host."""
        return ["ip", "netns", "exec", f"{self.front}n{at}"]

    def make(self) -> None:
        """Makes the bridge and the hosts."""
        ip("link", "add", self.front, "type", "bridge")
        ip("address", "add", "10.213.77.200/24", "dev", self.front)
        ip("link", "set", self.front, "up")
        for at, address in enumerate(self.addresses):
            name, end = f"{self.front}n{at}", f"{self.front}e{at}"
            ip("netns", "add", name)
            ip("link", "add", self.line(at), "type", "veth", "peer", "name", end)
            ip("link", "set", end, "netns", name)
            ip("link", "set", self.line(at), "master", self.front, "up")
            for words in (("address", "add", f"{address}/24", "dev", end), ("link", "set", end, "up"), ("link", "set", "lo", "up")):
                ip("-n", name, *words)

    def cut(self, at: int) -> None:
        """Cuts the line of a host: nothing comes to it or from it, and nobody is told."""
        ip("link", "set", self.line(at), "down")

    def cut_between(self, at: int, other: int) -> None:
        """Lets a host send nothing to another one, which can still send to it."""
        ip("-n", f"{self.front}n{at}", "route", "replace", "blackhole", f"{self.addresses[other]}/32")

    def mend(self, at: int) -> None:
        """Mends the line of a host and all that it sends."""
        ip("link", "set", self.line(at), "up")
        for address in self.addresses:
            with suppress(subprocess.CalledProcessError):
                ip("-n", f"{self.front}n{at}", "route", "delete", "blackhole", f"{address}/32")

    def remove(self) -> None:
        """Removes what was made."""
        for at in range(len(self.addresses)):
            with suppress(subprocess.CalledProcessError):
                ip("netns", "delete", f"{self.front}n{at}")
        with suppress(subprocess.CalledProcessError):
            ip("link", "delete", self.front)
