"""Builds tools, which proves them: crates side by side, as many as processors and memory allow."""
from __future__ import annotations

import os
import subprocess
import time
from typing import NoReturn

from script.crates import Crates, chains
from script.kit import kit, slots
from script.places import TOP, say, stop
from script.tools import COMMANDS_OF, crate_of

# A crate with four jobs takes a third more minutes of processors than with one, so it gets only those that no other that
# can start needs. No job is started beyond one for each processor: it would slow down the longest chain.
MOST_JOBS_OF_A_CRATE = 4
MAINS = {crate_of(tool) for tool in COMMANDS_OF}


def call_of(crate: str) -> tuple[list[str], str, int]:
    """Returns the words, the input and the status of the call by which a tool is tried once it is built."""
    folder = f"{TOP}/crates/{crate}"
    status = f"{folder}/status"
    with open(f"{folder}/args", encoding="utf-8") as file:
        words = file.read().split()
    if not os.path.exists(status):
        return words, f"{folder}/stdin", 0
    with open(status, encoding="utf-8") as file:
        return words, f"{folder}/stdin", int(file.read())


def minutes(seconds: float) -> str:
    """Returns seconds as minutes, in words."""
    return f"{seconds / 60:.1f} minutes"


class Failed(Exception):
    """A crate was not built."""


class Build:
    """A build of all crates, as many side by side as there are slots, the longest chains first."""

    def __init__(self, crates: Crates) -> None:
        self.crates, self.chains, self.rt, self.slots = crates, chains(crates), kit(), slots()
        self.done: set[str] = set()
        self.running: dict[str, tuple[subprocess.Popen, int]] = {}
        self.awaited: dict[str, int] = {}
        self.started = time.monotonic()

    def start(self, crate: str, jobs: int) -> None:
        """Starts the build of a crate."""
        folder = f"{TOP}/crates/{crate}"
        os.makedirs(f"{folder}/out", exist_ok=True)
        words, given, self.awaited[crate] = ["lib", "--jobs", str(jobs)], os.devnull, 0
        if crate in MAINS:
            # a run of it shows by its status that it was built
            call, given, self.awaited[crate] = call_of(crate)
            words = ["run", "--jobs", str(jobs), "--", *call]
        with open(f"{folder}/out/build.log", "wb") as log, open(given, "rb") as text:
            process = subprocess.Popen([*self.rt, *words], cwd=folder, stdin=text, stdout=log, stderr=subprocess.STDOUT)
        self.running[crate] = process, jobs

    def start_what_can(self) -> None:
        """Starts crates as long as a slot is idle, and gives each a number of jobs."""
        ready = [it for it in self.crates if it not in self.done and it not in self.running]
        ready = [it for it in ready if self.done.issuperset(self.crates[it])]
        ready.sort(key=lambda it: -self.chains[it])
        idle = self.slots - sum(jobs for _, jobs in self.running.values())
        for others, crate in zip(reversed(range(len(ready))), ready):
            if idle <= 0:
                return
            jobs = min(MOST_JOBS_OF_A_CRATE, max(1, idle - others))
            self.start(crate, jobs)
            idle -= jobs

    def tell(self) -> None:
        """Says how far the build is."""
        count = f"{len(self.done)} of {len(self.crates)} crates are done"
        named = sorted(f"{crate} ({jobs} jobs)" if jobs > 1 else crate for crate, (_, jobs) in self.running.items())
        say(f"{count}, {minutes(time.monotonic() - self.started)}: building {', '.join(named)}")

    def end_of_one(self) -> str:
        """Waits until a crate has ended, and returns it."""
        while True:
            for crate, (process, _) in self.running.items():
                if process.poll() is not None:
                    return crate
            time.sleep(0.05)

    def fail(self, crate: str) -> NoReturn:
        """Raises that a crate was not built, with the end of its log."""
        log = f"{TOP}/crates/{crate}/out/build.log"
        with open(log, encoding="utf-8", errors="replace") as file:
            last = file.read().splitlines()[-20:]
        raise Failed("\n  ".join([f"{crate} was not built. The last lines of {log}:", *last]))

    def stop_all(self) -> None:
        """Ends what is running."""
        for process, _ in self.running.values():
            process.terminate()
        for process, _ in self.running.values():
            process.wait()

    def run(self) -> None:
        """Builds all crates."""
        try:
            while len(self.done) < len(self.crates):
                self.start_what_can()
                self.tell()
                crate = self.end_of_one()
                process, _ = self.running.pop(crate)
                if process.returncode != self.awaited[crate]:
                    self.fail(crate)
                self.done.add(crate)
        finally:
            self.stop_all()
        used = os.times()
        used_by_all = used.children_user + used.children_system
        say(f"built in {minutes(time.monotonic() - self.started)}, with {minutes(used_by_all)} of processors")


def run_to_end(work: Build) -> None:
    """Runs a build, and ends the script with the log of a crate that failed; an interrupt is told with how far it came."""
    try:
        work.run()
    except Failed as failure:
        stop(failure)
    except KeyboardInterrupt:
        say(f"interrupted after {len(work.done)} of {len(work.crates)} crates; the next call goes on from there")
        raise
