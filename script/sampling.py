"""`./parbegin sample`: draws many runs of a text, and counts how often each outcome came."""
from __future__ import annotations

import os
import subprocess
import sys
import tempfile
from collections.abc import Iterator
from dataclasses import dataclass

from script.files import advise, give_file, read_input, tell_what_it_awaits
from script.helping import are_refused
from script.options import Given, WrongWords, read_options
from script.places import DEADLOCK, WORDS, say, shown
from script.side_by_side import workers
from script.standard import write

USE = "parbegin sample [--runs N] [--seed N] [--lend WHO] [--steps N] [--events] [--jobs N] FILE"
HELP = """Draw many runs of a program, and count how often each outcome came

Usage: parbegin sample [OPTIONS] FILE

Each run has a seed of its own, and is the one that `record --seed` draws. Its outcome is what `replay` writes of it: the
prints and the faults, in order, and the last line.

Options:
      --runs <N>    How many runs are drawn, 1 to 1000000 [default: 1000]
      --seed <N>    The seed of the first run; each next run has the next number [default: 1]
      --lend <WHO>  Who decides on a request: banker, or cash, by which a run may end in a deadlock [default: banker]
      --steps <N>   The most steps of a run, as for `record`
      --events      All events count, and not only prints and faults
      --jobs <N>    The most runs that are drawn side by side [default: one for each processor]
  -h, --help        Print help
"""
RUNS, FIRST_SEED, MOST_SEED = 1000, 1, 2**64 - 1
# The second word of the lines of a replay that count, unless all do.
COUNTED = (b"print", b"fault")
# A bar at a terminal is so long at most, and so many outcomes are shown there.
BAR, MOST_SHOWN = 24, 20


@dataclass
class Outcome:
    """What came of some runs: the lines of each, how many there are, and the seed of the first."""

    lines: list[str]
    seed: int
    count: int = 0

    @property
    def told(self) -> str:
        """Returns the lines in one."""
        return "; ".join(self.lines)


@dataclass(frozen=True)
class Sampler:
    """Draws runs of the text that a file has."""

    start: list[str]
    text: str
    options: list[str]
    lending: list[str]
    has_events: bool

    def outcome(self, seed: int) -> bytes:
        """Returns what a replay of the run with this seed writes, as far as it counts; nothing if there was no run."""
        record = [*self.start, "record", "--seed", str(seed), *self.options, *self.lending]
        how = {"stdout": subprocess.PIPE, "stderr": subprocess.DEVNULL}
        with open(self.text, "rb") as given, subprocess.Popen(record, stdin=given, **how) as drawn:
            with subprocess.Popen([*self.start, "replay", *self.lending], stdin=drawn.stdout, **how) as replay:
                assert drawn.stdout and replay.stdout
                # (so that the first ends if the second does)
                drawn.stdout.close()
                told = replay.stdout.read()
        if drawn.returncode not in (0, DEADLOCK):
            return b""
        *events, last = told.splitlines() or [b""]
        return b"\n".join([*(it for it in events if self.has_events or it.split(b" ")[1] in COUNTED), last])


def outcomes(sampler: Sampler, seeds: range, jobs: int) -> list[Outcome]:
    """Draws the runs with these seeds side by side, and returns the outcomes, the most frequent first."""
    found: dict[bytes, Outcome] = {}
    with workers(jobs) as pool:
        for seed, told in zip(seeds, pool.map(sampler.outcome, seeds)):
            it = found.setdefault(told, Outcome(told.decode(errors="replace").splitlines() or ["no run"], seed))
            it.count += 1
    return sorted(found.values(), key=lambda it: -it.count)


def table(found: list[Outcome], runs: int) -> Iterator[str]:
    """Yields a table with bars, for a terminal."""
    width = os.get_terminal_size(sys.stdout.fileno()).columns or 80
    block = "\u2588" if sys.stdout.encoding.lower().startswith("utf") else "#"
    digits = max(len(str(it.count)) for it in found)
    seed_digits = max(len(str(it.seed)) for it in found[:MOST_SHOWN])
    for it in found[:MOST_SHOWN]:
        bar = block * max(1, round(BAR * it.count / runs))
        row = f"{it.count:{digits}} {100 * it.count / runs:5.1f}% {bar:{BAR}} seed {it.seed:<{seed_digits}} {it.told}"
        yield f"{row if len(row) <= width else row[: width - 2] + '..'}\n"
    if len(found) > MOST_SHOWN:
        left = found[MOST_SHOWN:]
        yield f"and {len(left)} other outcomes, {sum(it.count for it in left)} runs\n"


def lines(found: list[Outcome], runs: int) -> Iterator[str]:
    """Yields a line for each outcome."""
    for it in found:
        yield f"{it.count} of {runs}, seed {it.seed}: {it.told}\n"


def read_words(words: list[str]) -> tuple[Given, range, list[str], list[str]]:
    """Reads the words of a call: the options, the seeds, and the words of `record` and of both about who lends."""
    given = read_options(words, ("--runs", "--seed", "--lend", "--steps", "--jobs"), ("--events",))
    if len(given.others) > 1:
        raise WrongWords(f"sample reads one file, and here are {len(given.others)}")
    runs = given.number("--runs", RUNS)
    first = given.number("--seed", FIRST_SEED, 0, MOST_SEED + 1 - runs)
    steps, lending = ([name, given.options[name]] if name in given.options else [] for name in ("--steps", "--lend"))
    return given, range(first, first + runs), steps, lending


def call(start: list[str], words: list[str]) -> int:
    """Draws runs and tells of their outcomes, and returns the status."""
    given, seeds, steps, lending = read_words(words)
    jobs, program = given.number("--jobs", len(os.sched_getaffinity(0))), start[:1]
    first = ["record", "--seed", str(seeds[0]), *steps, *lending]
    if are_refused(program, first):
        return WORDS
    name = given.others[0] if given.others else None
    if "--quiet" not in start:
        advise("run", words, name)
    if name:
        give_file(name)
    else:
        tell_what_it_awaits("run")
    with tempfile.NamedTemporaryFile(prefix="parbegin-sample-") as text:
        text.write(read_input())
        text.flush()
        with open(text.name, "rb") as same:
            tried = subprocess.run([*start, *first], stdin=same, stdout=subprocess.PIPE, check=False)
        if tried.returncode not in (0, DEADLOCK):
            return write(tried.stdout) or tried.returncode
        found = outcomes(Sampler(program, text.name, steps, lending, "--events" in given.options), seeds, jobs)
    if sys.stdout.isatty():
        if "--quiet" not in start:
            say(f"{len(seeds)} runs of {shown(name or 'the input')}, drawn with the seeds {seeds[0]} to {seeds[-1]}")
        return write("".join(table(found, len(seeds))))
    return write("".join(lines(found, len(seeds))))
