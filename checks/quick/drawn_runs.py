#!/usr/bin/env python3
"""Makes runs that the script draws, and compares them with what `record` and `replay` of the program say.

    checks/quick/drawn_runs.py [PROGRAM]     PROGRAM is the one that ./parbegin has built if none is given

`run --seed` and `run --lend` over the examples, in lines and in JSON, and the counts of `sample`. Its status is 0 if all is
as wanted, and 1 if not.
"""
from __future__ import annotations

import collections
import pathlib
import re
import subprocess
import sys
import tempfile

sys.path.insert(0, str(pathlib.Path(__file__).resolve().parents[1] / "lib"))

from calls import DEADLOCK, DEVICE, DONE, EXAMPLES, FAULT, LIMIT, REFUSED, TOP, WORDS, Tally, call, installed  # noqa: E402
from pseudo_terminal import Terminal  # noqa: E402

LOOP = "process p begin print 1 end\nprocess q begin integer x; while 1 do x := x + 1 od end\n"
RUNS = 40


class Script:
    """The script, as it is installed, in a folder with some texts."""

    def __init__(self, folder: pathlib.Path) -> None:
        self.script, self.folder = installed(folder / "installed"), folder
        for name in ("devices.pb", "lost.pb", "1-arms/fault.pb"):
            (folder / pathlib.Path(name).name).write_bytes((TOP / "examples" / name).read_bytes())
        (folder / "loop.pb").write_text(LOOP)
        (folder / "wrong.pb").write_text("process p begin x := 1 end\n")
        arms = ";\n".join(["while 1 do skip od"] * 16)
        (folder / "long.pb").write_text(f"process p begin\nparbegin {arms} parend\nend\n")

    def run(self, *words: str, given: bytes = b"") -> tuple[int, bytes, str]:
        """Calls the script, and returns its status and what it wrote on both."""
        ran = subprocess.run([self.script, *words], cwd=self.folder, input=given, capture_output=True, check=False)
        return ran.returncode, ran.stdout, ran.stderr.decode()


def drawn(text: bytes, seed: int, lending: list[str], *words: str) -> tuple[int, bytes]:
    """Returns the status and the lines of a run that the program draws and replays."""
    recorded = call(["record", "--seed", str(seed), *words, *lending], text)[1]
    return call(["--quiet", "replay", *lending], recorded)


def try_examples(tally: Tally, it: Script) -> None:
    """Draws a run of each example, by the banker and by the cash alone."""
    for file in EXAMPLES:
        text = file.read_bytes()
        for lending in ([], ["--lend", "banker"], ["--lend", "cash"]):
            status, told, _ = it.run("run", "--seed", "5", *lending, str(file))
            tally.expect((status, told) == drawn(text, 5, lending), file.name, lending, "is another run", told)
        status, told, _ = it.run("--json", "run", "--seed=5", str(file))
        recorded = call(["record", "--seed", "5"], text)[1]
        tally.expect((status, told) == call(["--quiet", "--json", "replay"], recorded), file.name, "in JSON", told)
        status, told, _ = it.run("run", str(file), "--lend", "cash")
        tally.expect((status, told) == drawn(text, 1, ["--lend", "cash"]), file.name, "without a seed", told)
        status, told, _ = it.run("run", "--lend", "banker", str(file))
        tally.expect((status, told) == call(["--quiet", "run"], text), file.name, "by the banker, without a seed", told)
        tally.expect(it.run("run", "--seed", "5", given=text)[1] == drawn(text, 5, [])[1], file.name, "on standard input")


def try_ends(tally: Tally, it: Script) -> None:
    """Tries runs that end otherwise: by their steps, in a fault, in a deadlock, with a refusal."""
    status, told, said = it.run("run", "--seed", "1", "--steps", "50", "loop.pb")
    own = call(["--quiet", "run", "--steps", "0"], LOOP.encode())
    tally.expect(status == LIMIT == own[0] and told.endswith(b"\nlimit 50\n") and said.startswith("limit steps: "), "a limit", told, said)
    tally.expect(it.run("--json", "run", "--seed", "1", "--steps", "50", "loop.pb")[1].endswith(b'\n{"kind":"limit","limit":50}\n'), "a limit in JSON")
    tally.expect(it.run("--quiet", "run", "--seed", "1", "--steps", "50", "loop.pb")[2] == "", "a limit is not quiet")
    status, told, said = it.run("run", "--seed", "1", "fault.pb")
    tally.expect(status == FAULT and b" fault divide\n" in told and "parbegin record --seed 1 FILE" in said, "a fault", told, said)
    deadlocks = [it.run("run", "--seed", str(seed), "--lend", "cash", "devices.pb") for seed in range(1, 13)]
    tally.expect({status for status, _, _ in deadlocks} == {DONE, DEADLOCK}, "deadlocks", deadlocks)
    tally.expect(all((status == DEADLOCK) == told.endswith(b"\ndeadlock\n") for status, told, _ in deadlocks), "the lines of deadlocks")
    status, told, said = it.run("run", "--seed", "1", "wrong.pb")
    tally.expect((status, told) == (REFUSED, b"refused N3 at 16\n") and said.startswith("error N3: "), "a refused text", told, said)
    tally.expect(it.run("--json", "run", "--seed", "1", "wrong.pb")[1] == b'{"kind":"refused","code":"N3","at":16}\n', "a refused text in JSON")
    status, told, said = it.run("run", "--seed", "1", "long.pb")
    tally.expect((status, told) == (REFUSED, b"refused output\n") and "--steps N allows fewer" in said, "a run too long to be kept", told, said)


def try_words(tally: Tally, it: Script) -> None:
    """Tries words that are refused, and files that are not there."""
    for words, wanted, part in [
        (["run", "--seed", "x", "lost.pb"], WORDS, "invalid value 'x'"), (["run", "--seed", "1", "nosuch.pb"], DEVICE, "no such file"),
        (["run", "--seed", "1", "--seed", "2", "lost.pb"], WORDS, "multiple times"), (["run", "--seed"], WORDS, "--seed"),
        (["run", "--lend", "till", "lost.pb"], WORDS, "banker or cash"), (["run", "--seed", "1", "lost.pb", "loop.pb"], WORDS, "reads one file"),
        (["--unproved", "run", "--seed", "1", "lost.pb"], WORDS, "record draws a run"),
        (["sample", "--runs", "0", "lost.pb"], WORDS, "'--runs'"), (["sample", "--seed", "-1", "lost.pb"], WORDS, "'--seed'"),
        (["sample", "--lend", "till", "lost.pb"], WORDS, "banker or cash"), (["sample", "lost.pb", "loop.pb"], WORDS, "reads one file"),
        (["sample", "nosuch.pb"], DEVICE, "no such file"), (["sample", "--fly", "lost.pb"], WORDS, "'--fly'"),
        (["sample", "--json", "lost.pb"], WORDS, "--json"), (["sample", "wrong.pb"], REFUSED, "error N3: "),
    ]:
        status, told, said = it.run(*words)
        tally.expect(status == wanted and part in said and (not told or status == REFUSED), words, status, told, said)


def counted(text: bytes, seeds: range, lending: list[str], has_events: bool) -> collections.Counter:
    """Returns how often the program comes to each outcome."""
    found: collections.Counter = collections.Counter()
    for seed in seeds:
        *events, last = drawn(text, seed, lending)[1].decode().splitlines()
        found["; ".join([*(line for line in events if has_events or re.search(r" (print|fault) ", line)), last])] += 1
    return found


def try_samples(tally: Tally, it: Script) -> None:
    """Compares counts, and the first seed of each outcome."""
    for name, lending, events in [("lost.pb", [], []), ("devices.pb", ["--lend", "cash"], []), ("devices.pb", [], ["--events"])]:
        text, seeds = (it.folder / name).read_bytes(), range(7, 7 + RUNS)
        words = ["sample", "--runs", str(RUNS), "--seed", "7", *lending, *events]
        status, told, said = it.run(*words, name)
        lines = [re.fullmatch(rf"(\d+) of {RUNS}, seed (\d+): (.*)", line) for line in told.decode().splitlines()]
        found = collections.Counter({line[3]: int(line[1]) for line in lines if line})
        tally.expect(status == DONE and said == "" and all(lines), words, "writes", told, said)
        tally.expect(found == counted(text, seeds, lending, bool(events)), words, "counts", found)
        counts = [int(line[1]) for line in lines if line]
        tally.expect(counts == sorted(counts, reverse=True), "the order of outcomes", counts)
        for line in filter(None, lines):
            tally.expect(counted(text, range(int(line[2]), int(line[2]) + 1), lending, bool(events)) == {line[3]: 1}, "a seed of", line[0])
        tally.expect(it.run(*words, given=text)[1] == told and it.run(*words, "--jobs", "1", name)[1] == told, words, "says another thing")
    terminal = Terminal([it.script, "sample", "--runs", str(RUNS), "lost.pb"], str(it.folder), 60)
    status, rows = terminal.end(), terminal.shown.splitlines()
    is_table = rows[0] == f"parbegin: {RUNS} runs of lost.pb, drawn with the seeds 1 to {RUNS}" and len(rows) == 3
    tally.expect(status == DONE and is_table and all(len(row) <= 60 for row in rows[1:]), "a table", terminal.shown)
    tally.expect(sum(int(row.split()[0]) for row in rows[1:]) == RUNS, "the counts of a table", terminal.shown)


def main() -> None:
    tally = Tally()
    with tempfile.TemporaryDirectory(prefix="parbegin-drawn-runs-") as name:
        it = Script(pathlib.Path(name))
        for attempt in (try_examples, try_ends, try_words, try_samples):
            attempt(tally, it)
    tally.end("drawn runs")


main()
