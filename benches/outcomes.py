#!/usr/bin/env python3
"""Times `outcomes` beside SPIN's compiled verifier on the programs of benches/outcomes, each with its model in Promela.

A model was written by hand with a transition for each pick of its program. Both search the whole space of what is reached,
one after the other in one run; processor time of a whole call, user and system, is taken, the least of all turns, and the
greatest resident memory. SPIN is run twice: with no reduction (`spin -o3 -a`, `-DNOREDUCE`), and with its own (`spin -a`).
parbegin keeps a configuration only where a pick leads that another arm or process can tell: what lies between is made at once,
and does not count.

Then come programs of three processes of two integers each, made here, with the memory that parbegin takes for each
configuration of them: the greatest resident memory of a call, all that the program needs included.

Wants the built program, `spin` and `gcc` (Debian's packages). A search of SPIN that takes longer than a minute is left out.

    python3 benches/outcomes.py [TURNS [memory]]

With the word `memory` it is the second table alone, which wants neither of the packages.
"""
import os
import pathlib
import resource
import subprocess
import sys
import tempfile

from scratch import print_table

TURNS = int(sys.argv[1]) if len(sys.argv) > 1 else 5
TOP = pathlib.Path(__file__).resolve().parent.parent
PROGRAM = TOP / "script/tools.sh"
MODELS = TOP / "benches/outcomes"
NAMES = ("counters", "adders", "peterson", "philosophers", "buffer", "readers", "updates", "ten")
MOST_STATES = 4_000_000
LONGEST = 60


def timed(words, given=b""):
    """Returns what a call wrote, its seconds of processor time and its greatest memory in bytes; none if it takes too long."""
    with tempfile.TemporaryFile() as text, tempfile.TemporaryFile() as written:
        text.write(given)
        text.seek(0)
        limit = lambda: resource.setrlimit(resource.RLIMIT_CPU, (LONGEST, LONGEST))
        child = subprocess.Popen(words, stdin=text, stdout=written, stderr=subprocess.DEVNULL, preexec_fn=limit)
        _, status, used = os.wait4(child.pid, 0)
        child.returncode = os.waitstatus_to_exitcode(status)
        if child.returncode < 0:
            return None
        written.seek(0)
        return written.read(), used.ru_utime + used.ru_stime, 1024 * used.ru_maxrss


def least(words, given=b""):
    """Returns what the calls wrote, and the least time and memory of all turns."""
    found = [timed(words, given) for _ in range(TURNS)]
    return found[0] and (found[0][0], min(it[1] for it in found), min(it[2] for it in found))


def outcomes(states=MOST_STATES):
    return [str(PROGRAM), "outcomes", "--states", str(states)]


def configurations(text):
    """Returns the least number of configurations with which the search ends."""
    low, high = 1, MOST_STATES
    while low < high:
        middle = (low + high) // 2
        ran = subprocess.run(outcomes(middle), input=text, stdout=subprocess.PIPE, check=False)
        low, high = (low, middle) if ran.returncode == 0 else (middle + 1, high)
    return low


def verifier(folder, name, reduces):
    """Returns the path of SPIN's verifier of a model."""
    room = folder / f"{name}_{reduces}"
    room.mkdir()
    model = MODELS / f"{name}.pml"
    quiet = {"cwd": room, "check": True, "stdout": subprocess.DEVNULL}
    subprocess.run(["spin", *([] if reduces else ["-o3"]), "-a", model], **quiet)
    subprocess.run(["gcc", "-O2", "-DSAFETY", *([] if reduces else ["-DNOREDUCE"]), "-o", "pan", "pan.c"], **quiet)
    return room / "pan"


def stored(written):
    """Returns how many states a verifier says that it has stored."""
    return int(next(it for it in written.decode().splitlines() if it.endswith("states, stored")).split()[0])


def rows(folder):
    for name in NAMES:
        text = (MODELS / f"{name}.pb").read_bytes()
        count = configurations(text)
        _, seconds, memory = least(outcomes(), text)
        yield name, "parbegin", f"{count:,}", f"{seconds:.3f}", f"{count / seconds / 1e6:.2f}", f"{memory / 1e6:.0f}", ""
        for reduces, title in ((False, "SPIN, no reduction"), (True, "SPIN, with its own")):
            found = least([str(verifier(folder, name, reduces)), "-m1000000"])
            if not found:
                yield name, title, f"over {LONGEST} s", "", "", "", ""
                continue
            written, other, used = found
            states = stored(written)
            rate = f"{states / other / 1e6:.2f}"
            yield name, title, f"{states:,}", f"{other:.3f}", rate, f"{used / 1e6:.0f}", f"{seconds / other:.2f}"


def sharing(rounds):
    """Returns three processes that hold a unit of one resource of two, by turns, and add."""
    one = "process {0}\nbegin integer n, sum; while n < {1} do n := n + 1; hold 1 of disk do sum := sum + n od od end\n"
    return "resource disk = 2;\n" + "".join(one.format(name, rounds) for name in "abc")


def dining(rounds):
    """Returns three philosophers."""
    one = ("process {0}\nbegin integer n, sum; while n < {3} do n := n + 1; "
           "hold 1 of {1} do hold 1 of {2} do sum := sum + n od od od end\n")
    forks = "".join(f"resource {fork} = 1;\n" for fork in ("f", "g", "h"))
    return forks + "".join(one.format(name, *hands, rounds) for name, hands in zip("abc", ("fg", "gh", "hf")))


def memory_rows():
    for title, text in [(f"one resource of two units, {rounds} rounds", sharing(rounds)) for rounds in (20, 30)] + [
        (f"three philosophers, {rounds} rounds", dining(rounds)) for rounds in (16, 20)]:
        count = configurations(text.encode())
        _, seconds, memory = least(outcomes(), text.encode())
        yield title, f"{count:,}", f"{seconds:.2f}", f"{memory / 1e6:.1f}", f"{memory / count:.1f}"


def main():
    if not PROGRAM.exists():
        sys.exit("the program is not built: ./parbegin builds it")
    heads = ("Program", "By", "Configurations", "Seconds", "Million a second", "MB", "parbegin's time by SPIN's")
    with tempfile.TemporaryDirectory(prefix="parbegin-outcomes-") as folder:
        if sys.argv[2:] != ["memory"]:
            print_table(heads, rows(pathlib.Path(folder)))
            print()
    print_table(("Program", "Configurations", "Seconds", "MB", "Bytes a configuration"), memory_rows())


main()
