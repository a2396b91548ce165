#!/usr/bin/env python3
"""Times what a stretch costs beside its picks (the take, the commit, the lock for both and the span), and
four workers beside one.

A scratch repository in a temporary folder gets copies of the crates and a small proved program, which runs
code that it makes. The code counts, by rounds of nine silent picks, 10,000,000 picks in all. The program says
the time of each round, by the clock; the least of all rounds counts, with the calls turn by turn. The bare
loop takes one stretch for all picks and calls `Stretch::run` with 64, or with 4096, again and again; the other
calls are `run_workers`. What a stretch costs is the difference of the two at quantum 64, by the number of
stretches. The rows are

one arm        a process of one arm and one integer
long code      the same, with 30,000 instructions more that are never reached
16 arms        the same, with 16 arms, of which 15 never begin
four           four processes of one arm and one integer
four compute   four processes of one arm and one integer that do not count: they multiply, add and take the
               rest, nine silent picks a round as well

Then come whole calls of the program with one round, from its start to its exit, in processor time (user and
system); one worker, two and four at quantum 4096 on the four processes; and bare loops at once, each in a process of
its own on a processor of its own, which is how much the processors can do together. Of the last two the least of all
rounds is shown, and the middle.

Wants `rt`.

    python3 benches/stretches.py [TURNS [BEFORE]]

A further word is the program of another tree, as this script builds it, for rows of it beside those of this
one.
"""
import os
import statistics
import subprocess
import sys

from scratch import build_proved, least_of_rows, print_table, said, scratch_folder

TURNS = int(sys.argv[1]) if len(sys.argv) > 1 else 15
BEFORE = sys.argv[2] if len(sys.argv) > 2 else None
PICKS, ROUNDS = 10_000_000, 5
SHORT, LONG = 64, 4096
NEEDS = ["pb_base", "pb_code", "pb_verifier", "pb_history", "pb_shared", "pb_workers", "anyhow"]

MAIN = """\
//! Runs one or four processes that count, and says the nanoseconds of each round and how many picks there were.
//! Its words are whether they compute (1) or count (0), how many processes there are, how many instructions follow
//! that are never reached, how many arms each has besides the first, how many workers there are (0: one stretch
//! alone), the quantum, the limit and the rounds.
#![tactic(auto)]

ghost use Rattle.std.specs.Prelude.{◌≡◌, ◌<◌, ◌≤◌};

use pb_base::{Capital, Claims, Names, NoMemory};
use pb_code::{Code, Instr, ProcessCode};
use pb_shared::{Book, CodeBrand, Taken};
use pb_verifier::{Verified, verify};
use pb_workers::{Gate, run_workers};
use std::alloc::Global;
use std::marker::Brand;
use std::process::ExitCode;
use std::time::Instant;

/// A gate that is open.
struct Open;

impl Gate for Open {
    fn between(&self, _worker: usize, _turn: u64) {}
}

/// Counts by rounds of nine picks.
const COUNT: [Instr; 9] = [
    Instr::Load(0),
    Instr::Push(100_000_000),
    Instr::Lt,
    Instr::JumpIfZero(9),
    Instr::Load(0),
    Instr::Push(1),
    Instr::Add,
    Instr::Store(0),
    Instr::Jump(0),
];

/// Computes by rounds of nine picks, for ever.
const COMPUTE: [Instr; 9] = [
    Instr::Load(0),
    Instr::Push(5),
    Instr::Mul,
    Instr::Push(3),
    Instr::Add,
    Instr::Push(1_000_003),
    Instr::Mod,
    Instr::Store(0),
    Instr::Jump(0),
];

/// The code of a process that counts, and at the end forks the other arms and waits for them, or of one that computes.
fn process(alloc: Global, computes: bool, idle: u16, arms: u8) -> Result<ProcessCode, NoMemory> {
    let mut instrs = Vec::from_slice(alloc, if computes { &COMPUTE } else { &COUNT })?;
    if arms > 0 {
        instrs.push(Instr::Fork { first: 1, count: arms })?;
        instrs.push(Instr::Join { first: 1, count: arms })?;
    }
    instrs.push(Instr::End)?;
    let mut entries = Vec::new(alloc);
    entries.push(0u16)?;
    let mut entry = 12u16;
    for _ in 0..arms {
        instrs.push(Instr::End)?;
        entries.push(entry)?;
        entry = entry.saturating_add(1);
    }
    for _ in 0..idle {
        instrs.push(Instr::Jump(0))?;
    }
    Ok(ProcessCode { integers: 1, entries, bundles: Vec::new(alloc), instrs })
}

/// The verified code of one such process, or of four.
fn verified(alloc: Global, computes: bool, four: bool, idle: u16, arms: u8) -> Result<Option<Verified>, NoMemory> {
    let mut processes = Vec::new(alloc);
    let mut names = Vec::new(alloc);
    for name in if four { b"abcd".as_slice() } else { b"a".as_slice() } {
        processes.push(process(alloc, computes, idle, arms)?)?;
        names.push(Vec::from_slice(alloc, &[*name])?)?;
    }
    let claims = if four {
        Claims::new(alloc, &[&[], &[], &[], &[]])?
    } else {
        Claims::new(alloc, &[&[]])?
    };
    let code = Code {
        names: Names { processes: names, resources: Vec::new(alloc) },
        capital: Capital::new(alloc, &[])?,
        claims,
        processes,
    };
    Ok(verify(alloc, code).ok())
}

/// Makes picks of one stretch by runs of at most `max`, one after another, with no book between them. Returns how many
/// were made.
fn bare<C: CodeBrand>(alloc: Global, code: &Verified, max: u32, limit: u32) -> u32
    requires brand { code.now ≡ C.code }
    requires max { 0 < max }
    requires some { 0 < limit }
    requires limit { limit ≤ 10000000 }
{
    let mut book: Book<'_, C> = match Book::new(alloc, code, limit) {
        Ok(book) => book,
        Err(_) => return 0,
    };
    let mut stretch = match book.take(alloc, limit) {
        Ok(Taken::Work(stretch)) => stretch,
        Ok(Taken::Idle) => return 0,
        Ok(Taken::Over(_)) => return 0,
        Err(_) => return 0,
    };
    for _ in 0..limit / max + 1 {
        let _ = stretch.run(max);
    }
    let made = stretch.made();
    stretch.forfeit();
    made
}

fn main(rt: HostRuntime) -> anyhow::Result<ExitCode> {
    let alloc = rt.alloc();
    let words: Vec<String> = std::env::args(&rt)?.collect(alloc)?;
    if words.len() < 9 {
        return Ok(ExitCode::FAILURE);
    }
    let computes = words[1].as_str().parse::<u8>()?;
    let processes = words[2].as_str().parse::<u8>()?;
    let idle = words[3].as_str().parse::<u16>()?;
    let arms = words[4].as_str().parse::<u8>()?;
    let workers = words[5].as_str().parse::<usize>()?;
    let quantum = words[6].as_str().parse::<u32>()?;
    let limit = words[7].as_str().parse::<u32>()?;
    let rounds = words[8].as_str().parse::<u64>()?;
    let Ok(Some(code)) = verified(alloc, computes == 1, processes == 4, idle, arms) else {
        return Ok(ExitCode::FAILURE);
    };
    if quantum == 0 || limit == 0 || limit > 10_000_000 {
        return Ok(ExitCode::FAILURE);
    }
    for _ in 0..rounds {
        let start = Instant::now(&rt)?;
        let made = if workers == 0 {
            bare::<Brand>(alloc, &code, quantum, limit)
        } else {
            match run_workers(&rt, alloc, &code, workers, quantum, limit, &Open) {
                Ok(report) => report.trace.len(),
                Err(_) => 0,
            }
        };
        let taken = start.elapsed(&rt)?;
        println!(rt; "{} {}", taken.as_nanos(), made)?;
    }
    Ok(ExitCode::SUCCESS)
}
"""

GHOSTS = """\
use Rattle.bench.proofs.main.Given as goal

abbrev pub ghosts-bare : goal.ghosts-bare
ghosts-bare g a = record { code = a.code.now }
"""

# each with whether it computes, how many processes there are, how many instructions are never reached, and how many
# arms there are besides the first of each process
SHAPES = {"one arm": (0, 1, 0, 0), "long code": (0, 1, 30_000, 0), "16 arms": (0, 1, 0, 15), "four": (0, 4, 0, 0)}
COMPUTING = ((1, 1, 0, 0), (1, 4, 0, 0))
WORKERS = (1, 2, 4)


def clock(program, shape, workers, quantum):
    """The least time of a round in milliseconds."""
    least, (made,) = least_of_rows(said([program, *shape, workers, quantum, PICKS, ROUNDS]), 2)
    if int(made) != PICKS:
        raise SystemExit("the run made other picks")
    return least / 1e6


def whole(program, shape, workers, quantum):
    """The processor time of a call with one round, in milliseconds."""
    words = [str(word) for word in (program, *shape, workers, quantum, PICKS, 1)]
    process = subprocess.Popen(words, stdin=subprocess.DEVNULL, stdout=subprocess.DEVNULL)
    _, status, used = os.wait4(process.pid, 0)
    if status != 0:
        raise SystemExit("the run failed")
    return (used.ru_utime + used.ru_stime) * 1e3


def rounds(call):
    """The times of the rounds of a call that was started, in milliseconds."""
    words = call.communicate()[0].split()
    if {int(made) for made in words[1::2]} != {PICKS}:
        raise SystemExit("the run made other picks")
    return [int(taken) / 1e6 for taken in words[0::2]]


def start(program, shape, workers, processor=None):
    """Starts a call at quantum 4096, on one processor if it is given."""
    words = [str(word) for word in (program, *shape, workers, LONG, PICKS, ROUNDS)]
    pinned = (lambda: os.sched_setaffinity(0, {processor})) if processor is not None else None
    return subprocess.Popen(words, stdout=subprocess.PIPE, preexec_fn=pinned)


def at_once(program, shape, count):
    """The times of the rounds of this number of bare loops at once: of each round that of the slowest."""
    calls = [start(program, shape, 0, processor) for processor in range(count)]
    return [max(times) for times in zip(*map(rounds, calls))]


def together(program, one, four):
    """The times of all rounds of one, two and four workers, and of bare loops at once, turn by turn."""
    workers, bare = ([[] for _ in WORKERS] for _ in range(2))
    for _ in range(TURNS):
        for number, by_workers, by_loops in zip(WORKERS, workers, bare):
            by_workers += rounds(start(program, four, number))
            by_loops += at_once(program, one, number)
    return workers, bare


def least_of(calls):
    """The least of each of these calls, which are made turn by turn."""
    best = [float("inf")] * len(calls)
    for _ in range(TURNS):
        best = [min(least, call()) for least, call in zip(best, calls)]
    return best


def beside_bare(name, time, programs, shape):
    """Rows of one shape, one for each program, beside the bare loop."""
    calls = [lambda p=p, w=w, q=q: time(p, shape, w, q)
             for p in programs.values() for w in (0, 1) for q in (SHORT, LONG)]
    best = least_of(calls)
    rows = []
    for i, label in enumerate(programs):
        bare_short, bare_long, short, long = best[4 * i:4 * i + 4]
        rows.append([f"{name}{label}", bare_short, short, short / bare_short, bare_long, long, long / bare_long,
                     (short - bare_short) * 1e6 * SHORT / PICKS])
    return rows


def main():
    with scratch_folder() as folder:
        program = build_proved(folder, NEEDS, {"src/main.rt": MAIN, "proofs/main/Invariants.antt": GHOSTS})
        programs = {"": program} | ({", before": BEFORE} if BEFORE else {})
        head = ["process", f"bare loop of {SHORT}, milliseconds", f"quantum {SHORT}", "ratio",
                f"bare loop of {LONG}", f"quantum {LONG}", "ratio", "nanoseconds a stretch"]
        print_table(head, [row for name, shape in SHAPES.items() for row in beside_bare(name, clock, programs, shape)])
        print_table(["whole calls"] + head[1:], beside_bare("one arm", whole, programs, SHAPES["one arm"]))
        rows = []
        counting = (SHAPES["one arm"], SHAPES["four"])
        for name, of in (("count", counting), ("compute", COMPUTING)):
            for label, p in programs.items():
                workers, bare = together(p, *of)
                for title, take in (("least", min), ("middle", statistics.median)):
                    alone, two, all_four = map(take, workers)
                    faster = [alone / two, alone / all_four]
                    rows.append([f"four that {name}{label}", title, alone, two, all_four, *faster])
                    alone, two, all_four = map(take, bare)
                    faster = [2 * alone / two, 4 * alone / all_four]
                    rows.append([f"bare loops that {name}", title, alone, two, all_four, *faster])
        print_table(["by the clock, milliseconds", "round", "one", "two", "four", "two by one", "four by one"], rows)


if __name__ == "__main__":
    main()
