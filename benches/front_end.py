#!/usr/bin/env python3
"""Times the parts of the proved compiler: lexer and parser beside ones in plain Rust and beside `luac5.4 -p`, turn by
turn in one run; and the resolving of names with the inference of claims, and the generating of code, beside parsing.

A scratch repository in a temporary folder gets copies of the crates and a small proved program, which does one part
again and again on a text. Wants `rt`, `rustc`, `luac5.4` and `valgrind`. Says megabytes a second, and million
instructions of the processor a round.
"""
import time

from scratch import build_plain, build_proved, instructions_a_round, least, least_of_rows, print_table, said, \
    scratch_folder

ROUNDS = 60
TURNS = 9
SIZE = 65_536

MAIN = """\
//! Does one part of the compiler with the text that it is given, again and again, and says how long each round took.
#![tactic(auto)]

ghost use Rattle.pb_codegen.specs.Numbered.{IsSpelled};
ghost use Rattle.pb_names.specs.Ready.{IsComplete};
ghost use Rattle.pb_names.specs.View.{resolved_view};
ghost use Rattle.pb_tree.specs.View.{program_view};

use pb_claims::infer;
use pb_codegen::{Analysis, analyze};
use pb_generator::generate;
use pb_lexer::lex;
use pb_names::is_complete;
use pb_parser::parse;
use pb_resolver::resolve;
use pb_tree::Program;
use std::alloc::Global;
use std::io::Read;
use std::process::ExitCode;
use std::time::Instant;

/// The number of nodes of the text, if it is a program.
fn nodes_of(alloc: Global, text: &[u8]) -> u64 {
    let Ok(tokens) = lex(alloc, text) else {
        return 0;
    };
    match parse(alloc, tokens.as_slice()) {
        Ok(program) => program.nodes(),
        Err(_) => 0,
    }
}

/// Whether the text is a program.
fn parses(alloc: Global, text: &[u8]) -> bool {
    match lex(alloc, text) {
        Ok(tokens) => parse(alloc, tokens.as_slice()).is_ok(),
        Err(_) => false,
    }
}

/// Whether the names of the tree are right, and there was memory for its claims.
fn resolves(alloc: Global, tree: &Program<Global>) -> bool
    requires { IsComplete (program_view tree.now) }
{
    match resolve(alloc, tree) {
        Ok(program) => infer(alloc, &program).is_ok(),
        Err(_) => false,
    }
}

/// Whether there was memory for the code of the program.
fn generates(alloc: Global, analysis: &Analysis<Global>) -> bool
    requires { IsSpelled (resolved_view analysis.now.program) analysis.now.claims }
{
    generate(alloc, &analysis.program, &analysis.claims).is_ok()
}

fn main(rt: HostRuntime) -> anyhow::Result<ExitCode> {
    let alloc = rt.alloc();
    let words: Vec<String> = std::env::args(&rt)?.collect(alloc)?;
    if words.len() < 3 {
        return Ok(ExitCode::FAILURE);
    }
    let rounds = words[2].as_str().parse::<u64>()?;
    let mut text = Vec::new(alloc);
    rt.stdin().read_to_end(&mut text)?;
    let nodes = nodes_of(alloc, text.as_slice());
    let Ok(tokens) = lex(alloc, text.as_slice()) else {
        return Ok(ExitCode::FAILURE);
    };
    let Ok(tree) = parse(alloc, tokens.as_slice()) else {
        return Ok(ExitCode::FAILURE);
    };
    let Ok(analysis) = analyze(alloc, alloc, text.as_slice()) else {
        return Ok(ExitCode::FAILURE);
    };
    if !is_complete(&tree) {
        return Ok(ExitCode::FAILURE);
    }
    for _ in 0..rounds {
        let start = Instant::now(&rt)?;
        let done = match words[1].as_str() {
            "parse" => parses(alloc, text.as_slice()),
            "resolve" => resolves(alloc, &tree),
            "generate" => generates(alloc, &analysis),
            _ => false,
        };
        let taken = start.elapsed(&rt)?;
        if !done {
            return Ok(ExitCode::FAILURE);
        }
        println!(rt; "{} {nodes}", taken.as_nanos())?;
    }
    Ok(ExitCode::SUCCESS)
}
"""

ANSWERS = """\
use Rattle.pb_names.specs.View.{resolved_view}
use Rattle.pb_codegen.proofs.VerifiedProcesses.{generatable}
use Rattle.bench.proofs.generates.Goals as goal

pub generate-requires : goal.generate-requires
generate-requires c =
    let is = c.requires.1 in
    generatable is.tree (resolved_view c.args.analysis.now.program) is.spelled.limits is.numbered
"""

FILES = {"src/main.rt": MAIN, "proofs/generates/Answers.antt": ANSWERS}
NEEDS = ["pb_base", "pb_claims", "pb_codegen", "pb_generator", "pb_grammar", "pb_lexer", "pb_names", "pb_parser", "pb_resolver"]
NEEDS += ["pb_tree", "anyhow"]


def filled(head, pieces, tail, size=SIZE):
    """A text of as many pieces as there is room for, and blanks up to its end."""
    text = head
    for piece in pieces:
        if len(text) + len(piece) + len(tail) > size:
            break
        text += piece
    return text + tail + "\n" * (size - len(text) - len(tail))


def short_names(size=SIZE):
    return filled("process p begin integer a, b;\n", ("        a := b + 1;\n" for _ in range(size)), "skip end", size)


def texts():
    """Four texts of 65,536 bytes, each within the limits of a tree."""
    names = [f"the_total_of_process_number_{i}" for i in range(64)]
    long_head = "process p begin integer " + ", ".join(names) + ";\n"
    long = (f"{names[i % 64]} := {names[i % 63]};\n" for i in range(SIZE))
    deep = "if a then begin while b do\n" * 45 + "x := " + "(" * 90 + "1" + ")" * 90 + "\n" + "od end fi\n" * 45 + ";\n"
    flat = (f"print {i};\n" for i in range(1_000_000, 1_000_000 + SIZE))
    return {
        "short names": short_names(),
        "long names": filled(long_head, long, "skip end"),
        "deep": filled("process p begin integer a, b, x;\n", (deep for _ in range(SIZE)), "skip end"),
        "flat": filled("process p begin\n", flat, "skip end"),
    }


def many_processes(integers):
    """A text of 65,536 bytes of 64 processes, which all declare so many integers and use them in turn, as often
    whatever their number."""
    text = ""
    for p in range(64):
        names = [f"v{i:02}" for i in range(integers)]
        head = f"process p{p} begin integer {', '.join(names)};\n".ljust(350)
        uses = (f"{names[i % integers]}:={names[5 * i % integers]}+{names[7 * i % integers]};\n" for i in range(SIZE))
        text += filled(head, uses, "skip end\n", SIZE // 64)
    return text


def lua():
    """A text of the same size in Lua."""
    lines = ["local a, b = 1, 2\n"]
    while sum(map(len, lines)) + 16 <= SIZE:
        lines.extend(["        a = b + 1;\n"] * 64)
    return "".join(lines)[:SIZE].rsplit("\n", 1)[0] + "\n"


def part_time(words, text):
    """The least nanoseconds of a round, with the count of nodes."""
    return least_of_rows(said([*words, ROUNDS], text.encode()), 2)


def luac_time(path):
    """Nanoseconds of a call of `luac5.4 -p`."""
    start = time.perf_counter_ns()
    said(["luac5.4", "-p", path])
    return time.perf_counter_ns() - start, ()


def print_luac(folder):
    """`luac5.4 -p` on a text of the same size in Lua, its start taken off: its least time for an empty text."""
    for name, text in (("empty.lua", ""), ("full.lua", lua())):
        (folder / name).write_text(text)
    calls = [lambda name=name: luac_time(folder / name) for name in ("empty.lua", "full.lua")]
    empty, full = least(40 * TURNS, calls)
    print(f"luac5.4 -p: {len(lua()) * 1e3 / (full - empty):.1f} MB a second\n", flush=True)


def print_parsing(proved, plain):
    """Lexer and parser beside the twin."""
    rows = []
    for kind, text in texts().items():
        both = [proved, "parse"], [plain]
        ours, twin = least(TURNS, [lambda words=words: part_time(words, text) for words in both])
        counted = [instructions_a_round(words, text.encode()) / 1e6 for words in both]
        speeds = [len(text) * 1e3 / ours, len(text) * 1e3 / twin]
        rows.append([kind, *speeds, ours / twin, *counted, counted[0] / counted[1]])
    head = ["text", "proved, MB a second", "plain Rust", "ratio of times"]
    print_table(head + ["proved, million instructions", "plain Rust", "ratio"], rows)


def print_parts(proved, kinds, parts):
    """For each text million instructions and microseconds a round of the parts, the first of which is parsing."""
    rows = []
    for kind, text in kinds.items():
        counted = [instructions_a_round([proved, part], text.encode()) / 1e6 for part in parts]
        times = least(TURNS, [lambda part=part: part_time([proved, part], text) for part in parts])
        row = [kind]
        for million, taken in zip(counted, times):
            row += [million, taken / 1e3]
        rows.append(row + [counted[1] / counted[0], times[1] / times[0]])
    head = ["text"]
    for part in parts:
        head += [f"{part}, million instructions", "microseconds"]
    print_table(head + ["ratio of instructions", "of times"], rows)


def main():
    with scratch_folder() as folder:
        proved, plain = build_proved(folder, NEEDS, FILES), build_plain(folder, "front_end")
        print_parsing(proved, plain)
        print_luac(folder)
        named = {"short names": short_names(), "64 processes of 64 integers": many_processes(64),
                 "64 processes of 8 integers": many_processes(8), "64 processes of 2 integers": many_processes(2)}
        print_parts(proved, named, ["parse", "resolve"])
        sizes = {f"{size:,} bytes": short_names(size) for size in (16_384, 32_768, 65_536)}
        print_parts(proved, sizes, ["parse", "generate"])


if __name__ == "__main__":
    main()
