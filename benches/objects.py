#!/usr/bin/env python3
"""Times reading, verifying and writing of a large object that is made to be costly, beside a reader of the same format
in plain Rust and beside `wasm-validate` on a module of as many instructions.

A scratch repository in a temporary folder gets copies of the crates and a small program. Wants `rt`, `rustc` and
`wasm-validate` (of the package wabt). Says megabytes and million instructions a second; the least time of each counts.
Numbers of processes can be given, 64 and 2 where they are not.
"""
import subprocess
import sys
import time

from scratch import build_plain, build_proved, print_table, said, scratch_folder

ROUNDS = "5"
TURNS = 3
MOST_BYTES = 4_194_304
DEPTH = 256

MAIN = """\
//! Reads the object that it is given, writes it again and verifies it, again and again, and says how long each took.
#![tactic(auto)]

use pb_object::{read_any, write_object2};
use pb_verifier::verify;
use std::io::Read;
use std::process::ExitCode;
use std::time::Instant;

fn main(rt: HostRuntime) -> anyhow::Result<ExitCode> {
    let alloc = rt.alloc();
    let words: Vec<String> = std::env::args(&rt)?.collect(alloc)?;
    let rounds = match words.get(1) {
        Some(word) => word.as_str().parse::<u64>()?,
        None => 1,
    };
    let mut text = Vec::new(alloc);
    rt.stdin().read_to_end(&mut text)?;
    for _ in 0..rounds {
        let start = Instant::now(&rt)?;
        let Ok((code, labels)) = read_any(alloc, text.as_slice()) else {
            return Ok(ExitCode::FAILURE);
        };
        let read = start.elapsed(&rt)?;
        let start = Instant::now(&rt)?;
        let Ok(written) = write_object2(alloc, &code, &labels) else {
            return Ok(ExitCode::FAILURE);
        };
        let wrote = start.elapsed(&rt)?;
        let same = written.as_slice() == text.as_slice();
        let start = Instant::now(&rt)?;
        let verdict = verify(alloc, code).is_ok();
        let verified = start.elapsed(&rt)?;
        println!(rt; "{} {} {} {same} {verdict}", read.as_nanos(), wrote.as_nanos(), verified.as_nanos())?;
    }
    Ok(ExitCode::SUCCESS)
}
"""

FILES = {"src/main.rt": MAIN}
NEEDS = ["pb_base", "pb_code", "pb_object", "pb_verifier", "anyhow"]


def body(jumps):
    """The instructions of a process that comes to the same place by many ways, each with 256 holds, taken at two
    different places, which the verifier compares."""
    second = 2 + DEPTH + 2 * jumps + 1
    there = second + DEPTH
    yield from ["push 0", f"jzero {second}"]
    yield from ["take 0 1"] * DEPTH
    for i in range(jumps):
        yield from ["push 0", f"jzero {there + 2 * i}"]
    yield f"jump {there}"
    yield from ["take 0 1"] * DEPTH
    yield from ["push 0", "print"] * jumps
    yield from ["give 0 1"] * DEPTH
    yield "end"


def item(number, jumps):
    lines = list(body(jumps))
    head = [f"process p{number}", "vars 0", "arms 1", f"claims {DEPTH}", "arm 0", f"code {len(lines)}"]
    return "\n".join(head + ["0 " + line for line in lines]) + "\n"


def hostile(processes):
    """An object of so many processes, of nearly as many bytes as are read, and how many instructions it has."""
    jumps = 1
    share = MOST_BYTES // processes - 200
    while len(item(0, jumps + 50)) <= share and 4 * (jumps + 50) + 3 * DEPTH + 4 <= 40_000:
        jumps += 50
    head = f"PBO 2\nresources 1\nresource r {DEPTH}\nprocesses {processes}\n"
    text = head + "".join(item(number, jumps) for number in range(processes))
    assert len(text) <= MOST_BYTES
    return text.encode(), processes * (4 * jumps + 3 * DEPTH + 4)


def leb(number):
    out = bytearray()
    while number > 127:
        out.append(number & 127 | 128)
        number >>= 7
    return bytes(out + bytes([number]))


def section(kind, content):
    return bytes([kind]) + leb(len(content)) + content


def wasm(functions, instructions):
    """A module of so many functions, which have so many instructions together: constants and drops."""
    code = b"\x00" + b"\x41\x00\x1a" * (instructions // functions // 2) + b"\x0b"
    functions_section = leb(functions) + b"\x00" * functions
    code_section = leb(functions) + (leb(len(code)) + code) * functions
    types = section(1, b"\x01\x60\x00\x00")
    return b"\x00asm\x01\x00\x00\x00" + types + section(3, functions_section) + section(10, code_section)


def proved_times(command, text):
    """The least nanoseconds of reading, writing and verifying."""
    found = said([command, ROUNDS], text)
    rows = [found[i:i + 5] for i in range(0, len(found), 5)]
    if any(row[3:] != ["true", "true"] for row in rows):
        raise SystemExit("the object was written otherwise, or refused")
    return [min(int(row[column]) for row in rows) for column in range(3)]


def plain_time(command, text, instructions):
    """The least nanoseconds of the twin's reading."""
    nanoseconds, found, _ = said([command, ROUNDS], text)
    if int(found) != instructions:
        raise SystemExit("the twin found other instructions")
    return int(nanoseconds)


def wasm_time(folder, functions, instructions):
    """Nanoseconds of a call of wasm-validate on such a module."""
    path = folder / "module.wasm"
    path.write_bytes(wasm(functions, instructions))
    start = time.perf_counter_ns()
    subprocess.run(["wasm-validate", path], check=True)
    return time.perf_counter_ns() - start


def print_times(proved, plain, folder, processes):
    """What is said of an object of so many processes."""
    text, instructions = hostile(processes)
    best = [float("inf")] * 5
    for _ in range(TURNS):
        turn = proved_times(proved, text) + [plain_time(plain, text, instructions)]
        turn.append(wasm_time(folder, processes, instructions) - wasm_time(folder, 1, 2))
        best = [min(pair) for pair in zip(best, turn)]
    read, write, verify, plain_read, wasm = best
    print(f"{processes} processes: {len(text):,} bytes, {instructions:,} instructions\n")
    names = ["read", "read in plain Rust", "write", "verify", "`wasm-validate`"]
    rows = [[name, len(text) * 1e3 / taken, instructions * 1e3 / taken]
            for name, taken in zip(names, [read, plain_read, write, verify, wasm])]
    print_table(["what", "megabytes a second", "million instructions a second"], rows)
    print(f"read by read in plain Rust {read / plain_read:.2f}, verify by wasm-validate {verify / wasm:.2f}\n")


def main():
    sizes = [int(word) for word in sys.argv[1:]] or [64, 2]
    with scratch_folder() as folder:
        proved, plain = build_proved(folder, NEEDS, FILES), build_plain(folder, "objects")
        for processes in sizes:
            print_times(proved, plain, folder, processes)


if __name__ == "__main__":
    main()
