#!/usr/bin/env python3
"""Times steps of the proved machine beside the same machine in plain Rust, turn by turn in one run, and a counting loop
also beside Lua and CPython.

A scratch repository in a temporary folder gets copies of the crates and a small proved program, which compiles a text
and runs each of its processes to its end. The twin reads a listing of the same instructions. That both make the same
number of steps, grant as many holds and print the same number last is checked. Wants `rt`, `rustc`, `lua5.4` and
`valgrind`. Says million steps a second and instructions of the processor a step, for these texts:

count     one process counts: i := i + 1 in a loop
arms      a loop starts two arms, and waits for them
holds     each of four processes, one after the other, takes and gives back a hold in a loop
straight  680 times four assignments with most operators, one after another
"""
import sys

from scratch import MACHINE_NEEDS, build_plain, build_proved, instructions_a_round, least, least_of_rows, \
    machine_files, machine_main, print_table, said, scratch_folder, script_time

TURNS = 9
CYCLES = 680
SCRIPT_TIMES = 200_000

# the counting loop in Lua and in Python, which say nanoseconds and the count for each of ten rounds
LUA = f"""\
for round = 1, 10 do
    local start, i = os.clock(), 0
    while i < {SCRIPT_TIMES} do i = i + 1 end
    print(math.floor((os.clock() - start) * 1e9), i)
end
"""
PYTHON = f"""\
import time
def count():
    start, i = time.perf_counter_ns(), 0
    while i < {SCRIPT_TIMES}:
        i = i + 1
    print(time.perf_counter_ns() - start, i)
for _ in range(10):
    count()
"""

ABOUT = "//! Runs the text that it is given again and again, and says how long each round took.\n"
ITEMS = """\
/// What was run so far.
#[derive(Clone, Copy)]
struct Ran {
    steps: u64,
    granted: u64,
    last: i64,
}

/// Makes the pick of the least arm that is enabled.
fn step_first(machine: &mut Machine, verified: &Verified, process: u8, arms: u8) -> Step
    requires { IsMachineOf verified.now machine.old }
    ensures { IsMachineOf verified.now machine.new }
{
    for arm in 0..arms {
        match machine.step(verified, Pick { process, arm }) {
            Step::Silent => return Step::Silent,
            Step::Did(event) => return Step::Did(event),
            Step::NotEnabled => {}
        }
    }
    Step::NotEnabled
}

/// Runs a process until none of its arms is enabled.
fn run_process(machine: &mut Machine, verified: &Verified, process: u8, arms: u8, before: Ran) -> Ran
    requires { IsMachineOf verified.now machine.old }
    ensures { IsMachineOf verified.now machine.new }
{
    let mut ran = before;
    for _ in 0..u64::MAX {
        match step_first(machine, verified, process, arms) {
            Step::NotEnabled => return ran,
            Step::Did(Event::Printed { value, .. }) => ran.last = value,
            Step::Did(Event::Granted { .. }) => ran.granted = ran.granted.wrapping_add(1),
            Step::Did(_) | Step::Silent => {}
        }
        ran.steps = ran.steps.wrapping_add(1);
    }
    ran
}

/// Runs all processes, one after the other.
fn run_all(alloc: Global, verified: &Verified, processes: u8, arms: u8) -> Result<Ran, NoMemory> {
    let mut machine = Machine::new(alloc, verified)?;
    let mut ran = Ran { steps: 0, granted: 0, last: 0 };
    for process in 0..processes {
        ran = run_process(&mut machine, verified, process, arms, ran);
    }
    Ok(ran)
}

"""
LOOPS = [("step_first", "invariant-loop-arm"), ("run_process", "invariant-loop"), ("run_all", "invariant-loop-process")]
MAIN = machine_main([("processes", "u8"), ("arms", "u8")], "run_all(alloc, compiled.verified(), processes, arms)",
                    ["steps", "granted", "last"])
FILES = machine_files(ABOUT, ITEMS, MAIN, LOOPS)

# assignments with most operators, each with the instructions that it becomes
STATEMENTS = [
    ("i := i + 1", ["load 0", "push 1", "add", "store 0"]),
    ("s := (s * 31 + i) mod 1000003", ["load 1", "push 31", "mul", "load 0", "add", "push 1000003", "mod", "store 1"]),
    ("b := b + (i < s)", ["load 2", "load 0", "load 1", "lt", "add", "store 2"]),
    ("i := i - b div 2", ["load 0", "load 2", "push 2", "div", "sub", "store 0"]),
]
ADDS = ["load 0", "push 1", "add", "store 0"]


def count(times):
    text = f"process p begin integer i; i := 0; while i < {times} do i := i + 1 od; print i end"
    code = ["push 0", "store 0", "load 0", f"push {times}", "lt", "jzero 11", *ADDS, "jump 2", "load 0", "print", "end"]
    return text, ["capital", "process", "arm", *code], 1, 1


def arms(times):
    loop = f"while i < {times} do parbegin a := a + 1; b := b + 2 parend; i := i + 1 od"
    text = f"process p begin integer i, a, b; {loop}; print a + b end"
    code = ["load 0", f"push {times}", "lt", "jzero 11", "fork 1 2", "join 1 2", *ADDS, "jump 0"]
    code += ["load 1", "load 2", "add", "print", "end"]
    code += ["arm", "load 1", "push 1", "add", "store 1", "end", "arm", "load 2", "push 2", "add", "store 2", "end"]
    return text, ["capital", "process", "arm", *code], 1, 3


def holds(times):
    text, listing = "resource tape = 4;", ["capital 4"]
    for p in range(4):
        loop = f"while i < {times} do hold 2 of tape do skip od; i := i + 1 od"
        text += f" process p{p} begin integer i; {loop}; print i end"
        listing += ["process 2", "arm", "load 0", f"push {times}", "lt", "jzero 11", "take 0 2", "give 0 2", *ADDS]
        listing += ["jump 0", "load 0", "print", "end"]
    return text, listing, 4, 1


def straight(_):
    statements, code = zip(*STATEMENTS)
    text = "process p begin integer i, s, b; " + "; ".join(statements * CYCLES) + "; print s end"
    listing = [line for lines in code * CYCLES for line in lines]
    return text, ["capital", "process", "arm", *listing, "load 1", "print", "end"], 1, 1


# each with how often it loops: a round takes some two milliseconds, so that other work leaves some rounds alone
KINDS = {"count": (count, 20_000), "arms": (arms, 8_000), "holds": (holds, 2_000), "straight": (straight, 0)}
ROUNDS = 60


def commands(proved, plain, kind, times):
    """The call of each program but for its rounds, with its input."""
    text, listing, processes, most_arms = kind(times)
    words = [processes, most_arms]
    return ([proved, *words], text.encode()), ([plain, *words], "\n".join(listing).encode() + b"\n")


def least_round(words, given, rounds):
    """The least nanoseconds of a round, with the steps, the holds that were granted, and the last number printed."""
    return least_of_rows(said([*words, rounds], given), 4)


def row_of(proved, plain, name):
    """What is said of one text."""
    both = commands(proved, plain, *KINDS[name])
    steps = int(least_round(*both[0], 1)[1][0])
    ours, twin = least(TURNS, [lambda call=call: least_round(*call, ROUNDS) for call in both])
    counted = [instructions_a_round(*call) / steps for call in both]
    return [name, steps * 1e3 / ours, steps * 1e3 / twin, ours / twin, *counted, counted[0] / counted[1]]


def print_loops(proved, plain):
    """The counting loop beside that of Lua and CPython: nanoseconds a turn, for which the machine makes nine steps."""
    times = KINDS["count"][1]

    def machine_turn(words, given):
        return least_round(words, given, ROUNDS)[0] / times, ()

    def script_turn(*words):
        return script_time(*words)[0] / SCRIPT_TIMES, ()

    calls = [lambda call=call: machine_turn(*call) for call in commands(proved, plain, count, times)]
    calls.append(lambda: script_turn("lua5.4", "-e", LUA))
    calls.append(lambda: script_turn(sys.executable, "-c", PYTHON))
    best = least(TURNS, calls)
    names = ["proved machine", "plain Rust machine", "Lua 5.4", f"CPython {sys.version.split()[0]}"]
    print_table(["the loop of count in", "ns a turn", "proved machine by it"],
                [[name, taken, best[0] / taken] for name, taken in zip(names, best)])


def main():
    with scratch_folder() as folder:
        proved, plain = build_proved(folder, MACHINE_NEEDS, FILES), build_plain(folder, "machine")
        head = ["text", "proved, million steps a second", "plain Rust", "ratio of times"]
        head += ["proved, instructions a step", "plain Rust", "ratio"]
        print_table(head, [row_of(proved, plain, name) for name in KINDS])
        print_loops(proved, plain)


if __name__ == "__main__":
    main()
