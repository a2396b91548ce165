#!/usr/bin/env python3
"""Times seven programs in the proved machine, pick by pick and by silent runs, and by `run` as a whole, beside Lua,
LuaJIT's interpreter, CPython and wabt's wasm-interp, turn by turn in one run.

Each program is written down once, below, and put into five languages: its text, Lua, Python, and WebAssembly with the
same operators on a stack. That all print the same number is checked. Wants `rt`, `lua5.4`, `luajit`, `wat2wasm`,
`wasm-interp` and `valgrind`: apt-get install lua5.4 luajit wabt valgrind

    python3 benches/silent.py machine [TURNS]
    python3 benches/silent.py whole [TURNS] [PROGRAM]     the program that ./parbegin has built, if none is given

`machine` builds a small proved program in a temporary folder, over copies of the crates, which compiles a text and runs
it to its end, and says milliseconds a round (the least of all turns), the ratios to Lua, and instructions of the
processor for each pick. `wasm-interp` is timed as a whole, with the time of an empty module taken off.

`whole` calls `run` with quantum 4,096 and with quantum 64 on programs of nearly 10,000,000 picks, and says milliseconds
of user time of whole calls (the middle of all turns), their ratios (the middle of those of each turn, since the clock of
a machine changes), and instructions of the processor for each pick, with the start of each program taken off.

Other work on the machine disturbs the times and not the instructions: take final times on a quiet machine, and say its
load.
"""
import os
import pathlib
import statistics
import subprocess
import sys
import tempfile
import time

from scratch import MACHINE_NEEDS, TOP, build_proved, instructions, instructions_a_round, least, least_of_rows, \
    machine_files, machine_main, print_table, said, scratch_folder, script_time

ROUNDS = 12
PICK_BY_PICK, SHORT, LONG = 0, 64, 4096
STEPS = 10_000_000

# ---- the programs: ("set", name, expression), ("while", condition, statements), ("if", condition, statements,
# statements); an expression is a number, a name, or an operator between two


def add(name, amount=1):
    return ("set", name, ("+", name, amount))


def mixed():
    """Four assignments with most operators."""
    remainder = ("mod", ("+", ("*", "s", 31), "i"), 1000003)
    return [add("i"), ("set", "s", remainder), ("set", "b", ("+", "b", ("<", "i", "s"))),
            ("set", "i", ("-", "i", ("mod", "b", 2)))]


POLYNOMIAL = ("+", "s", ("-", ("*", ("*", "i", "i"), 3), ("+", ("*", "i", 5), 7)))


def count(turns):
    return [("while", ("<", "i", turns), [add("i")])]


def nested(turns):
    return [("set", "k", 7919),
            ("while", ("<", "i", turns), [
                ("set", "j", 0),
                ("while", ("<", "j", 400), [("set", "s", ("+", "s", ("mod", ("*", "i", "j"), "k"))), add("j")]),
                add("i")])]


def collatz(limit):
    return [("set", "i", 1),
            ("while", ("<", "i", limit), [
                ("set", "x", "i"),
                ("while", ("<>", "x", 1), [
                    ("if", ("=", ("mod", "x", 2), 0),
                     [("set", "x", ("div", "x", 2))], [("set", "x", ("+", ("*", 3, "x"), 1))]),
                    add("s")]),
                add("i")])]


def primes(limit):
    return [("set", "i", 2),
            ("while", ("<", "i", limit), [
                ("set", "d", 2), ("set", "ok", 1),
                ("while", ("and", "ok", ("<=", ("*", "d", "d"), "i")), [
                    ("if", ("=", ("mod", "i", "d"), 0), [("set", "ok", 0)], []), add("d")]),
                ("set", "c", ("+", "c", "ok")), add("i")])]


def straight(turns):
    return [("while", ("<", "t", turns), [*(statement for _ in range(680) for statement in mixed()), add("t")])]


def fibonacci(turns):
    return [("set", "b", 1),
            ("while", ("<", "i", turns), [
                ("set", "c", ("mod", ("+", "a", "b"), 1000000007)), ("set", "a", "b"), ("set", "b", "c"), add("i")])]


def polynomial(turns):
    return [("while", ("<", "i", turns), [("set", "s", ("mod", POLYNOMIAL, 1000003)), add("i")])]


# each with its integers, the one that it prints, its limit in the machine, and that of nearly 10,000,000 picks
PROGRAMS = {
    "count": (count, ["i"], "i", 200_000, 1_100_000),
    "nested": (nested, ["i", "j", "k", "s"], "s", 500, 1_450),
    "collatz": (collatz, ["i", "x", "s"], "s", 3_000, 6_000),
    "primes": (primes, ["i", "d", "ok", "c"], "c", 6_000, 28_000),
    "straight": (straight, ["i", "s", "b", "t"], "s", 50, 600),
    "fibonacci": (fibonacci, ["a", "b", "c", "i"], "a", 100_000, 520_000),
    "polynomial": (polynomial, ["i", "s"], "s", 100_000, 390_000),
}


def program_of(name, whole):
    """The statements of a program, its integers, and the one that it prints."""
    body, names, printed, short, long = PROGRAMS[name]
    return body(long if whole else short), names, printed


COMPARISONS = {"<", "<=", "=", "<>"}

# ---- the text


def text_of(expression):
    if isinstance(expression, tuple):
        operator, left, right = expression
        return f"({text_of(left)} {operator} {text_of(right)})"
    return str(expression)


def text_statement(statement):
    kind, *parts = statement
    if kind == "set":
        return f"{parts[0]} := {text_of(parts[1])}"
    if kind == "while":
        return f"while {text_of(parts[0])} do {text_statements(parts[1])} od"
    other = f" else {text_statements(parts[2])}" if parts[2] else ""
    return f"if {text_of(parts[0])} then {text_statements(parts[1])}{other} fi"


def text_statements(statements):
    return "; ".join(text_statement(statement) for statement in statements)


def text_program(body, names, printed):
    return f"process p begin integer {', '.join(names)}; {text_statements(body)}; print {printed} end"


# ---- Lua and Python: tests are theirs, and `and` does not look at its right side where the left one is false


class Script:
    """A language of scripts, by its operators and its words for a test used as a number."""

    def __init__(self, operators, number):
        self.operators, self.number = operators, number

    def value(self, expression):
        if not isinstance(expression, tuple):
            return str(expression)
        if expression[0] in COMPARISONS:
            return self.number.format(self.test(expression))
        operator, left, right = expression
        return f"({self.value(left)} {self.operators[operator]} {self.value(right)})"

    def test(self, expression):
        if isinstance(expression, tuple) and expression[0] == "and":
            return f"({self.test(expression[1])} and {self.test(expression[2])})"
        if isinstance(expression, tuple) and expression[0] in COMPARISONS:
            operator, left, right = expression
            return f"({self.value(left)} {self.operators[operator]} {self.value(right)})"
        return f"({self.value(expression)} {self.operators['<>']} 0)"


SAME = {"+": "+", "-": "-", "*": "*", "<": "<", "<=": "<=", "=": "==", "mod": "%"}
LUA = Script({**SAME, "div": "//", "<>": "~="}, "({} and 1 or 0)")
# LuaJIT has no integers: numbers of 53 bits, and a division that is cut off
LUAJIT = Script({**SAME, "div": "/", "<>": "~="}, "({} and 1 or 0)")
PYTHON = Script({**SAME, "div": "//", "<>": "!="}, "{}")


def lua_statements(script, statements):
    lines = []
    for kind, *parts in statements:
        if kind == "set":
            value = script.value(parts[1])
            if script is LUAJIT and isinstance(parts[1], tuple) and parts[1][0] == "div":
                value = f"math.floor({value})"
            lines.append(f"{parts[0]} = {value}")
        elif kind == "while":
            lines += [f"while {script.test(parts[0])} do", *lua_statements(script, parts[1]), "end"]
        else:
            lines += [f"if {script.test(parts[0])} then", *lua_statements(script, parts[1])]
            lines += ["else", *lua_statements(script, parts[2]), "end"]
    return lines


def lua_program(script, rounds, body, names, printed):
    head = [f"for round = 1, {rounds} do", f"local start, {', '.join(names)} = os.clock(), {', '.join('0' for _ in names)}"]
    tail = [f"print(string.format('%.0f %.0f', (os.clock() - start) * 1e9, {printed}))", "end"]
    return "\n".join([*head, *lua_statements(script, body), *tail])


def python_statements(statements, depth):
    lines, pad = [], "    " * depth
    for kind, *parts in statements:
        if kind == "set":
            lines.append(f"{pad}{parts[0]} = {PYTHON.value(parts[1])}")
        elif kind == "while":
            lines += [f"{pad}while {PYTHON.test(parts[0])}:", *python_statements(parts[1], depth + 1)]
        else:
            lines += [f"{pad}if {PYTHON.test(parts[0])}:", *python_statements(parts[1], depth + 1)]
            if parts[2]:
                lines += [f"{pad}else:", *python_statements(parts[2], depth + 1)]
    return lines


def python_program(rounds, body, names, printed):
    lines = ["import time", "def main():", "    start = time.process_time_ns()"]
    lines += [f"    {' = '.join(names)} = 0", *python_statements(body, 1)]
    lines += [f"    print(time.process_time_ns() - start, {printed})", f"for _ in range({rounds}):", "    main()"]
    return "\n".join(lines)


# ---- WebAssembly

WASM = {"+": "add", "-": "sub", "*": "mul", "div": "div_s", "mod": "rem_s", "<": "lt_s", "<=": "le_s", "=": "eq",
        "<>": "ne"}


def wasm_test(expression):
    """The instructions that put a test, of 32 bits, on the stack."""
    if isinstance(expression, tuple) and expression[0] in COMPARISONS:
        return [*wasm_value(expression[1]), *wasm_value(expression[2]), f"i64.{WASM[expression[0]]}"]
    if isinstance(expression, tuple) and expression[0] == "and":
        return [*wasm_test(expression[1]), *wasm_test(expression[2]), "i32.and"]
    return [*wasm_value(expression), "i64.const 0", "i64.ne"]


def wasm_value(expression):
    if isinstance(expression, str):
        return [f"local.get ${expression}"]
    if isinstance(expression, int):
        return [f"i64.const {expression}"]
    if expression[0] in COMPARISONS:
        return [*wasm_test(expression), "i64.extend_i32_u"]
    return [*wasm_value(expression[1]), *wasm_value(expression[2]), f"i64.{WASM[expression[0]]}"]


def wasm_statements(statements):
    lines = []
    for kind, *parts in statements:
        if kind == "set":
            lines += [*wasm_value(parts[1]), f"local.set ${parts[0]}"]
        elif kind == "while":
            lines += ["block", "loop", *wasm_test(parts[0]), "i32.eqz", "br_if 1", *wasm_statements(parts[1])]
            lines += ["br 0", "end", "end"]
        else:
            lines += [*wasm_test(parts[0]), "if", *wasm_statements(parts[1]), "else", *wasm_statements(parts[2]), "end"]
    return lines


def wasm_program(body, names, printed):
    locals_ = " ".join(f"(local ${name} i64)" for name in names)
    return "\n".join([f'(module (func (export "main") (result i64) {locals_}', *wasm_statements(body),
                      f"local.get ${printed}))"])


def wasm_module(folder, name, text):
    source, module = folder / f"{name}.wat", folder / f"{name}.wasm"
    source.write_text(text)
    subprocess.run(["wat2wasm", source, "-o", module], check=True)
    return module


def user_time(words, given=b""):
    """The user time of a call, in nanoseconds, and the words that it writes."""
    with tempfile.TemporaryFile() as text, tempfile.TemporaryFile() as out:
        text.write(given)
        text.seek(0)
        process = subprocess.Popen([str(word) for word in words], stdin=text, stdout=out)
        _, status, used = os.wait4(process.pid, 0)
        if status != 0:
            raise SystemExit(f"{words[0]} ended with {status}")
        out.seek(0)
        return used.ru_utime * 1e9, out.read().decode().split()


# ---- the proved program

ABOUT = """\
//! Runs the one process of a text again and again, by silent runs of a greatest length, or pick by pick, and says how
//! long each round took.
"""
ITEMS = """\
/// What was run so far.
#[derive(Clone, Copy)]
struct Ran {
    picks: u64,
    last: i64,
}

/// Runs the body of the first process to its end.
fn run(machine: &mut Machine, verified: &Verified, max: u32) -> Ran
    requires { IsMachineOf verified.now machine.old }
{
    let pick = Pick { process: 0, arm: 0 };
    let mut ran = Ran { picks: 0, last: 0 };
    for _ in 0..u64::MAX {
        let made = machine.run_silent(verified, pick, max);
        ran.picks = ran.picks.wrapping_add(u64::from(made));
        if made == 0 || made < max {
            match machine.step(verified, pick) {
                Step::NotEnabled => return ran,
                Step::Did(Event::Printed { value, .. }) => ran.last = value,
                Step::Did(_) | Step::Silent => {}
            }
            ran.picks = ran.picks.wrapping_add(1);
        }
    }
    ran
}

fn run_round(alloc: Global, verified: &Verified, max: u32) -> Result<Ran, NoMemory> {
    let mut machine = Machine::new(alloc, verified)?;
    Ok(run(&mut machine, verified, max))
}

"""
MAIN = machine_main([("max", "u32")], "run_round(alloc, compiled.verified(), max)", ["picks", "last"])
FILES = machine_files(ABOUT, ITEMS, MAIN, [("run", "invariant-loop")])

# ---- what is timed


class Runs:
    """One program in each language."""

    def __init__(self, folder, empty, name, whole):
        program = program_of(name, whole)
        self.folder, self.empty = folder, empty
        self.text = text_program(*program).encode()
        lua, python = (1, 1) if whole else (5, 3)
        self.scripts = {
            "lua5.4": ["lua5.4", self.script("a.lua", lua_program(LUA, lua, *program))],
            "luajit": ["luajit", "-joff", self.script("b.lua", lua_program(LUAJIT, lua, *program))],
            "CPython": [sys.executable, self.script("c.py", python_program(python, *program))],
        }
        self.module = wasm_module(folder, name, wasm_program(*program))

    def script(self, name, text):
        file = self.folder / name
        file.write_text(text)
        return file

    def wasm(self):
        taken, out = user_time(wasm_words(self.module))
        nothing, _ = user_time(wasm_words(self.empty))
        return max(taken - nothing, 1.0), printed_by_wasm(out)


def wasm_words(module):
    return ["wasm-interp", "--run-all-exports", module]


def printed_by_wasm(words):
    return words[-1].split(":")[-1]


def empty_module(folder):
    return wasm_module(folder, "empty", '(module (func (export "main") (result i64) i64.const 0))')


# ---- the machine


def machine(proved, text, length, rounds):
    """The least nanoseconds of a round, and the picks of a round and the number that it prints."""
    return least_of_rows(said([proved, length, rounds], text), 3)


def machine_round(proved, text, length):
    best, (_, last) = machine(proved, text, length, ROUNDS)
    return best, last


def machine_rows(turns, proved, runs, name):
    """A program's row of times, and that of instructions."""
    lengths = (PICK_BY_PICK, SHORT, LONG)
    calls = [lambda length=length: machine_round(proved, runs.text, length) for length in lengths]
    calls += [lambda words=words: script_time(*words) for words in runs.scripts.values()]
    best = least(turns, [*calls, runs.wasm])
    picks = int(machine(proved, runs.text, LONG, 1)[1][0])
    _, short, long, lua, luajit, *_ = best
    times = [name, picks, *(taken / 1e6 for taken in best), short / lua, long / lua, long / luajit]
    return times, [name, *(instructions_a_round([proved, length], runs.text, 2) / picks for length in lengths)]


def machine_tables(turns, folder):
    proved = build_proved(folder, MACHINE_NEEDS, FILES)
    empty = empty_module(folder)
    rows = [machine_rows(turns, proved, Runs(folder, empty, name, False), name) for name in PROGRAMS]
    print_table(["text", "picks", "pick by pick", "runs of 64", "runs of 4,096", "Lua 5.4", "luajit -joff", "CPython",
                 "wasm-interp", "64 by Lua", "4,096 by Lua", "4,096 by luajit"], [times for times, _ in rows])
    print_table(["text", "instructions a pick, pick by pick", "runs of 64", "runs of 4,096"],
                [counts for _, counts in rows])


# ---- `run` as a whole


def run_words(program, quantum):
    return [program, "run", "--steps", STEPS, "--quantum", quantum]


def picks_recorded(program, text):
    """How many picks a run makes, by its pick lines."""
    lines = said([program, "record", "--steps", STEPS, "--quantum", LONG], text)
    return sum(int(word) for word in lines[lines.index("%%") + 2::2])


class Whole:
    """The calls of one program, each as a whole, by the names of their columns. A call is its words, what it is given,
    and which of the words that it writes is the number that the program prints."""

    def __init__(self, program, runs):
        self.calls = {
            "quantum 4,096": (run_words(program, LONG), runs.text, lambda words: words[2]),
            "quantum 64": (run_words(program, SHORT), runs.text, lambda words: words[2]),
            "check": ([program, "check"], runs.text, None),
            **{name: (words, b"", lambda words: words[1]) for name, words in runs.scripts.items()},
            "wasm-interp": (wasm_words(runs.module), b"", printed_by_wasm),
        }

    def times(self, turns):
        """The user times of each call, turn by turn, in milliseconds."""
        found, taken = set(), {name: [] for name in self.calls}
        for _ in range(turns):
            for name, (words, given, printed) in self.calls.items():
                time, out = user_time(words, given)
                taken[name].append(time / 1e6)
                if printed is not None:
                    found.add(printed(out))
        if len(found) != 1:
            raise SystemExit(f"two programs disagree: {found}")
        return taken

    def counts(self, picks, starts):
        """The instructions for each pick, without those of the start."""
        return [(instructions(*self.calls[name][:2]) - start) / picks for name, start in starts.items()]


def middle_ratio(times, others):
    """The middle of the ratios of two calls, each of one turn: the clock of a machine changes from turn to turn."""
    return statistics.median(time / other for time, other in zip(times, others) if other > 0)


def starts_of(program, folder):
    """The instructions of each program on as good as nothing."""
    nothing = folder / "nothing"
    nothing.write_text("")
    text = b"process p begin integer i; print i end"
    return {
        "quantum 4,096": instructions(run_words(program, LONG), text),
        "quantum 64": instructions(run_words(program, SHORT), text),
        "check": instructions([program, "check"], text),
        "lua5.4": instructions(["lua5.4", nothing]),
        "luajit": instructions(["luajit", "-joff", nothing]),
    }


def whole_tables(turns, folder, program):
    starts, times, counts = starts_of(program, folder), [], []
    empty = empty_module(folder)
    for name in PROGRAMS:
        runs = Runs(folder, empty, name, True)
        whole, picks = Whole(program, runs), picks_recorded(program, runs.text)
        taken = whole.times(turns)
        long, short, _, lua, luajit, *_ = taken.values()
        ratios = [middle_ratio(*pair) for pair in [(long, lua), (short, lua), (short, long), (long, luajit)]]
        times.append([name, picks, *map(statistics.median, taken.values()), *ratios])
        counts.append([name, *whole.counts(picks, starts)])
    print_table(["text", "picks", *whole.calls, "4,096 by Lua", "64 by Lua", "64 by 4,096", "4,096 by luajit"], times)
    print_table(["text", *(f"{name}, instructions a pick" for name in starts)], counts)


def main():
    kind, *words = sys.argv[1:]
    turns = int(words[0]) if words else 9
    with scratch_folder() as folder:
        print("load", os.getloadavg(), time.strftime("%Y-%m-%d %H:%M"), flush=True)
        if kind == "machine":
            machine_tables(turns, folder)
        else:
            program = words[1] if len(words) > 1 else TOP / "script" / "tools.sh"
            whole_tables(turns, folder, pathlib.Path(program).resolve())
        print("load", os.getloadavg())


if __name__ == "__main__":
    main()
