"""What the benches share: a scratch repository with the crates and a small proved program, its twin in plain Rust, runs
turn by turn of which the least time counts, counts of instructions, and tables.

A crate that was built in this repository is taken as it was built; another is proved first.
"""
import contextlib
import pathlib
import re
import shutil
import subprocess
import tempfile

TOP = pathlib.Path(__file__).resolve().parent.parent


def needed(names):
    """These crates of the repository, and those that they depend on."""
    lines = [line.partition("#")[0].partition(":") for line in (TOP / "crates.txt").read_text().splitlines()]
    below = {name.split()[0]: words.split() for name, colon, words in lines if colon}
    found, waiting = [], list(names)
    while waiting:
        name = waiting.pop()
        if name in below and name not in found:
            found.append(name)
            waiting += below[name]
    return found


def copy_crate(name, folder):
    """Copies a crate with what was built of it. What a check kept is copied only where the crate is not built."""
    source = TOP / "crates" / name
    skipped = ["must-fail"] + ["incremental"] * (source / "out" / "rlib" / "stamp").exists()
    shutil.copytree(source, folder / "crates" / name, ignore=shutil.ignore_patterns(*skipped))


@contextlib.contextmanager
def scratch_folder():
    """A folder for a scratch repository, which is deleted in the end."""
    with tempfile.TemporaryDirectory() as name:
        yield pathlib.Path(name)


def build_proved(folder, needs, files):
    """Builds a small program of these files over the libraries that it needs, and returns its path."""
    crates = needed(needs)
    for name in crates:
        copy_crate(name, folder)
    lines = [line for line in (TOP / "crates.txt").read_text().splitlines()
             if ":" in line.partition("#")[0] and line.split(":")[0].split()[0] in crates]
    (folder / "crates.txt").write_text("\n".join(lines + [f"bench: {' '.join(needs)}"]) + "\n")
    shutil.copy(TOP / "HANDLES", folder)
    crate = folder / "crates" / "bench"
    for name, text in files.items():
        (crate / name).parent.mkdir(parents=True, exist_ok=True)
        (crate / name).write_text(text)
    # the run proves and builds the program, which says nothing of use with no words and no input
    subprocess.run(["rt", "run"], cwd=crate, stdin=subprocess.DEVNULL, stdout=subprocess.DEVNULL, check=False)
    program = crate / "out" / "bench"
    if not program.exists():
        raise SystemExit("the small program was not built")
    return program


# the crates over which a small program runs the machine on a text
MACHINE_NEEDS = ["pb_base", "pb_codegen", "pb_machine", "pb_verifier", "anyhow", "bumpalo"]

MACHINE_HEAD = """\
#![tactic(auto)]

ghost use Rattle.pb_machine.specs.Views.{IsMachineOf};

use bumpalo::Bump;
use pb_base::{Event, NoMemory, Pick, Step};
use pb_codegen::compile;
use pb_machine::Machine;
use pb_verifier::Verified;
use std::alloc::Global;
use std::io::Read;
use std::process::ExitCode;
use std::time::Instant;

"""


def machine_main(numbers, call, fields):
    """The `main` of a small program that compiles the text that it is given and makes this call, in rounds, of which
    each writes its nanoseconds and these fields of what was run. Its words are these numbers, each a name and a type,
    and the rounds."""
    words = [*numbers, ("rounds", "u64")]
    reads = "".join(f"    let {name} = words[{i}].as_str().parse::<{kind}>()?;\n"
                    for i, (name, kind) in enumerate(words, 1))
    shown = "{}" + " {}" * len(fields)
    return f"""\
fn main(rt: HostRuntime) -> anyhow::Result<ExitCode> {{
    let alloc = rt.alloc();
    let words: Vec<String> = std::env::args(&rt)?.collect(alloc)?;
    if words.len() < {len(words) + 1} {{
        return Ok(ExitCode::FAILURE);
    }}
{reads}    let mut text = Vec::new(alloc);
    rt.stdin().read_to_end(&mut text)?;
    let arena = Bump::new(alloc);
    let Ok(compiled) = compile(alloc, &arena, text.as_slice()) else {{
        return Ok(ExitCode::FAILURE);
    }};
    for _ in 0..rounds {{
        let start = Instant::now(&rt)?;
        let Ok(ran) = {call} else {{
            return Ok(ExitCode::FAILURE);
        }};
        let taken = start.elapsed(&rt)?;
        println!(rt; "{shown}", taken.as_nanos(), {", ".join(f"ran.{field}" for field in fields)})?;
    }}
    Ok(ExitCode::SUCCESS)
}}
"""


def invariants(function, loop):
    """The invariant of a loop over the machine."""
    return f"""\
use Rattle.pb_machine.specs.Views.{{IsMachineOf}}
use Rattle.bench.proofs.{function}.Given as goal

abbrev pub {loop} : goal.{loop}
{loop} l = IsMachineOf l.verified l.machine
"""


def machine_files(about, items, main, loops):
    """The files of a small program over the machine: the comment at its top, its items, its `main`, and its loops, each
    with its function."""
    files = {f"proofs/{function}/Invariants.antt": invariants(function, loop) for function, loop in loops}
    return {"src/main.rt": about + MACHINE_HEAD + items + main, **files}


def script_time(*words):
    """The least nanoseconds of a round of a script that writes them with one number, and that number."""
    best, (last,) = least_of_rows(said(words), 2)
    return best, last


def build_plain(folder, bench):
    """Builds the twin of a bench, for the processors that proved programs are built for, and returns its path."""
    out = folder / "twin"
    source = TOP / "benches" / bench / "twin.rs"
    subprocess.run(["rustc", "-O", "-C", "target-cpu=x86-64-v2", "--edition", "2021", "-o", out, source], check=True)
    return out


def said(words, given=b""):
    """The words that a program writes."""
    words = [str(word) for word in words]
    return subprocess.run(words, input=given, stdout=subprocess.PIPE, check=True).stdout.decode().split()


def least(turns, calls):
    """Makes the calls turn by turn, and answers the least time of each. A call answers a time and what was found,
    which must be the same in all of them."""
    best, first = [float("inf")] * len(calls), None
    for _ in range(turns):
        for i, call in enumerate(calls):
            time, found = call()
            first = first or found
            if found != first:
                raise SystemExit(f"two programs disagree: {first} and {found}")
            best[i] = min(best[i], time)
    return best


def least_of_rows(words, width):
    """The least time among rows of so many words, the first of which is a time, with the others, which must be the same
    in all of them."""
    rows = [tuple(words[i:i + width]) for i in range(0, len(words), width)]
    if len({row[1:] for row in rows}) != 1:
        raise SystemExit(f"two rounds disagree: {rows}")
    return min(int(row[0]) for row in rows), rows[0][1:]


def instructions(words, given=b""):
    """How many instructions a call of a program takes, as callgrind counts them, which no other work disturbs."""
    words = ["valgrind", "--tool=callgrind", "--callgrind-out-file=/dev/null"] + [str(word) for word in words]
    run = subprocess.run(words, input=given, stdout=subprocess.DEVNULL, stderr=subprocess.PIPE, check=True)
    return int(re.search(rb"Collected : (\d+)", run.stderr)[1])


def instructions_a_round(words, given=b"", rounds=4):
    """How many instructions a further round takes, where the last word that the program is given is their number."""
    return (instructions([*words, 1 + rounds], given) - instructions([*words, 1], given)) / rounds


def print_table(head, rows):
    """Prints rows under their heads. A number that is not whole gets two digits behind its point where it is below 10,
    and else one."""
    def cell(value):
        if isinstance(value, float):
            return f"{value:.2f}" if value < 10 else f"{value:.1f}"
        return str(value)

    for row in [head, ["---"] * len(head), *rows]:
        print("| " + " | ".join(cell(value) for value in row) + " |", flush=True)
    print(flush=True)
