"""What the checks share: calls of the built program, and the inputs that they give it."""
import os
import pathlib
import re
import shutil
import subprocess
import sys
import tempfile

TOP = pathlib.Path(__file__).resolve().parents[2]
sys.path.insert(1, str(TOP))

from script.tools import COMMANDS_OF, FRONT, command_of, path_of, tool_of  # noqa: E402

EXAMPLES = sorted((TOP / "examples").glob("*.pb"))
BANKS = sorted((TOP / "examples").rglob("*.bank"))
# The endings of the files of examples/ that a command reads, with how the names of their constants end.
KINDS = {".pb": "", ".pbo": "_OBJECT", ".run": "_RUN", ".bank": "_COMMANDS"}
DONE, REFUSED, WORDS, LIMIT, FAULT, MEMORY, DEVICE, THREADS = range(8)
DEADLOCK = 9
# The longest input that a command reads, and the longest text.
MOST_INPUT, MOST_TEXT = 4_194_304, 65_536
# Commands of the debugger, with the name of a process in place of P.
COMMANDS = b"why P.0\nvars P\nthreads P\nloans\nstep 2\nline P.0\ntext P.0\nback 1\nto 3\nnext\nprev\n"
# A call that takes longer hangs.
WATCHDOG = 120


def writes():
    """Takes --write out of the words of this call, and returns whether it was there: the check then writes anew what it
    compares."""
    is_there = "--write" in sys.argv
    sys.argv = [word for word in sys.argv if word != "--write"]
    return is_there


def program(words=()):
    """Returns the program that is named on the command line, as its first word, or the tools that ./parbegin has built: of
    words with a command the one tool that has it. Every check that calls the program names it so."""
    given = pathlib.Path(sys.argv[1]).resolve() if len(sys.argv) > 1 else pathlib.Path(FRONT)
    tool = tool_of(command_of(list(words)))
    if tool and given == pathlib.Path(FRONT):
        given = path_of(tool)
    if not os.access(given, os.X_OK):
        sys.exit(f"{given} is not there: ./parbegin builds it")
    return str(given)


def installed(folder):
    """Puts the script and the tools into a folder, as install.sh does, and returns the path of the script."""
    folder = pathlib.Path(folder)
    ignored = shutil.ignore_patterns("__pycache__")
    shutil.copytree(TOP / "script", folder / "libexec/parbegin/script", ignore=ignored)
    for part, place in (("extras/page", "page"), ("extras/class", "class"), ("examples/exercises", "exercises")):
        shutil.copytree(TOP / part, folder / "share/parbegin" / place, ignore=ignored)
    for tool in COMMANDS_OF:
        shutil.copy(path_of(tool), folder / f"libexec/parbegin/parbegin-{tool}")
    (folder / "bin").mkdir(parents=True)
    return str(shutil.copy(TOP / "parbegin", folder / "bin/parbegin"))


def constant(file):
    """Returns the module of crates/pb_example_texts that has a file of examples/, and the name of its constant."""
    path = pathlib.PurePath(file)
    folder = path.parent.name.split("-")[-1]
    return folder or "first", path.stem.upper() + KINDS[path.suffix]


def call(words, given, environment=None, of=None):
    """Calls the program with these words on these bytes, and returns its status, and what it wrote."""
    ran = subprocess.run(
        [of or program(words), *words], input=given, stdout=subprocess.PIPE, stderr=subprocess.PIPE, timeout=WATCHDOG,
        env={**os.environ, **(environment or {})}, check=False,
    )
    return ran.returncode, ran.stdout


def preload(source):
    """Compiles a C source to a library that LD_PRELOAD puts before the C library, and returns its path."""
    folder = tempfile.mkdtemp(prefix="parbegin-checks-")
    library = f"{folder}/calls.so"
    words = ["cc", "-shared", "-fPIC", "-O1", "-o", library, "-xc", "-", "-ldl"]
    subprocess.run(words, input=source.encode(), check=True)
    return library


class Tally:
    """Counts what was tried, and tells what was not as wanted."""

    def __init__(self):
        self.tried, self.wrong = 0, 0

    def expect(self, is_right, *what):
        self.tried += 1
        if not is_right:
            self.wrong += 1
            print("wrong:", *what, file=sys.stderr)

    def end(self, name):
        print(f"{name}: {self.tried} tried, {self.wrong} wrong")
        sys.exit(1 if self.wrong else 0)


def many_prints(count):
    """Returns a text that prints this number of times."""
    return f"process p begin integer i; while i < {count} do print i; i := i + 1 od end\n".encode()


def object_of(text):
    """Returns the object of a text."""
    status, made = call(["emit"], text)
    assert status == DONE, (status, made)
    return made


def first_object_of(text):
    """Returns the object of a text in the first format, or in the second if it has a hold of two resources."""
    status, made = call(["emit", "--object", "1"], text)
    return made if status == DONE else object_of(text)


def recorded(text, *words):
    """Returns the text with the picks of a run of it."""
    status, made = call(["record", *words], text)
    assert status == DONE, (status, made)
    return made


def first_process(text):
    """Returns the name of the first process of a text."""
    return re.search(rb"\bprocess (\w+)", text)[1]


def debugged(text):
    """Returns the text with the picks of a run of it, and commands of the debugger over them."""
    return recorded(text) + b"%%\n" + COMMANDS.replace(b"P", first_process(text))


def inputs():
    """Returns for each command some words and inputs that it accepts, each with a name."""
    for file in BANKS:
        yield f"bank {file.name}", ["bank"], file.read_bytes()
    texts = [(file.name, file.read_bytes()) for file in EXAMPLES] + [("2,000 prints", many_prints(2000))]
    for name, text in texts:
        for command in ("run", "claims", "plan", "check", "emit", "record"):
            yield f"{command} {name}", [command], text
        yield f"plan --lend cash {name}", ["plan", "--lend", "cash"], text
        yield f"emit --object 1 {name}", ["emit", "--object", "1"], text
        yield f"record --seed 7 {name}", ["record", "--seed", "7"], text
        yield f"record --seed 7 --lend cash {name}", ["record", "--seed", "7", "--lend", "cash"], text
        yield f"replay {name}", ["replay"], recorded(text)
        yield f"draw {name}", ["draw"], recorded(text)
        yield f"replay --lend cash {name}", ["replay", "--lend", "cash"], recorded(text)
        yield f"draw --lend cash {name}", ["draw", "--lend", "cash"], recorded(text)
        yield f"states {name}", ["states"], recorded(text)
        yield f"states --lend cash {name}", ["states", "--lend", "cash"], recorded(text)
        picks = recorded(text).rpartition(b"\n%%\n")[2]
        yield f"states of an object {name}", ["states"], object_of(text) + b"%%\n" + picks
        yield f"debug {name}", ["debug"], debugged(text)
        yield f"debug --live {name}", ["debug", "--live"], debugged(text)
        yield f"debug --lend cash {name}", ["debug", "--lend", "cash"], debugged(text)
        yield f"outcomes {name}", ["outcomes"], text
        yield f"outcomes --lend cash {name}", ["outcomes", "--lend", "cash"], text
        yield f"outcomes --prints {name}", ["outcomes", "--prints", "--states", "2000"], text
        wanted = text + b"\n%%\n" + first_process(text) + b".0 print 1\n"
        yield f"outcomes --graph {name}", ["outcomes", "--graph", "--states", "2000"], text
        yield f"outcomes --graph --lend cash {name}", ["outcomes", "--graph", "--lend", "cash", "--states", "2000"], text
        yield f"outcomes --run 1 {name}", ["outcomes", "--run", "1", "--states", "2000"], text
        yield f"outcomes --deadlock 1 {name}", ["outcomes", "--deadlock", "1", "--lend", "cash", "--states", "2000"], text
        yield f"outcomes --expect {name}", ["outcomes", "--expect", "--states", "2000"], wanted
        yield f"outcomes --expect --any-order {name}", ["outcomes", "--expect", "--any-order", "--states", "2000"], wanted
        yield f"exec {name}", ["exec"], object_of(text)
        yield f"migrate {name}", ["migrate"], first_object_of(text)
