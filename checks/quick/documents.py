#!/usr/bin/env python3
"""Types the commands that the documents show, and compares what they write; compares the files that they show; and looks
whether each path in them is there.

    checks/quick/documents.py [PROGRAM]     PROGRAM is the one that ./parbegin has built if none is given

A command is a line of a block that begins with `$ `, with the lines after it that begin with `> `; what it writes is
the lines up to the next command or the end of the block. If some of these begin with a prompt of the debugger, as
`0/15> `, it is a session at a terminal, and what is after the prompts is typed. The commands of docs/COURSE.md are
typed at a terminal too: there standard error is seen, and tables in the place of lines. The commands run in a folder
with the script, as it is installed, and the examples; `--unproved` is left out, which changes nothing of what is
written. A block that names a language and a path after its opening backquotes, as in "rust crates/NAME/src/main.rt",
shows a file, and has to be that file. A path is a word of a document, in backquotes or not, that begins with the name
of a folder at the top of the repository. A link has to lead to a file and a heading in it, and a heading that is named,
as in docs/NAME.md, "Heading", or its first words, has to be there. No cell of a table of the formats has more than 40
words. A block whose label has `part of` before the path shows lines of that file, whose indent does not matter.
README.md has at most 1,000 words. The first call that it shows, the tests that it names, and the first calls in
docs/BUILDING.md have to be measured by benches/first_call.py, and the counts of crates in docs/BUILDING.md have to be
those of the tools. Its status is 0 if all is as wanted, and 1 if not.
"""
import importlib.util
import pathlib
import re
import shutil
import subprocess
import sys
import tempfile

sys.path.insert(0, str(pathlib.Path(__file__).resolve().parents[1] / "lib"))

from calls import TOP, Tally, installed  # noqa: E402
from pseudo_terminal import Terminal, played  # noqa: E402
from script.crates import crates_below  # noqa: E402
from script.tools import COMMANDS_OF  # noqa: E402

FOLDERS = ("examples", "extras", "benches", "checks")
DOCUMENTS = [TOP / "README.md", *(TOP / name / "README.md" for name in FOLDERS), *sorted((TOP / "docs").rglob("*.md"))]
# The most words of a cell of a table in docs/formats/.
WORDS = 40
WORDS_OF_README = 1000
# Of these the commands are typed at a terminal, which is as wide as their lines are at most.
AT_A_TERMINAL = [TOP / "docs/COURSE.md"]
COLUMNS = 125
FIRST_CALL = TOP / "benches/first_call.py"
BLOCK = re.compile(r"^( *)```([^\n]*)\n(.*?)^\1```$", re.M | re.S)
PROMPT = re.compile(r"\d+/\d+> ")
LINK = re.compile(r"\]\(([^)#\s]*)(?:#([^)\s]*))?\)")
# A document and a heading in it.
NAMED = re.compile(r'(docs/[\w/]+\.md),\s"([^"]+)"')
PATH = re.compile(r"(?<![\w/.])(?:crates|docs|examples|checks|benches|extras|script)/[\w./{},*-]*[\w}*]\.\w+")


def commands_of(text):
    """Returns the commands of a document, each with what it is shown to write."""
    for indent, label, block in BLOCK.findall(text):
        lines = [line.removeprefix(indent) for line in block.splitlines()]
        if label or not lines or not lines[0].startswith("$ "):
            continue
        found = []
        for line in lines:
            if line.startswith("$ "):
                found.append([[line[2:]], []])
            elif line.startswith("> ") and not found[-1][1]:
                found[-1][0].append(line[2:])
            else:
                found[-1][1].append(line)
        for command, written in found:
            yield "\n".join(command), written


def files_of(text):
    """Returns the paths of the files that a document shows, each with the text that it shows."""
    for _, label, block in BLOCK.findall(text):
        _, space, path = label.partition(" ")
        if space:
            yield path, block


def is_shown(path, shown):
    """Whether a file is as a document shows it, or has the lines that are shown as a part of it."""
    file = TOP / path.removeprefix("part of ")
    if not file.is_file() or file == TOP / path:
        return file.is_file() and file.read_text() == shown
    lines, part = ([line.strip() for line in text.splitlines()] for text in (file.read_text(), shown))
    return any(lines[at : at + len(part)] == part for at in range(len(lines)))


def install(folder):
    """Puts the script, the program and the examples into a folder, and returns where commands run."""
    top = folder / "top"
    shutil.copytree(TOP / "examples", top / "examples")
    shutil.copy(installed(folder), top)
    return top


def written_by(command, shown, top, at_a_terminal=False):
    """Returns the lines that a command writes, or a session at a terminal in which is typed what is shown."""
    typed = [PROMPT.sub("", line, count=1) for line in shown if PROMPT.match(line)]
    command = command.replace("./parbegin --unproved ", "./parbegin ")
    if typed:
        return played(["bash", "-c", command], typed, PROMPT.pattern, str(top)).splitlines()
    if at_a_terminal:
        it = Terminal(["bash", "-c", command], str(top), COLUMNS)
        it.end()
        return it.shown.splitlines()
    ran = subprocess.run(["bash", "-c", command], cwd=top, stdout=subprocess.PIPE, stderr=subprocess.DEVNULL, check=False)
    return ran.stdout.decode().splitlines()


def try_begin(tally):
    """Looks whether what a newcomer types first is measured, and whether nothing is proved before the first answer."""
    text = (TOP / "README.md").read_text()
    tally.expect(len(text.split()) <= WORDS_OF_README, "README.md has more words:", len(text.split()))
    rows = (TOP / "docs/BUILDING.md").read_text()
    where = importlib.util.spec_from_file_location("first_call", FIRST_CALL)
    bench = importlib.util.module_from_spec(where)
    where.loader.exec_module(bench)
    measured = {call.replace("examples/devices.pb", "FILE") for calls in bench.CALLS.values() for call in calls}
    typed = [re.split(" <<| [|] ", command)[0] for command, _ in commands_of(text)]
    tally.expect("--unproved" in typed[0], "README.md: the first command proves something:", typed[0])
    tests = re.findall(r"^    (\S.*)$", BLOCK.sub("", text), re.M)
    shown = [*typed[:1], *tests, *re.findall(r"^\| `(\./parbegin [^`]*)`", rows, re.M)]
    tally.expect(len(tests) == 2 and len(shown) > 5, "too few first calls are shown", shown)
    for call in shown:
        is_measured = call.replace("examples/devices.pb", "FILE") in measured
        tally.expect(is_measured, "a first call is shown that benches/first_call.py does not measure:", call)


def try_counts(tally):
    """Compares how many crates documents say that tools are made of."""
    crates = {tool: set(crates_below([tool])) for tool in COMMANDS_OF}
    counts = {f"parbegin-{tool} |": str(len(of_tool)) for tool, of_tool in crates.items()}
    counts |= {f"`./parbegin {command}`": str(len(crates[tool])) for command, tool in (("bank", "bank"), ("run FILE", "run"))}
    after = len(crates["search"] - crates["run"])
    counts["`./parbegin outcomes FILE`"] = f"{len(crates['search'])}; after `run` {after}"
    counts["`./parbegin build`, all tools"] = str(len(set().union(*crates.values())))
    text = (TOP / "docs/BUILDING.md").read_text()
    for row, count in counts.items():
        is_said = re.search(rf"^[|] {re.escape(row)}.*[|] {re.escape(count)} [|]", text, re.M)
        tally.expect(is_said, f"docs/BUILDING.md: a row begins with {row} and has not {count} crates")


def headings_of(document):
    """Returns the headings of a document."""
    return re.findall(r"^#+ (.*)$", BLOCK.sub("", document.read_text()), re.M)


def anchor_of(heading):
    """Returns the word by which a link names a heading."""
    return re.sub(r"[^\w -]", "", heading.lower()).replace(" ", "-")


def try_links(tally, document):
    """Looks whether each link of a document leads to a file and a heading, and each heading that it names is there."""
    text = BLOCK.sub("", document.read_text())
    for path, anchor in LINK.findall(text):
        if "://" in path:
            continue
        there = (document.parent / path).resolve() if path else document
        is_found = there.exists() and (not anchor or anchor in map(anchor_of, headings_of(there)))
        tally.expect(is_found, f"{document.name}: there is no {path}#{anchor}")
    for path, heading in NAMED.findall(text):
        is_found = any(it.startswith(" ".join(heading.split())) for it in headings_of(TOP / path))
        tally.expect(is_found, f'{document.name}: there is no {path}, "{heading}"')


def try_cells(tally, document):
    """Looks whether no cell of a table is too long to be read."""
    for line in re.findall(r"^[|] (.*) [|]$", document.read_text(), re.M):
        for cell in re.split(r"(?<!\\)[|]", line):
            tally.expect(len(cell.split()) <= WORDS, f"{document.name}: a cell has more than {WORDS} words:", cell)


def is_there(path):
    """Whether a path with braces or stars names files that are all there."""
    braces = re.search(r"\{(.*?)\}", path)
    if braces:
        return all(is_there(path.replace(braces[0], it)) for it in braces[1].split(","))
    return any(TOP.glob(path))


def main():
    tally, typed = Tally(), 0
    with tempfile.TemporaryDirectory() as folder:
        top = install(pathlib.Path(folder))
        for document in DOCUMENTS:
            text = document.read_text()
            for command, written in commands_of(text):
                typed += 1
                got = written_by(command, written, top, document in AT_A_TERMINAL)
                tally.expect(got == written, f"{document.name}: `{command}` writes", *got)
            for path, shown in files_of(text):
                tally.expect(is_shown(path, shown), f"{document.name} shows {path} as it is not")
            for path in PATH.findall(text):
                if "NAME" in path:
                    # (any crate or file)
                    continue
                tally.expect(is_there(path), f"{document.name}: there is no {path}")
            try_links(tally, document)
            if document.parent.name == "formats" or document.name == "FORMATS.md":
                try_cells(tally, document)
    try_begin(tally)
    try_counts(tally)
    print(f"{len(DOCUMENTS)} documents, {typed} commands")
    tally.end("documents")


if __name__ == "__main__":
    main()
