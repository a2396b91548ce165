#!/usr/bin/env python3
"""Compares docs/REFUSALS.md with what the program's `explain` says, and makes the call of each example.

    checks/quick/refusals.py [PROGRAM]             PROGRAM is the one that ./parbegin has built if none is given
    checks/quick/refusals.py --write [PROGRAM]     writes docs/REFUSALS.md anew, after a change of crates/pb_explain

The list that `explain` writes must be the first lines of the pages. Each example must write what its page shows, with one
line of a refusal or a warning, which has the code of the page. Every such line of docs/formats/ must have a page, and both
completions every code. Its status is 0 if all is as wanted, and 1 if not.
"""
import os
import pathlib
import re
import subprocess
import sys
import tempfile

sys.path.insert(0, str(pathlib.Path(__file__).resolve().parents[1] / "lib"))

from calls import DONE, TOP, WORDS, Tally, call, program, writes  # noqa: E402

DOCUMENT = TOP / "docs/REFUSALS.md"
FORMATS = sorted((TOP / "docs/formats").glob("*.md"))
COMPLETIONS = TOP / "extras/completion/parbegin.bash", TOP / "extras/completion/parbegin.fish"
# The page of a code: its first line, the meaning, an example with what it writes, and what to do.
PAGE = re.compile(
    r"(?P<first>[^\n]*)\n\n(?P<meaning>(?:[^\n]+\n)+)"
    r"(?:\nFor example:\n\n(?P<call>(?:[^\n]+\n)+)\nshows\n\n(?P<answer>(?:[^\n]+\n)+))?"
    r"\n(?P<mend>(?:[^\n]+\n)+)"
)
HEAD = """# Refusals

What each refusal and each warning of an input means, an example that is told so, and what to do about it.
checks/quick/refusals.py writes this page from what `parbegin explain` says, and makes the calls. docs/formats/program.md
has the order in which the causes are looked for.
"""


def pages():
    """Returns the pages of all codes in the order of the list, and the list."""
    status, listed = call(["explain"], b"")
    assert status == DONE, status
    listed = listed.decode().splitlines()
    return {line.split(":")[0]: call(["explain", line.split(":")[0]], b"")[1].decode() for line in listed}, listed


def section(page):
    """Returns a page as a section of the document."""
    it = PAGE.fullmatch(page)
    parts = [f"## {it['first']}", it["meaning"].strip()]
    if it["call"]:
        parts += ["For example:", f"```\n{it['call']}```", "shows", f"```\n{it['answer']}```"]
    return "\n\n".join([*parts, it["mend"]])


def try_example(tally, code, page, folder):
    it = PAGE.fullmatch(page)
    if not it or not it["call"]:
        return
    where = {**os.environ, "PATH": f"{folder}:{os.environ['PATH']}"}
    words = ["bash", "-o", "pipefail", "-c", it["call"]]
    ran = subprocess.run(words, env=where, stdout=subprocess.PIPE, stderr=subprocess.DEVNULL, check=False)
    said = ran.stdout.decode()
    tally.expect(said == it["answer"], code, "the example shows", said)
    refused = re.findall(r"^(?:refused|warning) (\w+)", it["answer"], re.M)
    tally.expect(refused == [code], code, "the example is refused with, or warned of by", refused)


def main():
    is_written = writes()
    tally = Tally()
    found, listed = pages()
    tally.expect([page.splitlines()[0] for page in found.values()] == listed, "the list is not the first lines")
    with tempfile.TemporaryDirectory() as folder:
        (pathlib.Path(folder) / "parbegin").symlink_to(program())
        for code, page in found.items():
            tally.expect(PAGE.fullmatch(page), code, "the page is not of its form:", page)
            try_example(tally, code, page, folder)
    told = {code for page in FORMATS for code in re.findall(r"^\| `(?:refused|warning) (\w+)", page.read_text(), re.M)}
    tally.expect(told == set(found), "the codes of docs/formats/:", told ^ set(found))
    for file in COMPLETIONS:
        missing = [code for code in found if not re.search(rf"\b{code}\b", file.read_text())]
        tally.expect(not missing, file.name, "has not the codes", missing)
    status, said = call(["explain", "N5"], b"")
    lists_all = all(f" {code}" in said.decode() for code in found)
    tally.expect(status == WORDS and lists_all, "a code that is not there:", status, said)
    text = "\n".join([HEAD, *map(section, found.values())])
    if is_written:
        DOCUMENT.write_text(text)
    tally.expect(DOCUMENT.is_file() and DOCUMENT.read_text() == text, "docs/REFUSALS.md is not what `explain` says")
    print(f"{len(found)} codes")
    tally.end("refusals")


main()
