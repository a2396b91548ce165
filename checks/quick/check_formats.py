#!/usr/bin/env python3
"""Checks many files with the script's `check`, in each format, and compares what is told with the program's own lines.

    checks/quick/check_formats.py [PROGRAM]     PROGRAM is the one that ./parbegin has built if none is given

What is written as JSON and as SARIF must fit docs/schema/, if Python has the module jsonschema; if not, that is said. Its
status is 0 if all is as wanted, and 1 if not.
"""
from __future__ import annotations

import json
import pathlib
import subprocess
import sys
import tempfile

sys.path.insert(0, str(pathlib.Path(__file__).resolve().parents[1] / "lib"))

from calls import DEVICE, DONE, REFUSED, WORDS, Tally, call, installed  # noqa: E402
from schemas import fits, tell_if_missing  # noqa: E402

FINE = b"process p begin skip end\n"
FILES = {
    "fine.pb": FINE,
    "name.pb": b"process p\nbegin\n  x := 1\nend\n",
    "claim.pb": b"resource tape = 1;\nprocess p\nbegin\n  hold 1 of tape do\n    hold 1 of tape do skip od\n  od\nend\n",
    "several.pb": FINE + b"%%\nprocess p begin print y end\n%%\n" + FINE,
    "early.pb": b"process p begin",
    "many.pb": b"".join(b"process p%d begin skip end\n" % it for it in range(65)),
    "odd name %.pb": b"process p begin print 1; end\n",
    "a\n\x1b[1m.pb": b"process p begin print y end\n",
}
# Names as text and gcc show them.
SHOWN = {name: name.replace("\n", "\\n").replace("\x1b", "\\x1b") for name in FILES}
# The first place of each refusal: the file, the line, the column, the code.
PLACES = [
    ("name.pb", 3, 3, "N3"), ("claim.pb", 4, 3, "C1"), ("several.pb", 3, 23, "N3"), ("early.pb", 1, 16, "P1"),
    ("many.pb", 65, 1, "N1"), ("odd name %.pb", 1, 26, "P1"), ("a\n\x1b[1m.pb", 1, 23, "N3"),
]
# Texts after another one, with the message of each and the further places that it shows, in lines of the file.
FURTHER = (
    (b"process p begin\n  while 1 do skip\nend\n", "`od` is missing: the `while` of line 4 is not closed", [(4, 3, "it is opened here")]),
    (b"process p begin\n  integer x,\n  x; skip end\n", "integer x is declared twice in process p", [(4, 11, "first declared here")]),
    (b"process p begin\n  integer count; print cuont end\n", "integer cuont is not declared in process p",
     [(4, 11, "`count` is declared here")]),
    (b"process p begin\n  prnt 1 end\n", "`prnt` is not a word of the language", [(4, 3, "`prnt`")]),
)
# A text with each warning, and their places behind a text of a line and a line `%%`.
WARNED = b"resource tape = 2;\nprocess p\nbegin\n  integer x;\n  parbegin x := 1 parend\nend\n"
WARNINGS = [(3, 10, "W3"), (6, 11, "W2"), (7, 3, "W1")]
NAMES = [*FILES, "nosuch.pb", "folder"]
# Why those that are no files cannot be read.
UNREAD = {"nosuch.pb": "no such file", "folder": "Is a directory"}


class Script:
    """The script, as it is installed, in a folder with the files."""

    def __init__(self, folder: pathlib.Path) -> None:
        self.script, self.folder = installed(folder / "installed"), folder
        for name, given in FILES.items():
            (folder / name).write_bytes(given)
        (folder / "folder").mkdir()

    def run(self, *words: str, given: bytes = b"") -> tuple[int, str, str]:
        """Calls the script, and returns its status and what it wrote on both."""
        ran = subprocess.run([self.script, *words], cwd=self.folder, input=given, capture_output=True, check=False)
        return ran.returncode, ran.stdout.decode(), ran.stderr.decode()


def own_lines(name: str) -> list[str]:
    """Returns what the program by itself says of a file."""
    return call(["check"], FILES[name])[1].decode().splitlines()


def try_text(tally: Tally, it: Script) -> None:
    """Tries the lines of the program, with names before them."""
    status, told, said = it.run("check", *NAMES)
    tally.expect(told.splitlines() == [f"{SHOWN[name]}: {line}" for name in FILES for line in own_lines(name)], "text", told)
    tally.expect(status == DEVICE, "the status with a missing file is", status)
    tally.expect("parbegin: no such file: nosuch.pb\n" in said, "nothing is said of a missing file")
    tally.expect("parbegin: folder: Is a directory\n" in said, "nothing is said of a folder")
    tally.expect(said.endswith("parbegin: 10 files: 1 accepted, 7 refused, 2 not read\n"), "the sums", said)
    tally.expect(it.run("check", *FILES)[0] == REFUSED, "the status of refused files")
    tally.expect(it.run("check", "fine.pb") == (DONE, "fine.pb: ok\n", ""), "one file")
    tally.expect(it.run("check", "--jobs", "1", *NAMES)[:2] == (status, told), "one job says another thing than several")
    tally.expect(it.run("--quiet", "check", *FILES)[2] == "", "it is not quiet")


def try_gcc(tally: Tally, it: Script) -> None:
    """Tries lines as compilers write them."""
    _, told, _ = it.run("check", "--format", "gcc", *NAMES)
    errors = [line.split(": ")[:3] for line in told.splitlines() if ": error: " in line]
    wanted = [[f"{SHOWN[name]}:{line or 1}:{column or 1}", "error", code] for name, line, column, code in PLACES]
    tally.expect(errors == wanted, "gcc", errors)
    tally.expect("claim.pb:5:5: note: 1 of tape\n" in told, "the second place of a claim")
    tally.expect(all(": note: " in line or ": error: " in line for line in told.splitlines()), "another line", told)


def try_json(tally: Tally, it: Script) -> None:
    """Tries an object for each text."""
    status, told, _ = it.run("check", "--format=json", "folder", *NAMES)
    said = [json.loads(line) for line in told.splitlines()]
    for value in said:
        fits(tally, "check", value)
    unread = [value for value in said if not value.get("read", True)]
    wanted = [{"file": name, "accepted": False, "read": False, "message": UNREAD[name]} for name in ("folder", *UNREAD)]
    tally.expect(unread == wanted and said[0] == wanted[0] and status == DEVICE, "JSON of files that cannot be read", unread, status)
    objects = [value for value in said if value not in unread]
    lines = [line for name in FILES for line in own_lines(name)]
    tally.expect([value.get("refusal", "ok") for value in objects] == lines, "the lines of JSON")
    refused = [value for value in objects if not value["accepted"]]
    found = [(it["file"], it.get("line"), it.get("column"), it["code"]) for it in refused]
    tally.expect(found == PLACES, "the places of JSON", found)
    for value in refused:
        if "offset" in value:
            before = FILES[value["file"]][: value["offset"]]
            place = before.count(b"\n") + 1, len(before) - before.rfind(b"\n")
            tally.expect(place == (value["line"], value["column"]), "an offset", value)
    _, told, _ = it.run("check", "--format", "json", given=FILES["name.pb"])
    tally.expect(json.loads(told)["file"] == "<stdin>", "JSON of standard input")


def try_warnings(tally: Tally, it: Script) -> None:
    """Tries warnings in each format, of a text behind another one."""
    (it.folder / "warned.pb").write_bytes(WARNED)
    status, told, said = it.run("check", "--warn", "warned.pb", "fine.pb")
    own = [f"warned.pb: {line}" for line in call(["check", "--warn"], WARNED)[1].decode().splitlines()]
    tally.expect((status, told.splitlines()) == (DONE, [*own, "fine.pb: ok"]), "warnings as text", status, told)
    tally.expect("warned.pb: warning W2: the integer `x` of process `p` is never read\n  --> line 4, column 11\n" in said,
                 "warnings in words", said)
    lines = "".join(f"{line}\n" for line in own)
    tally.expect(it.run("--quiet", "check", "--warn", "warned.pb") == (DONE, lines, ""), "warnings are not quiet")
    several = FINE + b"%%\n" + WARNED
    _, told, _ = it.run("check", "--warn", "--format", "gcc", given=several)
    wanted = [[f"<stdin>:{line}:{column}", "warning", code] for line, column, code in WARNINGS]
    tally.expect([line.split(": ")[:3] for line in told.splitlines()] == wanted, "warnings as compilers write them", told)
    status, told, _ = it.run("check", "--warn", "--format", "json", given=several)
    fine, warned = map(json.loads, told.splitlines())
    for value in (fine, warned):
        fits(tally, "check", value)
    found = [(at["line"], at["column"], at["code"]) for at in warned["warnings"]]
    tally.expect((status, fine["warnings"], found) == (DONE, [], WARNINGS), "warnings as JSON", fine, warned)
    _, told, _ = it.run("check", "--warn", "--format", "sarif", given=several)
    document = json.loads(told)
    fits(tally, "sarif", document)
    levels = [(at["ruleId"], at["level"]) for at in document["runs"][0]["results"]]
    tally.expect(levels == [(code, "warning") for *_, code in WARNINGS], "warnings in SARIF", levels)


def try_further_places(tally: Tally, it: Script) -> None:
    """Tries the places that a message shows beside its first one, and the lines that it names."""
    for given, message, places in FURTHER:
        _, told, _ = it.run("check", "--format", "json", given=FINE + b"%%\n" + given)
        found = json.loads(told.splitlines()[-1])
        fits(tally, "check", found)
        further = [(place["line"], place["column"], place.get("what")) for place in found["places"][1:]]
        tally.expect((found["message"], further) == (message, places), "further places", found)
        _, told, _ = it.run("check", "--format", "gcc", given=FINE + b"%%\n" + given)
        lines = [f"<stdin>:{line}:{column}: note: {what}" for line, column, what in places]
        tally.expect(told.splitlines()[1 : 1 + len(lines)] == lines, "further places as compilers write them", told)


def try_sarif(tally: Tally, it: Script) -> None:
    """Tries one document for all."""
    _, told, _ = it.run("check", "--format", "sarif", *NAMES)
    document = json.loads(told)
    fits(tally, "sarif", document)
    run = document["runs"][0]
    codes = [rule["id"] for rule in run["tool"]["driver"]["rules"]]
    tally.expect(codes == sorted({code for *_, code in PLACES}), "the rules", codes)
    places = [result["locations"][0]["physicalLocation"] for result in run["results"]]
    regions = [(at.get("region", {}).get("startLine"), at.get("region", {}).get("startColumn")) for at in places]
    tally.expect(regions == [(line, column) for _, line, column, _ in PLACES], "the regions", regions)
    uris = [it["artifactLocation"]["uri"] for it in places[-2:]]
    tally.expect(uris == ["odd%20name%20%25.pb", "a%0A%1B%5B1m.pb"], "the address of a file", uris)
    told = [(at["locations"][0]["physicalLocation"]["artifactLocation"]["uri"], at["message"]["text"])
            for at in run["invocations"][0]["toolExecutionNotifications"]]
    is_told = told == list(UNREAD.items()) and not run["invocations"][0]["executionSuccessful"]
    tally.expect(is_told, "SARIF of files that cannot be read", run["invocations"])
    fine = json.loads(it.run("check", "--format", "sarif", "fine.pb")[1])
    fits(tally, "sarif", fine)
    tally.expect(fine["runs"][0]["invocations"] == [{"executionSuccessful": True}], "SARIF of files that can be read", fine)


def try_many(tally: Tally, it: Script) -> None:
    """Tries more files than one call takes, of which some are refused."""
    names = [f"{number}.pb" for number in range(600)]
    for number, name in enumerate(names):
        (it.folder / name).write_bytes(FILES["name.pb"] if number % 50 == 0 else FINE)
    status, told, said = it.run("check", *names)
    wanted = [f"{name}: {'refused N3 at 18' if number % 50 == 0 else 'ok'}" for number, name in enumerate(names)]
    tally.expect((status, told.splitlines()) == (REFUSED, wanted), "many files", told)
    tally.expect(said.count("\n  --> line 3, column 3\n") == 12, "the messages of many files")


def try_words(tally: Tally, it: Script) -> None:
    """Tries words that are refused."""
    for words in (["--format", "xml"], ["--jobs", "0"], ["--heap", "1"], ["--fly"]):
        status, told, said = it.run("check", *words, "fine.pb")
        tally.expect(status == WORDS and not told and said, "words", words, status, told)
    status, told, said = it.run("findings", given=b"fine.pb")
    is_told = (status, told) == (REFUSED, "refused input\n") and said.startswith("error input: ")
    tally.expect(is_told, "findings in what names no files", status, told, said)


def main() -> None:
    tally = Tally()
    with tempfile.TemporaryDirectory(prefix="parbegin-formats-") as folder:
        it = Script(pathlib.Path(folder))
        for attempt in (try_text, try_gcc, try_json, try_warnings, try_further_places, try_sarif, try_many, try_words):
            attempt(tally, it)
    tell_if_missing()
    tally.end("check formats")


main()
