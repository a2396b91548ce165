#!/usr/bin/env python3
"""Plans several files by the script, and compares what is told with what the program says of each.

    checks/quick/plans.py [PROGRAM]     PROGRAM is the one that ./parbegin has built if none is given

The table of plans, its CSV, which text of which file a number is when files are planned together, the places of a
circle and of a refusal in each format, and that another capital, in the text or by `--capital`, changes nothing but what
docs/formats/plans.md, "Plans", says. What is written as JSON and as SARIF must fit docs/schema/, if Python has the module jsonschema. Its
status is 0 if all is as wanted, and 1 if not.
"""
from __future__ import annotations

import csv
import json
import pathlib
import re
import subprocess
import sys
import tempfile

sys.path.insert(0, str(pathlib.Path(__file__).resolve().parents[1] / "lib"))

from calls import DEADLOCK, DEVICE, DONE, REFUSED, TOP, WORDS, Tally, call, installed  # noqa: E402
from schemas import fits, tell_if_missing  # noqa: E402

NAMES = ("9-plan/week.pb", "9-plan/roomy.pb", "9-plan/copies.pb", "devices.pb", "4-claims/too_much.pb", "hello.pb")
ODD = "=odd\nname.pb"
NEST = re.compile(r"(\w+) of text (\d+) holds (\w+) line (\d+) around (\w+) line (\d+)")
# A circle goes through these, of which the first has the texts 1 and 2, and the other one the text 3.
TOGETHER = ("two.pb", "hello.pb")


class Folder:
    """The script, as it is installed, and plans."""

    def __init__(self, folder: pathlib.Path) -> None:
        self.script, self.folder = installed(folder / "installed"), folder
        for name in NAMES:
            text = (TOP / "examples" / name).read_bytes()
            (folder / pathlib.Path(name).name).write_bytes(text)
        (folder / "wrong.pb").write_text("process p begin x := 1 end\n")
        (folder / ODD).write_bytes((folder / "hello.pb").read_bytes())
        lists = (TOP / "examples/9-plan/lists.pb").read_bytes()
        (folder / "two.pb").write_bytes((folder / "copies.pb").read_bytes() + b"%%\n" + lists)
        self.names = [*(pathlib.Path(name).name for name in NAMES), "wrong.pb", ODD, "two.pb"]

    def run(self, *words: str) -> tuple[int, str, str]:
        """Calls `plan`, and returns its status and what it wrote on both."""
        ran = subprocess.run([self.script, *words], cwd=self.folder, stdin=subprocess.DEVNULL, capture_output=True, check=False)
        return ran.returncode, ran.stdout.decode(), ran.stderr.decode()

    def own(self, name: str, *words: str) -> tuple[int, list[str]]:
        """Returns what the program by itself says of a plan."""
        status, told = call(["plan", *words], (self.folder / name).read_bytes())
        return status, told.decode().splitlines()


def shown(name: str) -> str:
    return name.replace("\n", "\\n")


def try_table(tally: Tally, it: Folder) -> None:
    """Tries a row for each plan."""
    status, told, said = it.run("plan", "--table", *it.names)
    head, *rows = told.splitlines()
    tally.expect(head.split() == ["plan", "bottleneck", "order", "capital", "(least,", "free)"], "the heads", head)
    tally.expect([row.split("  ")[0].strip() for row in rows] == [shown(name) for name in it.names], "the rows", told)
    for name, row in zip(it.names, rows):
        lines = it.own(name)[1]
        for line in lines:
            words = line.split()
            if words[1:2] == ["capital"]:
                cell = f"{words[0]} {words[2]} ({words[4]}, {words[6]})"
                tally.expect(cell in row, name, "lacks", cell, row)
            elif line in ("no request waits", "no order") or words[0] == "refused":
                tally.expect(line in row, name, "lacks", line, row)
            elif words[0] in ("bottleneck", "order") and "claim" not in words:
                tally.expect(" ".join(words[1:]) in row, name, "lacks", line, row)
    tally.expect(status == REFUSED, "the status of a table is", status)
    tally.expect(said == "parbegin: 9 plans: 7 fit, 1 with a claim over its capital, 1 refused\n", "the sums", said)
    tally.expect(it.run("plan", "--jobs=1", *it.names, "--table") == (status, told, said), "one job says another thing")
    tally.expect(it.run("--quiet", "plan", "--table", *it.names) == (status, told, ""), "it is not quiet")
    status, told, said = it.run("plan", "--table", "hello.pb", "nosuch.pb")
    is_told = said == "parbegin: no such file: nosuch.pb\nparbegin: 2 plans: 1 fit, 1 not read\n"
    tally.expect(status == DEVICE and told.count("\n") == 2 and is_told, "a missing file", status, told, said)
    tally.expect(it.run("plan", "--table", "hello.pb")[0] == DONE, "one plan")
    status, told, said = it.run("plan", "--table", "--lend", "cash", "devices.pb", "week.pb")
    tally.expect(status == DEADLOCK and said.endswith(": 1 fit, 1 may deadlock\n"), "by the cash alone", status, told, said)


def try_csv(tally: Tally, it: Folder) -> None:
    """Tries a row for each resource of each plan."""
    status, told, _ = it.run("plan", "--csv", *it.names)
    head, *rows = csv.reader(told.splitlines())
    columns = ["plan", "status", "resource", "capital", "least", "free", "bottleneck", "order", "refusal"]
    tally.expect(status == REFUSED and head == columns, "the columns", head)
    for name in it.names:
        own_status, lines = it.own(name)
        needs = [[words[0], words[2], words[4], words[6]] for words in map(str.split, lines) if words[1:2] == ["capital"]]
        found = [row[1:6] for row in rows if row[0].removeprefix("./") == shown(name)]
        tally.expect(found == [[str(own_status), *need] for need in needs or [[""] * 4]], "CSV of", name, found)
    tally.expect(f"\n./{shown(ODD)}," in told, "a name that looks like a formula", told)
    tally.expect(["wrong.pb", "1", "", "", "", "", "", "", "refused N3 at 16"] in rows, "CSV of a refused text", told)


def try_numbers(tally: Tally, it: Folder) -> None:
    """Tries which text of which file a number is."""
    said = it.run("plan", "devices.pb", "hello.pb")[2]
    tally.expect(said == "parbegin: text 1 is devices.pb, text 2 is hello.pb\n", "two files", said)
    said = it.run("plan", "two.pb", ODD)[2]
    wanted = f"parbegin: text 1 is text 1 of two.pb, text 2 is text 2 of two.pb, text 3 is {shown(ODD)}\n"
    tally.expect(said == wanted, "a file of two texts", said)
    status, told, said = it.run("plan", "two.pb", "wrong.pb")
    tally.expect(status == REFUSED and "text 3 refused N3 at 16\n" in told and "text 3 is wrong.pb\n" in said, "a refused text", told, said)
    tally.expect(it.run("--quiet", "plan", "two.pb", "hello.pb")[2] == "", "the numbers are not quiet")


def try_capitals(tally: Tally) -> None:
    """Tries other capitals: only the capital in the plan is another one, and what is compared with it."""
    text = (TOP / "examples/9-plan/week.pb").read_bytes()
    least, free, said = 3, 5, set()
    for capital in range(1, 8):
        status, told = call(["plan"], text.replace(b"tape = 4", b"tape = %d" % capital))
        tally.expect(call(["plan", f"--capital=tape={capital}"], text) == (status, told), "--capital with", capital, "tapes says another thing")
        lines = told.decode().splitlines()
        tally.expect(status == (REFUSED if capital < least else DONE), "the status with", capital, "tapes is", status)
        wanted = {f"tape capital {capital} least {least} free {free}", "bottleneck tape" if capital < free else "no request waits"}
        tally.expect(wanted <= set(lines), "a plan with", capital, "tapes", lines)
        said.add(tuple(line for line in lines if line not in wanted))
    tally.expect(len(said) == 1, "another capital changes other lines", said)


def try_capital_of_files(tally: Tally, it: Folder) -> None:
    """Tries the option in the table and in the formats, and that its refusals are of no file."""
    status, told, said = it.run("plan", "--table", "--capital=tape=1", "--capital", "disk=0", "devices.pb", "week.pb", "hello.pb")
    rows = [row for row in told.splitlines() if row.startswith(("devices.pb", "week.pb"))]
    is_told = len(rows) == 2 and all("tape 1 (" in row and "disk 0 (" in row for row in rows)
    tally.expect(status == REFUSED and is_told and "refused N3 tape" in told, "a table with other capitals", told, said)
    for words, part in ((["--capital=tape=1"], "error C1: with the capitals of --capital "), (["--capital=reel=1"], "error N3: --capital names a resource ")):
        for form in ("gcc", "sarif", "json"):
            status, told, said = it.run("plan", "--format", form, *words, "week.pb", "hello.pb")
            is_of_none = status == REFUSED and said.startswith(part) and "error" not in told
            tally.expect(is_of_none, words, "is told of a file by", form, told, said)
        status, told, said = it.run("plan", *words, "week.pb")
        tally.expect(status == REFUSED and said.startswith(part), words, "is told so", said)
    tally.expect(it.run("plan", "--capital=tape=5", "--format=gcc", "week.pb") == (DONE, "", ""), "a plan with enough tapes")


def nests(it: Folder) -> list[tuple[str, str, str, int, str, int]]:
    """Returns the holds of the circle of two.pb, as the program tells them, by lines of the file: the process, its text, and each
    resource with its line."""
    first = it.own("two.pb", "--lend", "cash")[1]
    before = [0, (it.folder / "copies.pb").read_bytes().count(b"\n") + 1]
    found = [line.groups() for line in map(NEST.fullmatch, first) if line]
    return [(p, n, outer, int(at) + before[int(n) - 1], inner, int(inside) + before[int(n) - 1]) for p, n, outer, at, inner, inside in found]


def try_gcc(tally: Tally, it: Folder) -> None:
    """Tries the places of a circle and of refusals, as compilers write them."""
    for lend, status, kind in (("cash", DEADLOCK, "error"), ("banker", DONE, "warning")):
        ended, told, said = it.run("plan", "--format", "gcc", f"--lend={lend}", *TOGETHER)
        head, *notes = told.splitlines()
        wanted = []
        for process, _, outer, at, inner, inside in nests(it):
            wanted += [f"two.pb:{at}:1: note: {process} holds {outer}", f"two.pb:{inside}:1: note: {process} asks for {inner}"]
        is_told = head.startswith(wanted[0].partition(" ")[0] + f" {kind}: circle: nested holds of ")
        tally.expect(is_told and notes == wanted and len(notes) == 4, "a circle by gcc", told, wanted)
        tally.expect((ended, said) == (status, ""), "a circle ends with", ended, said)
    tally.expect(it.run("plan", "--format=gcc", "week.pb") == (DONE, "", ""), "a plan with nothing to tell")
    status, told, _ = it.run("plan", "two.pb", "wrong.pb", "--format", "gcc")
    tally.expect(status == REFUSED and told.startswith("wrong.pb:1:17: error: N3: "), "a refused text by gcc", told)
    status, told, _ = it.run("plan", "--format", "gcc", "hello.pb", "too_much.pb")
    wanted = ["too_much.pb:5:20: error: C1: ", "too_much.pb:5:20: note: ", "too_much.pb:5:38: note: "]
    tally.expect(status == REFUSED and all(line in told for line in wanted), "a claim over its capital by gcc", told)
    status, told, said = it.run("plan", "--format", "gcc", "two.pb", "nosuch.pb")
    tally.expect((status, told, said) == (DEVICE, "", "parbegin: no such file: nosuch.pb\n"), "a missing file by gcc", status, told, said)


def try_json(tally: Tally, it: Folder) -> None:
    """Tries the objects of a plan, with files."""
    status, told, _ = it.run("plan", "--format", "json", "--lend", "cash", *TOGETHER)
    said = [json.loads(line) for line in told.splitlines()]
    found = [(one["process"], str(one["text"]), one["outer"], one["outer_line"], one["inner"], one["inner_line"]) for one in said if one["kind"] == "nest"]
    tally.expect(status == DEADLOCK and found == nests(it), "a circle in JSON", found)
    places = {(one["file"], one["text"]) for one in said if one["kind"] in ("claim", "nest")}
    tally.expect({("two.pb", 1), ("two.pb", 2)} <= places, "the files in JSON", places)
    for names in (["two.pb", "wrong.pb"], ["too_much.pb", ODD], ["nosuch.pb", "hello.pb"], ["."], TOGETHER):
        status, told, _ = it.run("plan", "--format=json", *names)
        for line in told.splitlines():
            fits(tally, "plan", json.loads(line))
        last = json.loads(told.splitlines()[-1])
        kinds = {REFUSED: "refused", DEVICE: "not read", DONE: "nest"}
        tally.expect(last["kind"] == kinds[status] and (status == DONE or last["file"] == names[names[0] == "two.pb"]), "JSON of", names, last)


def try_sarif(tally: Tally, it: Folder) -> None:
    """Tries a document of a plan."""
    for names, status, codes in ((TOGETHER, DONE, ["circle"]), (("hello.pb", "wrong.pb"), REFUSED, ["N3"]), (("too_much.pb",), REFUSED, ["C1", "circle"]),
                                 (("hello.pb",), DONE, []), (("nosuch.pb",), DEVICE, [])):
        ended, told, _ = it.run("plan", "--format", "sarif", *names)
        document = json.loads(told)
        fits(tally, "sarif", document)
        run = document["runs"][0]
        tally.expect(ended == status and [one["ruleId"] for one in run["results"]] == codes, "SARIF of", names, run["results"])
        tally.expect(run["invocations"][0]["executionSuccessful"] == (status != DEVICE), "the invocation of", names)


def try_words(tally: Tally, it: Folder) -> None:
    """Tries words that are refused."""
    for words, part in [
        (["plan", "--table"], "takes files"), (["plan", "--table", "--fly", "hello.pb"], "'--fly'"), (["--json", "plan", "--table", "hello.pb"], "--json"),
        (["plan", "--table", "--table", "hello.pb"], "multiple times"), (["plan", "--table", "--jobs", "0", "hello.pb"], "'--jobs'"),
        (["plan", "--table", "--lend", "till", "hello.pb"], "banker or cash"), (["plan", "--format", "xml", "hello.pb"], "--format wants"),
        (["plan", "--format", "gcc", "--lend", "till", "hello.pb"], "banker or cash"), (["plan", "--table", "--format", "gcc", "hello.pb"], "'--format'"),
        (["--json", "plan", "--format", "json", "hello.pb"], "--json"), (["plan", "--table=x", "hello.pb"], "unexpected argument"),
        (["plan", "--table", "--capital=tape", "hello.pb"], "'--capital'"), (["plan", "--format=gcc", "--capital", "tape=1", "--capital=tape=1", "hello.pb"], "'--capital'"),
    ]:
        status, told, said = it.run(*words)
        tally.expect(status == WORDS and not told and part in said, words, status, told, said)
    tally.expect("--table" in it.run("plan", "--help")[1], "help")


def main() -> None:
    tally = Tally()
    with tempfile.TemporaryDirectory(prefix="parbegin-plans-") as name:
        it = Folder(pathlib.Path(name))
        for attempt in (try_table, try_csv, try_numbers, try_capital_of_files, try_gcc, try_json, try_sarif, try_words):
            attempt(tally, it)
    try_capitals(tally)
    tell_if_missing()
    tally.end("plans")


main()
