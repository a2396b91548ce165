#!/usr/bin/env python3
"""Grades a folder of submissions by the script, and compares what is told with what the program says of each.

    checks/quick/grades.py [PROGRAM]     PROGRAM is the one that ./parbegin has built if none is given

Lines, CSV, the table at a terminal, and the report for a browser, in which the page of each run must have the prints that
`replay` writes. Its status is 0 if all is as wanted, and 1 if not.
"""
from __future__ import annotations

import csv
import html
import json
import os
import pathlib
import re
import signal
import subprocess
import sys
import tempfile
import time
from urllib.parse import unquote

sys.path.insert(0, str(pathlib.Path(__file__).resolve().parents[1] / "lib"))

from calls import DEVICE, DONE, REFUSED, TOP, WORDS, Tally, call, installed  # noqa: E402
from pseudo_terminal import Terminal  # noqa: E402

WANTED = "p.0 print 2\n"
UNEXPECTED = 10
# What is told of a run that is not as expected: the file, what was wanted and what came.
CAME = {
    "hurry.pb": ("p.0 print 2", "p.0 print 1"), "proof.pb": ("p.0 print 2", "no more, p.0 faulted in line 9: 2 div 0"),
    "halves.pb": ("", ""), "anna/=late.pb": ("p.0 print 2", "p.0 print 1"),
}


class Class:
    """The script, as it is installed, and a folder of submissions with the exercise beside it."""

    def __init__(self, folder: pathlib.Path) -> None:
        self.script, self.folder = installed(folder / "installed"), folder
        self.handed_in = folder / "handed_in"
        (self.handed_in / "anna").mkdir(parents=True)
        for file in (TOP / "examples/10-grading").glob("*.pb"):
            # (as some editors do, with no line feed at the end)
            (self.handed_in / file.name).write_text(file.read_text().rstrip("\n"))
        (self.handed_in / "anna/=late.pb").write_bytes((self.handed_in / "hurry.pb").read_bytes())
        (self.handed_in / "odd\nname %.pb").write_text("process p begin print 2 end")
        (self.handed_in / "notes.txt").write_text("no text\n")
        self.write("wanted.txt", WANTED)

    def write(self, name: str, text: str) -> None:
        """Writes a file beside the folder."""
        (self.folder / name).write_text(text)

    def run(self, *words: str) -> tuple[int, str, str]:
        """Calls `grade`, and returns its status and what it wrote on both."""
        ran = subprocess.run([self.script, "grade", *words], cwd=self.folder, stdin=subprocess.DEVNULL, capture_output=True, check=False)
        return ran.returncode, ran.stdout.decode(), ran.stderr.decode()

    def names(self) -> list[str]:
        """Returns the paths of the submissions, folder by folder in order."""
        own = sorted(it.name for it in self.handed_in.glob("*.pb"))
        return [*own, "anna/=late.pb"]

    def judged(self, name: str, *words: str) -> tuple[int, list[str]]:
        """Returns what the program by itself says of a submission."""
        given = (self.handed_in / name).read_bytes() + b"\n%%\n" + WANTED.encode()
        status, told = call(["--quiet", "outcomes", "--expect", *words], given)
        return status, told.decode().splitlines()


def shown(name: str) -> str:
    return name.replace("\n", "\\n")


def try_lines(tally: Tally, it: Class) -> None:
    """Tries a line for each submission."""
    status, told, said = it.run("handed_in", "wanted.txt")
    wanted = [f"{shown(name)}: {it.judged(name)[1][-1]}" for name in it.names()]
    tally.expect(told.splitlines() == wanted, "the lines", told)
    tally.expect(status == UNEXPECTED, "the status of a class is", status)
    tally.expect(said == "parbegin: 10 submissions: 3 as expected, 5 not as expected, 2 refused\n", "the sums", said)
    tally.expect(it.run("--jobs=1", "handed_in", "wanted.txt") == (status, told, said), "one job says another thing")
    cash = it.run("handed_in", "--lend", "cash", "wanted.txt")[1]
    tally.expect("keys.pb: not as expected: a deadlock\n" in cash, "by the cash alone", cash)
    alone = it.folder / "alone"
    alone.mkdir()
    (alone / "halves.pb").write_bytes((it.handed_in / "halves.pb").read_bytes())
    tally.expect(it.run("alone", "wanted.txt") == (DONE, "halves.pb: as expected\n", "parbegin: 1 submission: 1 as expected\n"), "one")


def try_exercises(tally: Tally, it: Class) -> None:
    """Tries comments and options of an exercise."""
    (it.folder / "order").mkdir()
    (it.folder / "order/a.pb").write_text("process p begin print 1; print 2 end\n")
    it.write("order.txt", "// Print both.\n// --any-order --states 5000\np.0 print 2\np.0 print 1\n")
    tally.expect(it.run("order", "order.txt")[:2] == (DONE, "a.pb: as expected\n"), "in any order")
    it.write("strict.txt", "p.0 print 2\np.0 print 1\n")
    tally.expect(it.run("order", "strict.txt")[0] == UNEXPECTED, "not in any order")
    tally.expect(it.run("--any-order", "order", "strict.txt")[0] == DONE, "an option of the call")
    it.write("cash.txt", f"// --lend cash\n{WANTED}")
    tally.expect("keys.pb: not as expected" in it.run("handed_in", "cash.txt")[1], "the lender of an exercise")
    tally.expect("keys.pb: as expected" in it.run("--lend", "banker", "handed_in", "cash.txt")[1], "the lender of the call")
    it.write("required.txt", f"// With arms.\nhas a parbegin\n{WANTED}")
    told = it.run("--csv", "handed_in", "required.txt")[1]
    for row in ("halves.pb,0,as expected,,", "keys.pb,10,not as expected: has a parbegin,,", "hurry.pb,10,not as expected: other prints,p.0 print 2,p.0 print 1"):
        tally.expect(f"\n{row}\n" in told, "what is required beside the prints", row, told)
    it.write("claims.txt", f"claims at least 1 tape\n{WANTED}")
    (it.folder / "claims").mkdir()
    held = "begin hold 1 of {0} do print 2 od end\n"
    for name, resource in (("disk.pb", "disk"), ("tape.pb", "tape")):
        (it.folder / "claims" / name).write_text(f"resource {resource} = 1; process p {held.format(resource)}")
    (it.folder / "claims/none.pb").write_text("process p begin print 2 end\n")
    status, told, said = it.run("claims", "claims.txt")
    unmet = "not as expected: claims at least 1 tape"
    tally.expect((status, told) == (UNEXPECTED, f"disk.pb: {unmet}\nnone.pb: {unmet}\ntape.pb: as expected\n"), "a resource that is not there", told)
    tally.expect(said == "parbegin: 3 submissions: 1 as expected, 2 not as expected\n", "a resource that is not there", said)
    it.write("dos.txt", WANTED.replace("\n", "\r\n"))
    status, told, said = it.run("order", "dos.txt")
    is_told = "the lines of dos.txt end with a carriage return: save it with the line ends of Unix: a line feed alone" in said
    tally.expect(status == REFUSED and is_told, "carriage returns", told, said)
    (it.folder / "names").mkdir()
    for name, text in (("arms.pb", "process p begin print 2 end\n"), ("q.pb", "process q begin print 2 end\n")):
        (it.folder / "names" / name).write_text(text)
    it.write("names.txt", f"// Print 2.\n{WANTED}")
    why = "names.txt line 2: there is no process `p`; in q.pb there is q"
    status, told, said = it.run("--csv", "names", "names.txt")
    tally.expect(status == REFUSED and f"q.pb,1,refused K1 at 0,,{why}\n" in told, "a process that is not there", told)
    tally.expect(said == f"parbegin: {why}\nparbegin: 2 submissions: 1 as expected, 1 refused\n", "a process that is not there", said)
    it.write("arms.txt", WANTED.replace(".0", ".3"))
    told = it.run("--csv", "names", "arms.txt")[1]
    tally.expect("arms.txt line 1: process p has no arm `3`; in arms.pb its only arm is 0, its body\"\n" in told, "an arm that is not there", told)
    for text in ("// --fly\n", "// --any-order x\n", "// --lend till\n"):
        it.write("wrong.txt", text)
        status, told, said = it.run("order", "wrong.txt")
        tally.expect(status == WORDS and not told and said, "an exercise with", text, status, told, said)


def try_reasons(tally: Tally, it: Class) -> None:
    """Tries what is told of texts that are refused: the line of a wrong word, and what is wrong with a line of the exercise."""
    (it.folder / "reasons").mkdir()
    for name, text in (("a.pb", "process p\nbegin\n  prabegin\n    skip\n  parend\nend\n"), ("b.pb", "process p begin print 2 end\n"),
                       ("c.pb", "process p begin print 3 end\n")):
        (it.folder / "reasons" / name).write_text(text)
    it.write("form.txt", f"has a parbegn\n{WANTED}")
    _, told, said = it.run("--csv", "reasons", "form.txt")
    tally.expect("a.pb,1,refused P1 at 31,,line 3: `prabegin` is not a word of the language\n" in told, "the line of a word", told)
    is_told = said.startswith("parbegin: form.txt line 1: this is neither a requirement nor a print line: did you mean `has a parbegin`?")
    tally.expect(is_told and " (1 more is refused by a line of it)\n" in said, "what a line of the exercise has to be", said)
    it.write("late.txt", f"{WANTED}has a hold\n")
    said = it.run("reasons", "late.txt")[2]
    is_told = said.startswith("parbegin: late.txt line 2: a requirement stands before the print lines: move this line up")
    tally.expect(is_told, "a requirement after the print lines", said)
    (it.folder / "reasons/d.pb").write_text("process p begin print 3 end\n%%\np.0 print 3\n")
    os.mkfifo(it.folder / "reasons/e.pb")
    _, told, said = it.run("--csv", "reasons", "wanted.txt")
    tally.expect('\nd.pb,1,refused K1 at 12,,"it has a line %%, and a submission is one text"\n' in told, "a text with a line %%", told)
    tally.expect(said == "parbegin: e.pb: not a file\nparbegin: 5 submissions: 1 as expected, 1 not as expected, 2 refused, 1 not read\n", "a pipe", said)
    it.write("marked.txt", f"\ufeff{WANTED}")
    said = it.run("reasons", "marked.txt")[2]
    tally.expect(said.startswith("parbegin: marked.txt begins with a byte order mark"), "a byte order mark", said)


def try_csv(tally: Tally, it: Class) -> None:
    """Tries CSV."""
    status, told, _ = it.run("--csv", "handed_in", "wanted.txt")
    head, *rows = csv.reader(told.splitlines())
    tally.expect(status == UNEXPECTED and head == ["submission", "status", "verdict", "wanted", "came"], "the columns", head)
    for name, row in zip(it.names(), rows):
        own_status, lines = it.judged(name)
        tally.expect(row[:3] == [shown(name), str(own_status), lines[-1]], "CSV", row)
        if name in CAME:
            tally.expect(tuple(row[3:]) == CAME[name], "what was wanted and came", row)
        if own_status == REFUSED:
            tally.expect(row[3] == "" and row[4], "why a text is refused", row)
    tally.expect(len(rows) == len(it.names()), "the rows of CSV", told)
    (it.folder / "sheet").mkdir()
    (it.folder / "sheet/=1+1.pb").write_text("process p begin print 2 end\n")
    tally.expect("\n./=1+1.pb,0,as expected,,\n" in it.run("--csv", "sheet", "wanted.txt")[1], "a name that looks like a formula")


def try_table(tally: Tally, it: Class) -> None:
    """Tries the table at a terminal."""
    for columns in (200, 60):
        terminal = Terminal([it.script, "grade", "handed_in", "wanted.txt"], str(it.folder), columns)
        status = terminal.end()
        head, *rows, sums = terminal.shown.splitlines()
        tally.expect(status == UNEXPECTED and sums.startswith("parbegin: 10 submissions: "), "a table ends", sums)
        tally.expect(head.split()[:2] == ["submission", "verdict"] and len(rows) == 10, "a table", terminal.shown)
        tally.expect(all(len(row) <= columns for row in (head, *rows)), "a row is too wide", terminal.shown)
        late = next((row for row in rows if row.startswith("hurry.pb")), "")
        told = ["hurry.pb", "not as expected: other prints", "p.0 print 2", "p.0 print 1"]
        tally.expect(columns < 100 or re.split("  +", late) == told, "a row", late)


def try_report(tally: Tally, it: Class) -> None:
    """Tries the report, and the page of each run."""
    status, _, said = it.run("--html", "a report.html", "handed_in", "wanted.txt")
    report = (it.folder / "a report.html").read_text()
    tally.expect(status == UNEXPECTED and "10 submissions" in report and said.endswith("2 refused\n"), "the status of a report", status, said)
    linked = re.findall(r'<td>([^<]*)</td><td>([^<]*)</td>.*?(?:<a href="([^"]*)">|</tr>)', report, re.S)
    tally.expect([html.unescape(name) for name, _, _ in linked] == [shown(name) for name in it.names()], "the rows of a report", linked)
    for name, (_, verdict, page) in zip(it.names(), linked):
        own_status, lines = it.judged(name)
        tally.expect(verdict == lines[-1], "a verdict of a report", verdict)
        has_run = own_status == UNEXPECTED and ("reached by" in lines or lines[-1].endswith(" does not end"))
        tally.expect(bool(page) == has_run, name, "has a page:", page)
        if page:
            try_page(tally, (it.folder / unquote(page)).read_text(), lines, name)
    tally.expect("<details>" in report and "error P1: " in report, "the message of a refusal")
    tally.expect(it.run("--html", "nosuch/report.html", "handed_in", "wanted.txt")[0] == UNEXPECTED, "a report that cannot be written")
    tally.expect("nosuch" in it.run("--html", "nosuch/report.html", "handed_in", "wanted.txt")[2], "what is said of such a report")


def try_page(tally: Tally, page: str, lines: list[str], name: str) -> None:
    """Compares the events of the run of a page with the prints that the program told."""
    data = json.loads(re.search(r'<script type="application/json" id="data">(.*?)</script>', page, re.S)[1])
    told = json.dumps(data["run"])
    for line in lines:
        if " print " in line:
            tally.expect(line in told, name, "the page has no", line)
    tally.expect(name.rpartition("/")[2] in data["title"] or "\n" in name, "the title of a page", data["title"])


def try_end(tally: Tally, it: Class) -> None:
    """Ends the script while it judges texts whose search takes long; no call of the program goes on."""
    arms = "; ".join(f"while {name} < 90 do {name} := {name} + 1 od" for name in "abcd")
    (it.folder / "long").mkdir()
    for name in ("a.pb", "b.pb"):
        (it.folder / "long" / name).write_text(f"process p begin integer a, b, c, d; parbegin {arms} parend; print a end\n")
    words = [it.script, "grade", "--jobs", "2", "--states", "4000000", "long", "wanted.txt"]
    with subprocess.Popen(words, cwd=it.folder, stdout=subprocess.PIPE, stderr=subprocess.PIPE, start_new_session=True) as script:
        time.sleep(2)
        script.terminate()
        began = time.monotonic()
        script.communicate()
    tally.expect(script.returncode == 128 + signal.SIGINT and time.monotonic() - began < 5, "the end of the script", script.returncode)
    group = [path for path in pathlib.Path("/proc").glob("[0-9]*/stat") if group_of(path) == script.pid]
    tally.expect(not group, "calls go on", group)


def group_of(path: pathlib.Path) -> int:
    """Returns the process group of a process, or 0 if it is not there any more."""
    try:
        return int(path.read_text().rpartition(")")[2].split()[2])
    except OSError:
        return 0


def try_words(tally: Tally, it: Class) -> None:
    """Tries words that are refused, and files that are not there."""
    for words, wanted, part in [
        (["handed_in"], WORDS, "takes a folder and an exercise"), ([], WORDS, "Usage: parbegin grade "),
        (["wanted.txt", "handed_in"], WORDS, "the folder comes first"), (["--fly", "handed_in", "wanted.txt"], WORDS, "'--fly'"),
        (["--jobs", "0", "handed_in", "wanted.txt"], WORDS, "'--jobs'"), (["--states", "x", "handed_in", "wanted.txt"], WORDS, "'x'"),
        (["--csv", "--csv", "handed_in", "wanted.txt"], WORDS, "multiple times"), (["handed_in", "nosuch"], DEVICE, "no such file: nosuch"),
        (["nosuch", "wanted.txt"], DEVICE, "nosuch: no such folder"), (["installed", "wanted.txt"], DEVICE, "end in .pb"),
        (["handed_in", "wanted.txt", "--states"], WORDS, "a value is required"), (["--json", "handed_in", "wanted.txt"], WORDS, "--json"),
    ]:
        status, told, said = it.run(*words)
        tally.expect(status == wanted and not told and part in said, words, status, told, said)
    tally.expect(it.run("--help")[:2] == it.run("-h")[:2] and "FOLDER EXERCISE" in it.run("--help")[1], "help")
    tally.expect(it.run("--quiet", "handed_in", "wanted.txt")[2] == "", "it is not quiet")
    with open("/dev/full", "w") as full:
        ran = subprocess.run([it.script, "grade", "handed_in", "wanted.txt"], cwd=it.folder, stdout=full, stderr=subprocess.PIPE, check=False)
    tally.expect((ran.returncode, ran.stderr) == (DEVICE, b"parbegin: standard output: No space left on device\n"), "a full device", ran)


def main() -> None:
    tally = Tally()
    with tempfile.TemporaryDirectory(prefix="parbegin-grades-") as name:
        it = Class(pathlib.Path(name))
        for attempt in (try_lines, try_exercises, try_reasons, try_csv, try_table, try_report, try_end, try_words):
            attempt(tally, it)
    tally.end("grades")


main()
