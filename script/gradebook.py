"""What `grade` writes: a table at a terminal, lines, CSV, and a report for a browser with pages of runs."""
from __future__ import annotations

import csv
import html
import io
import os
import sys
from collections.abc import Iterable, Iterator
from concurrent.futures import Executor
from typing import TYPE_CHECKING
from urllib.parse import quote

from script.pages import maker
from script.places import DEVICE, REFUSED, UNEXPECTED, say, shown

if TYPE_CHECKING:
    from script.grading import Grade, Grader

COLUMNS = ("submission", "verdict", "wanted", "came")
# How wide the verdict is that is not a refusal, and at most the name of a submission, and what was wanted of it.
VERDICT_WIDTH, NAME_WIDTH, WANTED_WIDTH = len("not as expected: some run does not end"), 40, 24
# What comes of a submission, by its status.
KINDS = {0: "as expected", UNEXPECTED: "not as expected", REFUSED: "refused"}
NOT_DECIDED = "not decided"


def cells_of(it: Grade) -> list[str]:
    """Returns what a row of a table has."""
    return [shown(it.name), it.told.verdict, it.wanted, it.came]


def cut(text: str, width: int) -> str:
    """Returns a text that is no wider than this."""
    return text if len(text) <= width else text[: max(0, width - 2)] + ".."


def row_of(cells: Iterable[str], name_width: int, width: int) -> str:
    """Returns a row of the table at a terminal, at most so wide."""
    name, verdict, wanted, came = cells
    # (the end of a path says more than its begin)
    name = name if len(name) <= name_width else f"..{name[2 - name_width:]}"
    # (the reason of a refusal may be long)
    rest = f"{cut(wanted, WANTED_WIDTH):12}  {came}" if wanted else came
    row = f"{name:{name_width}}  {verdict:{VERDICT_WIDTH}}  {rest}"
    return cut(row.rstrip(), width) + "\n"


def csv_line(cells: Iterable[str]) -> str:
    """Returns a line of CSV."""
    line = io.StringIO()
    csv.writer(line, lineterminator="\n").writerow(cells)
    return line.getvalue()


def plain_name(name: str) -> str:
    """Returns a path that no spreadsheet takes for a formula."""
    return f"./{name}" if name.startswith(("=", "+", "-", "@")) else name


def lines_of(grades: Iterable[Grade], names: list[str], as_csv: bool) -> Iterator[str]:
    """Yields a line for each submission, as it comes: of CSV, of a table at a terminal, or its verdict after its name."""
    if as_csv:
        yield csv_line(["submission", "status", *COLUMNS[1:]])
        for it in grades:
            name, *others = cells_of(it)
            yield csv_line([plain_name(name), str(it.status), *others])
    elif sys.stdout.isatty():
        width = os.get_terminal_size(sys.stdout.fileno()).columns or 80
        name_width = min(NAME_WIDTH, max(len(shown(name)) for name in [*names, COLUMNS[0]]))
        yield row_of(COLUMNS, name_width, width)
        for it in grades:
            yield row_of(cells_of(it), name_width, width)
    else:
        for it in grades:
            yield f"{shown(it.name)}: {it.told.verdict}\n"


def sums(grades: list[Grade], names: list[str]) -> str:
    """Returns how many submissions there are, and what came of them."""
    kinds = [KINDS.get(it.status, NOT_DECIDED) for it in grades]
    counts = {kind: kinds.count(kind) for kind in [*KINDS.values(), NOT_DECIDED]}
    counts["not read"] = len(names) - len(grades)
    told = ", ".join(f"{count} {kind}" for kind, count in counts.items() if count)
    return f"{len(names)} submission{'' if len(names) == 1 else 's'}: {told}"


REPORT = """<!doctype html>
<html lang="en">
<head>
<meta charset="utf-8">
<meta name="viewport" content="width=device-width, initial-scale=1">
<meta http-equiv="Content-Security-Policy" content="default-src 'none'; style-src 'unsafe-inline'; img-src data:">
<link rel="icon" href="data:,">
<title>{title} - parbegin grade</title>
<style>
:root {{ color-scheme: light dark; --line: #8886; --right: #1a7f37; --wrong: #b3261e; --open: #8a6100 }}
@media (prefers-color-scheme: dark) {{ :root {{ --right: #56d364; --wrong: #ff8a80; --open: #e3b341 }} }}
body {{ font: 1rem/1.45 system-ui, sans-serif; margin: 2rem auto; max-width: 80rem; padding: 0 1rem }}
pre, td:nth-child(3), td:nth-child(4) {{ font-family: ui-monospace, monospace; font-size: .9em }}
pre {{ border: 1px solid var(--line); border-radius: .4rem; max-height: 20rem; overflow: auto; padding: .6rem .8rem }}
table {{ border-collapse: collapse; width: 100% }}
th, td {{ border-bottom: 1px solid var(--line); overflow-wrap: anywhere; padding: .35rem .7rem; text-align: left; vertical-align: top }}
th, td:first-child, td:nth-child(3), td:last-child {{ overflow-wrap: normal; white-space: nowrap }}
td:nth-child(2) {{ font-weight: 600 }}
.right td:nth-child(2) {{ color: var(--right) }}
.wrong td:nth-child(2) {{ color: var(--wrong) }}
.open td:nth-child(2) {{ color: var(--open) }}
</style>
</head>
<body>
<h1>{title}</h1>
<p>{sums}</p>
<h2>What each run has to print{options}</h2>
<pre>{wanted}</pre>
<table>
<thead><tr><th>submission</th><th>verdict</th><th>wanted</th><th>came</th><th>run</th></tr></thead>
<tbody>
{rows}</tbody>
</table>
</body>
</html>
"""
CLASSES = {0: "right", UNEXPECTED: "wrong", REFUSED: "wrong"}


def report_row(it: Grade, page: str | None) -> str:
    """Returns a row of the report, with the address of the page of the run, if there is one."""
    name, verdict, wanted, came = (html.escape(cell) for cell in cells_of(it))
    if it.message:
        came = f"{came}<details><summary>message</summary><pre>{html.escape(it.message)}</pre></details>"
    link = f'<a href="{html.escape(page)}">step through it</a>' if page else ""
    cells = "".join(f"<td>{cell}</td>" for cell in (name, verdict, wanted, came, link))
    return f'<tr class="{CLASSES.get(it.status, "open")}">{cells}</tr>\n'


def write_page(grader: Grader, it: Grade, folder: str) -> str | None:
    """Writes the page of the run that is told of a submission, and returns its path in the folder, if there is such a run."""
    pages = maker()
    if not it.told.picks:
        return None
    picks = "".join(f"{line}\n" for line in it.told.picks).encode()
    try:
        lend = pages.Options(lend=it.lend)
        made = pages.make_page([*grader.start, "--quiet"], shown(it.name), it.given + b"%%\n" + picks, lend)
    except pages.Refusal:
        return None
    path = f"{it.name}.html"
    os.makedirs(os.path.dirname(os.path.join(folder, path)), exist_ok=True)
    with open(os.path.join(folder, path), "w", encoding="utf-8", errors="replace") as file:
        file.write(made)
    return path


def write_report(pool: Executor, grader: Grader, grades: list[Grade], told: str, name: str) -> int:
    """Writes the report, with the pages of its runs in a folder beside it, and returns the status."""
    folder = f"{name.removesuffix('.html')}_runs"
    try:
        if any(it.told.picks for it in grades) and not os.path.isdir(folder):
            os.mkdir(folder)
        pages = list(pool.map(lambda it: write_page(grader, it, folder), grades))
        at = os.path.basename(folder)
        links = [page and quote(os.fsencode(f"{at}/{page}"), safe="/") for page in pages]
        with open(name, "w", encoding="utf-8", errors="replace") as file:
            file.write(REPORT.format(
                title=html.escape(shown(os.path.basename(grader.exercise.name))), sums=html.escape(told),
                options=html.escape(f" ({' '.join(grader.exercise.words)})" if grader.exercise.words else ""),
                wanted=html.escape("\n".join(grader.exercise.lines)) or "(nothing)",
                rows="".join(report_row(it, link) for it, link in zip(grades, links))))
    except OSError as fault:
        say(f"{shown(os.fsdecode(fault.filename or name))}: {fault.strerror}")
        return DEVICE
    return 0
