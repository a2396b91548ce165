"""`./parbegin grade`: judges the texts of a folder by `outcomes --expect`, each against one exercise."""
from __future__ import annotations

import codecs
import os
import re
import subprocess
from collections.abc import Iterator
from concurrent.futures import Executor
from dataclasses import dataclass

from script.expected import (
    ENDLESS, WITHOUT, WITH_VALUE, Difference, Told, difference, ends_in_words, find_where, prints_of, read_told,
)
from script.files import MOST_READ, opened, parts_of
from script.gradebook import lines_of, sums, write_report
from script.helping import are_refused
from script.options import Given, WrongWords, read_options
from script.places import DEVICE, REFUSED, UNEXPECTED, WORDS, say, shown
from script.side_by_side import workers
from script.standard import write
from script.teaching.exercises import Asked, Unusable, read_page
from script.teaching.judge import Verdict, judged_here

USE = "parbegin grade [--any-order] [--fair] [--lend WHO] [--states N] [--jobs N] [--csv] [--html FILE] FOLDER EXERCISE"
HELP = """Judge the texts of a folder, each against one exercise

Usage: parbegin grade [OPTIONS] FOLDER EXERCISE

FOLDER has the submissions: all files below it whose names end in .pb. EXERCISE is a file with the lines that each run
has to print, as `outcomes --expect` reads them after a line %%, and before these any that require something of the text:
`has a parbegin`, `has a hold`, or `claims at least K R`, of a resource R. Lines before them that begin with // are
comments, and one that begins so and goes on with an option has options of the exercise, as in `// --any-order`. Or EXERCISE is
a page as `class` has it, FILE.md (docs/TEACHING.md, "An exercise").

Options:
      --any-order    As for `outcomes --expect`
      --fair         As for `outcomes --expect`
      --lend <WHO>   As for `outcomes --expect`
      --states <N>   As for `outcomes --expect`
      --jobs <N>     The most submissions that are judged side by side [default: one for each processor]
      --csv          Write a line of CSV for each submission, after a line with the names of the columns
      --html <FILE>  Write a report for a browser too, and a page of each run that is not as expected
  -h, --help         Print help

The status is the greatest of all: 0 if each submission is as expected.
"""
SUBMISSION, PAGE = ".pb", ".md"


@dataclass(frozen=True)
class Exercise:
    """What is wanted of a text: lines, as they stand in the file, the options with which they are compared, and how many
    comments are before the lines. Of a page of a class also the page, and the lines are those of its blocks for the judge."""

    name: str
    given: bytes
    options: dict[str, str]
    comments: int = 0
    page: Asked | None = None

    @property
    def lines(self) -> list[str]:
        """Returns the lines that are wanted."""
        return self.given.decode(errors="replace").splitlines()

    @property
    def words(self) -> list[str]:
        """Returns the options as words."""
        return [word for name, value in self.options.items() for word in (name, value) if word]


@dataclass(frozen=True)
class Grade:
    """What the program says of a submission; its name is its path below the folder."""

    name: str
    given: bytes
    status: int
    told: Told
    message: str
    reason: str
    differs: Difference | None
    lend: str | None = None

    @property
    def wanted(self) -> str:
        """Returns the line that was wanted where the prints differ first."""
        return self.differs.wanted if self.differs else ""

    @property
    def came(self) -> str:
        """Returns what came in its place and what went wrong beside the prints, or the reason of a refusal."""
        if self.status == REFUSED or self.reason:
            return self.reason
        came = [self.differs.came if self.differs else "", ends_in_words(self.told)]
        return ", ".join(it for it in came if it)


# The place of a message: a line of the text, or of the lines that are wanted. That of a word which the message names counts
# before the place of the refusal, which may be a line further on.
PLACE = re.compile(r"^ *--> .*?(\bprint )?\bline (\d+)", re.M)
NAMED_WORD = re.compile(r"error \w+: (`\w+`) is not a word")
# Why a text with a line %% is refused: what follows that line is read as lines that are wanted.
SEVERAL = "it has a line %%, and a submission is one text"
HINT = re.compile(r"^ *= hint: (.*)$", re.M)
# What a message says of a text whose process or arm the wanted lines do not name.
THERE_ARE = re.compile(r"^ *= (?:the processes before the line %% are (.*)|(its (?:only arm|arms) .*))$", re.M)


def place_of(message: str) -> re.Match[str] | None:
    """Returns the place of a message, that of the word which it names if it shows one."""
    word = NAMED_WORD.match(message)
    named = re.search(rf"^ *--> {re.escape(word[1])}: ()line (\d+)", message, re.M) if word else None
    return named or PLACE.search(message)


def reason_of(message: str, exercise: Exercise, name: str) -> str:
    """Returns why a submission is refused, in a line, with the line of the text, or with that of the exercise and its name."""
    head, place, there_are = re.match(r"error \w+: (.*)", message), place_of(message), THERE_ARE.search(message)
    if not head:
        return ""
    if not (place and place[1]):
        return f"{f'line {place[2]}: ' if place else ''}{head[1]}"
    of_text = f"; in {shown(name)} {f'there is {there_are[1]}' if there_are[1] else there_are[2]}" if there_are else ""
    return f"{shown(os.path.basename(exercise.name))} line {int(place[2]) + exercise.comments}: {head[1]}{of_text}"


def read_exercise(name: str, given: bytes, options: dict[str, str]) -> Exercise:
    """Reads an exercise. Options of the call count before its own."""
    lines, own = given.splitlines(keepends=True), {}
    while lines and lines[0].startswith(b"//"):
        words = lines.pop(0)[2:].decode(errors="replace").split()
        if words and words[0].startswith("--"):
            try:
                taken = read_options(words, WITH_VALUE, WITHOUT)
            except WrongWords as wrong:
                raise WrongWords(f"{wrong}, in {shown(name)}") from None
            if taken.others:
                raise WrongWords(f"unexpected argument '{taken.others[0]}' found, in {shown(name)}")
            own |= taken.options
    return Exercise(name, b"".join(lines), own | options, given.count(b"\n") - b"".join(lines).count(b"\n"))


def read_page_of(name: str, given: bytes, options: dict[str, str]) -> Exercise:
    """Reads an exercise that is a page of a class. Options of the call count before its own."""
    try:
        page = read_page(shown(os.path.basename(name)), given.decode(errors="replace"))
    except Unusable as why:
        raise WrongWords(str(why)) from None
    page.options |= options
    lines = "".join(page.blocks.get(kind, "") for kind in ("prints", "outcomes", "rules"))
    return Exercise(name, lines.encode(), page.options, page=page)


def grade_of(name: str, given: bytes, it: Verdict) -> Grade:
    """Returns the grade of a submission that a judge has judged."""
    verdicts = {0: "as expected", UNEXPECTED: f"not as expected: {it.said}", REFUSED: f"refused: {it.said}"}
    told = Told(verdicts.get(it.status, it.said), picks=it.picks.splitlines())
    return Grade(name, given, it.status, told, "", " ".join(it.more), None, it.lend)


def submissions(folder: str) -> Iterator[str]:
    """Yields the paths below a folder of the texts that were handed in, in order."""
    for at, folders, names in os.walk(folder):
        folders[:] = sorted(name for name in folders if not name.startswith("."))
        for name in sorted(names):
            if name.endswith(SUBMISSION) and not name.startswith("."):
                yield os.path.relpath(os.path.join(at, name), folder)


@dataclass(frozen=True)
class Grader:
    """Judges submissions of a folder by calls of the program."""

    start: list[str]
    folder: str
    exercise: Exercise

    def read(self, name: str) -> bytes | None:
        """Returns a submission, with a line feed at its end, or says why it cannot be read."""
        path = os.path.join(self.folder, name)
        if os.path.exists(path) and not os.path.isfile(path):
            # (a pipe would be waited for)
            say(f"{shown(name)}: not a file")
            return None
        try:
            file = opened(path)
            if file is None:
                return None
            with file:
                given = file.read(MOST_READ + 1)
        except OSError as fault:
            say(f"{shown(name)}: {fault.strerror}")
            return None
        return given if given.endswith(b"\n") else given + b"\n"

    def grade(self, name: str) -> Grade | None:
        """Judges a submission, if it can be read."""
        given = self.read(name)
        if given is None:
            return None
        if self.exercise.page is not None:
            return grade_of(name, given, judged_here(self.start, self.exercise.page, given))
        words = [*self.start, "outcomes", "--expect", *self.exercise.words]
        ran = subprocess.run(words, input=given + b"%%\n" + self.exercise.given, capture_output=True, check=False)
        told, differs = read_told(ran.stdout.decode(errors="replace").splitlines()), None
        if ran.returncode == UNEXPECTED and told.picks:
            differs = difference(prints_of(self.exercise.lines), told.printed, "--any-order" in self.exercise.options)
        circle = find_where(self.start, self.exercise.words, given, told)
        if told.verdict in ENDLESS:
            told.picks = [*circle.lead, *circle.around] if circle is not None else []
        # (a program that a signal ended has a status below 0)
        status = ran.returncode if ran.returncode >= 0 else 128 - ran.returncode
        message = ran.stderr.decode(errors="replace")
        has_several = told.verdict.startswith("refused K1 ") and len(parts_of(given)) > 1
        reason = SEVERAL if has_several else reason_of(message, self.exercise, name) if status == REFUSED else ""
        return Grade(name, given, status, told, message, reason, differs, self.exercise.options.get("--lend"))


def read_words(words: list[str]) -> tuple[Given, str, str]:
    """Reads the words of a call: the options, the folder and the file of the exercise."""
    given = read_options(words, (*WITH_VALUE, "--jobs", "--html"), (*WITHOUT, "--csv"))
    if len(given.others) != 2:
        raise WrongWords(f"grade takes a folder and an exercise, and here are {len(given.others) or 'none'}")
    folder, exercise = given.others
    if os.path.isdir(exercise) and not os.path.isdir(folder):
        raise WrongWords(f"the folder comes first: grade {shown(exercise)} {shown(folder)}")
    return given, folder, exercise


def call(start: list[str], words: list[str]) -> int:
    """Judges the submissions that the words name, and returns the greatest status of all."""
    given, folder, name = read_words(words)
    jobs, is_quiet = given.number("--jobs", len(os.sched_getaffinity(0))), "--quiet" in start
    file = opened(name)
    if file is None:
        return DEVICE
    with file:
        of_program = {option: value for option, value in given.options.items() if option in WITH_VALUE + WITHOUT}
        read = read_page_of if name.endswith(PAGE) else read_exercise
        exercise = read(name, file.read(MOST_READ + 1), of_program)
    names = list(submissions(folder))
    if not names:
        say(f"{shown(folder)}: {'no names below it end in .pb' if os.path.isdir(folder) else 'no such folder'}")
        return DEVICE
    if are_refused(start[:1], ["outcomes", "--expect", *exercise.words]):
        return WORDS
    if exercise.given.startswith(codecs.BOM_UTF8) and not is_quiet:
        say(f"{shown(name)} begins with a byte order mark, which is taken for a part of its first line: save it without one")
    if b"\r\n" in exercise.given and not is_quiet:
        say(f"the lines of {shown(name)} end with a carriage return: save it with the line ends of Unix: a line feed alone")
    with workers(jobs) as pool:
        return judge(pool, Grader(start[:1], folder, exercise), names, given, is_quiet)


def tell_lines(grades: list[Grade]) -> None:
    """Says of the first text that is refused by a line of the exercise, as one that names another process, why."""
    refused = [it for it in grades if it.told.verdict.startswith("refused K1 ") and it.reason != SEVERAL]
    if refused:
        more, hint = len(refused) - 1, HINT.search(refused[0].message)
        others = f" ({more} more {'is' if more == 1 else 'are'} refused by a line of it)" if more else ""
        say(f"{refused[0].reason}{f': {hint[1]}' if hint else ''}{others}")


def judge(pool: Executor, grader: Grader, names: list[str], given: Given, is_quiet: bool) -> int:
    """Judges submissions side by side, tells of each in order, and returns the greatest status of all."""
    grades: list[Grade] = []

    def judged() -> Iterator[Grade]:
        for it in pool.map(grader.grade, names):
            if it is not None:
                grades.append(it)
                yield it

    for line in lines_of(judged(), names, "--csv" in given.options):
        failed = write(line)
        if failed:
            pool.shutdown(cancel_futures=True)
            return failed
    failed = 0
    if "--html" in given.options:
        failed = write_report(pool, grader, grades, sums(grades, names), given.options["--html"])
    if not is_quiet:
        tell_lines(grades)
        say(sums(grades, names))
    return max([failed, *[DEVICE] * (len(grades) < len(names)), *(it.status for it in grades)])
