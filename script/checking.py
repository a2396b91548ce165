"""`check` over files: many at once, and the answers as text, or as data for editors and code hosts."""
from __future__ import annotations

import concurrent.futures
import json
import os
import re
import subprocess
import sys
from collections.abc import Iterable, Iterator
from dataclasses import dataclass
from typing import Tuple, Union
from urllib.parse import quote

from script import files, helping
from script.messages import Unread, texts_of
from script.places import DEVICE, REFUSED, WORDS, say, shown, write_message
from script.reports import version_of
from script.standard import drop_output
from script.warned import by_text, messages

FORMATS = ("text", "gcc", "json", "sarif")
STANDARD_INPUT = "<stdin>"
# So much is checked by one call at most: answers come while later files are read. A text of this length must not get a
# line feed after it, which would make it too long.
MOST_TEXTS, MOST_BYTES, LONG_TEXT = 256, 1_000_000, 65_536


@dataclass
class Answer:
    """What a call said of some texts that follow one another: its status, its lines, and its messages."""

    status: int
    lines: list[str]
    messages: bytes


@dataclass
class Options:
    """What the script's own options of `check` say, and the other words."""

    format: str = "text"
    jobs: int = 0
    words: list[str] | None = None


def read_options(words: list[str]) -> Options | str:
    """Takes the script's own options from the words, or returns what is wrong with them."""
    options, left, seen = Options(jobs=len(os.sched_getaffinity(0)), words=[]), iter(words), set()
    for word in left:
        name, given, value = word.partition("=")
        if name not in ("--format", "--jobs"):
            options.words.append(word)
            continue
        if name in seen:
            return f"the argument '{name}' cannot be used multiple times"
        seen.add(name)
        value = value if given else next(left, "")
        if name == "--format" and value in FORMATS:
            options.format = value
        elif name == "--jobs" and value.isdigit() and int(value) > 0:
            options.jobs = int(value)
        else:
            wanted = "one of " + ", ".join(FORMATS) if name == "--format" else "a number from 1 on"
            return f"{name} wants {wanted}"
    return options


class Checker:
    """Calls of the program's `check`, with its options."""

    def __init__(self, start: list[str], words: list[str]) -> None:
        self.call = [*start, "check", *words]

    def ask(self, given: bytes) -> Answer:
        """Checks the texts of an input."""
        ran = subprocess.run(self.call, input=given, capture_output=True, check=False)
        return Answer(ran.returncode, ran.stdout.decode(errors="replace").splitlines(), ran.stderr)

    def ask_together(self, inputs: list[bytes]) -> list[Answer | None]:
        """Checks inputs by one call, and returns the answer to each that is accepted whole."""
        given = b"%%\n".join(it if it.endswith(b"\n") or not it else it + b"\n" for it in inputs)
        counts = [len(files.parts_of(it)) for it in inputs]
        texts = by_text(self.ask(given).lines)
        if len(texts) != sum(counts):
            return [None] * len(inputs)
        answers: list[Answer | None] = []
        for count in counts:
            own, texts = texts[:count], texts[count:]
            is_accepted = all(text[0] == "ok" for text in own)
            answers.append(Answer(0, [line for text in own for line in text], b"") if is_accepted else None)
        return answers

    def ask_all(self, inputs: list[bytes], jobs: int) -> list[Answer]:
        """Checks inputs: those that are accepted by one call, and each other one by a call for its message."""
        together = [at for at, it in enumerate(inputs) if it.endswith(b"\n") or len(it) < LONG_TEXT]
        answers: list[Answer | None] = [None] * len(inputs)
        if len(inputs) > 1:
            for at, answer in zip(together, self.ask_together([inputs[at] for at in together])):
                answers[at] = answer
        with concurrent.futures.ThreadPoolExecutor(jobs) as pool:
            left = pool.map(lambda it: it[1] or self.ask(it[0]), zip(inputs, answers))
            return list(left)


# A file with its bytes, or with why it cannot be read.
Read = Tuple[str, Union[bytes, Unread]]


class Source:
    """The files, of which those that can't be read are told of and counted."""

    def __init__(self, names: list[str]) -> None:
        self.names, self.not_read = names, 0

    def read(self) -> Iterator[Read]:
        """Yields each file with its bytes, or with why it can't be read."""
        for name in self.names:
            is_input = name == STANDARD_INPUT
            try:
                with open(0 if is_input else name, "rb", closefd=not is_input) as file:
                    yield name, file.read(files.MOST_READ + 1)
            except OSError as fault:
                files.tell_not_read("standard input" if is_input else name, fault)
                self.not_read += 1
                yield name, Unread(name, files.reason_of(fault))


def groups(read: Iterable[Read]) -> Iterator[list[Read]]:
    """Yields files in groups that one call can check."""
    group: list[Read] = []
    size = 0
    for name, given in read:
        length = 0 if isinstance(given, Unread) else len(given)
        if group and (len(group) >= MOST_TEXTS or size + length > MOST_BYTES):
            yield group
            group, size = [], 0
        group.append((name, given))
        size += length + len(b"\n%%\n")
    if group:
        yield group


def tell_text(name: str, given: bytes, answer: Answer, is_quiet: bool) -> None:
    """Writes the lines of an answer after the name of its file, and its messages to standard error."""
    out = sys.stdout
    out.writelines(f"{shown(name)}: {line}\n" for line in answer.lines)
    out.flush()
    # (no other line of a message begins so)
    told = re.sub(rb"^(?=error )", lambda _: os.fsencode(f"{shown(name)}: "), answer.messages, flags=re.M)
    write_message(told)
    if not is_quiet:
        write_message("".join(messages(texts_of(name, given, files.parts_of(given)), answer.lines)))


@dataclass
class Sums:
    """What came of all files."""

    status: int = 0
    accepted: int = 0
    refused: int = 0

    def add(self, answer: Answer) -> None:
        """Counts the answer to a file."""
        self.status = max(self.status, answer.status)
        self.accepted += answer.status == 0
        self.refused += answer.status != 0


def check_as_text(checker: Checker, source: Source, jobs: int, sums: Sums) -> None:
    """Checks each file, and tells of it as the program does, with its name."""
    for group in groups(it for it in source.read() if not isinstance(it[1], Unread)):
        for (name, given), answer in zip(group, checker.ask_all([given for _, given in group], jobs)):
            sums.add(answer)
            is_quiet = "--quiet" in checker.call
            tell_text(name, given, answer, is_quiet)
            told = files.advice("check", [], shown(name), given)
            if told and not is_quiet:
                say(told)


def framed(content: bytes) -> bytes:
    """Returns a message of the program's `findings`."""
    return b"Content-Length: %d\r\n\r\n%s" % (len(content), content)


def named(name: str, layout: str) -> bytes:
    """Returns the name of a file as a report has it: as it is shown, as the inside of a string of JSON, or as an address."""
    if layout == "gcc":
        return os.fsencode(shown(name))
    return (quote(os.fsencode(name), safe="/") if layout == "sarif" else json.dumps(name)[1:-1]).encode()


def entry(name: bytes, given: bytes | Unread) -> bytes:
    """Returns the two messages by which the program's `findings` is told of a file."""
    if isinstance(given, Unread):
        return framed(b"unread " + name) + framed(given.reason.encode(errors="backslashreplace"))
    return framed(b"long " + name) + framed(b"") if len(given) > files.MOST_READ else framed(b"file " + name) + framed(given)


def in_ascii(told: bytes) -> bytes:
    """Returns a report of JSON in ASCII: whatever else it has is in its strings."""
    return told if told.isascii() else re.sub(r"[^\x00-\x7f]", lambda it: json.dumps(it[0])[1:-1], told.decode()).encode()


class Finder:
    """Calls of the program's `findings`, in a layout."""

    def __init__(self, start: list[str], words: list[str], layout: str) -> None:
        self.call, self.layout = [*start[:1], "findings", *words], layout
        self.head = framed(f"sarif {version_of(start)}".encode() if layout == "sarif" else layout.encode())

    def tell(self, group: list[Read], sums: Sums) -> None:
        """Writes what the program finds in files, and counts those that it refuses."""
        given = self.head + b"".join(entry(named(name, self.layout), it) for name, it in group)
        ran = subprocess.run(self.call, input=given, stdout=subprocess.PIPE, check=False)
        # (the last line is how many files are refused, or why there is nothing before it)
        end = ran.stdout.rfind(b"\n", 0, -1) + 1
        told = re.fullmatch(rb"refused (\d+)\n", ran.stdout[end:])
        sys.stdout.buffer.write(ran.stdout[:end] if self.layout == "gcc" else in_ascii(ran.stdout[:end]))
        sys.stdout.flush()
        count = sum(not isinstance(it, Unread) for _, it in group)
        refused = int(told[1]) if told else count
        if not told:
            say(f"check --format: {ran.stdout.decode(errors='replace').strip() or 'no answer'}")
        sums.accepted, sums.refused = sums.accepted + count - refused, sums.refused + refused
        sums.status = max(sums.status, REFUSED if refused else 0, ran.returncode)


def check_as_data(finder: Finder, source: Source, sums: Sums) -> None:
    """Checks each file, and tells of each text in a layout for programs: SARIF is one document, other layouts come as files are read."""
    for group in [list(source.read())] if finder.layout == "sarif" else groups(source.read()):
        finder.tell(group, sums)


def tell_sums(sums: Sums, source: Source) -> None:
    """Says how many files were accepted."""
    count = len(source.names)
    missing = f", {source.not_read} not read" if source.not_read else ""
    say(f"{count} {'file' if count == 1 else 'files'}: {sums.accepted} accepted, {sums.refused} refused{missing}")


def check(start: list[str], words: list[str]) -> int:
    """Checks files, and returns the greatest status."""
    if "--json" in start:
        say("check --format has no '--json': --format json is for programs")
        return WORDS
    options = read_options(words)
    if isinstance(options, str):
        say(options)
        return WORDS
    sorted_words = files.sort_words(start, "check", options.words or [])
    if helping.are_refused(start, ["check", *sorted_words.others]):
        return WORDS
    if not sorted_words.named:
        files.tell_what_it_awaits("check")
    source, sums = Source(sorted_words.named or [STANDARD_INPUT]), Sums()
    # (a name of bytes that are no text is written as it is)
    sys.stdout.reconfigure(errors="surrogateescape")
    try:
        if options.format == "text":
            check_as_text(Checker(start, sorted_words.others), source, options.jobs, sums)
        else:
            check_as_data(Finder(start, sorted_words.others, options.format), source, sums)
    except OSError as fault:
        return drop_output(fault)
    if "--quiet" not in start and (len(source.names) > 1 or options.format != "text"):
        tell_sums(sums, source)
    return max(sums.status, DEVICE if source.not_read else 0)
