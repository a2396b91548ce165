"""`plan --format`: plans files as one program, and tells what is found with its places, as data for editors and code hosts."""
from __future__ import annotations

import json
import re
import subprocess
import sys
from collections.abc import Iterator
from dataclasses import dataclass
from typing import Any

from script import files
from script.messages import HEAD, PLACE, Finding, Place, Text, Unread, finding, texts_of
from script.helping import are_refused
from script.options import Given, WrongWords, read_options, tell_wrong
from script.places import DEADLOCK, DEVICE, WORDS, write_message
from script.reports import gcc_lines, json_line, message_object, sarif_document
from script.standard import write

USE = "parbegin plan --format FORMAT [--lend WHO] [--capital R=K ..] [FILE ..]"
FORMATS = ("text", "gcc", "json", "sarif")
STANDARD_INPUT = "<stdin>"
# Members of an object that are a line of its text, or several.
LINES = ("outer_line", "inner_line", "lines")
POSSIBLE = "so a deadlock by the cash alone is not ruled out"
RULED_OUT = "so only a banker rules out a deadlock"


@dataclass
class Planned:
    """What the program says of texts that are planned as one program: its status, its JSON lines and its messages."""

    texts: list[Text]
    status: int
    objects: list[dict[str, Any]]
    messages: str

    def text(self, number: int | None) -> Text:
        """Returns the text of a number; if there is none, the first one."""
        return self.texts[number - 1 if number else 0]


def read_files(names: list[str]) -> list[tuple[str, bytes | Unread]]:
    """Returns each file with its bytes, or with why it can't be read, which is told."""
    read: list[tuple[str, bytes | Unread]] = []
    for name in names:
        is_input = name == STANDARD_INPUT
        try:
            with open(0 if is_input else name, "rb", closefd=not is_input) as file:
                read.append((name, file.read(files.MOST_READ + 1)))
        except OSError as fault:
            files.tell_not_read("standard input" if is_input else name, fault)
            read.append((name, Unread(name, files.reason_of(fault))))
    return read


def plan_as_text(start: list[str], call: list[str], given: list[tuple[str, bytes]]) -> int:
    """Plans files as one program, whose lines are written as they are, and returns the status."""
    if len(given) > 1 and "--quiet" not in start:
        files.tell_numbers([name for name, _ in given], [len(files.parts_of(it)) for _, it in given])
    return status_of(subprocess.run([*start, *call], input=files.joined([it for _, it in given]), check=False).returncode)


def status_of(code: int) -> int:
    """Returns the status of a call, also of one that a signal ended."""
    return code if code >= 0 else 128 - code


def plan(call: list[str], given: list[tuple[str, bytes]]) -> Planned:
    """Plans files as one program."""
    texts = [text for name, it in given for text in texts_of(name, it, files.parts_of(it))]
    ran = subprocess.run(call, input=files.joined([it for _, it in given]), capture_output=True, check=False)
    status = status_of(ran.returncode)
    objects = [json.loads(line) for line in ran.stdout.splitlines()]
    return Planned(texts, status, objects, ran.stderr.decode(errors="replace"))


def text_number(message: str) -> int | None:
    """Returns the number of the text that a message shows a place of, if it names one."""
    found = [it for it in map(PLACE.fullmatch, message.splitlines()) if it]
    return int(found[0]["text"]) if found and found[0]["text"] else None


def messages_of(planned: Planned) -> list[str]:
    """Returns each message of the program."""
    return [it for it in re.split(r"^(?=error )", planned.messages, flags=re.M) if it]


def of_options(planned: Planned) -> list[str]:
    """Returns the messages about `--capital`, which are of no file."""
    return [it for it in messages_of(planned) if "--capital" in it.partition("\n")[0]]


def refusals(planned: Planned) -> Iterator[Finding]:
    """Yields what the messages say of texts: of one that is refused, or of each whose capital is too little for a claim."""
    line = next((it for it in planned.objects if it["kind"] == "refused"), {})
    at = f" at {line['at']}" if "at" in line else ""
    others = of_options(planned)
    for message in messages_of(planned):
        head = HEAD.match(message)
        if head and message not in others:
            text = planned.text(line.get("of_text") or text_number(message))
            yield finding(text, f"refused {head[1]}{at}", message)


def circle(planned: Planned) -> Iterator[Finding]:
    """Yields the circle, if there is one."""
    nests = [it for it in planned.objects if it["kind"] == "nest"]
    places = []
    for it in nests:
        text = planned.text(it.get("of_text"))
        for line, what in ((it["outer_line"], f"holds {it['outer']}"), (it["inner_line"], f"asks for {it['inner']}")):
            places.append(Place(text.lines_before + line, 1, f"{it['process']} {what}", text.file))
    if nests:
        names = " and ".join(dict.fromkeys(it["outer"] for it in nests))
        is_possible = planned.status == DEADLOCK
        message = f"nested holds of {names} make a circle, {POSSIBLE if is_possible else RULED_OUT}"
        level = "error" if is_possible else "warning"
        yield Finding(planned.text(nests[0].get("of_text")), "no order", "circle", message, places=places, level=level)


def in_file(said: dict[str, Any], planned: Planned) -> dict[str, Any]:
    """Returns an object of the program with the file of its text in the place of the number, and lines of the file."""
    kept = {name: value for name, value in said.items() if name != "of_text"}
    if "process" not in said:
        return kept
    text = planned.text(said.get("of_text"))
    for name in LINES:
        if name in kept:
            given = kept[name]
            kept[name] = [text.lines_before + it for it in given] if isinstance(given, list) else text.lines_before + given
    return {"kind": kept.pop("kind"), "file": text.file, "text": text.number, **kept}


def refused_object(found: Finding) -> dict[str, Any]:
    """Returns a refusal for JSON."""
    return {"kind": "refused", "file": found.text.file, "text": found.text.number, "code": found.code, **message_object(found)}


def json_objects(planned: Planned) -> Iterator[dict[str, Any]]:
    """Yields the objects of the program, in files, and the refusals."""
    for said in planned.objects:
        if said["kind"] != "refused":
            yield in_file(said, planned)
    yield from map(refused_object, refusals(planned))


def unread_object(unread: Unread) -> dict[str, Any]:
    """Returns for JSON that a file cannot be read, so that nothing is planned."""
    return {"kind": "not read", "file": unread.file, "message": unread.reason}


def report(given: Given, start: list[str], said: list[Finding | Unread], objects: Iterator[dict[str, Any]]) -> str:
    """Returns what is written, in the format that is asked for."""
    if given.options["--format"] == "json":
        return "".join(map(json_line, objects))
    if given.options["--format"] == "sarif":
        return sarif_document(start[:1], said)
    return "".join(line for it in said for line in gcc_lines(it))


def read_words(start: list[str], words: list[str]) -> Given:
    """Reads the words of a call."""
    given = read_options(words, ("--lend", "--format"), (), ("--capital",))
    if given.options["--format"] not in FORMATS:
        raise WrongWords(f"--format wants one of {', '.join(FORMATS)}")
    if "--json" in start:
        raise WrongWords("plan --format has no '--json': --format json is for programs")
    return given


def plan_in_format(start: list[str], words: list[str]) -> int:
    """Plans the files that the words name, tells what is found in a format, and returns the status of the plan."""
    try:
        given = read_words(start, words)
    except WrongWords as wrong:
        return tell_wrong(wrong, USE)
    call = ["plan", *given.for_program("--lend", "--capital")]
    if are_refused(start[:1], call):
        return WORDS
    if not given.others:
        files.tell_what_it_awaits("plan")
    read = read_files(given.others or [STANDARD_INPUT])
    unread = [it for _, it in read if isinstance(it, Unread)]
    # (a name of bytes that are no text is written as it is)
    sys.stdout.reconfigure(errors="surrogateescape")
    if unread:
        return write(report(given, start, list(unread), map(unread_object, unread))) or DEVICE
    inputs = [(name, it) for name, it in read if isinstance(it, bytes)]
    if given.options["--format"] == "text":
        return plan_as_text(start, call, inputs)
    planned = plan([*start[:1], "--json", *call], inputs)
    if "--capital" in given.several and "--quiet" not in start:
        write_message("".join(of_options(planned)))
    found = [*refusals(planned), *circle(planned)]
    return write(report(given, start, found, json_objects(planned))) or planned.status
