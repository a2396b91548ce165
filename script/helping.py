"""Help, the version, and words that the program refuses."""
from __future__ import annotations

import re
import subprocess

from script.places import WORDS, write_message
from script.program import is_built
from script.standard import write
from script.tools import tool_of

FILES = """
In place of standard input a FILE may be named: `parbegin run FILE`. So `parbegin COMMAND FILE` is
`parbegin COMMAND < FILE`; of several, `parbegin check FILE ..` checks each, and `parbegin plan FILE ..` plans them
together. With --json before the command each line is a JSON object. This text and that of the version end with status 0
here, and with 2 if the program is called by itself.

Further commands, each with a help of its own:
  class   Serve the program to a class, as pages for browsers
  grade   Judge the texts of a folder, each against one exercise
  hold    Run a command while it holds resources of a served bank
  page    Make a page of a program for a browser
  sample  Draw many runs of a program, and count how often each outcome came
  serve   Answer many clients from one bank, which a journal keeps

`parbegin help words` says what words of textbooks, such as available, need and race, are called here.
"""
BANK = """
Of a bank that is served:
      --connect <ADDRESS>  Answer the commands by the bank of `parbegin serve` at PATH, HOST:PORT or tls:HOST:PORT
      --lease <SECONDS>    How long that one keeps what is lent if nothing is heard any more, 2 to 86400 [default: 30]
"""
CHECK = """
Of files:
      --format <FORMAT>  How each refusal is told: text, gcc (FILE:LINE:COLUMN: error: ..), json (an object a line) or
                         sarif [default: text]
      --jobs <COUNT>     The most calls of the program side by side [default: one for each processor]
"""
PLAN = """
With places, for editors and code hosts:
      --format <FORMAT>  How a refusal, a claim over its capital and a circle are told: text, gcc (FILE:LINE:COLUMN: ..), json
                         (the objects of --json, with files) or sarif [default: text]

Of several plans, each by itself:
      --table         A row for each FILE: the bottleneck, an order, and each resource with its capital, the least with which
                      the text is accepted, and that with which no request for it waits
      --csv           The same as CSV, with a row for each resource
      --jobs <COUNT>  The most plans that are made side by side [default: one for each processor]
"""
RUN = """
Of a run that is drawn, as `record` draws it and `replay` makes it:
      --seed <N>         Draw each step by a generator with this seed, from 0 to 18446744073709551615
      --lend <WHO>       Who decides on a request: banker, or cash, by which the run is drawn, by seed 1 if no other is
                         given, and may end in a deadlock [default: banker]
"""
DEBUG = """
At a terminal `parbegin debug FILE` is a session with a prompt, where `help` says what each command does.
These are the program's commands:

"""
EDITORS = """
An editor starts this and writes its messages to standard input; no FILE is named. extras/README.md says how each
editor is set up.
"""
BUILD = """Build all tools, which proves each crate that they are made of

Usage: parbegin build

What is built of the same files, or what the gate has kept of them on this machine, is taken. Standard error says how far it
is, and an interrupt keeps what is built. docs/BUILDING.md says how long it takes.

Options:
  -h, --help  Print help
"""
HELPFUL = ("--help", "-h")
VERSION = ("--version", "-V")
# A text on which a session of the program lists its commands.
SESSION = b"process p begin skip end\n%%\n%%\nhelp\n"


def ran_on(start: list[str], words: list[str], given: bytes = b"") -> tuple[int, bytes, bytes]:
    """Runs the program, and returns its status, what it wrote, and what it wrote to standard error."""
    plain = [word for word in start if word != "--json"]
    ran = subprocess.run([*plain, *words], input=given, capture_output=True, check=False)
    return ran.returncode, ran.stdout, ran.stderr


def commands(start: list[str]) -> list[str]:
    """Returns the commands of the program."""
    listed = re.search(r"^Commands:\n((?:  .*\n)+)", ran_on(start, ["--help"])[1].decode(), re.M)
    return re.findall(r"^  ([a-z]+)\b", listed[1], re.M) if listed else []


def asks_for_help(words: list[str]) -> bool:
    """Returns whether help or the version is asked for, and nothing is to be done."""
    return words[:1] == ["help"] or words[:1] != [] and words[0] in VERSION or any(word in HELPFUL for word in words)


def command_of_help(words: list[str]) -> str | None:
    """Returns the command whose help is asked for, or nothing if it is that of the program."""
    named = [word for word in words if not word.startswith("-") and word != "help"]
    return named[0] if named else None


def show_help(start: list[str], words: list[str]) -> int:
    """Writes help or the version, and returns the status: 0, unless the words are refused."""
    on_words = help_on_words(words)
    if on_words:
        return write(on_words)
    command = command_of_help(words)
    known = commands(start)
    asked = [command, "--help"] if command in known else words
    _, told, _ = ran_on(start, asked)
    if command and command not in known:
        return write_refusal(told, b"")
    out = told.decode(errors="replace")
    if words[0] not in VERSION:
        out += more_help(start, command)
    return write(out)


def more_help(start: list[str], command: str | None) -> str:
    """Returns what the script adds to the program's help."""
    if command == "debug":
        told = ran_on(start, ["debug"], SESSION)[1].decode(errors="replace") if is_built(tool_of("debug")) else ""
        return DEBUG + told if told else ""
    return {"bank": BANK, "check": CHECK, "dap": EDITORS, "lsp": EDITORS, "plan": PLAN, "run": RUN, None: FILES}.get(command, "")


def help_on_words(words: list[str]) -> str | None:
    """Returns what a word of textbooks means here, or all of them, if that is what help is asked on."""
    asked = " ".join(words[1:]).lower()
    if words[:1] != ["help"] or not asked:
        return None
    # (needed here alone)
    from script.manual import TEXTBOOK, list_of_words

    if asked == "words":
        return "".join(f"{line}\n" for line in list_of_words(with_commands=False))
    return f"{asked}: {TEXTBOOK[asked][0]}\n" if asked in TEXTBOOK else None


def write_refusal(told: bytes, messages: bytes) -> int:
    """Writes to standard error why the words are refused, and returns the status."""
    write_message(told + messages)
    return WORDS


def are_refused(start: list[str], words: list[str], typed: str | None = None) -> bool:
    """Returns whether the program refuses the words; then standard error has the reasons.

    They are tried on an empty input, which every command refuses at once or answers in no time. `typed` is the command of the
    call, if these words are those of another one.
    """
    status, told, messages = ran_on(start, words)
    if status == WORDS:
        if typed:
            told = told.replace(f"Usage: parbegin {words[0]} ".encode(), f"Usage: parbegin {typed} ".encode())
        write_refusal(told, messages)
    return status == WORDS
