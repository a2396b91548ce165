"""What a call of `parbegin` does with its words."""
from __future__ import annotations

import os
import re
import signal
import sys

from script import files, helping
from script.drawn import is_drawn
from script.own import own_call, run_own
from script.places import DEVICE, WORDS, say, shown, write_message
from script.program import is_built, is_nothing_built, program, record_of_gate
from script.standard import write
from script.tools import CALLS, COMMANDS, command_of, path_of, tool_of


def start_program(start: list[str], words: list[str]) -> None:
    """Becomes the program."""
    # (Python ignores these, and the program would inherit that)
    for it in (signal.SIGPIPE, signal.SIGXFSZ):
        signal.signal(it, signal.SIG_DFL)
    tool = tool_of(command_of(words))
    os.execv(path_of(tool) if tool else start[0], [*start, *words])


def as_codes(words: list[str]) -> list[str]:
    """Returns words with codes of refusals as the program spells them: `n3` is `N3`."""
    return [word.upper() if re.fullmatch(r"[a-z][0-9]", word) else word for word in words]


def run_command(start: list[str], command: str, words: list[str]) -> int:
    """Runs a command of which some words may name files, and returns its status if it did not become the program."""
    if command == "explain":
        words = as_codes(words)
    if command in files.NO_FILES:
        if helping.are_refused(start, [command, *words]):
            return WORDS
        start_program(start, [command, *words])
    if command == "run" and is_drawn(words):
        from script.drawn import run_drawn

        return run_drawn(start, files.sort_words(start, "record", words))
    if command == "check" and (is_in_format(words) or "--json" not in start and any(not word.startswith("-") for word in words)):
        from script.checking import check

        return check(start, words)
    if command == "plan" and any(word.partition("=")[0] in ("--table", "--csv") for word in words):
        from script.plans import plan_table

        return plan_table(start, words)
    if command == "plan" and is_in_format(words):
        from script.plan_formats import plan_in_format

        return plan_in_format(start, words)
    return run_on_file(start, command, files.sort_words(start, command, words))


def is_in_format(words: list[str]) -> bool:
    """Returns whether words ask for a format that the script makes."""
    return any(word.partition("=")[0] == "--format" for word in words)


def run_on_file(start: list[str], command: str, words: files.Words) -> int:
    """Runs a command on its file, or on standard input if none is named; `plan` on several as one input."""
    if (words.others or words.missing or len(words.named) > 1) and helping.are_refused(start, [command, *words.others]):
        return WORDS
    for name in words.missing:
        files.tell_missing(name)
    if words.missing:
        return DEVICE
    if len(words.named) > 1 and command != "plan":
        files.tell_too_many(command, words.named, words.others)
        return WORDS
    if len(words.named) > 1:
        counts = files.give_together(words.named)
        if "--quiet" not in start:
            files.tell_numbers(words.named, counts)
        start_program(start, [command, *words.others])
    name = words.named[0] if words.named else None
    if name and command == "debug" and "--json" not in start:
        from script.debugging import debug

        return debug(start, words.others, name)
    if "--quiet" not in start:
        files.advise(command, words.others, name)
    if name and command in ("run", "replay") and len(start) == 1 and os.isatty(2) and is_built(tool_of("debug")):
        from script.afterwards import run_at_terminal

        return run_at_terminal(start, command, words.others, name)
    if name:
        files.give_file(name)
    else:
        files.tell_what_it_awaits(command)
    if command == "outcomes" and "--expect" in words.others and len(start) == 1:
        from script.expected import run_expected

        return run_expected(start, words.others)
    start_program(start, [command, *words.others])
    return DEVICE


def to_front(start: list[str], words: list[str]) -> tuple[list[str], list[str]]:
    """Puts `--quiet` and `--json` before the command, wherever they stand, in the order in which the program takes them."""
    found, left = [word for word in ("--quiet", "--json") if word in words], list(words)
    for word in found:
        # (the program refuses a second one)
        left.remove(word)
    return [*start, *found], left


def run_words(start: list[str], words: list[str]) -> int:
    """Runs the program with these words, of which some may name files."""
    start, words = to_front(start, words)
    if helping.asks_for_help(words):
        return helping.show_help(start, words)
    if not words or words[0] not in COMMANDS:
        if helping.are_refused(start, words):
            if words and os.path.isfile(words[0]):
                say("{0} is a file, and a command comes before it: parbegin run {0}".format(shown(words[0])))
            return WORDS
        start_program(start, words)
    return run_command(start, words[0], words[1:])


# Words with which the program only says something of itself.
WITHOUT_WORK = ("help", "--help", "-h", "--version", "-V")


def run_unproved(words: list[str]) -> int:
    """Runs the sources once with no proof, on a file if one is named. What they could not do is told before."""
    from script.trial import run_unproved as run_trial

    command = next((word for word in words if word not in ("--quiet", "--json")), None)
    if command not in (*COMMANDS, *WITHOUT_WORK):
        say(f"--unproved takes a command of the program: {', '.join(COMMANDS)}")
        return WORDS
    if command == "run" and is_drawn(words):
        say("--unproved is one call of the program: record draws a run, and replay makes it")
        return WORDS
    named = files.named_unasked(command, words)
    for name in named:
        if not files.can_be_opened(name):
            return DEVICE
    if len(named) > 1:
        files.tell_too_many("--unproved", named)
        return WORDS
    if named:
        files.give_file(named[0])
        words = [word for word in words if word != named[0]]
    return run_trial(words)


def build(words: list[str]) -> int:
    """Builds all tools, unless help is asked for or there are more words, and returns the status."""
    if any(word in helping.HELPFUL for word in words):
        return write(helping.BUILD)
    if words:
        write_message("usage: parbegin build\n")
        return WORDS
    program(*CALLS["build"])
    return 0


def called(words: list[str]) -> list[str]:
    """Returns the commands of the tools that words need: that of the words, and those that a session at a terminal asks."""
    command = command_of(words)
    if command not in COMMANDS or helping.asks_for_help([word for word in words if word not in ("--quiet", "--json")]):
        return []
    at_prompt = command == "debug" and os.isatty(0) and os.isatty(1) and len(words) > 1
    if command == "check" and is_in_format(words):
        return ["check", "findings"]
    return ["debug", "emit"] if at_prompt else [command]


def main(words: list[str]) -> int:
    """Does what the words of a call say, and returns the exit status."""
    for it in (signal.SIGTERM, signal.SIGHUP):
        signal.signal(it, signal.default_int_handler)
    try:
        if words[:1] == ["--unproved"]:
            return run_unproved(words[1:])
        if words[:1] == ["--built-by-the-gate"]:
            return record_of_gate(words[1:])
        if words[:1] == ["help"] and words[1:] in (["build"], ["library"], ["package"]):
            words = [words[1], "--help"]
        if words[:1] == ["package"] and words != ["package"]:
            from script.package import answer

            return answer(words[1:])
        if words == ["package"]:
            from script.package import package

            return package([program(*CALLS["package"])])
        if words[:1] == ["build"]:
            return build(words[1:])
        if words[:1] == ["hold"] or words == ["help", "hold"]:
            from script.serving.hold import call

            return call(words[1:] if words[:1] == ["hold"] else ["--help"])
        if words[:1] == ["bank"] and any(word.partition("=")[0] == "--connect" for word in words[1:]):
            from script.serving.terminal import call as connect

            return connect(words[1:])
        own = own_call(words)
        if own:
            return run_own(own)
        if words[:1] == ["library"]:
            from script.library import library

            return library(words[1:])
        if is_nothing_built():
            from script.unbuilt import answer

            status = answer(words)
            if status is not None:
                return status
        return run_words([program(*called(words))], words)
    except KeyboardInterrupt:
        return 128 + signal.SIGINT


if __name__ == "__main__":
    sys.exit(main(sys.argv[1:]))
