"""The tools that are to run: installed, or built of this checkout if their sources are others than when they were built."""
from __future__ import annotations

import fcntl
import os
from typing import IO

from script.building import Build, run_to_end
from script.crates import Crates, crates_below, sources
from script.kept import is_taken, take_libraries
from script.places import TOP, is_installed, say, stop
from script.sums import Marks, are_same, is_fresh, mark_of, marks_of, with_tool, write_record
from script.tools import COMMANDS_OF, FRONT, crate_of, path_of, tools_of


def program(*commands: str) -> str:
    """Returns the path by which these commands are called; their tools are built first if they have to be."""
    tools = tools_of(commands)
    if is_installed():
        missing = [path_of(tool) for tool in tools if not os.path.exists(path_of(tool))]
        return stop(f"{missing[0]} is not there") if missing else FRONT
    old = old_ones(tools)
    if old:
        build(old, commands)
    return FRONT


def old_ones(tools: list[str]) -> list[str]:
    """Returns the tools that are not there, or whose sources have other contents than when they were built."""
    return [tool for tool in tools if not is_fresh(tool, sources(crates_below([tool])))]


def is_built(tool: str) -> bool:
    """Returns whether a tool is there as its sources are."""
    return os.path.exists(path_of(tool)) if is_installed() else not old_ones([tool])


def is_nothing_built() -> bool:
    """Returns whether this is a checkout in which no tool is there, of these sources or of older ones."""
    return not is_installed() and not any(os.path.exists(path_of(tool)) for tool in COMMANDS_OF)


def named(tools: list[str], commands: tuple[str, ...]) -> str:
    """Returns in words what is built: what `run` needs, or the tools by their names."""
    return f"what `{commands[0]}` needs" if len(commands) == 1 else ", ".join(f"parbegin-{tool}" for tool in tools)


def prove(tools: list[str], commands: tuple[str, ...]) -> None:
    """Builds tools, which proves them; libraries that the gate has kept of the same files are taken."""
    crates = crates_below(tools)
    take_libraries(TOP, [crate_of(tool) for tool in tools])
    work = Build(crates)
    every = len(crates_below(COMMANDS_OF))
    say(f"building {named(tools, commands)}, which proves it first: {len(crates)} of {every} crates, up to {work.slots} jobs; an interrupt keeps what is built")
    say("(./parbegin --unproved COMMAND FILE needs no such build: it compiles the sources with no proof, and runs them once)")
    run_to_end(work)


def wait_for_others(lock: IO[bytes]) -> None:
    """Waits until no other call is building."""
    try:
        fcntl.flock(lock, fcntl.LOCK_EX | fcntl.LOCK_NB)
    except BlockingIOError:
        say("another call is building: waiting for it")
        fcntl.flock(lock, fcntl.LOCK_EX)


def build(tools: list[str], commands: tuple[str, ...]) -> None:
    """Builds tools, unless another call has done so meanwhile, and records what they were built from."""
    with open(f"{TOP}/crates.txt", "rb") as lock:
        wait_for_others(lock)
        while left := old_ones(tools):
            files = {tool: sources(crates_below([tool])) for tool in left}
            given = {tool: marks_of(files[tool]) for tool in left}
            to_prove = [tool for tool in left if not is_taken(tool)]
            if to_prove:
                prove(to_prove, commands)
            for tool in left:
                record(tool, given[tool])


def record(tool: str, given: Marks) -> None:
    """Records what a tool was built from, if no source was changed meanwhile."""
    files = sources(crates_below([tool]))
    if not are_same(given, marks_of(files, given)):
        say("a source was changed meanwhile: once more")
        return
    made = with_tool(tool, [])[0]
    write_record(tool, {**given, made: mark_of(made)})


def changed_since(files: list[str], moment: float) -> str | None:
    """Returns one of the files that was changed after this moment, in seconds, if there is one."""
    return next((file for file in files if os.stat(f"{TOP}/{file}").st_mtime > moment), None)


def record_of_gate(words: list[str]) -> int:
    """Records that the gate has just built the tools of these sources, and returns the status.

    The word is when the gate began, in seconds; without it, no source of a tool may be newer than it.
    """
    if is_installed():
        stop("this is for a checkout")
    try:
        began = float(words[0]) if words else None
    except ValueError:
        stop(f"{words[0]} is no number of seconds")
    for tool in COMMANDS_OF:
        record_built(tool, began)
    return 0


def record_built(tool: str, began: float | None) -> None:
    """Records a tool that the gate has built, after this moment if one is given."""
    if not os.path.exists(path_of(tool)):
        stop(f"there is no parbegin-{tool} that the gate has built")
    made = os.stat(path_of(tool)).st_mtime
    since = made if began is None else began
    if made < since:
        stop(f"parbegin-{tool} is older than the gate's run: it is built anew when it is needed")
    files = sources(crates_below([tool]))
    newer = changed_since(files, since)
    if newer:
        stop(f"{newer} is newer than what the gate has proved: parbegin-{tool} is built anew when it is needed")
    write_record(tool, marks_of(with_tool(tool, files)))
