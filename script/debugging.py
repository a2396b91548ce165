"""`debug FILE`: at a terminal a session for a person, else the program with the commands of standard input."""
from __future__ import annotations

import os
import subprocess
import sys
import threading
from contextlib import suppress

from script.code import read_code
from script.files import MOST_READ, PICK, is_object, opened, parts_of
from script.helping import ran_on
from script.picks import Picks
from script.places import DEVICE, shown


def debug(start: list[str], words: list[str], name: str) -> int:
    """Debugs a file, and returns the status."""
    file = opened(name)
    if file is None:
        return DEVICE
    try:
        with file:
            given = file.read(2 * MOST_READ)
    except OSError:
        return DEVICE
    if os.isatty(0) and os.isatty(1) and "--live" not in words:
        return at_terminal(start, words, given, name)
    return on_pipes(start, words, given)


def whole(given: bytes) -> bytes:
    """Returns what a file has with the lines that must stand between it and commands, if it has none itself."""
    parts = len(parts_of(given))
    given += b"" if given.endswith(b"\n") or parts > 2 else b"\n"
    # (a text or an object without picks is debugged at position 0)
    return given + b"%%\n" * max(0, 3 - parts)


def on_pipes(start: list[str], words: list[str], given: bytes) -> int:
    """Gives the program a file and then what standard input has, as it comes, and returns its status."""
    given = whole(given)
    if not given.endswith(b"\n"):
        given += b"\n"
    live = [] if "--live" in words else ["--live"]
    with subprocess.Popen([*start, "debug", *live, *words], stdin=subprocess.PIPE, bufsize=0) as session:

        def feed(commands: bytes) -> None:
            assert session.stdin is not None
            with suppress(OSError), session.stdin as pipe:
                while commands:
                    pipe.write(commands)
                    commands = os.read(0, 65_536)

        # nobody waits for it: if the program ends first, it may be reading
        threading.Thread(target=feed, args=[given], daemon=True).start()
        return session.wait()


def at_terminal(start: list[str], words: list[str], given: bytes, name: str) -> int:
    """Debugs a file at a prompt, and returns the status."""
    # (these are needed here alone, and take some time to load)
    from script.prompt import Prompt
    from script.session import Refused, session_of

    first, lines, *commands = [*parts_of(given), b"", b""][: max(3, len(parts_of(given)))]
    first += b"" if first.endswith(b"\n") or not first else b"\n"
    status, told, _ = ran_on(start, ["migrate" if is_object(first) else "emit"], first)
    pick_lines = lines.splitlines()
    if status or not all(PICK.match(line) for line in pick_lines):
        # (it refuses this, and says why)
        return subprocess.run([*start, "debug", *words], input=whole(given), check=False).returncode
    try:
        picks = Picks([line.decode() for line in pick_lines])
        session = session_of(start, first, read_code(told.decode()), picks, words)
        return Prompt(session, shown(name), is_object(first)).run([it.decode(errors="replace") for it in commands[0].splitlines()])
    except Refused as refused:
        if refused.told:
            print(refused.told)
        return refused.status
    except BrokenPipeError:
        sys.stderr.close()
        return DEVICE
