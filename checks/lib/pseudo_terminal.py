"""A command at a terminal, played by Python's own pty: what is typed at each prompt, and all that is shown."""
from __future__ import annotations

import fcntl
import os
import pty
import re
import select
import struct
import termios
from collections.abc import Sequence

from calls import WATCHDOG

# Rows and columns: no line of a session is so long that readline would break it.
ROWS, COLUMNS = 50, 240


class Terminal:
    """A command that runs at a terminal of its own."""

    def __init__(self, words: Sequence[str], folder: str, columns: int = COLUMNS) -> None:
        self.shown = ""
        self.process, self.file = pty.fork()
        if self.process == 0:
            fcntl.ioctl(0, termios.TIOCSWINSZ, struct.pack("HHHH", ROWS, columns, 0, 0))
            os.chdir(folder)
            os.execvpe(words[0], list(words), {**os.environ, "TERM": "dumb", "PYTHONDONTWRITEBYTECODE": "1"})

    def read(self) -> bool:
        """Takes what is shown next, and returns whether there may be more."""
        if not select.select([self.file], [], [], WATCHDOG)[0]:
            raise TimeoutError(f"nothing is shown behind {self.shown[-200:]!r}")
        try:
            told = os.read(self.file, 65_536)
        except OSError:
            # (so a terminal ends)
            return False
        self.shown += told.decode(errors="replace").replace("\r\n", "\n")
        return bool(told)

    def wait_for(self, pattern: str, behind: int = 0) -> bool:
        """Waits until what is shown behind a place ends so, and returns whether it does."""
        while not re.search(f"(?:{pattern})\\Z", self.shown[behind:]):
            if not self.read():
                return False
        return True

    def type(self, typed: str) -> None:
        """Types keys."""
        os.write(self.file, typed.encode())

    def end(self) -> int:
        """Waits for the end, and returns the status."""
        while self.read():
            pass
        os.close(self.file)
        return os.waitstatus_to_exitcode(os.waitpid(self.process, 0)[1])


def played(words: Sequence[str], typed: Sequence[str], prompt: str, folder: str) -> str:
    """Types a line at each prompt and then the end of file, and returns all that is shown up to the last prompt."""
    it, behind = Terminal(words, folder), 0
    for line in typed:
        if not it.wait_for(prompt, behind):
            break
        behind = len(it.shown)
        it.type(f"{line}\n")
    it.wait_for(prompt, behind)
    it.type("\x04")
    it.end()
    return re.sub(rf"\n{prompt}\n*\Z", "\n", it.shown)
