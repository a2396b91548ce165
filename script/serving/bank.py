"""The process `parbegin bank`: a line in, the lines of its answer out."""
from __future__ import annotations

import subprocess
from collections.abc import Sequence

READY = b"ready\n"
# Lines that are sent before their answers are read: neither pipe can be full then.
AT_ONCE = 100


class BankEnded(Exception):
    """The bank has ended: the server stops, and starts again from its journal."""


class BankProcess:
    """One bank. A call waits for the answer. The bank has no input but these lines, and no clock."""

    def __init__(self, words: Sequence[str]) -> None:
        # (in a session of its own, so that an interrupt at a terminal does not end it before the server)
        self.process = subprocess.Popen(words, stdin=subprocess.PIPE, stdout=subprocess.PIPE, start_new_session=True)
        assert self.process.stdin is not None and self.process.stdout is not None
        self.given, self.told = self.process.stdin, self.process.stdout

    def say(self, line: str) -> list[str]:
        """Sends one command, which is not empty and no comment, and returns its answer without `ready`."""
        return self.say_all([line])[0]

    def say_all(self, lines: Sequence[str]) -> list[list[str]]:
        """Sends commands none of which depends on the answer to another, and returns their answers."""
        answers: list[list[str]] = []
        for start in range(0, len(lines), AT_ONCE):
            some = lines[start : start + AT_ONCE]
            try:
                self.given.write("".join(f"{line}\n" for line in some).encode("latin-1"))
                self.given.flush()
            except OSError as fault:
                raise BankEnded(f"the bank takes no more commands: {fault.strerror}") from fault
            answers += [self._read() for _ in some]
        return answers

    def _read(self) -> list[str]:
        """Reads one answer."""
        lines: list[str] = []
        while (line := self.told.readline()) != READY:
            if not line.endswith(b"\n"):
                raise BankEnded("the bank ended within an answer")
            lines.append(line[:-1].decode("latin-1"))
        return lines

    def close(self) -> None:
        """Ends the bank."""
        try:
            self.given.close()
        except OSError:
            # (what it was not yet sent, it cannot be sent any more)
            pass
        self.told.close()
        self.process.wait()
