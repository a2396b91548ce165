"""A conversation with the command `bank`: a line goes to it, and its answer is read up to the line `ready`."""
from __future__ import annotations

import contextlib
import errno
import os
import signal
import subprocess
import time

from .answers import CLOSED, Ended, Fault

# No answer is as long: of 16 resources, 64 jobs and as many wishes, with names of 32 bytes.
MOST_ANSWER = 1_000_000
# Seconds that a program has to end in when its input has ended.
GRACE = 5


def is_whole(told: list[bytes]) -> bool:
    """Returns whether an answer has been read up to its last line."""
    return b"".join([b"\n", *told]).endswith(b"\nready\n")


class Pipes:
    """A program that answers commands.

    It has a session of its own, so that what a terminal sends to the runner (at Ctrl-C, say) does not end it. It ends with
    its input, and so with its runner.
    """

    def __init__(self, program: str) -> None:
        self.ended = ""
        # What was written of the command that is not answered yet, and what was read of its answer.
        self.open: tuple[list[int], list[bytes]] | None = None
        try:
            self.process = subprocess.Popen(
                [program, "bank"], bufsize=0, stdin=subprocess.PIPE, stdout=subprocess.PIPE, start_new_session=True)
        except OSError as fault:
            raise Fault(f"{program} could not be started: {fault.strerror}") from fault
        assert self.process.stdin is not None and self.process.stdout is not None
        self.given, self.told = self.process.stdin, self.process.stdout

    def check(self) -> None:
        """Raises Ended if the program has ended."""
        if not self.ended and self.has_ended():
            self.end(self.how_it_ended())
        if self.ended:
            raise Ended(self.ended)

    def say(self, command: str) -> list[str]:
        """Sends a command, and returns the lines of its answer. No other answer may be left to read."""
        written, told = self.open = [], []
        try:
            # (in one step: an interrupt comes before the line is written, or after it was noted that it is)
            written.extend(map(os.write, (self.given.fileno(),), (command.encode() + b"\n",)))
        except (OSError, ValueError) as fault:
            self.raise_if_broken(fault)
            raise
        return self.answer(told)

    def answer(self, told: list[bytes]) -> list[str]:
        """Reads the answer, or what is left of it behind what was told, and returns its lines."""
        while not is_whole(told):
            try:
                told.extend(map(os.read, (self.told.fileno(),), (65_536,)))
            except (OSError, ValueError) as fault:
                self.raise_if_broken(fault)
                raise
            if not told[-1]:
                raise self.break_off(b"".join(told).decode(errors="replace"))
            if sum(map(len, told)) > MOST_ANSWER:
                raise self.refuse(f"one has no end, and begins with {told[0][:32]!r}")
        self.open = None
        return b"".join(told).decode(errors="replace").split("\n")[:-2]

    def catch_up(self) -> None:
        """Reads the answer that an interrupted call has left, if there is one."""
        written, told = self.open or ([], [])
        if written:
            self.answer(told)
        self.open = None

    def has_ended(self) -> bool:
        """Returns whether the program has ended. (The `poll` of subprocess has a lock, which an interrupt may leave closed.)"""
        if self.process.returncode is None:
            try:
                ended, status = os.waitpid(self.process.pid, os.WNOHANG)
            except ChildProcessError:
                # (somebody else has waited for it)
                self.process.returncode = 0
            else:
                self.process.returncode = os.waitstatus_to_exitcode(status) if ended else None
        return self.process.returncode is not None

    def how_it_ended(self) -> str:
        """Says how the program ended."""
        status = self.process.returncode
        if status is None:
            return "the program of the bank has closed its end of a pipe"
        how = f", with status {status}" if status > 0 else f", by signal {-status}" if status else ""
        return f"the program of the bank has ended{how}"

    def raise_if_broken(self, fault: OSError | ValueError) -> None:
        """Raises Ended if a pipe is broken or closed, and not only the handler of a signal has raised something."""
        if self.given.closed or getattr(fault, "errno", None) == errno.EPIPE:
            raise self.break_off() from None

    def break_off(self, told: str = "") -> Ended:
        """Ends the conversation, and returns the error that says why."""
        if not self.ended:
            self.stop()
            self.end(self.how_it_ended() + (f": {told.strip()}" if told.strip() else ""))
        return Ended(self.ended)

    def refuse(self, told: str) -> Ended:
        """Ends the conversation since an answer is none, and returns the error that says so."""
        self.end(f"the program of the bank gives answers that are none: {told}")
        self.stop()
        return Ended(self.ended)

    def end(self, why: str) -> None:
        """Notes why there is no more conversation, and closes the pipes."""
        self.ended, self.open = why, None
        for pipe in (self.given, self.told):
            pipe.close()

    def stop(self) -> None:
        """Waits until the program has ended, which the end of its input tells it to do, or ends it."""
        self.given.close()
        if not self.ends_in(GRACE):
            self.kill()
            self.ends_in(GRACE)

    def ends_in(self, seconds: float) -> bool:
        """Waits for the end of the program, and returns whether it came in time."""
        late, pause = time.monotonic() + seconds, 0.0005
        while not self.has_ended():
            if time.monotonic() > late:
                return False
            time.sleep(pause)
            pause = min(2 * pause, 0.05)
        return True

    def kill(self) -> None:
        """Ends the program, wherever it is."""
        if self.process.returncode is None:
            with contextlib.suppress(ProcessLookupError):
                os.kill(self.process.pid, signal.SIGKILL)

    def close(self) -> None:
        """Ends the program."""
        if not self.ended:
            self.end(CLOSED)
        self.stop()

    def leave(self) -> None:
        """Closes the pipes of a forked process, whose parent goes on with the conversation."""
        self.end("the bank is that of the process that opened it")
        self.process.returncode = 0
