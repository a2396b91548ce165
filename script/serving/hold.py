"""`./parbegin hold`: runs a command while it holds resources of a served bank."""
from __future__ import annotations

import os
import sys
import time

from script.serving.amounts import spell
from script.serving.client import Client, Fault, SessionLost, now
from script.serving.hold_words import HELP, USE, Options, WrongWords, read_words

TYPE_CHECKING = False
if TYPE_CHECKING:
    import signal
    from typing import Any

    _ctypes: Any
else:
    # (`signal` and `ctypes` are these with more, which takes longer to import than Python takes to start)
    import _ctypes
    import _signal as signal

WORDS, UNAVAILABLE, LOST, CANNOT_RUN, NOT_FOUND = 2, 69, 75, 126, 127
# What stops a hold that waits, and is passed on to the command of one that does not.
STOPS = (signal.SIGTERM, signal.SIGINT, signal.SIGHUP, signal.SIGQUIT)
WATCHED = (signal.SIGCHLD, *STOPS)
PR_SET_PDEATHSIG = 1
# Seconds between two tries to join, to wish, and two looks at why it waits.
JOIN, WISH, LOOK = 0.3, 0.1, 0.5
# The refusals of `drop` of a wish that was granted: none waits, or that of another part of the job.
LATE = ("refused B13", "refused S13")
# When a command is ended since the bank cannot be reached: shares of the lease that are left.
END_AT, KILL_AT = 0.3, 0.1


class Stopped(Exception):
    """A signal came while the hold waited."""

    def __init__(self, number: int) -> None:
        super().__init__()
        self.number = number


def say(text: str) -> None:
    """Writes a line to standard error."""
    os.write(2, f"parbegin hold: {text}\n".encode(errors="surrogateescape"))


class Shown:
    """Why nothing happens: a line of a terminal, or lines if that is wanted elsewhere."""

    def __init__(self, is_verbose: bool) -> None:
        self.is_terminal = os.isatty(2)
        self.is_wanted = is_verbose or self.is_terminal
        self.last = ""

    def show(self, text: str) -> None:
        """Shows why it waits, if that is another reason than before."""
        if self.is_wanted and text != self.last:
            self.last = text
            os.write(2, f"\r\033[K{text}".encode() if self.is_terminal else f"{text}\n".encode())

    def clear(self) -> None:
        """Leaves the line of the terminal empty."""
        if self.last and self.is_terminal:
            os.write(2, b"\r\033[K")


def name_of(command: str) -> str:
    """Returns a name for a job: of the command, the machine and the process, and some drawn signs."""
    parts = (os.path.basename(command)[:10], os.uname().nodename[:8], f"{os.getpid()}"[-7:])
    fit = (it if it.isascii() and it.isalnum() or it in "_.-" else "_" for it in ".".join(parts))
    return f"{''.join(fit)}.{os.urandom(2).hex()}"


def told(reason: str) -> str:
    """Returns why a wish waits, in words."""
    words = reason.split(" ")
    if words[:2] == ["wait", "cash"]:
        return f"{words[3]} of {words[2]} left"
    return f"could not finish then: {' '.join(words[2:])}" if words[:2] == ["wait", "rest"] else reason


class Hold:
    """A hold: the session of its client, the job for which it asks, and what is shown meanwhile."""

    def __init__(self, client: Client, options: Options) -> None:
        self.client, self.options = client, options
        inside = options.inside
        self.job = inside or options.name or name_of(options.command[0])
        self.key = os.environ.get("PARBEGIN_KEY", "") if inside else ""
        self.first = f"use {inside} {self.key}" if inside else f"job {self.job} {spell(options.claim or options.amounts)}"
        self.request = f"{'want' if options.is_patient else 'ask'} {self.job} {spell(options.amounts)}"
        self.end = None if options.timeout is None else now() + options.timeout
        self.shown = Shown(options.is_verbose)

    def obtain(self) -> str | None:
        """Joins and waits for the grant. Returns the fence; nothing, if it was not granted in time."""
        numbers = self.client.open([self.first, self.request, "fence"])
        joined, said, fence = (self.client.answer(number, self.client.patience) for number in numbers)
        while self.is_full(joined):
            if not self.pause(f"{self.job} waits: there are as many jobs as there can be", JOIN):
                return None
            joined = self.client.tell(self.first)
            said = fence = []
        self.refuse(joined)
        while not said or said[0].startswith("refused B12"):
            # (a job has one wish at most)
            if said and not self.pause(f"{self.job} waits: another part of it waits", WISH):
                return None
            said, fence = self.client.tell(self.request), []
        self.refuse(said)
        if said[0] == "queued":
            fence = []
        is_granted = said[0].startswith("granted") or said[0] == "queued" and self.wait()
        self.shown.clear()
        if not is_granted:
            return None
        return (fence or self.client.say("fence"))[0].partition(" ")[2]

    def is_full(self, joined: list[str]) -> bool:
        """Returns whether the job has to wait for a place; or for its own name, that an attempt before took in vain."""
        return bool(joined) and (joined[0].startswith("refused B9") or joined[0].startswith("refused B7") and not self.options.name)

    @staticmethod
    def refuse(said: list[str]) -> None:
        """Raises Fault if the bank refuses, or never lends as much."""
        if said and said[0].startswith("refused"):
            raise Fault(said[0])
        if said and said[0].startswith("over claim"):
            raise Fault(f"the claim of the job does not allow as much of {said[0].split(' ')[2]}")

    def pause(self, why: str, seconds: float) -> bool:
        """Waits a moment, and says why. Returns whether there is time left."""
        if not self.options.is_patient:
            return False
        self.shown.show(why)
        left = seconds if self.end is None else min(seconds, self.end - now())
        if left <= 0:
            return False
        time.sleep(left)
        return True

    def wait(self) -> bool:
        """Waits for the grant of a wish. Returns whether it came in time; if not, the wish is taken back."""
        while self.job not in self.client.granted:
            if self.has_left():
                raise Fault(f"{self.job} has left, with all that it held")
            if self.shown.is_wanted:
                reason = self.client.tell(f"why {self.job} {spell(self.options.amounts)}")
                if self.job not in self.client.granted:
                    self.shown.show(f"{self.job} waits for {spell(self.options.amounts)}: {told(reason[0])}")
            elif self.client.left() < 0.75 * self.options.lease:
                self.client.beat()
            if self.end is not None and now() >= self.end and self.job not in self.client.granted:
                # (that is refused if the grant came at the last moment)
                return self.is_granted_late(self.client.tell(f"drop {self.job}"))
            if self.job not in self.client.granted:
                most = LOOK if self.shown.is_wanted else self.options.lease / 4
                self.client.wait(most if self.end is None else min(most, self.end - now()))
        return True

    @staticmethod
    def is_granted_late(dropped: list[str]) -> bool:
        """Returns whether a wish could not be taken back since it was granted. Raises Fault if the job has left."""
        if dropped and not dropped[0].startswith(LATE):
            raise Fault(dropped[0])
        return bool(dropped)

    def run(self, fence: str) -> int:
        """Runs the command, and passes signals on. It is ended before the lease is, if the bank cannot be reached."""
        around = {"PARBEGIN_FENCE": fence, "PARBEGIN_JOB": self.job, "PARBEGIN_KEY": self.key or self.client.key}
        pid = start(self.options.command, {**os.environ, **around, "PARBEGIN_SOCKET": self.options.address})
        is_lost = False
        while (ended := ended_status(pid, 0.1 if is_lost else self.rest())) is None:
            left = self.left()
            if left < END_AT * self.options.lease and not is_lost:
                why = f"{self.job} has left" if self.has_left() else "the bank cannot be reached"
                say(f"{why}, and what {self.job} holds is no longer sure: the command is ended")
                os.kill(pid, signal.SIGTERM)
                is_lost = True
            if left < KILL_AT * self.options.lease:
                os.kill(pid, signal.SIGKILL)
        return LOST if is_lost else ended

    def rest(self) -> float:
        """Returns the seconds until the lease wants to be looked at."""
        return min(0.25 * self.options.lease, 0.5 if self.client.waiting else self.options.lease)

    def left(self) -> float:
        """Keeps the lease, and returns for how many seconds it surely lasts; none, if the session has ended."""
        if self.client.left() < 0.85 * self.options.lease:
            try:
                self.client.beat()
            except SessionLost:
                return 0.0
            except Fault:
                # (another connection may be taken)
                self.client.drop()
        return 0.0 if self.has_left() else self.client.left()

    def has_left(self) -> bool:
        """Returns whether the job, within which this hold is, has left."""
        return self.job in self.client.left_jobs


def start(command: list[str], environment: dict[str, str]) -> int:
    """Starts a command that is killed if this process is, so that it does not run on without what it held."""
    signal.signal(signal.SIGCHLD, signal.SIG_DFL)
    signal.pthread_sigmask(signal.SIG_BLOCK, WATCHED)
    parent, prctl = os.getpid(), _ctypes.dlsym(_ctypes.dlopen(None, 0), "prctl")
    pid = os.fork()
    if pid:
        return pid
    try:
        _ctypes.call_function(prctl, (PR_SET_PDEATHSIG, signal.SIGKILL))
        for number in (*STOPS, signal.SIGPIPE, signal.SIGXFSZ):
            signal.signal(number, signal.SIG_DFL)
        signal.pthread_sigmask(signal.SIG_UNBLOCK, WATCHED)
        if os.getppid() == parent:
            os.execvpe(command[0], command, environment)
    except FileNotFoundError:
        say(f"{command[0]}: there is no such command")
        os._exit(NOT_FOUND)
    except OSError as fault:
        say(f"{command[0]}: {fault.strerror}")
    finally:
        os._exit(CANNOT_RUN)


def ended_status(pid: int, seconds: float) -> int | None:
    """Waits for the end of the command some seconds, and returns its status if it has ended. Passes signals on to it."""
    came = signal.sigtimedwait(WATCHED, seconds)
    # (what is typed at a terminal the command gets itself: then no process has sent it)
    if came is not None and came.si_signo != signal.SIGCHLD and came.si_code <= 0:
        os.kill(pid, came.si_signo)
    done, status = os.waitpid(pid, os.WNOHANG)
    if not done:
        return None
    code = os.waitstatus_to_exitcode(status)
    return 128 - code if code < 0 else code


def stop(number: int, frame: object) -> None:
    """Ends the wait."""
    raise Stopped(number)


def hold(options: Options) -> int:
    """Obtains, runs and gives back, and returns the status."""
    patience = options.timeout if options.is_patient else 5.0
    client = Client(options.address, options.lease, os.environ.get("PARBEGIN_TOKEN"), os.environ.get("PARBEGIN_CA"), patience)
    client.on_silence = say
    it = Hold(client, options)
    try:
        for number in STOPS:
            signal.signal(number, stop)
        fence = it.obtain()
        return options.conflict if fence is None else it.run(fence)
    except Stopped as stopped:
        it.shown.clear()
        return 128 + stopped.number
    except Fault as why:
        it.shown.clear()
        say(str(why))
        return LOST if isinstance(why, SessionLost) else UNAVAILABLE
    finally:
        # (all comes back, and a wish is gone)
        client.close()


def call(words: list[str]) -> int:
    """Does what the words of a call say, and returns the status."""
    try:
        options = read_words(words)
    except WrongWords as wrong:
        os.write(2, f"error: {wrong}\n\nUsage: {USE}\n\nFor more information, try '--help'.\n".encode(errors="surrogateescape"))
        return WORDS
    if options is None:
        sys.stdout.write(HELP)
        sys.stdout.flush()
        return 0
    return hold(options)
