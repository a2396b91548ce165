"""The debugger at a terminal: a prompt with the position, history, completion, and answers in words."""
from __future__ import annotations

import cmd
import os
import re
import readline
import signal
from collections.abc import Iterable

from script import shown
from script.code import arms_at
from script.manual import TEXTBOOK, help_of, list_of_commands, list_of_words
from script.session import Denied, Session
from script.typed import Completion, Mistake

# A move tells of so many picks at most, and of more only the last.
MOST_TOLD = 20
INTEGER = re.compile(r"-?[0-9]{1,19}")
# What is said of an arm that is not live.
NOT_LIVE = ("idle", "ended", "faulted")


class Prompt(Completion, cmd.Cmd):
    """A session for a person."""

    def __init__(self, session: Session, name: str, is_object: bool) -> None:
        super().__init__()
        self.session, self.name, self.is_object = session, name, is_object
        self.text = [] if is_object else session.given.decode(errors="replace").splitlines()
        self.last_move = ""

    # the loop

    def run(self, commands: list[str]) -> int:
        """Carries out the commands of a file, and then those that are typed, and returns the status."""
        readline.set_completer_delims(" \t\n")
        # (a script or a service may have started us with interrupts ignored)
        signal.signal(signal.SIGINT, signal.default_int_handler)
        self.say(self.introduction())
        is_over = False
        for command in commands:
            if command and not is_over:
                self.say(f"{self.prompt}{command}")
                is_over = self.onecmd(command)
        while not is_over:
            try:
                self.cmdloop()
                is_over = True
            except KeyboardInterrupt:
                # (the line that was typed is dropped)
                self.say("^C")
        return self.session.close()

    def introduction(self) -> str:
        """Returns what was loaded, in a line."""
        code = self.session.code
        resources = ", ".join(f"{capital} {name}" for name, capital in code.resources.items())
        processes, total = list(code.processes), self.session.picks.total
        parts = [f"process{'es' if len(processes) > 1 else ''} {', '.join(processes)}", f"{total} pick{'' if total == 1 else 's'}"]
        parts.append(f"resources: {resources}" if resources else "no resources")
        return f"{self.name}: {'; '.join(parts)}. `help` lists the commands."

    @property
    def prompt(self) -> str:  # type: ignore[override]
        """Returns the position among the picks."""
        return f"{self.session.position}/{self.session.picks.total}> "

    def say(self, text: str | Iterable[str]) -> None:
        """Writes a line, or several."""
        for line in [text] if isinstance(text, str) else text:
            print(line, file=self.stdout, flush=True)

    def onecmd(self, line: str) -> bool:
        """Carries out a command, and returns whether it was the last. An interrupt ends it, and not the session."""
        before = self.session.position
        try:
            return bool(super().onecmd(self.full(line)))
        except Mistake as mistake:
            self.say(str(mistake))
        except Denied as denied:
            self.say(f"the program refuses this: {denied}")
        except KeyboardInterrupt:
            self.session.position = before
            self.session.again()
            self.say("interrupted; the position is as it was")
        return False

    def emptyline(self) -> bool:
        """Makes the last move once more."""
        return bool(super().onecmd(self.last_move)) if self.last_move else False

    # moves

    def moved(self, command: str, line: str) -> None:
        """Remembers a move, which an empty line makes once more, and tells of its picks."""
        before, self.last_move = self.session.position, line
        if self.session.move(command) is None:
            self.say({"next": "no event after this position", "prev": "no event before this position"}.get(
                command, "it does not come there in the picks that follow"))
            return
        self.tell_from(before)

    def tell_from(self, before: int) -> None:
        """Tells what the picks between a position and this one did, or that these are undone."""
        here, total = self.session.position, self.session.picks.total
        if here > before:
            first = before if here - before <= MOST_TOLD else here - 1
            for pick in range(first, here):
                self.say(f"{pick + 1}/{total} {self.session.did(pick)}")
        elif here < before:
            self.say(f"{here}/{total} before {self.session.did(here)}")
        else:
            self.say(f"{here}/{total} is where it was")

    def step_by(self, by: int, line: str) -> None:
        """Goes on or back, at most to an end of the picks."""
        here, total = self.session.position, self.session.picks.total
        aim = min(max(here + by, 0), total)
        self.last_move = line
        if aim == here and by > 0:
            raise Mistake("the picks end here; `arms` shows what could come next, and `pick` makes such a pick")
        if aim == here:
            raise Mistake("this is the start")
        self.moved(f"to {aim}", line)

    def do_step(self, words: str) -> None:
        """Carries out `step [N]`."""
        self.step_by(self.number(words, 1), f"step {words}".strip())

    def do_back(self, words: str) -> None:
        """Carries out `back [N]`."""
        self.step_by(-self.number(words, 1), f"back {words}".strip())

    def do_to(self, words: str) -> None:
        """Carries out `to N`."""
        total = self.session.picks.total
        aim = total if words == "end" else self.number(words)
        if aim > total:
            raise Mistake(f"the positions are 0 to {total}")
        self.moved(f"to {aim}", f"to {aim}")

    def do_next(self, _: str) -> None:
        """Carries out `next`."""
        self.moved("next", "next")

    def do_prev(self, _: str) -> None:
        """Carries out `prev`."""
        self.moved("prev", "prev")

    def do_until(self, words: str) -> None:
        """Carries out `until P.a N`."""
        arm, _, line = words.partition(" ")
        arm = self.arm(arm)
        if not self.is_object and not 1 <= self.number(line) <= len(self.text):
            raise Mistake(f"the text has the lines 1 to {len(self.text)}")
        there = arms_at(self.session.code, self.number(line))
        if not there:
            raise Mistake(f"no arm is ever at line {self.number(line)}")
        if arm not in there:
            tries = " or ".join(f"`until {it} {line}`" for it in there)
            raise Mistake(f"{arm} never comes to line {line}, which is of {' and '.join(there)}: {tries}")
        self.moved(f"until {arm} {self.number(line)}", f"until {arm} {line}")

    def do_find(self, words: str) -> None:
        """Carries out `find P X V`."""
        name, integer, value = (*words.split(), "", "", "")[:3]
        name = self.process(name)
        self.integer(name, integer)
        if not INTEGER.fullmatch(value):
            raise Mistake(f"{value} is no integer" if value else "a value is missing; `help find` shows where")
        before, self.last_move = self.session.position, f"find {name} {integer} {int(value)}"
        if self.session.becomes(name, integer, int(value)):
            self.tell_from(before)
        else:
            self.say(f"{integer} does not become {int(value)} in the picks that follow")

    def do_pick(self, words: str) -> None:
        """Carries out `pick P.a`."""
        total = self.session.picks.total
        if self.session.position != total:
            raise Mistake(f"a pick is tried after the last one: `to {total}` goes there")
        arm = self.arm(words)
        if self.session.move(f"pick {arm}") is None:
            words = self.session.does(arm).partition(": ")[2]
            raise Mistake(f"{arm} can't be picked: {words if words in NOT_LIVE else f'it {words}'}")
        self.session.picks.add(arm)
        self.last_move = f"pick {arm}"
        self.tell_from(total)

    # what is shown

    def do_list(self, words: str) -> None:
        """Carries out `list [N]`."""
        if self.is_object:
            raise Mistake("an object has no source; `arms` shows what each arm does next")
        self.say(shown.listing(self.session, self.text, self.number(words) if words else None))

    def do_arms(self, _: str) -> None:
        """Carries out `arms`."""
        lines = list(shown.arms(self.session))
        self.say(lines or "  all processes have ended")

    def do_vars(self, words: str) -> None:
        """Carries out `vars [P]`."""
        for name in [self.process(words)] if words else self.session.code.processes:
            self.say(shown.integers(self.session, name))

    def do_threads(self, words: str) -> None:
        """Carries out `threads [P]`."""
        for name in [self.process(words)] if words else self.session.code.processes:
            self.say(shown.threads(self.session, name))

    def do_loans(self, _: str) -> None:
        """Carries out `loans`."""
        self.say(list(shown.loans(self.session)) or "  there are no resources")

    def do_who(self, words: str) -> None:
        """Carries out `who R`."""
        resource = self.resource(words)
        self.say(shown.loans(self.session, resource))
        for arm, verb, *rest in map(str.split, self.session.listed(f"who {resource}")):
            if verb == "asks":
                self.say(f"  {arm} asks for {' '.join(rest)}")

    def do_circle(self, _: str) -> None:
        """Carries out `circle`."""
        self.say(list(shown.circle(self.session)) or "  no processes wait for one another in a circle")

    def do_why(self, words: str) -> None:
        """Carries out `why P.a`."""
        arm = self.arm(words)
        self.say(f"  {arm}: {shown.reason(self.session.ask(f'why {arm}'))}")

    def do_wrote(self, words: str) -> None:
        """Carries out `wrote P X`."""
        name, _, integer = words.partition(" ")
        self.integer(self.process(name), integer)
        answer = self.session.ask(f"wrote {name} {integer}")
        if answer == "never":
            self.say(f"  no pick up to here changed {integer}")
        else:
            position = int(answer.split()[1])
            self.say(f"  {position}/{self.session.picks.total} {self.session.did(position - 1)}")

    def do_fault(self, words: str) -> None:
        """Carries out `fault P`."""
        name = self.process(words)
        answer = self.session.ask(f"fault {name}")
        self.say(f"  {name} has not faulted" if answer == "no fault" else f"  {answer}")

    def do_line(self, words: str) -> None:
        """Carries out `line P.a`."""
        self.say(f"  {self.session.does(self.arm(words))}")

    def do_text(self, words: str) -> None:
        """Carries out `text P.a`."""
        self.say(f"  {self.session.ask(f'text {self.arm(words)}')}")

    def do_stack(self, words: str) -> None:
        """Carries out `stack P.a`."""
        values = self.session.ask(f"stack {self.arm(words)}").split()[1:]
        self.say(f"  {' '.join(values)}" if values else "  nothing read or computed waits to be used")

    def do_save(self, words: str) -> None:
        """Carries out `save FILE`."""
        if not words:
            raise Mistake("`save FILE` names the file")
        if os.path.lexists(words):
            raise Mistake(f"there is a file {words}: give another name")
        lines = "".join(f"{line}\n" for line in self.session.picks.lines())
        try:
            with open(words, "xb") as file:
                file.write(self.session.given + b"%%\n" + lines.encode())
        except OSError as fault:
            raise Mistake(f"{words}: {fault.strerror}") from None
        total = self.session.picks.total
        self.say(f"  {words} has the run with its {total} pick{'' if total == 1 else 's'}")

    # help, the end, completion

    def do_help(self, arg: str) -> None:
        """Carries out `help [COMMAND]`."""
        word = " ".join(arg.lower().split())
        if word == "words":
            self.say(list_of_words())
        elif word in TEXTBOOK:
            meaning, command = TEXTBOOK[word]
            self.say(f"  {word}: {meaning}; `{command}` shows it")
        else:
            self.say(help_of(self.full(arg).split()[0]) if arg else list_of_commands())

    def do_quit(self, _: str) -> bool:
        """Carries out `quit`."""
        return True

    def do_EOF(self, _: str) -> bool:
        """Ends the session at the end of file."""
        self.say("")
        return True
