"""What each command of a session at a terminal means, with an example."""
from __future__ import annotations

from collections.abc import Iterator
from typing import NamedTuple


class Command(NamedTuple):
    """A command: its form, what it does, and an example."""

    form: str
    meaning: str
    example: str


COMMANDS = {
    "step": Command("step [N]", "makes the next pick, or the next N, and says what each did", "step 3"),
    "back": Command("back [N]", "goes back by one pick, or by N", "back 2"),
    "next": Command("next", "goes on to just after the next event", "next"),
    "prev": Command("prev", "goes back to just after the event before", "prev"),
    "to": Command("to N", "goes to a position: 0 is the start, and `to end` goes to the last one", "to 7"),
    "until": Command("until P.a N", "goes on until an arm comes to line N", "until p.1 8"),
    "find": Command("find P X V", "goes on until an integer of a process becomes V", "find p x 2"),
    "pick": Command("pick P.a", "after the last pick: makes one more, of that arm", "pick p.1"),
    "list": Command("list [N]", "shows the source with the arms at their lines, or the lines around N", "list 12"),
    "arms": Command("arms", "shows what each arm would do that could be picked, > the next pick, and which arms wait", "arms"),
    "vars": Command("vars [P]", "shows the integers of a process, or of all", "vars p"),
    "wrote": Command("wrote P X", "shows the last pick that changed an integer of a process", "wrote p x"),
    "threads": Command("threads [P]", "shows where the arms of a process are, or of all", "threads p"),
    "fault": Command("fault P", "shows the operator at which a process faulted, with its operands", "fault p"),
    "line": Command("line P.a", "shows what an arm does next", "line p.1"),
    "text": Command("text P.a", "shows the source line of what an arm does next", "text p.1"),
    "loans": Command("loans", "shows who holds what, and what is left", "loans"),
    "who": Command("who R", "shows who holds some of a resource, and who asks for it", "who tape"),
    "circle": Command("circle", "shows processes that wait for one another in a circle", "circle"),
    "why": Command("why P.a", "says why an arm waits, or why its request can be granted", "why b.0"),
    "stack": Command("stack P.a", "shows the values that an arm has read or computed and not used yet", "stack p.1"),
    "save": Command("save FILE", "writes the text with all picks, those that were tried too, for replay", "save my.run"),
    "help": Command("help [COMMAND]", "lists the commands, or says more of one", "help until"),
    "quit": Command("quit", "ends the session; so does Ctrl-D", "quit"),
}
SHORT = {
    "s": "step", "b": "back", "n": "next", "p": "prev", "t": "to", "u": "until", "l": "list", "a": "arms", "v": "vars",
    "w": "why", "h": "help", "?": "help", "q": "quit", "exit": "quit",
}
# What other debuggers call a command.
ELSEWHERE = {
    "print": "vars", "continue": "next", "run": "next", "break": "until", "where": "arms", "info": "arms", "undo": "back",
    "search": "find", "watch": "find", "goto": "to", "end": "to end", "last": "to end",
}
WORDS = "P is a process, P.a an arm of it (p.0 is the body of p), X an integer, R a resource, N a number."
MORE = "An empty line makes the last move once more. A command may be cut short, as `st` or `s`. Ctrl-C ends a command."
BOOKS = "`help words` says what words of textbooks, such as available, need and race, are called here."


# What a textbook says, what it is here, and the command that shows it.
TEXTBOOK = {
    "available": ("what is left to lend: the cash", "loans"),
    "allocation": ("what a process holds now: its loan", "loans"),
    "max": ("the most that a process may ever hold, read off its text: its claim", "loans"),
    "need": ("what a process may still ask for: its claim less its loan", "loans"),
    "request": ("a hold that an arm has come to and has not been granted", "who"),
    "safe": ("in some order each process can be given its need, and then gives all back", "why"),
    "deadlock": ("processes that wait for one another; only by the cash alone", "circle"),
    "thread": ("what runs side by side with others: an arm, p.1 and p.2 of process p", "arms"),
    "race": ("two arms use an integer, and what comes of it depends on the order", "wrote"),
    "lost update": ("an addition without effect, since another arm had read the integer before it", "wrote"),
    "critical section": ("steps of which only one process may be in at a time: the body of a hold of a resource of capital 1", "who"),
    "lock": ("a resource of capital 1, held while the body of its hold runs; so a mutex", "who"),
    "semaphore": ("a resource: its capital is the first value, its cash the value now", "loans"),
    "starvation": ("an arm that could go on at times and is never picked, or never granted what it asks for", "why"),
}


def list_of_words(with_commands: bool = True) -> Iterator[str]:
    """Yields what words of textbooks mean here, a line each, with the command of a session that shows it."""
    width = max(map(len, TEXTBOOK))
    for word, (meaning, command) in TEXTBOOK.items():
        yield f"  {word:{width}}  {meaning}{f' (`{command}`)' if with_commands else ''}"


def list_of_commands() -> Iterator[str]:
    """Yields the commands, a line each."""
    for it in COMMANDS.values():
        yield f"  {it.form:<14} {it.meaning}"
    yield WORDS
    yield MORE
    yield BOOKS


def help_of(name: str) -> Iterator[str]:
    """Yields what a command means, with an example."""
    it = COMMANDS[name]
    short = [key for key, full in SHORT.items() if full == name and len(key) == 1 and key != "?"]
    yield f"  {it.form}: {it.meaning}"
    yield f"  for example: {it.example}" + (f"; `{short[0]}` is short for {name}" if short else "")
