#!/usr/bin/env python3
"""Plays a session of `parbegin dap` as an editor would, and checks what is answered.

    checks/quick/adapter.py [PROGRAM]     PROGRAM is the one that ./parbegin has built if none is given
    checks/quick/adapter.py --asked       writes the requests to standard output, each in its frame
    checks/quick/adapter.py --said FILE   checks what was answered to them, as FILE has it

The session is over examples/lost.run. Each request must have one response, in order, with its number and its command, and
the messages must be numbered from 1 without a gap. The status is 0 if all is as wanted, and 1 if not.
"""
from __future__ import annotations

import json
import subprocess
import sys
from collections.abc import Callable
from pathlib import Path
from typing import Any

sys.path.insert(0, str(Path(__file__).resolve().parents[1] / "lib"))

from calls import TOP, program  # noqa: E402

LOST = TOP / "examples/lost.run"
Message = dict[str, Any]
# A request, what must hold of the body of its response, and the event that must follow with what it says.
Asked = tuple[str, Message, Callable[[Any], bool] | str, Message | None]


def names(body: Message) -> list[str]:
    return [thread["name"] for thread in body["threads"]]


def line(wanted: int) -> Callable[[Any], bool]:
    return lambda body: [frame["line"] for frame in body["stackFrames"]] == [wanted]


def values(**wanted: str) -> Callable[[Any], bool]:
    return lambda body: {it["name"]: it["value"] for it in body["variables"]} == wanted


def stopped(reason: str, position: int, **more: str) -> Message:
    return {"event": "stopped", "reason": reason, "description": f"position {position}", **more}


def anything(body: Any) -> bool:
    return True


SKIP = "process p begin skip end"
# What is told of launches that are refused: the refusal line, and the words of `check` or `replay`.
NOT_DECLARED = """refused N3 at 17
error N3: integer x is not declared in process p
  --> line 2, column 2
  |
2 |  x := 1 end
  |  ^
  = hint: declare it after the first begin of the process: integer x;"""
NO_PROCESS = """refused K1 at 0
error K1: there is no process `q`
  --> pick line 1, column 1
  |
1 | q.0 1
  | ^
  = the processes before the line %% are p
  = line 3 of the input"""
NOT_ENABLED = """refused H1 at 1
error H1: p.0 cannot make a pick after 1 pick
  --> pick line 1, column 1
  |
1 | p.0 9
  | ^
  = 1 of the 9 picks of this line was made
  = the arm has ended
  = line 3 of the input
  = hint: leave the pick out, or make others before it; without it and those after it, debug shows the run up to here"""
NO_PICKS_WITH_A_SEED = """refused L2 at 25
error L2: unexpected character `%`
  --> line 2, column 1
  |
2 | %%
  | ^
  = hint: a line %% has nothing else in it; after it are further texts, for check, or picks, for replay, draw and debug"""
AN_OBJECT = """refused P1 at 0
error P1: this is an object, and not a program
  --> line 1, column 1
  |
1 | PBO 2
  | ^
  = hint: exec runs an object, debug reads its runs, and migrate writes it in the second format"""
NO_SEED = "seed is not in 0..=18446744073709551615"
SESSION: list[Asked] = [
    ("initialize", {"adapterID": "parbegin"}, lambda body: body["supportsStepBack"], None),
    ("threads", {}, "no text is launched", None),
    ("launch", {}, "there is no text", None),
    ("launch", {"text": SKIP}, "there is no program: the path of the text", None),
    ("launch", {"program": "p.pb", "text": "process p begin\n x := 1 end"}, NOT_DECLARED, None),
    ("launch", {"program": "p.pb", "text": f"{SKIP}\n%%\nq.0 1"}, NO_PROCESS, None),
    ("launch", {"program": "p.pb", "text": "PBO 2\n"}, AN_OBJECT, None),
    ("launch", {"program": "p.pb", "text": SKIP, "lend": "bank"}, "lend is banker or cash", None),
    ("launch", {"program": "p.pb", "text": SKIP, "lend": 1}, "lend is banker or cash", None),
    *[("launch", {"program": "p.pb", "text": SKIP, "seed": seed}, NO_SEED, None) for seed in ("1", -1, 1 << 64, 1.5)],
    ("launch", {"program": "p.pb", "text": f"{SKIP}\n%%\np.0 9"}, NOT_ENABLED, None),
    ("launch", {"program": "p.pb", "text": f"{SKIP}\n%%\np.0 1", "seed": 1}, NO_PICKS_WITH_A_SEED, None),
    ("launch", {"program": "lost.run", "text": LOST.read_text()}, anything, {"event": "initialized"}),
    ("setBreakpoints", {"breakpoints": [{"line": 10}, {"line": 1}]},
     lambda body: [it["verified"] for it in body["breakpoints"]] == [True, False], None),
    ("setBreakpoints", {"source": {"path": "other.run"}, "breakpoints": [{"line": 10}]},
     lambda body: body["breakpoints"] == [{"line": 10, "verified": False, "message": "this is not the text that is launched"}], None),
    ("configurationDone", {}, anything, stopped("entry", 0)),
    ("threads", {}, lambda body: names(body) == ["p.0"], None),
    ("stackTrace", {"threadId": 1}, line(6), None),
    ("scopes", {"frameId": 1}, lambda body: [it["variablesReference"] for it in body["scopes"]] == [1, 130, 65, 129], None),
    ("variables", {"variablesReference": 1}, values(x="0"), None),
    ("continue", {"threadId": 1}, anything, stopped("breakpoint", 12)),
    ("stackTrace", {"threadId": 1}, line(10), None),
    ("variables", {"variablesReference": 1}, values(x="1"), None),
    ("setBreakpoints", {"breakpoints": [{"line": 7}, {"line": 8}]}, anything, None),
    ("reverseContinue", {"threadId": 1}, anything, stopped("breakpoint", 1)),
    ("threads", {}, lambda body: names(body) == ["p.0", "p.1", "p.2"], None),
    ("stackTrace", {"threadId": 2}, line(7), None),
    ("stackTrace", {"threadId": 3}, line(8), None),
    ("stackTrace", {"threadId": 99}, lambda body: body["stackFrames"] == [], None),
    ("variables", {"variablesReference": 1}, values(x="0"), None),
    ("next", {"threadId": 2}, anything, stopped("step", 7)),
    ("variables", {"variablesReference": 1}, values(x="1"), None),
    ("variables", {"variablesReference": 132}, values(**{"0": "0", "1": "1"}), None),
    ("stepBack", {"threadId": 2}, anything, stopped("step", 1)),
    ("evaluate", {"expression": "why p.0"}, lambda body: body["result"] == "not asking\n", None),
    ("evaluate", {"expression": "to 7"}, lambda body: body["result"] == "at 7\n", stopped("goto", 7)),
    ("evaluate", {"expression": "to 99"}, "refused G1", None),
    ("evaluate", {"expression": "vars q"}, "refused G2", None),
    ("evaluate", {"expression": "fly"}, "refused G4", None),
    ("evaluate", {"expression": "to 7\nto 99"}, "at 7\nrefused G1", None),
    ("pause", {"threadId": 1}, anything, stopped("pause", 7)),
    ("setBreakpoints", {"breakpoints": []}, anything, None),
    ("continue", {"threadId": 1}, anything, stopped("end", 15, text="no circle\n")),
    ("next", {"threadId": 1}, anything, stopped("waits", 15, text="not asking\n")),
    ("restart", {}, anything, stopped("entry", 0)),
    ("launch", {"text": "process p begin skip end"}, "a text is launched already", None),
    ("flyToTheMoon", {}, "this request is not known", None),
    ("scopes", {"frameId": 99}, lambda body: body["scopes"] == [], None),
    ("terminate", {}, anything, {"event": "terminated"}),
    ("disconnect", {}, anything, None),
]


# Headers as editors may write them.
HEADERS = (b"Content-Length: %d\r\n\r\n", b"content-length:%d\r\n\r\n", b"Content-Type: x\r\nCONTENT-LENGTH: \t%d\r\n\r\n")


# A session with a client that counts lines and columns from 0.
FROM_0: list[Asked] = [
    ("initialize", {"linesStartAt1": False, "columnsStartAt1": False}, anything, None),
    ("launch", {"program": "lost.run", "text": LOST.read_text()}, anything, {"event": "initialized"}),
    ("setBreakpoints", {"source": {"path": "lost.run"}, "breakpoints": [{"line": 9}, {"line": 0}]},
     lambda body: body["breakpoints"] == [{"line": 9, "verified": True}, {"line": 0, "verified": False}], None),
    ("setBreakpoints", {"source": {"path": "other.run"}, "breakpoints": [{"line": 4}]},
     lambda body: [it["line"] for it in body["breakpoints"]] == [4], None),
    ("continue", {"threadId": 1}, anything, stopped("breakpoint", 12)),
    ("stackTrace", {"threadId": 1}, lambda body: [(it["line"], it["column"]) for it in body["stackFrames"]] == [(9, 0)], None),
    ("disconnect", {}, anything, None),
]


def framed(message: Message) -> bytes:
    content = json.dumps(message).encode()
    return HEADERS[message["seq"] % len(HEADERS)] % len(content) + content


def asked(session: list[Asked]) -> list[bytes]:
    """Returns the requests of a session, each in its frame."""
    return [framed({"seq": seq, "type": "request", "command": command, "arguments": arguments})
            for seq, (command, arguments, _, _) in enumerate(session, 1)]


class Client:
    """Reads what was answered, and counts what is not as wanted."""

    def __init__(self, source: Any) -> None:
        self.source, self.heard, self.wrong = source, 0, 0

    def check(self, what: str, holds: bool, message: Any) -> None:
        if not holds:
            self.wrong += 1
            print(f"{what}: {message}")

    def hear(self) -> Message:
        head = self.source.readline()
        if not head.startswith(b"Content-Length: ") or self.source.readline() != b"\r\n":
            sys.exit(f"this is not the header of a message: {head!r}")
        message: Message = json.loads(self.source.read(int(head[16:])))
        self.heard += 1
        self.check("a message has the next number", message["seq"] == self.heard, message)
        return message

    def hear_answer(self, seq: int, wanted: Asked) -> None:
        command, _, body, event = wanted
        said = self.hear()
        named = (said["type"], said["request_seq"], said["command"])
        self.check(f"request {seq} has its response", named == ("response", seq, command), said)
        if isinstance(body, str):
            self.check(f"request {seq} is refused", (said["success"], said.get("message")) == (False, body), said)
        else:
            self.check(f"request {seq}, {command}", said["success"] and body(said["body"]), said)
        if event:
            told = self.hear()
            shown = {"event": told.get("event"), **(told.get("body") or {})}
            self.check(f"the event after request {seq}", event.items() <= shown.items(), told)

    def end(self) -> None:
        self.check("nothing comes after the last message", self.source.read() == b"", "more came")


def play(words: list[str], session: list[Asked]) -> int:
    """Asks and hears in turn, as an editor does."""
    child = subprocess.Popen([*words, "dap"], stdin=subprocess.PIPE, stdout=subprocess.PIPE)
    assert child.stdin and child.stdout
    client = Client(child.stdout)
    for seq, (request, wanted) in enumerate(zip(asked(session), session), 1):
        child.stdin.write(request)
        child.stdin.flush()
        client.hear_answer(seq, wanted)
    client.end()
    client.check("the status is 0", child.wait(10) == 0, child.returncode)
    return client.wrong


# What is no request, and what is answered to it, with the status.
WRONG: list[tuple[bytes, str, int]] = [
    (framed({"seq": 1, "type": "response", "command": "threads"}), "this is not a request", 0),
    (framed({"seq": 2, "type": 7, "command": "threads"}), "this is not a request", 0),
    (framed({"seq": 3, "type": "request"}), "this is not a request", 0),
    (b"Content-Length: 123456789\r\n\r\n", "the message is too long", 1),
    (b"Content-Length: 9\r\n\r\n{}", "the input ends within a message", 1),
    (b"Content-Size: 2\r\n\r\n{}", "this is not the header of a message", 1),
]


def play_wrong(program: str) -> int:
    """Gives what is no request, and returns how often the answer is not as wanted."""
    wrong = 0
    for given, message, status in WRONG:
        ran = subprocess.run([program, "dap"], input=given, capture_output=True, check=False)
        said: Message = json.loads(ran.stdout.partition(b"\r\n\r\n")[2])
        if (said["success"], said["message"], ran.returncode) != (False, message, status):
            wrong += 1
            print(f"{given!r}: {said}, and the status {ran.returncode}")
    return wrong


def check_said(file: str) -> int:
    with open(file, "rb") as source:
        client = Client(source)
        for seq, wanted in enumerate(SESSION, 1):
            client.hear_answer(seq, wanted)
        client.end()
    return client.wrong


def main() -> int:
    words = sys.argv[1:]
    if words == ["--asked"]:
        sys.stdout.buffer.write(b"".join(asked(SESSION)))
        return 0
    if words[:1] == ["--said"]:
        wrong = check_said(words[1])
    else:
        command = [program()]
        wrong = play(command, SESSION) + play(command, FROM_0) + play_wrong(program())
    print(f"{len(SESSION) + len(FROM_0)} requests, {wrong} wrong")
    return 1 if wrong else 0


sys.exit(main())
