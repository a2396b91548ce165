#!/usr/bin/env python3
"""Plays a session of `parbegin lsp` as an editor would, and checks what is said.

    checks/quick/server.py [PROGRAM]     PROGRAM is the one that ./parbegin has built if none is given

Each request must have one response, in order, with its id, and a notification none. The diagnostics of a text must tell the
code, the line and the column that `check` tells of it: of each input of checks/messages, and of each of examples/. The
status is 0 if all is as wanted, and 1 if not.
"""
from __future__ import annotations

import json
import re
import subprocess
import sys
from pathlib import Path
from typing import Any

sys.path.insert(0, str(Path(__file__).resolve().parents[1] / "lib"))

from calls import TOP, program  # noqa: E402

Message = dict[str, Any]
FIRST = re.compile(r"error (\w+): (.*)")
PLACE = re.compile(r" *--> line (\d+), column (\d+)")


def framed(message: Message) -> bytes:
    content = json.dumps(message).encode()
    return b"Content-Length: %d\r\n\r\n%s" % (len(content), content)


class Editor:
    """Speaks to the server, and counts what is not as wanted."""

    def __init__(self, program: str) -> None:
        self.child = subprocess.Popen([program, "lsp"], stdin=subprocess.PIPE, stdout=subprocess.PIPE)
        self.asked, self.checked, self.wrong = 0, 0, 0

    def check(self, what: str, said: Any, wanted: Any) -> None:
        self.checked += 1
        if said != wanted:
            self.wrong += 1
            print(f"{what}: {said}, and wanted is {wanted}")

    def tell(self, method: str, params: Any = None) -> None:
        assert self.child.stdin
        self.child.stdin.write(framed({"jsonrpc": "2.0", "method": method, "params": params or {}}))
        self.child.stdin.flush()

    def hear(self) -> Message:
        assert self.child.stdout
        head = self.child.stdout.readline()
        if not head.startswith(b"Content-Length: ") or self.child.stdout.readline() != b"\r\n":
            sys.exit(f"this is not the header of a message: {head!r}")
        message: Message = json.loads(self.child.stdout.read(int(head[16:])))
        return message

    def ask(self, method: str, params: Any = None) -> Message:
        """Returns what is said to a request, which must be its response."""
        assert self.child.stdin
        self.asked += 1
        self.child.stdin.write(framed({"jsonrpc": "2.0", "id": self.asked, "method": method, "params": params or {}}))
        self.child.stdin.flush()
        said = self.hear()
        self.check(f"{method} has its response", said.get("id"), self.asked)
        return said

    def published(self, uri: str, version: int | None) -> list[Message]:
        """Returns the diagnostics that are published next, which must be those of this version of a document."""
        said = self.hear()
        self.check("diagnostics are published", said.get("method"), "textDocument/publishDiagnostics")
        params = said.get("params", {})
        self.check("of this document and version", (params.get("uri"), params.get("version")), (uri, version))
        diagnostics: list[Message] = params.get("diagnostics", [])
        return diagnostics


# Two lines that end in a carriage return alone, and one that ends in both; the resource stands in the last one.
RETURNS = "resource r = 1;\rprocess a begin\r\nhold 1 of r do skip od end"


def at(line: int, character: int) -> Message:
    return {"line": line, "character": character}


def check_positions(editor: Editor) -> None:
    """Checks where names are found in a text with carriage returns, and past the end of a line."""
    uri = "file:///returns.pb"
    editor.tell("textDocument/didOpen", {"textDocument": {"uri": uri, "languageId": "parbegin", "version": 1, "text": RETURNS}})
    editor.check("a text with carriage returns", editor.published(uri, 1), [])
    for place, wanted in ((at(2, 10), at(0, 9)), (at(0, 10), at(0, 9)), (at(1, 8), at(1, 8))):
        found = editor.ask("textDocument/definition", {"textDocument": {"uri": uri}, "position": place})["result"]
        editor.check(f"what stands at {place}", found and found["range"]["start"], wanted)
    text = "process a begin\nprint 1 end\nprocess b begin integer x; print x"
    changes = {"textDocument": {"uri": uri, "version": 2}, "contentChanges": [{"range": None, "text": f"{text}\nend"}]}
    editor.tell("textDocument/didChange", changes)
    editor.check("a range that is null", editor.published(uri, 2), [])
    found = editor.ask("textDocument/definition", {"textDocument": {"uri": uri}, "position": at(2, 99)})["result"]
    editor.check("past the end of a line", found and found["range"]["start"], at(2, 24))
    changes = {"textDocument": {"uri": uri, "version": 3}, "contentChanges": [{"text": "process a begin\r\n\r x := 1 end"}]}
    editor.tell("textDocument/didChange", changes)
    found = editor.published(uri, 3)
    editor.check("a fault after carriage returns", [one["range"] for one in found], [{"start": at(2, 1), "end": at(2, 2)}])
    asked = {"textDocument": {"uri": uri}, "range": found[0]["range"], "context": {"diagnostics": found}}
    mends = editor.ask("textDocument/codeAction", asked)["result"]
    edits = [edit for one in mends for edit in one["edit"]["changes"][uri]]
    editor.check("its mend", [edit["range"]["start"] for edit in edits], [at(0, 15)])


def check_headers(editor: Editor) -> None:
    """Checks headers in other cases and without a blank, and that nothing is said to a response."""
    assert editor.child.stdin
    for head in (b"content-length: %d\r\n\r\n", b"CONTENT-LENGTH:%d\r\n\r\n", b"Content-Length:\t %d\r\nContent-Type: x\r\n\r\n"):
        content = json.dumps({"jsonrpc": "2.0", "id": "head", "method": "textDocument/fly"}).encode()
        editor.child.stdin.write(head % len(content) + content)
        editor.child.stdin.flush()
        editor.check("a header", editor.hear().get("id"), "head")
    for answer in ({"result": None}, {"error": {"code": -32601, "message": "unknown"}}):
        editor.child.stdin.write(framed({"jsonrpc": "2.0", "id": 7, **answer}))
    editor.check("nothing is said to a response", editor.ask("textDocument/fly")["error"]["code"], -32601)


def check_broken(editor: Editor, program: str) -> None:
    """Checks what is said of bytes that are no message."""
    for given, why in ((b"Content-Length: 123456789\r\n\r\n", "the message is too long"),
                       (b"Content-Length: 9\r\n\r\n{}", "the input ends within a message"),
                       (b"Content-Size: 2\r\n\r\n{}", "this is not the header of a message")):
        ran = subprocess.run([program, "lsp"], input=given, capture_output=True, check=False)
        said: Message = json.loads(ran.stdout.partition(b"\r\n\r\n")[2])
        editor.check(f"{given!r}", (said["error"]["code"], said["error"]["message"], ran.returncode), (-32700, why, 1))


def told_by_check(program: str, text: bytes) -> tuple[str, str, tuple[int, int] | None] | None:
    """Returns the code, the words and the place that `check` tells of a text, or None if it accepts it."""
    ran = subprocess.run([program, "check"], input=text, capture_output=True, check=False)
    if ran.returncode == 0:
        return None
    lines = ran.stderr.decode().splitlines()
    first = FIRST.fullmatch(lines[0])
    assert first
    place = PLACE.fullmatch(lines[1]) if len(lines) > 1 else None
    return first[1], first[2], (int(place[1]) - 1, int(place[2]) - 1) if place else None


def compare(editor: Editor, program: str, name: str, text: bytes, diagnostics: list[Message]) -> None:
    """Compares the diagnostics of a text with what `check` tells of it."""
    told = told_by_check(program, text)
    if told is None:
        editor.check(f"{name} is accepted", diagnostics, [])
        return
    code, words, place = told
    editor.check(f"{name}: one diagnostic", len(diagnostics), 1)
    one = diagnostics[0]
    editor.check(f"{name}: its code", one["code"], code)
    editor.check(f"{name}: its words", one["message"].split("\n")[0], words)
    start, end = ((one["range"][it]["line"], one["range"][it]["character"]) for it in ("start", "end"))
    if place:
        editor.check(f"{name}: its place", start, place)
    editor.check(f"{name}: its end is not before it", start <= end, True)


def texts() -> list[Path]:
    return sorted((TOP / "checks/messages").glob("*.pb")) + sorted((TOP / "examples").glob("*.pb"))


def is_sent(text: bytes) -> bool:
    """Whether an editor can have this text, and the bytes that it sends are the same."""
    try:
        text.decode()
    except UnicodeDecodeError:
        return False
    return b"\n%%\n" not in b"\n" + text


def play(program: str) -> int:
    editor = Editor(program)
    said = editor.ask("textDocument/diagnostic")
    editor.check("nothing before initialize", said["error"]["code"], -32002)
    able = editor.ask("initialize", {"processId": None, "rootUri": None, "capabilities": {}})["result"]["capabilities"]
    editor.check("whole texts at each change", able["textDocumentSync"], {"openClose": True, "change": 1})
    editor.tell("initialized")
    editor.tell("$/setTrace", {"value": "off"})
    editor.check("an unknown method", editor.ask("textDocument/fly")["error"]["code"], -32601)
    check_headers(editor)
    check_positions(editor)
    looked = 0
    for file in texts():
        text = file.read_bytes()
        if not is_sent(text):
            continue
        looked += 1
        uri = file.as_uri()
        document = {"uri": uri, "languageId": "parbegin", "version": 1, "text": text.decode()}
        editor.tell("textDocument/didOpen", {"textDocument": document})
        compare(editor, program, file.name, text, editor.published(uri, 1))
        mended = "process p begin skip end\n"
        changes = {"textDocument": {"uri": uri, "version": 2}, "contentChanges": [{"text": mended}]}
        editor.tell("textDocument/didChange", changes)
        editor.check(f"{file.name} is mended", editor.published(uri, 2), [])
        found = editor.ask("textDocument/diagnostic", {"textDocument": {"uri": uri}})
        editor.check("the diagnostics that are asked for", found["result"], {"kind": "full", "items": []})
        editor.tell("textDocument/didClose", {"textDocument": {"uri": uri}})
        editor.check(f"{file.name} is closed", editor.published(uri, None), [])
    said = editor.ask("textDocument/diagnostic", {"textDocument": {"uri": "file:///nosuch.pb"}})
    editor.check("a document that is not open", said["error"]["code"], -32602)
    editor.check("shutdown", editor.ask("shutdown")["result"], None)
    editor.check("a request after it", editor.ask("textDocument/diagnostic")["error"]["code"], -32600)
    editor.tell("exit")
    assert editor.child.stdout
    editor.check("nothing comes after the last message", editor.child.stdout.read(), b"")
    editor.check("the status", editor.child.wait(10), 0)
    check_broken(editor, program)
    print(f"{looked} texts, {editor.checked} checks, {editor.wrong} wrong")
    return editor.wrong


def main() -> int:
    return 1 if play(program()) else 0


sys.exit(main())
