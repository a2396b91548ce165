#!/usr/bin/env python3
"""Times what an editor waits for: requests to `parbegin lsp` over the longest texts, in one run.

    python3 benches/server.py [PROGRAM] [TURNS]     the program that ./parbegin has built, if none is given

Says milliseconds from the request, or the change, to its answer, the least and the most of all turns: over a text of
65,536 bytes of which most are statements (as many as a program may have) or most are a comment, and over the first with
a name at its end that is not declared.
"""
from __future__ import annotations

import json
import pathlib
import subprocess
import sys
import time
from typing import Any

from scratch import TOP, print_table

PROGRAM = pathlib.Path(sys.argv[1]) if len(sys.argv) > 1 else TOP / "script" / "tools.sh"
TURNS = int(sys.argv[2]) if len(sys.argv) > 2 else 20
LENGTH = 65_536
URI = "file:///text.pb"


def filled(head: str, unit: str, count: int, tail: str) -> str:
    """Returns a text of the greatest length: so many units, and a comment behind them."""
    text = head + unit * count + tail
    return text + "// " + "x" * (LENGTH - len(text) - 4) + "\n"


HEAD = "resource tape = 3;\nprocess p\nbegin\n  integer x;\n"
STATEMENTS = filled(HEAD, "  x := x + 1;\n", 3_000, "  hold 1 of tape do print x od\nend\n")
TEXTS = {
    "statements": STATEMENTS,
    "comment": filled(HEAD, "  x := x + 1;\n", 1, "  hold 1 of tape do print x od\nend\n"),
    "refused": filled(HEAD, "  x := x + 1;\n", 3_000, "  hold 1 of tape do print y od\nend\n"),
}


class Editor:
    def __init__(self) -> None:
        self.child = subprocess.Popen([PROGRAM, "lsp"], stdin=subprocess.PIPE, stdout=subprocess.PIPE)
        self.asked = 0

    def tell(self, method: str, params: Any) -> None:
        assert self.child.stdin
        content = json.dumps({"jsonrpc": "2.0", "method": method, "params": params}).encode()
        self.child.stdin.write(b"Content-Length: %d\r\n\r\n%s" % (len(content), content))
        self.child.stdin.flush()

    def ask(self, method: str, params: Any) -> None:
        assert self.child.stdin
        self.asked += 1
        content = json.dumps({"jsonrpc": "2.0", "id": self.asked, "method": method, "params": params}).encode()
        self.child.stdin.write(b"Content-Length: %d\r\n\r\n%s" % (len(content), content))
        self.child.stdin.flush()
        self.hear()

    def hear(self) -> Any:
        assert self.child.stdout
        head = self.child.stdout.readline()
        self.child.stdout.readline()
        return json.loads(self.child.stdout.read(int(head[16:])))


def milliseconds(done: Any) -> tuple[float, float]:
    """Returns the least and the most that a call takes."""
    took = []
    for _ in range(TURNS):
        began = time.perf_counter()
        done()
        took.append(1000 * (time.perf_counter() - began))
    return min(took), max(took)


def rows(name: str, text: str) -> list[list[str]]:
    editor = Editor()
    editor.ask("initialize", {"capabilities": {}})
    document = {"uri": URI}
    editor.tell("textDocument/didOpen", {"textDocument": {**document, "languageId": "parbegin", "version": 1, "text": text}})
    editor.hear()

    def change() -> None:
        editor.tell("textDocument/didChange", {"textDocument": {**document, "version": 2}, "contentChanges": [{"text": text}]})
        editor.hear()

    at = {"textDocument": document, "position": {"line": 4, "character": 2}}
    asked = {
        "a change": change,
        "hover": lambda: editor.ask("textDocument/hover", at),
        "completion": lambda: editor.ask("textDocument/completion", at),
        "symbols": lambda: editor.ask("textDocument/documentSymbol", at),
        "rename": lambda: editor.ask("textDocument/rename", {**at, "newName": "other"}),
        "code actions": lambda: editor.ask("textDocument/codeAction", at),
    }
    found = []
    for what, done in asked.items():
        least, most = milliseconds(done)
        found.append([name, what, f"{least:.1f}", f"{most:.1f}"])
    return found


def main() -> None:
    print_table(["text", "request", "least", "most"], [row for name, text in TEXTS.items() for row in rows(name, text)])


main()
