#!/usr/bin/env python3
"""Tries to break the server of a class.

    checks/slow/class_storm.py [PROGRAM] [SECONDS]     SECONDS of the class of 60 drawn students [default: 600]

Paths, keys, malformed, huge, doubled and hidden requests; texts of odd bytes to each request; 300 requests at once under a
limit; 40 endless searches of one browser beside small ones of others; 1,000 connections; slow clients, and some that take
no answer; a class of 60 drawn students, who type, run, search and hand in right and wrong answers; a server that is killed
under them and started again with `--keep`; and twenty ends, by each signal, under load. Nothing is timed: what has to be
over is waited for. Its status is 0 if all is as wanted, and 1 if not.
"""
from __future__ import annotations

import concurrent.futures
import json
import random
import signal
import socket
import sys
import tempfile
import threading
import time
from collections import Counter
from collections.abc import Callable
from pathlib import Path
from typing import Any

sys.path.insert(0, str(Path(__file__).resolve().parents[1] / "lib"))

from calls import DONE, TOP, Tally, installed  # noqa: E402
from class_room import AT_LENGTH, FAR, LONG, WATCHDOG, ClassRoom, is_gone, wait_until  # noqa: E402

from script.teaching.exercises import read_pages  # noqa: E402

STUDENTS, ENDS, CROWD = 60, 20, 1_000
EXERCISES = read_pages(str(TOP / "examples/exercises"))
STEPS = (TOP / "examples/5-deadlock/steps.pb").read_bytes()
DEVICES = (TOP / "examples/devices.pb").read_bytes()
SMALL = b"process p begin print 1 end\n"
PATHS = (
    "/../etc/passwd", "/..%2f..%2fetc/passwd", "/%2e%2e/%2e%2e/etc/passwd", "/static/../x", "//etc/passwd", "/etc/passwd",
    "/editor/../../../etc/passwd", "/editor/codemirror.js/../../x", "/.git/config", "/exercises/01-three-orders.md", "/api/",
    "/api/grade/../teacher", "/page.css/", "/class.html%00", "/CLASS.HTML", "/api/explain?code=../../etc",
    "/api/explain?code=N3;ls",
    "/api/explain?code=--help", "/api/explain?code=Z9", "/\\..\\..\\etc\\passwd", "/" + "a" * 300, "/page.html",
    "/make_page.py",
)
QUERIES = (
    "seed=-1", "seed=x", "seed=99999999999999999999", "lend=evil", "steps=99999999", "steps=--help", "lend=banker%00",
    "&".join("a=1" for _ in range(100)),
)
ASKED = (
    "check", "hover?line=1&character=2", "complete", "rename?name=x", "debug?command=arms&at=3",
    "run?seed=1", "run", "record", "states", "plan",
    "claims", "graph",
    "outcomes?states=2000", "outcomes?states=2000&prints=yes", "outcomes?expect=any&states=2000",
    "outcomes?lend=cash&first-deadlock=yes&states=2000", "outcomes?fair=yes&states=2000", "outcomes?endless=yes&states=2000",
    "grade?exercise=02-lost-update",
)


def raw(port: int, data: bytes, source: str = "127.0.0.1") -> bytes:
    """Sends bytes as they are, and returns what comes until the end."""
    with socket.socket() as it:
        it.settimeout(WATCHDOG)
        it.bind((source, 0))
        it.connect(("127.0.0.1", port))
        got = b""
        try:
            it.sendall(data)
            while part := it.recv(1 << 16):
                got += part
        except OSError:
            pass
        return got


def status_of(got: bytes) -> int:
    """Returns the status of an answer, or 0 if none came."""
    return int(got.split(b" ")[1]) if got.startswith(b"HTTP/1.1 ") else 0


def get(path: str, more: str = "", method: str = "GET", host: str = "localhost") -> bytes:
    """Returns the bytes of a request."""
    return f"{method} {path} HTTP/1.1\r\nHost: {host}\r\nConnection: close\r\n{more}\r\n".encode("latin1")


def post(path: str, body: bytes, more: str = "") -> bytes:
    """Returns the bytes of a request with a body."""
    return get(path, f"Content-Length: {len(body)}\r\n{more}", "POST") + body


def student(number: int) -> str:
    """Returns the header by which a browser says who it is."""
    return f"X-Client: {number:032x}\r\n"


def is_well(tally: Tally, room: ClassRoom, when: str, source: str = "127.0.0.1") -> None:
    """Asks as a student does."""
    got = raw(room.port, post("/api/check", b"process p begin x := 1 end", student(2**100)), source)
    tally.expect(b'"N3"' in got, when, "a check is answered", got[:200])


def try_paths(tally: Tally, room: ClassRoom) -> None:
    """Asks for what is not there, and for the teacher's list with keys that are wrong."""
    for path in PATHS:
        tally.expect(status_of(raw(room.port, get(path))) in (400, 404), "the path", path, "is answered")
    for key in ("", "x", room.key[:-1], f"{room.key}x", "t" * 5_000, "\u00e9"):
        tally.expect(status_of(raw(room.port, get("/api/teacher", f"X-Key: {key}\r\n"))) in (400, 403), "a key is right", key)
    tally.expect(status_of(raw(room.port, post("/api/teacher/clear", b""))) == 403, "all is forgotten without a key")
    for query in QUERIES:
        tally.expect(status_of(raw(room.port, post(f"/api/run?{query}", SMALL))) == 400, "run?", query)


def try_requests(tally: Tally, room: ClassRoom) -> None:
    """Sends requests that are none, that are huge, and that hide another one."""
    head, own = b"GET / HTTP/1.1\r\n", b"Host: localhost\r\n"
    for name, data, wanted in (
        ("a huge head", head + own + b"A: " + b"a" * 100_000 + b"\r\n\r\n", (431,)),
        ("many headers", head + b"".join(b"A%d: b\r\n" % n for n in range(500)) + b"\r\n", (400, 431)),
        ("a head without an end", head + b"A: b\r\n" * 3_000, (431,)), ("another host", get("/", host="evil.example"), (421,)),
        ("no host", head + b"\r\n", (421,)), ("two hosts", head + 2 * own + b"\r\n", (400,)),
        ("another method", b"DELETE / HTTP/1.1\r\n" + own + b"\r\n", (405,)), ("no HTTP", b"hello\r\n\r\n", (400,)),
        ("TLS", b"\x16\x03\x01\x02\x00\x01\x00" + bytes(300) + b"\r\n\r\n", (400,)),
        ("HTTP/2", b"PRI * HTTP/2.0\r\n\r\n", (400,)),
        ("a folded header", head + own + b" x\r\n\r\n", (400,)), ("a NUL", b"GET /\0 HTTP/1.1\r\n" + own + b"\r\n", (400,)),
        ("a chunked body", get("/api/check", "Transfer-Encoding: chunked\r\n", "POST") + b"5\r\nhello\r\n0\r\n\r\n", (411,)),
        ("both lengths", get("/api/check", "Content-Length: 5\r\nTransfer-Encoding: chunked\r\n", "POST") + b"hello", (411,)),
        ("two lengths", get("/api/check", "Content-Length: 5\r\nContent-Length: 6\r\n", "POST") + b"hello!", (400,)),
        ("a negative length", get("/api/check", "Content-Length: -5\r\n", "POST"), (411,)),
        ("no length", get("/api/check", "", "POST"), (411,)),
        ("4 GB announced", get("/api/check", "Content-Length: 400000000\r\n", "POST"), (413,)),
        ("65,537 bytes", post("/api/check", b" " * 65_537), (413,)), ("65,536 bytes", post("/api/check", b" " * 65_536),
        (200,)),
        ("a GET with a body", get("/", "Content-Length: 5\r\n") + b"hello", (400,)),
        ("another page", post("/api/check", b"x", "Sec-Fetch-Site: cross-site\r\n"), (403,)),
    ):
        got = raw(room.port, data)
        tally.expect(status_of(got) in wanted, name, "is answered", got[:100])
    hidden = raw(room.port, post("/api/check", b"GET /api/teacher HTTP/1.1\r\nHost: localhost\r\n\r\n"))
    tally.expect(hidden.count(b"HTTP/1.1 ") == 1, "a request in a body is answered")
    two = raw(room.port, get("/api/about").replace(b"Connection: close\r\n", b"") + get("/api/about"))
    tally.expect(two.count(b"HTTP/1.1 200") == 2, "two requests at once", two[:200])


def odd_texts() -> list[bytes]:
    """Returns bytes of every kind."""
    draw = random.Random(1)
    forks = b";".join(b"parbegin " + b";".join(b"print %d" % i for i in range(16)) + b" parend" for _ in range(3))
    return [bytes(draw.randrange(256) for _ in range(draw.randrange(3_000))) for _ in range(12)] + [
        b"", b"\0", b"%%\n", b"\n%%\n%%\n", b"\xff\xfe", "für ä".encode(), b"((((" * 16_000, b"begin " * 10_000,
        b"process p begin print " + b"-" * 60_000 + b"1 end", b"<script>alert(1)</script>", b"PBO 2\nresources 0\n",
        b"process p begin integer x; while 1 do x := x + 1 od end", b"process p begin while 1 do print 1 od end",
        b"process p begin " + forks + b" end",
    ]


def try_texts(tally: Tally, room: ClassRoom) -> None:
    """Sends bytes of every kind to each request."""
    for number, body in enumerate(odd_texts()):
        for name in ASKED:
            got = raw(room.port, post(f"/api/{name}", body, student(number)))
            tally.expect(status_of(got) in (200, 400), name, "of", body[:20], "is answered", got[:100])
            kind = got.partition(b"\r\n\r\n")[0]
            is_page = b"application/" not in kind and b"text/plain" not in kind
            is_script = is_page and b"<script" in got.partition(b"\r\n\r\n")[2]
            tally.expect(not is_script, name, "sends a text back as a page", got[:200])
    for name in ("%3Cscript%3E", "%FF%00%0A", "=cmd()", "a" * 5_000):
        got = raw(room.port, post("/api/grade?exercise=02-lost-update", b"x", f"X-Name: {name}\r\n{student(77)}"))
        tally.expect(status_of(got) == 200, "the name", name[:10], got[:100])
    is_well(tally, room, "after odd texts")


def try_often(tally: Tally, script: str, folder: Path) -> None:
    """Sends many requests of one browser at once, under a limit that is always met; others are answered."""
    room = ClassRoom(script, folder, limits=("--rate", "30", "--seconds", "1200"))
    room.start()
    try:
        with concurrent.futures.ThreadPoolExecutor(20) as pool:
            found = Counter(pool.map(lambda _: status_of(raw(room.port, get("/api/about", student(1)))), range(300)))
        tally.expect(set(found) == {200, 429}, "300 requests of one browser", found)
        tally.expect(status_of(raw(room.port, get("/api/about", student(2)))) == 200, "another browser is held up")
    finally:
        room.kill()


def try_greedy(tally: Tally, script: str, folder: Path) -> None:
    """One browser begins as many searches as it can, and leaves: others are answered meanwhile, and no process is left."""
    room = ClassRoom(script, folder, "--searches", "2", "--states", "4000000", limits=("--rate", "100000", "--seconds", "1200"))
    room.start()
    try:
        own = [socket.create_connection(("127.0.0.1", room.port)) for _ in range(40)]
        for it in own:
            it.sendall(post("/api/outcomes", STEPS, student(1)))
        tally.expect(wait_until(lambda: room.searches()), "a search does not begin")
        for number in range(2, 8):
            got = raw(room.port, post("/api/outcomes", SMALL, student(number)))
            tally.expect(b'"outcomes":1' in got, "a small search beside those of one browser", got[-200:])
        tally.expect(len(room.searches()) <= 1, "one browser has all places")
        is_well(tally, room, "beside searches")
        for it in own:
            it.close()
        tally.expect(wait_until(lambda: not room.searches()), "searches go on whose client has left")
    finally:
        room.kill()


def try_crowd(tally: Tally, room: ClassRoom) -> None:
    """Opens many connections of one address, and looks from another one."""
    held = []
    for _ in range(CROWD):
        it = socket.create_connection(("127.0.0.1", room.port), WATCHDOG)
        held.append(it)
        it.sendall(b"GET / HT")
    is_well(tally, room, "beside a crowd", "127.0.0.2")
    for it in held:
        it.close()
    is_well(tally, room, "after a crowd", "127.0.0.2")


def try_slow(tally: Tally, room: ClassRoom) -> None:
    """Clients that send a byte now and then are cut off; some take no answer. A student is answered meanwhile."""
    def sent_slowly(data: bytes) -> int:
        with socket.create_connection(("127.0.0.1", room.port), WATCHDOG) as it:
            try:
                for at in range(len(data)):
                    it.sendall(data[at : at + 1])
                    time.sleep(0.5)
                return status_of(it.recv(1 << 16))
            except OSError:
                return 0

    with concurrent.futures.ThreadPoolExecutor(40) as pool:
        slow = [pool.submit(sent_slowly, get("/", "A: " + "a" * 200 + "\r\n")) for _ in range(20)]
        idle = [socket.create_connection(("127.0.0.1", room.port)) for _ in range(10)]
        for it in idle:
            it.setsockopt(socket.SOL_SOCKET, socket.SO_RCVBUF, 1_024)
            it.sendall(post("/api/graph", DEVICES))
        for _ in range(10):
            is_well(tally, room, "beside slow clients")
        tally.expect({it.result() for it in slow} <= {0, 408}, "slow clients are answered")
        for it in idle:
            it.close()


class Student(threading.Thread):
    """A drawn student, who types, runs, searches and hands in, and says what was not as wanted."""

    def __init__(self, room: ClassRoom, number: int, end: float) -> None:
        super().__init__()
        self.room, self.number, self.stop = room, number, end
        self.draw, self.asked, self.wrong = random.Random(number), 0, []  # type: ignore[var-annotated]

    def ask(self, name: str, text: str) -> Any:
        """Asks once more if the server is not there, as while it is started again."""
        headers = {"X-Client": f"{self.number:032x}", "X-Name": f"student%20{self.number}"}
        for _ in range(600):
            try:
                self.asked += 1
                return self.room.ask(name, text, headers)
            except (OSError, ValueError, json.JSONDecodeError):
                time.sleep(0.2)
        return {"error": "the server is not there"}

    def hand_in(self) -> None:
        """Hands in a right or a wrong answer."""
        it = self.draw.choice(list(EXERCISES.values()))
        kind, text = self.draw.choice([("right", it.blocks["solution"]), *it.wrong])
        verdict = self.ask(f"grade?exercise={it.name}", text)
        if verdict.get("kind") != kind:
            self.wrong.append((it.name, kind, verdict))

    def type(self) -> None:
        """Types: a text with a bit left out."""
        text = self.draw.choice(list(EXERCISES.values())).blocks["start"]
        at = self.draw.randrange(len(text))
        said = self.ask("check", text[:at] + text[at + self.draw.randrange(9) :])
        if "diagnostics" not in said:
            self.wrong.append(("check", said))

    def look(self) -> None:
        """Runs, walks and searches."""
        text = self.draw.choice(list(EXERCISES.values())).blocks["solution"]
        name, wanted = self.draw.choice([("run", "run"), ("graph", "banker"), ("plan", "lines")])
        said = self.ask(name, text)
        if wanted not in said:
            self.wrong.append((name, said))

    def run(self) -> None:
        while time.monotonic() < self.stop:
            self.draw.choices([self.type, self.look, self.hand_in], [8, 2, 1])[0]()
            time.sleep(self.draw.random())


def try_class(tally: Tally, script: str, folder: Path, seconds: int) -> None:
    """A class of drawn students; the server is killed under them now and then, and started again. No verdict is lost."""
    room = ClassRoom(script, folder, "--keep", "kept", "--names", "--teacher", "key")
    room.start()
    port = str(room.port)
    room.words[room.words.index("--listen") + 1] = f"127.0.0.1:{port}"
    students = [Student(room, number, time.monotonic() + seconds) for number in range(1, STUDENTS + 1)]
    try:
        for it in students:
            it.start()
        while any(it.is_alive() for it in students):
            time.sleep(max(5, seconds / 5))
            before = solved(room)
            room.process.send_signal(signal.SIGKILL)  # type: ignore[union-attr]
            room.process.communicate()  # type: ignore[union-attr]
            room.start()
            tally.expect(before <= solved(room), "a kill loses", before - solved(room))
        for it in students:
            it.join()
            tally.expect(not it.wrong, "student", it.number, it.wrong[:3])
        tally.expect(room.end() == (DONE, b""), "the end of a class")
        print(f"{sum(it.asked for it in students)} requests of {STUDENTS} students in {seconds} seconds")
    finally:
        room.kill()


def solved(room: ClassRoom) -> set[tuple[str, str]]:
    """Returns who has solved what."""
    rows = room.ask("teacher", None, {"X-Key": room.key})["table"]
    return {(row["name"], name) for row in rows for name, it in row["tried"].items() if it["solved"]}


def try_ends(tally: Tally, script: str, folder: Path) -> None:
    """Ends servers that search, check, hold connections and write answers that nobody takes."""
    for number in range(ENDS):
        room = ClassRoom(script, folder, *AT_LENGTH)
        room.start()
        open_ones = [socket.create_connection(("127.0.0.1", room.port)) for _ in range(8)]
        small = [b"GET / HT", post("/api/check", DEVICES), post("/api/graph", DEVICES)]
        for at, it in enumerate(open_ones):
            it.sendall([post("/api/outcomes", LONG.encode(), student(at)), *small][at % 4])
        open_ones.append(room.searching())
        children = room.processes()
        got = room.end((signal.SIGTERM, signal.SIGINT, signal.SIGHUP)[number % 3])
        tally.expect(got == (DONE, b""), "end", number, "has the status", *got)
        tally.expect(all(wait_until(lambda pid=pid: is_gone(pid)) for pid in children), "a process is left")
        for it in open_ones:
            it.close()


def main() -> None:
    tally, seconds = Tally(), int(sys.argv[2]) if len(sys.argv) > 2 else 600
    with tempfile.TemporaryDirectory(prefix="parbegin-storm-") as name:
        folder = Path(name)
        script = installed(folder / "installed")
        room = ClassRoom(script, folder, limits=FAR)
        room.start()
        try:
            for attempt in (try_paths, try_requests, try_texts, try_crowd, try_slow):
                attempt(tally, room)
            tally.expect(room.end() == (DONE, b""), "the end after a storm")
        finally:
            room.kill()
        others: tuple[Callable[[Tally, str, Path], None], ...] = (try_often, try_greedy, try_ends)
        for other in others:
            other(tally, script, folder)
        try_class(tally, script, folder, seconds)
    tally.end("class_storm")


if __name__ == "__main__":
    main()
