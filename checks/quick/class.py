#!/usr/bin/env python3
"""Serves a class, asks it as its page does, and compares what is answered with what the program says.

    checks/quick/class.py [PROGRAM]     PROGRAM is the one that ./parbegin has built if none is given

Every request with its errors, which fit docs/schema/class.schema.json; the answers that the exercises have, right and
wrong, with the run that each verdict tells; `grade` on the same pages; the teacher's list, kept over a kill; the limit on
requests, by one that is so low that it is always met; TLS, and a proxy; and the end, by each signal. All other servers have
limits that cannot matter. checks/slow/class_storm.py does more, and checks/slow/class_page.py looks at the page. Its status
is 0 if all is as wanted, and 1 if not.
"""
from __future__ import annotations

import csv
import json
import pathlib
import re
import shutil
import signal
import socket
import subprocess
import sys
import tempfile
from collections.abc import Iterator
from typing import Any

sys.path.insert(0, str(pathlib.Path(__file__).resolve().parents[1] / "lib"))

from calls import DEVICE, DONE, REFUSED, TOP, WORDS, Tally, call, installed  # noqa: E402
from class_room import AT_LENGTH, ClassRoom, certified, is_gone, wait_until  # noqa: E402
from schemas import fits, tell_if_missing  # noqa: E402

from script.teaching.exercises import Asked, read_pages  # noqa: E402

UNEXPECTED = 10
DEVICES = (TOP / "examples/devices.pb").read_text()
LOST = (TOP / "examples/lost.pb").read_text()
EXERCISES = read_pages(str(TOP / "examples/exercises"))
SPINS = "process p begin integer x; parbegin x := 1; while x = 0 do skip od parend end\n"


def try_words(tally: Tally, script: str, folder: pathlib.Path) -> None:
    """Tries words that are refused, and files that cannot be used."""
    (folder / "none").mkdir()
    (folder / "wrong").mkdir()
    (folder / "wrong/a.md").write_text("no heading\n")
    (folder / "short").write_text("key\n")
    taken = socket.create_server(("127.0.0.1", 0))
    port = taken.getsockname()[1]
    for words, status, told in (
        (["--fly"], WORDS, "'--fly'"), (["hello.pb"], WORDS, "'hello.pb'"),
        (["--listen", "here"], WORDS, "'here' is no address"),
        (["--rate", "x"], WORDS, "'x'"), (["--cert", "c"], WORDS, "belong together"),
        (["--exercises", "none"], WORDS, "none: no file"),
        (["--exercises", "nosuch"], DEVICE, "nosuch: No such file"),
        (["--exercises", "wrong"], REFUSED, "a: the first line is no heading"),
        (["--teacher", "short"], WORDS, "short has no key"),
        (["--listen", f"127.0.0.1:{port}"], DEVICE, "Address already in use"),
        (["--keep", "nosuch/kept"], DEVICE, "nosuch/kept: "), (["--json"], WORDS, "class has no '--json'"),
        (["--help"], DONE, "--names"),
    ):
        ran = subprocess.run([script, "class", *words], cwd=folder, stdin=subprocess.DEVNULL, capture_output=True, check=False)
        said = (ran.stdout + ran.stderr).decode()
        tally.expect(ran.returncode == status and told in said, "class", *words, "ends with", ran.returncode, said)
    taken.close()


def try_answers(tally: Tally, script: str, folder: pathlib.Path) -> None:
    """Judges the answers of two exercises by `--try`; and of one that says of them what is not so."""
    (folder / "own").mkdir()
    for name in ("03-three-outcomes.md", "09-two-readers.md"):
        (folder / "own" / name).write_bytes((TOP / "examples/exercises" / name).read_bytes())
    words = [script, "class", "--try", "--exercises", "own"]
    ran = subprocess.run(words, cwd=folder, stdin=subprocess.DEVNULL, capture_output=True, check=False)
    tally.expect(ran.returncode == DONE and ran.stdout.count(b": as its page says: ") == 9, "class --try", ran)
    page = (folder / "own/03-three-outcomes.md").read_text()
    (folder / "own/03-three-outcomes.md").write_text(page.replace("```wrong code", "```wrong fault"))
    ran = subprocess.run(words, cwd=folder, stdin=subprocess.DEVNULL, capture_output=True, check=False)
    tally.expect(ran.returncode == REFUSED and b"wrong answer 2: NOT fault: code: " in ran.stdout, "a page that is not so", ran)


def try_files(tally: Tally, room: ClassRoom) -> None:
    """Looks at the page with all that it loads, and at the policy under which it stands."""
    status, headers, page = room.send("GET", "/")
    tally.expect(status == 200 and "'unsafe" not in headers["content-security-policy"], "the policy", headers)
    for path in ("/", "/teacher"):
        text = room.send("GET", path)[2].decode()
        inline = re.findall(r"<script(?![^>]* src=)|<style| style=| on[a-z]+=", text)
        tally.expect(not inline and "<!-- " not in text, path, "has scripts or styles of its own", inline)
        for name in re.findall(r'(?:src|href)="(/[^"]+)"', text):
            wanted = (200, 404) if name.startswith("/editor/") else (200,)
            tally.expect(room.send("GET", name)[0] in wanted, path, "names", name)
    tally.expect(room.send("HEAD", "/")[2] == b"" and b'id="processes"' in page and b"<h2>Signs</h2>" in page, "the page")
    again = room.send("GET", "/", headers={"If-None-Match": headers["etag"]})
    tally.expect(again[0] == 304 and again[2] == b"", "what the browser has", again)


def try_errors(tally: Tally, room: ClassRoom) -> None:
    """Tries requests that are refused: each is told as an object with `error`."""
    long = b"x" * 65_537
    for status, method, path, body, headers in (
        (404, "GET", "/nosuch", None, {}), (404, "GET", "/../etc/passwd", None, {}),
        (404, "POST", "/api/grade?exercise=x", b"", {}),
        (400, "POST", "/api/run?lend=till", b"", {}), (400, "POST", "/api/run?steps=-1", b"", {}),
        (400, "GET", "/api/explain?code=x", None, {}),
        (400, "POST", "/api/rename?name=a+b", b"", {}), (400, "POST", "/api/debug?command=", b"", {}),
        (400, "POST", "/api/debug?command=to%0A1", b"", {}), (400, "POST", "/api/outcomes?endless=yes&prints=yes", b"", {}),
        (404, "GET", "/api/explain?code=Z9", None, {}), (413, "POST", "/api/check", long, {}),
        (413, "POST", "/api/check", 7 * long, {}),
        (403, "GET", "/api/teacher", None, {}), (403, "POST", "/api/check", b"", {"Sec-Fetch-Site": "cross-site"}),
        (421, "GET", "/", None, {"Host": "example.org"}), (405, "PUT", "/", b"", {}),
        (431, "GET", "/", None, {"X-Long": "x" * 9_000}),
        (400, "GET", "/%2e%2e", None, {}), (404, "GET", "/api/check", None, {}),
    ):
        got, _, told = room.send(method, path, body, headers)
        tally.expect(got == status and set(json.loads(told)) == {"error"}, method, path[:60], "is answered", got, told)
        fits(tally, "class", {"check": json.loads(told)})


def recorded_picks(text: str) -> str:
    """Returns a line `%%` and the picks of a run of a text, as `record` writes them after it."""
    return call(["record"], text.encode())[1].decode().removeprefix(text)


def lines_of(words: list[str], text: str) -> list[Any]:
    """Returns the JSON lines of a call."""
    return [json.loads(line) for line in call(["--json", *words], text.encode())[1].splitlines()]


def try_program(tally: Tally, room: ClassRoom) -> None:
    """Compares answers with what the program says."""
    recorded = call(["record", "--steps", "5000"], DEVICES.encode())[1]
    document = json.loads(call(["states", "--rows", "20000"], recorded)[1])
    got: dict[str, Any] = {"about": room.ask("about"), "exercises": room.ask("exercises"), "examples": room.ask("examples")}
    got |= {name: room.ask(name, DEVICES) for name in ("run", "graph", "plan", "claims", "check")}
    got |= {name: room.ask(f"{name}?line=6&character=12", DEVICES) for name in ("hover", "complete")}
    got |= {"states": room.ask("states", recorded.decode()), "explain": room.ask("explain?code=N3")}
    got["outcomes"] = room.ask("outcomes?lend=cash", DEVICES)
    got["rename"] = room.ask("rename?line=2&character=10&name=drive", DEVICES)
    got["debug"] = room.ask("debug?at=3&command=wrote+p+x", LOST + recorded_picks(LOST))
    for name, answer in got.items():
        fits(tally, "class", {name: answer})
        tally.expect("error" not in answer, name, "is answered by the error", answer)
    tally.expect(got["run"] == {"run": document} and got["states"] == {"run": document}, "a run is not that of `states`")
    for lend in ("banker", "cash"):
        graph = json.loads(call(["outcomes", "--graph", "--states", "10000", "--lend", lend], DEVICES.encode())[1])
        tally.expect(got["graph"].get(lend) == graph, lend, "the schedules are not those of `outcomes --graph`")
    tally.expect(got["plan"]["lines"] == lines_of(["plan"], DEVICES), "a plan", got["plan"])
    tally.expect(got["claims"]["lines"] == lines_of(["claims"], DEVICES), "claims", got["claims"])
    tally.expect(got["explain"] == lines_of(["explain", "N3"], ""), "a page of explain", got["explain"])
    session = f"{LOST}{recorded_picks(LOST)}%%\nto 3\nwrote p x\n"
    told = call(["debug"], session.encode())[1].decode().splitlines()
    tally.expect(got["debug"]["answers"] == told[1:] and told[0] == "at 3", "an answer of the debugger", got["debug"], told)
    found = [it for it in got["outcomes"] if it["kind"] not in ("progress", "told", "time")]
    tally.expect(found == lines_of(["outcomes", "--lend", "cash"], DEVICES), "outcomes", found)
    tally.expect(got["check"]["diagnostics"] == [] and got["check"]["hints"], "a text that is a program", got["check"])
    tally.expect({"tape", "parbegin"} <= {*got["complete"]["words"]}, "words that complete", got["complete"])
    tally.expect({it["newText"] for it in got["rename"]["edits"]} == {"drive"}, "another name", got["rename"])
    endless = [it["kind"] for it in room.ask("outcomes?endless=yes", SPINS) if it["kind"] not in ("progress", "time")]
    tally.expect(endless[:2] == ["endless", "round"], "a run that never ends", endless)
    tally.expect(room.ask("run", "process p begin x end\n")["refused"].startswith("refused "), "a refused text is run")
    wrong = room.ask("check", "process p begin x := 1 end\n")
    tally.expect(wrong["diagnostics"][0]["code"] == "N3" and wrong["mends"], "what is wrong with a text", wrong)
    fits(tally, "class", {"check": wrong})


def is_shown(it: Asked, verdict: dict[str, Any], text: str) -> bool:
    """Returns whether the picks of a verdict make a run that is not as the exercise wants it, if it has some."""
    if not verdict["picks"]:
        return verdict["kind"] not in ("prints", "fault", "deadlock", "endless")
    given = f"{text}%%\n{verdict['picks']}".encode()
    lines = call(["replay", "--lend", verdict["lend"]], given)[1].decode().splitlines()
    printed = [line for line in lines if " print " in line]
    wanted = [line for line in it.blocks.get("prints", "").splitlines() if " print " in line]
    if verdict["kind"] == "prints":
        return sorted(printed) != sorted(wanted) if "--any-order" in it.options else printed != wanted
    last = {"deadlock": "deadlock", "endless": "open"}.get(verdict["kind"], "done")
    return lines[-1] == last and (verdict["kind"] != "fault" or any(" fault " in line for line in lines))


def answers() -> Iterator[tuple[Asked, str, str]]:
    """Yields each exercise with each of its answers, and what has to be said of that."""
    for it in EXERCISES.values():
        yield it, it.blocks["solution"], "right"
        for kind, text in it.wrong:
            yield it, text, kind


def try_verdicts(tally: Tally, room: ClassRoom) -> None:
    """Hands in each answer of the exercises, and replays the run of each verdict."""
    for it, text, kind in answers():
        verdict = room.ask(f"grade?exercise={it.name}", text)
        fits(tally, "class", {"grade": verdict})
        if "error" in verdict:
            tally.expect(False, it.name, "is not judged, by the error", verdict["error"])
            continue
        tally.expect(verdict["kind"] == kind and verdict["right"] == (kind == "right"), it.name, kind, "is judged", verdict)
        tally.expect(verdict["hint"] == it.hints.get(kind, ""), it.name, kind, "has the hint", verdict["hint"])
        fault = "the picks of a verdict make no run that is not as wanted:"
        tally.expect(is_shown(it, verdict, text), it.name, kind, fault, verdict)
    limited = EXERCISES["02-lost-update"]
    endless = "process p begin integer x; while 1 do x := x + 1; x := x - 1 + 1 od end\n"
    verdict = room.ask(f"grade?exercise={limited.name}", f"{endless}%%\n")
    tally.expect(verdict["kind"] == "refused" and "one text" in verdict["said"], "a text with a line %%", verdict)


def try_grade(tally: Tally, script: str, folder: pathlib.Path) -> None:
    """Judges a folder by a page of the class: `grade` has to say of each answer what the class says."""
    it = EXERCISES["02-lost-update"]
    (folder / "handed_in").mkdir()
    wanted = {"right.pb": "0"} | {f"wrong{at}.pb": "1" if kind == "refused" else "10" for at, (kind, _) in enumerate(it.wrong)}
    texts = {"right.pb": it.blocks["solution"], **{f"wrong{at}.pb": text for at, (_, text) in enumerate(it.wrong)}}
    for name, text in texts.items():
        (folder / "handed_in" / name).write_text(text)
    words = [script, "grade", "--csv", "--html", "report.html", "handed_in", str(TOP / f"examples/exercises/{it.name}.md")]
    ran = subprocess.run(words, cwd=folder, stdin=subprocess.DEVNULL, capture_output=True, check=False)
    rows = {row[0]: row for row in csv.reader(ran.stdout.decode().splitlines()[1:])}
    statuses = {name: row[1] for name, row in rows.items()}
    tally.expect(ran.returncode == UNEXPECTED and statuses == wanted, "grade by a page", ran)
    tally.expect(rows.get("right.pb", ["", "", ""])[2] == "as expected", "a right answer", rows)
    runs = sorted(path.stem.removesuffix(".pb") for path in (folder / "report_runs").glob("*.html"))
    shown = sorted(f"wrong{at}" for at, (kind, _) in enumerate(it.wrong) if kind in ("prints", "fault", "endless"))
    tally.expect(runs == shown, "pages of runs", runs, shown)


def try_teacher(tally: Tally, script: str, folder: pathlib.Path) -> None:
    """Tries the teacher's list: names, CSV, a key in a file, what is kept over a kill, and that all can be forgotten."""
    words = ("--names", "--keep", "kept.sqlite", "--teacher", "key", "--title", "Monday")
    room = ClassRoom(script, folder, *words)
    try:
        room.start()
        own = {"X-Name": "%3DAnna%20%C3%96"}
        for text in (LOST, EXERCISES["02-lost-update"].blocks["solution"]):
            room.ask("grade?exercise=02-lost-update", text, own)
        room.process.send_signal(signal.SIGKILL)  # type: ignore[union-attr]
        room.process.communicate()  # type: ignore[union-attr]
        first = room.key
        room.start()
        key = {"X-Key": room.key}
        tally.expect(room.key == first == (folder / "key").read_text().strip(), "the key of the teacher is another one")
        told = room.ask("teacher", None, key)
        fits(tally, "class", {"teacher": told})
        (row,) = told["table"]
        tally.expect(row["name"] == "Anna Ö" and row["tried"]["02-lost-update"]["solved"], "a kill loses a result", told)
        tally.expect(row["tried"]["02-lost-update"]["tries"] == 2 and room.ask("about")["title"] == "Monday", "the list", told)
        status, headers, sheet = room.send("GET", "/api/teacher/csv", None, key)
        tally.expect(status == 200 and headers["content-type"].startswith("text/csv") and b"Anna" in sheet, "CSV", sheet)
        tally.expect(room.send("GET", "/api/teacher/qr", None, key)[0] in (200, 404), "the picture of the address")
        room.send("POST", "/api/teacher/clear", b"", key)
        tally.expect(room.ask("teacher", None, key)["table"] == [], "results are not forgotten")
    finally:
        room.kill()


def try_rate(tally: Tally, script: str, folder: pathlib.Path) -> None:
    """Asks a server that allows a request a minute: soon it says so, to one browser and not to another."""
    room = ClassRoom(script, folder, limits=("--rate", "1"))
    try:
        room.start()
        found = [room.send("GET", "/api/about") for _ in range(20)]
        late = [json.loads(told) for status, _, told in found if status == 429]
        is_limited = found[0][0] == 200 and late and all(set(it) == {"error"} for it in late)
        tally.expect(is_limited, "requests are not limited", found)
        tally.expect(room.send("GET", "/api/about", None, {"X-Client": "f" * 32})[0] == 200, "one browser holds up another")
        tally.expect(room.send("GET", "/")[0] == 200, "the page itself is limited")
    finally:
        room.kill()


def try_tls(tally: Tally, script: str, folder: pathlib.Path) -> None:
    """Asks a server with a certificate by TLS, and without it in vain."""
    if not shutil.which("openssl"):
        print("not tried, since not installed: openssl")
        return
    room = ClassRoom(script, folder, *certified(folder))
    try:
        room.start()
        tally.expect("run" in room.ask("run", DEVICES), "a run over TLS")
        with socket.create_connection(("localhost", room.port)) as plain:
            plain.sendall(b"GET / HTTP/1.1\r\nHost: localhost\r\n\r\n")
            try:
                tally.expect(b"HTTP" not in plain.recv(100), "a request without TLS is answered")
            except OSError:
                pass
        tally.expect(room.end() == (DONE, b""), "the end of a class over TLS")
    finally:
        room.kill()


def try_proxy(tally: Tally, script: str, folder: pathlib.Path) -> None:
    """Asks as a proxy does: its browsers have limits of their own, by the last address that it names."""
    room = ClassRoom(script, folder, "--proxied", "--host", "class.example", limits=("--rate", "1"))
    try:
        room.start()
        own = {"Host": "class.example", "X-Forwarded-For": "203.0.113.9, 192.0.2.1"}
        found = {room.send("GET", "/api/about", None, own)[0] for _ in range(20)}
        tally.expect(found == {200, 429}, "one browser of a proxy", found)
        other = room.send("GET", "/api/about", None, {**own, "X-Forwarded-For": "192.0.2.1, 192.0.2.2"})
        tally.expect(other[0] == 200, "another browser of a proxy is held up", other)
        tally.expect(room.send("GET", "/", None, {"Host": "other.example"})[0] == 421, "another name")
    finally:
        room.kill()


def try_end(tally: Tally, room: ClassRoom, number: int) -> None:
    """Ends a server that searches, has a language server, and a connection that says nothing."""
    room.start()
    room.ask("check", DEVICES)
    with socket.create_connection(("127.0.0.1", room.port)) as idle, room.searching():
        idle.sendall(b"GET / HTTP/1.1\r\n")
        children, threads = room.processes(), room.threads()
        status, said = room.end(number)
        tally.expect((status, said) == (DONE, b""), "the end by", number, "has the status", status, said)
        tally.expect(threads == 1 and len(children) >= 2, "the server has", threads, "threads, and processes", children)
        tally.expect(all(wait_until(lambda pid=pid: is_gone(pid)) for pid in children), "a process is left", children)
    room.kill()


def try_leaving(tally: Tally, room: ClassRoom) -> None:
    """Leaves while a search goes on: the server notes that, and ends its process."""
    room.searching().close()
    tally.expect(wait_until(lambda: not room.searches()), "a search goes on whose client has left", room.processes())
    calls = room.ask("teacher", None, {"X-Key": room.key})["calls"]
    tally.expect(calls.get("searches left by the client") == 1, "a client that leaves is not noted", calls)


def main() -> None:
    tally = Tally()
    with tempfile.TemporaryDirectory(prefix="parbegin-class-") as name:
        folder = pathlib.Path(name)
        script = installed(folder / "installed")
        try_words(tally, script, folder)
        try_answers(tally, script, folder)
        room = ClassRoom(script, folder, *AT_LENGTH)
        room.start()
        try:
            for attempt in (try_files, try_errors, try_program, try_verdicts, try_leaving):
                attempt(tally, room)
            tally.expect(room.end() == (DONE, b""), "the end of a class")
        finally:
            room.kill()
        try_grade(tally, script, folder)
        try_teacher(tally, script, folder)
        try_rate(tally, script, folder)
        try_tls(tally, script, folder)
        try_proxy(tally, script, folder)
        for number in (signal.SIGTERM, signal.SIGINT, signal.SIGHUP):
            try_end(tally, ClassRoom(script, folder, *AT_LENGTH), number)
    tell_if_missing()
    tally.end("class")


if __name__ == "__main__":
    main()
