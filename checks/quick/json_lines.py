#!/usr/bin/env python3
"""Makes the calls of the examples with `--json` too, and compares the objects with the lines that are written without.

    checks/quick/json_lines.py [PROGRAM]     PROGRAM is the one that ./parbegin has built if none is given

What the object of each line must be is read from the line by the patterns below, a second reading of docs/formats/json.md.
Each object must fit docs/schema/json_lines.schema.json, and the status must be the same. Its status is 0 if all is as
wanted, and 1 if not.
"""
from __future__ import annotations

import json
import re
import select
import subprocess
import sys
from pathlib import Path
from typing import Any

sys.path.insert(0, str(Path(__file__).resolve().parents[1] / "lib"))

from calls import DONE, FAULT, REFUSED, TOP, WATCHDOG, Tally, call, program  # noqa: E402

SCHEMA = json.loads((TOP / "docs/schema/json_lines.schema.json").read_text())
EXPECTED = TOP / "examples/expected/calls.txt"
# The commands whose lines have objects of their own, and the longest output that is compared.
COMMANDS = ("bank", "check", "claims", "debug", "exec", "explain", "outcomes", "plan", "record", "replay", "run")
LONGEST = 200_000
DEADLOCK = 9
EXACT = 2**53 - 1
NAME, NUMBER, PAIRS = "[A-Za-z][A-Za-z0-9_]*", "-?(?:0|[1-9][0-9]*)", r"(?P<amounts>(?: [1-9][0-9]* [A-Za-z][A-Za-z0-9_]*)+)"
LABEL, CODE = "[A-Za-z0-9_.-]+", "(?:[A-Z](?:0|[1-9][0-9]*)|input|output)"
# The pattern of each line, as docs/formats/json.md writes it, with what its object has at first. A word in angle brackets is the
# key of a name or a number. First those of the parts of an outcome or a deadlock.
PARTS: list[tuple[str, dict[str, Any]]] = [
    ("<process> ended", {"kind": "ended"}), ("<process> faulted", {"kind": "faulted"}), ("<process> waits", {"kind": "waits"}),
    ("<process>.<integer> <value>", {"kind": "integer"}), ("printed", {"kind": "printed"}), ("<process>.<arm> print <value>", {"kind": "print"}),
    ("<process> holds <amount> <resource>", {"kind": "holds"}), ("<process>.<arm> asks<amounts>", {"kind": "asks"}),
    ("reached by", {"kind": "reached by"}), ("<process>.<arm> <count>", {"kind": "picks"}),
]
LINES: list[tuple[str, dict[str, Any]]] = [
    ("<process>.<arm> grant<amounts>", {"kind": "grant"}), ("<process>.<arm> return<amounts>", {"kind": "return"}),
    ("<process>.<arm> print <value>", {"kind": "print"}), ("<process>.<arm> fault <fault>", {"kind": "fault"}),
    ("<process> end", {"kind": "end"}), ("done", {"kind": "done"}), ("open", {"kind": "open"}), ("deadlock", {"kind": "deadlocked"}),
    ("limit <limit>", {"kind": "limit"}), ("memory", {"kind": "memory"}), ("threads", {"kind": "threads"}), ("ok", {"kind": "ok"}),
    ("<process> claim <claim> <resource>", {"kind": "claim"}), ("<process> claim <claim> <resource> lines<lines>", {"kind": "claim"}),
    ("<process> of text <of_text> claim <claim> <resource>", {"kind": "claim"}),
    ("<process> of text <of_text> claim <claim> <resource> lines<lines>", {"kind": "claim"}),
    ("<resource> capital <capital> least <least> free <free>", {"kind": "resource"}),
    ("bottleneck <resource>", {"kind": "bottleneck"}), ("no request waits", {"kind": "no request waits"}),
    ("<process> holds <outer> line <outer_line> around <inner> line <inner_line>", {"kind": "nest"}),
    ("<process> of text <of_text> holds <outer> line <outer_line> around <inner> line <inner_line>", {"kind": "nest"}),
    ("order", {"kind": "order", "text": ""}), ("order <text>", {"kind": "order"}), ("no order", {"kind": "no order"}),
    ("refused <code>", {"kind": "refused"}), ("refused <code> at <at>", {"kind": "refused"}),
    ("refused <code> <process> <resource> claim <claim> capital <capital>", {"kind": "refused"}),
    ("refused <code> <text>", {"kind": "refused"}),
    ("text <of_text> refused <code>", {"kind": "refused"}), ("text <of_text> refused <code> at <at>", {"kind": "refused"}),
    ("text <of_text> refused <code> <text>", {"kind": "refused"}),
    ("outcome <number>", {"kind": "outcome"}), ("deadlock <number>", {"kind": "deadlock"}),
    ("endless", {"kind": "endless"}), ("round", {"kind": "round"}),
    ("<process>.<arm> <count>", {"kind": "picks"}),
    ("<outcomes> outcomes?", {"kind": "outcomes", "deadlocks": 0, "endless": False}),
    ("<outcomes> outcomes?, some runs do not end", {"kind": "outcomes", "deadlocks": 0, "endless": True}),
    ("<outcomes> outcomes?, <deadlocks> deadlocks?", {"kind": "outcomes", "endless": False}),
    ("<outcomes> outcomes?, <deadlocks> deadlocks?, some runs do not end", {"kind": "outcomes", "endless": True}),
    ("more than <limit> configurations(?:, there may be others)?", {"kind": "others", "of": "configurations"}),
    ("more than <limit> picks(?:, there may be others)?", {"kind": "others", "of": "picks"}),
    ("first deadlock, there may be others", {"kind": "others", "of": "deadlocks"}),
    ("every fair run ends", {"kind": "every fair run ends"}), ("some fair runs do not end", {"kind": "some fair runs do not end"}),
    ("every run ends", {"kind": "every run ends"}), ("some runs do not end", {"kind": "some runs do not end"}),
    ("more than <limit> configurations for fair runs", {"kind": "others", "of": "fair runs"}),
    ("no outcome <number>", {"kind": "no outcome"}), ("no deadlock <number>", {"kind": "no deadlock"}),
    ("as expected", {"kind": "as expected"}), ("not as expected: <text>", {"kind": "not as expected"}), ("<text>", {"kind": "line"}),
]
REFUSALS = [it for it in LINES if it[1]["kind"] == "refused" and it[0].startswith("refused")]
LINE = ("<text>", {"kind": "line"})
RECORD: list[tuple[str, dict[str, Any]]] = [
    ("%%", {"kind": "picks follow"}), ("<process>.<arm> <count>", {"kind": "picks"}), ("<text>", {"kind": "source"}),
]
DEBUG: list[tuple[str, dict[str, Any]]] = [
    ("at <at>", {"kind": "at"}), ("at <at> <process>.<arm> grant<amounts>", {"kind": "at", "event": "grant"}),
    ("at <at> <process>.<arm> return<amounts>", {"kind": "at", "event": "return"}),
    ("at <at> <process>.<arm> print <value>", {"kind": "at", "event": "print"}),
    ("at <at> <process>.<arm> fault <fault>", {"kind": "at", "event": "fault"}), ("at <at> <process> end", {"kind": "at", "event": "end"}),
    ("at <at> <process>.<arm> line <line>", {"kind": "wrote"}), ("at <at> <process>.<arm> line none", {"kind": "wrote"}),
    ("mark <number>", {"kind": "mark"}),
    *((words, {"kind": words}) for words in ("no event", "never", "not reached", "faulted", "no fault", "no circle", "no text", "not asking", "granted")),
    ("<process>.<arm> line <line>: <text>", {"kind": "does"}), ("<process>.<arm>: <text>", {"kind": "does"}),
    ("<process>.<arm> line <line> <text>", {"kind": "faulted at"}), ("<process>.<arm> line none <text>", {"kind": "faulted at"}),
    ("<arm> idle", {"kind": "arm", "state": "idle"}), ("<arm> at <place>", {"kind": "arm", "state": "at"}),
    ("<arm> ended", {"kind": "arm", "state": "ended"}), ("<process> holds <amount> <resource> claim <claim>", {"kind": "loan"}),
    ("cash <amount> <resource>", {"kind": "cash"}), ("<process>.<arm> asks<amounts>", {"kind": "asks"}),
    ("<process>.<arm> waits <resource> holder <holder>", {"kind": "waits for"}), ("line <line>", {"kind": "source line"}),
    ("line none", {"kind": "source line"}), (r"<line>\| <text>", {"kind": "source"}), ("order <text>", {"kind": "order"}),
    ("rest <text>", {"kind": "rest"}), ("stack", {"kind": "stack", "text": ""}), ("stack <text>", {"kind": "stack"}),
    ("memory", {"kind": "memory"}), *REFUSALS, ("<integer> <value>", {"kind": "variable"}), LINE,
]
BANK: list[tuple[str, dict[str, Any]]] = [
    *((words, {"kind": words}) for words in ("ready", "allowed", "queued", "finishes", "memory")),
    ("granted <job><shares>", {"kind": "granted"}), ("held <job><shares>", {"kind": "held"}), ("over claim <share>", {"kind": "over claim"}),
    ("wait cash <share> <cash>", {"kind": "wait cash"}), ("wait rest <text>", {"kind": "wait rest"}),
    ("claimed <text>", {"kind": "claimed"}),
    ("order", {"kind": "order", "text": ""}), ("order <text>", {"kind": "order"}), ("lacks <job> <share>", {"kind": "lacks"}),
    ("twice <job>", {"kind": "twice"}), ("missing <job>", {"kind": "missing"}),
    ("resource <share> capital <capital> cash <cash>", {"kind": "resource"}),
    ("job <job> <share> claim <claim> holds <holds> needs <needs>", {"kind": "job"}), ("wish <job><shares>", {"kind": "wish"}),
    ("refused <code> <text>", {"kind": "refused"}), LINE,
]
EXPLAIN: list[tuple[str, dict[str, Any]]] = [("<short>: <text>", {"kind": "code"}), LINE]
# The lists of an outcome and a deadlock, with the kinds of the lines in them.
LISTS = {
    "processes": ("ended", "faulted", "waits"), "integers": ("integer",), "holds": ("holds",), "asks": ("asks",), "prints": ("print",),
    "picks": ("picks",),
}
NAMES = ("process", "resource", "integer", "code", "fault", "outer", "inner", "holder")
# Keys of which the object has another name, and how they are written.
OTHERS = {"share": ("resource", LABEL), "shares": ("amounts", f" (?:0|[1-9][0-9]*) {LABEL}(?:, (?:0|[1-9][0-9]*) {LABEL})*"), "job": ("job", LABEL), "short": ("code", CODE)}
VALUES = {"amounts": PAIRS, "lines": r"(?P<lines>(?: [1-9][0-9]*)+)", "text": "(?P<text>.*)"}


def compiled(pattern: str) -> re.Pattern[str]:
    """Returns the expression of a pattern."""
    def group(match: re.Match[str]) -> str:
        key = match[1]
        if key in OTHERS:
            return f"(?P<{OTHERS[key][0]}>{OTHERS[key][1]})"
        return VALUES.get(key) or f"(?P<{key}>{NAME if key in NAMES else NUMBER})"

    return re.compile(re.sub("<([a-z_]+)>", group, pattern.replace(".<", r"\.<")))


FORMS, FORMS_OF_PARTS, *FORMS_OF_COMMANDS = (
    [(compiled(pattern), first) for pattern, first in lines] for lines in (LINES, PARTS, RECORD, DEBUG, BANK, EXPLAIN))


def value_of(key: str, said: str) -> Any:
    """Returns the value of a member of which a line says this."""
    words = said.split()
    if key == "amounts":
        return [{"amount": int(k), "resource": r.rstrip(",")} for k, r in zip(words[::2], words[1::2])]
    if key == "lines":
        return [int(word) for word in words]
    if key in NAMES or key in ("text", "job"):
        return said
    return int(said) if abs(int(said)) <= EXACT else said


def object_of(line: str, forms: list[tuple[re.Pattern[str], dict[str, Any]]]) -> dict[str, Any] | None:
    """Returns the object of a line: that of the first form that it is of."""
    for form, first in forms:
        if match := form.fullmatch(line):
            return first | {key: value_of(key, said) for key, said in match.groupdict().items()}
    return None


def forms_of(words: list[str], status: int) -> list[tuple[re.Pattern[str], dict[str, Any]]]:
    """Returns the forms of the lines of a call."""
    record, debug, bank, explain = FORMS_OF_COMMANDS
    picks = words[0] == "record" or words[0] == "outcomes" and any(it.startswith(("--run", "--deadlock")) for it in words) \
        and not {"--expect", "--endless"} & set(words)
    if picks:
        return record if status in (DONE, DEADLOCK) else FORMS
    return {"debug": debug, "bank": bank, "explain": explain}.get(words[0], FORMS)


def objects_of(text: str, forms: list[tuple[re.Pattern[str], dict[str, Any]]]) -> list[dict[str, Any]]:
    """Returns the objects of a text: one for an outcome or a deadlock with the lines that belong to it."""
    made: list[dict[str, Any]] = []
    within = False
    for line in text.removesuffix("\n").split("\n") if text else []:
        if within and (part := object_of(line, FORMS_OF_PARTS)):
            for key, kinds in LISTS.items():
                if part["kind"] in kinds:
                    made[-1][key].append(part)
            continue
        it = object_of(line, forms)
        assert it is not None, line
        within = forms is FORMS and it["kind"] in ("outcome", "deadlock", "endless", "round")
        made.append(it | {key: [] for key in LISTS} if within else it)
    return made


TYPES = {"object": dict, "array": list, "string": str, "boolean": bool, "integer": int}


def fault_of(value: Any, schema: dict[str, Any]) -> str | None:
    """Returns what does not fit a schema, of the few words of JSON Schema that this one uses."""
    if "$ref" in schema:
        return fault_of(value, SCHEMA["$defs"][schema["$ref"].rsplit("/", 1)[1]])
    if "oneOf" in schema:
        fitting = sum(fault_of(value, one) is None for one in schema["oneOf"])
        return None if fitting == 1 else f"{fitting} forms fit {value}"
    if "anyOf" in schema and all(fault_of(value, one) for one in schema["anyOf"]):
        return f"{value} fits no form"
    if "const" in schema and value != schema["const"] or "enum" in schema and value not in schema["enum"]:
        return f"{value} is another value"
    kind = schema.get("type")
    if kind and (not isinstance(value, TYPES[kind]) or kind == "integer" and isinstance(value, bool)):
        return f"{value} is no {kind}"
    if isinstance(value, int) and not schema.get("minimum", value) <= value:
        return f"{value} is too small"
    if isinstance(value, str) and not re.search(schema.get("pattern", ""), value):
        return f"{value} is not of its form"
    if isinstance(value, list):
        return next((fault for it in value if (fault := fault_of(it, schema.get("items", {})))), None)
    if isinstance(value, dict):
        known = schema.get("properties", {})
        if missing := set(schema.get("required", ())) - set(value):
            return f"{value} lacks {missing}"
        if "additionalProperties" in schema and (more := set(value) - set(known)):
            return f"{value} has {more}"
        return next((fault for key, it in value.items() if (fault := fault_of(it, known.get(key, {})))), None)
    return None


def try_call(tally: Tally, words: list[str], given: bytes) -> None:
    """Makes a call without `--json` and with it, and compares."""
    status, text = call(words, given)
    if len(text) > LONGEST:
        return
    with_json, lines = call(["--quiet", "--json", *words], given)
    tally.expect(with_json == status, "the status of", *words, "is", with_json, "and not", status)
    made = [json.loads(line) for line in lines.decode().splitlines()]
    tally.expect(made == objects_of(text.decode("latin-1"), forms_of(words, status)), "other objects of", *words)
    for it in made:
        fault = fault_of(it, SCHEMA)
        tally.expect(fault is None, "the schema:", fault)


def calls() -> list[tuple[list[str], bytes]]:
    """Returns the words and the input of calls: those of the examples, and some more of refused texts."""
    made: list[tuple[list[str], bytes]] = []
    for line in EXPECTED.read_text().splitlines():
        if line and not line.startswith("#"):
            _, _, file, *words = line.split()
            if words[0] in COMMANDS:
                made.append((words, (TOP / "examples" / file).read_bytes()))
    for file in sorted((TOP / "examples").glob("*.pb")):
        for words in (["claims"], ["plan"], ["outcomes", "--states", "2000"], ["outcomes", "--lend", "cash", "--states", "2000"],
                      ["outcomes", "--prints", "--states", "2000"], ["check"]):
            made.append((words, file.read_bytes()))
    claim = b"resource tape = 1; process p begin hold 1 of tape do hold 1 of tape do skip od od end\n"
    great = b"process p begin integer x; x := 9007199254740992; print x; print x - 1; print 0 - x; x := 1 div 0 end\n"
    names = (b"resource order = 1; resource refused = 2; process order begin integer x; hold 1 of order do print 1 od end\n"
             b"process bottleneck begin integer x; hold 1 of refused do x := 1 div 0 od end process refused begin skip end\n")
    nothing = b"process refused begin print 1 end\n"
    odd = b"process p // \t\"\\<%%\r\nbegin integer ok, memory;\nok\n:= 1;\nmemory\n:= 2; print ok end\n"
    asks = (b"to 2\nvars p\nthreads p\nloans\nwho tape\ncircle\nline p.0\ntext p.0\ndoes p.0\narms\nwhy p.0\nnext\nprev\nwrote p ok\nuntil p.0 3\n"
            b"pick p.0\nback\nback\nstack p.0\nback\nstack p.0\nfault p\nmark 0\nmark 4294967295\nmark 4294967296\nhelp\nto 99\nvars q\nthreads p\nnonsense\n")
    jobs = (b"resource tape-1 4\nresource 2.d 2\njob a 3 tape-1, 1 2.d\njob 1-b 4 tape-1\nask a 2 tape-1\nask a 2 tape-1\nask 1-b 4 tape-1\n"
            b"want 1-b 3 tape-1\nwhy a 1 2.d\norder\norder a 1-b\norder 1-b a\norder a a\norder a\nstate\ncapital tape-1 3\ncapital 2.d 3\ngive a 2 tape-1\nhelp\n"
            b"hold a 1 2.d\ndrop a\nleave a\nnonsense\n")
    made.append((["bank"], jobs))
    for words in (["record"], ["record", "--seed", "3"], ["outcomes", "--run", "1"], ["outcomes", "--run=1"], ["outcomes", "--run", "1", "--prints"],
                  ["outcomes", "--deadlock", "1"], ["outcomes"], ["run"]):
        made.append((words, odd))
    made.append((["record"], b"process p begin print x end\n"))
    made.append((["debug"], odd + b"%%\np.0 3\n%%\n" + asks))
    made.append((["debug"], b"process p begin print x end\n%%\n%%\nto 1\n"))
    made.append((["debug"], b"process p begin\nprint 1;\nprint 7 div 0 end\n%%\np.0 5\n%%\nfault p\nto 4\narms\nto 5\nfault p\nfault q\ndoes p.0\narms\n"))
    made.append((["debug", "--lend", "cash"], (TOP / "examples/devices.pb").read_bytes() + b"%%\na.0 1\nb.0 1\n%%\n"
                 + b"to 2\ncircle\nloans\nwho tape\nwhy a.0\narms\npick a.0\nline a.0\ntext a.0\nprev\n"))
    made.append((["debug"], (TOP / "examples/devices.pb").read_bytes() + b"%%\na.0 1\n%%\nto 1\nwhy a.0\nwhy b.0\nprev\npick b.0\n"))
    for words in (["explain"], ["explain", "N3"], ["explain", "O1"], ["explain", "V9"]):
        made.append((words, b""))
    required = b"resource tape = 2; process p begin hold 1 of tape do skip od end\n%%\nclaims at least "
    for given in (b"2 tape\n", b"1 tape\nhas a parbegin\n", b"1 tape\nhas a hold\np.0 print 1\n", b"1 tape\nhas a hold\n", b"1 disk\n", b"0 tape\n"):
        made.append((["outcomes", "--expect"], required + given))
    for given in (names, nothing):
        for words in (["run"], ["claims"], ["plan"], ["outcomes"], ["outcomes", "--prints"], ["outcomes", "--lend", "cash"]):
            made.append((words, given))
    for words, given in ((["run"], claim), (["check"], claim + b"%%\nprocess p begin print y end\n%%\n" + great), (["run"], great),
                         (["outcomes"], great), (["run", "--steps", "3"], great), (["outcomes", "--run", "7"], great)):
        made.append((words, given))
    return made


def try_session(tally: Tally, words: list[str], first: bytes, steps: dict[bytes, str]) -> None:
    """Drives a session, and wants an object of this kind of each command before the next one is sent."""
    with subprocess.Popen([program(), "--json", *words], stdin=subprocess.PIPE, stdout=subprocess.PIPE) as session:
        assert session.stdin and session.stdout
        session.stdin.write(first)
        for command, kind in steps.items():
            session.stdin.write(command + b"\n")
            session.stdin.flush()
            came = bool(select.select([session.stdout], [], [], WATCHDOG)[0])
            made = json.loads(session.stdout.readline()) if came else {}
            tally.expect(made.get("kind") == kind, "not at once:", *words, command, made)
            if not came:
                session.kill()
                return
        session.stdin.close()
        tally.expect(session.wait(WATCHDOG) == DONE, "the end of a session of", *words)


def main() -> None:
    tally = Tally()
    for words, given in calls():
        try_call(tally, words, given)
    status, text = call(["--json", "run"], b"process p begin print 7 end\n")
    tally.expect((status, text) == (DONE, b'{"kind":"print","process":"p","arm":0,"value":7}\n{"kind":"end","process":"p"}\n{"kind":"done"}\n'), text)
    tally.expect(call(["--json", "run"], b"process")[0] == REFUSED, "a refused text")
    tally.expect(call(["--json", "run"], b"process p begin print 1 div 0 end\n")[0] == FAULT, "a fault")
    try_session(tally, ["debug", "--live"], (TOP / "examples/devices.pb").read_bytes() + b"%%\na.0 1\n%%\n",
                {b"to 1": "at", b"why b.0": "rest", b"nonsense": "refused", b"mark 4": "mark"})
    try_session(tally, ["bank"], b"", {b"resource tape 3": "ready", b"job a 2 tape": "ready", b"hold a 1 tape": "held"})
    tally.end("json lines")


main()
