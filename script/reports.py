"""The formats in which `plan` tells its findings: as lines of a compiler, as JSON Lines, and as SARIF 2.1.0."""
from __future__ import annotations

import json
import os
import re
from collections.abc import Iterable, Iterator
from typing import Any
from urllib.parse import quote

from script.messages import Finding, Place, Unread
from script.helping import ran_on
from script.places import shown

SARIF = "https://json.schemastore.org/sarif-2.1.0.json"
# What `explain` says nothing of.
RULES = {"circle": "nested holds of scarce resources make a circle"}
# A refusal that is of the whole text is told at its start, so that an editor goes to the file.
START = Place(1, 1, "")


def gcc_lines(finding: Finding | Unread) -> Iterator[str]:
    """Yields the lines of a finding as compilers write them, and none of a file that cannot be read, which standard error tells."""
    if isinstance(finding, Unread):
        return
    first, *others = finding.places or [Place(finding.text.lines_before + 1, 1, "")]

    def line(place: Place, kind: str, text: str) -> str:
        return f"{shown(place.file or finding.text.file)}:{place.line}:{place.column}: {kind}: {text}\n"

    yield line(first, finding.level, f"{finding.code}: {finding.message}")
    for place in ([first] if first.what else []) + others:
        yield line(place, "note", place.what or "here too")
    for note in finding.notes:
        yield line(first, "note", note)
    for it in finding.expected:
        yield line(first, "note", f"expected: {it}")
    for hint in finding.hints:
        yield line(first, "note", f"hint: {hint}")


def place_object(place: Place) -> dict[str, Any]:
    """Returns a place for JSON."""
    return {"line": place.line, "column": place.column, **({"what": place.what} if place.what else {})}


def message_object(finding: Finding) -> dict[str, Any]:
    """Returns for JSON the words of a finding, its places, and what else it says."""
    given: dict[str, Any] = {"message": finding.message}
    if finding.offset is not None:
        given["offset"] = finding.offset
    if finding.places:
        given |= {"line": finding.places[0].line, "column": finding.places[0].column}
    lists = {"expected": finding.expected, "hints": finding.hints, "notes": finding.notes}
    return {**given, "places": [place_object(it) for it in finding.places], **lists}


def json_line(said: dict[str, Any]) -> str:
    """Returns an object as a line."""
    return json.dumps(said, ensure_ascii=True) + "\n"


def location(file: str, place: Place | None) -> dict[str, Any]:
    """Returns a place of a file for SARIF."""
    named = place.file if place and place.file else file
    physical: dict[str, Any] = {"artifactLocation": {"uri": quote(os.fsencode(named), safe="/")}}
    if place:
        physical["region"] = {"startLine": place.line, "startColumn": place.column}
    told: dict[str, Any] = {"physicalLocation": physical}
    return {**told, "message": {"text": place.what}} if place and place.what else told


def sarif_result(finding: Finding) -> dict[str, Any]:
    """Returns a finding for SARIF."""
    notes = [*finding.notes, *(f"expected: {it}" for it in finding.expected), *(f"hint: {it}" for it in finding.hints)]
    first, *others = finding.places or [None]
    result: dict[str, Any] = {
        "ruleId": finding.code, "level": finding.level, "message": {"text": "\n".join([finding.message, *notes])},
        "locations": [location(finding.text.file, first)],
    }
    if others:
        result["relatedLocations"] = [{"id": at, **location(finding.text.file, it)} for at, it in enumerate(others, 1)]
    return result


def sarif_invocation(unread: list[Unread]) -> dict[str, Any]:
    """Returns for SARIF how the call went: it has a notification of each file that cannot be read."""
    told = [{"level": "error", "message": {"text": it.reason}, "locations": [location(it.file, None)]} for it in unread]
    return {"executionSuccessful": not unread, **({"toolExecutionNotifications": told} if told else {})}


def rules(start: list[str], codes: Iterable[str]) -> list[dict[str, Any]]:
    """Returns what SARIF says of these codes: the words of `explain`."""
    _, told, _ = ran_on([*start[:1]], ["explain"])
    words = {**RULES, **dict(re.findall(r"^(\w+): (.*)$", told.decode(errors="replace"), re.M))}
    return [{"id": code, "shortDescription": {"text": words.get(code, code)}} for code in sorted(set(codes))]


def version_of(start: list[str]) -> str:
    """Returns the number of the program's version."""
    _, told, _ = ran_on(start[:1], ["--version"])
    number = re.search(r"\d+\.\d+(?:\.\d+)?", told.decode(errors="replace"))
    return number[0] if number else "0.0"


def sarif_document(start: list[str], said: list[Finding | Unread]) -> str:
    """Returns the findings as one SARIF document."""
    told = [it for it in said if isinstance(it, Finding)]
    unread = [it for it in said if isinstance(it, Unread)]
    driver = {"name": "parbegin", "rules": rules(start, (it.code for it in told)), "version": version_of(start)}
    run = {"tool": {"driver": driver}, "invocations": [sarif_invocation(unread)], "columnKind": "utf16CodeUnits"}
    run["results"] = [sarif_result(it) for it in told]
    return json.dumps({"$schema": SARIF, "version": "2.1.0", "runs": [run]}, indent=2) + "\n"
