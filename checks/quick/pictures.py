#!/usr/bin/env python3
"""Compares the SVG pictures of docs/pictures/ with what the program's `draw` writes of the runs that they show.

    checks/quick/pictures.py [PROGRAM]             PROGRAM is the one that ./parbegin has built if none is given
    checks/quick/pictures.py --write [PROGRAM]     writes the pictures anew, after a change of crates/pb_draw

Each picture must be XML, its marks must have the event lines of `replay` as their titles, in their order, and some
document must show it. Its status is 0 if all is as wanted, and 1 if not.
"""
import sys
import xml.etree.ElementTree
from pathlib import Path

sys.path.insert(0, str(Path(__file__).resolve().parents[1] / "lib"))

from calls import DONE, TOP, Tally, call, recorded, writes  # noqa: E402

FOLDER = TOP / "docs/pictures"
DOCUMENTS = [TOP / "README.md", *sorted((TOP / "docs").rglob("*.md"))]
SVG = "{http://www.w3.org/2000/svg}"
EVENTS = {"grant", "return", "print", "fault", "end"}


def runs():
    """Returns the run that each picture shows."""
    lost = (TOP / "examples/lost.run").read_bytes()
    devices = recorded((TOP / "examples/devices.pb").read_bytes())
    return {"lost.svg": lost, "devices.svg": devices}


def titles(picture):
    """Returns the titles of the marks of the events of a picture, or nothing if it is not XML."""
    try:
        top = xml.etree.ElementTree.fromstring(picture)
    except xml.etree.ElementTree.ParseError:
        return None
    return [it.findtext(f"{SVG}title") for it in top.iter(f"{SVG}g") if it.get("class") in EVENTS]


def look_at(tally, name, run, picture):
    """Compares a picture with the run that it shows, and with the file that is kept of it."""
    status, said = call(["replay"], run)
    events = said.decode().splitlines()[:-1]
    tally.expect(status == DONE and titles(picture) == events, name, "has not the events of its run")
    file = FOLDER / name
    tally.expect(file.is_file() and file.read_bytes() == picture, name, "is not what `draw` writes")
    shown = any(f"pictures/{name}" in document.read_text() for document in DOCUMENTS)
    tally.expect(shown, name, "is in no document")


def main():
    is_written = writes()
    tally, found = Tally(), runs()
    for name, run in found.items():
        status, picture = call(["draw"], run)
        tally.expect(status == DONE, name, "ends with status", status)
        if is_written:
            FOLDER.mkdir(exist_ok=True)
            (FOLDER / name).write_bytes(picture)
        look_at(tally, name, run, picture)
    kept = {file.name for file in FOLDER.glob("*.svg")}
    tally.expect(kept <= set(found), "no run is known for", kept - set(found))
    tally.end("pictures")


main()
