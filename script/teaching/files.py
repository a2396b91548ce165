"""What a class serves as it is: the page with its scripts, the editor of Debian, and texts to begin with. All is read once."""
from __future__ import annotations

import gzip
import hashlib
import os
import re

from script.pages import TEMPLATE
from script.places import TOP, is_installed
from script.web import Answer, Request

PAGE = f"{TOP}/../../share/parbegin/class" if is_installed() else f"{TOP}/extras/class"
EXERCISES = f"{TOP}/../../share/parbegin/exercises" if is_installed() else f"{TOP}/examples/exercises"
EXAMPLES = f"{TOP}/../../share/doc/parbegin/examples" if is_installed() else f"{TOP}/examples"
# Where Debian's package libjs-codemirror is, and what a class takes of it.
EDITOR = "/usr/share/javascript/codemirror"
OF_EDITOR = (
    "lib/codemirror.js", "lib/codemirror.css", "addon/edit/matchbrackets.js", "addon/hint/show-hint.js",
    "addon/hint/show-hint.css",
)
KINDS = {".html": "text/html; charset=utf-8", ".css": "text/css; charset=utf-8", ".js": "text/javascript; charset=utf-8"}
# What of the page of one program a class has too: its parts, by the marks that class.html has in their place.
SHARED = {
    "<!-- main of page.html -->": ("<main>\n", "</main>"),
    "<!-- signs of page.html -->": ("  <h2>Signs</h2>\n", "  <h2>Quiz</h2>"),
}
NOT_SHOWN = ("limits", "solutions", "expected", "exercises")
MOST_EXAMPLE, LEAST_PACKED = 4_000, 1_000


class File:
    """A file that is served."""

    def __init__(self, body: bytes, kind: str) -> None:
        self.body, self.kind = body, kind
        self.packed = gzip.compress(body, 9) if len(body) > LEAST_PACKED else b""
        self.headers = {"ETag": f'"{hashlib.sha256(body).hexdigest()[:20]}"', "Cache-Control": "no-cache"}

    def answer(self, request: Request) -> Answer:
        """Returns it, unless the browser has it."""
        if request.headers.get("if-none-match") == self.headers["ETag"]:
            return Answer(b"", self.kind, 304, self.headers)
        if self.packed and "gzip" in request.headers.get("accept-encoding", ""):
            return Answer(self.packed, self.kind, headers={**self.headers, "Content-Encoding": "gzip"})
        return Answer(self.body, self.kind, headers=self.headers)


def read(path: str) -> bytes:
    """Returns the bytes of a file."""
    with open(path, "rb") as file:
        return file.read()


def with_shared(page: str) -> str:
    """Returns the page of a class with the parts of the page of one program in it."""
    template = read(f"{TEMPLATE}/page.html").decode()
    for mark, (begin, end) in SHARED.items():
        page = page.replace(mark, template.partition(begin)[2].partition(end)[0])
    return page


def read_files(editor: str = EDITOR) -> dict[str, File]:
    """Returns what is served, by its path in the address."""
    files: dict[str, File] = {}
    for folder in (PAGE, TEMPLATE):
        for name in sorted(os.listdir(folder)):
            base, ending = os.path.splitext(name)
            if ending in KINDS and re.fullmatch("[a-z_]+", base) and name not in ("page.html", "page.js"):
                files.setdefault(f"/{name}", File(read(f"{folder}/{name}"), KINDS[ending]))
    for name in OF_EDITOR:
        if os.path.isfile(f"{editor}/{name}"):
            files[f"/editor/{os.path.basename(name)}"] = File(read(f"{editor}/{name}"), KINDS[os.path.splitext(name)[1]])
    files["/class.html"] = File(with_shared(files["/class.html"].body.decode()).encode(), KINDS[".html"])
    files["/"], files["/teacher"] = files["/class.html"], files["/teacher.html"]
    return files


def lesson_of(folder: str) -> tuple[int, str]:
    """Returns by what the folders of lessons are put in order."""
    number = folder.partition("-")[0]
    return (int(number) if number.isdigit() else 0, folder)


def read_examples(folder: str = EXAMPLES) -> list[dict[str, str]]:
    """Returns the short texts of a folder and of the folders in it."""
    found = []
    for base, folders, names in os.walk(folder):
        folders[:] = sorted((it for it in folders if it not in NOT_SHOWN), key=lesson_of)
        for name in sorted(it for it in names if it.endswith(".pb")):
            text = read(os.path.join(base, name)).decode("ascii", "replace")
            if len(text) < MOST_EXAMPLE:
                found.append({"group": os.path.relpath(base, folder).replace(".", ""), "name": name[:-3], "text": text})
    return found
