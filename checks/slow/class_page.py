#!/usr/bin/env python3
"""Looks at the page of a class in a browser.

    checks/slow/class_page.py [PROGRAM] [FOLDER]     with a FOLDER it puts pictures of the views there

It is run by hand, and needs Debian's packages `chromium` and `libjs-codemirror`. By keys alone: views, the editor and out
of it, a mend, a run, the scheduler, outcomes, exercises, completion, what stands at a place, another name. Contrast, names
and sizes of all controls, live regions, and what sticks out, in light, dark and large, from a telephone to a projector. All
examples one after another in one page; links with long, odd and hostile texts; markup that must not become any; quiz; a
wrong answer, stepped through; the teacher's list; and the page without CodeMirror. No message may come on the console. Its
status is 0 if all is as wanted, and 1 if not.
"""
from __future__ import annotations

import json
import sys
import tempfile
from pathlib import Path
from typing import Any

sys.path.insert(0, str(Path(__file__).resolve().parents[1] / "lib"))

from browser import Browser  # noqa: E402
from calls import DONE, TOP, Tally, installed  # noqa: E402
from class_room import ClassRoom  # noqa: E402
from page_asks import CONTRAST  # noqa: E402

from script.teaching.exercises import read_pages  # noqa: E402

EXERCISES = read_pages(str(TOP / "examples/exercises"))
SIZES = ((360, 700), (390, 844), (800, 600), (1280, 720), (1920, 1080))
READY = "typeof view === 'object' && view !== null && typeof about.most === 'number'"
GOOD, BAD = "document.querySelector('#state.good')", "document.querySelector('#state.bad')"
SHOWN = "document.querySelector('body > main:not([hidden])').id !== 'wait'"
IN_EDITOR = "document.activeElement.closest('.CodeMirror') !== null"
# What has no name that a reader could say, and what is too small to be hit.
NAMELESS = """[...document.querySelectorAll("button, a[href], input, select, textarea, progress, dialog, nav")].filter((it) =>
  it.checkVisibility() && !(it.getAttribute("aria-label") || it.title || it.textContent.trim() || it.placeholder ||
  it.labels?.[0]?.textContent.trim())).map((it) => it.outerHTML.slice(0, 120))"""
SMALL = """[...document.querySelectorAll("button, select, input")].filter((it) => {
  const { width, height } = it.getBoundingClientRect();
  return it.checkVisibility() && width > 0 && !/radio|checkbox|range/.test(it.type) && (height < 20 || width < 16);
}).map((it) => it.outerHTML.slice(0, 90))"""
# Opens each example in one page, one after another, and says which are not shown as they are.
ALL_EXAMPLES = """(async () => {
  const found = [];
  for (const it of await ask("examples")) {
    writing.show(it.text);
    Object.assign(run, { seed: "1", picks: "" });
    open(run);
    const isRefused = () => $("waiting").textContent.includes("Back to the text");
    while (run.of !== run.key() && !isRefused()) await new Promise((go) => setTimeout(go, 20));
    if (run.of !== run.key()) { found.push(`${it.name} refused`); continue; }
    const lines = $("lines").children.length, wanted = it.text.replace(/\\n$/, "").split("\\n").length;
    if (lines !== wanted) found.push(`${it.name}: ${lines} lines, not ${wanted}`);
    else if (document.querySelectorAll("#list li").length !== run.shown.events.length) found.push(`${it.name}: events`);
  }
  return found;
})()"""
HOSTILE = "// <script>window.hit = 1</script><img src=x onerror=window.hit=1>\nprocess p begin print 1 end\n"


class Page:
    """The page of a class in a browser, with what is wanted of it."""

    def __init__(self, tally: Tally, room: ClassRoom, browser: Browser, pictures: Path | None) -> None:
        self.tally, self.room, self.it, self.pictures = tally, room, browser, pictures

    def begin(self, where: str = "/") -> None:
        """Opens the page anew, as somebody who was never there."""
        self.it.visit(f"http://127.0.0.1:{self.room.port}/", READY)
        self.it.js("sessionStorage.clear()")
        self.it.visit(f"http://127.0.0.1:{self.room.port}{where}", READY)

    def expect(self, what: str, expression: str, wanted: Any = True) -> None:
        """Compares what an expression of the page is."""
        got = self.it.js(expression)
        self.tally.expect(got == wanted, f"{what}:", str(got)[:400], "and not", wanted)

    def open(self, number: int) -> None:
        """Opens a view, and waits until it is shown."""
        self.it.js(f"open(views[{number}])")
        self.it.wait(SHOWN)

    def show(self, text: str, state: str) -> None:
        """Shows a text in the editor, and waits until it is looked at."""
        self.it.js(f"(document.querySelector('#state').className = 'card', writing.show({json.dumps(text)}))")
        self.it.wait(state)

    def picture(self, name: str) -> None:
        """Takes a picture, if pictures are wanted."""
        if self.pictures is not None:
            self.it.shot(str(self.pictures / f"{name}.png"))

    def silent(self, when: str) -> None:
        """Looks whether the console is silent, and nothing was loaded from elsewhere."""
        self.tally.expect(self.it.faults() == [], when, self.it.faults())


def look_at_editor(page: Page) -> None:
    """Writes by the keyboard alone."""
    it = page.it
    page.begin()
    it.wait(GOOD)
    for _ in range(20):
        if it.js(IN_EDITOR):
            break
        it.key("Tab")
    page.expect("the tab key comes to the editor", IN_EDITOR)
    it.key("End", ctrl=True)
    for letter in "  // ok":
        it.key(letter)
    page.expect("what is typed", "writing.text.trimEnd().endsWith('// ok')")
    it.key("Tab")
    page.expect("Tab indents", IN_EDITOR)
    it.key("Escape")
    it.key("Tab")
    page.expect("Escape and Tab leave the editor", IN_EDITOR, False)
    page.show("process p begin x := 1 end", BAD)
    it.js("writing.editor.focus()")
    it.key("F8")
    page.expect("F8 goes to the fault", "writing.editor.cm.getCursor().ch", 16)
    page.picture("wide-light-1-fault")
    it.key("Enter", alt=True)
    it.wait(GOOD)
    page.expect("Alt and Enter mend", "writing.text.trim()", "process p begin integer x; x := 1 end")


def look_at_places(page: Page) -> None:
    """Asks what stands at a place, completes a word, and gives a name another one."""
    it = page.it
    page.show("resource tape = 2;\nprocess p begin hold 2 of tape do print 1 od end\n", GOOD)
    it.js("(writing.editor.cm.setCursor({ line: 1, ch: 26 }), writing.editor.focus())")
    it.key("F1")
    it.wait("$('where').textContent.includes('tape')")
    it.js("writing.editor.cm.replaceRange(' ha', { line: 1, ch: 15 })")
    it.js("writing.editor.cm.setCursor({ line: 1, ch: 18 })")
    it.js("void writing.editor.cm.replaceRange('', { line: 1, ch: 17 }, { line: 1, ch: 18 })")
    it.key(" ", ctrl=True)
    it.wait("[...document.querySelectorAll('.CodeMirror-hint')].some((one) => one.textContent === 'hold')")
    page.picture("wide-light-2-words")
    it.key("Escape")
    page.show("resource tape = 2;\nprocess p begin hold 2 of tape do print 1 od end\n", GOOD)
    it.js("(writing.editor.cm.setCursor({ line: 0, ch: 10 }), writing.editor.focus())")
    it.key("F2")
    page.expect("the name that is there", "$('new-name').value", "tape")
    it.js("$('new-name').value = 'drive'")
    it.key("Enter")
    it.wait("writing.text.includes('of drive')")
    page.expect("another name", "writing.text.split('drive').length", 3)
    page.expect("its dialog is closed", "$('renaming').open", False)


def look_at_views(page: Page) -> None:
    """Goes through the views by keys."""
    it = page.it
    page.begin()
    it.wait(GOOD)
    it.js("writing.editor.focus()")
    it.key("Enter", ctrl=True)
    it.wait("run.isOpen === true")
    for _ in range(2):
        it.key("ArrowRight")
    page.expect("an arrow goes on", "run.shown.at", 2)
    page.picture("wide-light-3-run")
    it.key("3", alt=True)
    it.wait("scheduler.isOpen === true")
    it.js("document.activeElement.blur()")
    it.key("1")
    page.expect("1 picks an arm", "scheduler.shown.rows.length", 1)
    page.picture("wide-light-4-scheduler")
    it.key("4", alt=True)
    it.wait("document.querySelectorAll('.end').length === 1")
    it.key("5", alt=True)
    page.expect("the exercises", "document.querySelectorAll('.exercise').length", len(EXERCISES))
    it.key("?")
    page.expect("? helps", "$('help').open")
    it.key("Escape")
    page.expect("Escape closes help", "$('help').open", False)
    it.key("2", alt=True)
    it.js("run.shown.go(run.shown.rows.length)")
    page.expect("the end of a run tells of others", "$('ending').textContent.startsWith('The run is over:')")
    look_at_debugger(page)
    page.silent("the views by keys")


def look_at_debugger(page: Page) -> None:
    """Asks the debugger at a position of the run, which goes to where the answer leads."""
    it = page.it
    it.js("run.shown.go(2)")
    for command, answer in (("who tape", "cash 0 tape"), ("next", "at 4 a.0 print 1"), ("fly", "refused G4: ")):
        it.js(f"(document.querySelector('.answers').textContent = '', document.querySelector('.command').value = '{command}')")
        it.js("document.querySelector('.command').focus()")
        it.key("Enter")
        said = "document.querySelector('.answers').textContent"
        it.wait(f"{said}.includes('{answer}') && {said}")
    page.expect("an answer leads to another position", "run.shown.picks[run.shown.at]", 4)
    page.picture("wide-light-3-debugger")


def look_at_quiz(page: Page) -> None:
    """In a quiz nothing is shown of what comes later; large and dark are kept when the page is loaded anew."""
    it = page.it
    page.begin()
    it.wait(GOOD)
    for name in ("quiz", "large", "dark"):
        it.click(f"#{name}")
    page.open(2)
    page.expect("a quiz hides ways to end", "document.querySelectorAll('#goals li').length", 0)
    page.expect("a quiz hides what the banker will say", "document.querySelectorAll('#processes .why.yes').length", 0)
    page.picture("wide-dark-large-quiz")
    it.visit(f"http://127.0.0.1:{page.room.port}/", READY)
    page.expect("settings are kept", "[...document.documentElement.classList].sort().join()", "dark,large,quiz")
    it.js("document.activeElement.blur()")
    it.js("change('quiz')")
    page.open(2)
    it.wait("document.querySelectorAll('#goals li').length > 0")


def look_at_looks(page: Page) -> None:
    """Looks at contrast, names and sizes in each view, and at what sticks out of the window."""
    it = page.it
    for scheme in it.schemes:
        it.media(scheme)
        page.begin()
        it.wait(GOOD)
        for number in range(5):
            page.open(number)
            it.wait("!document.querySelector('progress')?.checkVisibility()")
            page.expect(f"contrast of view {number + 1}, {scheme}", CONTRAST, [])
            page.expect(f"names of view {number + 1}", NAMELESS, [])
            page.expect(f"sizes of view {number + 1}", SMALL, [])
            for size in SIZES:
                it.size(*size)
                is_within = "document.documentElement.scrollWidth <= innerWidth"
                page.expect(f"view {number + 1} sticks out at {size}, {scheme}", is_within)
                if size in (SIZES[1], SIZES[3]):
                    page.picture(f"{'phone' if size == SIZES[1] else 'wide'}-{scheme}-view{number + 1}")
            it.size(1280, 720)
    it.media("light")
    live = "[...document.querySelectorAll('[role=status], [role=alert], [aria-live]')].map((one) => one.id).filter(Boolean)"
    for name in ("happened", "ending", "verdict", "where", "waiting", "ends-said"):
        page.expect(f"{name} is read out", f"{live}.includes('{name}')")
    page.expect("the language of the page", "document.documentElement.lang", "en")
    page.expect("one heading of the first level", "document.querySelectorAll('h1').length", 1)


def look_at_documents(page: Page) -> None:
    """Opens all examples one after another: nothing of the one before is left."""
    page.begin()
    others = "then((found) => found.filter((it) => !it.endsWith('refused')))"
    page.expect("examples one after another", f"{ALL_EXAMPLES}.{others}", [])
    page.silent("all examples")


def look_at_links(page: Page) -> None:
    """Opens links with texts, long, odd and hostile ones."""
    it, base = page.it, f"http://127.0.0.1:{page.room.port}"
    page.begin()
    for text in ("process p begin print 1 end\n", "x" * 65_536, HOSTILE, "für\n"):
        link = it.js(f"toLink({json.dumps(text)}, {{}})")
        it.visit(f"{base}{link[link.index('/#'):]}", READY)
        it.wait(f"writing.text === {json.dumps(text)}")
        page.expect("the address is clean", "location.hash", "")
    bomb = it.js("""(async () => {
      const bytes = new Blob([new Uint8Array(5e7).fill(120)]).stream().pipeThrough(new CompressionStream("deflate-raw"));
      return toLetters(new Uint8Array(await new Response(bytes).arrayBuffer()));
    })()""")
    wild = ("t=!!!", "t=AAAA", "u=%FF", "x=../../etc", "x=02-lost-update&v=run", "v=constructor", "t=&u=", "a" * 50_000)
    for given in (f"t={bomb}", *wild):
        it.visit(f"{base}/#{given}", READY)
        page.expect(f"the link {given[:20]}", "view !== null && writing.text.length <= 65536")
    page.expect("nothing of a text is run", "window.hit ?? 0", 0)
    page.show(HOSTILE, GOOD)
    for number in (1, 2, 3, 0):
        page.open(number)
    page.expect("nothing of a text is run in a view", "window.hit ?? 0", 0)
    it.js("(() => { const one = h('script'); one.textContent = 'window.hit = 2'; document.body.append(one); })()")
    page.expect("the policy stops a script in the page", "window.hit ?? 0", 0)


def look_at_exercise(page: Page) -> None:
    """Hands in a wrong answer, steps through the run that shows it, and then a right one."""
    it = page.it
    page.begin("/#x=02-lost-update")
    it.wait("tasks.chosen?.name === '02-lost-update'")
    it.click("[data-key=judge]")
    it.wait("document.querySelector('.said .bad') !== null")
    hint = EXERCISES["02-lost-update"].hints["prints"]
    page.expect("the hint of the exercise", "document.querySelector('.said .hint').textContent", hint)
    page.picture("wide-light-5-wrong")
    it.click("[data-key=such]")
    it.wait("run.isOpen === true")
    it.js("run.shown.go(run.shown.rows.length)")
    page.expect("the run that shows it", "run.shown.events.map((one) => one.line).includes('p.0 print 1')")
    it.js(f"(open(writing), writing.show({json.dumps(EXERCISES['02-lost-update'].blocks['solution'])}))")
    it.click("[data-key=judge]")
    it.wait("document.querySelector('.said .good') !== null")
    page.open(4)
    page.expect("it is solved", "document.querySelectorAll('.tick[aria-label=solved]').length", 1)
    page.silent("an exercise")


def look_at_teacher(page: Page) -> None:
    """Looks at the teacher's list."""
    it = page.it
    it.visit(f"http://127.0.0.1:{page.room.port}/teacher#key={page.room.key}", "document.querySelector('.results') !== null")
    page.expect("who has solved it", "document.querySelectorAll('td.yes').length", 1)
    page.expect("the key is not in the address", "location.hash", "")
    page.expect("contrast of the list", CONTRAST, [])
    page.picture("wide-light-6-teacher")
    page.silent("the teacher's list")


def look_at_plain(page: Page) -> None:
    """Without CodeMirror there is a plain editor, with the same diagnostics and mends."""
    it = page.it
    it.call("Network.setBlockedURLs", urls=["*/editor/*"])
    page.begin()
    page.expect("there is no CodeMirror", "typeof CodeMirror", "undefined")
    it.wait(GOOD)
    page.show("process p begin x := 1 end", BAD)
    it.js("writing.mend()")
    page.expect("a mend", "writing.text", "process p begin integer x; x := 1 end")
    page.picture("wide-light-7-plain")


LOOKS = (
    look_at_editor, look_at_places, look_at_views, look_at_quiz, look_at_looks, look_at_documents, look_at_links,
    look_at_exercise, look_at_teacher, look_at_plain,
)


def main() -> None:
    tally, pictures = Tally(), Path(sys.argv[2]) if len(sys.argv) > 2 else None
    with tempfile.TemporaryDirectory(prefix="parbegin-class-page-") as name:
        room = ClassRoom(installed(Path(name) / "installed"), Path(name), "--names")
        room.start()
        browser = Browser()
        browser.size(1280, 720)
        page = Page(tally, room, browser, pictures)
        try:
            for look in LOOKS:
                look(page)
            tally.expect(room.end() == (DONE, b""), "the end of a class")
        finally:
            browser.close()
            room.kill()
    tally.end("class_page")


if __name__ == "__main__":
    main()
