"""`./parbegin page`: the page of a program, its run and all its schedules, one HTML file for a browser."""
from __future__ import annotations

import functools
import importlib.util
import os
import sys
from types import ModuleType

from script.files import opened
from script.helping import write_refusal
from script.options import WrongWords, read_options
from script.places import DEVICE, TOP, WORDS, is_installed, say, shown
from script.standard import write

# Where the template is: in a checkout, and under the prefix of install.sh.
TEMPLATE = f"{TOP}/../../share/parbegin/page" if is_installed() else f"{TOP}/extras/page"
USE = "parbegin page [--seed N] [--lend WHO] [--from POSITION] [--rows N] [--states N] FILE > page.html"
HELP = """Make a page of a program for a browser: one HTML file with a run and all schedules

Usage: parbegin page [OPTIONS] FILE > page.html

FILE has a text; or a text, a line %% and the picks of a run, as `record` writes it; or an object in the place of the text.

Options:
      --seed <N>         Draw the run of a text by this seed
      --lend <WHO>       Who decides on a request of the run: banker, or cash, by which it may end in a deadlock
                         [default: banker]
      --from <POSITION>  The first position of the run that the page has [default: 0]
      --rows <N>         The most picks of the run that the page has [default: 20000]
      --states <N>       Leave the schedules out if there are more configurations [default: 50000]
  -h, --help             Print help
"""


@functools.cache
def maker() -> ModuleType:
    """Returns the module beside the template that makes pages."""
    where = importlib.util.spec_from_file_location("make_page", f"{TEMPLATE}/make_page.py")
    module = importlib.util.module_from_spec(where)
    # (a dataclass looks its module up by name)
    sys.modules[where.name] = module
    where.loader.exec_module(module)
    return module


def call(start: list[str], words: list[str]) -> int:
    """Writes the page that the words ask for, or the refusal in its place, and returns the status."""
    pages = maker()
    given = read_options(words, pages.OPTIONS)
    if len(given.others) != 1:
        raise WrongWords(f"page reads one file, and here are {len(given.others) or 'none'}")
    name = given.others[0]
    options = pages.Options(**{pages.OPTIONS[option]: value for option, value in given.options.items()})
    file = opened(name)
    if file is None:
        return DEVICE
    with file:
        text = file.read()
    try:
        made = pages.make_page(start, shown(os.path.basename(name)), text, options)
    except pages.Refusal as refusal:
        return write_refusal(refusal.said, b"") if refusal.status == WORDS else write(refusal.said) or refusal.status
    if '"more_than":' in made and "--quiet" not in start:
        say(f"there are more than {options.states} configurations, so schedules are left out: --states N allows N")
    # (it says itself that it is UTF-8)
    return write(made.encode(errors="replace"))
