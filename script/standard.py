"""Standard input and output: one that is closed, and a write that fails."""
from __future__ import annotations

import os
import sys
from collections.abc import Callable

from script.places import DEVICE, say

# In the place of each standard file that is closed a file is opened whose reads or writes fail likewise.
CLOSED = ((0, os.O_WRONLY), (1, os.O_RDONLY), (2, os.O_RDONLY))


def hold_numbers() -> None:
    """Holds the numbers of standard files that are closed, so that no file that is opened later gets one of them."""
    for number, how in CLOSED:
        try:
            os.fstat(number)
        except OSError:
            # (the lowest number that is free is this one)
            os.set_inheritable(os.open(os.devnull, how), True)
    if sys.stdout is None:
        sys.stdout = open(1, "w", encoding="utf-8", errors="surrogateescape")


def drop_output(fault: OSError) -> int:
    """Says that a write to standard output failed, and returns the status. Python writes nothing more when it ends."""
    # (whoever reads no further, as `head`, has what it wants)
    if not isinstance(fault, BrokenPipeError):
        say(f"standard output: {fault.strerror}")
    os.dup2(os.open(os.devnull, os.O_WRONLY), 1)
    return DEVICE


def write(text: str | bytes) -> int:
    """Writes to standard output, and returns the status."""
    try:
        if isinstance(text, bytes):
            sys.stdout.flush()
            sys.stdout.buffer.write(text)
        else:
            sys.stdout.write(text)
        sys.stdout.flush()
    except OSError as fault:
        return drop_output(fault)
    return 0


def ended(call: Callable[[list[str]], int], words: list[str]) -> int:
    """Makes a call with its words, and returns its status, also if what it reads or writes fails on the way."""
    hold_numbers()
    try:
        status: object = call(words)
    except SystemExit as end:
        status = end.code
    except BrokenPipeError as fault:
        status = drop_output(fault)
    except OSError as fault:
        if fault.filename is None:
            status = drop_output(fault)
        else:
            say(f"{os.fsdecode(fault.filename)}: {fault.strerror}")
            status = DEVICE
    # (what is left to be written may fail too)
    return write("") or (status if isinstance(status, int) else 0)
