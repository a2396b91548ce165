#!/usr/bin/env python3
"""Refuses each request for memory of the built program in turn, in each kind of call.

    checks/slow/refused_memory.py [PROGRAM]     PROGRAM is the one that ./parbegin has built if none is given

A call is repeated with its first, second and each next request refused, until it makes no request that was not refused
already. Each answer must be out of memory (status 5, the lines of a first part of the whole answer, and `memory`), or,
if the program can do with less, the whole answer with its status. If threads are wanted, by more than one worker, and
the C library is refused what it wants for one, the answer is `threads` with status 7. Of more than one worker the order
of the lines may differ, and a run goes on with the other workers if one is out of memory; so what `record` then writes
must be replayed to its end.

It is run by hand on Linux with a C compiler; its status is 0 if all is as wanted, and 1 if not.
"""
import collections
import concurrent.futures
import os
import sys
import tempfile
from pathlib import Path

sys.path.insert(0, str(Path(__file__).resolve().parents[1] / "lib"))

from calls import (  # noqa: E402
    BANKS, DONE, EXAMPLES, MEMORY, THREADS, Tally, call, debugged, first_object_of, first_process, object_of, preload, program,
    recorded,
)
from texts import LIMITS, many  # noqa: E402

# A request is refused if its number, counted over all threads, is REFUSED; the file REFUSAL is made then.
SOURCE = """
#define _GNU_SOURCE
#include <dlfcn.h>
#include <fcntl.h>
#include <stdatomic.h>
#include <stdlib.h>
#include <unistd.h>

static int is_refused(void) {
    static atomic_long requests;
    const char *number = getenv("REFUSED");
    const char *refusal = getenv("REFUSAL");
    long mine = ++requests;
    if (!number || !refusal || mine != atol(number))
        return 0;
    close(open(refusal, O_CREAT | O_WRONLY, 0600));
    return 1;
}

void *malloc(size_t size) {
    void *(*made)(size_t) = (void *(*)(size_t))dlsym(RTLD_NEXT, "malloc");
    return is_refused() ? NULL : made(size);
}

void *realloc(void *old, size_t size) {
    void *(*made)(void *, size_t) = (void *(*)(void *, size_t))dlsym(RTLD_NEXT, "realloc");
    return is_refused() ? NULL : made(old, size);
}

void *aligned_alloc(size_t alignment, size_t size) {
    void *(*made)(size_t, size_t) = (void *(*)(size_t, size_t))dlsym(RTLD_NEXT, "aligned_alloc");
    return is_refused() ? NULL : made(alignment, size);
}

int posix_memalign(void **made_at, size_t alignment, size_t size) {
    int (*made)(void **, size_t, size_t) = (int (*)(void **, size_t, size_t))dlsym(RTLD_NEXT, "posix_memalign");
    return is_refused() ? 12 : made(made_at, alignment, size);
}
"""
NESTED = b"resource r = 6; process p begin " + b"hold 1 of r do " * 6 + b"print 1" + b" od" * 6 + b" end\n"
PRINTING = (b"process p begin integer i; while i < 6 do "
            b"parbegin print 1; print 2 parend; i := i + 1 od end\n")
DEVICES = next(file for file in EXAMPLES if file.name == "devices.pb").read_bytes()
LARGEST = max((file.read_bytes() for file in EXAMPLES), key=len)
TEXTS = {"nested holds": NESTED, "a loop of two arms that print": PRINTING, "tape and disk": DEVICES,
         "the largest example": LARGEST}
ON_TEXTS = [["check"], ["check", "--heap", "1048576"], ["claims"], ["plan"], ["emit"], ["emit", "--object", "1"],
            ["run", "--workers", "1"], ["run", "--workers", "1", "--quantum", "1"], ["run", "--workers", "4"],
            ["record"], ["record", "--seed", "7"], ["record", "--seed", "7", "--lend", "cash"],
            ["record", "--workers", "4", "--quantum", "1"]]
# With the name of a process in place of P.
PICKING = b"to 1\npick P.0\nback 1\nstep 1\n"


class Refusing:
    """Calls of the program with one request refused."""

    def __init__(self):
        self.library = preload(SOURCE)
        self.folder = tempfile.mkdtemp(prefix="parbegin-checks-")

    def call(self, words, given, number):
        """Returns the status, what was written, and whether the request with this number was made."""
        mark = f"{self.folder}/{os.getpid()}-{id(given)}-{number}"
        status, said = call(words, given, {"LD_PRELOAD": self.library, "REFUSED": str(number), "REFUSAL": mark})
        was_made = os.path.exists(mark)
        if was_made:
            os.unlink(mark)
        return status, said, was_made


def is_part(lines, whole):
    """Whether each of the lines is one of the whole answer, as often at most."""
    return not collections.Counter(lines) - collections.Counter(whole)


def is_out_of_memory(status, said, whole, is_one):
    """Whether the answer is some lines of the whole one, the first if one worker makes them, and `memory`; or, if threads
    were asked for, says that one was not started, for which the C library wants memory too."""
    if (status, said) == (THREADS, b"threads\n"):
        return not is_one
    lines, wanted = said.splitlines(), whole.splitlines()
    if status != MEMORY or lines[-1:] != [b"memory"]:
        return False
    return wanted[: len(lines) - 1] == lines[:-1] if is_one else is_part(lines[:-1], wanted)


def is_whole(words, status, said, wanted, is_one):
    """Whether this is the whole answer: of several workers the lines in some order, or, if picks were recorded, ones that
    `replay` makes to their end."""
    if is_one or status != wanted[0]:
        return (status, said) == wanted
    if words[0] == "record":
        replayed, lines = call(["replay"], said)
        return replayed == wanted[0] and lines.splitlines()[-1:] == [b"done"]
    return sorted(said.splitlines()) == sorted(wanted[1].splitlines())


def refuse_each(tally, refusing, pool, name, words, given):
    """Refuses each request of a call in turn."""
    status, whole, _ = refusing.call(words, given, 0)
    is_one = "--workers" not in words or words[words.index("--workers") + 1] == "1"
    number, out_of_memory = 1, 0
    while True:
        # Eight numbers at a time: past the last request of a call every number is one that is not made.
        several = list(pool.map(lambda it: refusing.call(words, given, it), range(number, number + 8)))
        for at, (got, said, _) in enumerate(several):
            is_refused = is_out_of_memory(got, said, whole, is_one)
            tally.expect(is_refused or is_whole(words, got, said, (status, whole), is_one), name, words, "request", number + at,
                         got, said[-80:])
            out_of_memory += is_refused
        made = sum(was_made for _, _, was_made in several)
        number += made
        if made < len(several):
            break
    print(f"{' '.join(words)}: {name}: {number - 1} requests, {out_of_memory} times out of memory", flush=True)


def cases():
    """Yields what is called, and on what."""
    for name, text in TEXTS.items():
        for words in ON_TEXTS:
            if words != ["emit", "--object", "1"] or call(words, text)[0] == DONE:
                yield name, words, text
        for workers in ("1", "4"):
            yield name, ["exec", "--workers", workers], object_of(text)
        yield name, ["migrate"], first_object_of(text)
        yield name, ["outcomes"], text
        yield name, ["outcomes", "--lend", "cash"], text
        yield name, ["outcomes", "--prints", "--states", "2000"], text
        yield name, ["outcomes", "--expect", "--any-order", "--states", "2000"], text + b"\n%%\n" + first_process(text) + b".0 print 1\n"
        yield name, ["outcomes", "--graph", "--states", "2000"], text
        yield name, ["outcomes", "--run", "1"], text
        yield name, ["replay"], recorded(text)
        yield name, ["draw"], recorded(text)
        started = text + (b"%%\nP.0 1\n%%\n" + PICKING).replace(b"P", first_process(text))
        for given in (debugged(text), started):
            yield name, ["debug"], given
            yield name, ["debug", "--live"], given
    for file in BANKS:
        yield file.name, ["bank"], file.read_bytes()
    for kind, most in LIMITS.items():
        for words in (["check"], ["claims"], ["emit"], ["run"], ["outcomes", "--states", "100"]):
            yield f"{most} {kind}", words, many(kind, most)
    yield "one of too many integers", ["check"], many("integers", LIMITS["integers"] + 1)


def main():
    program()
    tally, refusing = Tally(), Refusing()
    with concurrent.futures.ThreadPoolExecutor(os.cpu_count()) as pool:
        for name, words, given in cases():
            refuse_each(tally, refusing, pool, name, words, given)
    tally.end("refused memory")


main()
