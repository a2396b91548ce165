#!/usr/bin/env python3
"""Fails each read and each write of the built program in turn, and calls it with devices that do not work.

    checks/slow/devices.py [PROGRAM]     PROGRAM is the one that ./parbegin has built if none is given

It is run by hand on Linux and needs a C compiler: LD_PRELOAD puts `read` and `write` before those of the C library. A
failed read must give status 6 and no byte, or in `bank` and `debug --live` the answers so far; a failed write status 6,
the first part of what is written if none fails, and no write after it. An output that takes one byte a call, and an
input that gives one, change nothing. The status of this script is 0 if all is as wanted, and 1 if not.
"""
import os
import subprocess
import sys
import tempfile
from pathlib import Path

sys.path.insert(0, str(Path(__file__).resolve().parents[1] / "lib"))

from calls import DEVICE, EXAMPLES, TOP, Tally, call, inputs, preload, program  # noqa: E402

SHIM = r"""
#define _GNU_SOURCE
#include <dlfcn.h>
#include <errno.h>
#include <fcntl.h>
#include <stdio.h>
#include <stdlib.h>
#include <unistd.h>

static long reads, writes, after;

static long number(const char *name) { const char *text = getenv(name); return text ? atol(text) : 0; }

/* Writes to the file FAILED how many writes came after the call that failed. */
static void tell(void) {
    char line[32];
    int file = open(getenv("FAILED"), O_CREAT | O_TRUNC | O_WRONLY, 0600);
    int length = snprintf(line, sizeof line, "%ld", after);
    ssize_t (*made)(int, const void *, size_t) = (ssize_t (*)(int, const void *, size_t))dlsym(RTLD_NEXT, "write");
    if (made(file, line, length) != length) abort();
    close(file);
}

ssize_t read(int file, void *to, size_t count) {
    ssize_t (*made)(int, void *, size_t) = (ssize_t (*)(int, void *, size_t))dlsym(RTLD_NEXT, "read");
    if (file != 0) return made(file, to, count);
    if (++reads == number("FAIL_READ")) { tell(); errno = EIO; return -1; }
    return made(file, to, number("ONE_BYTE") && count > 1 ? 1 : count);
}

ssize_t write(int file, const void *from, size_t count) {
    ssize_t (*made)(int, const void *, size_t) = (ssize_t (*)(int, const void *, size_t))dlsym(RTLD_NEXT, "write");
    long failing = number("FAIL_WRITE");
    if (file != 1) return made(file, from, count);
    if (++writes == failing) { tell(); errno = EIO; return -1; }
    if (failing && writes > failing) { after++; tell(); }
    return made(file, from, number("ONE_BYTE") && count > 1 ? 1 : count);
}

ssize_t __write(int file, const void *from, size_t count) { return write(file, from, count); }
"""


def fail_each(tally, shim, name, words, given, kind, whole):
    """Fails each call of a kind in turn until there are no more, and returns how many there were."""
    with tempfile.TemporaryDirectory() as folder:
        number = 0
        while True:
            number += 1
            failed = f"{folder}/failed"
            environment = {"LD_PRELOAD": shim, f"FAIL_{kind}": str(number), "FAILED": failed}
            answer = call(words, given, environment)
            if not os.path.exists(failed):
                tally.expect(answer == whole, name, "no call failed", answer)
                return number - 1
            with open(failed, encoding="utf-8") as file:
                after = int(file.read())
            os.remove(failed)
            status, said = answer
            is_first_part = whole[1].startswith(said) and (said != whole[1] or kind == "READ") and after == 0
            answers_as_it_reads = "--live" in words or words in (["bank"], ["dap"], ["lsp"])
            is_right = is_first_part if kind == "WRITE" or answers_as_it_reads else said == b""
            tally.expect(status == DEVICE and is_right, name, kind, number, status, said[:60], after)


def broken_devices(tally):
    """Calls the program with devices that do not work from the start."""
    text = (TOP / "examples/hello.pb").read_bytes()
    words = [program(["run"]), "run"]
    for name, how in {
        "a full output": {"input": text, "stdout": open("/dev/full", "wb")},
        "a closed output": {"input": text, "preexec_fn": lambda: os.close(1)},
        "a closed input": {"preexec_fn": lambda: os.close(0)},
        "a directory as input": {"stdin": os.open(TOP, os.O_RDONLY)},
    }.items():
        ran = subprocess.run(words, stderr=subprocess.DEVNULL, check=False, **how)
        tally.expect(ran.returncode == DEVICE, name, ran.returncode)
    reader, writer = os.pipe()
    os.close(reader)
    ran = subprocess.run(words, input=text, stdout=writer, stderr=subprocess.DEVNULL, check=False)
    tally.expect(ran.returncode == DEVICE, "a pipe without a reader", ran.returncode)


def main():
    tally, shim = Tally(), preload(SHIM)
    reads = writes = calls = 0
    for name, words, given in inputs():
        whole = call(words, given)
        calls += 1
        reads += fail_each(tally, shim, name, words, given, "READ", whole)
        writes += fail_each(tally, shim, name, words, given, "WRITE", whole)
        answer = call(words, given, {"LD_PRELOAD": shim, "ONE_BYTE": "1"})
        tally.expect(answer == whole, name, "one byte a call", answer[0])
    broken_devices(tally)
    print(f"{calls} calls over {len(EXAMPLES)} examples and a text of many prints; {reads} reads and {writes} writes failed")
    tally.end("devices")


main()
