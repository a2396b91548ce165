#!/usr/bin/env python3
"""Prints how long each wrong body of a crate takes, those that the gate tries and the others, and how it is refused.

    (cd crates/CRATE && rt check --jobs 1) && benches/edits.py CRATE [EDIT ..]

At the top of the repository. Each edit is tried as `rt ci` tries those of must-fail/, over a copy of what the check of the
crate without it left, one after the other. The time is that of the processors, with the kit's start of some 7 seconds. It
works by parts of the kit's `rt`, as `./parbegin` does, so another kit may need another script.
"""
import importlib.machinery
import importlib.util
import os
import resource
import shutil
import sys
import tempfile

RT = shutil.which("rt") or "/usr/local/bin/rt"


def kit():
    """Returns the kit's `rt` as a module, with the library that it is made of."""
    sys.path.insert(0, "/opt/rattle/bin")
    loader = importlib.machinery.SourceFileLoader("rt", RT)
    module = importlib.util.module_from_spec(importlib.util.spec_from_loader("rt", loader))
    loader.exec_module(module)
    module.rtlib.Crate = module.Crate
    return module


def used():
    """Returns the seconds of processors that the commands run so far took."""
    now = resource.getrusage(resource.RUSAGE_CHILDREN)
    return now.ru_utime + now.ru_stime


def edits_of(crate):
    """Returns the paths of all edits of the crate: the gate tries those of the first folder."""
    folders = f"{crate.folder}/must-fail", f"{os.getcwd()}/checks/wrong_bodies/{crate.name}"
    return [f"{it}/{name}" for it in folders if os.path.isdir(it) for name in sorted(os.listdir(it))]


def main(name, wanted):
    rt = kit()
    crate = next((it for it in rt.rtlib.crates_below(os.getcwd()) if it.name == name), None)
    if crate is None or not os.path.isdir(f"{crate.folder}/out/incremental"):
        sys.exit(f"{name}: no such crate below this folder, or it was not checked")
    edits = [it for it in edits_of(crate) if not wanted or os.path.basename(it).removesuffix(".edit") in wanted]
    took = 0
    for edit in edits:
        with tempfile.TemporaryDirectory(prefix="edits-") as room:
            rt.linked(f"{crate.folder}/out/incremental", f"{room}/kept")
            before = used()
            verdict, said = rt.must_fail(crate, edit, ["--jobs", "1"], f"{room}/kept")
            seconds = used() - before
        took += seconds
        print(f"{seconds:6.1f} {verdict}: {said.partition('/')[2][:150]}", flush=True)
    print(f"{took:6.1f} for {len(edits)} edits")


main(sys.argv[1], sys.argv[2:])
