#!/usr/bin/env python3
"""Looks whether each wrong body can be applied to today's sources, without the prover.

    checks/quick/wrong_bodies_apply.py

Each old text of an edit stands exactly once in its file, in crates/*/must-fail and in checks/wrong_bodies; each folder of
the latter is named as a crate; no name is in both folders of a crate; and checks/wrong_bodies/TRIED names crates that
have wrong bodies. It writes a line for each that is not so. The status is 0 if all is so, and 1 if not.
"""
from __future__ import annotations

import sys
from collections.abc import Iterator
from pathlib import Path

sys.path.insert(0, str(Path(__file__).resolve().parents[1] / "lib"))

from bodies import MOVED, NAME, crates, fault_of, others_of, read_record, sources_of, tried_by_the_gate  # noqa: E402


def faults_of(crate: str) -> Iterator[str]:
    """Yields what is wrong with the wrong bodies of a crate."""
    gate, others, sources = tried_by_the_gate(crate), others_of(crate), sources_of(crate)
    yield from (f"{others[name]}: crates/{crate}/must-fail has the same name" for name in others if name in gate)
    for edit in (*gate.values(), *others.values()):
        if not NAME.fullmatch(edit.name):
            yield f"{edit}: a name is of letters, digits, `_`, `-` and `.`"
        fault = fault_of(edit.read_text(encoding="utf-8"), sources)
        if fault:
            yield f"{edit}: {fault}"


def strangers(known: list[str]) -> Iterator[str]:
    """Yields what of checks/wrong_bodies belongs to no crate with wrong bodies."""
    for folder in sorted(it for it in MOVED.iterdir() if it.is_dir()):
        if folder.name not in known:
            yield f"{folder}: no crate has this name"
        yield from (f"{it}: it is no edit" for it in sorted(folder.iterdir()) if it.suffix != ".edit")
    for crate in read_record():
        if crate not in known or not {**tried_by_the_gate(crate), **others_of(crate)}:
            yield f"{MOVED / 'TRIED'}: no crate {crate} has wrong bodies"


def main() -> int:
    known = crates()
    faults = [fault for crate in known for fault in faults_of(crate)] + list(strangers(known))
    for fault in faults:
        print(fault)
    count = sum(len(tried_by_the_gate(it)) + len(others_of(it)) for it in known)
    print(f"{count} wrong bodies, {len(faults)} faults")
    return 1 if faults else 0


if __name__ == "__main__":
    sys.exit(main())
