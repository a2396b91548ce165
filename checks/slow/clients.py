#!/usr/bin/env python3
"""Starts `parbegin lsp` from Neovim and from Emacs, and checks that diagnostics come and go there.

    checks/slow/clients.py [PROGRAM]     PROGRAM is the one that ./parbegin has built if none is given

checks/clients has what each editor does. An editor that is not there is left out, and named. The status is 0 if all is as
wanted, and 1 if not.
"""
from __future__ import annotations

import os
import shutil
import subprocess
import sys
from pathlib import Path

sys.path.insert(0, str(Path(__file__).resolve().parents[1] / "lib"))

from calls import TOP, program  # noqa: E402

HERE = TOP / "checks/clients"
EDITORS = {
    "nvim": ["nvim", "--headless", "-n", "-u", str(HERE / "neovim.lua"), str(HERE / "refused.pb")],
    "emacs": ["emacs", "--batch", "-l", str(HERE / "eglot.el"), str(HERE / "refused.pb")],
}


def main() -> int:
    environment = {**os.environ, "PARBEGIN": program()}
    wrong = 0
    for name, call in EDITORS.items():
        if not shutil.which(name):
            print(f"{name} is not there")
            continue
        ran = subprocess.run(call, env=environment, stdout=subprocess.PIPE, stderr=subprocess.STDOUT, timeout=120, check=False)
        print("\n".join(f"{name}: {line}" for line in ran.stdout.decode().splitlines() if line[:5] in ("ok   ", "WRONG")))
        if ran.returncode:
            wrong += 1
            print(f"{name} ended with status {ran.returncode}")
    return 1 if wrong else 0


sys.exit(main())
