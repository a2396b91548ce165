"""Calls of the program side by side."""
from __future__ import annotations

import os
import signal
from collections.abc import Iterator
from concurrent.futures import Executor, ThreadPoolExecutor
from contextlib import contextmanager, suppress


def end_calls() -> None:
    """Ends the calls that are being made: whoever stops the script by its number alone does not stop them."""
    for task in os.listdir("/proc/self/task"):
        # (a thread may have ended meanwhile, or a call)
        with suppress(OSError), open(f"/proc/self/task/{task}/children", encoding="ascii") as children:
            for process in children.read().split():
                with suppress(ProcessLookupError):
                    os.kill(int(process), signal.SIGTERM)


@contextmanager
def workers(jobs: int) -> Iterator[Executor]:
    """Gives threads that make calls; if an interrupt or a fault ends the work, calls end too, or are not begun."""
    with ThreadPoolExecutor(jobs) as pool:
        try:
            yield pool
        except BaseException:
            pool.shutdown(wait=False, cancel_futures=True)
            end_calls()
            raise
