"""The picks of a run, and which of them an arm made."""
from __future__ import annotations

from bisect import bisect_right


class Picks:
    """A list of picks, as runs of one arm, to which further picks can be added."""

    def __init__(self, lines: list[str]) -> None:
        self.starts: list[int] = []
        self.arms: list[str] = []
        self.total = 0
        for line in lines:
            arm, count = line.split(" ")
            self.add(arm, int(count))

    def add(self, arm: str, count: int = 1) -> None:
        """Adds picks of an arm."""
        if not self.arms or self.arms[-1] != arm:
            self.starts.append(self.total)
            self.arms.append(arm)
        self.total += count

    def arm_of(self, pick: int) -> str:
        """Returns the arm that made the pick with this number, from 0."""
        return self.arms[bisect_right(self.starts, pick) - 1]

    def end_of(self, run: int) -> int:
        """Returns the number of the first pick after a run of one arm."""
        return self.starts[run + 1] if run + 1 < len(self.starts) else self.total

    def first(self, count: int) -> Picks:
        """Returns the first picks, as many as are asked for."""
        found = Picks([])
        for run, (start, arm) in enumerate(zip(self.starts, self.arms)):
            if start < count:
                found.add(arm, min(self.end_of(run), count) - start)
        return found

    def lines(self) -> list[str]:
        """Returns the pick lines."""
        return [f"{arm} {self.end_of(run) - self.starts[run]}" for run, arm in enumerate(self.arms)]
