"""The names of a program and the source lines of its arms, from its object as `emit` writes it in the second format."""
from __future__ import annotations

from dataclasses import dataclass, field

@dataclass
class Process:
    """A process: its name, its integers, the place at which each arm begins, and the source line of each place, 0 for none."""

    name: str
    integers: list[str] = field(default_factory=list)
    entries: list[int] = field(default_factory=list)
    lines: list[int] = field(default_factory=list)

    def arms(self) -> list[str]:
        """Returns the names of all arms."""
        return [f"{self.name}.{number}" for number in range(len(self.entries))]


@dataclass
class Code:
    """The resources of a program, each with its capital, and its processes."""

    resources: dict[str, int] = field(default_factory=dict)
    processes: dict[str, Process] = field(default_factory=dict)


def arms_at(code: Code, line: int) -> list[str]:
    """Returns the arms of which some place has this source line."""
    found = []
    for process in code.processes.values():
        ends = [*process.entries[1:], len(process.lines)]
        for number, (first, end) in enumerate(zip(process.entries, ends)):
            if line in process.lines[first:end]:
                found.append(f"{process.name}.{number}")
    return found


def read_code(text: str) -> Code:
    """Reads an object in the second format, as the program writes it."""
    code, process = Code(), Process("")
    for line in text.splitlines():
        word, *rest = line.split()
        if word == "resource":
            code.resources[rest[0]] = int(rest[1])
        elif word == "process":
            process = code.processes[rest[0]] = Process(rest[0])
        elif word == "vars":
            process.integers = rest[1:]
        elif word == "arm":
            process.entries.append(int(rest[0]))
        elif word.isdigit():
            process.lines.append(int(word))
    return code
