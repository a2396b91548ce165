"""Plans of texts, as values: what `plan` says of them."""
from __future__ import annotations

import re
from collections.abc import Sequence
from typing import NamedTuple

# The lines of a plan. (Names have no digit in front, so none is taken for an amount.)
CLAIM_LINE = re.compile(r"(\w+)(?: of text (\d+))? claim (\d+) (\w+)(?: lines ([\d ]+))?")
NEED_LINE = re.compile(r"(\w+) capital (\d+) least (\d+) free (\d+)")
NEST_LINE = re.compile(r"(\w+)(?: of text (\d+))? holds (\w+) line (\d+) around (\w+) line (\d+)")


class Claim(NamedTuple):
    """The most that a process may hold of a resource, and the lines of the holds that make it up.

    `text` is the number of the text of the process, from 1.
    """

    process: str
    text: int
    resource: str
    amount: int
    lines: tuple[int, ...]


class Need(NamedTuple):
    """The capital of a resource; the greatest claim on it, `least`; and the sum of all claims, `free`."""

    resource: str
    capital: int
    least: int
    free: int


class Nest(NamedTuple):
    """A hold of a resource inside a hold of another one, with their lines."""

    process: str
    text: int
    outer: str
    outer_line: int
    inner: str
    inner_line: int


class Plan(NamedTuple):
    """What `plan` says of texts whose processes run beside one another.

    `bottleneck` is the resource of which most is lacking, or None if no request ever waits. `order` is an order of the
    resources that every process follows, or of those alone of which there is less than `free`, so that even the cash alone
    cannot deadlock; or None if there is none, and then `circle` has nested holds of such resources that make a circle.
    """

    claims: list[Claim]
    needs: list[Need]
    bottleneck: str | None
    order: list[str] | None
    circle: list[Nest]

    @property
    def fits(self) -> bool:
        """Whether the capital is enough for every claim, as it must be for a program that is to run."""
        return all(need.least <= need.capital for need in self.needs)


def read_plan(lines: Sequence[str]) -> Plan:
    """Reads the lines of a plan."""
    claimed = [it.groups() for it in map(CLAIM_LINE.fullmatch, lines) if it]
    needed = [it.groups() for it in map(NEED_LINE.fullmatch, lines) if it]
    nested = [it.groups() for it in map(NEST_LINE.fullmatch, lines) if it]
    bottleneck, order = lines[len(claimed) + len(needed) :][:2]
    return Plan(
        [Claim(p, int(n or 1), r, int(k), tuple(map(int, (at or "").split()))) for p, n, k, r, at in claimed],
        [Need(r, int(capital), int(least), int(free)) for r, capital, least, free in needed],
        None if bottleneck == "no request waits" else bottleneck.split()[1],
        None if order == "no order" else order.split()[1:],
        [Nest(p, int(n or 1), outer, int(at), inner, int(inside)) for p, n, outer, at, inner, inside in nested],
    )
