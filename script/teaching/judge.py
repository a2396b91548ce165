"""Whether a text does what an exercise asks, under every schedule. All that is known of a text is what the program says of it.

A judge makes no call: it yields each that it needs, and is sent what the program says, so that the server of a class and
`grade` judge by the same steps.
"""
from __future__ import annotations

from collections.abc import Generator
from dataclasses import dataclass, field, replace
from typing import Any

from script.places import LIMIT, REFUSED, UNEXPECTED
from script.teaching.calls import Call, Said, call_here
from script.teaching.exercises import Asked

# How often the picks of a run that never ends go round, and the most that is told of one thing.
ROUNDS, MOST_TOLD = 3, 12
RIGHT = "Right, under every schedule."
FAULTY = {
    "prints": "Some schedule prints something else.", "fault": "Some schedule ends in a fault.",
    "deadlock": "Some schedule ends in a deadlock.", "endless": "Some schedule never ends.",
}
FAIRLY = "Some schedule never ends, although it is fair: no arm that could go on is passed over for ever."
TOO_LONG = "This could not be judged: the search took too long or too much memory. Fewer loops or arms make it smaller."
TOO_MANY = "This could not be judged: the program has more than {limit} {of}. Does a loop never end, or count up for ever?"
# What an exercise calls an instruction.
SIGNS = {"fork": "parbegin", "add": "+", "sub": "-", "mul": "*", "take": "hold", "store": ":="}


@dataclass(frozen=True)
class Verdict:
    """Whether a text does what is asked; if not, what is wrong, in a word and in words, and picks that show it."""

    kind: str
    said: str
    more: list[str] = field(default_factory=list)
    picks: str = ""
    lend: str = "banker"
    hint: str = ""

    @property
    def right(self) -> bool:
        """Returns whether the text does what is asked."""
        return self.kind == "right"

    @property
    def status(self) -> int:
        """Returns the status of a call that has this verdict."""
        return {"right": 0, "refused": REFUSED, "names": REFUSED, "limit": LIMIT}.get(self.kind, UNEXPECTED)

    def shown(self) -> dict[str, object]:
        """Returns the verdict for a page."""
        return {"right": self.right, "kind": self.kind, "said": self.said, "more": self.more, "picks": self.picks,
                "lend": self.lend, "hint": self.hint}


class NotKnown(Exception):
    """A verdict that a limit makes."""

    def __init__(self, said: str) -> None:
        super().__init__(said)
        self.verdict = Verdict("limit", said)


Step = Generator[Call, Said, "Verdict | None"]


def pick_lines(picks: list[dict[str, Any]]) -> str:
    """Returns picks as pick lines."""
    return "".join(f"{it['process']}.{it['arm']} {it['count']}\n" for it in picks)


def listed(words: list[str]) -> str:
    """Returns "a", "a and b", "a, b and c"."""
    return " and ".join([", ".join(words[:-1]), words[-1]] if len(words) > 1 else words)


def printed(end: dict[str, Any]) -> str:
    """Returns what was printed, in words."""
    return f"It printed {', '.join(str(it['value']) for it in end['prints'][:40]) or 'nothing'}."


def told(end: dict[str, Any]) -> list[str]:
    """Returns an outcome or a deadlock in words."""
    lines = []
    faulted = [it["process"] for it in end["processes"] if it["kind"] == "faulted"]
    if faulted:
        lines.append(f"{listed(faulted)} faulted.")
    if end["integers"]:
        integers = [f"{it['process']}.{it['integer']} = {it['value']}" for it in end["integers"]]
        lines.append(f"At its end {listed(integers[:MOST_TOLD])}.")
    for it in end["asks"]:
        holds = [f"{one['amount']} {one['resource']}" for one in end["holds"] if one["process"] == it["process"]]
        asked = listed([f"{one['amount']} {one['resource']}" for one in it["amounts"]])
        lines.append(f"{it['process']} holds {listed(holds) or 'nothing'} and asks for {asked}.")
    return lines


class Judge:
    """Judges one text by the rules of one exercise."""

    def __init__(self, exercise: Asked, text: bytes) -> None:
        self.exercise, self.rules = exercise, exercise.rules
        self.text = text if text.endswith(b"\n") else text + b"\n"
        self.lend = exercise.options.get("--lend", "banker")
        self.praise: list[str] = []

    def judge(self) -> Generator[Call, Said, Verdict]:
        """Goes through the rules; the first that does not hold is told."""
        try:
            verdict = yield from self.verdict()
        except NotKnown as it:
            verdict = it.verdict
        hint = self.exercise.hints.get(verdict.kind, "")
        return replace(verdict, hint=hint) if hint else verdict

    def verdict(self) -> Generator[Call, Said, Verdict]:
        """Returns the verdict, without a hint."""
        if b"%%" in self.text.split(b"\n"):
            return Verdict("refused", "It has a line %%, and an answer is one text.")
        said = yield Call(["--json", "check"], self.text)
        first, wanted = (said.lines() or [{"kind": "memory"}])[0], self.rules.refused
        if first["kind"] == "refused":
            message = [line for line in said.told.split("\n")[:1] if line]
            if first["code"] == wanted:
                return Verdict("right", f"It is refused with {wanted}, as wanted.", message)
            return Verdict("refused", f"The text is refused: {first['code']}.", message)
        if wanted:
            return Verdict("accepted", f"The text is accepted, and should be refused with {wanted}.")
        for step in (self.plan, self.code, self.prints, self.ends, self.outcomes, self.orders, self.by_cash):
            fault = yield from step()
            if fault:
                return fault
        return Verdict("right", RIGHT, self.praise)

    def lines(self, words: list[str], after: str | None = None) -> Generator[Call, Said, list[dict[str, Any]]]:
        """Returns the JSON lines of a call, or raises that it could not be known."""
        given = self.text if after is None else self.text + f"%%\n{after}".encode()
        said = yield Call(["--json", *words], given)
        if said.stopped:
            raise NotKnown(TOO_LONG)
        lines = said.lines()
        if lines and lines[-1]["kind"] == "others" and lines[-1]["of"] != "deadlocks":
            of = "configurations" if lines[-1]["of"] == "fair runs" else lines[-1]["of"]
            raise NotKnown(TOO_MANY.format(limit=lines[-1]["limit"], of=of))
        return lines

    def search(self, *words: str, lend: str | None = None) -> list[str]:
        """Returns the words of a search."""
        states = ["--states", self.exercise.options["--states"]] if "--states" in self.exercise.options else []
        return ["outcomes", *states, "--lend", lend or self.lend, *words]

    def plan(self) -> Step:
        """Looks at capitals and claims."""
        if not self.rules.capitals and not self.rules.claims:
            return None
        lines = yield from self.lines(["plan"])
        capitals = {it["resource"]: it["capital"] for it in lines if it["kind"] == "resource"}
        claims = {(it["process"], it["resource"]): it["claim"] for it in lines if it["kind"] == "claim"}
        for name, capital in self.rules.capitals.items():
            if capitals.get(name) != capital:
                return Verdict("capital", f"There has to be: resource {name} = {capital};")
        for process, resource, amount in self.rules.claims:
            claim = claims.get((process, resource), 0)
            if claim < amount:
                said = f"The process {process} has to hold {amount} of {resource} at some time: it claims {claim}."
                return Verdict("claim", said)
        return None

    def code(self) -> Step:
        """Counts instructions of the object."""
        if not self.rules.code:
            return None
        said = yield Call(["emit"], self.text)
        counts: dict[tuple[str, str], int] = {}
        process = ""
        for words in (line.split(" ") for line in said.out.decode().splitlines()):
            if words[0] == "process":
                process = words[1]
            elif words[0].isdigit():
                counts[process, words[1]] = counts.get((process, words[1]), 0) + 1
        for process, word, count in self.rules.code:
            there = counts.get((process, word), 0)
            if there < count:
                wanted = f"The process {process} has to have {SIGNS.get(word, word)} {count} times at least."
                return Verdict("code", wanted, [f"It has it {there} times."])
        return None

    def prints(self) -> Step:
        """Compares all runs with the wanted prints: the program does."""
        if "prints" not in self.exercise.blocks:
            return None
        wanted, flags = self.exercise.blocks["prints"], [it for it in ("--any-order", "--fair") if it in self.exercise.options]
        lines = yield from self.lines(self.search("--expect", *flags), wanted)
        last = lines[-1]
        if last["kind"] == "as expected":
            return None
        if last["kind"] == "refused":
            lines_wanted = f"Wanted: {'; '.join(wanted.splitlines()[:6])}"
            return Verdict("names", "A process or an arm that has to print is not there.", [lines_wanted])
        if len(lines) > 1:
            numbers = [line.split()[-1] for line in wanted.splitlines() if " print " in line]
            kind = {"other prints": "prints", "a fault": "fault", "a deadlock": "deadlock"}[last["text"]]
            more = [*told(lines[-2]), printed(lines[-2]), f"Wanted: {', '.join(numbers) or 'nothing'}."]
            return Verdict(kind, FAULTY[kind], more, pick_lines(lines[-2]["picks"]), self.lend)
        if last["text"].endswith(" does not end"):
            return (yield from self.endless("--fair" in flags))
        return Verdict("required", f"The text has not what is asked for: {last['text']}.")

    def all(self, *words: str) -> Generator[Call, Said, tuple[list[dict[str, Any]], dict[str, Any]]]:
        """Returns all outcomes, and the last line."""
        lines = yield from self.lines(self.search(*words))
        return [it for it in lines if it["kind"] == "outcome"], lines[-1]

    def outcomes(self) -> Step:
        """Compares all ways to end with those that are wanted."""
        wanted, number = self.wanted_outcomes(), self.rules.counts.get("outcomes")
        if not wanted and number is None and "no fault" not in self.rules.flags:
            return None
        outcomes, _ = yield from self.all()
        missing = list(wanted)
        for end in outcomes:
            if "no fault" in self.rules.flags and any(it["kind"] == "faulted" for it in end["processes"]):
                return Verdict("fault", FAULTY["fault"], told(end), pick_lines(end["picks"]), self.lend)
            fits = [it for it in wanted if it <= facts_of(end)]
            if wanted and not fits:
                said = "It can end in a way that is not wanted."
                return Verdict("outcomes", said, told(end), pick_lines(end["picks"]), self.lend)
            missing = [it for it in missing if it not in fits]
        if missing:
            said = f"No schedule ends with {listed(sorted(missing[0]))}."
            return Verdict("outcomes", said, [f"Ways to end that are possible: {len(outcomes)}."])
        if number is not None and len(outcomes) != number:
            ends = [f"Outcome {at}: {' '.join(told(it)) or 'all ended.'}" for at, it in enumerate(outcomes[:MOST_TOLD], 1)]
            return Verdict("outcomes", f"Its outcomes are {len(outcomes)}, and {number} are wanted.", ends)
        return None

    def wanted_outcomes(self) -> list[frozenset[str]]:
        """Returns the ways to end that are wanted, each by its facts."""
        lines = self.exercise.blocks.get("outcomes", "").splitlines()
        return [frozenset(it.strip() for it in line.split(",")) for line in lines if line.strip()]

    def orders(self) -> Step:
        """Counts the orders of prints."""
        number = self.rules.counts.get("orders")
        if number is None:
            return None
        outcomes, _ = yield from self.all("--prints")
        orders = sorted({tuple(str(it["value"]) for it in end["prints"]) for end in outcomes})
        if len(orders) == number:
            return None
        said = f"Orders in which it may print: {len(orders)}, and {number} are wanted."
        return Verdict("orders", said, [" ".join(it) for it in orders[:MOST_TOLD]])

    def ends(self) -> Step:
        """Looks whether all runs end, or all fair ones."""
        if "ends" in self.rules.flags:
            return (yield from self.endless(False))
        if "ends if fair" in self.rules.flags:
            return (yield from self.endless(True))
        return None

    def endless(self, is_fair: bool) -> Step:
        """Tells a run that never ends, if there is one: picks that lead into a circle, and go round it some times."""
        lines = yield from self.lines(self.search("--endless", *["--fair"] * is_fair))
        if lines[0]["kind"] != "endless":
            return None
        around = lines[1]["picks"]
        picks = pick_lines(lines[0]["picks"]) + ROUNDS * pick_lines(around)
        more = f"It makes these picks again and again: {', '.join(pick_lines(around[:MOST_TOLD]).splitlines())}."
        return Verdict("endless", FAIRLY if is_fair else FAULTY["endless"], [more], picks, self.lend)

    def by_cash(self) -> Step:
        """Looks for deadlocks without the banker."""
        flags = self.rules.flags
        if not {"no deadlock by cash", "a deadlock by cash"} & flags:
            return None
        plan = yield from self.lines(["plan"])
        orders = [it for it in plan if it["kind"] in ("order", "no request waits")]
        if orders and "no deadlock by cash" in flags:
            self.praise += [f"All processes ask in one order: {orders[-1]['text']}."] if orders[-1].get("text") else []
            return None
        lines = yield from self.lines(self.search("--first-deadlock", lend="cash"))
        deadlock = next((it for it in lines if it["kind"] == "deadlock"), None)
        if "no deadlock by cash" in flags and deadlock:
            said = "Without the banker some schedule ends in a deadlock."
            return Verdict("deadlock", said, told(deadlock), pick_lines(deadlock["picks"]), "cash")
        if "a deadlock by cash" in flags and not deadlock:
            return Verdict("deadlock", "Without the banker no schedule ends in a deadlock.")
        return None


def facts_of(end: dict[str, Any]) -> set[str]:
    """Returns what can be said of an outcome: how its processes ended, and the value of each integer."""
    facts = {f"{it['process']} {it['kind']}" for it in end["processes"]}
    for it in end["integers"]:
        facts |= {f"{name} = {it['value']}" for name in (it["integer"], f"{it['process']}.{it['integer']}")}
    return facts


def judged_here(start: list[str], it: Asked, text: bytes) -> Verdict:
    """Judges a text by calls that are waited for."""
    judge = Judge(it, text).judge()
    try:
        call = next(judge)
        while True:
            call = judge.send(call_here(start, call))
    except StopIteration as end:
        verdict: Verdict = end.value
        return verdict
