"""What can be looked at over HTTP: a page, its events, the state, /metrics and /health. Nothing here changes the bank."""
from __future__ import annotations

import asyncio
import json
import socket
import time
from collections.abc import AsyncGenerator, Iterator
from pathlib import Path
from typing import Any, NamedTuple

from script.serving.server import Server
from script.web import Answer, Bounds, Refused, Request, Service

PAGE = Path(__file__).with_name("page.html")
# The most browsers that are told of changes, and the seconds between two looks at the bank.
MOST_VIEWERS, BETWEEN_LOOKS = 32, 0.5
# How many browsers and others may look, and the seconds in which a request has to come.
BOUNDS = Bounds(head=16_384, head_time=5.0, connections=96, of_one_address=96)
POLICY = "default-src 'none'; style-src 'unsafe-inline'; script-src 'unsafe-inline'; connect-src 'self'; frame-ancestors 'none'"
TEXT = "text/plain; charset=utf-8"
COUNTERS = {
    "entries": "Entries that were carried out.", "repeated": "Requests that came again.", "granted": "Grants.",
    "queued": "Wishes that joined the queue.", "refused": "Commands that the bank refused.", "ended": "Sessions that ended.",
}


def picture(server: Server) -> dict[str, Any]:
    """Returns what the page shows, read from the bank."""
    resources: list[dict[str, Any]] = []
    jobs: dict[str, list[dict[str, Any]]] = {}
    queue: list[dict[str, str]] = []
    for line in server.bank.say("state"):
        kind, name, rest = line.split(" ", 2)
        words = rest.split(" ")
        if kind == "resource":
            resources.append({"name": name, "capital": int(words[1]), "cash": int(words[3])})
        elif kind == "job":
            row = {"resource": words[0], "claim": int(words[2]), "holds": int(words[4]), "needs": int(words[6])}
            jobs.setdefault(name, []).append(row)
        else:
            queue.append({"job": name, "wants": rest, "why": server.bank.say(f"why {name} {rest}")[0]})
    owners = server.desk.owners
    return {
        "batch": server.log.sequence, "sessions": len(server.desk.sessions), "clients": len(server.connections),
        "resources": resources, "queue": queue, "order": server.bank.say("order")[0].split(" ")[1:],
        "jobs": [{"name": name, "session": owners.get(name, 0), "rows": rows} for name, rows in jobs.items()],
    }


class Family(NamedTuple):
    """A metric: its name, its kind, what it is, and its rows, each with its labels."""

    name: str
    kind: str
    told: str
    rows: list[tuple[str, float]]

    def text(self) -> str:
        """Returns the metric in the text format of Prometheus."""
        rows = "".join(f"parbegin_{self.name}{labels} {value}\n" for labels, value in self.rows)
        return f"# HELP parbegin_{self.name} {self.told}\n# TYPE parbegin_{self.name} {self.kind}\n{rows}"


def families(server: Server) -> Iterator[Family]:
    """Yields the metrics."""
    seen, meters = picture(server), server.meters
    # (a name of a resource has no sign that would have to be escaped)
    for name, told in (("capital", "How much there is of a resource."), ("cash", "How much of a resource is not lent.")):
        yield Family(name, "gauge", told, [(f'{{resource="{it["name"]}"}}', it[name]) for it in seen["resources"]])
    kept_back = sum(wish["why"].startswith("wait rest") for wish in seen["queue"])
    yield Family("leader", "gauge", "Whether this server leads.", [("", float(server.is_answering()))])
    yield Family("terms_total", "counter", "Times that this server began to lead.", [("", server.meters.terms)])
    yield Family("jobs", "gauge", "Jobs that are there.", [("", len(seen["jobs"]))])
    yield Family("wishes", "gauge", "Wishes in the queue.", [("", len(seen["queue"]))])
    yield Family("wishes_kept_back", "gauge", "Wishes for which there is cash, and which the banker keeps back.", [("", kept_back)])
    yield Family("sessions", "gauge", "Sessions.", [("", seen["sessions"])])
    yield Family("clients", "gauge", "Connections.", [("", seen["clients"])])
    for name, told in COUNTERS.items():
        yield Family(f"{name}_total", "counter", told, [("", server.desk.counts[name])])
    commits = [("_sum", meters.commit_seconds), ("_count", float(meters.batches))]
    yield Family("commit_seconds", "summary", "Time to make a batch durable.", commits)
    yield Family("apply_seconds_total", "counter", "Time in the bank and the desk.", [("", meters.apply_seconds)])
    yield Family("snapshots_total", "counter", "Snapshots.", [("", meters.snapshots)])


class Pages:
    """The answers to requests, over one reading of the bank for all viewers."""

    def __init__(self, server: Server) -> None:
        self.server = server
        self.viewers = 0
        self.looked, self.seen = 0.0, ""

    def state(self) -> str:
        """Returns what the page shows, as JSON."""
        if time.monotonic() - self.looked > 0.8 * BETWEEN_LOOKS:
            self.looked, self.seen = time.monotonic(), json.dumps(picture(self.server), separators=(",", ":"))
        return self.seen

    async def answer(self, request: Request) -> Answer:
        """Returns the answer to a request."""
        if request.method == "POST":
            raise Refused(405, "only GET")
        if request.path == "/":
            return Answer(PAGE.read_bytes(), "text/html; charset=utf-8")
        if request.path == "/metrics":
            metrics = "".join(it.text() for it in families(self.server))
            return Answer(metrics.encode(), "text/plain; version=0.0.4; charset=utf-8")
        if request.path == "/state":
            return Answer(self.state().encode())
        if request.path == "/health":
            is_well = not self.server.stopping.is_set()
            told = b"ends\n" if not is_well else b"serves\n" if self.server.is_answering() else b"follows\n"
            return Answer(told, TEXT, 200 if is_well else 503)
        if request.path != "/events":
            return Answer(b"/, /events, /state, /metrics, /health\n", TEXT, 404)
        if self.viewers >= MOST_VIEWERS:
            return Answer(f"{MOST_VIEWERS} browsers are told of changes already\n".encode(), TEXT, 503)
        return Answer(kind="text/event-stream", parts=self.events())

    async def events(self) -> AsyncGenerator[bytes, None]:
        """Yields each change, for a browser, until it leaves."""
        self.viewers += 1
        last = ""
        try:
            while not self.server.stopping.is_set():
                told = self.state()
                yield f"data: {told}\n\n".encode() if told != last else b": \n\n"
                last = told
                await asyncio.sleep(BETWEEN_LOOKS)
        finally:
            self.viewers -= 1


async def listen_http(server: Server, sockets: list[socket.socket]) -> list[asyncio.AbstractServer]:
    """Answers over HTTP/1.1, from when it is started."""
    service = Service(Pages(server).answer, POLICY, BOUNDS)
    return [await service.listen(it) for it in sockets]
