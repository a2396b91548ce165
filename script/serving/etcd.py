"""A journal that several machines share, in etcd.

    PREFIX/leader           who leads; it has a lease, and so etcd takes it away from one that is silent
    PREFIX/log/N            batch N of entries, N in sixteen digits
    PREFIX/head             the number of the last batch, also where a snapshot has taken its place
    PREFIX/snapshot         up to which batch the snapshot goes, and how many parts it has
    PREFIX/part/N.T/I       part I of the snapshot up to batch N, by the leader with the fence T
"""
from __future__ import annotations

import asyncio
import json
from collections.abc import AsyncGenerator, Iterator, Sequence
from contextlib import suppress
from typing import Any, NamedTuple

from script.serving.gateway import Access, EtcdRefused, Gateway, NoEtcd, decoded, encoded, within
from script.serving.journal import Replay, Restore
from script.serving.words import now

Pairs = list[dict[str, str]]
# Of the lease of the leader: the share for which it is sure that nobody else leads, and how often it is kept.
SURE, KEPT_EVERY = 0.9, 0.25
# The most bytes of a part of a snapshot, and the most batches that are read at once.
PART, AT_ONCE = 1 << 19, 200


class Lost(Exception):
    """This process leads no more, or what it knows of the log is too old."""


class Where(NamedTuple):
    """Where the log is, who this process is, where its clients reach it, and the seconds of the leader's lease."""

    access: Access
    prefix: str
    name: str
    address: str
    lease: int


class EtcdLog:
    """The shared journal, and the election of who writes it."""

    def __init__(self, where: Where) -> None:
        self.where, self.gateway = where, Gateway(where.access, min(1.0, where.lease / 4))
        self.prefix = where.prefix.rstrip("/") + "/"
        # the batch that was carried out last
        self.sequence = 0
        self.since_snapshot = 0
        self.revision = 0
        self.lease = ""
        # the revision in which this process made the leader's key: the fence
        self.term = ""
        self.deadline = 0.0
        self.leader: dict[str, str] = {}
        self.keeper: asyncio.Future[None] | None = None

    def key(self, name: str) -> str:
        return self.prefix + name

    def log_key(self, sequence: int) -> str:
        return self.key(f"log/{sequence:016d}")

    def is_mine(self) -> bool:
        """Returns whether nobody else can have led up to now."""
        return bool(self.term) and now() < self.deadline

    def leads_at(self) -> str:
        """Returns where clients reach the leader, if there is one."""
        return self.leader.get("address", "")

    async def read(self, name: str, upto: str = "", **more: object) -> tuple[Pairs, int]:
        """Reads a key, or keys of a range, and returns them with the revision of etcd."""
        body: dict[str, object] = {"key": encoded(self.key(name)), **more}
        if upto:
            body["range_end"] = encoded(self.key(upto))
        said = await self.gateway.call("kv/range", body)
        return said.get("kvs", []), int(said["header"]["revision"])

    # Following

    async def load(self, restore: Restore, replay: Replay) -> None:
        """Makes the state anew, from the snapshot and the batches after it, all as of one revision of etcd."""
        found, revision = await self.read("snapshot")
        at = {"revision": str(revision)}
        self.sequence = self.since_snapshot = 0
        body = None
        if found:
            upto, count = decoded(found[0]["value"]).split(" ")
            parts, _ = await self.read(f"part/{upto}/", f"part/{upto}0", **at)
            if len(parts) != int(count):
                raise Lost(f"the snapshot up to batch {upto} has {len(parts)} of {count} parts")
            body = "".join(decoded(it["value"]) for it in parts)
            self.sequence = int(upto.partition(".")[0])
        restore(body)
        await self.catch_up(replay, at)
        self.revision = revision
        await self.look()

    async def catch_up(self, replay: Replay, at: dict[str, str]) -> None:
        """Carries out the batches of the log that come next."""
        while True:
            rows, _ = await self.read(f"log/{self.sequence + 1:016d}", "log0", limit=str(AT_ONCE), **at)
            for row in rows:
                self.replay_one(row, replay)
            if len(rows) < AT_ONCE:
                return

    def replay_one(self, row: dict[str, str], replay: Replay) -> None:
        """Carries out a batch, unless that was done."""
        sequence = int(decoded(row["key"]).rpartition("/")[2])
        if sequence <= self.sequence:
            return
        if sequence != self.sequence + 1:
            raise Lost(f"batch {self.sequence + 1} of the log is missing")
        replay(decoded(row["value"]).split("\n")[1:])
        self.sequence = sequence
        self.since_snapshot += 1

    async def look(self) -> None:
        """Looks who leads."""
        found, _ = await self.read("leader")
        self.leader = json.loads(decoded(found[0]["value"])) if found else {}

    async def follow(self, restore: Restore, replay: Replay) -> None:
        """Follows the batches of others, and returns once this process leads and has carried out all of them."""
        self.term = ""
        await self.load(restore, replay)
        while True:
            if not self.leader and await self.campaign(restore, replay):
                return
            watch = self.gateway.watch(self.prefix, self.revision + 1)
            try:
                if await self.watch(watch, restore, replay):
                    return
            except (OSError, asyncio.TimeoutError, StopAsyncIteration, asyncio.IncompleteReadError, ValueError):
                # (a member of etcd that hangs says nothing: it is looked by another call from time to time)
                await self.look()
            finally:
                await watch.aclose()

    async def watch(self, watch: AsyncGenerator[dict[str, Any], None], restore: Restore, replay: Replay) -> bool:
        """Carries out what a watch says. Returns whether this process leads; else the watch has ended."""
        while True:
            said = await within(max(1.0, self.where.lease / 2), watch.__anext__())
            if "canceled" in said:
                raise Lost("etcd has no more of the log as old as this")
            for event in said.get("events", []):
                # (the revision of the header may be ahead of the events that were sent)
                self.revision = max(self.revision, int(event["kv"]["mod_revision"]))
                self.take(decoded(event["kv"]["key"]), event, replay)
            if not self.leader and await self.campaign(restore, replay):
                return True

    def take(self, key: str, event: dict[str, Any], replay: Replay) -> None:
        """Takes an event: a batch, or another leader or none."""
        is_put = event.get("type") != "DELETE"
        if key.startswith(self.key("log/")) and is_put:
            self.replay_one(event["kv"], replay)
        elif key == self.key("leader"):
            self.leader = json.loads(decoded(event["kv"]["value"])) if is_put else {}

    async def campaign(self, restore: Restore, replay: Replay) -> bool:
        """Tries to lead. Returns whether this process does, with all batches carried out."""
        asked = now()
        self.lease = (await self.gateway.call("lease/grant", {"TTL": str(self.where.lease)}))["ID"]
        mine = {"name": self.where.name, "address": self.where.address}
        key = encoded(self.key("leader"))
        said = await self.gateway.call("kv/txn", {
            "compare": [{"key": key, "target": "VERSION", "result": "EQUAL", "version": "0"}],
            "success": [{"request_put": {"key": key, "value": encoded(json.dumps(mine)), "lease": self.lease}}],
            "failure": [{"request_range": {"key": key}}],
        })
        term = said["header"]["revision"]
        if not said.get("succeeded"):
            there = said["responses"][0]["response_range"].get("kvs", [])
            # (the first of two tries of this very call may have been carried out)
            if not there or there[0].get("lease") != self.lease:
                self.leader = json.loads(decoded(there[0]["value"])) if there else {}
                await self.gateway.call("lease/revoke", {"ID": self.lease})
                return False
            term = there[0]["create_revision"]
        self.leader, self.term, self.deadline = mine, term, asked + SURE * self.where.lease
        self.keeper = asyncio.ensure_future(self.keep())
        await self.take_over(restore, replay)
        return True

    async def take_over(self, restore: Restore, replay: Replay) -> None:
        """Carries out what leaders before have written. The head alone tells how far it goes: snapshots take batches away."""
        found, _ = await self.read("head")
        last = int(decoded(found[0]["value"])) if found else 0
        with suppress(Lost):
            await self.catch_up(replay, {})
        if self.sequence != last:
            await self.load(restore, replay)
        if self.sequence != last:
            raise Lost(f"the log ends with batch {self.sequence}, and its head is {last}")

    async def keep(self) -> None:
        """Keeps the lease. Its time counts from before the call."""
        while True:
            await asyncio.sleep(KEPT_EVERY * self.where.lease)
            asked = now()
            with suppress(NoEtcd, EtcdRefused):
                said = await self.gateway.call("lease/keepalive", {"ID": self.lease})
                if int(said.get("result", {}).get("TTL", 0)) > 0:
                    self.deadline = asked + SURE * self.where.lease

    # Leading

    def fence(self) -> dict[str, str]:
        """Returns the condition that the leader's key is the one which this process made."""
        return {"key": encoded(self.key("leader")), "target": "CREATE", "result": "EQUAL", "create_revision": self.term}

    def is_head(self, sequence: int) -> dict[str, str]:
        """Returns the condition that the last batch is this one."""
        it = {"key": encoded(self.key("head")), "result": "EQUAL"}
        if not sequence:
            return {**it, "target": "VERSION", "version": "0"}
        return {**it, "target": "VALUE", "value": encoded(str(sequence))}

    async def surely(self, body: dict[str, Any]) -> dict[str, Any]:
        """Makes a transaction, again and again as long as this process leads. Raises Lost if it does no more."""
        while self.is_mine():
            with suppress(NoEtcd):
                return await self.gateway.call("kv/txn", body)
        raise Lost("the lease of the leader has ended")

    async def append(self, entries: Sequence[str]) -> None:
        """Writes the next batch. Raises Lost if nobody knows whether it was written: then nothing may be answered."""
        sequence = self.sequence + 1
        value = "\n".join([f"{self.where.name} {self.term} {sequence}", *entries])
        key, head, leader = encoded(self.log_key(sequence)), encoded(self.key("head")), encoded(self.key("leader"))
        said = await self.surely({
            "compare": [self.fence(), self.is_head(self.sequence)],
            "success": [
                {"request_put": {"key": key, "value": encoded(value)}},
                {"request_put": {"key": head, "value": encoded(str(sequence))}},
            ],
            "failure": [{"request_range": {"key": leader}}, {"request_range": {"key": key}}],
        })
        if not said.get("succeeded"):
            # (the first of two tries of this very call may have been carried out)
            leads, there = (it["response_range"].get("kvs", []) for it in said["responses"])
            is_mine = leads and leads[0]["create_revision"] == self.term and there and decoded(there[0]["value"]) == value
            if not is_mine:
                raise Lost("another leads")
        self.sequence = sequence
        self.since_snapshot += 1

    async def save(self, body: str) -> None:
        """Puts a snapshot in the place of all batches that were written. Its parts are written before it counts."""
        self.since_snapshot = 0
        # (the parts of another leader, up to the same batch, are others)
        name = f"{self.sequence:016d}.{self.term}"
        parts = list(self.parts_of(name, body))
        for key, part in parts:
            await self.write([{"request_put": {"key": encoded(key), "value": encoded(part)}}])
        await self.write([
            {"request_put": {"key": encoded(self.key("snapshot")), "value": encoded(f"{name} {len(parts)}")}},
            {"request_delete_range": {"key": encoded(self.key("log/")), "range_end": encoded(self.log_key(self.sequence + 1))}},
            {"request_delete_range": {"key": encoded(self.key("part/")), "range_end": encoded(self.key(f"part/{name}/"))}},
        ])

    def parts_of(self, name: str, body: str) -> Iterator[tuple[str, str]]:
        """Yields the keys and texts of the parts of a snapshot."""
        for number, at in enumerate(range(0, len(body), PART)):
            yield self.key(f"part/{name}/{number:06d}"), body[at : at + PART]

    async def write(self, steps: list[dict[str, Any]]) -> None:
        """Writes as the leader."""
        if not (await self.surely({"compare": [self.fence()], "success": steps})).get("succeeded"):
            raise Lost("another leads")

    async def resign(self) -> None:
        """Gives the lease back, so that another leads at once."""
        self.term, self.deadline, self.leader = "", 0.0, {}
        if self.keeper is not None:
            self.keeper.cancel()
        if self.lease:
            with suppress(NoEtcd, EtcdRefused):
                await self.gateway.call("lease/revoke", {"ID": self.lease}, tries=len(self.gateway.members))
        self.lease = ""

    def close(self) -> None:
        """Closes the connections."""
        self.gateway.close()
