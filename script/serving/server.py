"""The server: connections in, one queue of requests, batches into the journal, and only then into the bank and out."""
from __future__ import annotations

import asyncio
import hashlib
import hmac
import secrets
import time
from collections import deque
from collections.abc import Sequence
from contextlib import suppress
from dataclasses import dataclass

from script.places import say
from script.serving.bank import BankProcess
from script.serving.connections import ENDED, Connection, Item
from script.serving.desk import Desk
from script.serving.etcd import EtcdLog, Lost
from script.serving.gateway import NoEtcd
from script.serving.journal import Journal
from script.serving.sessions import Done
from script.serving.snapshots import restored, snapshot
from script.serving.words import MAX_CLIENTS, MAX_SESSIONS, elsewhere, now, refused

# The most entries of a batch, and its most bytes.
MOST_ENTRIES, MOST_BYTES = 512, 400_000
# Seconds between two looks at the leases, and after a term before this process follows.
LOOKS, BETWEEN_TERMS = 0.2, 0.2


@dataclass
class Limits:
    """What an operator may set."""

    clients: int = MAX_CLIENTS
    sessions: int = MAX_SESSIONS
    # batches between two snapshots
    snapshot_every: int = 2_000


@dataclass
class Tokens:
    """The SHA-256 of the tokens that are let in over the network, and of those that make a client an operator."""

    clients: frozenset[str] = frozenset()
    operators: frozenset[str] = frozenset()


@dataclass
class Meters:
    """What was measured since the start."""

    batches: int = 0
    commit_seconds: float = 0.0
    apply_seconds: float = 0.0
    snapshots: int = 0
    recovered: int = 0
    recovery_seconds: float = 0.0
    terms: int = 0


class Server:
    """One bank, its desk and its journal, and who is connected."""

    def __init__(self, bank: Sequence[str], log: Journal | EtcdLog, limits: Limits, tokens: Tokens) -> None:
        self.words, self.log, self.limits, self.tokens = bank, log, limits, tokens
        self.bank = BankProcess(bank)
        self.desk = Desk(self.bank)
        self.capital: Sequence[str] = ()
        self.queue: deque[Item] = deque()
        self.wake, self.stopping = asyncio.Event(), asyncio.Event()
        self.is_leading = False
        self.attached: dict[int, Connection] = {}
        self.connections: set[Connection] = set()
        # when each session was last heard, and those whose end is in the queue
        self.heard: dict[int, float] = {}
        self.ending: set[int] = set()
        self.next_sid = 1
        self.beginning = 0
        self.marked = 0
        self.meters = Meters()

    # The state

    async def recover(self) -> None:
        """Comes to where the journal ends: its snapshot, and the batches after it."""
        began = time.perf_counter()
        await self.log.load(self.restore, self.replay)
        self.meters.recovery_seconds = time.perf_counter() - began

    def restore(self, body: str | None) -> None:
        """Begins anew over a fresh bank, with a snapshot if there is one."""
        self.bank.close()
        self.bank = BankProcess(self.words)
        self.desk = restored(self.bank, body) if body else Desk(self.bank)

    def replay(self, entries: Sequence[str]) -> None:
        """Carries out a batch that others, or an earlier process, have written."""
        for entry in entries:
            self.desk.apply(entry)
            self.meters.recovered += 1

    def is_answering(self) -> bool:
        """Returns whether this process leads, and nobody else can: one that was paused does not know yet that it does not."""
        return self.is_leading and not self.stopping.is_set() and self.log.is_mine()

    def elsewhere(self) -> str:
        """Returns the line of a refusal to who has to go to another server."""
        return elsewhere(self.log.leads_at() if not self.is_leading else "")

    # Terms

    async def run(self, capital: Sequence[str]) -> None:
        """Follows and leads in turn, until it is stopped. The capital is declared if nobody has done so."""
        self.capital = capital
        while not self.stopping.is_set():
            try:
                if await self.unless_stopped(self.log.follow(self.restore, self.replay)):
                    await self.lead()
            except (Lost, NoEtcd) as why:
                say(f"leads no more: {why}" if self.is_leading else f"does not follow: {why}")
                await self.unless_stopped(asyncio.sleep(BETWEEN_TERMS))
            finally:
                self.is_leading = False
                self.queue.clear()
                self.cut_off()
            await self.log.resign()

    async def unless_stopped(self, call: object) -> bool:
        """Waits for a call, or until this process is to stop. Returns whether the call came to its end."""
        calling = asyncio.ensure_future(call)  # type: ignore[call-overload]
        stopping = asyncio.ensure_future(self.stopping.wait())
        try:
            await asyncio.wait([calling, stopping], return_when=asyncio.FIRST_COMPLETED)
            if not calling.done():
                return False
            calling.result()
            return not self.stopping.is_set()
        finally:
            for it in (calling, stopping):
                it.cancel()
            with suppress(asyncio.CancelledError, Exception):
                await calling

    async def lead(self) -> None:
        """Answers clients until this process is stopped, or another one leads."""
        self.next_sid, self.marked = self.desk.last_sid, self.desk.newest_mark
        # (clients need time to find this process)
        self.heard = dict.fromkeys(self.desk.sessions, now())
        self.beginning = 0
        self.ending.clear()
        self.meters.terms += 1
        if not self.desk.declared:
            for line in self.capital:
                self.push(Item(None, 0, entry=f"A {line}"))
        self.is_leading = True
        sweeper = asyncio.ensure_future(self.sweep())
        try:
            await self.commit()
            if self.log.since_snapshot:
                # (so another version of the bank has nothing to answer anew)
                await self.log.save(snapshot(self.desk))
        finally:
            sweeper.cancel()

    def stop(self) -> None:
        """Takes no more requests, and ends once those that were taken are answered."""
        self.stopping.set()
        self.wake.set()

    def cut_off(self) -> None:
        """Ends the connections."""
        for connection in list(self.connections):
            connection.cut_off()

    def close(self) -> None:
        """Ends the connections and the bank."""
        self.cut_off()
        self.bank.close()

    def push(self, item: Item) -> None:
        """Puts a request into the queue."""
        self.queue.append(item)
        self.wake.set()

    # The one loop

    async def commit(self) -> None:
        """Takes what waits, writes it, and carries it out once it is durable.

        While a batch is written, the one before is carried out; all that comes meanwhile is the next batch.
        """
        written: list[Item] = []
        while not self.stopping.is_set() or self.queue or written:
            if not self.log.is_mine():
                raise Lost("the lease of the leader has ended")
            if not self.queue and not written:
                self.wake.clear()
                await self.wake.wait()
                continue
            batch = self.next_batch()
            entries = [item.entry for item in batch if item.entry]
            began = time.perf_counter()
            writing = asyncio.ensure_future(self.log.append(entries)) if entries else None
            # (so that what is to be written is on its way)
            await asyncio.sleep(0)
            try:
                self.carry_out(written)
            except BaseException:
                if writing is not None:
                    writing.cancel()
                raise
            if writing is not None:
                await writing
                self.meters.batches += 1
                self.meters.commit_seconds += time.perf_counter() - began
            if self.log.since_snapshot >= self.limits.snapshot_every:
                # the snapshot has all that is written, so that is carried out first
                self.carry_out(batch)
                batch = []
                await self.log.save(snapshot(self.desk))
                self.meters.snapshots += 1
            written = batch

    def next_batch(self) -> list[Item]:
        """Takes requests out of the queue, with the newest mark before them if it is not yet in the journal."""
        batch: list[Item] = []
        size = 0
        while self.queue and len(batch) < MOST_ENTRIES and size < MOST_BYTES:
            batch.append(self.queue.popleft())
            size += len(batch[-1].entry)
        if size and self.desk.newest_mark > self.marked:
            self.marked = self.desk.newest_mark
            batch.insert(0, Item(None, 0, entry=f"D {self.marked} {self.desk.marks[self.marked]}"))
        return batch

    def carry_out(self, batch: Sequence[Item]) -> None:
        """Carries out a batch that is durable, and answers."""
        began = time.perf_counter()
        for item in batch:
            answer = self.apply(item) if item.entry else self.read(item) if item.read else item.answer
            if item.to is not None:
                if not item.is_silent:
                    item.to.send(item.number, answer)
                item.to.is_done()
        self.meters.apply_seconds += time.perf_counter() - began

    def apply(self, item: Item) -> Sequence[str]:
        """Carries out an entry, sends the notices to whom they are for, and returns the answer."""
        done = self.desk.apply(item.entry)
        for notice in done.notices:
            target = self.attached.get(notice.session)
            if target is not None:
                target.tell(notice.number, notice.line)
        if item.entry[0] == "O":
            self.beginning -= 1
            self.hear(done.session)
        elif item.entry[0] == "E":
            self.forget(done)
        return done.answer

    def forget(self, done: Done) -> None:
        """Forgets a session that has ended. A client that counts its requests is told so; another one gets a new session."""
        self.heard.pop(done.session, None)
        self.ending.discard(done.session)
        ended = self.attached.pop(done.session, None)
        if ended is not None:
            ended.sid = 0 if ended.is_plain else ENDED

    def read(self, item: Item) -> Sequence[str]:
        """Answers a command that only reads. Raises Lost if another one may have led when it was read."""
        if item.read == "beat":
            answer = [] if item.to is not None and item.to.sid in self.desk.sessions else [refused("S5")]
        elif item.read == "fence":
            # (a number that rises with each command, for a session that is there: who holds after another held has a greater one)
            is_there = item.to is not None and item.to.sid in self.desk.sessions
            answer = [f"fence {self.desk.counts['entries']}"] if is_there else [refused("S5")]
        else:
            answer = self.bank.say(item.read)
        if not self.log.is_mine():
            raise Lost("the lease of the leader has ended")
        return answer

    # Sessions

    def new_session(self, lease: int) -> tuple[int, str]:
        """Returns the number of a new session and the entry that begins it; 0 if there are as many as there can be."""
        if len(self.desk.sessions) + self.beginning >= self.limits.sessions:
            return 0, ""
        self.beginning += 1
        self.next_sid += 1
        return self.next_sid, f"O {self.next_sid} {secrets.token_hex(16)} {lease}"

    @staticmethod
    def is_known(token: str, tokens: frozenset[str]) -> bool:
        """Returns whether a token is one of those of which the SHA-256 is known."""
        given = hashlib.sha256(token.encode("latin-1")).hexdigest()
        return any([hmac.compare_digest(given, known) for known in tokens])

    def hear(self, sid: int) -> None:
        """Notes that a session was heard."""
        if sid > 0:
            self.heard[sid] = now()

    async def sweep(self) -> None:
        """Ends sessions that were silent for longer than their lease, but those that last as long as their connections."""
        while True:
            await asyncio.sleep(LOOKS)
            if not self.log.is_mine():
                # (the loop finds it)
                self.wake.set()
            at = now()
            self.heard.update({sid: at for sid, connection in self.attached.items() if connection.is_plain})
            for sid, session in self.desk.sessions.items():
                if sid not in self.ending and at - self.heard.setdefault(sid, at) > session.lease:
                    self.ending.add(sid)
                    self.push(Item(None, 0, entry=f"E {sid}"))

    # Connections

    async def accept(self, reader: asyncio.StreamReader, writer: asyncio.StreamWriter, is_trusted: bool) -> None:
        """Answers a client until it goes."""
        connection = Connection(self, reader, writer, is_trusted)
        if len(self.connections) >= self.limits.clients:
            connection.send(0, [refused("S7")])
            writer.close()
            return
        self.connections.add(connection)
        try:
            await connection.run()
            await connection.finish()
        except (OSError, asyncio.TimeoutError):
            pass
        finally:
            connection.detach()
            self.connections.discard(connection)
            writer.close()
