"""`./parbegin serve`: answers many clients over a socket, from one bank that a journal keeps."""
from __future__ import annotations

import asyncio
import signal
import sqlite3
from collections.abc import Sequence
from contextlib import closing

from script.hosting import allow_files, bound_sockets, notify, read_address
from script.options import Given, WrongWords
from script.places import DEVICE, FAULT, say, shown
from script.serving import copies, listening
from script.serving.bank import BankEnded, BankProcess
from script.serving.desk import Diverged
from script.serving.etcd import EtcdLog, Lost
from script.serving.gateway import EtcdRefused, NoEtcd
from script.serving.journal import Journal, WrongJournal
from script.serving.serve_words import HELP, USE, capital_of, network_of, read_words, tokens_of, where_of
from script.serving.server import Limits, Server, Tokens
from script.serving.snapshots import WrongSnapshot

__all__ = ["HELP", "USE", "call"]


def try_capital(bank: Sequence[str], capital: Sequence[str]) -> None:
    """Asks a bank of its own whether it takes what there is, before anything is written."""
    tried = BankProcess(bank)
    try:
        refusal = next((said[0] for line in capital if (said := tried.say(line))), None)
    finally:
        tried.close()
    if refusal:
        raise WrongWords(f"invalid value for '--capital': {refusal}")


def compare_capital(server: Server, capital: Sequence[str]) -> None:
    """Raises WrongWords if the journal was begun with other capital, or if there is none."""
    there = [f"resource {name} {amount}" for name, amount in server.desk.declared.items()]
    if there and capital and sorted(there) != sorted(capital):
        has = ", ".join(f"{amount} {name}" for name, amount in server.desk.declared.items())
        raise WrongWords(f"the journal was begun with the capital {has}, and '--capital' says another")
    if not there and not capital:
        raise WrongWords("the journal is new, and '--capital' does not say what there is")


async def listen(server: Server, options: dict[str, str], network: listening.Network | None) -> list[asyncio.AbstractServer]:
    """Opens the sockets, at which nothing is answered yet."""
    opened = await listening.listen_handed(server)
    if network is not None:
        opened.append(await listening.listen_network(server, network))
    if "--http" in options:
        # (needed here alone)
        from script.serving.http import listen_http

        opened += await listen_http(server, bound_sockets(*read_address(options["--http"])))
    if "--socket" in options:
        opened.append(await listening.listen_unix(server, options["--socket"], int(options.get("--mode", "600"), 8)))
    return opened


def log_of(given: Given, folder: str | None) -> Journal | EtcdLog:
    """Returns the journal of a folder, or that in etcd."""
    return EtcdLog(where_of(given)) if folder is None else Journal(folder)


async def serve(bank: Sequence[str], given: Given, limits: Limits) -> None:
    """Recovers, and answers until it is told to stop. Nothing is written before all that was asked for is possible."""
    options = given.options
    capital, network, tokens = capital_of(options.get("--capital")), network_of(options), tokens_of(options)
    try_capital(bank, capital)
    log = log_of(given, options.get("--journal"))
    try:
        with closing(Server(bank, log, limits, tokens)) as server:
            # (it may be told to stop before it answers)
            for number in (signal.SIGTERM, signal.SIGINT):
                asyncio.get_running_loop().add_signal_handler(number, server.stop)
            await server.recover()
            compare_capital(server, capital)
            opened = await listen(server, options, network)
            try:
                await answer(server, capital, opened)
            finally:
                for it in opened:
                    it.close()
    finally:
        await log.resign()
        log.close()


async def answer(server: Server, capital: Sequence[str], opened: Sequence[asyncio.AbstractServer]) -> None:
    """Answers at the sockets, until the server is told to stop."""
    running = asyncio.ensure_future(server.run(capital))
    for it in opened:
        await it.start_serving()
    say(f"serves: {server.meters.recovered} entries after the snapshot, {len(server.desk.sessions)} sessions")
    notify("READY=1")
    await running
    notify("STOPPING=1")


async def replay(bank: Sequence[str], given: Given) -> None:
    """Gives a journal to the bank, and says what it leads to."""
    options = given.options
    with copies.copied(options.get("--journal")) as folder:
        log = log_of(given, folder)
        try:
            with closing(Server(bank, log, Limits(), Tokens())) as server:
                await server.recover()
                count, seconds = server.meters.recovered, server.meters.recovery_seconds
                say(f"{count} entries after the snapshot, in {seconds:.1f} s, lead to {server.desk.digest or 'nothing'}")
        finally:
            log.close()


def carry_out(bank: Sequence[str], given: Given, limits: Limits) -> None:
    """Does what the words of a call say."""
    options = given.options
    if "--backup" in options:
        copies.back_up(options["--journal"], options["--backup"])
    elif "--restore" in options:
        copies.restore(options["--journal"], options["--restore"])
    elif "--replay" in options:
        asyncio.run(replay(bank, given))
    else:
        allow_files(limits.clients)
        asyncio.run(serve(bank, given, limits))


def call(start: list[str], words: list[str]) -> int:
    """Serves until it is told to stop, and returns the status."""
    given, limits = read_words(words)
    journal = shown(given.options.get("--journal", given.options.get("--etcd", "")))
    try:
        carry_out([start[0], "bank"], given, limits)
    except (BankEnded, Diverged, WrongJournal, WrongSnapshot, Lost) as why:
        say(f"{journal}: {why}")
        return FAULT
    except (NoEtcd, EtcdRefused) as why:
        say(f"{journal}: {why}")
        return DEVICE
    except sqlite3.Error as fault:
        say(f"{journal}: the journal takes no more: {fault}")
        return DEVICE
    except OSError as fault:
        named = f"{shown(os_name(fault))}: " if fault.filename else ""
        say(f"{named}{fault.strerror or fault}")
        return DEVICE
    return 0


def os_name(fault: OSError) -> str:
    """Returns the name of the file that a fault is of."""
    name = fault.filename
    return name.decode(errors="replace") if isinstance(name, bytes) else str(name)
