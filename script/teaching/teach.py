"""`./parbegin class`: serves the program to a class, as pages for browsers."""
from __future__ import annotations

import asyncio
import contextlib
import os
import secrets
import shutil
import signal
import socket
import sqlite3
import ssl
import subprocess
import sys
from collections.abc import Callable, Iterator
from typing import NamedTuple

from script.hosting import LOOPBACK, allow_files, bound_sockets, notify, read_address, tls_context
from script.options import Given, WrongWords, read_options
from script.places import DEVICE, FAULT, REFUSED, say, shown
from script.standard import write
from script.teaching import files
from script.teaching.children import MEGABYTE, Limits
from script.teaching.exercises import Asked, Unusable, read_pages
from script.teaching.judge import judged_here
from script.teaching.room import Room, Settings
from script.web import Bounds, Service

USE = "parbegin class [--listen HOST:PORT] [--names] [--keep FILE] [--exercises FOLDER]"
HELP = """Serve the program to a class, as pages for browsers

Usage: parbegin class [OPTIONS]

Students open the page and need nothing else: an editor, runs forward and back, all schedules, every outcome, plans, and
exercises that are judged over all schedules. Standard output says the address for them and that of the teacher's page.
docs/TEACHING.md says how a class is held, and how an exercise is written.

Options:
      --listen <HOST:PORT>  Where browsers reach the server: 0.0.0.0:8712 at all addresses [default: 127.0.0.1:8712]
      --exercises <FOLDER>  The exercises, as files of Markdown [default: those of the course]
      --try                 Judge the answers that the exercises have, right and wrong, and end
      --title <TEXT>        What stands over the page [default: parbegin]
      --names               Ask students for a name, which they may leave out
      --keep <FILE>         Keep who has solved what in this file; without it all is forgotten at the end
      --teacher <FILE>      The key of the teacher's page, made if there is none [default: drawn at each start]
      --cert <FILE>         Answer by TLS, with this certificate
      --key <FILE>          Its key
      --host <NAME>         A further name by which browsers ask for this server; may be given several times
      --proxied             Behind a proxy, which says the address of a browser in X-Forwarded-For
      --states <N>          The most configurations of a search [default: 100000]
      --seconds <N>         The most processor time of a search [default: 20]
      --memory <MB>         The most memory of a search [default: 768]
      --searches <N>        The most searches side by side [default: half of the processors]
      --jobs <N>            The most other calls side by side [default: one for each processor]
      --rate <N>            Requests a minute of one browser, and 30 times as many of one address; 0 for no limit on how often
                            and how much somebody asks [default: 600]
  -h, --help                Print help
"""
WITH_VALUE = (
    "--listen", "--exercises", "--title", "--keep", "--teacher", "--cert", "--key", "--states", "--seconds", "--memory",
    "--searches", "--jobs", "--rate",
)
WITHOUT, SEVERAL = ("--names", "--try", "--proxied"), ("--host",)
POLICY = (
    "default-src 'none'; script-src 'self'; style-src 'self'; img-src 'self' data:; connect-src 'self'; font-src 'self'; "
    "base-uri 'none'; form-action 'none'; frame-ancestors 'none'"
)
BOUNDS = Bounds(body=400_000)
EVERYWHERE = ("0.0.0.0", "::")
# An address of a network that is for documents: nothing is sent there, but the system says by which address it would be.
ELSEWHERE = ("192.0.2.1", 9)
# Seconds: for connections to end, for processes to be gone, and after which the system ends the server, whatever it does.
END_OF_TASKS, END_OF_CHILDREN, END_OF_ALL = 15.0, 15.0, 50


class Place(NamedTuple):
    """Where a class is served."""

    sockets: list[socket.socket]
    hosts: set[str]
    url: str
    context: ssl.SSLContext | None


def own_address() -> str:
    """Returns the address by which others in the network reach this machine; nothing is sent."""
    with socket.socket(socket.AF_INET, socket.SOCK_DGRAM) as probe, contextlib.suppress(OSError):
        probe.connect(ELSEWHERE)
        return str(probe.getsockname()[0])
    return "127.0.0.1"


def place_of(given: Given) -> Place:
    """Opens the sockets of a class."""
    host, port = read_address(given.options.get("--listen", "127.0.0.1:8712"))
    if ("--cert" in given.options) != ("--key" in given.options):
        raise WrongWords("'--cert' and '--key' belong together")
    context = tls_context(given.options["--cert"], given.options["--key"]) if "--cert" in given.options else None
    sockets = bound_sockets(host, port)
    names = given.several.get("--host", [])
    address = own_address() if host in EVERYWHERE else host
    port = sockets[0].getsockname()[1]
    shown_host = f"[{address}]" if ":" in address else address
    url = f"{'https' if context else 'http'}://{names[0] if names else shown_host}:{port}/"
    return Place(sockets, {*LOOPBACK, address, host, *names}, url, context)


def teacher_key(file: str | None) -> str:
    """Returns the key of the teacher's page: that of a file, which is made if it is not there, or one that is drawn."""
    if file is None:
        return secrets.token_urlsafe(12)
    with contextlib.suppress(FileExistsError):
        with os.fdopen(os.open(file, os.O_WRONLY | os.O_CREAT | os.O_EXCL, 0o600), "w") as made:
            made.write(f"{secrets.token_urlsafe(12)}\n")
    with open(file, encoding="ascii", errors="replace") as opened:
        key = opened.read(1_000).strip()
    if len(key) < 8 or not key.isascii() or not key.isprintable():
        raise WrongWords(f"{shown(file)} has no key: 8 letters or more, in one line")
    return key


def settings_of(given: Given) -> Settings:
    """Returns how a class is served."""
    processors = len(os.sched_getaffinity(0))
    seconds, memory = given.number("--seconds", 20, most=86_400), given.number("--memory", 768, 64, 1_000_000)
    quick = max(5, seconds // 4)
    return Settings(
        title=given.options.get("--title", "parbegin"), key=teacher_key(given.options.get("--teacher")),
        names="--names" in given.options, keep=given.options.get("--keep"), is_behind_proxy="--proxied" in given.options,
        states=given.number("--states", 100_000, most=4_000_000), search=Limits(seconds, memory * MEGABYTE, 2.0 * seconds),
        quick=Limits(quick, min(memory, 512) * MEGABYTE, 2.0 * quick), jobs=given.number("--jobs", processors, most=64),
        searches=given.number("--searches", max(1, processors // 2), most=64), rate=given.number("--rate", 600, 0, 1_000_000))


def exercises_of(given: Given) -> dict[str, Asked]:
    """Reads the exercises."""
    folder = given.options.get("--exercises", files.EXERCISES)
    found = read_pages(folder)
    if not found and "--exercises" in given.options:
        raise WrongWords(f"{shown(folder)}: no file of it is an exercise, as NAME.md")
    return found


def answers_of(it: Asked) -> Iterator[tuple[str, str, str]]:
    """Yields the answers that an exercise has: what each is, its text, and what has to be said of it, if that is known."""
    if "solution" in it.blocks:
        yield "the solution", it.blocks["solution"], "right"
    for at, (kind, text) in enumerate(it.wrong, 1):
        yield f"wrong answer {at}", text, kind
    if "start" in it.blocks:
        yield "the start", it.blocks["start"], ""


def try_answers(start: list[str], exercises: dict[str, Asked]) -> int:
    """Judges the answers that the exercises have, and returns whether one is judged otherwise than its page says."""
    wrong = 0
    for it in exercises.values():
        for what, text, wanted in answers_of(it):
            verdict = judged_here(start, it, text.encode())
            is_well = verdict.kind == wanted if wanted else not verdict.right
            wrong += not is_well
            told = f"{it.name}: {what}: {'as its page says' if is_well else f'NOT {wanted}'}: {verdict.kind}: {verdict.said}\n"
            failed = write(told)
            if failed:
                return failed
    say(f"{len(exercises)} exercises, {wrong} answers are judged otherwise than their pages say")
    return REFUSED if wrong else 0


def drawn(url: str, *words: str) -> bytes:
    """Returns a picture of an address, or nothing if qrencode is not there."""
    if not shutil.which("qrencode"):
        return b""
    call_of = ["qrencode", *words, "-o", "-", url]
    return subprocess.run(call_of, stdin=subprocess.DEVNULL, capture_output=True, check=False).stdout


def welcome(room: Room, place: Place) -> bytes:
    """Returns what is said at the start."""
    it = room.settings
    is_here = all(one.getsockname()[0] in LOOPBACK for one in place.sockets)
    qr = b"" if is_here or not sys.stdout.isatty() else drawn(place.url, "-t", "ANSIUTF8", "-m", "1")
    said = [f"for students:  {place.url}", f"for you:       {place.url}teacher#key={it.key}"]
    said += ["only this machine can open it: --listen 0.0.0.0:8712 is for a class"] if is_here else []
    kept = f"are kept in {shown(it.keep)}" if it.keep else "are forgotten at the end"
    names = "are asked for" if it.names else "are not asked for"
    said += [f"{len(room.exercises)} exercises; results {kept}; names {names}"]
    return "".join(f"{one}\n" for one in said).encode() + qr


async def serve(make_room: Callable[[], Room], place: Place) -> int:
    """Serves a class until it is told to stop, and returns the status."""
    ended, room = asyncio.Event(), make_room()
    for number in (signal.SIGINT, signal.SIGTERM, signal.SIGHUP):
        asyncio.get_running_loop().add_signal_handler(number, ended.set)
    service = Service(room.handle, POLICY, BOUNDS, place.hosts)
    listening = [await service.listen(it, place.context) for it in place.sockets]
    for it in listening:
        await it.start_serving()
    failed = write(welcome(room, place))
    notify("READY=1")
    if not failed:
        await ended.wait()
    notify("STOPPING=1")
    # (whatever happens from here on, the system ends this process in time)
    signal.signal(signal.SIGALRM, signal.SIG_DFL)
    signal.alarm(END_OF_ALL)
    for it in listening:
        it.close()
    return failed or await end(room, service)


async def end(room: Room, service: Service) -> int:
    """Ends processes and connections, each in its time, and returns the status."""
    room.children.kill()
    if not await service.end(END_OF_TASKS):
        say(f"{len(service.tasks)} connections did not end")
    is_well = not service.tasks
    # (a connection may have started one more before it ended)
    if not room.children.end(END_OF_CHILDREN):
        say(f"{len(room.children.all)} processes did not end")
        is_well = False
    room.results.close()
    return 0 if is_well else FAULT


def call(start: list[str], words: list[str]) -> int:
    """Serves a class until it is told to stop, or judges the answers of its exercises, and returns the status."""
    given = read_options(words, WITH_VALUE, WITHOUT, SEVERAL)
    if given.others:
        raise WrongWords(f"unexpected argument '{given.others[0]}' found")
    try:
        exercises = exercises_of(given)
        if "--try" in given.options:
            return try_answers(start[:1], exercises)
        settings = settings_of(given)
        place = place_of(given)
    except Unusable as why:
        say(why)
        return REFUSED
    except OSError as fault:
        say(f"{shown(os.fsdecode(fault.filename))}: {fault.strerror}" if fault.filename else fault)
        return DEVICE
    settings.url = place.url
    allow_files(BOUNDS.connections + 16 * (settings.jobs + settings.searches))
    served, examples, picture = files.read_files(), files.read_examples(), drawn(place.url, "-t", "SVG", "-m", "2")
    try:
        return asyncio.run(serve(lambda: Room(settings, exercises, served, examples, picture), place))
    except sqlite3.Error as fault:
        say(f"{shown(settings.keep or '')}: {fault}")
        return DEVICE
