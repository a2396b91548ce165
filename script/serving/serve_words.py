"""The words of `./parbegin serve`."""
from __future__ import annotations

import os
import re
import socket
import ssl
from collections.abc import Sequence
from pathlib import Path

from script.options import Given, WrongWords, read_options
from script.serving import listening
from script.serving.amounts import read_amounts
from script.serving.etcd import Where
from script.serving.gateway import Access
from script.serving.server import Limits, Tokens
from script.serving.words import MAX_CLIENTS, MAX_SESSIONS

USE = 'parbegin serve --journal DIR --socket PATH --capital "K R, .."'
HELP = """Answer many clients from one bank, which a journal keeps

Usage: parbegin serve [OPTIONS] --journal DIR
       parbegin serve [OPTIONS] --etcd HOST:PORT,.. --advertise ADDRESS

Each command that changes the bank is written to the journal, then given to the bank, then answered. A start goes on where
the journal ends. `parbegin hold` is a client; docs/SERVING.md has the lines that others send.

Options:
      --journal <DIR>       The folder of the journal, which is made if it is not there
      --socket <PATH>       Answer at a socket of Unix
      --mode <MODE>         The permissions of the socket [default: 600]
      --capital <AMOUNTS>   What there is, as "1 tape, 2 disk": counts at the first start, and must stay the same
      --tcp <HOST:PORT>     Answer over TCP: with the next three over TLS, else on this machine alone
      --cert <FILE>         The certificate of the server
      --key <FILE>          The key of the certificate
      --tokens <FILE>       The SHA-256 of a token in each line; a client says the token first
      --operators <FILE>    The same of operators, who may change the capital
      --http <HOST:PORT>    A page that shows the bank, /state, /events, /metrics for Prometheus, /health
      --clients <COUNT>     The most connections [default: 1024]
      --sessions <COUNT>    The most sessions [default: 1024]
      --snapshot-every <N>  Batches between two snapshots of the journal [default: 2000]
  -h, --help                Print help

Several machines, of which one leads, with the journal in etcd:
      --etcd <HOST:PORT,..> The members of etcd, in the place of --journal
      --advertise <ADDRESS> What clients are told if this server leads, as tls:HOST:PORT
      --name <NAME>         The name of this server [default: the machine and the process]
      --prefix <PREFIX>     What all keys begin with [default: /parbegin]
      --lead-for <SECONDS>  The lease of the leader: another one leads so long after it was killed [default: 5]
      --etcd-ca <FILE>      The certificate of who signed those of the members: they are called over TLS
      --etcd-cert <FILE>    The certificate of this client of etcd
      --etcd-key <FILE>     The key of it
      --etcd-user <NAME>    The user of etcd
      --etcd-password <FILE>  The file with the user's password

Of a journal, without serving:
      --backup <FILE>       Copy the journal to a file, also while a server has it
      --restore <FILE>      Make the journal of such a file, in a folder that has none
      --replay              Give the journal to this version of the bank, and say what it leads to
"""
OF_TLS = ("--cert", "--key", "--tokens")
OF_ETCD = (
    "--advertise", "--name", "--prefix", "--lead-for", "--etcd-ca", "--etcd-cert", "--etcd-key", "--etcd-user", "--etcd-password",
)
WITHOUT_SERVING = ("--backup", "--restore", "--replay")
WITH_VALUE = (
    "--journal", "--socket", "--mode", "--capital", "--tcp", "--http", "--clients", "--sessions", "--snapshot-every", "--operators",
    "--etcd", "--backup", "--restore", *OF_TLS, *OF_ETCD,
)
MIN_TERM, TERM, MAX_TERM = 2, 5, 3_600
# What is an address of a server: it stands in a line of the protocol.
ADDRESS = re.compile(r"[!-+\--~]+")


def together(given: Given, names: Sequence[str], told: str) -> None:
    """Refuses some of these options without the others."""
    there = [it for it in names if it in given.options]
    if there and len(there) < len(names):
        raise WrongWords(told)


def read_words(words: list[str]) -> tuple[Given, Limits]:
    """Reads the words of a call."""
    given = read_options(words, WITH_VALUE, without=("--replay",))
    options = given.options
    if given.others:
        raise WrongWords(f"unexpected argument '{given.others[0]}' found")
    if "--journal" not in options and "--etcd" not in options:
        raise WrongWords("the following required arguments were not provided: --journal <DIR>")
    if {"--journal", "--etcd"} <= options.keys():
        raise WrongWords("the journal is in '--journal' or in '--etcd', not in both")
    refuse_alone(given)
    is_reached = {"--socket", "--tcp", *WITHOUT_SERVING} & options.keys()
    if not is_reached and "LISTEN_FDS" not in os.environ:
        raise WrongWords("nobody can reach the server: give '--socket' or '--tcp'")
    if not re.fullmatch("[0-7]{3,4}", options.get("--mode", "600")):
        raise WrongWords(f"invalid value '{options['--mode']}' for '--mode': it is an octal number as 660")
    limits = Limits(
        given.number("--clients", MAX_CLIENTS, most=65_536), given.number("--sessions", MAX_SESSIONS, most=65_536),
        given.number("--snapshot-every", Limits.snapshot_every),
    )
    return given, limits


def refuse_alone(given: Given) -> None:
    """Refuses options that mean something with others alone."""
    options = given.options
    together(given, OF_TLS, "'--cert', '--key' and '--tokens' belong together, and to '--tcp'")
    together(given, ("--etcd-cert", "--etcd-key"), "'--etcd-cert' and '--etcd-key' belong together")
    together(given, ("--etcd-user", "--etcd-password"), "'--etcd-user' and '--etcd-password' belong together")
    if "--cert" in options and "--tcp" not in options:
        raise WrongWords("'--cert', '--key' and '--tokens' belong together, and to '--tcp'")
    for name in OF_ETCD:
        if name in options and "--etcd" not in options:
            raise WrongWords(f"'{name}' belongs to '--etcd'")
    if "--etcd-cert" in options and "--etcd-ca" not in options:
        raise WrongWords("'--etcd-cert' wants '--etcd-ca'")
    aside = [it for it in WITHOUT_SERVING if it in options]
    if len(aside) > 1 or aside and "--etcd" in options and aside != ["--replay"]:
        raise WrongWords("'--backup' and '--restore' are of '--journal', and one at a time")
    if "--etcd" in options and not aside and not ADDRESS.fullmatch(options.get("--advertise", "")):
        raise WrongWords("'--etcd' wants '--advertise': where clients reach this server, as tls:HOST:PORT")


def capital_of(text: str | None) -> list[str]:
    """Returns the commands that declare what there is."""
    try:
        return [f"resource {name} {amount}" for name, amount in read_amounts(text).items()] if text is not None else []
    except ValueError as wrong:
        raise WrongWords(f"invalid value for '--capital': {wrong}") from wrong


def network_of(options: dict[str, str]) -> listening.Network | None:
    """Returns where TCP is to be answered, if it is."""
    if "--tcp" not in options:
        return None
    return listening.read_network(options["--tcp"], options.get("--cert"), options.get("--key"))


def tokens_of(options: dict[str, str]) -> Tokens:
    """Returns whom the server lets in."""
    read = [listening.read_tokens(options[name]) if name in options else frozenset[str]() for name in ("--tokens", "--operators")]
    return Tokens(*read)


def access_of(options: dict[str, str]) -> Access:
    """Returns how etcd is reached."""
    members = [":".join(map(str, listening.read_address(it))) for it in options["--etcd"].split(",")]
    context = None
    if "--etcd-ca" in options:
        try:
            context = ssl.create_default_context(cafile=options["--etcd-ca"])
            if "--etcd-cert" in options:
                context.load_cert_chain(options["--etcd-cert"], options["--etcd-key"])
        except ssl.SSLError as fault:
            raise WrongWords(f"the certificates for etcd cannot be used: {fault.reason}") from fault
    password = ""
    if "--etcd-password" in options:
        password = Path(options["--etcd-password"]).read_text(encoding="utf-8").rstrip("\n")
    return Access(members, context, options.get("--etcd-user", ""), password)


def where_of(given: Given) -> Where:
    """Returns where the log is, and who this server is."""
    options = given.options
    name = options.get("--name", f"{socket.gethostname()}.{os.getpid()}")
    prefix = options.get("--prefix", "/parbegin")
    if not ADDRESS.fullmatch(name) or not ADDRESS.fullmatch(prefix):
        raise WrongWords("'--name' and '--prefix' are one word each")
    lease = given.number("--lead-for", TERM, MIN_TERM, MAX_TERM)
    return Where(access_of(options), prefix, name, options.get("--advertise", ""), lease)
