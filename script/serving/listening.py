"""The sockets of a server: of Unix, of TCP with TLS and tokens, and those that systemd has opened."""
from __future__ import annotations

import asyncio
import os
import re
import socket
import ssl
import stat
from functools import partial
from pathlib import Path
from typing import NamedTuple

from script.hosting import LOOPBACK, read_address, tls_context
from script.options import WrongWords
from script.serving.server import Server
from script.serving.words import MAX_LINE

BACKLOG = 1_024
# The first file that systemd hands on.
FIRST_HANDED = 3
# Seconds for the greeting of TLS.
GREETING = 5


class Network(NamedTuple):
    """Where TCP is answered: with TLS, or in the clear on this machine alone."""

    host: str
    port: int
    context: ssl.SSLContext | None


def read_tokens(file: str) -> frozenset[str]:
    """Reads the SHA-256 of tokens, one a line."""
    tokens = frozenset(Path(file).read_text(encoding="utf-8").split())
    if not tokens or not all(re.fullmatch("[0-9a-f]{64}", it) for it in tokens):
        raise WrongWords(f"{file} has not the SHA-256 of a token in each line, as sha256sum writes it")
    return tokens


def read_network(address: str, cert: str | None, key: str | None) -> Network:
    """Returns where TCP is answered. Without TLS only this machine is."""
    host, port = read_address(address)
    if cert is None and host not in LOOPBACK:
        raise WrongWords("TCP to other machines wants TLS: '--cert', '--key' and '--tokens'")
    return Network(host, port, None if cert is None else tls_context(cert, key))


def free_path(path: str) -> None:
    """Removes the socket of a server that has ended. Raises WrongWords if another one answers there."""
    if not os.path.lexists(path):
        return
    if not stat.S_ISSOCK(os.lstat(path).st_mode):
        raise WrongWords(f"{path} is there, and is no socket")
    with socket.socket(socket.AF_UNIX) as tried:
        if tried.connect_ex(path) == 0:
            raise WrongWords(f"another server answers at {path}")
    os.unlink(path)


async def listen_unix(server: Server, path: str, mode: int) -> asyncio.AbstractServer:
    """Answers at a socket of Unix. Whoever may open it is trusted."""
    free_path(path)
    mask = os.umask(0o777 & ~mode)
    try:
        accept = partial(server.accept, is_trusted=True)
        return await asyncio.start_unix_server(accept, path, limit=MAX_LINE, backlog=BACKLOG, start_serving=False)
    finally:
        os.umask(mask)


async def listen_network(server: Server, network: Network) -> asyncio.AbstractServer:
    """Answers over TCP: with TLS, to who says a token."""
    accept = partial(server.accept, is_trusted=not server.tokens.clients)
    greeting = GREETING if network.context else None
    return await asyncio.start_server(
        accept, network.host, network.port, ssl=network.context, limit=MAX_LINE, backlog=BACKLOG, ssl_handshake_timeout=greeting,
        start_serving=False,
    )


def handed() -> list[socket.socket]:
    """Returns the sockets that systemd has opened for this process."""
    if os.environ.get("LISTEN_PID") != str(os.getpid()):
        return []
    return [socket.socket(fileno=FIRST_HANDED + at) for at in range(int(os.environ.get("LISTEN_FDS", "0")))]


async def listen_handed(server: Server) -> list[asyncio.AbstractServer]:
    """Answers at the sockets that systemd has opened, which are of Unix."""
    accept = partial(server.accept, is_trusted=True)
    return [await asyncio.start_unix_server(accept, sock=it, limit=MAX_LINE, start_serving=False) for it in handed()]
