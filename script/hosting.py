"""What every server of the script needs: addresses, sockets, TLS, enough files, and words to systemd."""
from __future__ import annotations

import errno
import os
import resource
import socket
import ssl
from collections.abc import Iterator
from contextlib import contextmanager
from typing import Any

from script.options import WrongWords

LOOPBACK = ("localhost", "127.0.0.1", "::1")
# The files of a server beside its connections.
SPARE_FILES = 128


def read_address(text: str) -> tuple[str, int]:
    """Reads `HOST:PORT`."""
    host, _, port = text.rpartition(":")
    if not host or not (port.isascii() and port.isdigit()) or int(port) > 65_535:
        raise WrongWords(f"'{text}' is no address, as 'localhost:4004'")
    return host.strip("[]"), int(port)


def tls_context(cert: str, key: str | None) -> ssl.SSLContext:
    """Returns what TLS needs of a certificate and its key."""
    context = ssl.SSLContext(ssl.PROTOCOL_TLS_SERVER)
    try:
        context.load_cert_chain(cert, key)
    except ssl.SSLError as fault:
        raise WrongWords(f"{cert} and {key} are no certificate with its key: {fault.reason}") from fault
    return context


def bound_sockets(host: str, port: int) -> list[socket.socket]:
    """Returns sockets of TCP at the addresses of a host that this machine has, at one port: whichever is free, if it is 0.
    Nothing listens yet."""
    found: list[socket.socket] = []
    try:
        named = socket.getaddrinfo(host, port, type=socket.SOCK_STREAM, flags=socket.AI_PASSIVE)
        for family, kind, number, _, address in named:
            chosen = found[0].getsockname()[1] if found else port
            with suppress_missing():
                found.append(bound_socket(family, kind, number, (address[0], chosen, *address[2:])))
    except OSError as fault:
        for it in found:
            it.close()
        raise OSError(fault.errno, fault.strerror, f"{host}:{port}") from fault
    if not found:
        raise OSError(errno.EADDRNOTAVAIL, os.strerror(errno.EADDRNOTAVAIL), f"{host}:{port}")
    return found


@contextmanager
def suppress_missing() -> Iterator[None]:
    """Goes on after an address that this machine has not."""
    try:
        yield
    except OSError as fault:
        if fault.errno not in (errno.EADDRNOTAVAIL, errno.EAFNOSUPPORT):
            raise


def bound_socket(family: int, kind: int, number: int, address: tuple[Any, ...]) -> socket.socket:
    """Returns a socket at an address."""
    it = socket.socket(family, kind, number)
    try:
        it.setsockopt(socket.SOL_SOCKET, socket.SO_REUSEADDR, 1)
        if family == socket.AF_INET6:
            it.setsockopt(socket.IPPROTO_IPV6, socket.IPV6_V6ONLY, 1)
        it.bind(address)
    except OSError:
        it.close()
        raise
    return it


def allow_files(clients: int) -> None:
    """Lets this process have as many files as its clients need, as far as it may."""
    soft, hard = resource.getrlimit(resource.RLIMIT_NOFILE)
    wanted = clients + SPARE_FILES
    if resource.RLIM_INFINITY != soft < wanted:
        most = wanted if hard == resource.RLIM_INFINITY else min(wanted, hard)
        resource.setrlimit(resource.RLIMIT_NOFILE, (max(soft, most), hard))


def notify(text: str) -> None:
    """Tells systemd something, as `READY=1`, if it has asked for that."""
    path = os.environ.get("NOTIFY_SOCKET")
    if not path:
        return
    with socket.socket(socket.AF_UNIX, socket.SOCK_DGRAM | socket.SOCK_CLOEXEC) as it:
        it.connect(f"\0{path[1:]}" if path.startswith("@") else path)
        it.sendall(text.encode())
