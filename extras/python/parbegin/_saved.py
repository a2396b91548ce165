"""The bytes of a bank, as a file has them: a magic word, a version, a length and a checksum, and then the bank."""
from __future__ import annotations

import binascii
import struct

from .answers import Fault

MAGIC = b"PB BANK\n"
VERSION = 1
# The magic word, the version, how many bytes follow, and their CRC-32: numbers of 32 bits, the lowest byte first.
HEAD = struct.Struct("<8sIII")


def seal(bank: bytes) -> bytes:
    """Puts the head before the bytes of a bank."""
    return HEAD.pack(MAGIC, VERSION, len(bank), binascii.crc32(bank)) + bank


def unseal(given: bytes) -> bytes:
    """Returns the bytes behind the head. Raises Fault if they are not whole, or not those that it was written for."""
    if given[: len(MAGIC)] != MAGIC[: len(given)] or not given:
        raise Fault("these are not the bytes of a bank: they do not begin with its magic word")
    if len(given) < HEAD.size:
        raise Fault(f"the bytes of the bank are cut off: there are {len(given)}, and {HEAD.size} are before the bank")
    _, version, length, checksum = HEAD.unpack_from(given)
    if version != VERSION:
        raise Fault(f"the bytes of the bank are of version {version}, and this package reads version {VERSION}")
    bank = given[HEAD.size :]
    if len(bank) != length:
        raise Fault(f"the bytes of the bank are not whole: there are {len(bank)}, and {length} were written")
    if binascii.crc32(bank) != checksum:
        raise Fault("the bytes of the bank are damaged: they are not those of which the checksum was made")
    return bank
