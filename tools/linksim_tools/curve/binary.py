"""The SHA-256 of what is loaded of a program or library. Stripping a file of its symbols, as packages do, does not change that."""

from __future__ import annotations

import hashlib
import pathlib
import struct

from linksim_tools.common.program import Failed

MAGIC = b"\x7fELF\x02\x01"

# Where a 64-bit ELF header says where its section headers are, and how many they are: these are not loaded, and strip moves them.
SECTIONS = ((0x28, 8), (0x3A, 6))
LOADED = 1


def loaded_part(octets: bytes) -> bytes:
    """What is loaded of a little-endian 64-bit ELF file; all of any other file."""
    if not octets.startswith(MAGIC) or len(octets) < 64:
        return octets
    head = bytearray(octets[:64])
    for start, size in SECTIONS:
        head[start : start + size] = bytes(size)
    octets = bytes(head) + octets[64:]
    table, size, count = *struct.unpack_from("<Q", octets, 0x20), *struct.unpack_from("<HH", octets, 0x36)
    found = []
    for number in range(count):
        try:
            kind, _, start, _, _, length = struct.unpack_from("<IIQQQQ", octets, table + number * size)
        except struct.error:
            return octets
        if kind == LOADED:
            found.append(octets[start : start + length])
    return b"".join(found) or octets


def sha256_of(path: pathlib.Path) -> str:
    """That digest in hexadecimal."""
    try:
        return hashlib.sha256(loaded_part(path.read_bytes())).hexdigest()
    except OSError as error:
        raise Failed(f"{path}: {error.strerror}") from None
