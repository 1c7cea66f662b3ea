"""The fingerprint of a shift table: for each base graph and each set index a digest of a block that is sent with it."""

from __future__ import annotations

import hashlib
import pathlib
import typing

import nr
from linksim_tools.common.graphs import GRAPHS, LARGEST, SETS
from linksim_tools.common.tables import table_at
from linksim_tools.conform.bits import hexadecimal, of_library

# The code rates in 2048ths by which a block of the sizes below takes each base graph (TS 38.212, 6.2.2 and 7.2.2).
RATES = {1: 2048, 2: 512}

DIGITS = 12


def block_bits(graph: int, size: int) -> int:
    """A: the bits of the block that fills all information columns of one code block together with its CRC (5.2.2)."""
    filled = GRAPHS[graph].information * size
    return filled - 24 if filled - 24 > 3824 else filled - 16


def block(graph: int, index: int) -> bytes:
    """The block of a base graph and a set index, in octets."""
    count = block_bits(graph, LARGEST[index]) // 8
    octets = b""
    counter = 0
    while len(octets) < count:
        octets += hashlib.sha256(f"linksim table bg{graph} set{index} {counter}".encode()).digest()
        counter += 1
    return octets[:count]


def digest(table: nr.Table, graph: int, index: int) -> str:
    """The digest of what is sent, in hexadecimal, of the block of a base graph and a set index."""
    tx = nr.Tx(GRAPHS[graph].sent * LARGEST[index])
    sent = hexadecimal(of_library(nr.send(table, block(graph, index), tx, rate2048=RATES[graph])))
    return hashlib.sha256(sent.encode()).hexdigest()[:DIGITS]


def fingerprint(path: str | pathlib.Path) -> typing.Iterator[str]:
    """The lines `graph G set S DIGEST` of each base graph that the table file has."""
    table = table_at(path)
    for graph in [number for number, entries in ((1, table.one), (2, table.two)) if entries]:
        for index in SETS:
            yield f"graph {graph} set {index} {digest(table, graph, index)}"
