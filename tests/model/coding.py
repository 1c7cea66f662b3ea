"""The chain of TS 38.212 once more, of plain lists and by the clauses alone, as the tests of the tools have its
parts."""

from __future__ import annotations

import csv
import typing

from model import clauses, encoder
from model.clauses import GRAPHS

# The lifting sizes of Table 5.3.2-1, each with its set index.
SETS = {a << j: index for index, a in enumerate((2, 3, 5, 7, 9, 11, 13, 15)) for j in range(8) if a << j <= 384}


def tables(text: bytes) -> dict[int, dict[tuple[int, int], list[int]]]:
    """The entries of a shift table's text, by base graph and then by (row, column)."""
    found: dict[int, dict[tuple[int, int], list[int]]] = {}
    for graph, row, column, *values in csv.reader(text.decode().splitlines()):
        found.setdefault(int(graph), {})[int(row), int(column)] = [int(value) for value in values]
    return found


def graph_of(a: int, rate2048: int) -> int:
    """The base graph (6.2.2, 7.2.2)."""
    return 2 if a <= 292 or a <= 3824 and 100 * rate2048 <= 67 * 2048 or 4 * rate2048 <= 2048 else 1


def plan(a: int, rate2048: int) -> typing.Any:
    """The numbers of segmentation (5.2.2, 5.3.2) in the order of NrPlan, or None if C does not divide B'."""
    graph, b = graph_of(a, rate2048), a + (24 if a > 3824 else 16)
    most = {1: 8448, 2: 3840}[graph]
    c = 1 if b <= most else -(-b // (most - 24))
    crc = 24 if c > 1 else 0
    if (b + c * crc) % c:
        return None
    kdash = (b + c * crc) // c
    kb = 22 if graph == 1 else 10 if b > 640 else 9 if b > 560 else 8 if b > 192 else 6
    z = min(size for size in SETS if kb * size >= kdash)
    numbers = graph, b, crc, c, kdash, kb, z, SETS[z], GRAPHS[graph].information * z, GRAPHS[graph].sent * z
    return dict(zip(("graph", "b", "l", "c", "kdash", "kb", "z", "set", "k", "n"), numbers))


def code_blocks(octets: bytes, numbers: dict[str, int]) -> list[list[int]]:
    """The K' bits of each code block of a transport block."""
    bits = encoder.attached(encoder.bits_of(octets))
    if numbers["c"] == 1:
        return [bits]
    size = len(bits) // numbers["c"]
    return [encoder.with_crc(bits[at : at + size], encoder.CRC_24B) for at in range(0, len(bits), size)]


def coded(
    entries: dict[tuple[int, int], list[int]], numbers: dict[str, int], bits: list[int]
) -> list[int | None]:
    """The N bits d of a code block (5.3.2), None for a filler."""
    fillers = numbers["k"] - numbers["kdash"]
    whole: list[int | None] = []
    whole += encoder.codeword(
        entries, GRAPHS[numbers["graph"]].information, numbers["set"], numbers["z"], bits + [0] * fillers
    )
    whole[numbers["kdash"] : numbers["k"]] = [None] * fillers
    return whole[2 * numbers["z"] :]


def sent(text: bytes, octets: bytes, tx: typing.Any, rate2048: int, lbrm: int = 0) -> bytes:
    """The bits of a transmission (5.4.2, 5.5)."""
    numbers = plan(8 * len(octets), rate2048)
    entries = tables(text)[numbers["graph"]]
    scheduled = [r for r in range(numbers["c"]) if not tx.some or tx.blocks[r // 64] >> r % 64 & 1]
    ncb = clauses.buffer_length(numbers, lbrm or None)
    start = clauses.start(numbers, ncb, tx.rv)
    blocks = code_blocks(octets, numbers)
    bits: list[int] = []
    for r, count in clauses.lengths(tx.g, tx.qm, tx.nl, scheduled).items():
        d = coded(entries, numbers, blocks[r])
        bits += encoder.interleaved(encoder.selected(d, start, ncb, count), tx.qm)
    return bytes(bits)
