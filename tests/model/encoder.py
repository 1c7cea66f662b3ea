"""Another encoder, of plain lists of bits and by the clauses of TS 38.212 alone. What the program and the tools answer
is compared with it."""

from __future__ import annotations

import typing

CRC_24A = (24, 0x864CFB)
CRC_24B = (24, 0x800063)
CRC_16 = (16, 0x1021)


def bits_of(octets: bytes) -> list[int]:
    """The bits of octets, the highest of each first."""
    return [octet >> place & 1 for octet in octets for place in range(7, -1, -1)]


def octets_of(bits: list[int]) -> bytes:
    """The octets of bits, the first of each highest, the last octet filled with zeros."""
    filled = bits + [0] * (-len(bits) % 8)
    return bytes(
        sum(bit << (7 - place) for place, bit in enumerate(filled[at : at + 8])) for at in range(0, len(filled), 8)
    )


def with_crc(bits: list[int], crc: tuple[int, int]) -> list[int]:
    """A list with its parity bits after it (5.1), by long division."""
    length, polynomial = crc
    rest = 0
    for bit in bits + [0] * length:
        rest = rest << 1 | bit
        if rest >> length:
            rest ^= 1 << length | polynomial
    return bits + [rest >> place & 1 for place in range(length - 1, -1, -1)]


def attached(bits: list[int]) -> list[int]:
    """A transport block with its CRC (6.2.1, 7.2.1)."""
    return with_crc(bits, CRC_24A if len(bits) > 3824 else CRC_16)


def rotated(block: list[int], shift: int) -> list[int]:
    """A block times the identity matrix that is shifted to the right (5.3.2)."""
    shift %= len(block)
    return block[shift:] + block[:shift]


def add(block: list[int], other: list[int]) -> list[int]:
    """The sum of two blocks modulo two."""
    return [one ^ two for one, two in zip(block, other)]


def row_sum(columns: dict[int, list[int]], entries: list[tuple[int, list[int]]], index: int) -> list[int]:
    """The sum of a row's entries in the columns that are known; `entries` are pairs of a column and eight values."""
    total = [0] * len(columns[0])
    for column, values in entries:
        if column in columns:
            total = add(total, rotated(columns[column], values[index]))
    return total


def codeword(
    entries: dict[tuple[int, int], list[int]], information: int, index: int, size: int, bits: list[int]
) -> list[int]:
    """The codeword that begins with K bits: all columns, also the two that are not sent. `entries` are by row and
    column, `information` the number of the base graph's information columns."""
    columns = {it: bits[it * size : (it + 1) * size] for it in range(information)}
    rows: dict[int, list[tuple[int, list[int]]]] = {}
    for (row, column), values in sorted(entries.items()):
        rows.setdefault(row, []).append((column, values))
    core = [row_sum(columns, rows[row], index) for row in range(4)]
    shifts = [values[index] % size for row in range(4) for column, values in rows[row] if column == information]
    # Of the three shifts two are equal, whose blocks cancel in the sum of the four rows.
    odd = next(it for it in shifts if shifts.count(it) % 2)
    columns[information] = rotated(add(add(core[0], core[1]), add(core[2], core[3])), -odd)
    for row in range(3):
        columns[information + 1 + row] = row_sum(columns, rows[row], index)
    for row in range(4, len(rows)):
        columns[information + row] = row_sum(columns, rows[row], index)
    return [bit for column in sorted(columns) for bit in columns[column]]


def selected(d: typing.Sequence[int | None], start: int, length: int, count: int) -> list[int]:
    """Bit selection (5.4.2.1): `count` bits of d from `start` on, round a buffer of `length`, without fillers
    (None)."""
    e: list[int] = []
    j = 0
    while len(e) < count:
        bit = d[(start + j) % length]
        if bit is not None:
            e.append(bit)
        j += 1
    return e


def interleaved(e: list[int], qm: int) -> list[int]:
    """Bit interleaving (5.4.2.2): f_(i + j Qm) is e_(i E / Qm + j)."""
    f = [0] * len(e)
    for j in range(len(e) // qm):
        for i in range(qm):
            f[i + j * qm] = e[i * (len(e) // qm) + j]
    return f
