"""The rows of worked_rows.txt: calls with the values that TS 38.212 gives by hand."""

from __future__ import annotations

import typing
import unittest

import clib
from clib import made

ROWS = [line.split() for line in (clib.HERE / "worked_rows.txt").read_text().splitlines() if line and line[0] != "#"]


def numbers(rate2048: int, a: int) -> list[int]:
    """What nr_plan writes of a transport block."""
    return clib.written(clib.struct(12), "nr_plan", rate2048, a).numbers()


def crc(octets: str) -> list[str]:
    """CRC24A, CRC24B and CRC16 of octets in hexadecimal."""
    given = bytes.fromhex(octets.strip("-"))
    return [f"{clib.written(clib.struct(), 'nr_crc', poly, given).numbers()[0]:x}" for poly in range(3)]


def plan(rate2048: str, a: str) -> list[object]:
    """The base graph, B, L, C, K', Kb, Zc, the set, K and N of a transport block; or the error."""
    room = clib.struct(12)
    status = clib.call("nr_plan", int(rate2048), int(a), room)
    return ["error", status] if status else [*room.numbers()[:10]]


def buffer(lbrm: str) -> list[int]:
    """Of a code block of 40 bits: Ncb, how many of these bits are no fillers, and where the redundancy versions begin."""
    link = clib.settings(2048, int(lbrm))
    each = [clib.written(clib.struct(4), "nr_buffer", link, 24, rv).numbers() for rv in range(4)]
    places = clib.written(clib.Room(400, item=4), "nr_places", link, 24, clib.tx(400)).numbers()
    return [each[0][0], places.index(places[0], 1), *(k0 for _, k0, *_ in each)]


def select(lbrm: str, rv: str, e: str, ones: str) -> list[int]:
    """The places, of those that are selected of this code block, at which the bits of d are that are one here."""
    d = bytearray(26) + bytes([2]) * 30 + bytes(294)
    for one in ones.split(","):
        d[int(one)] = 1
    found = made(int(e), "nr_select", clib.settings(2048, int(lbrm)), 24, int(rv), bytes(d))
    return [place for place, bit in enumerate(found) if bit]


def interleave(qm: str, bits: str) -> list[str]:
    """Bits in the order in which they are sent."""
    return ["".join(map(str, made(len(bits), "nr_interleave", int(qm), bytes(map(int, bits)))))]


def owner(a: str, g: str, blocks: str, place: str) -> list[int]:
    """The code block that a place of G is of, at 4 bits a symbol, and the bit of d there: d_0 is at its first place."""
    tx = clib.tx(int(g), qm=4, blocks=None if blocks == "-" else map(int, blocks.split(",")))
    found = clib.written(clib.Room(tx.g, item=4), "nr_places", clib.settings(512), int(a), tx).numbers()
    return list(divmod(found[int(place)], numbers(512, int(a))[9]))


CALLS: dict[str, typing.Callable[..., typing.Sequence[object]]] = {
    "crc": crc, "plan": plan, "buffer": buffer, "select": select, "interleave": interleave, "owner": owner,
}


class WorkedRows(unittest.TestCase):
    """One call a row."""

    def test_rows(self) -> None:
        for name, *words in ROWS:
            at = words.index("=")
            with self.subTest(name=name, given=words[:at]):
                self.assertEqual([str(it) for it in CALLS[name](*words[:at])], words[at + 1 :])

    def test_sizes_of_the_base_graphs(self) -> None:
        """46 rows and 68 columns, 22 of them for information; 42, 52 and 10. Two columns are punctured (5.3.2)."""
        for rate2048, wanted in [(2048, (46, 68, 22)), (512, (42, 52, 10))]:
            z, _, k, n = numbers(rate2048, 3824)[6:10]
            columns, information = n // z + 2, k // z
            self.assertEqual((columns - information, columns, information), wanted)

    def test_cut(self) -> None:
        """Each of two code blocks has its own CRC, and octet 241 begins the second one. A single one has none of its own."""
        for r, first in enumerate([0, 241]):
            bits = "".join(map(str, made(1952, "nr_cut", 512, bytes(i % 251 for i in range(479)), r)))
            octets = bytes(int(bits[at : at + 8], 2) for at in range(0, 1952, 8))
            self.assertEqual((octets[0], crc(octets.hex())[1]), (first, "0"))
        self.assertEqual(made(24, "nr_cut", 2048, b"\1", 0), bytes(map(int, f"{0x011021:024b}")))
