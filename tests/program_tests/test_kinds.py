"""Blocks of each kind: of both base graphs, of each set of lifting sizes, and of one to three code blocks. Each goes
through open, delivered and contradiction. The numbers of the plans are by hand from 5.2.2, 5.3.2 and 6.2.2; the bits
sent are those of the other model."""

from __future__ import annotations

import typing

from model import chain, coding
from programs import Program, Row
from test_cut import cut_by_the_model
from texts import eight, ending, lines
from worked_texts import both_graphs

# The octets, the rate in 2048ths, the base graph, and C, K', Zc and its set index.
KINDS = [
    (1, 2048, 2, [1, 24, 4, 0]),
    (7, 2048, 2, [1, 72, 12, 1]),
    (5, 2048, 2, [1, 56, 10, 2]),
    (8, 2048, 2, [1, 80, 14, 3]),
    (11, 2048, 2, [1, 104, 18, 4]),
    (6, 2048, 2, [1, 64, 11, 5]),
    (17, 2048, 2, [1, 152, 26, 6]),
    (9, 2048, 2, [1, 88, 15, 7]),
    (40, 2048, 1, [1, 336, 16, 0]),
    (60, 2048, 1, [1, 496, 24, 1]),
    (50, 2048, 1, [1, 416, 20, 2]),
    (70, 2048, 1, [1, 576, 28, 3]),
    (43, 2048, 1, [1, 360, 18, 4]),
    (55, 2048, 1, [1, 456, 22, 5]),
    (66, 2048, 1, [1, 544, 26, 6]),
    (37, 2048, 1, [1, 312, 15, 7]),
    (478, 512, 2, [1, 3840, 384, 1]),
    (479, 512, 2, [2, 1952, 208, 6]),
    (954, 512, 2, [3, 2576, 288, 4]),
    (1054, 2048, 1, [2, 4252, 208, 6]),
    (2109, 2048, 1, [3, 5656, 288, 4]),
]

# Ways of sending: the version, the bits of a symbol, and the layers.
WAYS = [(0, 1, 1), (1, 2, 2), (2, 4, 3), (3, 6, 4), (0, 8, 4), (1, 1, 3), (2, 6, 2), (3, 8, 1)]


def octets_of(count: int) -> bytes:
    """The octets of a block: 1, 2, .. 255, 1, .."""
    return bytes(place % 255 + 1 for place in range(count))


def sent_by(
    way: typing.Any, code_blocks: int, least: typing.Any, flipped: frozenset[typing.Any] = frozenset()
) -> typing.Any:
    """A transmission by one of the ways, of at least so many bits of each code block."""
    rv, qm, nl = way
    return chain.Tx(1, rv, code_blocks * -(-least // (qm * nl)) * qm * nl, qm, nl, flipped=flipped)


def transmissions(number: int, plan: dict[str, int]) -> typing.Any:
    """One bit of each code block; then all of them; then a few bits by each way; and then one that is flipped."""
    c = plan["c"]
    last = sent_by((2, 2, 2), c, 25)
    return [
        sent_by((0, 1, 1), c, 1),
        sent_by(WAYS[number % 8], c, plan["n"]),
        *(sent_by(way, c, 25) for way in WAYS),
        sent_by((2, 2, 2), c, 25, frozenset([last.g // c % last.g])),
    ]


def runs(number: int, kind: tuple[int, int, int, list[int]]) -> typing.Iterator[typing.Any]:
    """The rows of `run` after one transmission, two, ten and eleven."""
    octets, rate2048, _, (c, kdash, _, _) = kind
    coded = chain.Coded(both_graphs(), (rate2048, None), octets_of(octets))
    made = transmissions(number, coded.plan)
    text = []
    for t, tx in enumerate(made, 1):
        left = kdash - 1 if t == 1 else 0
        text.append([f"sent {t} 1 {chain.hexadecimal(coded.sent(tx))}", *(f"left {t} 1 {r} {left}" for r in range(c))])
    files = {"table": both_graphs(), "settings": f"rate2048 = {rate2048}\n", "blocks": octets_of(octets).hex()}
    for count in [1, 2, 10, 11]:
        ended = ending({1: "open", 11: "contradiction"}.get(count, "delivered"), count, octets_of(octets).hex(), c)
        schedule = eight(*map(chain.record, made[:count]))
        wanted = lines(*(line for each in text[:count] for line in each), *ended)
        yield Row(f"{octets} octets, {count} transmissions", wanted, schedule=schedule, **files)


class Kinds(Program):
    """Against the table above."""

    def test_cut(self) -> None:
        rows = []
        for octets, rate2048, graph, numbers in KINDS:
            plan = coding.plan(8 * octets, rate2048)
            self.assertEqual([plan[name] for name in ("c", "kdash", "z", "set")], numbers)
            self.assertEqual(plan["graph"], graph)
            block = octets_of(octets)
            text = lines(*cut_by_the_model(1, block, rate2048))
            rows.append(Row(f"{octets} octets", text, blocks=block.hex(), rate=str(rate2048)))
        self.check("cut", rows)

    def test_run(self) -> None:
        for number, kind in enumerate(KINDS):
            self.check("run", list(runs(number, kind)))
