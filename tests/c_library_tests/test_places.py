"""Which bit each place of a transmission carries: nr_places, against the model, nr_match and nr_send."""

from __future__ import annotations

import random
import typing
import unittest

import clib
from clib import made
from model import clauses, coding, encoder

SETTINGS = clib.settings(2048)
# Lifting sizes by base graph, each with the size of a transport block that has it and a code rate.
Sizes = typing.Dict[typing.Tuple[int, int], typing.Tuple[int, int]]


def sizes() -> Sizes:
    """A transport block for each base graph and lifting size that one has, with few fillers or many."""
    found: Sizes = {}
    for rate2048, most in [(2048, 8424), (512, 3816)]:
        for a in range(8, most + 1, 8):
            numbers = coding.plan(a, rate2048)
            if numbers and (a % 3 or (numbers["graph"], numbers["z"]) not in found):
                found[numbers["graph"], numbers["z"]] = a, rate2048
    return found


def even(most: int, rate2048: int) -> int:
    """The greatest size up to this whose code blocks are equally long."""
    return next(a for a in range(most, 0, -8) if coding.plan(a, rate2048))


def expected(a: int, rate2048: int, tx: clib.Tx, lbrm: int = 0) -> list[int]:
    """The index of the bit at each place, by the clauses (5.4.2, 5.5)."""
    numbers = coding.plan(a, rate2048)
    n, first = numbers["n"], 2 * numbers["z"]
    scheduled = [r for r in range(numbers["c"]) if not tx.some or tx.blocks[r // 64] >> r % 64 & 1]
    ncb = clauses.buffer_length(numbers, lbrm or None)
    start = clauses.start(numbers, ncb, tx.rv)
    # Every code block has its fillers at the same bits, so that parts of one length differ by r N alone.
    d = [None if numbers["kdash"] <= i + first < numbers["k"] else i for i in range(n)]
    parts: dict[int, list[int]] = {}
    indices: list[int] = []
    for r, count in clauses.lengths(tx.g, tx.qm, tx.nl, scheduled).items():
        if count not in parts:
            parts[count] = encoder.interleaved(encoder.selected(d, start, ncb, count), tx.qm)
        indices += [r * n + i for i in parts[count]]
    return indices


def places(a: int, rate2048: int, tx: clib.Tx, lbrm: int = 0) -> list[int]:
    """What nr_places writes."""
    return clib.written(clib.Room(tx.g, item=4), "nr_places", clib.settings(rate2048, lbrm), a, tx).numbers()


class Places(unittest.TestCase):
    """The index of the bit at each place."""

    def check(self, a: int, rate2048: int, tx: clib.Tx, lbrm: int = 0) -> None:
        with self.subTest(a=a, rate2048=rate2048, rv=tx.rv, g=tx.g, qm=tx.qm, nl=tx.nl, some=tx.some, lbrm=lbrm):
            self.assertEqual(places(a, rate2048, tx, lbrm), expected(a, rate2048, tx, lbrm))

    def test_by_hand(self) -> None:
        """A = 8 at rate 1: Zc is 4, K' 24 and K 40, so that d has fillers at 16 to 31 of its 200 bits."""
        ring = [*range(16), *range(32, 200)]
        self.assertEqual(places(8, 2048, clib.tx(400)), (ring * 3)[:400])
        # 13, 25 and 43 times 200, by 200, are the columns at which the other versions begin.
        for rv, begin in [(1, 52), (2, 100), (3, 172)]:
            self.assertEqual(places(8, 2048, clib.tx(28, rv)), (ring + ring)[ring.index(begin) :][:28])
        # Two rows of three, read by columns; a buffer of 40 bits has 24 that are no fillers.
        self.assertEqual(places(8, 2048, clib.tx(6, 0, 2)), [0, 3, 1, 4, 2, 5])
        self.assertEqual(places(8, 2048, clib.tx(26), 27), [*range(16), *range(32, 40), 0, 1])

    def test_each_lifting_size(self) -> None:
        """Each redundancy version, with a limit and without, and with repetition. No transport block has 5 of the 51 sizes, since
        the K' bits of a single code block are whole octets; nr_match is tested with them."""
        draw, found = random.Random(5), sizes()
        self.assertEqual(set(coding.SETS) - {z for _, z in found}, {2, 3, 5, 9, 13})
        for (_, z), (a, rate2048) in found.items():
            n = coding.plan(a, rate2048)["n"]
            for rv in range(4):
                qm, nl = draw.choice([1, 2, 4, 6, 8]), draw.randrange(1, 5)
                most = draw.choice([n // 4, n, 5 * n // 2]) // (qm * nl)
                lbrm = draw.choice([0, draw.randrange(1, 2 * z), draw.randrange(1, n), draw.randrange(1, 2 * n)])
                self.check(a, rate2048, clib.tx(qm * nl * max(1, most), rv, qm, nl), lbrm)

    def test_masks(self) -> None:
        """Several code blocks, all of them and drawn ones, some of which get no bit."""
        draw = random.Random(6)
        for most, rate2048 in [(3840, 512), (16000, 1024), (25104, 1365), (319784, 1400), (1277992, 1400), (1310720, 512)]:
            a = even(most, rate2048)
            c = coding.plan(a, rate2048)["c"]
            masks = [None, [c - 1], range(0, c, 2), sorted(draw.sample(range(c), (c + 1) // 2)), [*range(c), c, 383]]
            for blocks in masks:
                qm, nl = draw.choice([1, 2, 4, 6, 8]), draw.randrange(1, 5)
                for symbols in (1, c, draw.randrange(1, 4000)):
                    tx = clib.tx(qm * nl * symbols, draw.randrange(4), qm, nl, blocks)
                    self.check(a, rate2048, tx, draw.choice([0, draw.randrange(2 * c, 3 * a)]))

    def test_largest(self) -> None:
        """The longest block and the most bits that one transmission sends."""
        self.check(even(1310720, 1920), 1920, clib.tx(4_194_304, 2, 8, 4))

    def test_as_nr_match(self) -> None:
        """The same map by 15 calls of nr_match, each over one bit of the index of every d_n."""
        draw = random.Random(7)
        for (graph, z), (a, rate2048) in draw.sample(sorted(sizes().items()), 12):
            numbers = coding.plan(a, rate2048)
            n, kdash, k = numbers["n"], numbers["kdash"], numbers["k"]
            tx, lbrm = clib.tx(6 * draw.randrange(1, n), draw.randrange(4), 6), draw.randrange(1, n)
            ncb = clauses.buffer_length(numbers, lbrm)
            match, found = clib.matching(graph, z, k - kdash, ncb, tx.rv, tx.qm), [0] * tx.g
            for place in range(15):
                d = bytes(2 if kdash <= i + 2 * z < k else i >> place & 1 for i in range(n))
                found = [it | bit << place for it, bit in zip(found, made(tx.g, "nr_match", match, d))]
            self.assertEqual(places(a, rate2048, tx, lbrm), found)

    def test_names_the_bit_that_is_sent(self) -> None:
        """At each place nr_send sends the bit of d that the index names, as nr_codeword writes it."""
        draw, table = random.Random(8), clib.table(clib.PRACTICE.read_bytes() + clib.DRAWN.read_bytes())
        for octets, rate2048 in [(1, 2048), (9, 2048), (478, 2048), (479, 512), (1065, 2048), (1533, 1024)]:
            block, a = draw.randbytes(octets), 8 * octets
            numbers = coding.plan(a, rate2048)
            cut = (made(numbers["kdash"], "nr_cut", rate2048, block, r) for r in range(numbers["c"]))
            d = b"".join(made(numbers["n"], "nr_codeword", table, rate2048, a, bits) for bits in cut)
            for rv in range(4):
                tx, lbrm = clib.tx(8 * draw.randrange(1, 900), rv, 4, 2), draw.choice([0, 16 * octets + 8])
                sent = made(tx.g, "nr_send", table, clib.settings(rate2048, lbrm), block, tx)
                self.assertEqual(bytes(d[index] for index in places(a, rate2048, tx, lbrm)), sent)


class Rejected(unittest.TestCase):
    """The errors in their order; nothing is written then."""

    def refused(self, status: int, settings: typing.Any, a: int, tx: clib.Tx, room: int) -> None:
        out = clib.Room(room, item=4)
        self.assertEqual(clib.call("nr_places", settings, a, tx, out), status)
        self.assertTrue(out.is_unwritten())

    def test_in_order(self) -> None:
        wrong = clib.tx(23, rv=4, qm=3, nl=5, blocks=[])
        for status, settings, a in [
            (40, clib.settings(0, 1), 7), (40, clib.settings(0, 1), 1310728), (40, clib.settings(0, 1), 0xFFFFFFF8),
            (41, clib.settings(0, 1), 7640), (41, clib.settings(2049, 1), 7640), (45, clib.settings(512, 1), 7640),
            (47, clib.settings(512, 1), 8 * 479),
        ]:
            self.refused(status, settings, a, wrong, 23)
        for status, tx in clib.WRONG:
            self.refused(status, SETTINGS, 8, tx, 7)
        for room in (0, 23, 25):
            self.refused(2, SETTINGS, 8, clib.tx(24), room)
