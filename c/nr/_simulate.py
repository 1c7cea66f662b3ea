"""Whole simulations: rounds over a link that erases, side by side on all cores."""

from __future__ import annotations

import array
import concurrent.futures
import ctypes
import hashlib
import sys
import typing

from ._arrays import fresh
from ._faults import judge
from ._library import TxStruct, library
from ._records import Simulated, Tx
from ._table import Table, entries_of
from ._values import (Count, Limit, Rate, Rate1024, Rate2048, number, plan_struct, settings, threads_of, threshold_of,
                      tx_struct)

# The library makes so many rounds at a time, a bit each of a word. A call has a multiple of them, at most so many times.
WORD, MOST_WORDS = 64, 16
# So many calls for each thread, so that all end at nearly the same time.
CALLS = 4
# If no more than this share of the first rounds needs a second transmission, rounds are made in two steps.
FEW = 0.125


def simulate(
    table: Table, a: Count, txs: typing.Union[Tx, typing.Iterable[Tx]], *, p: typing.Any, rounds: Count, first: Count = 0,
    seed: Count = 0, chunk: Count = 0, jobs: typing.Optional[Count] = None, rate2048: Rate2048 = None, rate1024: Rate1024 = None,
    rate: Rate = None, lbrm: Limit = None,
) -> Simulated:
    """Rounds, each of a transport block of `a` bits that is sent by `txs` in turn until it is delivered. The link erases each place
    with probability `p`, or with one of its own for each Tx. Returns what came of them, as a Simulated. No block is given: over
    erasures what is delivered depends on the places alone. Ask for a multiple of 64 rounds: the library decodes 64 at once, and fewer
    take about as long. `jobs` threads work side by side, as many as there are cores if it is left out; the answer is the same.

    The threshold t is min(2^32 - 1, round(p 2^32)). erase() draws the places of transmission m of round r, m from 0 and r from
    `first`. Its seed is made of the numbers `seed`, t, `chunk`, r and m, with a space between. It is the first 8 octets of their
    SHA-256, highest first. So the rounds are those of a chunk of tools/curve."""
    structs = [tx_struct(tx) for tx in ([txs] if isinstance(txs, Tx) else txs)]
    thresholds = _thresholds(p, len(structs))
    numbers = [number(name, it, 2**64 - 1) for name, it in (("seed", seed), ("chunk", chunk), ("first", first))]
    link, a, count = settings(rate2048, rate1024, rate, lbrm), number("a", a), number("rounds", rounds)
    seeds = _Seeds(numbers[0], thresholds, numbers[1], numbers[2])
    given, block = (*entries_of(table), ctypes.byref(link), a), (link.rate2048, a)
    work = _Work(given, block, structs, thresholds, plan_struct(*block).c, count, seeds)
    threads = threads_of(jobs)
    probe = min(count, WORD) if len(structs) > 1 else 0
    share = WORD * max(1, min(MOST_WORDS, count // (WORD * CALLS * threads)))
    parts = [range(at, min(at + share, count)) for at in range(probe, count, share)]
    work.make(range(probe))
    make = work.make_by_steps if probe and sum(after != 1 for after in work.delivered(probe)) <= FEW * probe else work.make
    if threads == 1:
        list(map(make, parts))
    else:
        with concurrent.futures.ThreadPoolExecutor(threads) as pool:
            list(pool.map(make, parts))  # a fault of one ends the others, which have not begun
    return Simulated(work.after, work.left, work.erased)


def _thresholds(p: typing.Any, count: int) -> typing.List[int]:
    """The thresholds of so many transmissions, of one probability or of one for each."""
    if isinstance(p, (str, bytes)):
        raise TypeError(f"p is {p!r}, and not a number")
    is_one = not isinstance(p, typing.Iterable) or getattr(p, "ndim", 1) == 0
    chances = [p] * count if is_one else list(p)
    if len(chances) != count:
        raise ValueError(f"p has {len(chances)} probabilities, and not {count}")
    return [threshold_of(chance) for chance in chances]


class _Seeds:
    """The seeds of the transmissions of rounds."""

    def __init__(self, seed: int, thresholds: typing.List[int], chunk: int, first: int) -> None:
        starts = {threshold: hashlib.sha256(b"%d %d %d " % (seed, threshold, chunk)) for threshold in thresholds}
        self.starts, self.first = [(starts[threshold], b"%%d %d" % at) for at, threshold in enumerate(thresholds)], first

    def of(self, turns: typing.Iterable[int], sent: int) -> "array.array[int]":
        """Those of the first `sent` transmissions of some rounds."""
        starts, digests = self.starts[:sent], []
        for turn in turns:
            for start, rest in starts:
                digest = start.copy()
                digest.update(rest % (self.first + turn))
                digests.append(digest.digest())
        # The first 8 octets of each 32.
        found = array.array("Q", b"".join(digests))[::4]
        if sys.byteorder == "little":
            found.byteswap()
        return found


class _Work:
    """What the calls of all threads are given, and what comes of their rounds."""

    def __init__(
        self, given: typing.Tuple[typing.Any, ...], block: typing.Tuple[int, int], txs: typing.List[typing.Any],
        thresholds: typing.List[int], c: int, rounds: int, seeds: _Seeds,
    ) -> None:
        self.given, self.block, self.sent, self.c, self.seeds = given, block, len(txs), c, seeds
        self.txs, self.thresholds = (TxStruct * len(txs))(*txs), (ctypes.c_uint32 * len(txs))(*thresholds)
        made = [fresh(shape) for shape in ((rounds,), (rounds, len(txs), c), (rounds, len(txs), c))]
        (self.after, self.left, self.erased), self.places = zip(*made)

    def delivered(self, count: int) -> typing.Iterable[int]:
        """After how many transmissions each of the first rounds was delivered."""
        return typing.cast("typing.Iterable[int]", (ctypes.c_uint32 * count).from_address(self.places[0])) if count else ()

    def call(self, turns: typing.Iterable[int], sent: int, rooms: typing.List[int]) -> None:
        """Makes rounds of the first `sent` transmissions. `rooms` has the address and the length of each result."""
        seeds = self.seeds.of(turns, sent)
        txs = self.txs, sent, self.thresholds, sent
        judge(library.nr_simulate(*self.given, *txs, seeds.buffer_info()[0], len(seeds), *rooms), block=self.block)

    def make(self, part: range) -> None:
        """Makes some rounds, and writes what comes of them to where they stand."""
        sizes = 1, self.sent * self.c, self.sent * self.c
        rooms = [it for place, size in zip(self.places, sizes) for it in (place + 4 * part.start * size, len(part) * size)]
        self.call(part, self.sent, rooms)

    def apart(self, turns: typing.Sequence[int], sent: int) -> "typing.List[array.array[int]]":
        """Results of some rounds with their first `sent` transmissions, in arrays of their own."""
        found = [array.array("I", bytes(4 * len(turns) * size)) for size in (1, sent * self.c, sent * self.c)]
        self.call(turns, sent, [it for room in found for it in room.buffer_info()])
        return found

    def make_by_steps(self, part: range) -> None:
        """The same, if few rounds go on: the first transmission of all, and then all transmissions of those that go on. So most
        later transmissions need no seeds."""
        row, c = self.sent * self.c, self.c
        whole = [array.array("I", bytes(4 * len(part) * size)) for size in (1, row, row)]
        after, *others = self.apart(part, 1)
        whole[0][:] = after
        for room, some in zip(whole[1:], others):
            for r in range(c):
                room[r::row] = some[r::c]
        seats = [seat for seat, number in enumerate(after) if not number]
        after, *others = self.apart([part[seat] for seat in seats], self.sent)
        for at, seat in enumerate(seats):
            whole[0][seat] = after[at]
            for room, some in zip(whole[1:], others):
                room[seat * row : (seat + 1) * row] = some[at * row : (at + 1) * row]
        for place, room, size in zip(self.places, whole, (1, row, row)):
            ctypes.memmove(place + 4 * part.start * size, room.buffer_info()[0], 4 * len(room))
