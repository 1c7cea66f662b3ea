"""Drafts of cases: transmissions of one block, of which so little arrives that every value is needed. It is searched by
whole columns on the base graph: a column is known or not."""

from __future__ import annotations

import collections
import dataclasses
import functools
import itertools
import math
import random
import typing

from linksim_tools.conform.receiver import steps
from linksim_tools.conform.receiver.reception import Arrival

if typing.TYPE_CHECKING:
    from linksim_tools.conform.receiver.chain import Receiver

# A column of a transmission's values: which transmission, which column, which copy of it.
Group = typing.Tuple[int, int, int]
# How much a column is wanted: the lowest first. It is given the transmission, the column counted from the first parity
# column, and the copy.
Wanted = typing.Callable[[int, int, int], typing.Any]

Item = typing.TypeVar("Item")

ROUNDS, TRIES = 8, 60


def best(items: typing.Iterable[Item], cost: typing.Callable[[Item], int | None], enough: float = -math.inf) -> Item | None:
    """The first item that costs least, or that costs no more than is enough. What has no cost is left out."""
    found: tuple[int, Item] | None = None
    for item in items:
        costs = cost(item)
        if costs is not None and (found is None or costs < found[0]):
            found = costs, item
            if costs <= enough:
                break
    return found and found[1]


@functools.lru_cache(None)
def octets(count: int, place: int) -> bytes:
    """Octet `place` of the numbers below `count`."""
    return bytes([number >> (8 * place) & 255 for number in range(count)])


@dataclasses.dataclass(frozen=True)
class Laid:
    """Where the values of a code block stand: their numbers among all that arrives, and their places in the codeword."""

    numbers: list[int]
    places: steps.Places


def laid(receiver: Receiver, told: Arrival, first: Arrival) -> list[Laid]:
    """Where a receiver writes what arrives, by code block."""
    sizes = receiver.sizes(told, first)
    planes = [receiver.parts(sizes, told, first, octets(told.g, place)) for place in range(3)]
    found = []
    for low, middle, high in zip(*planes):
        numbers = [one + 256 * two + 65536 * three for one, two, three in zip(low, middle, high)]
        places = receiver.places(sizes, told, first, len(numbers)) if numbers else steps.NOWHERE
        found.append(Laid(numbers, places))
    return found


def words(receiver: Receiver, told: Arrival, bits: str) -> list[str]:
    """The codewords of a block, as a sender with the same mistakes makes them."""
    wrong, sizes = receiver.shared, receiver.sizes(told, told)
    parts = receiver.clauses.code_blocks(steps.attached(bits, wrong), sizes)
    if "joined-reversed" in wrong:
        parts = parts[::-1]
    return [receiver.tables.word(sizes, part, wrong) for part in parts]


class Columns:
    """The base graph of a draft as masks of columns."""

    def __init__(self, receiver: Receiver, sizes: steps.Sizes) -> None:
        self.rows = receiver.rows(sizes).masks
        z = sizes.z
        self.fillers = [0] * (sizes.size // z)
        for place in sizes.filled:
            self.fillers[place // z] += 1
        self.always = sum(1 << column for column, count in enumerate(self.fillers) if count == z)
        self.partly = {column for column, count in enumerate(self.fillers) if 0 < count < z}
        self.wanted = (1 << sizes.k // z) - 1

    def closed(self, known: int) -> int:
        """All that these columns fix."""
        while True:
            before = known
            for row in self.rows:
                left = row & ~known
                if left and not left & (left - 1):
                    known |= left
            if known == before:
                return known

    def spread(self, known: int) -> typing.Iterator[tuple[int, set[int]]]:
        """What is known after each round in which all rows see what was known before it, and which rows find a column first."""
        while True:
            lefts = [(number, row & ~known) for number, row in enumerate(self.rows)]
            singles = {left: number for number, left in reversed(lefts) if left and not left & (left - 1)}
            if not singles:
                return
            known |= sum(singles)
            yield known, set(singles.values())

    def rounds(self, known: int) -> int:
        """In how many rounds these columns fix all information columns."""
        after = itertools.chain([known], (known for known, _ in self.spread(known)))
        return next((count for count, known in enumerate(after) if known & self.wanted == self.wanted), 99)

    def least(self, order: list[Group]) -> list[Group] | None:
        """Few of these columns that fix all information columns, the first ones rather; None if all do not."""
        known, kept = self.closed(self.always), []
        for group in order:
            if known & self.wanted == self.wanted:
                break
            if not known >> group[1] & 1:
                kept.append(group)
                known = self.closed(known | 1 << group[1])
        if known & self.wanted != self.wanted:
            return None
        for group in kept[::-1]:
            rest = [it for it in kept if it != group]
            if self.closed(self.mask(rest)) & self.wanted == self.wanted:
                kept = rest
        return kept

    def mask(self, groups: list[Group]) -> int:
        """The columns that are known of these groups."""
        return functools.reduce(lambda one, other: one | other, [1 << column for _, column, _ in groups], self.always)


def fewest(found: typing.Iterable[list[Group]], columns: Columns, groups: dict[Group, list[int]], enough: int,
           rounds: range | None) -> list[Group] | None:
    """Those columns with the fewest values, in no more than ROUNDS rounds, or the first that take one of these numbers of them."""
    def cost(kept: list[Group]) -> int | None:
        count = columns.rounds(columns.mask(kept))
        if rounds is not None:
            return 0 if count in rounds else None
        return sum(len(groups[it]) for it in kept) if count <= ROUNDS else None

    return best(found, cost, enough)


class Draft:
    """Transmissions of one block in one process, as a receiver with these mistakes understands them. `kept` are the
    numbers of the values that arrive, by transmission."""

    def __init__(self, receiver: Receiver, arrivals: list[Arrival], bits: str) -> None:
        self.receiver, self.arrivals, self.bits = receiver, arrivals, bits
        self.sizes = receiver.sizes(arrivals[0], arrivals[0])
        self.words = words(receiver, arrivals[0], bits)
        self.laid = [laid(receiver, told, arrivals[0]) for told in arrivals]
        self.kept = [[set(part.numbers) for part in parts] for parts in self.laid]

    def values(self, strength: str = "+-") -> list[str]:
        """The characters of all transmissions' values: what is kept is right, and all else is erased."""
        signs = strength[::-1] if "sign-inverted" in self.receiver.shared else strength
        found = []
        for told, parts, kept in zip(self.arrivals, self.laid, self.kept):
            text = ["0"] * told.g
            for part, word, numbers in zip(parts, self.words, kept):
                for number, place in zip(part.numbers, part.places):
                    if number in numbers and 0 <= place < len(word):
                        text[number] = signs[word[place] == "1"]
            found.append("".join(text))
        return found

    def groups(self, r: int, columns: Columns) -> dict[Group, list[int]]:
        """The whole columns that arrive of a code block, each with the numbers of its values."""
        z, found = self.sizes.z, {}
        there: dict[Group, dict[int, int]] = {}
        copies: collections.Counter[tuple[int, int]] = collections.Counter()
        for t, number, place in self.stand(r):
            if place >= 0:
                there.setdefault((t, place // z, copies[t, place]), {})[place] = number
                copies[t, place] += 1
        for group, numbers in there.items():
            if len(numbers) == z - columns.fillers[group[1]]:
                found[group] = list(numbers.values())
        return found

    def critical(self, wanted: Wanted, seed: str, tries: int = TRIES, rounds: range | None = None) -> Draft | None:
        """Keeps as little as fixes the block, what is wanted rather, or what fixes it in one of these numbers of rounds; None if
        whole columns do not."""
        columns = Columns(self.receiver, self.sizes)
        done: dict[tuple[Group, ...], list[Group] | None] = {}
        for r in range(self.sizes.c):
            groups = self.groups(r, columns)
            signature = tuple(sorted(groups))
            if signature not in done:
                found = self.searched(columns, groups, wanted, seed, tries)
                done[signature] = fewest(found, columns, groups, len(self.sizes.info), rounds)
            some = done[signature]
            if some is None:
                return None
            self.keep(r, some, groups)
        return self

    def keep(self, r: int, some: list[Group], groups: dict[Group, list[int]]) -> None:
        """Keeps these columns alone of a code block."""
        for t, parts in enumerate(self.kept):
            if r < len(parts):
                parts[r] = {number for group in some if group[0] == t for number in groups[group]}

    def searched(self, columns: Columns, groups: dict[Group, list[int]], wanted: Wanted, seed: str,
                 tries: int) -> typing.Iterator[list[Group]]:
        """Few columns that fix the block, by some changes of the order in which they are wanted."""
        first, drawn = self.sizes.k // self.sizes.z, random.Random(f"{seed} {len(groups)} {self.bits[:64]}")
        ordered = sorted(groups, key=lambda it: (it[1] not in columns.partly, wanted(it[0], it[1] - first, it[2]), it))
        for turn in range(tries):
            order = list(ordered)
            for _ in range(turn):
                one = drawn.randrange(len(order))
                other = min(len(order) - 1, one + drawn.randrange(1, 6))
                order[one], order[other] = order[other], order[one]
            kept = columns.least(order)
            if kept is None:
                return
            yield kept

    def stand(self, r: int) -> typing.Iterator[tuple[int, int, int]]:
        """The transmission, the number and the place of each value of a code block."""
        return ((t, number, place) for t, parts in enumerate(self.laid) for part in parts[r : r + 1]
                for number, place in zip(part.numbers, part.places))

    def moved(self, other: Draft) -> set[tuple[int, int]]:
        """The columns, by transmission, of which some value stands elsewhere in another draft of these, or is another bit."""
        found = set()
        for r, (word, right) in enumerate(zip(self.words, other.words)):
            there = {(t, number): (place, right[place : place + 1]) for t, number, place in other.stand(r)}
            found |= {(t, place // self.sizes.z) for t, number, place in self.stand(r)
                      if there.get((t, number)) != (place, word[place : place + 1])}
        return found

    def slack(self) -> int:
        """How many values arrive that are more than the information bits."""
        return sum(len(it) for parts in self.kept for it in parts) - self.sizes.c * len(self.sizes.info)
