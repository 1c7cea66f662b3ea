"""Peeling: each parity row with one unknown bit fixes it. A column is a number of Zc bits, its first bit the highest.
Two such numbers say what is known of it and which bits are ones. All that a sound soft decoder finds over values that
are right in sign or 0 is found so. It takes as many rounds as the decoder needs iterations."""

from __future__ import annotations

import functools
import typing

if typing.TYPE_CHECKING:
    Row = typing.Tuple[typing.Tuple[int, int], ...]


class Rows:
    """The parity rows of a base graph at a lifting size: pairs of a column and by how much it is shifted. `of_columns`
    has for each column the rows with an entry there, and `masks` for each row a bit for each of its columns."""

    def __init__(self, z: int, columns: int, rows: typing.Sequence[Row]) -> None:
        self.z, self.columns, self.rows = z, columns, rows

    @functools.cached_property
    def masks(self) -> list[int]:
        return [sum({1 << column for column, _ in row}) for row in self.rows]

    @functools.cached_property
    def of_columns(self) -> list[list[int]]:
        found: list[list[int]] = [[] for _ in range(self.columns)]
        for number, row in enumerate(self.rows):
            for column in {column for column, _ in row}:
                found[column].append(number)
        return found

    def with_row(self, number: int, row: Row) -> Rows:
        """The rows with another one in the place of one, and with a column more."""
        return Rows(self.z, self.columns + 1, [*self.rows[:number], row, *self.rows[number + 1 :]])


class Peeler:
    """A codeword of which some bits are known, peeled by the first rows; the first `held` columns are never fixed. `giving` are the
    rows that fixed a bit first, and `rounds` says how often all rows found something."""

    def __init__(self, rows: Rows, used: int, known: tuple[int, ...], ones: tuple[int, ...], held: int = 0) -> None:
        self.rows, self.used, self.held = rows, used, held
        self.most = (1 << rows.z) - 1
        self.unknown = [self.most & ~it for it in known]
        self.ones = list(ones)
        self.giving: set[int] = set()
        self.rounds = 0
        # A bit for each column of which something is not known, and of which nothing is.
        self.open = sum([1 << column for column, it in enumerate(self.unknown) if it])
        self.empty = sum([1 << column for column, it in enumerate(self.unknown) if it == self.most])

    @functools.cached_property
    def clash(self) -> bool:
        """Whether in the end a row whose bits are all known has an odd number of ones. Few ask."""
        z, most = self.rows.z, self.most
        for row in self.rows.rows[: self.used]:
            open_ = total = 0
            for column, shift in row:
                left, ones = self.unknown[column], self.ones[column]
                total ^= ones << shift ^ ones >> (z - shift)
                open_ |= left << shift | left >> (z - shift)
            if total & ~open_ & most:
                return True
        return False

    def singles(self, number: int) -> list[tuple[int, int, int]]:
        """The bits that a row fixes: columns, each with the places and with those that are ones."""
        z, most, row, unknown = self.rows.z, self.most, self.rows.rows[number], self.unknown
        once = twice = 0
        turned = []
        for column, shift in row:
            missing = unknown[column]
            if missing:
                missing = (missing << shift | missing >> (z - shift)) & most
                twice |= once & missing
                once |= missing
                turned.append((column, shift, missing))
        single = once & ~twice
        if not single:
            return []
        total, found = 0, []
        for column, shift in row:
            ones = self.ones[column]
            total ^= ones << shift ^ ones >> (z - shift)
        for column, shift, missing in turned:
            here = missing & single
            if here and column >= self.held:
                bits = here & total
                found.append((column, (here >> shift | here << (z - shift)) & most, (bits >> shift | bits << (z - shift)) & most))
        return found

    def hopeful(self, numbers: typing.Iterable[int]) -> list[int]:
        """Those of these rows that may fix a bit: something of their columns is open, and not two of them altogether."""
        masks, open_, empty = self.rows.masks, self.open, self.empty
        lefts = [(number, masks[number] & empty) for number in numbers if masks[number] & open_]
        return [number for number, left in lefts if not left & (left - 1)]

    def fix(self, column: int, places: int, ones: int) -> int:
        """Takes these places of a column as known, and answers those that were not."""
        new = places & self.unknown[column]
        self.unknown[column] ^= new
        self.ones[column] |= ones & new
        if new:
            self.empty &= ~(1 << column)
            self.open &= ~(0 if self.unknown[column] else 1 << column)
        return new

    def spread(self, most: int | None = None) -> bool:
        """Rounds in each of which all rows see what was known before it, at most so many, or until nothing is found. It says
        whether something was."""
        of_columns, before = self.rows.of_columns, self.rounds
        todo: typing.Iterable[int] = range(self.used)
        while most is None or self.rounds < before + most:
            found = [(number, *it) for number in self.hopeful(todo) for it in self.singles(number)]
            gave = [(number, column) for number, column, places, ones in found if self.fix(column, places, ones)]
            if not gave:
                break
            self.rounds += 1
            self.giving |= {number for number, _ in gave}
            changed = {column for _, column in gave}
            todo = sorted({number for column in changed for number in of_columns[column] if number < self.used})
        return self.rounds > before

    def layer(self) -> bool:
        """One pass over the rows one after the other; says whether something was found."""
        changed = False
        for number in range(self.used):
            for column, places, ones in self.singles(number):
                changed |= bool(self.fix(column, places, ones))
        return changed


def depth(rows: Rows, known: tuple[int, ...], ones: tuple[int, ...], count: int) -> tuple[int, int] | None:
    """In how many rounds, and in how many passes layer by layer, the first `count` bits are found; None if they are not."""
    columns = count // rows.z
    flood, layers = (Peeler(rows, len(rows.rows), known, ones) for _ in range(2))
    passes = 0
    while any(flood.unknown[:columns]):
        if not flood.spread(1):
            return None
    while any(layers.unknown[:columns]) and layers.layer():
        passes += 1
    return flood.rounds, passes


@functools.lru_cache(1 << 14)
def peeled(rows: Rows, used: int, known: tuple[int, ...], ones: tuple[int, ...], most: int | None = None, held: int = 0) -> Peeler:
    """What is found in at most so many rounds; what was asked before is not computed again."""
    made = Peeler(rows, used, known, ones, held)
    made.spread(most)
    return made


@functools.lru_cache(1024)
def columns_of(text: str, z: int) -> tuple[int, ...]:
    """The columns of a text of digits 0 and 1."""
    return tuple([int(text[at : at + z], 2) for at in range(0, len(text), z)])


def text_of(columns: typing.Iterable[int], z: int) -> str:
    """The text of these columns."""
    return "".join(f"{column:0{z}b}" for column in columns)
