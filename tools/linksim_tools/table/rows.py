"""The rows of a shift table out of the lines of a text.

A line holds one entry, or two if two halves stand side by side. An entry is a column index and eight values, with the
row index before them if the text has it. The index of a row stands at its first line, or at another of its lines, or
alone on a line amid them. That index need not tell where a row ends. Every published row of 4 or more ends at its own
parity column, and rows 0 to 3 at theirs (TS 38.212, 5.3.2). So the text is read by every way that its numbers can be
meant, each row in turn. A line at which no way is left is the one that could not be read.
"""

from __future__ import annotations

import dataclasses
import typing

from linksim_tools.common.graphs import LARGEST
from linksim_tools.common.message import shown
from linksim_tools.common.program import Failed

if typing.TYPE_CHECKING:
    from linksim_tools.common.graphs import Graph
    from linksim_tools.table.text import Line

# How many numbers half a line has: nothing, a row index alone, an entry, an entry after its row index.
NOTHING, INDEX, ENTRY, BOTH = HALVES = (0, 1, 9, 10)

# A text that can be read up to a line in more ways than so many is refused. A whole one has some 300 at most.
WAYS = 2000

# If a line may be of more rows than so many, those of the left half are named.
FEW = 3

# An entry: the row, the column and the values; and what is read of half a line, whole numbers and other words.
Entry = typing.Tuple[int, ...]
Cells = typing.List[typing.Any]


class Refusal(Exception):
    """What is wrong with a line, read in one way: the row, the words, and how much was right before it."""

    def __init__(self, row: int | str, words: str, right: int) -> None:
        super().__init__(words)
        self.row, self.right = row, right

    def behind(self, half: Cells) -> Refusal:
        """The same, after half a line that was right."""
        return Refusal(self.row, str(self), self.right + len(half))


# How much was right of half a line whose first number can be no row index: any other way to read it is likelier.
NO_INDEX = -20


@dataclasses.dataclass(frozen=True)
class Place:
    """How far one half of a text was read: in a row, after a column (-1 is before its first). It also has whether the
    text has named the row."""

    row: int
    column: int = -1
    named: bool = False

    def after(self, graph: Graph, half: Cells) -> tuple[Place, Entry | None]:
        """The place after half a line, and its entry or None."""
        if self.row >= graph.rows:
            raise Refusal(graph.rows - 1, "numbers follow the last row", 0)
        named = self.named
        if len(half) in (INDEX, BOTH):
            index = half[0]
            if index != self.row:
                right = 0 if index in range(graph.rows) else NO_INDEX
                raise Refusal(self.row, f"the text names row {index} where row {self.row} is wanted", right)
            named = True
        if len(half) == INDEX:
            return Place(self.row, self.column, named), None
        entry = self.entry(graph, *half[-ENTRY:])
        if entry[1] != graph.last_column(self.row):
            return Place(self.row, entry[1], named), entry
        if not named:
            raise Refusal(self.row, f"the row ends at column {entry[1]}, and no line of it has its index", 3)
        return Place(self.row + 1), entry

    def entry(self, graph: Graph, column: int, *values: int) -> Entry:
        """The entry of these cells, if it suits the row."""
        for cell in (column, *values):
            if not isinstance(cell, int):
                raise Refusal(self.row, f"{shown(cell)} is not a number", 1)
        if column <= self.column:
            raise Refusal(self.row, f"column {column} follows column {self.column}", 1)
        last = graph.last_column(self.row)
        if column > last or not graph.has_column(self.row, column):
            raise Refusal(self.row, f"column {column} is none of the row, which ends at column {last}", 1)
        for index, (value, largest) in enumerate(zip(values, LARGEST)):
            if value >= largest:
                raise Refusal(self.row, f"value {value} of set {index} is not below {largest}", 2)
        return (self.row, column, *values)


@dataclasses.dataclass(frozen=True)
class Seam:
    """Where the right half of a page was taken to begin: at a row's first entry (`fresh`), or else at its entry of a
    column. The number of columns means any of them. If it is not the first entry, `named` says whether the left half
    has named the row."""

    row: int
    column: int
    fresh: bool
    named: bool

    def joins(self, left: Place) -> bool:
        """Whether the left half ended where the right one began."""
        if self.fresh:
            return left == Place(self.row)
        return left.row == self.row and -1 < left.column < self.column and left.named == self.named


@dataclasses.dataclass(frozen=True)
class State:
    """One way to read a page so far: both halves' places, and where the right one began. No right half: None."""

    left: Place
    right: Place | None = None
    seam: Seam | None = None

    @property
    def end(self) -> Place:
        """The place after all that was read."""
        return self.left if self.right is None else self.right


def right_starts(graph: Graph, half: Cells) -> typing.Iterator[tuple[Seam, Place]]:
    """The ways in which a right half may begin with half a line: the seam, and the place before it."""
    for row in range(graph.rows):
        yield Seam(row, -1, True, False), Place(row)
        column = graph.columns if len(half) == INDEX else half[-ENTRY]
        for named in (False, True):
            yield Seam(row, column, False, named), Place(row, -1, named)


@dataclasses.dataclass(frozen=True)
class Found:
    """What one way has read of a page: the entries of both halves, each as a chain of pairs, the last one outermost. It
    also has whether another way came to the same state by other entries."""

    left: tuple[typing.Any, ...] = ()
    right: tuple[typing.Any, ...] = ()
    doubtful: bool = False

    def and_left(self, entry: Entry | None) -> Found:
        """The same with one more entry of the left half, if there is one."""
        return self if entry is None else Found((self.left, entry), self.right, self.doubtful)

    def and_right(self, entry: Entry | None) -> Found:
        """The same with one more entry of the right half, if there is one."""
        return self if entry is None else Found(self.left, (self.right, entry), self.doubtful)

    def entries(self) -> list[Entry]:
        """The entries in their order."""
        both = []
        for chain in (self.right, self.left):
            while chain:
                chain, entry = chain
                both.append(entry)
        return both[::-1]


class Reading:
    """The ways in which the lines of one graph's table can be read, by layout. There are `two` halves or one, and the
    place of a cell may tell its half (`placed`). With `alone` a row's index may also stand alone, or beside the other
    half's entry. `stopped` is the line at which no way was left, and `refusal` what was wrong with it. A reading that has
    too many ways is `lost`, and its line need not be the wrong one."""

    def __init__(self, graph: Graph, two: bool, placed: bool, alone: bool, files: str) -> None:
        self.graph, self.two, self.placed, self.alone, self.files = graph, two, placed, alone, files
        self.stopped: Line | None = None
        self.lost = False
        self.refusal: Refusal | None = None

    def forms(self, line: Line) -> typing.Iterator[int]:
        """How many of a line's cells may be those of its left half."""
        for left in HALVES if line.left is None or not self.placed else (line.left,):
            right = len(line.cells) - left
            if left not in HALVES or right not in HALVES or not (self.two or self.is_joined(line, left, right)):
                continue
            if self.alone or INDEX not in (left, right):
                yield left

    @staticmethod
    def is_joined(line: Line, left: int, right: int) -> bool:
        """Whether a text in one half may have a line in these parts: whole, or as two lines if it is too long for one."""
        return left > 0 and right > 0 if len(line.cells) > BOTH else right == 0

    def steps(
        self, state: State, found: Found, left: Cells, right: Cells
    ) -> typing.Iterator[tuple[State, Found]]:
        """The states after a line with these two halves, each with what was found."""
        place = state.left
        for half in (left, right if not self.two else []):
            if half:
                place, entry = place.after(self.graph, half)
                found = found.and_left(entry)
        if not (self.two and right):
            yield State(place, state.right, state.seam), found
            return
        refusals = []
        begun = [(state.seam, state.right)] if state.seam and state.right else right_starts(self.graph, right)
        for seam, before in begun:
            try:
                behind, entry = before.after(self.graph, right)
                yield State(place, behind, seam), found.and_right(entry)
            except Refusal as refusal:
                refusals.append(refusal.behind(left))
        if refusals:
            raise max(refusals, key=lambda it: it.right)

    def line(self, states: dict[State, Found], line: Line) -> dict[State, Found]:
        """The states after a line. A number alone, or two, may be a page's and mean nothing."""
        after = dict(states) if len(line.cells) <= 2 * INDEX else {}
        refusals = []
        for state, found in states.items():
            for left in self.forms(line):
                try:
                    for one, so_far in self.steps(state, found, line.cells[:left], line.cells[left:]):
                        other = after.setdefault(one, so_far)
                        if (other.left, other.right) != (so_far.left, so_far.right):
                            after[one] = Found(so_far.left, so_far.right, True)
                except Refusal as refusal:
                    refusals.append(refusal)
        if len(after) > WAYS:
            self.lost, after = True, {}
            refusals = [Refusal(min(it.left.row for it in states), "the text up to this line can be read in too many ways", 0)]
        if not after:
            self.stopped, self.refusal = line, self.worst(states, line, refusals)
        return after

    def worst(self, states: dict[State, Found], line: Line, refusals: list[Refusal]) -> Refusal:
        """What is wrong with a line that can be read in no way, by the way that was right for longest."""
        if refusals:
            return max(refusals, key=lambda it: it.right)
        left = {state.left.row for state in states}
        right = {state.right.row for state in states if state.right}
        if self.placed and line.left is not None and right:
            rows = right if line.left in HALVES else left
        else:
            rows = left | right if len(left | right) <= FEW else left
        named = " or ".join(str(row) for row in sorted(rows) if row < self.graph.rows)
        return Refusal(named, f"{len(line.cells)} numbers or words are no line of the table", 0)

    def ends(self, states: dict[State, Found], before: list[Entry]) -> dict[Place, list[Entry]]:
        """Where the ways through a page end, each with all entries up to there."""
        places: dict[Place, list[Entry]] = {}
        for state, found in states.items():
            if state.seam is None or state.seam.joins(state.left):
                entries = before + found.entries()
                if found.doubtful or places.setdefault(state.end, entries) != entries:
                    row = min(state.end.row, self.graph.rows) - 1
                    raise Failed(f"{self.files}: graph {self.graph.number}: the text up to row {row} can be read in two ways")
        return places

    def page(self, starts: dict[Place, list[Entry]], lines: list[Line]) -> dict[Place, list[Entry]]:
        """From the places where a page may begin, each with the entries before it, those where it may end. There are
        none if a line cannot be read. What follows the last row and has words is none of the table."""
        places: dict[Place, list[Entry]] = {}
        for start, before in starts.items():
            states = {State(start): Found()}
            for line in lines:
                after = self.line(states, line)
                if not after:
                    whole = line.words > 0 and Place(self.graph.rows) in self.ends(states, before)
                    states = states if whole else {}
                    break
                states = after
            found = self.ends(states, before)
            if states and not found:
                row = max(state.left.row for state in states)
                words = "the left half of the text ends in it, and the right half begins elsewhere"
                self.stopped, self.refusal = None, Refusal(row, words, 0)
            places.update(found)
        if places:
            self.stopped = self.refusal = None
        return places

    def pages(self, pages: list[list[Line]]) -> list[Entry] | None:
        """The entries of a table whose pages are read one after the other, or None."""
        starts: dict[Place, list[Entry]] = {Place(0): []}
        for lines in pages:
            starts = self.page(starts, lines)
            if not starts:
                return None
        whole = starts.get(Place(self.graph.rows))
        if whole is None:
            end = max(starts, key=lambda it: it.row)
            self.refusal = Refusal(end.row, "the text ends in it", 0)
        return whole


def middle_of(lines: list[Line]) -> int | None:
    """Where the right half of a page begins, if the page is laid out in columns. It is after the left half and before
    the right one of nine in ten of its whole lines. A damaged line may seem whole. If it is not laid out so,
    the answer is None."""
    whole = [line for line in lines if len(line.cells) in (2 * ENTRY, 2 * BOTH)]
    gaps = [(line.ends[len(line.cells) // 2 - 1], line.starts[len(line.cells) // 2]) for line in whole]
    suits = {middle: sum(end <= middle < start for end, start in gaps) for middle, _ in gaps}
    best = max(suits, key=lambda middle: suits[middle], default=None)
    return best if best is not None and 10 * suits[best] >= 9 * len(gaps) else None


def halve(pages: list[list[Line]]) -> None:
    """Tells for each line of the pages how many of its cells belong to the left half, if that can be seen. A page
    without a whole line is taken to be laid out as the one before it."""
    middle: int | None = None
    for lines in pages:
        middle = middle_of(lines) or middle
        for line in lines if middle else ():
            line.left = sum(start < (middle or 0) for start in line.starts)
