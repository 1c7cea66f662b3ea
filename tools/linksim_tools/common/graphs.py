"""The numbers of the base graphs, lifting sizes and redundancy versions that the tools need (TS 38.212, 5.3.2 and 5.4.2.1)."""

from __future__ import annotations

import dataclasses

# Of each set index, 0 to 7, the factor of its lifting sizes, which are it times a power of two. Then the largest of them.
FACTORS = (2, 3, 5, 7, 9, 11, 13, 15)
LARGEST = (256, 384, 320, 224, 288, 352, 208, 240)
SETS = range(len(LARGEST))
# The starting positions of Table 5.4.2.1-2, by base graph: numerators for the redundancy versions, over the columns sent.
STARTS = {1: ((0, 17, 33, 56), 66), 2: ((0, 13, 25, 43), 50)}


@dataclasses.dataclass(frozen=True)
class Graph:
    """A base graph: its number, its rows and columns, how many of these carry information bits, and how many entries
    its published table has."""

    number: int
    rows: int
    columns: int
    information: int
    entries: int
    table: str

    @property
    def sent(self) -> int:
        """How many columns are sent: all but the first two."""
        return self.columns - 2

    def last_column(self, row: int) -> int:
        """The column of the last entry of a row, in every table of the published shape."""
        return self.information + (row if row >= 4 else min(row + 1, 3))

    def has_column(self, row: int, column: int) -> bool:
        """Whether a row may have an entry at a column: up to the core parity columns, or its own one."""
        return column <= self.information + 3 or column == self.last_column(row)

    def parity(self) -> dict[tuple[int, int], int]:
        """The entries of the parity columns, by row and column, with values of the published shape: two equal and an odd one."""
        first = self.information
        places = {(0, first): 1, (1, first): 0, (3, first): 1}
        places.update({(row, first + k): 0 for k in (1, 2, 3) for row in (k - 1, k)})
        places.update({(row, first + row): 0 for row in range(4, self.rows)})
        return places


GRAPHS = {
    1: Graph(1, 46, 68, 22, 316, "Table 5.3.2-2"),
    2: Graph(2, 42, 52, 10, 197, "Table 5.3.2-3"),
}
