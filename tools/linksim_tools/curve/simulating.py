"""Rounds of a chunk made by the library: the same rounds as the program makes, without encoding anything."""

from __future__ import annotations

import array
import collections
import itertools
import operator
import pathlib
import typing

import nr
from linksim_tools.curve.chunks import MOST_TRANSMISSIONS

if typing.TYPE_CHECKING:
    from linksim_tools.curve.making import Tally
    from linksim_tools.curve.setting import Setting


# So many rounds are made side by side.
SLICES = 64


class Simulator:
    """Makes the rounds of a setting over a table by the module nr."""

    def __init__(self, setting: Setting, table: nr.Table) -> None:
        self.setting, self.table = setting, table
        self.txs = [nr.Tx(g=setting.g, rv=rv, qm=setting.qm, nl=setting.nl) for rv in setting.rvs]
        # The library makes 64 rounds at once.
        self.at_a_time = max(SLICES, MOST_TRANSMISSIONS // len(self.txs) // SLICES * SLICES)

    def rounds(self, p: float, chunk: int, first: int, count: int) -> typing.Any:
        """What comes of some rounds of a chunk."""
        return nr.simulate(
            self.table, self.setting.a, self.txs, p=p, rounds=count, first=first, seed=self.setting.seed, chunk=chunk, jobs=1,
            rate2048=self.setting.rate2048, lbrm=self.setting.lbrm,
        )

    def count(self, tally: Tally) -> None:
        """Makes all rounds of a chunk, and counts them: by columns, one for each transmission and code block."""
        for first in range(0, self.setting.rounds, self.at_a_time):
            found = self.rounds(tally.p, tally.chunk, first, min(self.at_a_time, self.setting.rounds - first))
            left, erased = columns_of(found.left), columns_of(found.erased)
            after = collections.Counter(numbers_of(found.after))
            sums: list[typing.Iterable[int]] = [itertools.repeat(0)] * len(tally.group)
            for k in range(len(self.txs)):
                tally.failed[k] += sum(count for number, count in after.items() if number == 0 or number > k + 1)
                for r, group in enumerate(tally.group):
                    lacking = left[k][r]
                    sums[r] = list(map(operator.add, sums[r], erased[k][r]))
                    tally.failed_codeblocks[k] += len(lacking) - lacking.count(0)
                    tally.left[k] += sum(lacking)
                    if k + 1 >= tally.hope:
                        tally.open_by_erased[k][group].update(itertools.compress(sums[r], lacking))


def numbers_of(given: typing.Any) -> array.array[int]:
    """The numbers of an array of the module, one after the other."""
    return array.array("I", memoryview(given).tobytes())


def columns_of(given: typing.Any) -> list[list[array.array[int]]]:
    """By transmission and code block the numbers of all rounds."""
    (_, sent, c), flat = given.shape, numbers_of(given)
    return [[flat[k * c + r :: sent * c] for r in range(c)] for k in range(sent)]


def files_of_library() -> list[pathlib.Path]:
    """The files of the library and of its module nr, on which what they make depends."""
    return [nr.library_base(), *sorted(pathlib.Path(nr.__file__).parent.glob("*.py"))]
