"""Makes chunks: the library makes the rounds over erasures of single bits, the program those over other links."""

from __future__ import annotations

import collections
import dataclasses
import functools
import pathlib
import typing

import nr
from linksim_tools.common.program import Failed
from linksim_tools.common.tables import table_at
from linksim_tools.curve.chunks import rounds_of_chunk
from linksim_tools.curve.results import Line, counts_text
from linksim_tools.curve.simulating import Simulator
from linksim_tools.curve.source import Source, Watch

if typing.TYPE_CHECKING:
    from linksim_tools.curve.setting import Setting

# A chunk of a curve: its point and its number.
Task = typing.Tuple[float, int]

# If fewer bits arrive than this many times K', peeling recovers a code block too seldom for its erased bits to be counted.
HOPEFUL = 1.02


@dataclasses.dataclass(frozen=True)
class Shape:
    """The code blocks of a transport block: K', and how many bits of a transmission each of them has."""

    kdash: int
    lengths: tuple[int, ...]

    def sizes(self) -> list[int]:
        """The different lengths, one or two, the shorter first."""
        return sorted(set(self.lengths))


@functools.lru_cache(maxsize=16)
def shape_of(setting: Setting) -> Shape:
    """The code blocks of a setting."""
    try:
        plan = nr.plan(setting.a, rate2048=setting.rate2048)
        lengths = nr.lengths(setting.a, nr.Tx(g=setting.g, rv=0, qm=setting.qm, nl=setting.nl), rate2048=setting.rate2048)
    except nr.Fault as fault:
        raise Failed(f"{setting.path}: {fault}") from None
    return Shape(plan.kdash, tuple(lengths))


def first_hope(setting: Setting, shape: Shape, p: float) -> int:
    """The first number of transmissions after which a code block may well be recovered: by the mean number of bits that arrive.
    Before it nearly every one is undecided, and its erased bits are not counted."""
    for after in range(1, len(setting.rvs)):
        if after * max(shape.lengths) * (1 - p) >= HOPEFUL * shape.kdash:
            return after
    return len(setting.rvs)


class Tally:
    """What is counted of a chunk while its rounds are made."""

    def __init__(self, setting: Setting, shape: Shape, task: Task) -> None:
        self.p, self.chunk = task
        self.setting, self.shape = setting, shape
        self.hope = first_hope(setting, shape, self.p)
        count = len(setting.rvs)
        self.failed, self.failed_codeblocks, self.left = [0] * count, [0] * count, [0] * count
        self.group = [shape.sizes().index(length) for length in shape.lengths]
        # For each transmission and each length of code blocks a count by erased bits.
        self.open_by_erased: list[list[typing.Counter[int]]]
        self.open_by_erased = [[collections.Counter() for _ in shape.sizes()] for _ in range(count)]

    def line(self, source: str) -> Line:
        """The chunk's line."""
        return Line(
            self.p, self.chunk, self.setting.rounds, len(self.shape.lengths), tuple(self.failed),
            tuple(self.failed_codeblocks), tuple(self.left), tuple(map(counts_text, self.open_by_erased)), source,
        )


class Maker:
    """Makes chunks of a setting, one after the other."""

    def __init__(self, setting: Setting, program: pathlib.Path, source: Source, watch: Watch | None = None) -> None:
        self.setting, self.program, self.source = setting, program, source
        self.simulator = simulator_of(setting) if setting.is_pooled else None
        self.watch = watch or Watch(setting, program)

    def line(self, task: Task) -> Line:
        """The line of a chunk."""
        made = self.by_library(self.simulator, task) if self.simulator else self.by_program(task)
        self.watch.judge()
        return made

    def by_library(self, simulator: Simulator, task: Task) -> Line:
        """The line of a chunk over a link that erases single bits."""
        tally = Tally(self.setting, shape_of(self.setting), task)
        simulator.count(tally)
        return tally.line(self.source.text())

    def by_program(self, task: Task) -> Line:
        """The line of a chunk whose flipped or erased bits are listed: it has no counts by erased bits."""
        (p, chunk), after = task, len(self.setting.rvs)
        failed, failed_codeblocks, left, c = [0] * after, [0] * after, [0] * after, 0
        for _, states in rounds_of_chunk(self.setting, self.program, p, chunk, range(self.setting.rounds), after):
            c = len(states[0][1])
            for k, (fails, lacking) in enumerate(states):
                failed[k] += fails
                failed_codeblocks[k] += sum(count > 0 for count in lacking)
                left[k] += sum(lacking)
        counts = tuple(failed), tuple(failed_codeblocks), tuple(left)
        return Line(p, chunk, self.setting.rounds, c, *counts, ("",) * after, self.source.text())


def simulator_of(setting: Setting) -> Simulator:
    """What makes the rounds of a setting, or a failure with what the library rejects."""
    found = Simulator(setting, table_at(setting.table))
    try:
        found.rounds(0.0, 0, 0, 0)
    except nr.Fault as fault:
        raise Failed(f"{setting.path}: {fault}") from None
    return found
