"""Block error rates with intervals, in one call: the chunks, the rule when to stop and the pool of tools/curve."""

from __future__ import annotations

import concurrent.futures
import itertools
import pathlib
import typing

import nr
from linksim_tools.curve.grid import wanted
from linksim_tools.curve.making import Shape, Tally, Task
from linksim_tools.curve.pool import Pool
from linksim_tools.curve.results import Line
from linksim_tools.curve.setting import Setting
from linksim_tools.curve.simulating import Simulator
from nr import Table, Tx
from nr._arrays import numpy_or_none
from nr._values import Count, Limit, Rate, Rate1024, Rate2048, number, settings, threads_of, threshold_of

if typing.TYPE_CHECKING:
    import numpy
    import numpy.typing

    Floats = numpy.typing.NDArray[numpy.float64]

# What is taken of each estimate. The second interval is not there if nothing was seen to fail.
COLUMNS = ("estimate", "low", "high", "low_if", "high_if")
WORTH = ("events", "rounds")


class _BlerFields(typing.NamedTuple):
    p: Floats
    rates: Floats
    low: Floats
    high: Floats
    low_if: Floats
    high_if: Floats
    rounds: Floats
    events: Floats
    rounds_worth: Floats


class Bler(_BlerFields):
    """What bler() returns, as arrays of numpy. `rates` has a row for each of `p` and a column for each transmission: the block
    error rate after it. `low` to `high` is a 95 percent interval that holds without assumptions. `low_if` to `high_if` is one
    that holds if nothing fails with fewer erasures than were seen to fail, and is NaN if nothing was seen. `rounds` are those
    made at each of `p`; each of them also says something about the rates at the others. `events` is how many failures of equal
    weight those that were seen are worth, and `rounds_worth` how many rounds at this p would say as much.

    A rate far below 1 / rounds_worth is an extrapolation: no round there was seen to fail, and an error floor that no round met may
    lie above it. What was shown is `high`. The text of a Bler marks such rates with ~."""

    __slots__ = ()

    def __repr__(self) -> str:
        lines = ["       p  after        rate  95 % interval           if none with fewer erasures"]
        is_guess = self.rates * self.rounds_worth < 1
        for row, column in itertools.product(range(len(self.p)), range(self.rates.shape[1])):
            rate, *ends = (float(it[row, column]) for it in self[1:6])
            spans = [f"{low:9.3g} to {high:<9.3g}" for low, high in (ends[:2], ends[2:])]
            shown = f"{'~' if is_guess[row, column] else ''}{rate:.3g}"
            lines.append(f"{self.p[row]:8.5g}  {column + 1:5}  {shown:>10}  {spans[0]}  {spans[1]}".rstrip())
        if is_guess.any():
            lines.append("~ extrapolated from failures at other p: the upper end of the interval is what was shown")
        return "\n".join(lines)


def bler(
    table: Table, a: Count, txs: typing.Union[Tx, typing.Iterable[Tx]], *, p: typing.Any, errors: Count = 100,
    rounds: Count = 1000, chunks: Count = 100, seed: Count = 0, jobs: typing.Optional[int] = None,
    progress: typing.Optional[typing.Callable[[int, int], object]] = None, rate2048: Rate2048 = None, rate1024: Rate1024 = None,
    rate: Rate = None, lbrm: Limit = None,
) -> Bler:
    """The block error rates of a transport block of `a` bits after each of `txs`, at the erasure probabilities `p`, as a Bler. The
    transmissions differ only in rv. Chunks of so many `rounds` are made at each of `p`, by simulate() with this seed. A point
    stops when `errors` blocks failed after each transmission whose fall is there, and at the latest after `chunks` chunks. These
    are the chunks and the rates of tools/curve by the same numbers, with the key `errors` and `step` 0. `jobs` threads work side
    by side; after each chunk progress(made, planned) is called. It needs numpy."""
    numpy = numpy_or_none()
    if numpy is None:
        raise ImportError("nr.bler needs numpy")
    given = numpy.atleast_1d(numpy.asarray(p)).ravel().tolist()
    points = [float(it) for it in given if threshold_of(it) >= 0]
    sent = [txs] if isinstance(txs, Tx) else list(txs)
    whole = {"a": a, "rounds": rounds, "errors": errors, "chunks": chunks}
    setting = _setting_of(points, sent, settings(rate2048, rate1024, rate, lbrm), number("seed", seed, 2**64 - 1), whole)
    kdash = nr.plan(setting.a, rate2048=setting.rate2048).kdash
    shape = Shape(kdash, tuple(nr.lengths(setting.a, sent[0], rate2048=setting.rate2048)))
    lines = _lines_of(setting, shape, table, threads_of(jobs), progress)
    pool = Pool(setting, shape, lines, numpy)
    found = [[pool.at(point, after) for after in range(1, len(sent) + 1)] for point in points]
    columns, worth = ([[[getattr(one, name) for one in row] for row in found] for name in names] for names in (COLUMNS, WORTH))
    made = {threshold_of(line.p): line.rounds for line in pool.points}
    rows = points, *columns, [made[threshold_of(point)] for point in points], *worth
    return Bler(*(numpy.array(it, dtype=float) for it in rows))


def _setting_of(
    points: typing.List[float], txs: typing.List[Tx], link: typing.Any, seed: int, counts: typing.Dict[str, Count]
) -> Setting:
    """What the tools are asked for."""
    if not txs or any(tx._replace(rv=0) != txs[0]._replace(rv=0) or tx.blocks is not None for tx in txs):
        raise ValueError("txs are one transmission or several that differ in rv alone, and send all code blocks")
    whole = {name: number(name, it) for name, it in counts.items()}
    if not points or not min(whole.values()):
        raise ValueError("p has a point at least, and a, rounds, errors and chunks are 1 at least")
    return Setting(
        path=pathlib.Path("nr.bler"), table=pathlib.Path(), rate2048=int(link.rate2048), lbrm=int(link.lbrm) or None,
        g=txs[0].g, qm=txs[0].qm, nl=txs[0].nl, rvs=tuple(tx.rv for tx in txs), seed=seed, points=tuple(sorted(set(points))),
        step=0.0, a=whole["a"], rounds=whole["rounds"], errors=whole["errors"], chunks=whole["chunks"],
    )


def _lines_of(
    setting: Setting, shape: Shape, table: Table, threads: int, progress: typing.Optional[typing.Callable[[int, int], object]],
) -> typing.List[Line]:
    """The lines of all chunks that are wanted, made wave by wave."""
    simulator = Simulator(setting, table)
    lines: typing.List[Line] = []

    def made(task: Task) -> Line:
        tally = Tally(setting, shape, task)
        simulator.count(tally)
        return tally.line("nr")

    with concurrent.futures.ThreadPoolExecutor(threads) as pool:
        while True:
            tasks = wanted(setting, lines)
            if not tasks:
                return lines
            planned = len(lines) + len(tasks)
            for line in pool.map(made, tasks):
                lines.append(line)
                if progress:
                    progress(len(lines), planned)
