"""What theory says of a curve: the erasure limit, the counting bound, and where density evolution puts the fall."""

from __future__ import annotations

import collections
import dataclasses
import math
import pathlib
import typing

import nr
from linksim_tools.common import files
from linksim_tools.common.graphs import GRAPHS
from linksim_tools.common.program import Failed
from linksim_tools.conform.code import entries_of
from linksim_tools.curve.failures import binomial, window
from linksim_tools.curve.making import shape_of

if typing.TYPE_CHECKING:
    from linksim_tools.common.graphs import Graph
    from linksim_tools.curve.setting import Setting

# If the erased share of all information columns falls below the first number, peeling finds everything. It is stuck if
# a turn takes away less of it than the second number, or after so many turns.
NOTHING = 1e-4
STUCK = 1e-4
MOST_TURNS = 5000


@dataclasses.dataclass(frozen=True)
class Code:
    """The numbers that `cut` names of the block, and which columns of the base graph have an entry in each row of the
    table."""

    plan: dict[str, int]
    rows: tuple[typing.Any, ...]

    def graph(self) -> Graph:
        """The base graph's numbers."""
        return GRAPHS[self.plan["graph"]]


def rows_of_table(path: pathlib.Path, graph: int) -> tuple[tuple[int, ...], ...]:
    """For each row of the base graph the columns at which the table has an entry."""
    try:
        tables = entries_of(files.text_of(path, files.LIMITS["table"]))
    except ValueError:
        raise Failed(f"{path}: this is not a shift table; linksim check --table {path} says why") from None
    if graph not in tables:
        raise Failed(f"{path}: the table lacks base graph {graph}")
    return tuple(tuple(column for column, _ in row) for row in tables[graph])


def code_of(setting: Setting) -> Code:
    """The code of a setting over erasures; over flips there is no limit and no stopping set to speak of."""
    if setting.link != "erase":
        raise Failed(f"{setting.path} flips bits: limits and stopping sets are those of erasures")
    try:
        plan = {"a": setting.a, **nr.plan(setting.a, rate2048=setting.rate2048)._asdict()}
    except nr.Fault as fault:
        raise Failed(f"{setting.path}: {fault}") from None
    return Code(plan, rows_of_table(setting.table, plan["graph"]))


def times_sent(setting: Setting, code: Code, length: int, after: int) -> list[int]:
    """How often each of the N positions of a code block is sent in so many transmissions of `length` bits."""
    plan = code.plan
    fillers = range(plan["kdash"] - 2 * plan["z"], plan["k"] - 2 * plan["z"])
    times = [0] * plan["n"]
    for rv in setting.rvs[:after]:
        ncb, start = nr.buffer(setting.a, rv, rate2048=setting.rate2048, lbrm=setting.lbrm)
        places = [place for place in (*range(start, ncb), *range(start)) if place not in fillers]
        rounds, rest = divmod(length, len(places))
        for index, place in enumerate(places):
            times[place] += rounds + (index < rest)
    return times


def shares_of(code: Code, times: list[int]) -> list[dict[int | None, float]]:
    """For each column how many of its positions are sent how often, as shares. A filler counts as known, which is None,
    and of the first two columns nothing is ever sent."""
    z, fillers = code.plan["z"], range(code.plan["kdash"], code.plan["k"])
    shares = []
    for column in range(code.graph().columns):
        places = range(column * z, (column + 1) * z)
        kinds = collections.Counter(
            None if place in fillers else 0 if place < 2 * z else times[place - 2 * z] for place in places
        )
        shares.append({kind: count / z for kind, count in kinds.items()})
    return shares


def products_without_one(values: list[float]) -> list[float]:
    """For each of some numbers the product of all others."""
    ahead = [1.0]
    for value in values:
        ahead.append(ahead[-1] * value)
    behind, products = 1.0, [0.0] * len(values)
    for index in range(len(values) - 1, -1, -1):
        products[index] = ahead[index] * behind
        behind *= values[index]
    return products


def is_found(rows: tuple[tuple[int, ...], ...], erased: list[float], information: int) -> bool:
    """Whether peeling finds the first `information` columns if these shares of the columns are erased, by density
    evolution. What flows along each entry of the table is an erased share, and cycles are left out of account."""
    columns = collections.defaultdict(list)
    for row, places in enumerate(rows):
        for seat, column in enumerate(places):
            columns[column].append((row, seat))
    to_row = [[erased[column] for column in places] for places in rows]
    last = math.inf
    for _ in range(MOST_TURNS):
        to_column = [[1 - product for product in products_without_one([1 - share for share in row])] for row in to_row]
        lacking = 0.0
        for column, seats in columns.items():
            arriving = [to_column[row][seat] for row, seat in seats]
            for (row, seat), product in zip(seats, products_without_one(arriving)):
                to_row[row][seat] = erased[column] * product
            if column < information:
                lacking += erased[column] * math.prod(arriving)
        if lacking < NOTHING:
            return True
        if last - lacking < STUCK * lacking:
            return False
        last = lacking
    return False


def evolution_threshold(
    rows: tuple[tuple[int, ...], ...], shares: typing.Sequence[
        typing.Mapping[int | None, float]
    ], information: int, exact: float = 2e-4
) -> float:
    """The erasure probability below which density evolution says that peeling finds the information columns. `shares`
    says for each column which share of it is sent how often."""
    low, high = 0.0, 1.0
    while high - low > exact:
        p = (low + high) / 2
        erased = [sum(share * p**kind for kind, share in kinds.items() if kind is not None) for kinds in shares]
        low, high = (p, high) if is_found(rows, erased, information) else (low, p)
    return low


def threshold_after(setting: Setting, code: Code, after: int) -> float:
    """The density evolution threshold of a setting after so many transmissions, by its shortest code blocks."""
    times = times_sent(setting, code, shape_of(setting).lengths[0], after)
    return evolution_threshold(code.rows, shares_of(code, times), code.graph().information)


def erasure_limit(setting: Setting, after: int) -> float:
    """1 - R, for the rate of so many transmissions: with more erased, fewer bits arrive than the block has."""
    return max(0.0, 1 - setting.a / (after * setting.g))


def free_bits(code: Code) -> int:
    """How many bits of a code block no CRC can give back: K' less its own CRC, and that of the transport block."""
    return code.plan["kdash"] - code.plan["l"] - (code.plan["b"] - code.plan["a"])


def least_rate(p: float, heard: typing.Mapping[int, int], bits: int, numpy: typing.Any) -> float:
    """The least rate with which any decoder misses one of 2^bits equally likely messages. `heard` says how many places are sent how
    often. If m < bits places arrive, at most 2^m messages can be told apart, so that a guess is right with 2^(m - bits) at best.
    This is theorem 38 of Polyanskiy, Poor and Verdu, IEEE Transactions on Information Theory 56, 2010."""
    low, masses = 0, numpy.ones(1)
    for times, count in heard.items():
        chance = 1 - p**times
        first, last = window(count, chance)
        low, masses = low + first, numpy.convolve(masses, numpy.exp(binomial(count, chance, first, last, numpy)))
    masses = masses[: max(0, bits - low)]
    missed = -numpy.expm1(math.log(2) * (numpy.arange(low, low + len(masses)) - bits))
    return float(min(1.0, (masses * missed).sum()))


def counting_bound(setting: Setting, code: Code, after: int, numpy: typing.Any) -> typing.Any:
    """A function of p: how often any decoder at least misses a code block, since fewer places arrive than it has bits."""
    groups = []
    for length, blocks in collections.Counter(shape_of(setting).lengths).items():
        heard = collections.Counter(times for times in times_sent(setting, code, length, after) if times)
        groups.append((heard, blocks))
    bits = free_bits(code)
    return lambda p: 1 - math.prod((1 - least_rate(p, heard, bits, numpy)) ** blocks for heard, blocks in groups)
