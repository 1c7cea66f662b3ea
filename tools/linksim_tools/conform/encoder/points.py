"""The points of the clauses that the suite is there for, each with what a case must be to cover it."""

from __future__ import annotations

import dataclasses
import functools
import typing

from linksim_tools.common.graphs import GRAPHS
from linksim_tools.conform.case import Case, Plan
from linksim_tools.conform.chain import Chain
from linksim_tools.conform.clauses import SETS, right
from linksim_tools.conform.code import TablesKey

# Sizes and code rates in 2048ths at both sides of the limits of 6.2.2.
LIMITS = ((288, 2048), (296, 1372), (296, 1373), (3824, 1372), (3824, 1373), (3832, 512), (3832, 513), (3832, 1372))


class Facts:
    """The numbers of a case, which need no table."""

    def __init__(self, case: Case) -> None:
        chain = Chain(TablesKey({}), case, right())
        self.case = case
        self.plan: Plan = chain.of("plan")
        self.graph, self.c, self.z = self.plan.graph, self.plan.c, self.plan.z
        self.a, self.b, self.rate = self.plan.a, self.plan.b, case.rate2048
        self.ncb: int = chain.of("Ncb")
        self.k0: int = chain.of("k0")
        self.lengths: list[int] = chain.of("E")
        self.scheduled = chain.scheduled()
        self.fillers = self.plan.fillers
        self.systematic = self.plan.kdash - 2 * self.z
        self.column = case.a.index("1") // self.z if case.a.count("1") == 1 else None
        self.ones = case.a.count("1")

    @functools.cached_property
    def shares(self) -> list[int]:
        """The lengths of the code blocks that are scheduled."""
        return [self.lengths[r] for r in self.scheduled]

    @property
    def unequal(self) -> bool:
        """Whether they differ."""
        return len(set(self.shares)) > 1

    def live(self, first: int, last: int) -> int:
        """How many places of d from `first` on before `last` are no fillers."""
        begin, end = self.systematic, self.systematic + self.fillers
        return last - first - max(0, min(last, end) - max(first, begin))

    @functools.cached_property
    def one_round(self) -> int:
        """How many bits one round of the buffer has."""
        return self.live(0, self.ncb)

    @functools.cached_property
    def to_end(self) -> int:
        """How many bits stand between k0 and the buffer's end."""
        return self.live(self.k0, self.ncb)

    def is_filler(self, place: int) -> bool:
        """Whether a filler stands at a place of d."""
        return self.systematic <= place < self.systematic + self.fillers

    @functools.cached_property
    def fillers_passed(self) -> bool:
        """Whether some code block has bits of both sides of fillers."""
        first, last = min(self.systematic, self.ncb), min(self.systematic + self.fillers, self.ncb)
        before = self.live(self.k0, max(first, self.k0)) if self.k0 < last else self.to_end + max(first, 0)
        return first < last and max(self.shares) > before

    @functools.cached_property
    def parity_sent(self) -> bool:
        """Whether some code block has bits of the parity columns."""
        first = self.systematic + self.fillers
        return self.ncb > first and max(self.shares) > (0 if self.k0 >= first else self.live(self.k0, first))

    @functools.cached_property
    def fillers_passed_again(self) -> bool:
        """Whether some code block has bits of both sides of fillers that stand past the buffer's end."""
        first, last = min(self.systematic, self.ncb), min(self.systematic + self.fillers, self.ncb)
        return first < last and max(self.shares) > self.to_end + max(first, 0)

    @functools.cached_property
    def random(self) -> bool:
        """Whether the block has about as many ones as zeros."""
        return self.a // 3 <= self.ones <= 2 * self.a // 3


# Whether a case has a property.
Test = typing.Callable[..., typing.Any]


@dataclasses.dataclass(frozen=True)
class Point:
    """A point: a name, its clause, what it is, and whether a case covers it. Some stand in the profile `full` alone."""

    name: str
    clause: str
    text: str
    holds: Test
    long: bool = False


def numbers(clause: str, name: str, what: str, values: tuple[int, ...], read: Test) -> typing.Iterator[Point]:
    """A point for each value of a number."""
    for value in values:
        yield Point(f"{name}-{value}", clause, f"{what} = {value}", lambda it, value=value: read(it) == value)


def size_points() -> typing.Iterator[Point]:
    """Sizes at the limit of the CRCs, and each CRC; sizes and code rates at both sides of the limits of the base graph."""
    yield from numbers("6.2.1", "a", "A", (8, 3816, 3824, 3832), lambda it: it.a)
    yield Point("crc16", "5.1", "CRC16", lambda it: it.a <= 3824)
    yield Point("crc24a", "5.1", "CRC24A", lambda it: it.a > 3824)
    yield Point("crc24b", "5.1", "CRC24B of several code blocks", lambda it: it.c > 1)
    yield from numbers("6.2.2", "a", "A", (288, 296), lambda it: it.a)
    yield from numbers("6.2.2", "rate", "2048 R", (511, 512, 513, 1371, 1372, 1373), lambda it: it.rate)
    for a, rate in LIMITS:
        text = f"A = {a} at 2048 R = {rate}: base graph {right().base_graph(a, rate)}"
        yield Point(f"a-{a}-rate-{rate}", "6.2.2", text, lambda it, both=(a, rate): (it.a, it.rate) == both)


def at(graph: int, test: Test) -> Test:
    """A test of the cases of one base graph."""
    return lambda it: it.graph == graph and bool(test(it))


# What a plan can be at each base graph: a name, words, the test, and whether only long blocks are such.
PLANS: tuple[tuple[str, str, Test, bool], ...] = (
    ("c-1", "C = 1", lambda it: it.c == 1, False), ("c-2", "C = 2", lambda it: it.c == 2, False),
    ("c-3", "C = 3", lambda it: it.c == 3, False), ("c-4", "C > 3", lambda it: it.c > 3, False),
    ("c-100", "C > 100", lambda it: it.c > 100, True), ("fillers-0", "no filler", lambda it: not it.fillers, False),
    ("fillers-few", "fillers, fewer than a column", lambda it: 0 < it.fillers < it.z, False),
    ("fillers-many", "more fillers than a column", lambda it: it.fillers > it.z, False),
)


def segmentation_points() -> typing.Iterator[Point]:
    """Each Kb, the limits of Kb and Kcb, and numbers of code blocks and of fillers."""
    yield from numbers("5.2.2", "kb", "Kb", (6, 8, 9, 10, 22), lambda it: it.plan.kb)
    for b in (192, 200, 560, 568, 640, 648):
        yield Point(f"b-{b}", "5.2.2", f"base graph 2, B = {b}", at(2, lambda it, b=b: it.b == b))
    for graph, b, said in ((1, 8448, ""), (1, 8456, "the next size above "), (2, 3840, ""), (2, 3856, "the next size above ")):
        yield Point(f"b-{b}", "5.2.2", f"B = {b}, {said}Kcb of base graph {graph}", at(graph, lambda it, b=b: it.b == b))
    for graph in GRAPHS:
        for name, text, test, long in PLANS:
            yield Point(f"graph-{graph}-{name}", "5.2.2", f"base graph {graph}, {text}", at(graph, test), long)
    yield Point("crc24b-fillers", "5.2.2", "several code blocks with fillers", lambda it: it.c > 1 and it.fillers > 0)
    yield Point("crc24b-octets", "5.2.2", "several code blocks, K' - L no multiple of 8",
                lambda it: it.c > 1 and (it.plan.kdash - it.plan.l) % 8 > 0)
    yield Point("full-columns", "5.2.2", "K' = Kb Zc", lambda it: it.plan.kdash == it.plan.kb * it.z)


@functools.lru_cache(maxsize=None)
def first_sizes() -> dict[tuple[int, int], tuple[int, int, int]]:
    """The first and the last size A of each base graph and lifting size in one code block, and a code rate for it."""
    found: dict[tuple[int, int], tuple[int, int, int]] = {}
    for a in range(8, 8425, 8):
        for rate in (2048, 512):
            plan = right().plan_of(a, rate)
            if plan.c == 1:
                first, _, _ = found.get((plan.graph, plan.z), (a, a, rate))
                found[plan.graph, plan.z] = first, a, rate
    return dict(sorted(found.items()))


# What a block can be: a name, words and the test.
BLOCKS: tuple[tuple[str, str, Test], ...] = (
    ("zeros", "zeros", lambda it: it.ones == 0), ("ones", "ones", lambda it: it.ones == it.a),
    ("random", "random bits", lambda it: it.random)
)


def coding_points() -> typing.Iterator[Point]:
    """Each lifting size that a transport block can reach; a single one in each information column, zeros, ones and random bits."""
    for number, z in first_sizes():
        text = f"base graph {number}, Zc = {z} (set {SETS[z]})"
        yield Point(f"graph-{number}-z-{z}", "5.3.2", text, at(number, lambda it, z=z: it.z == z))
    for number, graph in GRAPHS.items():
        for column in range(graph.information):
            text = f"base graph {number}, a single one in column {column}"
            yield Point(f"graph-{number}-one-{column}", "5.3.2", text, at(number, lambda it, j=column: it.column == j))
        for name, text, test in BLOCKS:
            yield Point(f"graph-{number}-{name}", "5.3.2", f"base graph {number}, a block of {text}", at(number, test))


# What is selected of a code block (5.4.2.1): a name, words, and the test.
SELECTIONS: tuple[tuple[str, str, Test], ...] = (
    ("short", "E below the systematic part, from rv 0", lambda it: it.case.rv == 0 and max(it.shares) < it.systematic),
    ("fillers-crossed", "E across the fillers, from rv 0",
     lambda it: it.case.rv == 0 and it.fillers and min(it.shares) > it.systematic),
    ("end", "E to the buffer's end", lambda it: it.to_end in it.shares),
    ("twice", "E more than two rounds", lambda it: max(it.shares) > 2 * it.one_round),
    ("limit-systematic", "Ncb below K, in the systematic part", lambda it: it.case.lbrm and it.ncb < it.systematic),
    ("limit-fillers", "Ncb below K, amid the fillers",
     lambda it: it.case.lbrm and it.fillers and it.systematic < it.ncb < it.systematic + it.fillers),
    ("limit-parity", "Ncb in the parity part", lambda it: it.case.lbrm and it.systematic + it.fillers < it.ncb < it.plan.n),
    ("limit-n", "a limit that leaves Ncb = N", lambda it: it.case.lbrm and it.ncb == it.plan.n),
)


def selection_points() -> typing.Iterator[Point]:
    """Each redundancy version, and what is read of whole and of limited buffers."""
    for graph in GRAPHS:
        for version in range(4):
            text = f"base graph {graph}, rv = {version}"
            yield Point(f"graph-{graph}-rv-{version}", "5.4.2.1", text, at(graph, lambda it, rv=version: it.case.rv == rv))
            yield Point(f"graph-{graph}-limited-rv-{version}", "5.4.2.1", f"{text} in a limited buffer",
                        at(graph, lambda it, rv=version: it.case.rv == rv and it.ncb < it.plan.n))
        for name, text, test in SELECTIONS:
            yield Point(f"graph-{graph}-{name}", "5.4.2.1", f"base graph {graph}, {text}", at(graph, test))
    yield Point("limit-wide", "5.4.2.1", "3 TBS_LBRM takes more than 32 bits", lambda it: 3 * (it.case.lbrm or 0) >> 32 > 0)
    yield Point("limit-floor", "5.4.2.1", "TBS_LBRM / C rounded down before 2/3 gives another Ncb",
                lambda it: it.ncb < it.plan.n and 3 * ((it.case.lbrm or 0) // it.c) // 2 != it.ncb)


def length_points() -> typing.Iterator[Point]:
    """How G is shared out, layers and symbols, and which code blocks are sent."""
    yield Point("shares-equal", "5.4.2.1", "E_r shared out evenly", lambda it: len(it.shares) > 1 and not it.unequal)
    yield Point("shares-unequal", "5.4.2.1", "E_r not shared out evenly", lambda it: it.unequal)
    yield Point("shares-layers", "5.4.2.1", "E_r not shared out evenly, NL > 1", lambda it: it.unequal and it.case.nl > 1)
    yield Point("shares-zero", "5.4.2.1", "E_r = 0 of a scheduled code block", lambda it: 0 in it.shares)
    yield from numbers("5.4.2.1", "layers", "NL", (1, 2, 3, 4), lambda it: it.case.nl)
    yield from numbers("5.4.2.2", "symbol", "Qm", (1, 2, 4, 6, 8), lambda it: it.case.qm)
    yield Point("mask-single", "5.4.2.1", "a single code block of several", lambda it: len(it.scheduled) == 1 < it.c)
    yield Point("mask-holes", "5.4.2.1", "code blocks with a hole",
                lambda it: 1 < len(it.scheduled) < it.scheduled[-1] - it.scheduled[0] + 1)
    yield Point("mask-not-first", "5.4.2.1", "none of the first code blocks", lambda it: it.scheduled[0] > 0)
    yield Point("mask-unequal", "5.4.2.1", "some code blocks, E_r not shared out evenly",
                lambda it: len(it.scheduled) < it.c and it.unequal)
    yield Point("sent-octets", "5.5", "G is no multiple of 8", lambda it: it.case.g % 8 > 0)
    yield Point("joined", "5.5", "several code blocks joined", lambda it: sum(share > 0 for share in it.shares) > 1)


PARTS = [size_points, segmentation_points, coding_points, selection_points, length_points]
POINTS = {point.name: point for part in PARTS for point in part()}
WIDTH = max(map(len, POINTS))


def covered(case: Case) -> list[str]:
    """The names of the points that a case covers."""
    facts = Facts(case)
    return [point.name for point in POINTS.values() if point.holds(facts)]


def covering(cases: typing.Iterable[Case]) -> dict[str, list[str]]:
    """Those of these cases that cover each point, by its name."""
    found: dict[str, list[str]] = {name: [] for name in POINTS}
    for case in cases:
        for name in covered(case):
            found[name].append(case.id)
    return found


def coverage(cases: typing.Sequence[Case], failing: typing.Container[str]) -> typing.Iterator[str]:
    """A table of the points: how many of these cases cover each, and how many of these fail. Those that none covers are last."""
    names = covering(cases)
    yield f"{sum(map(bool, names.values()))} of {len(POINTS)} points are covered by {len(cases)} cases"
    for name, those in sorted(names.items(), key=lambda it: not it[1]):
        bad = sum(it in failing for it in those)
        yield f"{name:{WIDTH}} {len(those):5} {bad:5} {POINTS[name].clause:8} {POINTS[name].text}"


def lines(profiles: dict[str, list[Case]]) -> typing.Iterator[str]:
    """A table of the points: each with the number of cases of each profile that cover it."""
    names = {profile: covering(cases) for profile, cases in profiles.items()}
    yield " ".join([f"{'point':{WIDTH}}", *(f"{profile:>5}" for profile in profiles), "clause   what it is"])
    for name, point in POINTS.items():
        yield " ".join([f"{name:{WIDTH}}", *(f"{len(it[name]):5}" for it in names.values()), f"{point.clause:8}", point.text])
