"""The steps of the chain. A case of a suite, the numbers of its segmentation, and what stands between its block and the bits
that are sent."""

from __future__ import annotations

import dataclasses
import re
import typing

# The steps of the chain in their order, each with the names of an answer that show it.
STEPS = {
    "crc": ("CRC", ("attached",)),
    "graph": ("base graph", ("graph",)),
    "segmentation": ("segmentation", ("plan",)),
    "codecrc": ("code block CRC", ("bits",)),
    "ldpc": ("LDPC", ("d",)),
    "buffer": ("buffer and k0", ("Ncb", "k0")),
    "lengths": ("E_r", ("E",)),
    "selection": ("selection", ("e",)),
    "interleaving": ("interleaving", ("f",)),
    "concatenation": ("concatenation", ("sent",)),
}
FIELDS = tuple(field for _, fields in STEPS.values() for field in fields)
STEP_OF = {field: step for step, (_, fields) in STEPS.items() for field in fields}

# The names of an answer that are bits.
BITS = ("attached", "bits", "d", "e", "f", "sent")

# The entries of a base graph by row: a column with its eight values; and such lists by the number of the base graph.
Row = typing.List[typing.Tuple[int, typing.Tuple[int, ...]]]
Tables = typing.Dict[int, typing.List[Row]]


def put(values: tuple[int, ...], index: int, value: int) -> tuple[int, ...]:
    """Values with another one at an index."""
    return (*values[:index], value, *values[index + 1 :])


@dataclasses.dataclass(frozen=True)
class Case:
    """What an encoder is given: the block as text of bits, the settings and one transmission."""

    id: str
    a: str
    rate2048: int
    lbrm: int | None = None
    rv: int = 0
    g: int = 1
    qm: int = 1
    nl: int = 1
    mask: str = "all"


@dataclasses.dataclass(frozen=True)
class Plan:
    """The numbers of segmentation (5.2.2, 5.3.2), as `linksim cut` names them."""

    a: int
    b: int
    graph: int
    c: int
    l: int
    kdash: int
    kb: int
    z: int
    set: int
    k: int
    n: int

    @property
    def fillers(self) -> int:
        """How many places of a code block have no bit."""
        return self.k - self.kdash


PLAN = tuple(field.name for field in dataclasses.fields(Plan))
# The same in words.
NAMES = dict(zip(PLAN, ("A", "B", "the base graph", "C", "L", "K'", "Kb", "Zc", "the set index", "K", "N")))


@dataclasses.dataclass(frozen=True)
class Values:
    """All that stands between a block and its sent bits, by the names of an answer; lists have an item for each code
    block."""

    attached: str
    plan: Plan
    bits: list[str]
    d: list[str]
    Ncb: int
    k0: int
    E: list[int]
    e: list[str]
    f: list[str]
    sent: str

    @property
    def graph(self) -> int:
        return self.plan.graph


@dataclasses.dataclass
class Answer:
    """What an encoder answers of a case: the same names, as many as it gives; of a plan as many numbers as it gives."""

    attached: str | None = None
    graph: int | None = None
    plan: dict[str, int] | None = None
    bits: list[str] | None = None
    d: list[str] | None = None
    Ncb: int | None = None
    k0: int | None = None
    E: list[int] | None = None
    e: list[str] | None = None
    f: list[str] | None = None
    sent: str | None = None

    def names(self) -> list[str]:
        return [field.name for field in dataclasses.fields(self) if getattr(self, field.name) is not None]


def scheduled(mask: str, count: int) -> list[int]:
    """The code blocks that a mask such as `0 2-3` names, of so many."""
    if mask == "all":
        return list(range(count))
    named: set[int] = set()
    for first, last in re.findall(r"([0-9]+)(?:-([0-9]+))?", mask):
        named.update(range(int(first), min(int(last or first), count - 1) + 1))
    return sorted(it for it in named if it < count)


def size(case: Case) -> tuple[int, int, str]:
    """What makes one case smaller than another."""
    return len(case.a), case.g, case.id


def about(case: Case) -> str:
    """A case in a few words."""
    limit = "" if case.lbrm is None else f", TBS_LBRM = {case.lbrm}"
    mask = "" if case.mask == "all" else f", code blocks {case.mask}"
    sent = f"rv = {case.rv}, G = {case.g}, Qm = {case.qm}, NL = {case.nl}"
    return f"A = {len(case.a)}, 2048 R = {case.rate2048}, {sent}{limit}{mask}"
