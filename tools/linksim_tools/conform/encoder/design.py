"""The cases of the suite: designed, so that every point of the clauses has one. A seed changes the blocks' bits."""

from __future__ import annotations

import dataclasses
import itertools
import random
import typing

from linksim_tools.common.graphs import GRAPHS
from linksim_tools.conform.case import Case
from linksim_tools.conform.clauses import right
from linksim_tools.conform.encoder.points import LIMITS, Facts, first_sizes

SYMBOLS, LAYERS = (1, 2, 4, 6, 8), (1, 2, 3, 4)

# The lifting sizes whose last information column has bits of the block and no filler, by base graph and set index.
ROOMY = {1: (32, 48, 40, 28, 36, 44, 52, 60), 2: (128, 96, 80, 112, 72, 88, 104, 120)}

# What is sent of each code block, in the terms of points.
EXTENTS = ("short", "fillers", "end", "round", "twice")


class Designer:
    """Makes cases, each with a block of its own."""

    def __init__(self, seed: int) -> None:
        self.seed = seed
        self.cases: dict[str, Case] = {}

    def block(self, name: str, a: int, pattern: int | str) -> str:
        """A block of `a` bits: zeros, ones, a single one at a place, or drawn."""
        if isinstance(pattern, int):
            return "1".rjust(pattern + 1, "0").ljust(a, "0")
        drawn = random.Random(f"{self.seed} {name}").getrandbits(a)
        return {"zeros": "0" * a, "ones": "1" * a}.get(pattern, f"{drawn:0{a}b}")

    def add(self, name: str, a: int, rate: int, extent: str = "round", pattern: int | str = "random", limit: int | None = None,
            over: int = 0, *, lbrm: int | None = None, rv: int = 0, g: int | None = None, qm: int = 1, nl: int = 1,
            mask: str = "all") -> None:
        """A case. The limit is the wanted Ncb in hundredths of a codeword, and `lbrm` is a TBS_LBRM in bits. `over` are
        symbols that are not shared out evenly."""
        case = Case(name, self.block(name, a, pattern), rate, lbrm, rv, g or 1, qm, nl, mask)
        if limit is not None:
            plan = Facts(case).plan
            case = dataclasses.replace(case, lbrm=-(-2 * plan.c * (plan.n * limit // 100) // 3))
        if g is None:
            case = dataclasses.replace(case, g=self.total(Facts(case), extent) + over * qm * nl)
        assert name not in self.cases, name
        self.cases[name] = case

    @staticmethod
    def total(facts: Facts, extent: str) -> int:
        """G: about so much for each scheduled code block as the extent says, in whole symbols of all layers."""
        wanted = {"short": facts.systematic * 2 // 3, "fillers": facts.systematic + facts.z, "end": facts.to_end,
                  "round": facts.one_round, "twice": 2 * facts.one_round + facts.z, "rounds": 4 * facts.one_round + facts.z}[extent]
        unit = facts.case.qm * facts.case.nl
        up = extent in ("fillers", "twice", "rounds")
        return max((wanted + (unit - 1) * up) // unit, 1) * unit * len(facts.scheduled)


def lifting_cases(design: Designer) -> None:
    """Each lifting size that no case has yet, in turn with the largest block that has it or with the smallest.
    Versions, Qm and NL are taken in turn too."""
    facts = map(Facts, design.cases.values())
    there = {(it.graph, it.z) for it in facts if it.c == 1}
    for place, ((graph, z), (first, last, rate)) in enumerate(first_sizes().items()):
        if (graph, z) not in there:
            # The smallest block of a size has the most fillers. That of the largest size of a set has bits in all columns.
            one_size(design, f"lifting-{graph}-{z}", first if place % 2 and z <= 192 else last, rate, place)


def one_size(design: Designer, name: str, a: int, rate: int, turn: int) -> None:
    """A case of a size, whose transmission is the next one in turn."""
    extent = "round" if turn % 4 else ("end", "fillers", "short", "round")[turn // 4 % 4]
    version, symbol, layers = turn // 2 % 4, SYMBOLS[turn % 5], LAYERS[turn // 5 % 4]
    if extent in ("fillers", "short"):
        version = 0
    if extent == "end":
        symbol = layers = 1
    design.add(name, a, rate, extent, rv=version, qm=symbol, nl=layers)


def single_ones(design: Designer, sets_of: typing.Callable[[int], typing.Iterable[int]]) -> None:
    """Blocks of a single one, in each information column, by set index."""
    for graph, column in ((it.number, column) for it in GRAPHS.values() for column in range(it.information)):
        for index in sets_of(column):
            z = ROOMY[graph][index]
            first, last, rate = first_sizes()[graph, z]
            # Another bit of each column: a wrong shift must not hide behind the same bit of all columns.
            place = column * z + (5 * column + 3) % min(z, 8)
            design.add(f"one-{graph}-{column}-set{index}", last, rate, pattern=place)


def sizes(design: Designer) -> None:
    """Sizes and rates at the limits of 6.2.1 and 6.2.2, sizes at the limits of Kb and Kcb, and several code blocks."""
    for a, rate in (*LIMITS, (3816, 1371)):
        design.add(f"limit-{a}-{rate}", a, rate, g=2 * a)
    for a, rate, extent in ((8, 511, "round"), (3832, 511, "short"), (3832, 300, "short")):
        design.add(f"limit-{a}-{rate}", a, rate, extent)
    for b in (192, 200, 560, 568, 640, 648):
        design.add(f"kb-{b}", b - 16, 1024)
    for a, rate in ((8424, 2048), (8432, 2048), (3824, 511)):
        design.add(f"kcb-{a}-{rate}", a, rate, "short")
    design.add("many-1-3", 16848, 2048, "short", qm=2)
    design.add("many-2-3", 7656, 512, "short", qm=4, nl=2)
    design.add("many-1-4", 25312, 2048, g=33000, qm=6, nl=2)
    design.add("many-2-4", 15216, 512, g=16000, qm=8)
    # Further sizes at the sides of each limit: with two cases at each, a limit that is another one has a name of its own.
    for b in (184, 208, 552, 576, 632, 656):
        design.add(f"kb-{b}", b - 16, 1024)
    for a, rate in ((280, 2048), (304, 2048), (4000, 512), (4000, 513)):
        design.add(f"limit-{a}-{rate}", a, rate, "short")
    for a, rate in ((8416, 2048), (8440, 2048), (3816, 511)):
        design.add(f"kcb-{a}-{rate}", a, rate, "short")
    # A buffer a little shorter than d: one that is not limited, or limited far too little, is another one.
    for graph, a, rate in ((1, 296, 2048), (2, 24, 2048)):
        design.add(f"limited-{graph}-near", a, rate, "twice", limit=98, rv=2)
    # Numbers of more than 14 and of more than 16 bits.
    design.add("large-numbers", 8424, 2048, g=70_000, rv=3)
    design.add("large-block", 65_600, 2048, "short", qm=4)
    # More than three rounds of the buffer, and counters of more than eight code blocks.
    for graph, a, rate in ((1, 296, 2048), (2, 24, 2048)):
        design.add(f"rounds-{graph}", a, rate, "rounds", rv=graph, qm=2 * graph, limit=(None, None, 60)[graph])
    for name, mask, over in (("all", "all", 7), ("mask", "0-3 5-9", 4)):
        design.add(f"ten-{name}", 10 * 3816 - 24, 512, "short", mask=mask, qm=2, nl=3, over=over, rv=2)


def buffers(design: Designer) -> None:
    """Blocks of zeros and of ones. Limited buffers at each redundancy version, and what is read of whole ones."""
    for graph, a, rate in ((1, 600, 2048), (2, 704, 1024)):
        for pattern in ("zeros", "ones"):
            design.add(f"{pattern}-{graph}", a, rate, pattern=pattern)
    for graph, a, rate, limits in ((1, 296, 2048, (15, 29, 61, 81)), (2, 24, 2048, (7, 13, 60, 80))):
        for version, (limit, extent) in enumerate(zip(limits, ("round", "round", "twice", "end"))):
            design.add(f"limited-{graph}-rv{version}", a, rate, extent, limit=limit, rv=version)
        design.add(f"limited-{graph}-n", a, rate, "twice", limit=130, rv=1)
        design.add(f"fillers-{graph}", a, rate, "fillers", qm=2)
        design.add(f"short-{graph}", a, rate, "short", qm=4)
    # C = 2 and TBS_LBRM = 3 modulo 4: rounding down twice gives another Ncb.
    design.add("limited-floor", 3832, 512, "round", lbrm=10_007, rv=1)
    # Some code blocks alone, and G shared out in every way.
    a, rate = 7656, 512
    design.add("mask-single", a, rate, "short", mask="1", qm=2, rv=2, lbrm=9_001)
    design.add("mask-hole", a, rate, g=1204, mask="0 2", qm=4, rv=1)
    # TBS_LBRM = 1 modulo C: rounding down twice gives another Ncb; a whole round shows where the buffer ends.
    design.add("mask-last", a, rate, "round", mask="1-2", qm=2, rv=1, lbrm=15_004, over=1)
    design.add("mask-ends", 15216, rate, "round", mask="0 3", qm=2, rv=3, lbrm=20_002, over=1)
    design.add("shares-layers", a, rate, g=8 * 3 * 101, qm=8, nl=3)
    design.add("shares-zero", a, rate, g=4, qm=2, rv=3)


def whole_and_shared(design: Designer) -> None:
    """All of d at the largest lifting sizes, and of several code blocks without a filler; G shared out to several code blocks."""
    for graph, z in ((1, 352), (1, 384), (2, 384)):
        _, last, rate = first_sizes()[graph, z]
        design.add(f"whole-{graph}-{z}", last, rate)
    # B = 8424 C: no code block has a filler.
    design.add("many-1-whole", 2 * 8424 - 24, 2048, "twice", rv=1)
    design.add("many-2-whole", 2 * 3816 - 24, 512, qm=2, nl=2, rv=2)
    # G shared out to several code blocks at each NL, and to some of them; what is left over is 1, or all but 1. Then TBS_LBRM whose
    # threefold takes more than 31 and more than 32 bits, and limits of several code blocks at each rv.
    a, rate = 7656, 512
    for layers, symbol, over in ((2, 1, 1), (2, 6, 2), (3, 2, 2), (4, 4, 1), (4, 8, 2)):
        design.add(f"layers-{layers}-{symbol}", a, rate, "short", qm=symbol, nl=layers, rv=layers % 4, over=over)
    design.add("layers-1-graph-1", 25312, 2048, "short", qm=2, nl=3, over=2)
    for mask, over in (("0 2-3", 2), ("1-2", 1), ("2", 0), ("1 3", 1)):
        name = "mask-" + mask.replace(" ", "-and-")
        design.add(name, 15216, rate, "short", mask=mask, qm=2, nl=1 + over, rv=over, over=over)
    design.add("mask-limited", 15216, rate, "round", mask="0-1 3", qm=4, rv=3, limit=40, over=2)
    for bits in (31, 32):
        lbrm = 2**bits // 3 + 101
        design.add(f"limited-wide-{bits}", 24, 2048, "twice", lbrm=lbrm, rv=2)
        design.add(f"limited-wide-several-{bits}", a, rate, "short", lbrm=lbrm, rv=3, qm=2)
    for version, limit in enumerate((23, 37, 61, 85)):
        design.add(f"limited-several-rv{version}", a, rate, "round", limit=limit, rv=version, qm=2)


def long_cases(design: Designer) -> None:
    """The longest blocks that can be cut, and one of more code blocks than a machine word has bits."""
    design.add("long-1", 1_310_688, 2048, "short", qm=8, nl=4)
    design.add("long-2", 1_310_616, 512, "short", qm=8, nl=3, rv=1)
    design.add("long-sent", 24, 2048, g=1_048_640, rv=1)
    design.add("long-sent-several", 7656, 512, g=2_100_000, qm=8, rv=2)
    design.add("long-mask", 264_576, 512, "short", qm=6, mask="1-3 60-69", rv=2, lbrm=1_000_001)


def quick(design: Designer) -> None:
    """At most 190 cases."""
    for part in (sizes, buffers, whole_and_shared):
        part(design)
    single_ones(design, lambda column: [column % 8])
    lifting_cases(design)


def every_size(design: Designer) -> None:
    """Both ends of every lifting size, each in several transmissions."""
    turn = 0
    for (graph, z), (first, last, rate) in first_sizes().items():
        for a, version in itertools.product(sorted({first, last}), range(2)):
            one_size(design, f"size-{graph}-{a}-{version}", a, rate, turn)
            turn += 1


def every_transmission(design: Designer) -> None:
    """At both base graphs each version with each extent in each kind of buffer, and each Qm with each NL."""
    for graph, a, rate in ((1, 344, 2048), (2, 24, 2048)):
        kinds = itertools.product(range(4), EXTENTS, (None, 12, 37, 73, 100))
        for place, (version, extent, limit) in enumerate(kinds):
            name = f"rv{version}-{extent}-{limit or 'whole'}-{graph}"
            symbol, layers = (1, 1) if extent == "end" else (SYMBOLS[place % 5], LAYERS[place % 4])
            design.add(name, a, rate, extent, limit=limit, rv=version, qm=symbol, nl=layers)
        for symbol, layers in itertools.product(SYMBOLS, LAYERS):
            design.add(f"qm{symbol}-nl{layers}-{graph}", a, rate, qm=symbol, nl=layers, rv=symbol // 2 % 4)


def several_code_blocks(design: Designer) -> None:
    """Two to eight code blocks, all and some of them, at each Qm. Several code blocks without a filler, each Qm with each NL of
    several code blocks, and many bits of one."""
    counts: dict[tuple[int, int], int] = {}
    after: dict[tuple[int, int], int] = {}
    for graph, a in itertools.product(GRAPHS, itertools.chain(range(3832, 31000, 8), range(31000, 70000, 800))):
        rate = next(rate for rate in (2048, 512) if right().base_graph(a, rate) == graph)
        plan = right().plan_of(a, rate)
        key, is_exact = (graph, plan.c), (plan.b + plan.c * plan.l) % plan.c == 0
        if plan.c > 1 and is_exact and counts.get(key, 0) < 3 and a > after.get(key, 0):
            count = counts[key] = counts.get(key, 0) + 1
            after[key] = a + 1500
            mask = ("all", f"0 {plan.c - 1}", f"1-{plan.c - 1}")[count - 1]
            design.add(f"several-{graph}-{plan.c}-{a}", a, rate, "short", over=1, limit=(None, 45, 80)[plan.c % 3],
                       qm=SYMBOLS[count % 5], nl=LAYERS[plan.c % 4], mask=mask, rv=count % 4)
    for c in (2, 3, 5):
        design.add(f"filled-1-{c}", 8424 * c - 24, 2048, "round", rv=c % 4, qm=2)
    for symbol, layers in itertools.product(SYMBOLS, LAYERS):
        design.add(f"several-qm{symbol}-nl{layers}", 7656, 512, "short", qm=symbol, nl=layers, over=1, rv=layers % 4)
    for graph, a, rate in ((1, 8424, 2048), (2, 3824, 512)):
        design.add(f"repeated-{graph}", a, rate, g=70_000, rv=3)


def full(design: Designer) -> None:
    """At most 1,100 cases."""
    quick(design)
    single_ones(design, lambda column: [it for it in range(8) if it != column % 8])
    every_size(design)
    every_transmission(design)
    several_code_blocks(design)
    long_cases(design)


def designed(profile: str, seed: int) -> list[Case]:
    """The cases of a profile in their order."""
    design = Designer(seed)
    {"quick": quick, "full": full}[profile](design)
    return list(design.cases.values())
