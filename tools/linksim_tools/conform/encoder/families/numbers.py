"""Numbers of the chain that are kept in too few bits, or made by another formula."""

from __future__ import annotations

import functools
import itertools
import typing

from linksim_tools.common.graphs import GRAPHS, STARTS
from linksim_tools.conform.case import put
from linksim_tools.conform.clauses import SIZES, Clauses, right
from linksim_tools.conform.encoder.families import Steps, after, instead, mistake, told
from linksim_tools.conform.mistake import Method, Methods, Mistake

# The numbers that a hook makes: their names and steps. A number of a case is one of several settings.
HOOKS = {
    "start": ("k0", "buffer"), "buffer_length": ("Ncb", "buffer"), "reference": ("Nref", "buffer"),
    "bits_of_code_block": ("K'", "segmentation"), "count": ("C", "segmentation"), "shift": ("P", "ldpc"), "value": ("V", "ldpc"),
    "first_bit": ("the place of a code block's first bit", "codecrc")
}
SETTINGS = {"g": ("G", ("lengths",)), "lbrm": ("TBS_LBRM", ("buffer",)), "rate2048": ("2048 R", ("graph",))}
WIDE = "keep all its bits"


def cut(bits: int) -> Method:
    """A number of so many bits."""
    return lambda value, *_: value if value is None else value % (1 << bits)


def turned(bits: int) -> Methods:
    """A counter of places that begins again after so many bits."""
    return after("ring", lambda ring, _d, length: (ring * (-(-(1 << bits) // length)))[: 1 << bits] if length < 1 << 24 else ring)


def widths() -> typing.Iterator[Mistake]:
    """Each number of the chain in each number of bits."""
    yield mistake("too-few-bits", "buffer", "rv keeps 1 bit", WIDE, versions((0, 1, 0, 1)))
    for bits in range(6, 32):
        made: list[tuple[str, str | Steps, Methods]] = [
            *((name, step, after(hook, cut(bits))) for hook, (name, step) in HOOKS.items()
              if bits < 9 or hook not in ("shift", "value")),
            *((name, steps, told(**{field: cut(bits)})) for field, (name, steps) in SETTINGS.items()),
            ("E_r", "lengths", each_length(cut(bits))),
            ("3 TBS_LBRM", "buffer", instead("reference", lambda lbrm, c, _, b=bits: 3 * lbrm % (1 << b) // (2 * c))),
            ("the product of k0 with Ncb", "buffer",
             begun(lambda n, columns, ncb, z, _, b=bits: int(n * ncb % (1 << b) // (columns * z) * z))),
            *([("the counter of places", "selection", turned(bits))] if bits < 22 else [])]
        yield from (mistake("too-few-bits", step, f"{name} keeps {bits} bits", WIDE, methods) for name, step, methods in made)


# Numbers or parts of them by other formulas, in words and as they are made.
Formulas = typing.Dict[str, Method]

# What may be done to any number after it is made.
AFTER: Formulas = {
    "1 too many": lambda it, *_: it + 1, "1 too few": lambda it, *_: it - 1, "twice as much": lambda it, *_: 2 * it,
    "half as much": lambda it, *_: it // 2, "two thirds of it": lambda it, *_: 2 * it // 3,
    "three quarters of it": lambda it, *_: 3 * it // 4, "half as much again": lambda it, *_: 3 * it // 2,
    "8 times as much": lambda it, *_: 8 * it, "an 8th": lambda it, *_: it // 8,
    "24 too many": lambda it, *_: it + 24, "24 too few": lambda it, *_: it - 24,
    **{f"rounded down to a multiple of {n}": lambda it, *_, n=n: it // n * n for n in (2, 4, 8, 16, 32, 64)},
    **{f"rounded up to a multiple of {n}": lambda it, *_, n=n: -(-it // n) * n for n in (2, 4, 8, 16, 32, 64)},
}

# What may be done to one of which the plan is known.
OF_PLAN: Formulas = {
    "rounded down to a multiple of Zc": lambda it, plan, *_: it // plan.z * plan.z,
    "rounded up to a multiple of Zc": lambda it, plan, *_: -(-it // plan.z) * plan.z,
    "rounded to the nearest multiple of Zc": lambda it, plan, *_: (2 * it + plan.z) // (2 * plan.z) * plan.z,
    "Zc too large": lambda it, plan, *_: it + plan.z, "Zc too small": lambda it, plan, *_: max(it - plan.z, 0),
    "2 Zc too large": lambda it, plan, *_: it + 2 * plan.z, "2 Zc too small": lambda it, plan, *_: max(it - 2 * plan.z, 0),
    "at most K": lambda it, plan, *_: min(it, plan.k), "at most K'": lambda it, plan, *_: min(it, plan.kdash),
    "at most N - 2 Zc": lambda it, plan, *_: min(it, plan.n - 2 * plan.z),
    "the number of fillers too large": lambda it, plan, *_: it + plan.fillers,
    "the number of fillers too small": lambda it, plan, *_: it - plan.fillers if it else it,
}

# Nref of TBS_LBRM, C and the number of scheduled code blocks.
REFERENCES: Formulas = {
    "ceil(3 TBS_LBRM / (2 C))": lambda lbrm, c, _: -(-3 * lbrm // (2 * c)),
    "3 TBS_LBRM / (2 C), rounded to the nearest": lambda lbrm, c, _: (3 * lbrm + c) // (2 * c),
    "floor(TBS_LBRM / 2) 3 / C": lambda lbrm, c, _: lbrm // 2 * 3 // c,
    "floor(floor(3 TBS_LBRM / 2) / C)": lambda lbrm, c, _: 3 * lbrm // 2 // c,
    "ceil(TBS_LBRM / C) 3 / 2": lambda lbrm, c, _: -(-lbrm // c) * 3 // 2, "2 TBS_LBRM / C": lambda lbrm, c, _: 2 * lbrm // c,
    "3 TBS_LBRM / C": lambda lbrm, c, _: 3 * lbrm // c, "TBS_LBRM / (2 C)": lambda lbrm, c, _: lbrm // (2 * c),
    "TBS_LBRM": lambda lbrm, _c, _: lbrm, "4 TBS_LBRM / (3 C)": lambda lbrm, c, _: 4 * lbrm // (3 * c),
    "3 TBS_LBRM / (2 C) - 24": lambda lbrm, c, _: max(3 * lbrm // (2 * c) - 24, 1),
    "3 (TBS_LBRM + 24) / (2 C)": lambda lbrm, c, _: 3 * (lbrm + 24) // (2 * c),
    "3 TBS_LBRM / (2 (C + 1))": lambda lbrm, c, _: 3 * lbrm // (2 * (c + 1)),
    "3 TBS_LBRM / (2 (C - 1))": lambda lbrm, c, _: 3 * lbrm // (2 * max(c - 1, 1)),
    "TBS_LBRM / (0.67 C)": lambda lbrm, c, _: 100 * lbrm // (67 * c),
    "TBS_LBRM / (0.66 C)": lambda lbrm, c, _: 100 * lbrm // (66 * c),
    "1.5 TBS_LBRM / C'": lambda lbrm, _c, count: 3 * lbrm // (2 * count),
}

# k0 of its number in the table, the number of columns, Ncb, Zc and the plan.
BEGINS: Formulas = {
    "number Ncb / (columns Zc), rounded to the nearest, times Zc":
        lambda n, columns, ncb, z, _: (2 * n * ncb + columns * z) // (2 * columns * z) * z,
    "ceil(number Ncb / (columns Zc)) Zc": lambda n, columns, ncb, z, _: -(-n * ncb // (columns * z)) * z,
    "number floor(Ncb / (columns Zc)) Zc": lambda n, columns, ncb, z, _: n * (ncb // (columns * z)) * z,
    "floor(number Ncb / columns)": lambda n, columns, ncb, _z, _: n * ncb // columns,
    "floor(Ncb / columns) number": lambda n, columns, ncb, _z, _: ncb // columns * n,
    "floor(number Ncb / ((columns + 2) Zc)) Zc": lambda n, columns, ncb, z, _: n * ncb // ((columns + 2) * z) * z,
    "floor(number Ncb / ((columns - 2) Zc)) Zc": lambda n, columns, ncb, z, _: n * ncb // ((columns - 2) * z) * z,
    "floor(number (Ncb - 1) / (columns Zc)) Zc": lambda n, columns, ncb, z, _: n * (ncb - 1) // (columns * z) * z,
    "floor(number (Ncb + 2 Zc) / (columns Zc)) Zc": lambda n, columns, ncb, z, _: n * (ncb + 2 * z) // (columns * z) * z,
    "floor(number K / (columns Zc)) Zc": lambda n, columns, _ncb, z, plan: n * plan.k // (columns * z) * z,
    "floor(number Ncb / (columns 384)) Zc": lambda n, columns, ncb, z, _: n * ncb // (columns * 384) * z,
    "number Zc, less Ncb if it is over it": lambda n, _c, ncb, z, _: n * z if n * z < ncb else n * z % ncb,
    "the least of number Zc and Ncb": lambda n, _c, ncb, z, _: min(n * z, ncb - 1),
}


def begun(formula: Method) -> Methods:
    """k0 by another formula."""
    def start(self: Clauses, _right: Method, plan: typing.Any, length: int, version: int) -> typing.Any:
        numerators, columns = self.starts(plan.graph)
        return formula(numerators[version], columns, length, plan.z, plan)

    return {"start": start}


# The parts of which lengths are composed, by the methods that give them, and what each may be.
LENGTHS: dict[str, Formulas] = {
    "unit": {
        "the unit is NL": lambda it: it.nl, "the unit is Qm": lambda it: it.qm, "the unit is 1": lambda _: 1,
        "the unit is the larger of NL and Qm": lambda it: max(it.nl, it.qm), "the unit is 2 Qm": lambda it: 2 * it.qm,
        "the unit is 8": lambda _: 8, "the unit is 2 NL Qm": lambda it: 2 * it.nl * it.qm
    },
    "shared_by": {"G is shared out to C": lambda c, _: c, "G is shared out to C' + 1": lambda _, n: n + 1},
    "longer": {
        **{f"mod({name}, {words}) are longer": lambda it, units, n, c, of=of, by=by: of(it) % by(n, c)
           for name, of in (("G", lambda it: it.g), ("G / Qm", lambda it: it.g // it.qm), ("G / NL", lambda it: it.g // it.nl),
                            ("G / (NL Qm)", lambda it: it.g // (it.nl * it.qm)))
           for words, by in (("C'", lambda n, _: n), ("C", lambda _, c: c), ("C' - 1", lambda n, _: max(n - 1, 1)),
                             ("C' + 1", lambda n, _: n + 1))
           if (name, words) != ("G / (NL Qm)", "C'")},
        "one more is longer": lambda it, units, n, c: units % n + 1, "none is longer": lambda *_: 0,
        "one fewer is longer": lambda it, units, n, c: max(units % n - 1, 0), "all are longer": lambda it, units, n, c: n,
        "C' - mod(G / (NL Qm), C') are longer": lambda it, units, n, c: n - units % n,
    },
    "is_longer": {
        "the longer ones come first": lambda j, r, n, longer: j < longer,
        "j is the number r": lambda j, r, n, longer: r >= n - longer, "the longer ones have odd j": lambda j, *_: j % 2,
        "the longer ones have even j": lambda j, *_: j % 2 == 0,
        "the longer ones begin at j = 1": lambda j, r, n, longer: 1 <= j <= longer,
    },
    "longer_length": {"the longer length is the ceiling": lambda least, rest: least + (rest > 0),
                      "the longer ones have two units more": lambda least, rest: least + 2},
}


def composed(words: typing.Iterable[str]) -> Methods:
    """E_r of which these parts are other ones."""
    return {hook: method for of, parts in LENGTHS.items() for it in words if it in parts
            for hook, method in instead(of, parts[it]).items()}


def shares() -> typing.Iterator[tuple[str, Methods]]:
    """E_r with one part or two that are other ones, in words with the methods."""
    for count in (1, 2):
        for parts in itertools.combinations(LENGTHS.values(), count):
            yield from ((", ".join(words), composed(words)) for words in itertools.product(*parts))
    yield "the last code block has all that is left over", rest_at(-1)
    yield "the first code block has all that is left over", rest_at(0)
    for words, change in (("up", lambda it: -(-it // 8) * 8), ("down", lambda it: it // 8 * 8)):
        yield f"E_r is rounded {words} to whole octets", each_length(change)


def each_length(change: Method) -> Methods:
    return after("lengths", lambda found, *_: [*map(change, found)])


def rest_at(place: int) -> Methods:
    """E_r with all that is left over in one code block."""
    return {**instead("is_longer", lambda j, _r, n, _longer: j == place % n),
            **instead("longer_length", lambda least, rest: least + rest)}


def taken_as() -> typing.Iterator[Mistake]:
    """A value of NL or Qm that is taken for another one."""
    for field, name, values, steps in (
        ("nl", "NL", (1, 2, 3, 4), ("lengths",)), ("qm", "Qm", (1, 2, 4, 6, 8), ("lengths", "interleaving")),
        ("rv", "rv", (0, 1, 2, 3), ("buffer",))
    ):
        for one, two in itertools.permutations(values, 2):
            yield mistake("taken-as", steps, f"{name} = {one} is taken as {two}", "take it as it is given",
                          told(**{field: lambda it, one=one, two=two: two if it == one else it}))


# C of B, Kcb and L; K' of B, C and L; Zc of the base graph, Kb and K'.
COUNTS: Formulas = {
    "floor(B / (Kcb - 24))": lambda b, most, l: max(b // (most - l), 1),
    "floor(B / (Kcb - 24)) + 1": lambda b, most, l: b // (most - l) + 1,
    "B / (Kcb - 24), rounded": lambda b, most, l: max((2 * b + most - l) // (2 * (most - l)), 1),
    "ceil((B + 24) / (Kcb - 24))": lambda b, most, l: -(-(b + 24) // (most - l)),
    "ceil((B - 24) / (Kcb - 24))": lambda b, most, l: -(-(b - 24) // (most - l)),
    "floor(B / Kcb) + 1": lambda b, most, _: b // most + 1, "ceil(B / (Kcb + 24))": lambda b, most, l: -(-b // (most + l)),
    "ceil(B / Kcb)": lambda b, most, _: -(-b // most),
}
PARTS: Formulas = {"ceil(B / C) + L": lambda b, c, l: -(-b // c) + l, "floor(B / C)": lambda b, c, _: b // c,
                   "floor(B / C) + L, rounded up to octets": lambda b, c, l: -(-(b // c + l) // 8) * 8}
SIZED: Formulas = {
    **{f"the least Zc with {n} Zc >= K'": lambda graph, _kb, kdash, n=n: right().lifting_size(graph, n, kdash) for n in (22, 10)},
    **{f"the least Zc with Kb Zc >= K' {words}": lambda graph, kb, kdash, by=by: right().lifting_size(graph, kb, kdash + by)
       for words, by in (("+ 24", 24), ("- 24", -24), ("- 16", -16))},
    "the largest Zc with Kb Zc <= K'": lambda _g, kb, kdash: next((z for z in SIZES[::-1] if kb * z <= kdash), 2),
}


# Each number with its step, the right formula, the others, and how one is put in its place. C is 1 by each if B <= Kcb.
OTHERS: tuple[tuple[str, str, str, Formulas, typing.Callable[[Method], Methods]], ...] = (
    ("Nref", "buffer", "floor(3 TBS_LBRM / (2 C))", REFERENCES, functools.partial(instead, "reference")),
    ("C", "segmentation", "ceil(B / (Kcb - 24))", COUNTS,
     lambda formula: instead("count", lambda b, most, l, there: formula(b, most, l) if there else 1)),
    ("K'", "segmentation", "(B + C L) / C", PARTS, functools.partial(instead, "bits_of_code_block")),
    ("Zc", "segmentation", "the least Zc with Kb Zc >= K'", SIZED, functools.partial(instead, "lifting_size")),
    ("k0", "buffer", "floor(number Ncb / (columns Zc)) Zc", BEGINS, begun),
)


def formulas() -> typing.Iterator[Mistake]:
    for name, step, clause, table, by in OTHERS:
        for words, formula in table.items():
            yield mistake("other-formula", step, f"{name} is {words}", clause, by(formula))
    clause = "E_r = NL Qm floor(G / (NL Qm C')), of the last mod(G / (NL Qm), C') one unit more"
    yield from (mistake("other-formula", "lengths", words, clause, methods) for words, methods in shares())


def changed() -> typing.Iterator[Mistake]:
    """Numbers that are changed after they are made."""
    for hook, (name, step) in HOOKS.items():
        if hook in ("shift", "first_bit"):
            continue
        for words, formula in {**AFTER, **(OF_PLAN if hook in ("start", "buffer_length") else {})}.items():
            yield mistake("other-formula", step, f"{name} is {words}", "take it as the clause has it", after(hook, formula))
    for field, (name, steps) in SETTINGS.items():
        for words, formula in AFTER.items():
            yield mistake("other-formula", steps, f"{name} is {words}", "take it as it is given", told(
                **{field: lambda it, f=formula: None if it is None else max(f(it), 1)}))


def versions(order: tuple[int, ...]) -> Methods:
    """The redundancy versions begin in this order."""
    return {"start": lambda _self, right, plan, length, version: right(plan, length, order[version])}


def sets_exchanged(one: int, two: int) -> Methods:
    return after("set_index", lambda it, _z: {one: two, two: one}.get(it, it))


def exchanged() -> typing.Iterator[Mistake]:
    """Two numbers of a table that are exchanged: redundancy versions, set indexes, the columns of a base graph."""
    for order in itertools.permutations(range(4)):
        if order != (0, 1, 2, 3):
            said = f"the redundancy versions 0, 1, 2, 3 begin as {', '.join(map(str, order))}"
            yield mistake("exchanged", "buffer", said, "Table 5.4.2.1-2 by rv", versions(order))
    for pair in itertools.combinations(range(8), 2):
        said = "the set indexes {} and {} are exchanged".format(*pair)
        yield mistake("exchanged", "segmentation", said, "the row of Table 5.3.2-1 that has Zc", sets_exchanged(*pair))
    for graph, (numbers, columns) in STARTS.items():
        for version, other in itertools.product(range(4), range(columns)):
            changed = put(numbers, version, other)
            if changed != numbers:
                said = f"k0 of rv = {version} by base graph {graph} is not made of {numbers[version]}: {other}"
                yield mistake("k0-begins", "buffer", said, "Table 5.4.2.1-2", starting(graph, changed, columns))
        for other in (columns - 2, columns + 2, STARTS[3 - graph][1], GRAPHS[graph].information):
            said = f"k0 of base graph {graph} is divided by {other} Zc"
            yield mistake("other-formula", "buffer", said, f"{columns} Zc", starting(graph, numbers, other))


def starting(graph: int, *table: typing.Any) -> Methods:
    """Other numbers of Table 5.4.2.1-2 for a base graph."""
    return instead("starts", lambda it: table if it == graph else STARTS[it])


def mistakes() -> typing.Iterator[Mistake]:
    return itertools.chain(widths(), formulas(), changed(), exchanged(), taken_as())
