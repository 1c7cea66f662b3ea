"""Transmissions that are drawn near the limits of TS 38.212, the same for a seed and a number on every machine."""

from __future__ import annotations

import random
import typing

import nr
from linksim_tools.conform.case import Case, Plan
from linksim_tools.conform.clauses import Impossible, right

# Sizes and code rates at both sides of the limits of 6.2.1, 6.2.2 and 5.2.2.
SIZES = (8, 176, 184, 288, 296, 544, 552, 624, 632, 3816, 3824, 3832, 8424, 8432)
RATES = (409, 511, 512, 513, 1371, 1372, 1373, 2048)
SYMBOLS = (1, 2, 4, 6, 8)
# The longest block that is drawn, and the most bits that are sent of one: a simulation of RTL takes some clocks for each.
MOST_A, MOST_G = 20_000, 131_072


def near(draw: random.Random, limits: tuple[int, ...], most: int, step: int) -> int:
    """Half of the time a limit, a quarter a number near one, else any, a small one as often as a large one."""
    kind = draw.random()
    if kind < 0.5:
        return draw.choice(limits)
    if kind < 0.75:
        return min(max(step, draw.choice(limits) + step * draw.randint(-3, 3)), most)
    return max(step, int(step * (most / step) ** draw.random()) // step * step)


def limit_of(draw: random.Random, plan: Plan) -> int | None:
    """TBS_LBRM: none, or one by which the buffer ends somewhere else: whole, short of it, in the systematic part, amid the
    fillers."""
    systematic, fillers, n = plan.kdash - 2 * plan.z, plan.fillers, plan.n
    wanted = draw.choice((
        None, None, n, n - 1, systematic // 2, systematic + 1, systematic + fillers // 2, systematic + fillers + plan.z,
        draw.randint(n // 3, n),
    ))
    return None if wanted is None else -(-2 * plan.c * max(wanted, 1) // 3)


def wanted_of(draw: random.Random, plan: Plan, length: int, start: int) -> int:
    """About how many bits are sent of a code block."""
    systematic, live = plan.kdash - 2 * plan.z, plan.n - plan.fillers
    return draw.choice((1, systematic // 2, systematic + 1, live, length - start, 2 * live + 1, draw.randint(1, 2 * live)))


def mask_of(draw: random.Random, count: int) -> tuple[str, int]:
    """The code blocks that are sent, as a schedule names them, and how many they are."""
    if count == 1 or draw.random() < 0.6:
        return "all", count
    chosen = [r for r in range(count) if draw.random() < 0.6] or [count - 1]
    return " ".join(map(str, chosen)), len(chosen)


def block_of(draw: random.Random, a: int) -> str:
    """A block's bits: zeros, ones, a single one, or drawn."""
    kind = draw.randrange(5)
    if kind < 2:
        return "01"[kind] * a
    return f"{1 << draw.randrange(a) if kind == 2 else draw.getrandbits(a):0{a}b}"


def tried(draw: random.Random, name: str, graphs: typing.Container[int]) -> Case | None:
    """A transmission, or None if what was drawn is none."""
    a, rate = near(draw, SIZES, MOST_A, 8), near(draw, RATES, 2048, 1)
    version, symbol, layers = draw.randrange(4), draw.choice(SYMBOLS), draw.randint(1, 4)
    try:
        plan = right().plan_of(a, rate)
    except Impossible:
        return None
    limit = limit_of(draw, plan)
    try:
        length, start = nr.buffer(a, version, rate2048=rate, lbrm=limit)
    except nr.Fault:
        return None
    if plan.graph not in graphs or plan.kdash <= 2 * plan.z:
        return None
    mask, count = mask_of(draw, plan.c)
    unit = symbol * layers
    symbols = wanted_of(draw, plan, length, start) * count // unit + draw.randrange(2)
    total = min(max(symbols, 1) * unit, MOST_G // unit * unit)
    return Case(name, block_of(draw, a), rate, limit, version, total, symbol, layers, mask)


def drawn(seed: int, number: int, graphs: typing.Container[int] = (1, 2)) -> Case:
    """The transmission of this number, from 0: it does not depend on those before it."""
    draw = random.Random(f"{seed}/{number}")
    while True:
        case = tried(draw, f"drawn-{seed}-{number}", graphs)
        if case is not None:
            return case
