"""Which chunks come next if `errors` says when a point is done: those of the coarse grid, where the curve falls, and more."""

from __future__ import annotations

import typing

from linksim_tools.curve.draws import threshold_of
from linksim_tools.curve.results import total

if typing.TYPE_CHECKING:
    from linksim_tools.curve.making import Task
    from linksim_tools.curve.results import Line
    from linksim_tools.curve.setting import Setting


def lacks(setting: Setting, line: Line, above: Line | str | None) -> str | None:
    """What a point still wants. It is "more" if after some transmission blocks failed, but fewer than `errors`; or if none did
    and the fall may be here. It is "above" if the next greater point must tell first whether the fall is here. `above` is the
    settled sum of that point, or nothing if it is not settled, or "greatest" if there is none. The fall is elsewhere if an
    earlier transmission already delivered some blocks, or if no block failed at the point above either."""
    wants, earlier = None, False
    for n, failed in enumerate(line.failed):
        if 0 < failed < setting.errors:
            return "more"
        if failed == 0 and not earlier:
            if above is None:
                wants = "above"
            elif isinstance(above, str) or above.failed[n]:
                return "more"
        earlier = earlier or failed < line.rounds
    return wants


def judged(setting: Setting, chunks: dict[int, Line], above: Line | str | None) -> tuple[Line | None, int]:
    """The sum of a point's first 1, 2, 4, .. chunks if it wants no more, or of all that are wanted; else nothing.
    And how many of the first chunks are there to judge by, or 0 if the point above must be settled first."""
    count = ready = 1
    while all(number in chunks for number in range(count)):
        line = total([chunks[number] for number in range(count)])
        wants = None if count == setting.chunks else lacks(setting, line, above)
        if wants is None:
            return line, count
        if wants == "above":
            return None, 0
        ready, count = count, min(2 * count, setting.chunks)
    return None, ready


def falls(low: Line, high: Line) -> bool:
    """Whether the curve falls between two points: after some transmission at most half as many blocks fail at the lower
    one."""
    shares = zip(low.failed, high.failed)
    return any(2 * one * high.rounds <= other * low.rounds and other for one, other in shares)


def middle(setting: Setting, low: float, high: float) -> float | None:
    """The multiple of `step` that is nearest to the middle of two probabilities and strictly between, or nothing."""
    if not setting.step:
        return None
    first = int(low / setting.step) - 1
    tries = [round(number * setting.step, 12) for number in range(first, int(high / setting.step) + 2)]
    between = [p for p in tries if threshold_of(low) < threshold_of(p) < threshold_of(high)]
    between = [p for p in between if min(p - low, high - p) > setting.step / 2]
    return min(between, key=lambda p: (abs(2 * p - low - high), p)) if between else None


def halvings(setting: Setting, lines: list[Line], tasks: list[Task], count: int) -> list[Task]:
    """The first chunks of at most `count` points that are wanted next if the curve falls on both sides of each new
    point in `tasks`. The middles there come first, then the middles beside these, and so on."""
    known = sorted({line.p for line in lines} | {p for p, _ in tasks})
    new = {p for p, chunk in tasks if chunk == 0}
    found: list[Task] = []
    while new and len(found) < count:
        middles = [middle(setting, low, high) for low, high in zip(known, known[1:]) if low in new or high in new]
        new = {p for p in middles if p is not None}
        found += [(p, 0) for p in sorted(new)]
        known = sorted({*known, *new})
    return found[:count]


def wanted(setting: Setting, lines: list[Line]) -> list[Task]:
    """Which chunks come next, as pairs of a probability and a number. Those of the coarse grid come first, then those
    between two points where the curve falls. After them come more of the points that want more."""
    points: dict[int, dict[int, Line]] = {}
    for line in lines:
        points.setdefault(threshold_of(line.p), {})[line.chunk] = line
    first: list[Task] = [(p, 0) for p in setting.points if 0 not in points.get(threshold_of(p), {})]
    if first:
        return first
    known = sorted((chunks[0].p, chunks) for chunks in points.values() if 0 in chunks)
    sums: list[tuple[Line | None, int]] = []
    above: Line | str | None = "greatest"
    for _, chunks in reversed(known):
        sums.insert(0, judged(setting, chunks, above))
        above = sums[0][0]
    added: list[Task] = []
    for (low, lower), (high, higher), (one, _), (other, _) in zip(known, known[1:], sums, sums[1:]):
        if falls(lower[0], higher[0]) or (one and other and falls(one, other)):
            p = middle(setting, low, high)
            added += [(p, 0)] if p is not None else []
    if added:
        return added
    more: list[Task] = []
    for (p, chunks), (settled, ready) in zip(known, sums):
        if settled is None:
            more += [(p, number) for number in range(ready, min(2 * ready, setting.chunks)) if number not in chunks]
    return more
