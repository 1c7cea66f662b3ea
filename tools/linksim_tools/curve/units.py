"""Erasures that are not single bits: units of several places, and bursts.

Symbol s of a transmission is places s Qm to s Qm + Qm - 1 (TS 38.211, 6.3.1.2 and 7.3.1.2). It goes to layer s mod NL (6.3.1.3 and
7.3.1.3). A unit is so many symbols one after the other, of which the last one may be shorter, or all symbols of a layer.

The words of `pcg:seed` are those of docs/formats.md. Without bursts unit u is erased if word u is below the threshold.

With bursts the first unit is bad if word 0 is below the threshold of enter / (enter + leave). A bad unit u is erased if word
2 u + 1 is below the threshold of the point. After a good unit u comes a bad one if word 2 u + 2 is below the threshold of `enter`.
After a bad one comes a good one if it is below that of `leave`."""

from __future__ import annotations

import math
import typing

from linksim_tools.curve.draws import drawn_places, marks, threshold_of

if typing.TYPE_CHECKING:
    from linksim_tools.curve.setting import Setting

# A range of a place list and its space have at most so many octets.
RANGE = 16


def count_of(setting: Setting) -> int:
    """How many units a transmission has."""
    return setting.nl if setting.unit == "layer" else -(-setting.g // size_of(setting))


def size_of(setting: Setting) -> int:
    """How many places a unit has, or for a layer each of its symbols."""
    return 1 if setting.unit == "bit" else setting.qm * (setting.unit if isinstance(setting.unit, int) else 1)


def ranges_of(setting: Setting, unit: int) -> typing.Iterator[str]:
    """The places of a unit, as items of a place list."""
    size = size_of(setting)
    step = size * setting.nl if setting.unit == "layer" else setting.g
    for first in range(unit * size, setting.g, step):
        yield f"{first}-{min(first + size, setting.g) - 1}"


def erased(setting: Setting, seed: int, threshold: int) -> list[int]:
    """The units that are erased."""
    count = count_of(setting)
    if setting.burst is None:
        return drawn_places(seed, threshold, count)
    enter, leave = setting.burst
    below = marks(seed, threshold, 2 * count + 1)
    turns = [marks(seed, threshold_of(chance), 2 * count + 1) for chance in (enter, leave)]
    bad, found = bool(marks(seed, threshold_of(enter / (enter + leave)), 1)[0]), []
    for unit in range(count):
        if bad and below[2 * unit + 1]:
            found.append(unit)
        bad ^= bool(turns[bad][2 * unit + 2])
    return found


def erase_field(setting: Setting, seed: int, threshold: int) -> str:
    """The erased places of a transmission, as the schedule has them."""
    return " ".join(item for unit in erased(setting, seed, threshold) for item in ranges_of(setting, unit)) or "-"


def octets_of(setting: Setting, p: float) -> float:
    """How many octets such a field seldom has more of."""
    items = setting.g / size_of(setting)
    share = 1.0 if setting.burst or setting.unit == "layer" else p
    return RANGE * min(items, share * items + 10 * math.sqrt(items))
