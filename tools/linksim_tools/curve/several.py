"""Pictures of several curves: the falls of all of them in one panel, and what they say of HARQ."""

from __future__ import annotations

import math
import pathlib
import typing

from linksim_tools.curve import harq
from linksim_tools.curve.drawing import GREY, axis_name, libraries, look_of, save, trace
from linksim_tools.curve.intervals import TAIL
from linksim_tools.curve.plot import LOWEST

if typing.TYPE_CHECKING:
    from linksim_tools.curve.harq import Ends, Rates
    from linksim_tools.curve.pool import Estimate
    from linksim_tools.curve.trace import Curve

# Between the least and the greatest point each figure is drawn at this many probabilities more, and halfway between neighbours.
STEPS = 60


def steps_of(rates: Rates, numpy: typing.Any) -> list[float]:
    """The probabilities at which figures are drawn: the points, and steps between."""
    known = [line.p for line in rates.points]
    halves = ((low + high) / 2 for low, high in zip(known, known[1:]))
    return sorted({*known, *halves, *map(float, numpy.linspace(known[0], known[-1], STEPS))})


class Band:
    """Figures with their intervals, for one line of a panel."""

    def __init__(self, points: typing.Iterable[float]) -> None:
        """Only figures at these points, which were measured, get a marker."""
        self.points = set(points)
        self.rows: list[tuple[float, Ends, bool]] = []

    def add(self, p: float, ends: Ends, is_known: bool) -> None:
        """One more figure; if it is not known, only its interval is drawn."""
        self.rows.append((p, ends, is_known))

    def draw(self, axis: typing.Any, colour: str, **style: typing.Any) -> None:
        """Draws the line and the band around it."""
        ps = [p for p, _, _ in self.rows]
        lows, highs = [ends[1] for _, ends, _ in self.rows], [ends[2] for _, ends, _ in self.rows]
        axis.fill_between(ps, lows, highs, color=colour, alpha=0.15, linewidth=0)
        estimates = [ends[0] if is_known else math.nan for _, ends, is_known in self.rows]
        marked = [seat for seat, p in enumerate(ps) if p in self.points]
        axis.plot(ps, estimates, color=colour, linewidth=1.2, markevery=marked, **style)


def rates_band(rates: Rates, found: typing.Iterable[Estimate]) -> Band:
    """The band of rates that a logarithmic axis shows."""
    band = Band(line.p for line in rates.points)
    for one in found:
        if LOWEST <= one.estimate < 1:
            band.add(one.p, harq.in_order(one), one.is_known(one.estimate))
    return band


def draw_falls(curves: list[Curve], out: pathlib.Path | typing.IO[bytes]) -> None:
    """The block error rates of several curves in one panel: a colour for each, and a marker after each transmission."""
    pyplot, numpy = libraries()
    figure = pyplot.figure(figsize=(9.4, 5.2), layout="constrained")
    axis = figure.add_subplot()
    for seat, curve in enumerate(curves):
        rates, colour = curve.rates(), look_of(seat)[0]
        for after in range(1, len(curve.setting.rvs) + 1):
            band = rates_band(rates, (rates.at(p, after) for p in steps_of(rates, numpy)))
            label = curve.name if after == 1 else None
            band.draw(axis, colour, marker=look_of(after - 1)[1], markersize=4, label=label)
    for after in range(1, 1 + max(len(curve.setting.rvs) for curve in curves)):
        marker = {"marker": look_of(after - 1)[1], "markersize": 4, "linestyle": "none"}
        axis.plot([], [], color=GREY, label=f"measured after {after}", **marker)
    axis.set_yscale("log")
    axis.set_ylim(max(LOWEST, min(curve.setting.lowest for curve in curves) / 10), 1.6)
    axis.set_ylabel("block error rate")
    finish(figure, [axis], curves, out, "Block error rates", "Markers are the measured points, one shape after each transmission.")


def draw_harq(curves: list[Curve], out: pathlib.Path | typing.IO[bytes]) -> None:
    """Three panels: code block error rates, the mean number of transmissions, and the throughput."""
    pyplot, numpy = libraries()
    figure = pyplot.figure(figsize=(9.4, 3.9), layout="constrained")
    blocks, mean, through = (figure.add_subplot(1, 3, seat) for seat in (1, 2, 3))
    for seat, curve in enumerate(curves):
        rates, setting, colour = curve.rates(), curve.setting, look_of(seat)[0]
        count, ps = len(setting.rvs), steps_of(rates, numpy)
        for after in range(1, count + 1):
            label = f"{curve.name}, after {after}" if len(curves) > 1 else f"after {after}"
            hue = look_of(after - 1)[0] if len(curves) == 1 else colour
            band = rates_band(rates, (rates.code_blocks_at(p, after) for p in ps))
            band.draw(blocks, hue, marker=look_of(after - 1)[1], markersize=3.5, label=label)
        means, throughs = Band([]), Band([])
        for p in ps:
            is_known = [rates.at(p, after).is_known(1.0) for after in range(1, count + 1)]
            means.add(p, harq.mean_transmissions(count, rates, p, TAIL / max(1, count - 1)), all(is_known[:-1]))
            throughs.add(p, harq.throughput(setting, rates, p), all(is_known))
        means.draw(mean, colour, label=curve.name)
        throughs.draw(through, colour, label=curve.name)
    first, last = through.get_xlim()
    through.plot([first, last], [1 - first, 1 - last], color=GREY, linestyle=":", linewidth=1.2, label="1 - p")
    blocks.set_yscale("log")
    blocks.set_ylim(max(LOWEST, min(curve.setting.lowest for curve in curves) / 10), 1.6)
    for axis, name in ((blocks, "code block error rate"), (mean, "mean transmissions"), (through, "information bits per sent bit")):
        axis.set_title(name, fontsize=9)
    finish(figure, [blocks, mean, through], curves, out, "HARQ figures", "Code block error rate, mean transmissions, throughput.")


def finish(
    figure: typing.Any, axes: list[typing.Any], curves: list[Curve], out: pathlib.Path | typing.IO[bytes], title: str, about: str
) -> None:
    """The words that are left, and the file."""
    for axis in axes:
        axis.set_xlabel(axis_name(curves[0].setting))
        axis.legend(fontsize=7.5, frameon=False)
    trace(figure, [f"{curve.name}: {curve.trace()}" for curve in curves])
    save(figure, out, f"{title} of {', '.join(curve.name for curve in curves)}", about)
