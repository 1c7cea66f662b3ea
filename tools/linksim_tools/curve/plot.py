"""The picture of a curve: what was measured, and what theory says of it."""

from __future__ import annotations

import math
import pathlib
import typing

from linksim_tools.curve import theory
from linksim_tools.curve.drawing import GREY, axis_name, libraries, look_of, save, trace
from linksim_tools.curve.intervals import wilson

if typing.TYPE_CHECKING:
    from linksim_tools.curve.pool import Pool
    from linksim_tools.curve.results import Line
    from linksim_tools.curve.setting import Setting
    from linksim_tools.curve.trace import Curve

# The counting bound: a stroke and two dots.
BOUND = (0, (6, 1.5, 1, 1.5, 1, 1.5))

# How far a panel looks to both sides of what it shows, and the least width of it.
MARGIN = 0.012
LEAST_WIDTH = 0.06

# A curve is drawn no lower than this.
LOWEST = 1e-7

# Between the least and the greatest point of a panel a pooled curve is drawn through so many more.
STEPS = 40


def theory_of(setting: Setting, code: theory.Code | None, after: int, numpy: typing.Any) -> typing.Any:
    """For a number of transmissions the erasure limit, the density evolution threshold and the counting bound. The last two are for
    single bits. Over flips there are no limit and no threshold, and the bound is how often some bit is flipped."""
    if code is None:
        return None, None, lambda p: -math.expm1(after * setting.g * math.log1p(-p)) if p < 1 else 1.0
    limit = theory.erasure_limit(setting, after)
    if not setting.is_pooled:
        return limit, None, None
    threshold = theory.threshold_after(setting, code, after)
    return limit, threshold, theory.counting_bound(setting, code, after, numpy)


def draw_measured(axis: typing.Any, points: list[Line], after: int, colour: str, mark: str) -> None:
    """The measured shares of failed blocks, with their intervals; if none failed, the interval's upper end."""
    seen = [(point.p, point.failed[after - 1], point.rounds) for point in points]
    failed = [(p, count / rounds, *wilson(count, rounds)) for p, count, rounds in seen if count]
    ps, shares = [one[0] for one in failed], [one[1] for one in failed]
    below = [share - low for _, share, low, _ in failed]
    above = [max(0.0, high - share) for _, share, _, high in failed]
    axis.errorbar(
        ps, shares, [below, above], color=colour, marker=mark, markersize=3.5, linewidth=1.2, elinewidth=0.9,
        capsize=1.8,
    )
    for p, count, rounds in seen:
        if not count:
            high = wilson(0, rounds)[1]
            axis.annotate(
                "", (p, high / 2.2), (p, high), arrowprops={"arrowstyle": "-|>", "color": colour, "linewidth": 0.8}
            )
            axis.plot([p], [high], color=colour, marker="_", markersize=7, linestyle="none")


def draw_pooled(
    axis: typing.Any, pool: Pool, span: tuple[float, float], after: int, colour: str, mark: str
) -> None:
    """The pooled estimate, at the points with its interval free of assumptions, whose ends go on between them as solid lines.
    Dashed are the ends of the one that holds if nothing fails at fewer erasures than were seen to fail."""
    low, high = span
    known = [line.p for line in pool.points if low <= line.p <= high]
    if not known:
        return
    steps = [known[0] + (known[-1] - known[0]) * step / STEPS for step in range(STEPS + 1)]
    found = [pool.at(p, after) for p in sorted({*steps, *known})]
    solid = [one for one in found if one.estimate < 1]
    ps = [one.p for one in solid]
    axis.fill_between(ps, [one.low for one in solid], [one.high for one in solid], color=colour, alpha=0.12, linewidth=0)
    for ends in ([one.low for one in solid], [one.high for one in solid]):
        axis.plot(ps, ends, color=colour, linewidth=0.8)
    guess = [one for one in solid if one.low_if is not None and one.estimate >= LOWEST]
    for part in ([one.low_if for one in guess], [one.high_if for one in guess]):
        axis.plot([one.p for one in guess], part, color=colour, linewidth=0.8, linestyle=(0, (4, 2)))
    marked = [one for one in solid if one.p in known and one.estimate >= LOWEST]
    axis.plot([one.p for one in marked], [one.estimate for one in marked], color=colour, marker=mark, markersize=3.5,
              linewidth=0)
    estimates = [one.estimate if one.is_known(one.estimate) else math.nan for one in guess]
    axis.plot([one.p for one in guess], estimates, color=colour, linewidth=1.4)


def draw_theory(
    axis: typing.Any, theory: typing.Any, low: float, high: float, colour: str, numpy: typing.Any
) -> None:
    """The counting bound between two probabilities, the density evolution threshold, and the erasure limit."""
    limit, threshold, bound = theory
    if bound is not None:
        ps = numpy.linspace(max(low, 0.0), min(high, 1.0), 160)
        shares = [bound(float(p)) for p in ps]
        seen = [(p, share) for p, share in zip(ps, shares) if share >= LOWEST]
        axis.plot([p for p, _ in seen], [share for _, share in seen], color=colour, linestyle=BOUND, linewidth=1.0)
    if threshold is not None:
        axis.axvline(threshold, color=colour, linestyle=":", linewidth=1.4)
    if limit is not None:
        axis.axvline(limit, color=colour, linestyle="-", linewidth=3.5, alpha=0.22)


def range_of(points: list[Line], after: int, theory: typing.Any) -> tuple[float, float]:
    """The probabilities between which a panel shows the fall after so many transmissions."""
    between = [point.p for point in points if 0 < point.failed[after - 1] < point.rounds]
    if theory[0] is None:
        return 0.0, 1.1 * max(point.p for point in points)
    zero = [point.p for point in points if not point.failed[after - 1]]
    seen = [*between, *(one for one in theory[:2] if one is not None)] + ([max(zero)] if zero else [])
    low, high = min(seen) - MARGIN, max(seen) + MARGIN
    more = max(0.0, LEAST_WIDTH - (high - low)) / 2
    return low - more, high + more


def floor_of(points: list[Line]) -> float:
    """The lowest share that the picture shows: below the least that was measured, and the least upper limit."""
    lowest = min(wilson(count, point.rounds)[0 if count else 1] for point in points for count in point.failed)
    return max(LOWEST, lowest / 4)


def draw(curve: Curve, out: pathlib.Path | typing.IO[bytes]) -> typing.Any:
    """Draws the picture: all falls in one panel, and each in a panel of its own below. Answers what theory says of each."""
    pyplot, numpy = libraries()
    setting, code, points, pool = curve.setting, curve.code(), curve.points(), curve.pool()
    count = len(setting.rvs)
    shown = min(count, 4)
    rows = -(-count // shown)
    figure = pyplot.figure(figsize=(9.4, 3.7 + 2.7 * rows), layout="constrained")
    grid = figure.add_gridspec(1 + rows, shown, height_ratios=[1.25] + [1] * rows)
    whole = figure.add_subplot(grid[0, :])
    theories = [theory_of(setting, code, after, numpy) for after in range(1, count + 1)]
    for after, says in enumerate(theories, 1):
        colour, mark = look_of(after - 1)
        low, high = range_of(points, after, says)
        panel = figure.add_subplot(grid[1 + (after - 1) // shown, (after - 1) % shown], sharey=whole)
        lost = min((point.p for point in points if point.failed[after - 1] == point.rounds), default=1.0)
        for axis in (panel, whole):
            draw_theory(axis, says, low, high, colour, numpy)
            if pool:
                draw_pooled(axis, pool, (low, min(high, lost)), after, colour, mark)
            else:
                near = [point for point in points if low <= point.p <= min(high, lost)]
                draw_measured(axis, near, after, colour, mark)
        panel.set_xlim(low, high)
        dress_panel(panel, setting, after, (after - 1) % shown == 0)
    # A picture of pooled rates goes below those that are wanted.
    floor = max(LOWEST, setting.lowest / 10) if pool and setting.width else floor_of(points)
    dress(whole, setting, code, floor, pool is not None)
    trace(figure, [curve.trace()])
    save(figure, out, title_of(setting, code), f"Block error rates after 1 to {count} transmissions, by the {axis_name(setting)}.")
    return theories


def dress_panel(panel: typing.Any, setting: Setting, after: int, is_first: bool) -> None:
    """The words of a panel."""
    from matplotlib.ticker import MaxNLocator

    panel.set_title(f"after {after} transmission{'s' * (after > 1)}", fontsize=9)
    panel.set_xlabel(axis_name(setting))
    panel.xaxis.set_major_locator(MaxNLocator(4))
    if is_first:
        panel.set_ylabel("block error rate")
    else:
        panel.tick_params(labelleft=False)


def title_of(setting: Setting, code: theory.Code | None) -> str:
    """The numbers of the curve in one line."""
    versions = ", ".join(map(str, setting.rvs))
    plan = ""
    if code is not None:
        numbers = code.plan
        blocks = "1 code block" if numbers["c"] == 1 else f"{numbers['c']} code blocks"
        plan = f" in {blocks}, base graph {numbers['graph']}, Zc = {numbers['z']}"
    return f"A = {setting.a} bits{plan}; G = {setting.g} bits a transmission, rv {versions}"


def measured_legend(pooled: bool) -> list[typing.Any]:
    """What the legend says of the measured rates."""
    from matplotlib.lines import Line2D

    if pooled:
        if_none = "95 % if nothing fails at fewer erasures than were seen to fail"
        return [
            Line2D([], [], color=GREY, marker="o", markersize=4, linewidth=1.4, label="rate, of the chunks of all points"),
            Line2D([], [], color=GREY, linewidth=0.8, label="its 95 % interval, free of assumptions"),
            Line2D([], [], color=GREY, linewidth=0.8, linestyle=(0, (4, 2)), label=if_none),
        ]
    arrow = r"$\downarrow$"
    return [
        Line2D([], [], color=GREY, marker="o", markersize=4, linestyle="none", label="measured, 95 % Wilson interval"),
        Line2D([], [], color=GREY, marker=arrow, markersize=8, linestyle="none", label="no error: upper limit"),
    ]


def dress(whole: typing.Any, setting: Setting, code: theory.Code | None, floor: typing.Any, pooled: bool) -> None:
    """The scales, the title and the legend."""
    from matplotlib.lines import Line2D

    whole.set_yscale("log")
    whole.set_ylim(floor, 1.6)
    whole.set_ylabel("block error rate")
    whole.set_xlabel(axis_name(setting))
    whole.set_title(title_of(setting, code), fontsize=10, loc="left")
    looks = [look_of(k) for k in range(len(setting.rvs))]
    handles = [
        Line2D([], [], color=colour, marker=mark, markersize=4, label=f"after {k}") for k, (colour, mark) in enumerate(looks, 1)
    ]
    bound = "counting bound: no decoder, guesses or not, is below" if setting.is_pooled else "some bit is flipped"
    theories: list[tuple[bool, dict[str, typing.Any]]] = [
        (setting.is_pooled or code is None, {"linestyle": BOUND, "linewidth": 1.0, "label": bound}),
        (setting.is_pooled, {"linestyle": ":", "linewidth": 1.4, "label": "density evolution of peeling"}),
        (code is not None, {"linewidth": 3.5, "alpha": 0.3, "label": "erasure limit 1 - R"}),
    ]
    handles += [*measured_legend(pooled), *(Line2D([], [], color=GREY, **look) for is_there, look in theories if is_there)]
    whole.legend(handles=handles, fontsize=7.5, ncol=3, loc="lower center", bbox_to_anchor=(0.5, -0.48), frameon=False)
