"""What `plot` prints beside a picture: where theory and the points put the falls, and how to look at what failed."""

from __future__ import annotations

import shlex
import typing

from linksim_tools.common.program import name_of
from linksim_tools.curve.sets import short_path

if typing.TYPE_CHECKING:
    from linksim_tools.curve.results import Line
    from linksim_tools.curve.trace import Curve


def half_way(points: list[Line], after: int) -> str:
    """The two measured points between which half of the blocks fail."""
    shares = [(point.p, point.failed[after - 1] / point.rounds) for point in points]
    found = (f"{low:g} to {high:g}" for (low, one), (high, other) in zip(shares, shares[1:]) if one < 0.5 <= other)
    return next(found, "-")


def say_theory(points: list[Line], theories: typing.Any) -> None:
    """Prints for each number of transmissions what theory and the measured points say of the fall."""
    print("transmissions,erasure_limit,density_evolution,half_of_blocks_fail")
    for after, (limit, threshold, _) in enumerate(theories, 1):
        print(f"{after},{limit:.4f},{'-' if threshold is None else f'{threshold:.4f}'},{half_way(points, after)}")


def say_audits(curve: Curve) -> None:
    """Prints for each number of transmissions how to see on which stopping sets failed rounds are stuck, at the lowest
    probability at which some failed."""
    setting, lines = curve.setting, curve.lines
    for after in range(1, len(setting.rvs) + 1):
        line = next((line for line in lines if line.failed[after - 1]), None)
        if line is None:
            continue
        folder = f"failed-{line.p}-{line.chunk}-{after}"
        words = [str(setting.path), repr(line.p), str(line.chunk)]
        files = [
            "--table", str(setting.table), "--settings", f"{folder}/settings.toml", "--blocks", f"{folder}/blocks.txt"
        ]
        failed = f"{line.failed[after - 1]} of the {line.rounds} rounds of chunk {line.chunk} failed"
        print(f"\nAfter {after}: at p {line.p} {failed}.")
        print("The files of these rounds, and what they are stuck on; or the stopping sets of the chunk by size:")
        print("  " + shlex.join([name_of("curve"), "failed", *words, "--after", str(after), "--out", folder]))
        print("  " + shlex.join([short_path(curve.program), "audit", *files, "--schedule", f"{folder}/schedule.csv"]))
        print("  " + shlex.join([name_of("curve"), "sets", *words, "--after", str(after)]))
