"""What each command of `tools/curve` does. A function loads the modules that it needs: `point` starts once for each element of an
array."""

from __future__ import annotations

import argparse
import datetime
import pathlib
import random
import sys
import typing

from linksim_tools.common.program import Failed, name_of
from linksim_tools.curve import packages, point, results, source
from linksim_tools.curve import setting as settings


def do_point(given: argparse.Namespace, setting: settings.Setting, program: pathlib.Path) -> None:
    """Chunks: a line of CSV for each, as it is made."""
    point.point(setting, program, given.tasks, given.told, given.cost)


def do_run(given: argparse.Namespace, setting: settings.Setting, program: pathlib.Path) -> None:
    """All points, by an engine."""
    from linksim_tools.curve import engines
    from linksim_tools.curve import run as running

    out = given.out or setting.path.with_suffix(".csv")
    engine = engines.engine_named(given.engine, given.jobs, given.batch, given.latency_wait, out)
    if given.detach:
        engines.detach(engine, out)
        return
    running.run(setting, program, out, engine, given.estimate, given.silence)


def do_status(given: argparse.Namespace) -> None:
    """How far a run is."""
    from linksim_tools.curve import status

    for line in status.lines(given.file, datetime.datetime.now(datetime.timezone.utc)):
        print(line)


def do_missing(given: argparse.Namespace) -> int:
    """The chunks that are not there, and status 1 if there is any."""
    from linksim_tools.curve import audit

    setting, lines = settings.read_setting(given.missing), results.merged(given.files)
    if lines:
        results.judge(setting, lines, given.files)
    found = audit.missing(setting, lines, given.points or [], given.chunks)
    for p, chunk in found:
        print(f"{p!r},{chunk}")
    return 1 if found else 0


def do_merge(given: argparse.Namespace) -> int | None:
    """The lines of several files, each chunk of a point once, or their sums by point."""
    if given.missing:
        return do_missing(given)
    lines = results.merged(given.files)
    shown = results.totals(lines) if given.total else lines
    if not lines:
        raise Failed(f"{', '.join(map(str, given.files))}: there is no line of results")
    for comment in results.comments_of_all(given.files):
        print(comment)
    print(results.header(len(lines[0].failed), "chunks" if given.total else "chunk", bool(lines[0].source)))
    for line in shown:
        print(line.text())
    return None


def do_audit(given: argparse.Namespace, setting: settings.Setting, program: pathlib.Path) -> int:
    """Re-runs a random sample of the chunks; status 1 if one differs."""
    from linksim_tools.curve import audit, engines

    files = [pathlib.Path(file) for file in given.files] or [setting.path.with_suffix(".csv")]
    lines = results.merged(files)
    call = engines.Call(setting, program, source.source_of(setting, program))
    audit.judge_source(call, lines, files, not given.restamp)
    engine = engines.engine_named(given.engine, given.jobs, None, given.latency_wait, setting.path)
    seed = random.SystemRandom().randrange(2**32) if given.seed is None else given.seed
    if audit.audit(call, engine, lines, given.share, seed):
        return 1
    if given.restamp:
        audit.restamp(call, files, given.share, seed)
    return 0


def do_pool(given: argparse.Namespace, setting: settings.Setting, program: pathlib.Path) -> None:
    """The rates at any points, by the chunks of all."""
    from linksim_tools.curve import making, pool, trace

    numpy, curve = packages.numpy_for("pool"), trace.curve_of(setting, program, given.files)
    taken = pool.Pool(setting, making.shape_of(setting), curve.lines, numpy)
    print("p,transmissions,estimate,low,high,low_if,high_if,events,rounds,reached")
    for p in given.at or [line.p for line in taken.points]:
        for after in range(1, len(setting.rvs) + 1):
            found = taken.at(p, after)
            numbers = [found.estimate, found.low, found.high, found.low_if, found.high_if]
            texts = ["-" if number is None else f"{number:.4g}" for number in numbers]
            print(f"{p!r},{after},{','.join(texts)},{found.events:.1f},{found.rounds:.4g},{found.reached:.6f}")


def do_report(given: argparse.Namespace, setting: settings.Setting, program: pathlib.Path) -> None:
    """The report as one HTML file."""
    packages.need("report", "matplotlib", "numpy")
    from linksim_tools.curve import report, trace

    report.write(trace.curve_of(setting, program, given.files), given.html)


def do_limits(given: argparse.Namespace, setting: settings.Setting, program: pathlib.Path) -> None:
    """What theory says, for each number of transmissions."""
    from linksim_tools.curve import theory

    code = theory.code_of(setting)
    print("transmissions,erasure_limit,density_evolution")
    for after in range(1, len(setting.rvs) + 1):
        limit = theory.erasure_limit(setting, after)
        threshold = f"{theory.threshold_after(setting, code, after):.4f}" if setting.is_pooled else "-"
        print(f"{after},{limit:.4f},{threshold}")


def do_plot(given: argparse.Namespace, setting: settings.Setting, program: pathlib.Path) -> None:
    """The picture of a curve, with what theory says, or of several."""
    packages.need("plot", "matplotlib", "numpy")
    from linksim_tools.curve import plot, several, summary, trace

    curves = trace.curves_of(setting, program, given.files)
    if len(curves) > 1:
        several.draw_falls(curves, given.out)
        return
    theories = plot.draw(curves[0], given.out)
    if setting.link == "erase":
        summary.say_theory(curves[0].points(), theories)
        summary.say_audits(curves[0])


def do_harq(given: argparse.Namespace, setting: settings.Setting, program: pathlib.Path) -> None:
    """What the curve says of HARQ, as CSV; and as a picture, also of several curves."""
    packages.need("harq", *(["matplotlib"] if given.plot else []), "numpy")
    from linksim_tools.curve import harq, trace

    curves = trace.curves_of(setting, program, given.files)
    if given.plot:
        from linksim_tools.curve import several

        several.draw_harq(curves, given.plot)
    for curve in curves:
        rates = curve.rates()
        for line in harq.lines(curve.setting, rates, given.at or [point.p for point in rates.points]):
            print(f"{curve.name},{line}" if len(curves) > 1 else line)


def do_sets(given: argparse.Namespace, setting: settings.Setting, program: pathlib.Path) -> None:
    """The stopping sets of the failed rounds, counted by size."""
    from linksim_tools.curve import sets, theory

    after = transmissions_of(given, setting)
    code = theory.code_of(setting)
    found: list[typing.Any] = []
    for chunk in given.chunk:
        print(f"{name_of('curve')}: audit of chunk {chunk}", file=sys.stderr)
        found += sets.stuck_sets(setting, program, code, given.p, chunk, after)
    print("positions,below_kdash,code_blocks")
    for row in sets.count_sets(found):
        print(",".join(map(str, row)))


def do_failed(given: argparse.Namespace, setting: settings.Setting, program: pathlib.Path) -> None:
    """The files of the failed rounds of a chunk, and the command that audits them."""
    from linksim_tools.curve import sets

    after = transmissions_of(given, setting)
    if setting.link != "erase":
        raise Failed(f"{setting.path} flips bits: audit shows what erasures leave open")
    turns, command = sets.write_failed(setting, program, given.p, given.chunk, after, given.folder)
    if not turns:
        print(f"{name_of('curve')}: no round failed: nothing is written", file=sys.stderr)
        return
    print(
        f"{name_of('curve')}: {len(turns)} of {setting.rounds} rounds failed: {' '.join(map(str, turns))}",
        file=sys.stderr,
    )
    print(command)


def transmissions_of(given: argparse.Namespace, setting: settings.Setting) -> int:
    """After how many transmissions a command looks."""
    after: int = len(setting.rvs) if given.after is None else given.after
    if not 1 <= after <= len(setting.rvs):
        raise Failed(f"--after is not a number from 1 to {len(setting.rvs)}")
    return after
