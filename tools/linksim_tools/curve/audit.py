"""What is checked of results: which chunks are not there, and whether a drawn share of them is what it was."""

from __future__ import annotations

import contextlib
import dataclasses
import itertools
import random
import typing

from linksim_tools.common.program import Failed
from linksim_tools.curve import head
from linksim_tools.curve.draws import threshold_of
from linksim_tools.curve.results import comments_of, line_from, lines_from, results_file, rewrite, say, two_sources
from linksim_tools.curve.source import DIGITS
from linksim_tools.curve.tasks import Costs, batches

if typing.TYPE_CHECKING:
    import pathlib

    from linksim_tools.curve.engines import Call, Engine
    from linksim_tools.curve.making import Task
    from linksim_tools.curve.results import Line
    from linksim_tools.curve.setting import Setting


def missing(setting: Setting, lines: list[Line], points: typing.Sequence[float], chunks: int | None) -> list[Task]:
    """The chunks that are not there of the given points, or else of the coarse grid and of all points that have any.
    They are those of the first `chunks`, or else of all below the greatest that is there."""
    there: dict[int, set[int]] = {}
    for line in lines:
        there.setdefault(threshold_of(line.p), set()).add(line.chunk)
    wanted = {threshold_of(p): p for p in (points or [*setting.points, *(line.p for line in lines)])}
    found: list[Task] = []
    for threshold, p in sorted(wanted.items()):
        known = there.get(threshold, set())
        count = max(known, default=0) + 1 if chunks is None else chunks
        found += [(p, number) for number in range(count) if number not in known]
    return found


def judge_source(call: Call, lines: list[Line], files: list[pathlib.Path], maker_too: bool) -> None:
    """Fails if lines come from another table or setting than those of now, or if `maker_too` from another program."""
    if not lines or not lines[0].source:
        raise Failed(f"{', '.join(map(str, files))}: there is no line with a source")
    there, now = lines[0].source, call.source.text()
    if there[0 if maker_too else DIGITS :] != now[0 if maker_too else DIGITS :]:
        raise Failed(two_sources({now: f"{call.setting.path} now", there: files[0]}))


def audit(call: Call, engine: Engine, lines: list[Line], share: float, seed: int) -> int:
    """Runs a random share of the chunks again, at least one, reports which differ, and returns how many do. Another program or library
    may have made the lines."""
    count = max(1, round(share * len(lines)))
    drawn = {line.key(): line for line in random.Random(seed).sample(lines, count)}
    say(f"{count} of {len(lines)} chunks are run again, chosen by --seed {seed}")
    shares = batches([(line.p, line.chunk) for line in drawn.values()], Costs(), engine.longest, engine.slots(), engine.most())
    differ = 0
    with contextlib.closing(engine):
        for text in itertools.chain(engine.recovered(call), engine.lines(call, shares)):
            line = line_from(text)
            other = drawn.pop(line.key(), None) if line and line.source == call.source.text() else None
            if line and other and dataclasses.replace(line, source=other.source) != other:
                differ += 1
                print(f"chunk {line.chunk} of the point {line.p} differs:")
                print(f"- {other.text()}\n+ {line.text()}")
    print(f"{count - differ} of {count} chunks are what they were")
    return differ


def restamp(call: Call, paths: typing.Sequence[pathlib.Path], share: float, seed: int) -> None:
    """Gives the lines of files the source of now. The old one is kept in a comment, with what was made anew."""
    for path in paths:
        with results_file(path):
            lines, new = lines_from(path), call.source.text()
            if not lines or lines[0].source == new:
                say(f"{path} has this source already")
                continue
            old = f"## {len(lines)} chunks had the source {lines[0].source}"
            said = f"{old}; with --share {share:g} --seed {seed} those drawn were made again by {new}, with the same result"
            comments = [*head.of(call.setting, call.program), *head.without(comments_of(path)), said]
            rewrite(path, comments, [dataclasses.replace(line, source=new) for line in lines])
            say(f"{path} has the source {new} now, and before had {lines[0].source}")
