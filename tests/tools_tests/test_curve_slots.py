"""How the chunks of waves are shared out to machines, and how long a run takes by the tool's own plan."""

from __future__ import annotations

import collections
import contextlib
import heapq
import io
import pathlib
import types
import typing
import unittest

import curve_files
from curve_files import numpy
from linksim_tools.curve import making, plan, results, run, tasks
from linksim_tools.curve import setting as settings
from test_pool import BITS, WIDE, falling, lost

Batches = typing.List[typing.List[typing.Tuple[float, int]]]


def makespan(batches: Batches, slots: int, seconds: float) -> float:
    """When so many slots have made all batches, each in turn by the slot that is idle first."""
    free = [0.0] * slots
    for batch in batches:
        heapq.heappush(free, heapq.heappop(free) + seconds * len(batch))
    return max(free)


setUpModule = curve_files.needs_numpy


def no_lines(call: object, shares: object) -> typing.Iterator[str]:
    """What an engine writes that makes nothing: like every engine's, it can be closed."""
    yield from ()


class Sizes(unittest.TestCase):
    def shared_out(self, chunks: int, seconds: float, slots: int, longest: float = 60.0) -> list[int]:
        """How many chunks each batch has."""
        costs = tasks.Costs()
        if seconds:
            costs.add(0.3, seconds)
        return [len(batch) for batch in tasks.batches([(0.3, number) for number in range(chunks)], costs, longest, slots, 1000)]

    def test_each_slot_gets_its_share(self) -> None:
        """A batch lasts at most a minute, and at most a slot's share of the wave where that is above 5 seconds."""
        for chunks, seconds, slots, wanted in (
            (1100, 20.0, 200, [3] * 366 + [2]), (200, 20.0, 200, [1] * 200), (66, 20.0, 200, [1] * 66),
            (256, 20.0, 200, [2] * 56 + [1] * 144), (64, 0.4, 200, [11] * 4 + [10] * 2),
            (3, 900.0, 200, [1] * 3), (64, 0.0, 200, [1] * 64),
        ):
            with self.subTest(chunks=chunks, seconds=seconds):
                self.assertEqual(self.shared_out(chunks, seconds, slots), wanted)
        self.assertEqual(self.shared_out(64, 0.4, 4, 1.0), [3] * 12 + [2] * 14)

    def test_the_note_is_true(self) -> None:
        """Slots idle for want of chunks in a wave only if each chunk is a batch of its own already."""
        for seconds, slots, is_noted in ((20.0, 200, True), (20.0, 64, False), (0.4, 200, False), (0.0, 200, False)):
            costs = tasks.Costs()
            if seconds:
                costs.add(0.3, seconds)
            engine: typing.Any = types.SimpleNamespace(longest=60.0, most=lambda: 1000, waiting=str)
            engine.slots, engine.lines = (lambda slots=slots: slots), no_lines
            setting = types.SimpleNamespace(wave=64, path="c.toml")
            found: typing.Any = types.SimpleNamespace(call=types.SimpleNamespace(setting=setting), costs=costs, has_noted=False)
            with contextlib.redirect_stderr(io.StringIO()) as said:
                list(run.made(engine, found, [(0.3, number) for number in range(64)], 600.0))
            wanted = "note: 64 of 200 slots have work, because a wave has 64 chunks: wave = 200 in c.toml gives work to all\n"
            self.assertEqual(said.getvalue().partition(": ")[2], wanted if is_noted else "")


class Whole(unittest.TestCase):
    def test_two_hundred_slots(self) -> None:
        """22,000 seconds of work in chunks of 20 seconds take at most 1.3 times as long as if no slot were ever idle."""
        draw, shares, slots, seconds = numpy.random.default_rng(1), falling(), 200, 20.0
        setting = settings.Setting(
            path=pathlib.Path("c.toml"), table=pathlib.Path("t.csv"), a=3840, rate2048=1365, lbrm=None, g=WIDE, qm=2, nl=1,
            rvs=(0,), seed=1, rounds=1000, points=tuple(0.22 + 0.02 * step for step in range(9)), step=0.005, errors=0,
            chunks=1000, width=0.125, lowest=1e-5, wave=slots,
        )
        shape, costs, spent = making.Shape(BITS, (WIDE,)), tasks.Costs(), 0.0
        lines: list[typing.Any] = []
        while True:
            wave, _ = plan.wave(setting, shape, lines, numpy)
            if not wave:
                break
            spent += makespan(tasks.batches(wave, costs, 60.0, slots, 1000), slots, seconds)
            for p, number in wave:
                costs.add(p, seconds)
                failed = collections.Counter(lost(shares, draw, p, setting.rounds))
                count = sum(failed.values())
                lines.append(results.Line(
                    p, number, setting.rounds, 1, (count,), (count,), (count,), (results.counts_text([failed]),), "1a2b-3c4d-5e6f"
                ))
        work = seconds * len(lines)
        self.assertTrue(18_000 < work < 26_000, work)
        self.assertLess(spent, 1.3 * work / slots)
