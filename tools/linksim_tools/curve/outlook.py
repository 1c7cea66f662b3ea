"""What a run will probably want still if `errors` says when a point is done, and the bar that shows how far it is."""

from __future__ import annotations

import itertools
import sys
import time
import typing

from linksim_tools.common.program import name_of
from linksim_tools.curve.grid import wanted
from linksim_tools.curve.results import Line, totals

if typing.TYPE_CHECKING:
    from linksim_tools.curve.making import Task
    from linksim_tools.curve.setting import Setting

# A wave is filled by so many that are foreseen at most.
MOST_FORESEEN = 65

# Beyond so many chunks a run is not thought through.
MOST = 10_000


def share_at(points: list[Line], p: float, n: int) -> float:
    """The share of failed rounds after transmission n, from 0, at a probability: on the line between the points around
    it."""
    shares = [(line.p, line.failed[n] / line.rounds) for line in points]
    for (low, one), (high, other) in zip(shares, shares[1:]):
        if low <= p <= high:
            return one + (other - one) * (p - low) / (high - low)
    return shares[0][1] if p < shares[0][0] else shares[-1][1]


def predicted(points: list[Line], p: float, chunk: int) -> Line:
    """A chunk as it would be if the shares are those at its probability; over several chunks no round is lost."""
    rounds = points[0].rounds // points[0].chunk
    shares = [rounds * share_at(points, p, n) for n in range(len(points[0].failed))]
    failed = tuple(int((chunk + 1) * share) - int(chunk * share) for share in shares)
    return Line(p, chunk, rounds, points[0].c, failed, failed, failed)


def plain(lines: list[Line]) -> list[Line]:
    """The lines without their counts by erased places, which nobody asks for here."""
    return [Line(it.p, it.chunk, it.rounds, it.c, it.failed, it.failed_codeblocks, it.left) for it in lines]


def has_grid(setting: Setting, tasks: list[Task]) -> bool:
    """Whether the first chunk of a point of the grid is among these: what comes then, nobody knows."""
    return any(p in setting.points for p, chunk in tasks if chunk == 0)


def waves(setting: Setting, lines: list[Line]) -> typing.Iterator[list[Task]]:
    """What is wanted now, and then what will be if results come as foreseen, wave by wave. After a wave that a point of
    the grid is in nothing is foreseen."""
    known = plain(lines)
    tasks = wanted(setting, known)
    is_blind = has_grid(setting, tasks)
    points = totals(known)
    while tasks:
        yield tasks
        if is_blind:
            return
        known += [predicted(points, p, chunk) for p, chunk in tasks]
        tasks = wanted(setting, known)


def foreseen_of(setting: Setting, lines: list[Line]) -> list[Task]:
    """The chunks that a run will probably want beyond these; of very many the first ones, more than MOST."""
    foreseen: list[Task] = []
    for tasks in waves(setting, lines):
        foreseen += tasks
        if len(foreseen) > MOST:
            break
    return foreseen


def outlook(setting: Setting, lines: list[Line]) -> list[Task] | None:
    """The same, or None if that cannot be said: a point of the grid has none yet, or they are very many."""
    is_blind = any(p not in {line.p for line in lines} for p in setting.points)
    foreseen = [] if is_blind else foreseen_of(setting, lines)
    return None if is_blind or len(foreseen) > MOST else foreseen


def wave(setting: Setting, lines: list[Line]) -> list[Task]:
    """The wave that follows on these lines: all that is wanted, and up to a wave's size what will be wanted then."""
    tasks: list[Task] = []
    for more in itertools.islice(waves(setting, lines), MOST_FORESEEN):
        tasks += more if not tasks else more[: setting.wave - len(tasks)]
        if len(tasks) >= setting.wave:
            break
    return tasks


class Bar:
    """How far a run is, on standard error: over itself on a terminal, else a line now and then."""

    def __init__(self) -> None:
        self.done, self.count, self.more, self.start, self.said = 0, 0, False, time.monotonic(), 0.0
        self.over = sys.stderr.isatty()

    def expect(self, tasks: int, foreseen: int | None) -> None:
        """These tasks come next, and `foreseen` are all that come; or nothing if that cannot be said."""
        self.count, self.more = self.done + max(tasks, foreseen or 0), foreseen is None
        self.show("")

    def step(self, p: float) -> None:
        """One more chunk is there."""
        self.done += 1
        self.show(f", now at p {p}")

    def left(self) -> str:
        """How long it will take still."""
        if not 0 < self.done < self.count:
            return ""
        rest = int((time.monotonic() - self.start) / self.done * (self.count - self.done))
        return f", {rest // 60}:{rest % 60:02} left"

    def show(self, at: str) -> None:
        now = time.monotonic()
        if not self.over and 0 < self.done < self.count and now - self.said < 10:
            return
        self.said = now
        filled = 30 * self.done // self.count
        count = f"{self.done} of {self.count} chunks{' of this step' if self.more else ''}"
        text = f"{name_of('curve')}: [{'#' * filled}{'.' * (30 - filled)}] {count}{self.left()}{at}"
        print(f"\r\033[K{text}" if self.over else text, end="" if self.over else "\n", file=sys.stderr, flush=True)

    def finish(self) -> None:
        """All that is wanted is there, which may be fewer chunks than were foreseen."""
        if self.count > self.done:
            self.count = self.done
            self.show("")

    def close(self) -> None:
        """Ends the line of a terminal."""
        if self.over and self.count:
            print(file=sys.stderr)
