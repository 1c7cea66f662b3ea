"""Which chunks a call of `point` makes, as words, and how many go into one call."""

from __future__ import annotations

import heapq
import math
import typing

from linksim_tools.common.program import Wrong

if typing.TYPE_CHECKING:
    from linksim_tools.curve.making import Task

# A batch is not made shorter than this many seconds to give each slot its share.
SHORTEST = 5.0


def probability(text: str) -> float:
    """A number from 0 to 1."""
    value = float(text)
    if not 0 <= value <= 1:
        raise ValueError
    return value


def share_from(text: str) -> float:
    """A share of all chunks: 1% or 0.01."""
    value = float(text.rstrip("%")) / (100 if text.endswith("%") else 1)
    if not 0 < value <= 1:
        raise ValueError
    return value


def chunks_from(text: str) -> range:
    """The chunks of a word: a number, or two with a stroke between for all from the one to the other."""
    numbers = [int(part) if part.isdecimal() else -1 for part in text.split("-")]
    if len(numbers) > 2 or not 0 <= numbers[0] <= numbers[-1]:
        raise ValueError
    return range(numbers[0], numbers[-1] + 1)


def tasks_from(words: typing.Sequence[str]) -> list[Task]:
    """The chunks that words name: a probability and then chunks, or pieces P:CHUNKS with slashes between them."""
    try:
        if len(words) == 1:
            pairs = [piece.split(":") for piece in words[0].split("/")]
            return [(probability(p), chunk) for p, chunks in pairs for chunk in chunks_from(chunks)]
        p = probability(words[0])
        return [(p, chunk) for word in words[1:] for chunk in chunks_from(word)]
    except (IndexError, ValueError):
        said = " ".join(words) or "an empty line"
        raise Wrong(f"{said} is not a probability with chunks, as 0.27 0 1 4-7, and no 0.27:0-7/0.28:0") from None


def word_of(tasks: typing.Sequence[Task]) -> str:
    """The one word that names chunks."""
    pieces: list[tuple[float, int, int]] = []
    for p, chunk in sorted(tasks):
        if pieces and pieces[-1][0] == p and pieces[-1][2] + 1 == chunk:
            pieces[-1] = (p, pieces[-1][1], chunk)
        else:
            pieces.append((p, chunk, chunk))
    return "/".join(f"{p!r}:{first}" + (f"-{last}" if last > first else "") for p, first, last in pieces)


class Costs:
    """How many seconds of a processor the chunks of each point took."""

    def __init__(self) -> None:
        self.sums: dict[float, tuple[int, float]] = {}

    def add(self, p: float, seconds: float) -> None:
        """One more chunk of a point."""
        count, total = self.sums.get(p, (0, 0.0))
        self.sums[p] = count + 1, total + seconds

    def of(self, p: float) -> float:
        """What a chunk of a point will take: that of the nearest point that is known, or nothing if none is."""
        if not self.sums:
            return 0.0
        near = min(self.sums, key=lambda other: (abs(other - p), other))
        count, total = self.sums[near]
        return total / count


def batches(tasks: typing.Sequence[Task], costs: Costs, longest: float, slots: int, most: int) -> list[list[Task]]:
    """The chunks in at most `most` batches of about equal cost, the longest first. A batch takes at most `longest` seconds, and at
    most what each slot gets of the work, unless that is below SHORTEST seconds. One chunk may take longer, and if costs are not
    known each chunk is a batch."""
    total = sum(costs.of(p) for p, _ in tasks)
    count = min(most, len(tasks))
    if total:
        count = max(1, min(count, math.ceil(total / max(1e-9, min(longest, max(SHORTEST, total / slots))))))
    shares: list[list[Task]] = [[] for _ in range(count)]
    sums = [(0.0, seat) for seat in range(count)]
    for place, task in enumerate(sorted(tasks, key=lambda it: (-costs.of(it[0]), it))):
        cost, seat = heapq.heappop(sums) if total else (0.0, place % count)
        shares[seat].append(task)
        heapq.heappush(sums, (cost + costs.of(task[0]), seat)) if total else None
    made = [(sum(costs.of(p) for p, _ in share), share) for share in shares if share]
    return [share for _, share in sorted(made, key=lambda it: -it[0])]
