"""Which places of each transmission were received, and which transmissions a block or a round of a HARQ process has."""

from __future__ import annotations

import itertools
import typing

from linksim_tools.curve.draws import drawn_places

if typing.TYPE_CHECKING:
    from linksim_tools.outcome.endings import Outcome

NONE = "none"
NAMES = "block", "rv", "g", "qm", "nl", "erase", "flip", "mask", "process", "fresh"

Sent = typing.Dict[str, str]


def heard_places(erase: str, count: int) -> bytes:
    """A 1 for each place of a transmission that is heard, else 0."""
    heard = bytearray(b"\1" * count)
    if erase == "all":
        return bytes(count)
    if erase.startswith("pcg:"):
        seed, threshold = map(int, erase.split(":")[1:])
        places: typing.Iterable[int] = drawn_places(seed, threshold, count)
    else:
        items = [] if erase == "-" else [item.partition("-") for item in erase.split(" ")]
        places = itertools.chain.from_iterable(range(int(first), min(int(last or first), count - 1) + 1) for first, _, last in items)
    for place in places:
        if place < count:
            heard[place] = 0
    return bytes(heard)


def rounds_of(records: list[list[str]], outcome: Outcome) -> list[list[Sent]]:
    """The transmissions of each block or round, in the order of `run`. One that is refused sends no code block."""
    sent = [dict(zip(NAMES, record)) for record in records[1:]]
    for number in outcome.refused:
        sent[number - 1]["mask"] = NONE
    if len(records[0]) < len(NAMES):
        return [[it for it in sent if int(it["block"]) == one.block] for one in outcome.ended]
    rounds: list[list[Sent]] = []
    begun: dict[int, list[Sent]] = {}
    for it in sent:
        process = int(it["process"])
        if int(it["fresh"]) and process in begun:
            rounds.append(begun.pop(process))
        begun.setdefault(process, []).append(it)
    return rounds + [begun[process] for process in sorted(begun)]
