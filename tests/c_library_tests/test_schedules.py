"""Random schedules, against the program linksim: what is sent, what is refused, what is left, and what is handed up. What
arrives is also taken up a transmission at a call, by receivers in rooms."""

from __future__ import annotations

import functools
import pathlib
import random
import typing

import clib
from model import encoder
from rooms import Kept

SCHEDULES = 300
PRACTICE = clib.PRACTICE.read_bytes()
DRAWN = clib.DRAWN.read_bytes()
HEADER = "block,rv,g,qm,nl,erase,flip,mask\n"


def places(draw: random.Random, count: int, chance: float) -> list[int]:
    """A list of places, each with this chance."""
    return [place for place in range(count) if draw.random() < chance]


def field(listed: list[int]) -> str:
    """A list of places as a schedule has it."""
    return " ".join(map(str, listed)) or "-"


class Case:
    """A drawn table, settings, blocks and schedule."""

    def __init__(self, seed: int) -> None:
        draw = self.draw = random.Random(seed)
        self.table = draw.choice([PRACTICE, DRAWN, *[PRACTICE + DRAWN] * 6])
        self.rate2048 = draw.choice([2048, 2048, 1372, 1024, 512, 100])
        lengths = [draw.choice([1, 2, 5, 9, 20, 36, 37, 60, 300, 479]) for _ in range(draw.randrange(1, 4))]
        self.lbrm = draw.choice([0, 0, 0, 1, 300, 8 * max(lengths), 20 * max(lengths)])
        self.blocks = [draw.randbytes(length) for length in lengths]
        self.transmissions = [self.drawn(draw.randrange(len(self.blocks))) for _ in range(draw.randrange(1, 8))]

    def drawn(self, block: int) -> typing.Any:
        """A transmission of a block: its fields, and the places that are erased and flipped."""
        draw, count = self.draw, 8 * len(self.blocks[block]) + 40
        rv = draw.choice([0, 0, 0, 1, 2, 3, 2, 3, 1, 4])
        qm = draw.choice([1, 1, 2, 2, 4, 6, 8, 1, 2, draw.randrange(10)])
        nl = draw.choice([1, 1, 1, 1, 2, 3, 4, draw.randrange(6)])
        step = max(1, qm * nl)
        g = step * (draw.randrange(count // 3, 4 * count) // step) + draw.choice([0] * 15 + [1])
        erased = places(draw, g, draw.choice([0, 0, 0, 0.1, 0.3, 0.6, 0.9]))
        flipped = places(draw, g, 2 / max(g, 1)) if draw.random() < 0.15 else []
        mask = None if draw.random() < 0.8 else draw.choice([[0], [1], [0, 1], [2]])
        return block, (rv, g, qm, nl), erased, flipped, mask

    def files(self, folder: pathlib.Path) -> typing.Any:
        """Writes the files of the program, and gives the words that name them."""
        lines = [
            ",".join(map(str, (block + 1, *numbers, field(erased), field(flipped)))) + f",{'all' if mask is None else field(mask)}\n"
            for block, numbers, erased, flipped, mask in self.transmissions
        ]
        return clib.link_words(folder, self.table, (self.rate2048, self.lbrm), self.blocks, HEADER + "".join(lines))

    def lines(self) -> typing.Any:
        """The lines that the program is to write by the library, or the one with which it refuses."""
        nr, link = clib.module(), {"rate2048": self.rate2048, "lbrm": self.lbrm}
        table = nr.Table(self.table)
        lines: list[str] = []
        taken: list[list[typing.Any]] = [[] for _ in self.blocks]
        for number, block in enumerate(self.blocks, 1):
            try:
                nr.receive(table, 8 * len(block), [], **link)
            except nr.Fault as fault:
                return [f"linksim: refused: block {number} {fault.name}"]
        given = clib.table(self.table), clib.settings(self.rate2048, self.lbrm)
        kept = [Kept(*given, 8 * len(block)) for block in self.blocks]
        outcomes: list[list[int]] = [[] for _ in self.blocks]
        for number, (n, (rv, g, qm, nl), erased, flipped, mask) in enumerate(self.transmissions, 1):
            tx = nr.Tx(g=g, rv=rv, qm=qm, nl=nl, blocks=mask)
            try:
                bits = nr.send(table, self.blocks[n], tx, **link)
            except nr.Fault as fault:
                lines.append(f"refused {number} {n + 1} {fault.name}")
                continue
            sent = encoder.octets_of(list(bits)).hex()[: (g + 3) // 4]
            lines.append(f"sent {number} {n + 1} {sent}")
            for place in flipped:
                bits[place] ^= 1
            for place in erased:
                bits[place] = nr.ERASED
            taken[n].append((tx, bits))
            left = nr.receive(table, 8 * len(self.blocks[n]), taken[n], **link).left
            status, (outcome, of_kept, _) = kept[n].take(clib.tx(g, rv, qm, nl, mask), bytes(bits))
            assert (status, of_kept.numbers()) == (0, list(left)), f"another receiver after transmission {number}"
            outcomes[n] += outcome.numbers()
            lines += [f"left {number} {n + 1} {r} {count}" for r, count in enumerate(left)]
        for number, (block, receptions, by_room) in enumerate(zip(self.blocks, taken, outcomes), 1):
            receive = functools.partial(nr.receive, table, 8 * len(block), **link)
            lines.append(last_line(receive, number, receptions, by_room))
        return lines


def last_line(
    receive: typing.Callable[[list[typing.Any]], typing.Any], number: int, receptions: list[typing.Any], by_room: list[int]
) -> str:
    """The line of a block by all that was received of it. Its outcomes are those of a kept receiver, and those of all
    received so far each time."""
    answer = receive(receptions)
    assert [int(outcome) for outcome in answer.outcomes] == by_room, f"other outcomes of block {number} by a room"
    for count, outcome in enumerate(answer.outcomes, 1):
        before = receive(receptions[:count])
        assert before.outcome == outcome, f"another outcome after {count} transmissions of block {number}"
    octets = f" {answer.block.hex()}" if answer.block is not None else ""
    failed = sum(map(bool, answer.left)) if answer.outcome.name == "OPEN" else 0
    return f"block {number} {answer.outcome.name.lower()} tx {len(receptions)} failed {failed} of {len(answer.left)}{octets}"


class Schedules(clib.InFolder):
    """The program's text and the library's answers."""

    def test_random(self) -> None:
        program, said = clib.program(), ""
        for seed in range(SCHEDULES):
            with self.subTest(seed=seed):
                case = Case(seed)
                text = clib.ran([program, "run", *case.files(self.folder)])[1].decode()
                self.assertEqual([line for line in text.splitlines() if not line.startswith("total ")], case.lines())
                said += text
        for word in ["sent", "refused", "open", "delivered", "contradiction", "Graph", "NoBuffer", "Ragged", "NoneScheduled"]:
            self.assertIn(word, said)
