"""Links against the other model, which are longer than hands can work. They have long blocks, many transmissions, limited buffers,
and code blocks that are sent one by one. Tables and schedules that erase and flip are drawn."""

from __future__ import annotations

import ast
import dataclasses
import pathlib
import random
import typing
import unittest

import model
from model import chain
from programs import Program, Row
from shared import drawn_entries, table_text
from texts import PRACTICE, QUARTER_RATE, counted, eight, ending, lines, settings_of
from worked_texts import both_graphs


class Independent(unittest.TestCase):
    """What judges the project takes nothing from it."""

    def test_imports(self) -> None:
        roots = set()
        for path in pathlib.Path(str(model.__file__)).parent.glob("*.py"):
            for it in ast.walk(ast.parse(path.read_text())):
                if isinstance(it, (ast.Import, ast.ImportFrom)):
                    names = [str(it.module)] if isinstance(it, ast.ImportFrom) else [one.name for one in it.names]
                    roots |= {name.partition(".")[0] for name in names}
        self.assertEqual(roots, {"__future__", "csv", "dataclasses", "functools", "model", "typing"})


@dataclasses.dataclass(frozen=True)
class Long:
    """A transport block, and what segmentation makes of it (5.2.2)."""

    name: str
    rate2048: int
    octets: int
    code_blocks: int
    # The lifting size.
    z: int
    # As many bits as have all of each code block in them, in whole symbols of each of the four transmissions.
    g: int

    def transmissions(self) -> list[chain.Tx]:
        """Both blocks are the same. Each is received whole. Then the first one is received again, and the second one
        with the middle place flipped. That place is in the second code block of two and of three."""
        return [
            chain.Tx(1, 0, self.g, 8, 4),
            chain.Tx(1, 2, self.g, 6, 4),
            chain.Tx(2, 3, self.g, 1, 1),
            chain.Tx(2, 1, self.g, 4, 2, flipped=frozenset([self.g // 2])),
        ]

    def rows(self) -> typing.Any:
        """A row for each of `send`, `run` and `audit`."""
        block, count, transmissions = counted(self.octets), self.code_blocks, self.transmissions()
        coded = chain.Coded(both_graphs(), (self.rate2048, None), bytes.fromhex(block))
        sent = [
            f"sent {t} {tx.block} {chain.hexadecimal(coded.sent(tx))}" for t, tx in enumerate(transmissions, 1)
        ]
        left = [[f"left {t} {tx.block} {r} 0" for r in range(count)] for t, tx in enumerate(transmissions, 1)]
        run = [line for bits, counts in zip(sent, left) for line in [bits, *counts]] + [
            f"block 1 delivered tx 2 failed 0 of {count} {block}",
            f"block 2 contradiction tx 2 failed 0 of {count}",
            f"total blocks 2 delivered 1 open 0 contradiction 1 codeblocks {2 * count} failed 0",
        ]
        # The two columns that are never sent are what peeling fixes.
        audit = [f"order {n} {r} {2 * self.z}" for n in (1, 2) for r in range(count)]
        files = {
            "table": both_graphs(),
            "settings": f"rate2048 = {self.rate2048}\n",
            "blocks": lines(block, block),
            "schedule": eight(*map(chain.record, transmissions)),
        }
        each = {"send": sent, "run": run, "audit": audit}
        return {name: Row(self.name, lines(*text), **files) for name, text in each.items()}


LONG = [
    Long("two code blocks of base graph 2, with K' 1952", 512, 479, 2, 208, 20_544),
    Long("three, with K' 2576", 512, 954, 3, 288, 42_336),
    Long("one of base graph 1, with K' 312", 2048, 37, 1, 15, 1056),
    Long("two of base graph 1, with K' 4252", 2048, 1054, 2, 208, 26_880),
]


def many() -> tuple[list[bytes], list[chain.Tx]]:
    """256 blocks of one octet, and 16 transmissions of each, in turn. They have 4 to 32 bits, from all four starting
    positions, with some places that are erased or flipped."""
    blocks = [bytes([(37 * n + 11) % 256]) for n in range(256)]
    transmissions = []
    for t in range(4096):
        n, step = t % 256, t // 256
        g = 4 + (7 * n + 5 * step) % 29
        erased = frozenset(range(n % 5, g, 3 + n % 4)) if (n + step) % 4 == 0 else frozenset()
        flipped = frozenset([g - 1]) if n % 5 == 0 and step == 9 else frozenset()
        transmissions.append(chain.Tx(n + 1, (step + n) % 4, g, erased=erased, flipped=flipped))
    return blocks, transmissions


@dataclasses.dataclass(frozen=True)
class Link:
    """A link and what is sent over it, and how many of its blocks are delivered, open and contradictions."""

    name: str
    rate2048: int
    lbrm: int | None
    octets: int
    transmissions: list[chain.Tx]
    outcomes: tuple[int, int, int]


def by_starts(g: int) -> list[chain.Tx]:
    """A transmission from each starting position, of so many bits."""
    return [chain.Tx(1, rv, g, 2) for rv in (1, 3, 2, 0)]


def one_by_one(code_blocks: int, g: int) -> list[chain.Tx]:
    """Each code block by itself, the last one first."""
    return [chain.Tx(1, 0, g, 4, 1, mask=(r,)) for r in range(code_blocks - 1, -1, -1)]


FLIP = frozenset([5])
LINKS = [
    Link("a whole buffer from each start", 2048, None, 36, by_starts(600), (1, 0, 0)),
    Link("few bits from each start", 2048, None, 36, by_starts(100), (0, 1, 0)),
    Link("a buffer of 900 bits of 2000", 2048, 600, 36, by_starts(1000), (1, 0, 0)),
    Link("a buffer that ends before what is missing", 2048, 200, 36, by_starts(1000), (0, 1, 0)),
    Link("a buffer of half of two code blocks", 512, 7000, 479, by_starts(12_000), (1, 0, 0)),
    Link("two code blocks one by one", 512, None, 479, one_by_one(2, 10_272), (1, 0, 0)),
    Link(
        "and then one flip of the first",
        512,
        None,
        479,
        [*one_by_one(2, 10_272), chain.Tx(1, 2, 400, 4, 1, flipped=FLIP, mask=(0,))],
        (0, 0, 1),
    ),
    Link("base graph 1 by its starts", 2048, None, 37, by_starts(600), (1, 0, 0)),
    Link("base graph 1 with a limit", 2048, 500, 37, by_starts(1000), (1, 0, 0)),
    Link("four code blocks of Zc 384", 2048, None, 4000, [chain.Tx(1, 0, 4 * 26_000, 8, 2)], (1, 0, 0)),
    Link("the second of four is left out", 2048, None, 4000, [chain.Tx(1, 0, 78_000, 8, 2, mask=(0, 2, 3))], (0, 1, 0)),
]

# 31,380 octets at the rate 0.25 are 66 code blocks with K' 3828, Zc 384 and 12 fillers. So 19,188 bits of each can be
# sent. Their zeros have zeros for CRCs and parity bits.
MANY, OCTETS, KDASH, WHOLE = 66, 31_380, 3828, 19_188


def each_by_itself(heard: int, flipped: int | None = None) -> Row:
    """The text of `run` if so many of the 66 code blocks are sent, each by itself and the last one first. Then a part
    of one of them is sent again, with a flip."""
    text, records = [], []
    for t in range(1, heard + 1):
        records.append(f"1,0,{WHOLE},1,1,-,-,{MANY - t}")
        text.append(f"sent {t} 1 {'0' * (WHOLE // 4)}")
        text += [f"left {t} 1 {r} {0 if r >= MANY - t else KDASH}" for r in range(MANY)]
    count, failed = heard, MANY - heard
    if flipped is not None:
        count += 1
        records.append(f"1,2,100,1,1,-,5,{flipped}")
        text += [f"sent {count} 1 {'0' * 25}", *(f"left {count} 1 {r} 0" for r in range(MANY))]
    outcome = "open" if failed else "delivered" if flipped is None else "contradiction"
    text += ending(outcome, count, "00" * OCTETS, MANY, failed)
    files = {"table": both_graphs(), "settings": QUARTER_RATE, "blocks": "00" * OCTETS, "schedule": eight(*records)}
    return Row(f"{heard} of {MANY} code blocks, flipped {flipped}", lines(*text), **files)


DRAWN = 60
TABLES = [table_text({graph: drawn_entries(graph, seed) for graph in (1, 2)}) for seed in range(3)]


def drawn_places(draw: random.Random, count: int, chance: float) -> frozenset[int]:
    """Places below a count, each with this chance."""
    return frozenset(place for place in range(count) if draw.random() < chance)


def drawn_tx(draw: random.Random, n: int, octets: int) -> chain.Tx:
    """A transmission of block n, of a part of its bits to several times as many."""
    qm, nl = draw.choice([1, 1, 2, 4, 6, 8]), draw.choice([1, 1, 2, 3, 4])
    g = qm * nl * max(2, draw.randrange(4 * octets, 40 * octets + 80) // (qm * nl))
    erased = drawn_places(draw, g, draw.choice([0, 0, 0.1, 0.3, 0.6]))
    flipped = drawn_places(draw, g, 2 / g) if draw.random() < 0.15 else frozenset()
    masks: list[tuple[int, ...] | None] = [None, None, (0,), (0, 1), (1, 0, 7)]
    mask = draw.choice(masks)
    return chain.Tx(n, draw.randrange(4), g, qm, nl, erased, flipped, mask)


def drawn_case(seed: int) -> tuple[str, tuple[int, int | None], list[bytes], list[chain.Tx]]:
    """A table, settings, blocks and transmissions."""
    draw = random.Random(seed)
    lengths = [draw.choice([1, 2, 3, 5, 9, 17, 36, 37, 60]) for _ in range(draw.randrange(1, 4))]
    if seed % 20 == 0:
        # Two code blocks of base graph 2.
        lengths, rate2048 = [479], 512
    else:
        rate2048 = draw.choice([2048, 2048, 1372, 1024, 100])
    lbrm = draw.choice([None, None, None, 12 * max(lengths), 24 * max(lengths)])
    blocks = [draw.randbytes(length) for length in lengths]
    count = draw.randrange(1, 8)
    numbers = [draw.randrange(len(blocks)) for _ in range(count)]
    return TABLES[seed % 3], (rate2048, lbrm), blocks, [drawn_tx(draw, n + 1, lengths[n]) for n in numbers]


class Models(Program):
    """Of `send`, `run` and `audit`: against the model, and what follows by hand."""

    def compared(
        self, name: str, table: str, link: tuple[int, int | None], blocks: list[bytes], transmissions: list[chain.Tx]
    ) -> dict[str, str]:
        """Each command writes what it does by the model, which is returned."""
        wanted: dict[str, str] = chain.texts(table, link, blocks, transmissions)
        files = {
            "table": table, "settings": settings_of(*link), "blocks": lines(*(block.hex() for block in blocks)),
            "schedule": eight(*map(chain.record, transmissions)),
        }
        for command, text in wanted.items():
            self.check(command, [Row(name, text, **files)])
        return wanted

    def test_long_blocks(self) -> None:
        for case in LONG:
            for command, row in case.rows().items():
                self.check(command, [row])

    def test_many_blocks_and_transmissions(self) -> None:
        wanted = self.compared("256 blocks and 4,096 transmissions", PRACTICE, (2048, None), *many())
        for outcome in ["delivered", "open", "contradiction"]:
            self.assertGreater(wanted["run"].count(f" {outcome} tx 16 "), 3, outcome)

    def test_links(self) -> None:
        for case in LINKS:
            link, blocks = (case.rate2048, case.lbrm), [bytes.fromhex(counted(case.octets))]
            wanted = self.compared(case.name, both_graphs(), link, blocks, case.transmissions)
            counts = [wanted["run"].count(f"block 1 {it}") for it in ("delivered", "open", "contradiction")]
            self.assertEqual(tuple(counts), case.outcomes, case.name)

    def test_more_than_64_code_blocks(self) -> None:
        """Open until the last one is received, then delivered; a flip of the last or of the first contradicts."""
        rows = [(65, None), (66, None), (66, 65), (66, 0)]
        self.check("run", [each_by_itself(heard, flipped) for heard, flipped in rows])

    def test_drawn(self) -> None:
        said = ""
        for seed in range(DRAWN):
            wanted = self.compared(f"seed {seed}", *drawn_case(seed))
            said += wanted["run"] + wanted["audit"]
        for word in [" open tx", " delivered tx", " contradiction tx", "order ", "stuck "]:
            self.assertGreater(said.count(word), 5, word)
