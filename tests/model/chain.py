"""Another model of `send`, `run` and `audit`: plain lists and whole numbers, by the clauses of TS 38.212 alone. The
parts of the transmitter are those of the other tests; the receiver stands here."""

from __future__ import annotations

import dataclasses
import functools
import typing

from model import clauses, coding, encoder
from model.clauses import GRAPHS


@dataclasses.dataclass(frozen=True)
class Tx:
    """A transmission of a block, counted from 1, and the places that the link erases and flips."""

    block: int
    rv: int
    g: int
    qm: int = 1
    nl: int = 1
    erased: frozenset[int] = frozenset()
    flipped: frozenset[int] = frozenset()
    # The code blocks that are scheduled; None is all.
    mask: tuple[int, ...] | None = None


def hexadecimal(bits: list[int]) -> typing.Any:
    """Bits as the program writes them."""
    return encoder.octets_of(list(bits)).hex()[: (len(bits) + 3) // 4]


@functools.lru_cache(maxsize=None)
def parity_rows(text: str, graph: int, index: int, size: int) -> typing.Any:
    """The positions of each parity row of a codeword (5.3.2), as a number whose bits they are."""
    rows: dict[tuple[int, int], int] = {}
    for (row, column), values in coding.tables(text.encode())[graph].items():
        for t in range(size):
            position = column * size + (t + values[index]) % size
            rows[row, t] = rows.get((row, t), 0) | 1 << position
    return list(rows.values())


class Coded:
    """A transport block, and the codeword of each of its code blocks, from the two columns on that are never sent."""

    def __init__(self, table: str, settings: tuple[int, int | None], octets: bytes) -> None:
        self.link, self.octets = (table, settings), octets
        rate2048, self.lbrm = settings
        self.plan = plan = coding.plan(8 * len(octets), rate2048)
        self.blocks = coding.code_blocks(octets, plan)
        entries = coding.tables(table.encode())[plan["graph"]]
        fillers = [0] * (plan["k"] - plan["kdash"])
        information = GRAPHS[plan["graph"]].information
        self.words = [
            encoder.codeword(entries, information, plan["set"], plan["z"], bits + fillers) for bits in self.blocks
        ]
        self.rows = parity_rows(table, plan["graph"], plan["set"], plan["z"])
        self.fillers = sum(1 << position for position in range(plan["kdash"], plan["k"]))

    def places(self, tx: typing.Any) -> typing.Any:
        """The code block and the position of each place of a transmission (5.4.2, 5.5)."""
        plan = self.plan
        scheduled = [r for r in range(plan["c"]) if tx.mask is None or r in tx.mask]
        ncb = clauses.buffer_length(plan, self.lbrm)
        start = clauses.start(plan, ncb, tx.rv)
        first = 2 * plan["z"]
        d = [None if self.fillers >> position & 1 else position for position in range(first, first + plan["n"])]
        found = []
        for r, count in clauses.lengths(tx.g, tx.qm, tx.nl, scheduled).items():
            chosen = encoder.interleaved(encoder.selected(d, start, ncb, count), tx.qm)
            found += [(r, position) for position in chosen]
        return found

    def sent(self, tx: typing.Any) -> typing.Any:
        """The bits of a transmission."""
        return [self.words[r][position] for r, position in self.places(tx)]


class Receiver:
    """What was heard of a transport block, and what the parity rows fix of it, one unknown at a time."""

    def __init__(self, coded: typing.Any) -> None:
        self.coded = coded
        self.heard: list[tuple[int, int, int]] = []
        count = coded.plan["c"]
        # The positions that are heard or fillers; those that are fixed too; and which of these are ones.
        self.given, self.known, self.ones = [coded.fillers] * count, [coded.fillers] * count, [0] * count
        for r in range(count):
            self.peel(r)

    def hear(self, tx: typing.Any) -> None:
        """Hears a transmission: a place that is flipped as the other bit, and none that is erased."""
        places = self.coded.places(tx)
        for place, ((r, position), bit) in enumerate(zip(places, self.coded.sent(tx))):
            if place in tx.erased:
                continue
            self.note(r, position, bit ^ (place in tx.flipped))
        for r in range(len(self.known)):
            self.peel(r)

    def note(self, r: int, position: int, arrived: int) -> None:
        """Hears a position of a code block as this bit, and fixes nothing by it."""
        self.heard.append((r, position, arrived))
        self.given[r] |= 1 << position
        if not self.known[r] >> position & 1:
            self.known[r] |= 1 << position
            self.ones[r] |= arrived << position

    def peel(self, r: int) -> None:
        """Fixes what a row with one unknown position gives, until no row has one."""
        known, ones, fixed = self.known[r], self.ones[r], True
        while fixed:
            fixed = False
            for row in self.coded.rows:
                unknown = row & ~known
                if unknown and not unknown & (unknown - 1):
                    if bin(row & ones).count("1") % 2:
                        ones |= unknown
                    known, fixed = known | unknown, True
        self.known[r], self.ones[r] = known, ones

    def left(self) -> typing.Any:
        """How many positions below K' are not fixed, by code block."""
        kdash = self.coded.plan["kdash"]
        return [kdash - bin(known & (1 << kdash) - 1).count("1") for known in self.known]

    def explained(self) -> typing.Any:
        """The octets of the one transport block that may explain what was heard, or None if it does not."""
        plan = self.coded.plan
        part = plan["kdash"] - plan["l"]
        bits = [ones >> position & 1 for ones in self.ones for position in range(part)]
        octets = encoder.octets_of(bits)[: len(self.coded.octets)]
        other = self.coded if octets == self.coded.octets else Coded(self.coded.link[0], self.coded.link[1], octets)
        return octets if all(other.words[r][position] == bit for r, position, bit in self.heard) else None

    def line(self, count: int) -> typing.Any:
        """What is said of the block after its number, after so many transmissions."""
        left = self.left()
        failed = sum(map(bool, left))
        octets = None if failed else self.explained()
        outcome = "open" if failed else "contradiction" if octets is None else "delivered"
        said = f"{outcome} tx {count} failed {failed} of {len(left)}"
        return outcome, failed, said + (f" {octets.hex()}" if octets is not None else "")

    def audit(self, n: int) -> typing.Iterator[typing.Any]:
        """The lines of `audit` of block n."""
        size = GRAPHS[self.coded.plan["graph"]].columns * self.coded.plan["z"]
        for r, left in enumerate(self.left()):
            if left:
                open_ones = [position for position in range(size) if not self.known[r] >> position & 1]
                yield f"stuck {n} {r} {len(open_ones)} {' '.join(map(str, open_ones))}"
            else:
                yield f"order {n} {r} {bin(self.known[r] & ~self.given[r]).count('1')}"


def texts(table: str, settings: tuple[int, int | None], blocks: list[bytes], transmissions: list[Tx]) -> typing.Any:
    """What `send`, `run` and `audit` write of these transmissions, none of which is refused; settings are the rate and
    TBS_LBRM or None."""
    coded = [Coded(table, settings, octets) for octets in blocks]
    receivers, counts = [Receiver(it) for it in coded], [0] * len(blocks)
    send, run = [], []
    for t, tx in enumerate(transmissions, 1):
        n = tx.block
        send.append(f"sent {t} {n} {hexadecimal(coded[n - 1].sent(tx))}")
        receivers[n - 1].hear(tx)
        counts[n - 1] += 1
        run.append(send[-1])
        run += [f"left {t} {n} {r} {count}" for r, count in enumerate(receivers[n - 1].left())]
    said = [receiver.line(count) for receiver, count in zip(receivers, counts)]
    run += [f"block {n} {line}" for n, (_, _, line) in enumerate(said, 1)]
    outcomes = [outcome for outcome, _, _ in said]
    total = " ".join(f"{it} {outcomes.count(it)}" for it in ("delivered", "open", "contradiction"))
    all_blocks, failed = sum(it.plan["c"] for it in coded), sum(count for _, count, _ in said)
    run.append(f"total blocks {len(blocks)} {total} codeblocks {all_blocks} failed {failed}")
    audit = [line for n, receiver in enumerate(receivers, 1) for line in receiver.audit(n)]
    each = {"send": send, "run": run, "audit": audit}
    return {name: "".join(f"{line}\n" for line in text) for name, text in each.items()}


def record(tx: typing.Any) -> typing.Any:
    """The record of a transmission in a schedule of eight columns."""
    erased, flipped = (" ".join(map(str, sorted(it))) or "-" for it in (tx.erased, tx.flipped))
    mask = "all" if tx.mask is None else " ".join(map(str, tx.mask))
    return f"{tx.block},{tx.rv},{tx.g},{tx.qm},{tx.nl},{erased},{flipped},{mask}"
