"""What all families of cases are made with: sizes of blocks, and transmissions of a part of the buffer. Orders in which
columns are wanted, and cases of what drafts keep, are here too."""

from __future__ import annotations

import dataclasses
import random
import typing

from linksim_tools.conform.receiver import drafts, steps
from linksim_tools.conform.receiver.drafts import Draft
from linksim_tools.conform.receiver.mistakes import receiver_with
from linksim_tools.conform.receiver.reception import Arrival, Case

if typing.TYPE_CHECKING:
    from linksim_tools.conform.receiver.chain import Receiver


# Which columns are wanted, the lowest first, by what is said of them: of a transmission, a column that counts from the first parity
# one, and a copy.
WANTED: dict[str, drafts.Wanted] = {
    "early": lambda t, column, copy: column, "late": lambda t, column, copy: -column,
    "parity": lambda t, column, copy: (column < 0, column), "even": lambda t, column, copy: ((column + t) % 2, column),
    # Anything before the core parity columns.
    "extension": lambda t, column, copy: (0 <= column < 4, column),
    "first": lambda t, column, copy: (t, -column), "last": lambda t, column, copy: (-t, column),
    "first-copy": lambda t, column, copy: (copy, column), "second-copy": lambda t, column, copy: (copy == 0, column),
    # Columns of all transmissions in turn, and of a later one rather; each third one; anything before the even ones of the first.
    "in turn": lambda t, column, copy: (copy, (column + t) % 5, -t, column),
    "in thirds": lambda t, column, copy: ((column + t) % 3, column),
    "all but even": lambda t, column, copy: (t == 0 and column % 2 == 0, column),
}
# In which order others are tried if those that are wanted do not fix the block, or not tightly.
OTHERWISE = ("early", "extension", "even", "late", "parity")


def sized(a: int, rate2048: int, versions: typing.Sequence[int], part: float | typing.Sequence[float], qm: int = 1, nl: int = 1,
          limit: int | None = None, mask: tuple[int, ...] | None = None, over: int = 0) -> list[Arrival]:
    """Transmissions of these versions with about so much of a round of the buffer each. `limit` is Ncb in hundredths
    of a codeword; `over` are symbols that are not shared out evenly."""
    sizes = steps.sizes(a, rate2048)
    lbrm = None if limit is None else -(-2 * sizes.c * (sizes.n * limit // 100) // 3)
    whole = sizes.n if lbrm is None else min(sizes.n, 3 * lbrm // (2 * sizes.c))
    unit, count = qm * nl, sizes.c if mask is None else len(mask)
    parts = [part] * len(versions) if isinstance(part, (int, float)) else part
    found = []
    for t, (version, it) in enumerate(zip(versions, parts)):
        g = max(unit, int(whole * it) // unit * unit) * count + over * unit
        found.append(Arrival(a, rate2048, lbrm, version, g, qm, nl, mask, 0, t == 0))
    return found


def again(arrivals: typing.Iterable[Arrival], **changed: typing.Any) -> list[Arrival]:
    """The same transmissions with some numbers changed."""
    return [dataclasses.replace(it, **changed) for it in arrivals]


class NoPattern(steps.Impossible):
    """No whole columns of a table fix the block of this draft."""


class Maker:
    """Makes drafts and cases over one table; a seed draws the blocks' bits."""

    def __init__(self, tables: steps.Tables, seed: int) -> None:
        self.tables, self.seed = tables, seed
        # The cases that cannot be made for this table, though it has their base graph.
        self.left_out: list[str] = []

    def leave_out(self, name: str, graph: int | None = None) -> None:
        """Notes a case that cannot be made. If the table lacks its base graph, that is said of all of them at once."""
        if graph is None or graph in self.tables.graphs():
            self.left_out.append(name)

    def block(self, name: str, a: int) -> str:
        """A drawn block of `a` bits."""
        return f"{random.Random(f'{self.seed} {name}').getrandbits(a):0{a}b}"

    def receiver(self, *wrong: str) -> Receiver:
        return receiver_with(frozenset(wrong))(self.tables)

    def draft(self, name: str, arrivals: list[Arrival], wanted: str = "early", bits: str | None = None) -> Draft:
        """A draft for a right receiver, with as little as fixes the block by the columns that are wanted."""
        found = self.whole(name, arrivals, bits).critical(WANTED[wanted], seed=name)
        if found is None:
            raise NoPattern(name)
        return found

    def whole(self, name: str, arrivals: list[Arrival], bits: str | None = None) -> Draft:
        """A draft for a right receiver, to which everything arrives."""
        return Draft(self.receiver(), arrivals, bits or self.block(name, arrivals[0].a))

    def tight(self, name: str, arrivals: list[Arrival]) -> Draft:
        """A draft with no value more than there are information bits, if one is found."""
        tried = (self.whole(name, arrivals).critical(WANTED[wanted], seed=name) for wanted in OTHERWISE)
        found = drafts.best((it for it in tried if it is not None), Draft.slack, 0)
        if found is None:
            raise NoPattern(name)
        return found

    def case(self, name: str, step: str, what: str, made: Draft, strength: str = "+-") -> Case:
        """A case of a draft, by these characters of its values."""
        return Case(name, step, what, made.arrivals, made.values(strength), [made.bits] * len(made.arrivals))
