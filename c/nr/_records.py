"""What the calls take and return."""

from __future__ import annotations

import enum
import operator
import typing

from ._arrays import rates_of

if typing.TYPE_CHECKING:
    from ._arrays import Numbers, Places


def whole(name: str, given: typing.SupportsIndex) -> int:
    """A whole number, of Python or of numpy; else an error that names the argument."""
    try:
        return operator.index(given)
    except TypeError:
        raise TypeError(f"{name} is {given!r}, and not a whole number") from None


class Short(type):
    """The type of classes of which help() shows what is their own alone."""

    def __dir__(cls) -> typing.List[str]:
        return [name for name in vars(cls) if not name.startswith("_")]


class _ShortEnum(enum.EnumMeta):
    def __dir__(cls) -> typing.List[str]:
        return list(cls.__members__)


class Outcome(enum.IntEnum, metaclass=_ShortEnum):
    """What may be handed up. OPEN: some bit is not fixed yet. DELIVERED: the one block that explains all that was received.
    CONTRADICTION: no block does."""

    OPEN = 0
    DELIVERED = 1
    CONTRADICTION = 2


class Plan(typing.NamedTuple):
    """The numbers by which a transport block is cut into code blocks (5.2.2, 5.3.2). They are the base graph, B (bits with the
    CRC), L (CRC bits of each code block) and C (code blocks). Then K' (bits of each), Kb, Zc and its set index, K (bits with
    fillers) and N (coded bits)."""

    graph: int
    b: int
    l: int
    c: int
    kdash: int
    kb: int
    z: int
    set: int
    k: int
    n: int


class Report(typing.NamedTuple):
    """How many entries an accepted shift table has of base graph 1 and of base graph 2."""

    one: int
    two: int


class Buffer(typing.NamedTuple):
    """The circular buffer of each code block (5.4.2.1): how many bits of d it keeps, and where a redundancy version begins."""

    ncb: int
    k0: int


def _short(block: typing.Optional[bytearray]) -> str:
    """A block as it is shown: a long one by how many octets it has."""
    return f"<{len(block)} octets>" if block and len(block) > 32 else repr(block)


class Received(typing.NamedTuple):
    """What receive() returns: the outcome after each transmission, in their order. Then how many of the K' bits of each code
    block are not fixed after the last one. Then the block's octets if it is delivered, else None."""

    outcomes: typing.List[Outcome]
    left: typing.List[int]
    block: typing.Optional[bytearray]

    def __repr__(self) -> str:
        names = ", ".join(it.name for it in self.outcomes)
        return f"Received(outcomes=[{names}], left={self.left}, block={_short(self.block)})"

    @property
    def outcome(self) -> Outcome:
        """The last outcome; OPEN before the first transmission."""
        return self.outcomes[-1] if self.outcomes else Outcome.OPEN


class ReceivedMany(typing.NamedTuple):
    """What receive_many() returns, as arrays with a row for each block. `outcomes` has the Outcome after each transmission.
    `left` has how many of the K' bits of each code block are not fixed after the last one. `blocks` has the octets of the
    transport block, zeros if it is not delivered then. `after` has no rows: after how many transmissions each block was first
    delivered, 0 if after none. They are numpy's arrays if it can be imported, else plain ones."""

    outcomes: Numbers
    left: Numbers
    blocks: Places
    after: Numbers

    @property
    def rates(self) -> typing.List[float]:
        """The block error rate after each transmission."""
        return rates_of(self.after, self.outcomes.shape[1])

    def __repr__(self) -> str:
        return f"ReceivedMany(blocks={len(self.after)}, rates={self.rates})"


class Joined(typing.NamedTuple):
    """What join() returns: the octets of the transport block, whether its CRC passes, and for each code block whether its CRC24B
    passes. A single code block has no CRC24B; there it is whether the transport block's CRC passes."""

    block: bytearray
    block_passed: bool
    passed: typing.List[bool]

    def __repr__(self) -> str:
        return f"Joined(block={_short(self.block)}, block_passed={self.block_passed}, passed={self.passed})"


class Taken(typing.NamedTuple):
    """What Receiver.take() returns, of all that was received so far. The outcome, and how many of the K' bits of each code block
    are not fixed. Then the block's octets if it is delivered, else None."""

    outcome: Outcome
    left: typing.List[int]
    block: typing.Optional[bytearray]

    def __repr__(self) -> str:
        return f"Taken(outcome={self.outcome.name}, left={self.left}, block={_short(self.block)})"


class Simulated(typing.NamedTuple):
    """What simulate() returns, as arrays. `after` says after how many transmissions each round was delivered, 0 if after none.
    `left` is how many of the K' bits of each code block were not fixed after each transmission. `erased` is how many places of
    each code block that transmission alone erased. The last two have three dimensions, rounds, transmissions and code blocks,
    with zeros after the delivery: numpy.cumsum(found.erased, axis=1) counts up to each transmission. They are numpy's arrays if
    it can be imported, else plain ones."""

    after: Numbers
    left: Numbers
    erased: Numbers

    @property
    def rates(self) -> typing.List[float]:
        """The block error rate after each transmission."""
        return rates_of(self.after, self.left.shape[1])

    def __repr__(self) -> str:
        return f"Simulated(rounds={len(self.after)}, rates={self.rates})"


class _Fields(typing.NamedTuple):
    g: int
    rv: int
    qm: int
    nl: int
    blocks: typing.Optional[typing.Tuple[int, ...]]


class Tx(_Fields, metaclass=Short):  # type: ignore[misc]
    """How a transport block is sent once (5.4.2): G bits, a multiple of qm * nl, at most 4,194,304. The redundancy version is 0 to
    3, Qm bits a modulation symbol are 1, 2, 4, 6 or 8, and layers are 1 to 4. `blocks` has the numbers of the code blocks that are
    scheduled, from 0, or is None for all. Any iterable of numbers will do: it is read once, here."""

    __slots__ = ()

    def __new__(
        cls, g: typing.SupportsIndex, *, rv: typing.SupportsIndex = 0, qm: typing.SupportsIndex = 1, nl: typing.SupportsIndex = 1,
        blocks: typing.Optional[typing.Iterable[typing.SupportsIndex]] = None,
    ) -> Tx:
        if blocks is not None and not isinstance(blocks, typing.Iterable):
            raise TypeError(f"blocks is {blocks!r}, and not the indexes of code blocks, as [0, 2]")
        some = None if blocks is None else tuple(whole("a code block", it) for it in blocks)
        return super().__new__(cls, whole("g", g), whole("rv", rv), whole("qm", qm), whole("nl", nl), some)

    def __getnewargs_ex__(self) -> typing.Tuple[typing.Tuple[int], typing.Dict[str, typing.Any]]:
        return (self.g,), dict(zip(self._fields[1:], self[1:]))

    @classmethod
    def _make(cls, fields: typing.Iterable[typing.Any]) -> Tx:  # type: ignore[override]
        g, *others = fields
        return cls(g, **dict(zip(cls._fields[1:], others)))
