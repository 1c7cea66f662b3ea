"""What a receiver is told of a transmission, what it answers, and a case: transmissions with the values that arrive. A suite has a
character for each value, and numbers are made of these at a level."""

from __future__ import annotations

import dataclasses
import functools
import typing

# A value is kept as an octet, so much more than it is.
ZERO = 128
# A case of more values is long: what receivers with mistakes answer to it is not kept.
LONG = 1 << 17


def translated(change: typing.Callable[[int], int]) -> bytes:
    """The octets of values that are changed so."""
    return bytes(min(max(change(octet - ZERO), -ZERO), ZERO - 1) + ZERO for octet in range(256))


@dataclasses.dataclass(frozen=True)
class Arrival:
    """A transmission as a receiver is told of it; `mask` has the scheduled code blocks, or is None if all are."""

    a: int
    rate2048: int
    lbrm: int | None
    rv: int
    g: int
    qm: int = 1
    nl: int = 1
    mask: tuple[int, ...] | None = None
    process: int = 0
    fresh: bool = True

    def scheduled(self, count: int) -> list[int]:
        """The scheduled ones of so many code blocks."""
        return [r for r in range(count) if self.mask is None or r in self.mask]


@dataclasses.dataclass(frozen=True)
class Answer:
    """What a receiver says after a transmission: the block (bits as text) or None, and whether each code block passed. Then the
    information bits of each, `?` if one is not known, and the signs of the soft buffer d of each."""

    delivered: str | None
    passed: str | None = None
    info: tuple[str, ...] | None = None
    soft: tuple[str, ...] | None = None


# What is answered to a case that is not supported.
UNSUPPORTED = Answer(None, "")


@dataclasses.dataclass
class Case:
    """Transmissions, the characters of the values of each, and the block that each is of. `mirror` is the mistake
    with which a receiver delivers, and no right one does."""

    id: str
    step: str
    what: str
    arrivals: list[Arrival]
    values: list[str]
    meant: list[str]
    mirror: str = ""
    rounds: typing.Tuple[int, int] | None = None

    @property
    def size(self) -> int:
        """How many values arrive."""
        return sum(map(len, self.values))

    def has(self, characters: str) -> bool:
        """Whether some value is one of these."""
        return any(it in text for text in self.values for it in characters)

    @property
    def is_mixed(self) -> bool:
        """Whether its values have several strengths."""
        return sum(map(self.has, ("+-", "qQ", "hH", "lLM", "iI"))) > 1


@dataclasses.dataclass(frozen=True, order=True)
class Level:
    """A strong value, how many bits a value has, and which bit a positive one means."""

    strong: int = 16
    bits: int = 8
    positive: int = 0

    @property
    def largest(self) -> int:
        """The largest value of so many bits. Hard decisions, which have one bit, are 1 and -1, or 0 for an erased one."""
        return max((1 << (self.bits - 1)) - 1, 1)

    @property
    def weak(self) -> int:
        """A weak value: a quarter of a strong one."""
        return max(1, self.strong // 4)

    def asks(self, case: Case) -> bool:
        """Whether a case is asked: one with values of several strengths only if two weak ones are less than a strong one."""
        return not case.is_mixed or self.bits > 1 and 2 * self.weak < self.strong

    def numbers(self) -> dict[str, int]:
        """The number of each character: erased, strong, weak (a quarter), high (four of which are over the largest), the
        largest and the lowest, and one."""
        high = max(5 * (self.largest + 1) // 16, 1)
        found = {"0": 0}
        for names, value in (("+-", self.strong), ("qQ", self.weak), ("hH", high), ("lL", self.largest), ("iI", 1)):
            found[names[0]], found[names[1]] = value, -value
        found["L"], found["M"] = -self.largest - (self.bits > 1), -self.largest
        if self.positive:
            found = {name: min(-value, self.largest) for name, value in found.items()}
            found["l"] = -self.largest - (self.bits > 1)
        return found

    def listed(self, values: str) -> list[int]:
        """The numbers of a text of values."""
        numbers = self.numbers()
        return [numbers[value] for value in values]


# What the model is given. It has the sign that is positive for a bit 0.
MODEL = Level()


@functools.lru_cache(4)
def table_of(level: Level) -> dict[int, int]:
    """The octet of each character, 128 more than the value."""
    return {ord(name): ZERO + max(-ZERO, min(value, ZERO - 1)) for name, value in level.numbers().items()}


@functools.lru_cache(1024)
def octets_of(values: str, level: Level = MODEL) -> bytes:
    return values.translate(table_of(level)).encode("latin-1")
