"""Bits in beats, as a bus of 1 to 512 bits carries them, and memory files of them. A bit is a character: `0`, `1`, or `-` for
a filler."""

from __future__ import annotations

import dataclasses
import typing

from linksim_tools.common.program import Wrong
from linksim_tools.conform.bits import FILLER

WIDEST = 512
# Where the first bit of a beat stands: in bit 0 of the word, or in its highest one.
FIRSTS = ("lsb", "msb")
# What a line of a file has: the data of a beat, or a beat of an AXI4-Stream, {tlast, tkeep, tdata}. The third form has no beats.
FORMS = ("mem", "axis", "bbdev")


@dataclasses.dataclass(frozen=True)
class Bus:
    """How bits stand in beats."""

    width: int = 32
    first: str = "lsb"

    def __post_init__(self) -> None:
        if not 1 <= self.width <= WIDEST:
            raise Wrong(f"--width must be 1 to {WIDEST}, and not {self.width}")

    @property
    def lanes(self) -> int:
        """The bits of tkeep: one for each octet of the word."""
        return -(-self.width // 8)

    def count(self, bits: str) -> int:
        """How many beats these bits take."""
        return -(-len(bits) // self.width)

    def word(self, bits: str) -> int:
        """The word of at most `width` bits: the places that are left over are 0."""
        if self.first == "lsb":
            return int(bits[::-1], 2)
        return int(bits, 2) << self.width - len(bits)

    def parts(self, bits: str) -> typing.Iterator[str]:
        """The bits of each beat."""
        return (bits[start : start + self.width] for start in range(0, len(bits), self.width))

    def words(self, bits: str) -> list[int]:
        """The word of each beat; a filler is 0."""
        return [self.word(part) for part in self.parts(bits.replace(FILLER, "0"))]

    def cares(self, bits: str) -> list[int]:
        """1 for each bit that counts, 0 for each filler and for each place past the last bit."""
        return [self.word(part) for part in self.parts(bits.replace("0", "1").replace(FILLER, "0"))]

    def keep(self, count: int) -> int:
        """tkeep of a beat that has so many bits."""
        octets = self.word("1" * count)
        return sum(1 << lane for lane in range(self.lanes) if octets >> 8 * lane & 255)

    def axis(self, bits: str) -> list[int]:
        """{tlast, tkeep, tdata} of each beat."""
        words, whole = self.words(bits), self.keep(self.width) << self.width
        beats = [whole | word for word in words]
        if words:
            rest = len(bits) - (len(words) - 1) * self.width
            beats[-1] = 1 << self.width + self.lanes | self.keep(rest) << self.width | words[-1]
        return beats

    def lines(self, form: str, bits: str) -> list[str]:
        """The lines of a memory file of these bits."""
        if form == "axis":
            return memory(self.axis(bits), self.width + self.lanes + 1)
        if self.width % 4 or not bits:
            return memory(self.words(bits), self.width)
        # The same of all words at once: as one number, whose highest word is the first one, or the last.
        whole = (bits + "0" * (-len(bits) % self.width)).replace(FILLER, "0")
        digits, step = self.width // 4, 1 if self.first == "msb" else -1
        text = f"{int(whole[::step], 2):0{len(whole) // 4}x}"
        return [text[start : start + digits] for start in range(0, len(text), digits)][::step]


def memory(words: typing.Iterable[int], bits: int) -> list[str]:
    """Words of so many bits as $readmemh reads them, one a line."""
    digits = -(-bits // 4)
    return [f"{word:0{digits}x}" for word in words]
