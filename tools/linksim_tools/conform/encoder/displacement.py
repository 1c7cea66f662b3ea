"""Bits that stand elsewhere: some are missing, some are too many, or they are those of another code block. Bits that were there
before, at the same places: those of the case before, or of the code block before. And bits that are all zeros or ones."""

from __future__ import annotations

import dataclasses
import typing

# How many bits must agree for a place to be found by them, and how far bits are looked for.
WINDOW, FAR = 48, 1 << 16

# So many differing bits must be explained by former ones, and more than half of them by chance are not. Then the widths of words
# whose bounds are looked for.
LEAST, WIDTHS = 12, (8, 16, 32, 64, 128)


def first_place(found: typing.Sequence[object], right: typing.Sequence[object]) -> int:
    """The first index at which two lists differ."""
    most = min(len(found), len(right))
    if found[:most] == right[:most]:
        return most
    low, high = 0, most
    while high - low > 1:
        middle = (low + high) // 2
        low, high = (middle, high) if found[low:middle] == right[low:middle] else (low, middle)
    return low


def tells(window: str) -> bool:
    """Whether a window is such that no other place has it by chance."""
    return len(window) == WINDOW and min(window.count("0"), window.count("1")) >= WINDOW // 6


def count(bits: int) -> str:
    """A number of bits in words."""
    return "1 bit is" if bits == 1 else f"{bits} bits are"


@dataclasses.dataclass(frozen=True)
class Shift:
    """Bits that are missing, or too many: how many, between which places the shift begins, and how many bits agree
    after it. Some bits may agree by chance before the first that differs, so its beginning is not one place."""

    missing: int
    first: int
    last: int
    agree: int

    def words(self, first: int | None = None, last: int | None = None) -> str:
        """The shift in words, with other places where it begins."""
        first, last = self.first if first is None else first, self.last if last is None else last
        kind = "missing" if self.missing > 0 else "too many"
        where = f" from bit {first} on" if first == last else f" from bit {first} to {last} on" if first < last else ""
        return f"{count(abs(self.missing))} {kind}{where}"


def shift_of(found: str, right: str) -> Shift | None:
    """The shift of the bits from the first place on that differs; None if there is none."""
    place = first_place(found, right)
    window, ahead = found[place : place + WINDOW], right[place : place + WINDOW]
    if is_flipped(found, right) or not (tells(window) and tells(ahead)):
        return None
    gap = right.find(window, place + 1, place + FAR)
    over = found.find(ahead, place + 1, place + FAR)
    if gap < 0 and over < 0:
        return None
    # Round a buffer the same bits come again: the nearer place counts.
    by = gap - place if over < 0 or 0 <= gap < over else place - over
    here, there = max(-by, 0), max(by, 0)
    agree, first = first_place(found[place + here :], right[place + there :]), place
    while first and found[first - 1 + here] == right[first - 1 + there]:
        first -= 1
    return Shift(by, first, place, agree)


def is_flipped(found: str, right: str) -> bool:
    """Whether the first bit that differs is alone."""
    place = first_place(found, right)
    return len(found) == len(right) and found[place + 1 : place + WINDOW] == right[place + 1 : place + WINDOW]


def other_words(found: str, right: str, others: list[tuple[str, str]]) -> str:
    """Words for two lists that differ and are not shifted: by their last octet alone, which is not whole, or by bits that come from
    other lists, which have names."""
    place, whole = first_place(found, right), len(right) // 8 * 8
    if whole < len(right) and place >= whole:
        return f"only the last octet differs, which has {len(right) - whole} bits"
    window = found[place : place + WINDOW]
    for name, other in others if tells(window) and not is_flipped(found, right) else ():
        if window in other:
            return f"the bits from bit {place} on are those of {name} from bit {other.find(window)} on"
    return ""


def lines(found: str, right: str, others: list[tuple[str, str]]) -> list[str]:
    """What is said of two lists that differ; `others` are lists where the bits may come from, with their names."""
    moved = shift_of(found, right)
    words = f"{moved.words()}; the next {moved.agree} bits agree" if moved else other_words(found, right, others)
    return [words] if words else []


def constant(found: str, places: list[int]) -> str:
    """Words for a word of zeros or of ones in which all these places stand, at which bits differ."""
    bit = found[places[0]]
    for width in WIDTHS:
        first = places[0] // width * width
        last = first + width
        if places[-1] < last and len(places) >= width // 5 and not found[first:last].strip(bit):
            return f"bits {first} to {last - 1} are {'zeros' if bit == '0' else 'ones'}"
    return ""


def former_words(olds: typing.Iterable[tuple[str, str]], found: str, right: str) -> str:
    """What is said of a list that differs, of former lists with their names: their bits stand at all places that differ, or they
    are added to the right ones."""
    places = [place for place, (one, two) in enumerate(zip(found, right)) if one != two]
    if not places or len(found) != len(right):
        return ""
    words = constant(found, places)
    for name, old in olds if len(places) >= LEAST and not words else ():
        if places[-1] < len(old) and all(found[place] == old[place] for place in places):
            return f"where they differ, the bits are those of {name} at the same places"
        if places[-1] < len(old) and "-" not in found + right:
            one, two, added = (int(it[: len(old)].replace("-", "0"), 2) for it in (found, right, old[: len(found)]))
            if one ^ two == added:
                return f"the bits of {name} are added to them"
    return words


def order(answered: list[str], right: list[str]) -> str:
    """The numbers of the right parts that were answered, if each answered part is one of them in another order."""
    kept = [it for it in answered if it]
    if len(kept) < 2 or not set(kept) <= set(right):
        return ""
    numbers = [right.index(it) for it in kept]
    if numbers == sorted(set(numbers)) and len(kept) == sum(map(bool, right)):
        return ""
    return "r = " + ", ".join(map(str, numbers[:12])) + (", .." if len(numbers) > 12 else "")
