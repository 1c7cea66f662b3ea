"""The errors of the library: their numbers and names are nr.h's."""

from __future__ import annotations

import ctypes
import typing

from ._library import PlanStruct, library
from ._records import Short

ROOM, BIT, SIZE, UNEVEN, GRAPH, LENGTH = 2, 5, 40, 45, 46, 56
LARGEST = 1_310_720  # bits of a transport block

# What each status says; {place} is what check_table() says of where it is.
SENTENCES = {
    0: "nothing is wrong",
    1: "memory could not be allocated; the call may be repeated",
    2: "an output array does not have the length of the result",
    3: "there are more items than the call accepts",
    4: "the generator polynomial is not CRC24A, CRC24B or CRC16 (0 to 2)",
    5: "a value that stands for a bit is neither 0 nor 1",
    6: "no code block of this base graph has this lifting size",
    7: "no code block has this index, or this number of filler bits",
    8: "the receiver's state was created for another table, block size or buffer limit, or it is corrupt",
    20: "the file cannot be read",
    21: "record {place} of the table does not have as many fields as record 1",
    22: "record 1 of the table does not have eleven fields",
    23: "a field of record {place} of the table is not 1 to 10 decimal digits",
    24: "a number in record {place} of the table is out of range",
    25: "record {place} of the table has the base graph, row and column of an earlier record",
    26: "rows 0 to 3 of base graph {place} do not have the shape of the standard's",
    27: "a row i >= 4 of base graph {place} does not end in a single zero shift, at column n + i (n = 22 or 10)",
    28: "base graph {place} has a row without an entry",
    29: "the table has no entries",
    30: "the table's text is longer than 4,194,304 octets",
    31: "an entry is outside its base graph, or not in ascending order",
    40: "a transport block has 8 to 1,310,720 bits, a multiple of 8",
    41: "the code rate is not 1 to 2048 in 2048ths",
    42: "the number of bits is out of range",
    43: "there are too few bits",
    44: "there are too many bits",
    45: "the code blocks of this transport block would differ in length (5.2.2)",
    46: "the table has no entries for the base graph, or there is no such base graph",
    47: "lbrm leaves no bit of a code block in the buffer, or ncb is not 1 to N (5.4.2.1)",
    50: "rv is not 0 to 3",
    51: "qm is not 1, 2, 4, 6 or 8",
    52: "nl is not 1 to 4",
    53: "g is not 1 to 4,194,304",
    54: "g is not a multiple of qm * nl, or a code block's bit count is not a multiple of qm",
    55: "no code block of this transport block is scheduled",
    56: "an input array does not have the required length",
}


class Error(ValueError, metaclass=Short):
    """An error that the library returns, as nr.h lists it. `status` is its number, `name` its name, such as "NoBuffer", and `sentence`
    says what is wrong. `place` is where in a table it is, as check_table() says, else 0. It has been called Fault, which still works."""

    def __init__(self, status: int, place: int = 0, sentence: str = "") -> None:
        self.status, self.name, self.place = status, fault_name(status), place
        self.sentence = sentence or SENTENCES.get(status, "there is no such status").format(place=place)
        super().__init__(f"{self.name} {place}: {self.sentence}" if place else f"{self.name}: {self.sentence}")

    def __reduce__(self) -> typing.Tuple[typing.Type[Error], typing.Tuple[int, int, str]]:
        return type(self), (self.status, self.place, self.sentence)


Fault = Error


def length_error(what: str, found: int, wanted: int) -> Error:
    """The error of a list that does not have the length that it should."""
    return Error(LENGTH, sentence=f"{what} has the length {found}, and not {wanted}")


def near_sizes(rate2048: int, a: int) -> typing.Tuple[typing.Optional[int], typing.Optional[int]]:
    """The nearest sizes up to `a` and from `a` on whose code blocks have one length (5.2.2). At most C sizes are tried each way."""
    plan, below, above = PlanStruct(), min(a, LARGEST) // 8 * 8, max(-(-a // 8) * 8, 8)
    while below >= 8 and library.nr_plan(rate2048, below, ctypes.byref(plan)):
        below -= 8
    while above <= LARGEST and library.nr_plan(rate2048, above, ctypes.byref(plan)):
        above += 8
    return below if below >= 8 else None, above if above <= LARGEST else None


def _of_block(status: int, rate2048: int, a: int) -> str:
    """What an error says of a transport block of `a` bits, if it can say more than its sentence."""
    plan = PlanStruct()
    if status == UNEVEN:
        return f"{SENTENCES[UNEVEN]}; nr.near({a}, rate2048={rate2048}) is {near_sizes(rate2048, a)}"
    if status == GRAPH and not library.nr_plan(rate2048, a, ctypes.byref(plan)):
        return f"the table has no entries for base graph {plan.graph}, which this size and rate take"
    return ""


def fault_name(status: int) -> str:
    """The name of a status: "Ok" of 0, "unknown" of a number that is none."""
    name: bytes = library.nr_fault_name(status)
    return name.decode()


def judge(
    status: int, length: typing.Optional[typing.Tuple[str, int, int]] = None, block: typing.Optional[typing.Tuple[int, int]] = None
) -> None:
    """Raises the error of a status that is not 0. `length` is what length_error() is given of the call's list, and `block` the code
    rate in 2048ths and the size of its transport block."""
    if status == LENGTH and length:
        raise length_error(*length)
    if status:
        raise Error(status, sentence=_of_block(status, *block) if block else "")
