"""What `send` writes. The values are worked by hand: under the practice table parity columns are sums and rotations of
columns that can be written down."""

from __future__ import annotations

import functools
import operator

from programs import Program, Row, row
from texts import PRACTICE, QUARTER_RATE, counted, eight, lines, practice_of, practice_with, record, six
from worked_texts import ALL_OF_01, both_graphs

TWO_CODE_BLOCKS = "00" * 479
ONE_BIT = "rate2048 = 2048\nlbrm = 1\n"

# Block 01 with its CRC is 011021: Zc is 4, so each column of its codeword is a digit. All of the buffer; 24 bits in
# four rows of six, read by columns; and 40 bits from column 45 on.
ROWS = [
    row(
        "whole, by four bits a symbol, from column 45, and refused twice",
        ["1,0,184,1,1,-", "1,0,24,4,1,-", "1,3,40,1,1,-", "1,4,24,1,1,-", "1,0,30,4,1,-"], f"sent 1 1 {ALL_OF_01}",
        "sent 2 1 000a51", "sent 3 1 8000002102", "refused 4 1 Rv", "refused 5 1 Ragged",
    ),
    row(
        "three that are refused, for the first of their causes", ["1,4,30,3,1,-", "1,0,30,3,1,-", "1,0,30,4,1,-"],
        "refused 1 1 Rv", "refused 2 1 Order", "refused 3 1 Ragged",
    ),
    row(
        "two transmissions do not depend on one before them", ["1,0,24,4,1,-", "1,3,40,1,1,-"], "sent 1 1 000a51",
        "sent 2 1 8000002102",
    ),
    Row("a header alone", ""),
    Row("a buffer of one bit, which is a zero", "sent 1 1 0\n", settings=ONE_BIT, schedule=six("1,0,4,1,1,-")),
    row(
        "the second of two code blocks alone, and then none", ["1,0,4,4,1,-,-,1", "1,0,4,4,1,-,-,2"], "sent 1 1 0",
        "refused 2 1 NoneScheduled", settings=QUARTER_RATE, blocks=TWO_CODE_BLOCKS,
    ),
]

# What was sent or refused before a transmission does not change it. Here that is column 15 on, by two bits a symbol,
# and a version that there is not. The information columns are 0 1 1 0 2 1, the parity columns 0 3 3 0, and then come
# information columns, rotated.
BEHIND_OTHERS = [
    row(
        f"{last} after two others", ["1,1,8,2,1,-", "1,4,30,3,1,-", last], "sent 1 1 08", "refused 2 1 Rv",
        f"sent 3 1 {bits}",
    )
    for last, bits in [("1,0,24,4,1,-", "000a51"), ("1,3,40,1,1,-", "8000002102"), ("1,0,24,1,1,-", "102103")]
]

# The values of the first parity column rotate it, and with it the next three. In row 1 column 0 stands too, rotated by
# one.
BY_THE_TABLE = [
    Row(
        f"the first parity column rotated by {first} and {middle}",
        f"sent 1 1 {bits}\n",
        table=practice_with(record(2, 1, 0, 1), record(2, 0, 10, first), record(2, 2, 10, middle)),
        blocks="80",
        schedule=six("1,0,32,1,1,-"),
    )
    for first, middle, bits in [(0, 1, "91888191"), (0, 0, "91881808"), (1, 0, "91888801")]
]

AGAIN_AND_AGAIN = Row(
    "a buffer of one bit, which is a one",
    "sent 1 1 fff\n",
    settings=ONE_BIT,
    blocks="80",
    schedule=six("1,2,12,2,1,-"),
)

# 296 zeros but for the last bit have the CRC 1021. So columns 19 and 20, of 15 bits, have ones at 10 14 and 6 11, and
# the other information columns none. The parity columns 22 to 25 are 0, column 20, both and column 19. Columns 41 and
# 63 are column 19, rotated by 19 and 41, and columns 42 and 64 column 20, by 20 and 42. Positions 0 to 29 are not sent,
# nor are the fillers 312 to 329.
ONES = [265, 269, 276, 281, 303, 308, 318, 322, 323, 326, 337, 341, 573, 577, 583, 588, 900, 911, 921, 926]
GRAPH_1 = Row(
    "the first 972 bits",
    f"sent 1 1 {sum(1 << (971 - place) for place in ONES):0243x}\n",
    table=practice_of(1) + PRACTICE,
    blocks="00" * 36 + "01",
    schedule=six("1,0,972,1,1,-"),
)

# 479 octets have two code blocks, the second of which begins with bit 1928, and Zc is 208. So redundancy version 0
# begins with bits 416 and 2344: the octets 35 36 and 27 28 of those that count up. A group of four bits has one of each
# quarter.
COUNTING = bytes(place % 255 + 1 for place in range(479)).hex()
TWO_BEGINNINGS = [
    Row(
        f"the beginnings of two code blocks, by {qm}",
        f"sent 1 1 {bits}\n",
        settings=QUARTER_RATE,
        blocks=COUNTING,
        schedule=six(f"1,0,32,{qm},1,-"),
    )
    for qm, bits in [(1, "35362728"), (4, "05be14e4")]
]

CAUSES = ["Rv", "Order", "Layers", "Total", "Ragged", "NoneScheduled"]

# Each of the six causes, and if several hold the first one.
REFUSED_TRANSMISSIONS = Row(
    "the six causes, in their order",
    lines(
        *(f"refused {t} 1 {name}" for t, name in enumerate(CAUSES, 1)),
        *(f"refused {t} 1 {name}" for t, name in enumerate(CAUSES[:5], 7)),
        "refused 12 1 Total",
        "sent 13 1 10210330",
    ),
    schedule=eight(
        "1,4,24,1,1,-,-,all",
        "1,0,24,3,1,-,-,all",
        "1,0,24,1,5,-,-,all",
        "1,0,0,1,1,-,-,all",
        "1,0,30,4,1,-,-,all",
        "1,0,24,1,1,-,-,1",
        # From here on all later causes hold too.
        "1,4,0,3,0,-,-,1",
        "1,0,0,3,0,-,-,1",
        "1,0,0,2,0,-,-,1",
        "1,0,0,2,1,-,-,1",
        "1,0,23,2,1,-,-,1",
        "1,0,4194305,1,1,-,-,all",
        "1,0,32,1,1,-,-,0",
    ),
)


def digits(g: int, bits: str) -> Row:
    """The first g bits of a block whose bits after the punctured columns begin with acff."""
    return Row(f"{g} bits", f"sent 1 1 {bits}\n", blocks="00000acff0", schedule=six(f"1,0,{g},1,1,-"))


# 40 bits have 56 with their CRC and Zc 10: the bits from 20 on are sent first. The last digit is filled with zeros.
LAST_DIGITS = [
    digits(1, "8"), digits(4, "a"), digits(5, "a8"), digits(6, "ac"), digits(8, "ac"), digits(9, "ac8"),
    digits(12, "acf"), digits(13, "acf8"), digits(16, "acff"),
]


class Send(Program):
    """Against the rows above."""

    def test_rows(self) -> None:
        some = [AGAIN_AND_AGAIN, GRAPH_1, REFUSED_TRANSMISSIONS]
        self.check("send", [*ROWS, *BEHIND_OTHERS, *BY_THE_TABLE, *some, *TWO_BEGINNINGS, *LAST_DIGITS])

    def test_all_places_twice(self) -> None:
        """640 bits of block 000001 are the 320 that are ever sent, twice: with the CRC16 1021, in columns of seven."""
        bits = f"{0x000001:024b}{0x1021:016b}".ljust(70, "0")
        columns = [bits[7 * k : 7 * k + 7] for k in range(10)]
        even, odd = (functools.reduce(operator.xor, (int(it, 2) for it in columns[k::2])) for k in range(2))
        columns += [f"{it:07b}" for it in (0, even, even ^ odd, odd)]
        for at in range(4, 42):
            source, turn = columns[at % 10], at % 7
            columns.append(source[turn:] + source[:turn])
        sent = "".join(columns[2:])[:26] + "".join(columns[10:])
        self.assertEqual(len(sent), 320)
        text = f"sent 1 1 {int(sent, 2):080x}{int(sent, 2):080x}\n"
        self.check("send", [Row("twice", text, blocks="000001", schedule=six("1,0,640,1,1,-"))])

    def test_two_code_blocks(self) -> None:
        """Of each of two code blocks the 1,536 bits after the two punctured columns of 208: octets 52 to 243. CRC24B
        ends them both, and CRC24A stands before it in the second one (5.1)."""
        block = counted(479)
        text = f"sent 1 1 {block[104:482]}638c87{block[586:]}0db8742077fa\n"
        files = {"table": both_graphs(), "settings": QUARTER_RATE, "blocks": block}
        self.check("send", [Row("octets", text, schedule=six("1,0,3072,1,1,-"), **files)])
