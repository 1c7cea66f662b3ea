"""What `run` and `audit` write. The values are worked by hand. Under the practice table the codeword of block 01 has 52 columns
of four positions, of which columns 6 to 9 are fillers. Column 10 + i is a rotation of column i mod 10."""

from __future__ import annotations

import typing

from model import chain
from programs import Program, Row, row
from test_send import REFUSED_TRANSMISSIONS
from texts import ALL_BUT_FILLERS, ALL_OF_ZEROS, FULL_RATE, PRACTICE, QUARTER_RATE, ending, lines, six, total
from worked_texts import ALL_OF_01, WITHOUT_COLUMN_1, stuck

ZERO_BLOCK = "000000"
ONE_BIT = "rate2048 = 2048\nlbrm = 1\n"

# 24 bits of block 01 leave column 1, which 4 bits more give: they are column 12.
DELIVERED = [
    row(
        "nothing is heard, and then all", ["1,0,320,1,1,all", "1,0,320,1,1,-"], f"sent 1 1 {ALL_OF_ZEROS}",
        "left 1 1 0 40", f"sent 2 1 {ALL_OF_ZEROS}", "left 2 1 0 0", *ending("delivered", 2, ZERO_BLOCK),
        blocks=ZERO_BLOCK,
    ),
    row(
        "four bits more give the last column", ["1,0,24,1,1,-", "1,0,28,1,1,0-23"], "sent 1 1 102103", "left 1 1 0 4",
        "sent 2 1 1021033", "left 2 1 0 0", *ending("delivered", 2),
    ),
    *[
        row(
            f"the whole buffer is heard, and {erase} is erased", [f"1,0,184,1,1,{erase}"], f"sent 1 1 {ALL_OF_01}",
            "left 1 1 0 0", *ending("delivered"),
        )
        for erase in ["-", "pcg:7:0"]
    ],
]

# Column 0 is never sent, and the columns that would fix it are erased; then place 96, of column 20, fixes a bit of it.
COLUMN_0 = "1,0,320,1,1,33-46 96-102 166-172 236-242 306-312"
OPEN = [
    row(
        "a punctured column whose rows are erased, and then one bit of it", [COLUMN_0, "1,0,320,1,1,0-95 97-319"],
        f"sent 1 1 {ALL_OF_ZEROS}", "left 1 1 0 7", f"sent 2 1 {ALL_OF_ZEROS}", "left 2 1 0 6", *ending("open", 2),
        blocks=ZERO_BLOCK,
    ),
    row("24 bits leave column 1", ["1,0,24,1,1,-"], "sent 1 1 102103", "left 1 1 0 4", *ending("open")),
    row(
        "of six places, of which 1 and 3 are drawn and erased, four are heard", ["1,0,6,1,1,pcg:42:2500000000"],
        "sent 1 1 10", "left 1 1 0 20", *ending("open"),
    ),
    row(
        "a buffer of one bit, which is of column 2", ["1,0,4,1,1,-"], "sent 1 1 0", "left 1 1 0 23", *ending("open"),
        settings=ONE_BIT,
    ),
    Row("no transmission", lines(*ending("open", 0))),
    row(
        "transmissions that are refused alone", ["1,4,24,1,1,-", "1,0,30,4,1,-"], "refused 1 1 Rv",
        "refused 2 1 Ragged", *ending("open", 0),
    ),
]

SEVERAL_BLOCKS = [
    row(
        "a refused transmission between two", ["1,0,24,1,1,-", "1,4,24,1,1,-", "1,0,28,1,1,0-23"], "sent 1 1 102103",
        "left 1 1 0 4", "refused 2 1 Rv", "sent 3 1 1021033", "left 3 1 0 0", "block 1 delivered tx 2 failed 0 of 1 01",
        "block 2 open tx 0 failed 1 of 1", total(2, delivered=1, still_open=1, codeblocks=2, failed=1), blocks="01\n00",
    ),
    row(
        "each block has its own receiver", ["2,0,32,1,1,-"], "sent 1 2 91880909", "left 1 2 0 0",
        "block 1 open tx 0 failed 1 of 1", "block 2 delivered tx 1 failed 0 of 1 80",
        total(2, delivered=1, still_open=1, codeblocks=2, failed=1), blocks="01\n80",
    ),
]

# The ones of the codeword of block 01 that are sent: if they are flipped, block 00 explains what is heard.
ONES_OF_01 = "3 10 15 22-23 26-27 34 38 60 67 72 76 102 105 114 118 140 147 152 156 182"
FLIPPED = [
    row(
        "one flipped parity bit, which no block explains", ["1,0,320,1,1,-,110"], f"sent 1 1 {ALL_OF_ZEROS}",
        "left 1 1 0 0", *ending("contradiction"), blocks=ZERO_BLOCK,
    ),
    row(
        "a position heard with both bits, while others are left", ["1,0,1,1,1,-,-", "1,0,1,1,1,-,0"], "sent 1 1 0",
        "left 1 1 0 39", "sent 2 1 0", "left 2 1 0 39", *ending("open", 2), blocks=ZERO_BLOCK,
    ),
    row(
        "another block explains what is heard", [f"1,0,184,1,1,-,{ONES_OF_01}"], f"sent 1 1 {ALL_OF_01}",
        "left 1 1 0 0", *ending("delivered", block="00"),
    ),
    row(
        "an erased place is not heard, flipped or not", ["1,0,184,1,1,all,all"], f"sent 1 1 {ALL_OF_01}",
        "left 1 1 0 24", *ending("open"),
    ),
]

# 479 octets at a quarter are two code blocks with K' 1952. Four bits are of the second one.
TWO_CODE_BLOCKS = [
    row(
        "four bits of the second code block, all erased", ["1,0,4,4,1,all"], "sent 1 1 0", "left 1 1 0 1952",
        "left 1 1 1 1952", *ending("open", code_blocks=2), settings=QUARTER_RATE, blocks="00" * 479,
    ),
    row(
        "the second code block alone is scheduled, and then none", ["1,0,4,4,1,-,-,1", "1,0,4,4,1,-,-,2"], "sent 1 1 0",
        "left 1 1 0 1952", "left 1 1 1 1948", "refused 2 1 NoneScheduled", *ending("open", code_blocks=2),
        settings=QUARTER_RATE, blocks="00" * 479,
    ),
]

# The transmissions that `send` refuses are none for the receiver, and the last one is.
ALL_REFUSALS = Row(
    "the six causes", str(REFUSED_TRANSMISSIONS.output) + lines("left 13 1 0 0", *ending("delivered")),
    schedule=REFUSED_TRANSMISSIONS.schedule,
)


class Run(Program):
    """Against the rows above."""

    def test_rows(self) -> None:
        self.check("run", [*DELIVERED, *OPEN, *SEVERAL_BLOCKS, *FLIPPED, *TWO_CODE_BLOCKS, ALL_REFUSALS])


ROWS = [
    Row("the whole buffer leaves the two punctured columns", "order 1 0 8\n", schedule=six("1,0,184,1,1,-")),
    Row("24 bits leave column 1 and what hangs on it", lines(stuck(WITHOUT_COLUMN_1)), schedule=six("1,0,24,1,1,-")),
    # 52 columns but 4 of fillers and 7 that were heard.
    Row("28 bits give column 12, and so all", "order 1 0 164\n", schedule=six("1,0,24,1,1,-", "1,0,28,1,1,0-23")),
    Row("no transmission", lines(stuck(ALL_BUT_FILLERS))),
    Row("a transmission that is refused", lines(stuck(ALL_BUT_FILLERS)), schedule=six("1,4,24,1,1,-")),
    # 32 bits are heard: 52 columns but 4 of fillers and 8.
    Row("the six causes of refusal, and a transmission", "order 1 0 160\n", schedule=REFUSED_TRANSMISSIONS.schedule),
]

# The first words of the generator for the seed 42, as its authors give them.
WORDS = [0xA15C02B7, 0x7B47F409, 0xBA1D3330, 0x83D2F293, 0xBFA4784B, 0xCBED606E]

# Erasures of six places, and the places that they erase. The first word alone is not below itself.
ERASURES = [
    ("pcg:42:2500000000", [1, 3]),
    *((f"pcg:42:{word + more}", [m for m in range(6) if WORDS[m] < word + more]) for word in WORDS for more in (0, 1)),
    ("pcg:7:0", []),
    ("pcg:18446744073709551615:0", []),
    ("pcg:042:0000000000", []),
    ("-", []),
    ("all", range(6)),
    ("3", [3]),
    ("0-2 0", [0, 1, 2]),
    ("1-2 0-1", [0, 1, 2]),
    ("2-9999999999 4-5", [2, 3, 4, 5]),
    ("0000000005 6 9999999999", [5]),
    ("4-4 1", [1, 4]),
    (" 3 ", [3]),
]


class Audit(Program):
    """Against the rows above."""

    def test_rows(self) -> None:
        self.check("audit", ROWS)

    def test_erasures(self) -> None:
        """All positions that six places leave open say which of them are erased."""
        rows = []
        for erase, erased in ERASURES:
            tx = chain.Tx(1, 0, 6, erased=frozenset(typing.cast(typing.Iterable[int], erased)))
            text = chain.texts(PRACTICE, (2048, None), [b"\1"], [tx])["audit"]
            rows.append(Row(erase, text, settings=FULL_RATE, schedule=six(f"1,0,6,1,1,{erase}")))
        self.check("audit", rows)
