"""What `run` says of places that are heard again, and of transmissions after a delivery or a contradiction. The values
are worked by hand. The sent bits of the block 000000 are zeros, and it has 320 of them, of K' 40 and Zc 7."""

from __future__ import annotations

from programs import Program, Row
from texts import ending, lines, seven

# The same places in one transmission and in two. One place told as a zero and as a one, in either order, contradicts,
# and so does a one among zeros.
REPEATED = [
    ("zeros twice", ["1,0,640,1,1,-,-"], ["1,0,320,1,1,-,-", "1,0,320,1,1,-,-"], "delivered"),
    ("zeros the second time alone", ["1,0,640,1,1,0-319,-"], ["1,0,320,1,1,all,-", "1,0,320,1,1,-,-"], "delivered"),
    ("a zero and then a one", ["1,0,640,1,1,-,330"], ["1,0,320,1,1,-,-", "1,0,320,1,1,-,10"], "contradiction"),
    ("a one and then a zero", ["1,0,640,1,1,-,10"], ["1,0,320,1,1,-,10", "1,0,320,1,1,-,-"], "contradiction"),
    ("a one, the second time", ["1,0,640,1,1,0-319,330"], ["1,0,320,1,1,all,-", "1,0,320,1,1,-,10"], "contradiction"),
]

# The first 26 places are what is sent of columns 2 to 5, and each 7 more are a parity column. Columns 20 and 21, places
# 96 to 109, are columns 0 and 1 turned, and so the first 110 places fix all. What comes after is heard for the first
# time. Zeros agree with the codeword of zeros, a one at place 110 does not, and no zeros make it good. The outcome is
# that after each record and those before it.
TURNS = [
    ("1,0,24,1,1,-,-", "open"),
    ("1,0,110,1,1,0-23,-", "delivered"),
    ("1,0,120,1,1,0-110,-", "delivered"),
    ("1,0,110,1,1,-,-", "delivered"),
    ("1,0,111,1,1,0-109,110", "contradiction"),
    ("1,0,110,1,1,-,-", "contradiction"),
    ("1,0,130,1,1,0-110,-", "contradiction"),
]


def zeros(records: list[str], left: list[int], outcome: str) -> str:
    """The text of transmissions of the block of zeros, with what each of them leaves."""
    text = []
    for t, (record, count) in enumerate(zip(records, left), 1):
        digits = -(-int(record.split(",")[2]) // 4)
        text += [f"sent {t} 1 {'0' * digits}", f"left {t} 1 0 {count}"]
    return lines(*text, *ending(outcome, len(records), "000000"))


class Receptions(Program):
    """Against the rows above."""

    def test_places_heard_again(self) -> None:
        rows = []
        for name, once, twice, outcome in REPEATED:
            first = 40 if ",all," in twice[0] else 0
            rows.append(Row(f"{name}, in one", zeros(once, [0], outcome), blocks="000000", schedule=seven(*once)))
            text = zeros(twice, [first, 0], outcome)
            rows.append(Row(f"{name}, in two", text, blocks="000000", schedule=seven(*twice)))
        self.check("run", rows)

    def test_a_contradiction_stays(self) -> None:
        """24 places leave columns 0 and 1 and two bits of column 5: each row of these has another unknown column."""
        rows = []
        for count in range(1, len(TURNS) + 1):
            records, outcome = [record for record, _ in TURNS[:count]], TURNS[count - 1][1]
            text = zeros(records, [16] + [0] * (count - 1), outcome)
            rows.append(Row(f"{count} records", text, blocks="000000", schedule=seven(*records)))
        self.check("run", rows)

    def test_zeros_behind_a_delivery(self) -> None:
        """Block 01 is delivered, and then 24 zeros are heard in place of its bits."""
        text = lines(
            *("sent 1 1 102103", "left 1 1 0 4", "sent 2 1 1021033", "left 2 1 0 0", "sent 3 1 102103", "left 3 1 0 0"),
            *ending("contradiction", 3),
        )
        schedule = seven("1,0,24,1,1,-,-", "1,0,28,1,1,0-23,-", "1,0,24,1,1,-,3 10 15 22-23")
        self.check("run", [Row("24 flipped places", text, schedule=schedule)])
