"""What `run` and `audit` write of schedules that name HARQ processes. The values are worked by hand. Of blocks 01 and
80, 24 bits leave column 1, which the last four of 28 bits give. With 32 bits nothing is left."""

from __future__ import annotations

import typing

from programs import Program, Row
from texts import ALL_BUT_FILLERS, lines, ten
from worked_texts import ALL_OF_01, WITHOUT_COLUMN_1, stuck

BLOCKS = "01\n80\n"


def row(name: str, records: list[str], *output: str) -> Row:
    """A row over blocks 01 and 80."""
    return Row(name, lines(*output), blocks=BLOCKS, schedule=ten(*records))


def total(rounds: int, delivered: int = 0, still_open: int = 0, contradiction: int = 0, failed: int = 0) -> str:
    """The last line of rounds of one code block each."""
    counts = f"delivered {delivered} open {still_open} contradiction {contradiction}"
    return f"total rounds {rounds} {counts} codeblocks {rounds} failed {failed}"


# Process 0 completes block 1, and then begins with block 2. Process 1 lacks four bits of block 2.
TWO_PROCESSES = [
    "1,0,24,1,1,-,-,all,0,1", "2,0,24,1,1,-,-,all,1,1", "1,0,28,1,1,0-23,-,all,0,0", "2,0,32,1,1,-,-,all,0,1",
]
SENT_IN_TWO = [
    "sent 1 1 102103", "left 1 1 0 4",
    "sent 2 2 918809", "left 2 2 0 4",
    "sent 3 1 1021033", "left 3 1 0 0",
    "process 0 block 1 delivered tx 2 failed 0 of 1 01",
    "sent 4 2 91880909", "left 4 2 0 0",
]

PROCESSES = [
    row(
        "two processes", TWO_PROCESSES, *SENT_IN_TWO, "process 0 block 2 delivered tx 1 failed 0 of 1 80",
        "process 1 block 2 open tx 1 failed 1 of 1", total(3, delivered=2, still_open=1, failed=1),
    ),
    row(
        "process 1 then hears the four bits", [*TWO_PROCESSES, "2,0,28,1,1,0-23,-,all,1,0"], *SENT_IN_TWO,
        "sent 5 2 9188090", "left 5 2 0 0", "process 0 block 2 delivered tx 1 failed 0 of 1 80",
        "process 1 block 2 delivered tx 2 failed 0 of 1 80", total(3, delivered=3),
    ),
    row(
        "one block in two processes at once",
        ["1,0,24,1,1,-,-,all,9,1", "1,0,28,1,1,0-23,-,all,4,1", "1,0,24,1,1,-,-,all,4,0"], "sent 1 1 102103",
        "left 1 1 0 4", "sent 2 1 1021033", "left 2 1 0 24", "sent 3 1 102103", "left 3 1 0 0",
        "process 4 block 1 delivered tx 2 failed 0 of 1 01", "process 9 block 1 open tx 1 failed 1 of 1",
        total(2, delivered=1, still_open=1, failed=1),
    ),
    row(
        "one block in two rounds of a process: the second has heard nothing of the first",
        ["1,0,24,1,1,-,-,all,5,1", "1,0,28,1,1,0-23,-,all,5,1"], "sent 1 1 102103", "left 1 1 0 4",
        "process 5 block 1 open tx 1 failed 1 of 1", "sent 2 1 1021033", "left 2 1 0 24",
        "process 5 block 1 open tx 1 failed 1 of 1", total(2, still_open=2, failed=2),
    ),
    # Two rounds of process 1 stand apart by three transmissions of process 2, of which the last one is refused.
    row(
        "a flipped bit, which the round after it has not heard",
        [
            "1,0,184,1,1,-,110,all,1,1", "2,0,24,1,1,-,-,all,2,1", "2,0,28,1,1,0-23,-,all,2,0",
            "2,4,28,1,1,0-23,-,all,2,0", "1,0,184,1,1,-,-,all,1,1",
        ],
        f"sent 1 1 {ALL_OF_01}", "left 1 1 0 0", "sent 2 2 918809", "left 2 2 0 4", "sent 3 2 9188090", "left 3 2 0 0",
        "refused 4 2 Rv", "process 1 block 1 contradiction tx 1 failed 0 of 1", f"sent 5 1 {ALL_OF_01}", "left 5 1 0 0",
        "process 1 block 1 delivered tx 1 failed 0 of 1 01", "process 2 block 2 delivered tx 2 failed 0 of 1 80",
        total(3, delivered=2, contradiction=1),
    ),
]

# Four rounds of one process, each of two transmissions of 28 bits. The link erases the last four bits of the one and
# all others of the other. Neither burst alone fixes all, and both do in either order.
FIRST_24, LAST_4 = "1,0,28,1,1,24-27,-,all,15", "1,0,28,1,1,0-23,-,all,15"
TWO_BURSTS = row(
    "two bursts of a round",
    [
        f"{FIRST_24},1", f"{FIRST_24},0", f"{LAST_4},1", f"{LAST_4},0",
        f"{FIRST_24},1", f"{LAST_4},0", f"{LAST_4},1", f"{FIRST_24},0",
    ],
    "sent 1 1 1021033", "left 1 1 0 4", "sent 2 1 1021033", "left 2 1 0 4",
    "process 15 block 1 open tx 2 failed 1 of 1",
    "sent 3 1 1021033", "left 3 1 0 24", "sent 4 1 1021033", "left 4 1 0 24",
    "process 15 block 1 open tx 2 failed 1 of 1",
    "sent 5 1 1021033", "left 5 1 0 4", "sent 6 1 1021033", "left 6 1 0 0",
    "process 15 block 1 delivered tx 2 failed 0 of 1 01",
    "sent 7 1 1021033", "left 7 1 0 24", "sent 8 1 1021033", "left 8 1 0 0",
    "process 15 block 1 delivered tx 2 failed 0 of 1 01",
    total(4, delivered=2, still_open=2, failed=2),
)

# A transmission that is refused begins a round too, and ends the one before it, whose line stands before its own.
REFUSED = [
    row(
        "a round of a refused transmission alone", ["1,4,24,1,1,-,-,all,3,1"], "refused 1 1 Rv",
        "process 3 block 1 open tx 0 failed 1 of 1", total(1, still_open=1, failed=1),
    ),
    row(
        "a round that a refused transmission begins", ["1,4,24,1,1,-,-,all,3,1", "1,0,32,1,1,-,-,all,3,0"],
        "refused 1 1 Rv", "sent 2 1 10210330", "left 2 1 0 0", "process 3 block 1 delivered tx 1 failed 0 of 1 01",
        total(1, delivered=1),
    ),
    row(
        "a round that a refused transmission ends", ["1,0,24,1,1,-,-,all,15,1", "2,4,24,1,1,-,-,all,15,1"],
        "sent 1 1 102103", "left 1 1 0 4", "process 15 block 1 open tx 1 failed 1 of 1", "refused 2 2 Rv",
        "process 15 block 2 open tx 0 failed 1 of 1", total(2, still_open=2, failed=2),
    ),
    row("no round", [], total(0)),
]

# Of 208 positions 16 are fillers, and 28 of block 1 were heard, and then 32 of block 2.
AUDITED = [
    row(
        "two processes", TWO_PROCESSES, "process 0 order 1 0 164", "process 0 order 2 0 160",
        stuck(WITHOUT_COLUMN_1, "process 1 stuck 2 0"),
    ),
    row(
        "the first round of a process before its second",
        ["2,0,32,1,1,-,-,all,15,1", "1,0,28,1,1,-,-,all,2,1", "2,4,32,1,1,-,-,all,2,1", "2,0,184,1,1,-,-,all,2,0"],
        "process 2 order 1 0 164", "process 2 order 2 0 8", "process 15 order 2 0 160",
    ),
    row("a round that has heard nothing", ["1,4,24,1,1,-,-,all,3,1"], stuck(ALL_BUT_FILLERS, "process 3 stuck 1 0")),
    row("no round", []),
]


def sixteen() -> Row:
    """Sixteen processes, each with a fresh transmission, the last process first: block 1 by those of even numbers."""
    records, sent = [], []
    ended: list[typing.Any] = []
    for process in range(15, -1, -1):
        n, bits, octet = (1, "10210330", "01") if process % 2 == 0 else (2, "91880909", "80")
        records.append(f"{n},0,32,1,1,-,-,all,{process},1")
        sent += [f"sent {len(records)} {n} {bits}", f"left {len(records)} {n} 0 0"]
        ended.insert(0, f"process {process} block {n} delivered tx 1 failed 0 of 1 {octet}")
    return row("sixteen processes", records, *sent, *ended, total(16, delivered=16))


class Rounds(Program):
    """Against the rows above."""

    def test_run(self) -> None:
        self.check("run", [*PROCESSES, TWO_BURSTS, *REFUSED, sixteen()])

    def test_audit(self) -> None:
        self.check("audit", AUDITED)
