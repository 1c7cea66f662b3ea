"""Schedules: what is read of them, as the text of `send` or `run` shows, and the first fault."""

from __future__ import annotations

import typing

from programs import Program, Row
from texts import HEADERS, QUARTER_RATE, eight, lines, seven, six, ten

TWO_BLOCKS = "01\n80\n"
SENT = "sent 1 1 000a51\n"
RECORD = "1,0,24,4,1,-"

ACCEPTED = [
    Row("blanks around fields", SENT, schedule=six(" 1 ,0\t,24,\t4,1 , - ")),
    Row("blank lines and CRLF", SENT, schedule=six(RECORD).replace("\n", "\r\n\r\n\n")),
    Row("zeros in front, ten digits", SENT, schedule=six("0000000001,0000000000,0000000024,0000000004,0000000001,-")),
    Row("fields in quotes", SENT, schedule='"block",rv,g,qm,nl," erase "\n1,"0",24,4,"1","-"\n'),
    Row("a byte order mark", SENT, schedule="\ufeff" + six(RECORD)),
    Row("no LF after the last record", SENT, schedule=six(RECORD)[:-1]),
    Row(
        "the largest numbers",
        lines("refused 1 1 Rv", "refused 2 1 Order", "refused 3 1 Layers", "refused 4 1 Total"),
        schedule=six("1,4294967295,1,1,1,-", "1,0,1,4294967295,1,-", "1,0,1,1,4294967295,-", "1,0,4294967295,1,1,-"),
    ),
    Row(
        "two transmissions of eight columns",
        lines("sent 1 2 918809", "refused 2 1 Order"),
        blocks=TWO_BLOCKS,
        schedule=eight(" 2 ,0,24,1,1,-,-,all\n", "1,3,4294967295,0,9,pcg:42:7,1 3-5,65 2"),
    ),
    *[Row(f"{columns} columns and no record", schedule=header + "\n") for columns, header in HEADERS.items()],
    *[Row(f"{columns} columns without LF", schedule=header) for columns, header in HEADERS.items()],
]

# Of these 479 octets the first code block has zeros, and the second one ones.
MASKS = [
    Row(
        f"code blocks {mask}",
        text,
        settings=QUARTER_RATE,
        blocks="00" * 241 + "ff" * 238,
        schedule=eight(f"1,0,8,4,1,-,-,{mask}"),
    )
    for mask, text in [
        ("all", "sent 1 1 0f\n"),
        ("0 1", "sent 1 1 0f\n"),
        ("0-343", "sent 1 1 0f\n"),
        ("0", "sent 1 1 00\n"),
        ("1 1", "sent 1 1 ff\n"),
        ("1-9999999999", "sent 1 1 ff\n"),
        ("2-9999999999", "refused 1 1 NoneScheduled\n"),
    ]
]

HEADER_FAULTS = [
    "", "\n\n", RECORD, "Block,rv,g,qm,nl,erase\n", "block,rv,g,qm,nl\n", "block,rv,g,qm,nl,erase,x\n",
    "block,g,rv,qm,nl,erase\n", "block,rv,g,qm,nl,flip,erase\n", f"{HEADERS[6]},mask\n",
    f"{HEADERS[6]},process,fresh\n", f"{HEADERS[7]},process,fresh\n", f"{HEADERS[8]},process\n",
    "block,rv,g,qm,nl,erase,mask,flip,process,fresh\n", f"{HEADERS[8]},fresh,process\n", f"{HEADERS[10]},x\n",
]


def refused(
    schedule: typing.Callable[..., typing.Any], faults: list[tuple[str, str]], blocks: str = "01\n"
) -> list[Row]:
    """A row for each fault with its records, joined by semicolons."""
    return [
        Row(f"{fault}: {records}", refused=f"schedule {fault}", blocks=blocks, schedule=schedule(*records.split(";")))
        for fault, records in faults
    ]


REFUSED = [
    *(Row(f"{header!r}", refused="schedule Header", schedule=header) for header in HEADER_FAULTS),
    *refused(
        six,
        [
            ("Csv 2", "1,0,64"),
            ("Csv 2", "1,0,64,1,1,-,-"),
            ("Csv 3", f"{RECORD};1"),
            ("Number 2", "9,0,1,1,x,-"),
            ("Number 2", "1,0,1,1,,-"),
            ("Number 2", "1,-1,1,1,1,-"),
            ("Number 2", "1,0,00000000001,1,1,-"),
            ("Number 3", "1,0,1,1,1,-;1,4294967296,1,1,1,x"),
            ("Number 4", f"{RECORD};{RECORD};1,0,24,9999999999,1,-"),
            ("Block 2", "0,0,1,1,1,x"),
            ("Block 2", "2,0,1,1,1,-"),
            ("Block 5", f"{RECORD};{RECORD};{RECORD};4294967295,0,1,1,1,-"),
            ("Erase 2", "1,0,1,1,1,33-"),
            ("Erase 2", "1,0,320,1,1,33-"),
            ("Erase 2", "1,0,1,1,1,5-3"),
            ("Erase 2", "1,0,1,1,1,1  2"),
            ("Erase 2", "1,0,1,1,1,"),
            ("Erase 2", "1,0,1,1,1,1-2-3"),
            ("Erase 2", "1,0,1,1,1,-1"),
            ("Erase 2", "1,0,1,1,1,00000000001"),
            ("Erase 2", "1,0,1,1,1,All"),
            ("Erase 2", "1,0,1,1,1,pcg:42"),
            ("Erase 2", "1,0,1,1,1,pcg:42:"),
            ("Erase 2", "1,0,1,1,1,pcg:42:7:1"),
            ("Erase 2", "1,0,1,1,1,pcg:42:4294967296"),
            ("Erase 2", "1,0,1,1,1,pcg:42:00000000007"),
            ("Erase 2", "1,0,1,1,1,pcg:18446744073709551616:0"),
            ("Erase 2", "1,0,1,1,1,pcg:99999999999999999999:0"),
            ("Erase 2", "1,0,1,1,1,pcg:000000000000000000042:0"),
        ],
    ),
    *refused(
        seven,
        [("Flip 2", "1,0,1,1,1,-,pcg:1:1"), ("Flip 2", "1,0,1,1,1,-,"), ("Erase 2", "1,0,1,1,1,x,x")],
    ),
    *refused(
        eight,
        [
            ("Mask 2", "1,0,1,1,1,-,-,-"),
            ("Mask 6", ";".join(["1,0,1,1,1,-,-,all"] * 4 + ["1,0,1,1,1,-,-,x"])),
            ("Mask 2", "1,0,1,1,1,-,-,"),
            ("Mask 2", "1,0,1,1,1,-,-,pcg:1:1"),
            ("Flip 2", "1,0,1,1,1,-,x,x"),
        ],
    ),
    *refused(six, [("Block 3", "2,0,1,1,1,-;3,0,1,1,1,x")], TWO_BLOCKS),
]

# A record's faults go from the left to the right, and those of a record before those of the next one.
REFUSED_PROCESSES = refused(
    ten,
    [
        ("Csv 2", "1,0,24,1,1,-,-,all,0"),
        ("Mask 2", "1,0,24,1,1,-,-,-,16,2"),
        ("Process 2", "1,0,24,1,1,-,-,all,16,2"),
        ("Process 2", "1,0,24,1,1,-,-,all,16,1"),
        ("Process 7", ";".join(["1,0,24,1,1,-,-,all,0,1"] * 5 + ["1,0,24,1,1,-,-,all,16,1"])),
        ("Fresh 8", ";".join(["1,0,24,1,1,-,-,all,0,1"] * 6 + ["1,0,24,1,1,-,-,all,1,0"])),
        ("Process 2", "1,0,24,1,1,-,-,all,,1"),
        ("Process 2", "1,0,24,1,1,-,-,all,x,1"),
        ("Process 2", "1,0,24,1,1,-,-,all,-1,1"),
        ("Process 2", "1,0,24,1,1,-,-,all,00000000015,1"),
        ("Process 2", "1,0,24,1,1,-,-,all,4294967296,1"),
        ("Fresh 2", "1,0,24,1,1,-,-,all,0,2;1,0"),
        ("Fresh 2", "1,0,24,1,1,-,-,all,0,"),
        ("Fresh 2", "1,0,24,1,1,-,-,all,0,01"),
        # A record that is not fresh needs a fresh one of its process before it, and the last of these is of its block.
        ("Fresh 2", "1,0,24,1,1,-,-,all,0,0"),
        ("Fresh 3", "1,0,24,1,1,-,-,all,3,1;1,0,24,1,1,-,-,all,2,0"),
        ("Fresh 3", "1,0,24,1,1,-,-,all,0,1;2,0,24,1,1,-,-,all,0,0"),
        ("Fresh 4", "1,0,24,1,1,-,-,all,3,1;2,0,24,1,1,-,-,all,3,1;1,0,24,1,1,-,-,all,3,0"),
    ],
    TWO_BLOCKS,
)

# The processes are 0, 15, 0, 0 and 0; the second transmission and the fourth begin a round of block 2.
FORMS_OF_PROCESSES = Row(
    "zeros in front and blanks around",
    lines(
        "process 0 order 1 0 164",
        "process 0 order 2 0 160",
        "process 15 order 2 0 160",
    ),
    blocks=TWO_BLOCKS,
    schedule=ten(
        "1,0,24,1,1,-,-,all,0,1",
        "2,0,32,1,1,-,-,all,0000000015,1",
        "1,0,28,1,1,-,-,all, 0 , 0 ",
        "2,0,24,1,1,-,-,all,0,\t1 ",
        "2,0,32,1,1,-,-,all,00,0",
    ),
)

SMALL, FLIPPED = "1,0,1,1,1,-\n", "1,0,1,1,1,-,-\n"
SIZES = [
    Row("4,096 transmissions", "".join(f"sent {t} 1 0\n" for t in range(1, 4097)), schedule=six() + SMALL * 4096),
    Row("4,097 transmissions", refused="schedule TooMany", schedule=six() + SMALL * 4097),
    Row("seven fields after 4,096", refused="schedule Csv 4098", schedule=six() + SMALL * 4096 + "1,0,1,1,1,-,-"),
    Row("a fault of record 4,097", refused="schedule Flip 4097", schedule=seven() + FLIPPED * 4095 + "1,0,1,1,1,-,x\n"),
]


class Schedules(Program):
    """Against the rows above."""

    def test_rows(self) -> None:
        self.check("send", ACCEPTED + MASKS + SIZES)
        self.check("audit", [FORMS_OF_PROCESSES])

    def test_refused(self) -> None:
        self.check("send run audit", REFUSED + REFUSED_PROCESSES)
