"""What is read of blocks files and of settings files, and the order of faults. The first faulty file in the order table, settings,
blocks, schedule is answered, and then the first block that cannot be sent. Nothing is written. Of files that were cut short each
beginning has its own answer."""

from __future__ import annotations

import re
import typing

from model import chain
from programs import Program, Row, all_ran, done, refused
from texts import FULL_RATE, HEADERS, LEAST, PRACTICE, QUARTER_RATE, lines, six, ten
from worked_texts import CUT_01, CUT_TWO

# (the CRC16 of octets af3c is by long division)
BLOCKS_ACCEPTED = [
    Row(repr(text), CUT_TWO, blocks=text)
    for text in ["01\naF3c", "01\naF3c\n", "01\r\nAf3C\r\n", "01\r\naf3c\r", "01\nAF3C\r\n"]
]

BLOCKS_REFUSED = [
    Row(repr(text), refused=f"blocks {fault}", blocks=typing.cast(typing.Any, text))
    for fault, text in [
        ("Empty", ""),
        ("Blank 1", "\n"),
        ("Blank 1", "\r\n"),
        ("Blank 1", "\r"),
        ("Blank 2", "01\n\n"),
        ("Digit 1", "0g"),
        ("Digit 1", "0g0"),
        ("Digit 1", "01\r\r\n"),
        ("Digit 1", "01 \n"),
        ("Digit 1", " 01\n"),
        ("Digit 1", "\ufeff01\n"),
        ("Digit 1", b"0\0\n"),
        ("Digit 1", "01\r02\n"),
        ("Digit 2", "01\n0x\n\n"),
        ("Odd 1", "012"),
        ("Odd 1", "012\n\n"),
        ("Odd 2", "01\n2"),
        ("Odd 30", "01\n" * 29 + "2\n0g\n"),
    ]
]


def numbered(count: int) -> str:
    """What `cut` writes of so many blocks 01."""
    number = re.compile("^(block|attached|code) 1", re.MULTILINE)
    return "".join(number.sub(rf"\1 {n}", CUT_01) for n in range(1, count + 1))


SIZES = [
    Row("256 blocks", numbered(256), blocks="01\n" * 256),
    Row("a blank line 257", refused="blocks TooMany", blocks="01\n" * 256 + "\n"),
    Row("a block 257", refused="blocks TooMany", blocks="01\n" * 257),
    Row("a fault of line 256", refused="blocks Digit 256", blocks="01\n" * 255 + "0g\n\n"),
    # 1,310,720 bits are a line, and no size that 156 code blocks can share.
    Row("327,680 digits", refused="block 1 Uneven", blocks="f" * 327_680),
    Row("327,681 digits", refused="blocks Odd 1", blocks="f" * 327_681),
    Row("327,682 digits", refused="blocks LongLine 1", blocks="f" * 327_682),
    Row("327,682 digits in line 256", refused="blocks LongLine 256", blocks="01\n" * 255 + "f" * 327_682),
]


class Blocks(Program):
    """Against the rows above."""

    def test_accepted(self) -> None:
        self.check("cut", BLOCKS_ACCEPTED)

    def test_refused(self) -> None:
        self.check("cut send run audit", BLOCKS_REFUSED)

    def test_sizes(self) -> None:
        self.check("cut", SIZES)


# 37 octets take base graph 1 above the rate 1372, which the practice table has not.
LONGER = "00" * 37
# 36 octets have 1904 bits to send at every rate; with so many places a limited buffer is read again and again.
BLOCK = bytes(range(1, 37))
PLACES = chain.Tx(1, 0, 1904)


def sent(lbrm: int | None) -> str:
    """What `send` writes of these octets with this limit of the buffer."""
    text: str = chain.texts(PRACTICE, (2048, lbrm), [BLOCK], [PLACES])["send"]
    return text


def limited(name: str, settings: str, lbrm: int | None) -> Row:
    """A row whose bits show the limit of the buffer."""
    return Row(name, sent(lbrm), settings=settings, blocks=BLOCK.hex(), schedule=six("1,0,1904,1,1,-"))


SETTINGS_ACCEPTED = [
    Row("a rate of 1 takes base graph 2", settings="rate2048 = 1", blocks=LONGER),
    Row("1372 takes base graph 2", settings="rate2048 = 1372", blocks=LONGER),
    Row("1373 takes base graph 1", refused="block 1 Graph", settings="rate2048 = 1373", blocks=LONGER),
    Row("the highest rate takes base graph 1", refused="block 1 Graph", settings="rate2048 = 2048", blocks=LONGER),
    Row("half of it, in hexadecimal and with a comment", settings="rate2048 = 0x400 # half", blocks=LONGER),
    Row("lbrm 0 leaves no buffer", refused="block 1 NoBuffer", settings="rate2048 = 2048\nlbrm = 0\n"),
    limited("lbrm 1 leaves one bit", "rate2048 = 2048\nlbrm = 1\n", 1),
    limited("lbrm 300 leaves 450 bits", "lbrm = 300\nrate2048 = 2048\n", 300),
    limited("the highest lbrm leaves all", "lbrm = 4_294_967_295\nrate2048 = 0x400 # half", 4_294_967_295),
    limited("no lbrm leaves all", "rate2048 = 2048", None),
    limited("CRLF and blank lines", "\r\nrate2048=2048\r\n\r\nlbrm\t=\t9", 9),
    # The longest file: a comment after the two keys.
    limited("65,536 octets", ("rate2048 = 2048\nlbrm = 9\n#".ljust(65_535, "x") + "\n"), 9),
]

SETTINGS_REFUSED = [
    Row(name, refused=f"settings {fault}", settings=typing.cast(typing.Any, settings))
    for name, fault, settings in [
        ("nothing", "Missing", ""),
        ("lbrm alone", "Missing", "lbrm = -1"),
        ("no value", "Toml", "rate2048 ="),
        ("a key that stands twice", "Toml", "rate2048 = 1\nrate2048 = 1"),
        ("an integer past 64 bits", "Toml", "rate2048 = 9223372036854775808"),
        ("octets that are not UTF-8", "Toml", b"rate2048 = 1 # \xff"),
        ("another key alone", "Unknown", "q = 1"),
        ("another key after a rate", "Unknown", "rate2048 = 1\nq = 1"),
        ("another key before a rate out of range", "Unknown", "q = 1\nrate2048 = 0"),
        ("a table", "Unknown", "rate2048 = 1\n[q]"),
        ("a text", "Kind", 'rate2048 = "x"'),
        ("a dotted key", "Kind", "rate2048.x = 1"),
        ("0", "Range", "rate2048 = 0"),
        ("-1", "Range", "rate2048 = -1"),
        ("2049 comes before a limit that is none", "Range", 'rate2048 = 2049\nlbrm = "x"'),
        ("a limit with a fraction", "Kind", "rate2048 = 1\nlbrm = 1.0"),
        ("a limit past 32 bits", "Range", "rate2048 = 1\nlbrm = 4294967296"),
        ("a limit below 0", "Range", "rate2048 = 1\nlbrm = -1"),
        ("65,537 octets", "TooLong", "rate2048 = 2048\n#".ljust(65_536, "x") + "\n"),
        ("65,537 octets of no TOML", "TooLong", "=" * 65_537),
        # Nested 80 deep it is TOML with another key, and 81 deep it is none.
        ("80 deep", "Unknown", f"q = {'[' * 80}{']' * 80}"),
        ("81 deep", "Toml", f"q = {'[' * 81}{']' * 81}"),
    ]
]


class Settings(Program):
    """Against the rows above."""

    def test_accepted(self) -> None:
        self.check("send", SETTINGS_ACCEPTED)

    def test_refused(self) -> None:
        self.check("send run audit", SETTINGS_REFUSED)


RECORD = six("1,0,24,4,1,-")

NO_BUFFER, NO_BUFFER_LOW = FULL_RATE + "lbrm = 0\n", QUARTER_RATE + "lbrm = 0\n"

# A small table has no base graph 2, which block 01 takes.
IN_ORDER = [
    Row("a table first", refused="table Empty", table="", settings="", blocks="0g", schedule=""),
    Row("settings first", refused="settings Missing", table=LEAST, settings="", blocks="0g", schedule=""),
    Row("blocks after them", refused="blocks Digit 1", table=LEAST, blocks="0g", schedule=""),
    Row("the schedule after these", refused="schedule Header", table=LEAST, schedule=""),
    Row("a block after all files", refused="block 1 Graph", table=LEAST, schedule=RECORD),
    Row(
        "a later record after a fault of the link",
        refused="schedule Fresh 2",
        table=LEAST,
        schedule=ten("1,0,24,1,1,-,-,all,0,0"),
    ),
]

# Under the practice table, which has no base graph 1: 37 octets take it at the highest code rate. A limit of 0 leaves
# no bit of the circular buffer, and one of 1 none of two code blocks (5.4.2.1). The schedules have no transmission.
UNSENT = [
    Row("37 octets without base graph 1", refused="block 1 Graph", blocks="00" * 37),
    Row("the second block is of 37 octets", refused="block 2 Graph", blocks="01\n" + "00" * 37),
    Row("a limit of nothing", refused="block 1 NoBuffer", settings=NO_BUFFER),
    Row("three octets with a limit of nothing", refused="block 1 NoBuffer", settings=NO_BUFFER, blocks="000000"),
    Row("37 octets with a limit of nothing", refused="block 1 Graph", settings=NO_BUFFER, blocks="00" * 37),
    Row("955 octets with a limit of nothing", refused="block 1 Uneven", settings=NO_BUFFER_LOW, blocks="00" * 955),
    Row(
        "a limit of nothing for the second of two blocks",
        refused="block 2 NoBuffer",
        settings=QUARTER_RATE + "lbrm = 1\n",
        blocks="01\n" + "00" * 479,
    ),
    Row("955 octets", refused="block 1 Uneven", settings=QUARTER_RATE, blocks="00" * 955),
    Row(
        "955 octets as the last of 256 blocks",
        refused="block 256 Uneven",
        settings=QUARTER_RATE,
        blocks="01\n" * 255 + "00" * 955,
    ),
    Row("the first of two", refused="block 1 Uneven", settings=QUARTER_RATE, blocks="00" * 955 + "\n" + "00" * 956),
]


class InOrder(Program):
    """Against the rows above."""

    def test_files(self) -> None:
        self.check("send run audit", IN_ORDER)

    def test_blocks(self) -> None:
        self.check("send run audit", UNSENT)


def fault_of_beginning(records: int, commas: int, digits: int) -> str | None:
    """Why a beginning of the practice table is refused, or None if it is not. The beginning is so many whole records,
    and a line of so many commas, with so many digits after the last of them."""
    if 0 < commas < 10 or commas == 0 and digits:
        return f"Csv {records + 1}" if records else "Fields"
    if commas == 10 and not digits:
        return f"Number {records + 1}"
    whole = records + (commas == 10)
    if whole == 105:
        return None
    if whole <= 28:
        return "Core 2" if whole else "Empty"
    # If the last row has one record, it lacks its own column.
    return "MissingRow 2" if whole % 2 else "Extension 2"


def settings_of_beginning(octets: int) -> typing.Any:
    """What a settings file says that has so many of its first octets: the rate and the limit, or the fault."""
    if octets == 0:
        return "Missing"
    if octets <= 11 or 17 <= octets <= 23:
        return "Toml"
    rates = {12: 2, 13: 20, 14: 204}
    return rates.get(octets, 2048), {24: 3, 25: 30}.get(octets, None if octets < 24 else 300)


# By the number of columns a schedule's records. Then for each number of octets how many transmissions the beginnings of fewer
# octets have, or their fault. A cut place list is another one, but if a range loses its end, or has one before its start.
SCHEDULES = {
    6: (
        ["1,0,24,4,1,pcg:42:70", "1,0,24,4,1,3-12 20"],
        "22 Header; 24 0; 34 Csv 2; 42 Erase 2; 45 1; 55 Csv 3; 56 Erase 3; 57 2; 59 Erase 3; 64 2",
    ),
    7: (
        ["1,0,24,4,1,-,3-12"],
        "22 Header; 23 0; 27 Header; 29 0; 41 Csv 2; 42 Flip 2; 43 1; 45 Flip 2; 47 1",
    ),
    8: (
        ["1,0,24,4,1,-,110,all"],
        "22 Header; 23 0; 27 Header; 28 0; 32 Header; 34 0; 50 Csv 2; 53 Mask 2; 55 1",
    ),
    10: (
        ["1,0,24,4,1,-,-,all,15,1"],
        "22 Header; 23 0; 27 Header; 28 0; 32 Header; 33 0; 46 Header; 48 0; 69 Csv 2; 70 Fresh 2; 72 1",
    ),
}


class Beginnings(Program):
    """Of each file, octet by octet."""

    def test_tables(self) -> None:
        records = commas = digits = 0
        self.assertEqual(len(PRACTICE), 2677)
        words = ["check", "--table", "-"]
        endings = all_ran([(words, PRACTICE[:octets], {}) for octets in range(len(PRACTICE) + 1)])
        for octets, ended in enumerate(endings):
            fault = fault_of_beginning(records, commas, digits)
            wanted = refused(f"table {fault}") if fault else done("graph 2 entries 105\n")
            self.is_ended(ended, wanted, f"the first {octets} octets")
            octet = PRACTICE[octets : octets + 1]
            if octet == "\n":
                records, commas, digits = records + 1, 0, 0
            elif octet == ",":
                commas, digits = commas + 1, 0
            else:
                digits += 1
        self.assertEqual(records, 105)

    def test_settings(self) -> None:
        """The bits of a limited buffer say the limit. The rate chooses the base graph of a longer block alone: another
        test reads it."""
        text, rows = FULL_RATE + "lbrm = 300\n", []
        for octets in range(len(text) + 1):
            said = settings_of_beginning(octets)
            name, fault = f"the first {octets} octets", f"settings {said}"
            output = "" if isinstance(said, str) else chain.texts(PRACTICE, said, [BLOCK], [PLACES])["send"]
            refusal = fault if isinstance(said, str) else ""
            rows.append(
                Row(name, output, refusal, settings=text[:octets], blocks=BLOCK.hex(), schedule=six("1,0,1904,1,1,-"))
            )
        self.check("send", rows)

    def test_schedules(self) -> None:
        rows = []
        for columns, (records, answers) in SCHEDULES.items():
            text = lines(HEADERS[columns], *records)
            parts = [part.partition(" ") for part in answers.split("; ")]
            self.assertEqual(parts[-1][0], str(len(text) + 1))
            for octets in range(len(text) + 1):
                answer = next(answer for end, _, answer in parts if octets < int(end))
                refusal = "" if answer.isdigit() else f"schedule {answer}"
                output = "" if refusal else lines(*(f"sent {t} 1 000a51" for t in range(1, int(answer) + 1)))
                rows.append(Row(f"{columns} columns, the first {octets} octets", output, refusal, schedule=text[:octets]))
        self.check("send", rows)
