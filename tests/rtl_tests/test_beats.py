"""The package nr_dpi_pkg in both simulators. Beats of every width give the bits again: by DPI, by VPI, in Python's module and in
the tools. The judges say what is wrong of wrong beats, of X and Z, and of handles."""

from __future__ import annotations

import random
import re
import unittest

import clib
from linksim_tools.common.program import Wrong
from linksim_tools.rtl.beats import Bus, FIRSTS, memory
from model import coding, encoder
import simulators

BLOCK = b"123456789"


def stages() -> dict[int, list[int]]:
    """The bits of each stage of the transmission of tb_beats, by another model of the clauses; 0 for a filler."""
    numbers = coding.plan(72, 2048)
    bits = coding.code_blocks(BLOCK, numbers)[0]
    d = coding.coded(coding.tables(clib.PRACTICE.read_bytes())[2], numbers, bits)
    f = list(coding.sent(clib.PRACTICE.read_bytes(), BLOCK, clib.tx(300, rv=2, qm=2), 2048))
    e = encoder.selected(d, 375, 750, 300)
    return {0: bits[:72], 1: bits, 2: bits, 3: [it or 0 for it in d], 4: e, 5: f, 6: f}


class Simulated(unittest.TestCase):
    """tb_beats, in both simulators."""

    def judge(self, name: str) -> None:
        said = simulators.run(name, f"+table={clib.PRACTICE}")
        found = {}
        for stage, count, digits in re.findall(r"(?m)^bits (\d) (\d+) ([0-9a-f]+)$", said):
            found[int(stage)] = [int(digit) for digit in f"{int(digits, 16):01024b}"[::-1][: int(count)]]
        self.assertEqual(found, stages())
        self.assertEqual(said.splitlines()[-1], "tb_beats: 0 wrong, 0 faults")

    def test_dpi(self) -> None:
        self.judge("beats")

    def test_vpi(self) -> None:
        self.judge("beats-icarus")


class Python(unittest.TestCase):
    """nr.beats, its inverse, and the tools' bus, of which each is written by itself."""

    def test_every_width(self) -> None:
        nr, draw = clib.module(), random.Random(1)
        for width in range(1, 513):
            bits = bytes(draw.randrange(2) for _ in range(draw.choice((1, width, 2 * width + 1, 1000))))
            text = "".join(map(str, bits))
            for first in FIRSTS:
                with self.subTest(width=width, first=first):
                    beats = nr.beats(bits, width, first)
                    self.assertEqual(nr.bits_of_beats(beats, width, first, len(bits)), bits)
                    self.assertEqual(nr.bits_of_beats(beats, width, first)[len(bits) :], bytes(-len(bits) % width))
                    self.assertEqual(Bus(width, first).words(text), beats)
                    self.assertEqual(Bus(width, first).lines("mem", text), memory(beats, width))

    def test_by_hand(self) -> None:
        nr = clib.module()
        self.assertEqual(nr.beats([1, 0, 0, 0, 1, 1, 0, 1, 1, 1], 4), [0b0001, 0b1011, 0b0011])
        self.assertEqual(nr.beats([1, 0, 0, 0, 1, 1, 0, 1, 1, 1], 4, "msb"), [0b1000, 0b1101, 0b1100])
        self.assertEqual(nr.beats([1, nr.FILLER, 1], 8), [0b101])
        self.assertEqual(nr.beats(b"", 8), [])
        self.assertEqual(Bus(20).axis("1" * 25), [7 << 20 | 0xFFFFF, 1 << 23 | 1 << 20 | 31])
        self.assertEqual(Bus(20, "msb").axis("1" * 25), [7 << 20 | 0xFFFFF, 1 << 23 | 6 << 20 | 31 << 15])
        self.assertEqual((Bus(4).words("1-0-1"), Bus(4).cares("1-0-1")), ([1, 1], [0b0101, 1]))
        self.assertEqual(Bus(13).lines("mem", "1" * 14), ["1fff", "0001"])

    def test_refused(self) -> None:
        nr = clib.module()
        for width in (0, 513):
            self.assertRaises(ValueError, nr.beats, b"\1", width)
            self.assertRaises(ValueError, nr.bits_of_beats, [1], width)
            self.assertRaises(Wrong, Bus, width)
        self.assertRaises(ValueError, nr.beats, b"\1", 8, "big")
        self.assertRaises(ValueError, nr.bits_of_beats, [256], 8)
        self.assertRaises(TypeError, nr.bits_of_beats, [1.5], 8)
        self.assertEqual(clib.fault_of(nr.beats, [0, 3], 8).name, "Bit")
        self.assertEqual(clib.fault_of(nr.bits_of_beats, [1], 8, count=9).name, "Length")


# What tb_judge writes, its errors without where they stand.
WANTED = """\
ERROR: nr_table_open is refused: Read (20)
no table: wrong, 1 faults
table: holds, 1 faults
golden: holds, 1 faults
ERROR: nr_golden_judge is refused: Beat (1004)
nothing sent: wrong, 2 faults
sent: holds, 2 faults
ERROR: nr_golden_send is refused: Hex (1002)
digits: wrong, 3 faults
ERROR: nr_golden_send is refused: Ragged (54)
ragged: wrong, 4 faults
receiver: holds, 4 faults
right: holds, 4 faults
ERROR: sent of code block r = 0: bit 3 is {not_third}, right is {third} (beat 0, tdata[3])
bit 3: wrong, 5 faults
past the width: holds, 5 faults
ERROR: sent of code block r = 0: tkeep[3] of beat 0 is 0, right is 1
tkeep: wrong, 6 faults
ERROR: sent of code block r = 0: tlast of beat 0 is 1, right is 0
tlast: wrong, 7 faults
no sides: holds, 7 faults
ERROR: sent of code block r = 0: beat 10 is one too many, there are 300 bits
one too many: wrong, 8 faults
ERROR: nr_golden_judge is refused: Width (1003)
no width: wrong, 9 faults
ERROR: nr_golden_judge is refused: Beat (1004)
no code block: wrong, 10 faults
"""
# In four states.
UNKNOWN = """\
ERROR: sent of code block r = 0: bit 5 is X or Z, right is {fifth} (beat 0, tdata[5])
X: wrong, 11 faults
ERROR: sent of code block r = 0: bit 31 is X or Z, right is {last} (beat 0, tdata[31])
Z: wrong, 12 faults
X past the width: holds, 12 faults
ERROR: tkeep or tlast of beat 0 is X or Z
X of tkeep: wrong, 13 faults
ERROR: tkeep or tlast of beat 0 is X or Z
X of tlast: wrong, 14 faults
ERROR: beat 0 that is heard has X or Z
X that is heard: holds, 15 faults
ERROR: tkeep or tlast of stage 6 is X or Z
X of a scoreboard's tkeep: wrong, 16 faults
"""
HEARD = "heard: holds, {faults} faults\n" * 9 + """\
taken: holds, {faults} faults
left: holds, {faults} faults
outcome 1 left 0
a block: holds, {faults} faults
ERROR: a: bit 68 is 0, right is 1 (beat 8, tdata[3])
another block: wrong, {one} faults
closed: holds, {one} faults
ERROR: nr_table_close is refused: Handle (1001)
closed twice: wrong, {two} faults
ERROR: nr_table_close is refused: Handle (1001)
a golden transmission that is a table: wrong, {three} faults
freed: holds, {three} faults
freed too: holds, {three} faults
"""


class Judge(unittest.TestCase):
    """The lines of tb_judge."""

    maxDiff = None

    def judge(self, name: str, wanted: str, faults: int) -> None:
        nr = clib.module()
        table = nr.Table(clib.PRACTICE.read_bytes())
        sent = nr.send(table, b"123456789", nr.Tx(g=300, qm=2), rate2048=2048)
        told = (wanted + HEARD).format(
            third=sent[3], not_third=1 - sent[3], fifth=sent[5], last=sent[31], faults=faults, one=faults + 1, two=faults + 2,
            three=faults + 3,
        )
        lines = []
        for line in simulators.run(name, f"+table={clib.PRACTICE}").splitlines():
            # Verilator: `[0] %Error: FILE:LINE: Assertion failed in SCOPE: TEXT`; Icarus: `ERROR: FILE:LINE: TEXT`.
            if "%Error" in line or line.startswith("ERROR"):
                lines.append("ERROR: " + re.sub(r"^.*?\.sv:\d+: (Assertion failed in \S+: )?", "", line))
            elif not line.startswith(" "):
                lines.append(line)
        self.assertEqual("".join(line + "\n" for line in lines), told)

    def test_dpi(self) -> None:
        self.judge("judge", WANTED, 10)

    def test_vpi(self) -> None:
        self.judge("judge-icarus", WANTED + UNKNOWN, 16)

    def test_vpi_under_valgrind(self) -> None:
        """No call by VPI reads or writes what it may not."""
        tool = clib.needs("valgrind")
        clib.needs("iverilog")
        words = [tool, "--quiet", "--error-exitcode=9", "vvp", "-M", simulators.FOLDER, "-mnr"]
        given = [simulators.begin("judge-icarus").result(), f"+table={clib.PRACTICE}"]
        said = simulators.done([*words, *given], simulators.FOLDER)
        self.assertNotRegex(said, r"(?m)^==\d+==")
