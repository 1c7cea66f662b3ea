"""What `cut` writes of blocks files. The values are those of TS 38.212, worked by hand, or of the other model."""

from __future__ import annotations

import typing

from model import coding, encoder
from programs import Program, Row, done, folder, ran
from texts import lines
from worked_texts import CUT_01

NINE_OCTETS = "313233343536373839"
NINE_CUT = lines(
    "block 1 a 72 b 88 graph 2 c 1 l 0 kdash 88 kb 6 z 15 set 7 k 150 n 750",
    f"attached 1 {NINE_OCTETS}31c3",
    f"code 1 0 {NINE_OCTETS}31c3",
)


def numbers(n: int, a: int, rate2048: int) -> str:
    """The line of a block's numbers, by the other model."""
    plan = coding.plan(a, rate2048)
    names = ["b", "graph", "c", "l", "kdash", "kb", "z", "set", "k", "n"]
    return f"block {n} a {a} " + " ".join(f"{name} {plan[name]}" for name in names)


def cut_by_the_model(n: int, octets: bytes, rate2048: int) -> typing.Iterator[str]:
    """What `cut` writes of a block, by the other model."""
    bits = encoder.attached(encoder.bits_of(octets))
    parts = coding.code_blocks(octets, coding.plan(8 * len(octets), rate2048))
    yield numbers(n, 8 * len(octets), rate2048)
    yield f"attached {n} {encoder.octets_of(bits).hex()}"
    for r, part in enumerate(parts):
        yield f"code {n} {r} {encoder.octets_of(part).hex()[: (len(part) + 3) // 4]}"


def zeros_cut(octets: int, line: str) -> str:
    """What `cut` writes of a first block of zeros in one code block, whose CRC is zero, after this line."""
    return lines(line, f"attached 1 {'00' * (octets + 2)}", f"code 1 0 {'00' * (octets + 2)}")


ROWS = [
    Row("an octet with its CRC is 24 bits", CUT_01),
    Row("the last line needs no LF", CUT_01, blocks="01"),
    Row("a CR before the end of a line is no part of it", CUT_01, blocks="01\r\n"),
    Row(
        "each line is a block",
        lines(
            "block 1 a 24 b 40 graph 2 c 1 l 0 kdash 40 kb 6 z 7 set 3 k 70 n 350",
            "attached 1 0000000000",
            "code 1 0 0000000000",
            "block 2 a 72 b 88 graph 2 c 1 l 0 kdash 88 kb 6 z 15 set 7 k 150 n 750",
            "attached 2 31323334353637383931c3",
            "code 2 0 31323334353637383931c3",
        ),
        blocks=lines("000000", NINE_OCTETS),
    ),
    Row("the first block is of nine octets, whose CRC is that of the catalogues", NINE_CUT, blocks=lines(NINE_OCTETS)),
    Row("the nine octets without a LF", NINE_CUT, blocks=NINE_OCTETS),
    Row(
        "seventeen octets are written with their CRC",
        lines(*cut_by_the_model(1, bytes.fromhex("0123456789abcdeffedcba98765432105f"), 2048)),
        blocks="0123456789ABCDEFfedcba98765432105f",
    ),
]

# 292 bits are the most that base graph 2 takes at every rate. 0.67, which is 1372 in 2048ths, is the highest rate at
# which it takes 3824 (6.2.2).
GRAPHS = [
    Row(
        "288 bits take base graph 2 at the highest rate",
        zeros_cut(36, "block 1 a 288 b 304 graph 2 c 1 l 0 kdash 304 kb 8 z 40 set 2 k 400 n 2000"),
        blocks="00" * 36,
    ),
    Row(
        "296 bits take base graph 2 at 1372",
        zeros_cut(37, "block 1 a 296 b 312 graph 2 c 1 l 0 kdash 312 kb 8 z 40 set 2 k 400 n 2000"),
        blocks="00" * 37,
        rate="1372",
    ),
    Row(
        "296 bits take base graph 1 at 1373",
        zeros_cut(37, "block 1 a 296 b 312 graph 1 c 1 l 0 kdash 312 kb 22 z 15 set 7 k 330 n 990"),
        blocks="00" * 37,
        rate="1373",
    ),
]

# 38 octets and their CRC16, worked once by long division.
BLOCK_38 = "0102030405060708090a0b0c0d0e0f101112131415161718191a1b1c1d1e1f20212223242526"
RATES = [
    Row(
        f"304 bits at {rate}",
        lines(f"block 1 a 304 b 320 {plan}", f"attached 1 {BLOCK_38}6c78", f"code 1 0 {BLOCK_38}6c78"),
        blocks=BLOCK_38,
        rate=rate,
    )
    for rate, plan in [
        ("1372", "graph 2 c 1 l 0 kdash 320 kb 8 z 40 set 2 k 400 n 2000"),
        ("1373", "graph 1 c 1 l 0 kdash 320 kb 22 z 15 set 7 k 330 n 990"),
    ]
]

# B 7664 in 3 code blocks is B' 7736. The fault of block 2 stops block 1's lines too.
REFUSED = [
    Row("a block that its code blocks cannot share", refused="block 1 Uneven", blocks="00" * 955, rate="512"),
    Row("the second block of two", refused="block 2 Uneven", blocks="01\n" + "00" * 955, rate="512"),
    Row("a digit that is none, in a later line", refused="blocks Digit 2", blocks="01\n0g\n"),
]


class Cut(Program):
    """Against the rows above, and files that are longer than one read."""

    def test_rows(self) -> None:
        self.check("cut", ROWS + GRAPHS + RATES + REFUSED)

    def test_two_code_blocks(self) -> None:
        line = "block 1 a 3832 b 3856 graph 2 c 2 l 24 kdash 1952 kb 10 z 208 set 6 k 2080 n 10400"
        text = lines(line, f"attached 1 {'0' * 964}", f"code 1 0 {'0' * 488}", f"code 1 1 {'0' * 488}")
        self.check("cut", [Row("479 octets at a quarter", text, blocks="00" * 479, rate="512")])

    def test_the_largest_block(self) -> None:
        """163,836 octets: B is 1,310,712, in 156 code blocks of 8,426 bits, the most that base graph 1 has."""
        line = "block 1 a 1310688 b 1310712 graph 1 c 156 l 24 kdash 8426 kb 22 z 384 set 1 k 8448 n 25344"
        # (a code block of zeros ends by its CRC of zeros, and 8,426 bits are 2,107 digits)
        codes = [f"code 1 {r} {'0' * 2107}" for r in range(156)]
        row = Row("zeros", lines(line, f"attached 1 {'00' * 163_839}", *codes), blocks="00" * 163_836)
        self.check("cut", [row])

    def test_the_most_code_blocks(self) -> None:
        """The 344 code blocks of 163,827 octets at the rate 0.25, with a CRC each."""
        octets = (bytes(range(251)) * 653)[:163_827]
        wanted = lines(*cut_by_the_model(1, octets, 512))
        self.assertIn(" c 344 l 24 kdash 3834 ", wanted)
        self.check("cut", [Row("344 code blocks", wanted, blocks=octets.hex(), rate="512")])

    def test_a_file_of_many_reads(self) -> None:
        """All lines of a file of more than three times 65,536 octets: no line is the same as another one."""
        blocks = [bytes((7 * n + place * place) % 256 for place in range(478 - n // 2)) for n in range(256)]
        text = lines(*(it.hex() for it in blocks))
        self.assertGreater(len(text), 3 * 65_536)
        self.assertEqual(len(set(blocks)), len(blocks))
        wanted = lines(*(line for n, it in enumerate(blocks, 1) for line in cut_by_the_model(n, it, 1024)))
        (folder() / "long").write_text(text)
        for words, stdin in [(["--blocks", "long"], ""), (["--blocks", "-"], text)]:
            found = ran(["cut", "--rate", "1024", *words], stdin)
            self.assertEqual(found.output.splitlines()[-1:], wanted.encode().splitlines()[-1:])
            self.is_ended(found, done(wanted), "a long file")
