"""Every status of every call through DPI by its cause, with all results as they were; and the shim under valgrind."""

from __future__ import annotations

import typing

import clib
from model import coding, encoder
import shared
import simulators
from causes import GROWING, begins, causes

PRACTICE = clib.PRACTICE.read_bytes()
BLOCK = b"123456789"


def digits_of(bits: typing.Iterable[int]) -> str:
    """Bits as digits."""
    return "".join(map(str, bits))


class Calls(clib.InFolder):
    """Each over the simulation of tb_calls."""

    def said(self, *lines: str) -> list[tuple[str, str, str, list[str]]]:
        """Of each line that is a call: its name, its status, `kept` or `changed`, and what it answers."""
        path = self.file("calls.txt", "".join(line + "\n" for line in lines))
        found = []
        for line in simulators.run("calls", f"+calls={path}").splitlines():
            name, status, kept, *rest = line.split(" ")
            found.append((name, status, kept, rest))
        return found

    def test_each_status(self) -> None:
        """Each fault by its cause, and no result is written."""
        cases = causes()
        lines = begins()
        for _, _, some in cases:
            lines += [*some, "tx 0 24 1 1"]
        found = self.said(*lines)
        self.assertEqual([it[1] for it in found[:4]], ["Ok"] * 4)
        for call, status, some in cases:
            at = next(place for place, it in enumerate(found) if place > 3 and it[1] != "Ok")
            with self.subTest(call=call, lines=some):
                name, said, kept, _ = found[at]
                self.assertEqual((name, said, kept), (call, status, "kept"))
            found = found[:4] + found[at + 1 :]

    def test_tables(self) -> None:
        """A file that is no table, by each of its faults."""
        lines = PRACTICE.decode().splitlines(keepends=True)
        one = "2,0,0" + ",0" * 8 + "\n"
        texts = {
            "Csv": one + "1,2\n", "Fields": "1,2\n", "Number": "x" + one[1:], "Range": "3" + one[1:], "Twice": one + one,
            "Core": one,
            "Extension": PRACTICE.decode() + "2,4,15" + ",0" * 8 + "\n", "Empty": "", "TooLong": "\n" * 4_194_305,
            "MissingRow": "".join(line for line in lines if line.split(",")[1] != "41"),
        }
        paths = [(name, self.file(name, text)) for name, text in texts.items()]
        paths += [("Read", self.folder / "none"), ("Read", self.folder)]
        found = self.said(*(f"table_open {path}" for _, path in paths))
        self.assertEqual([(status, kept) for _, status, kept, _ in found], [(name, "kept") for name, _ in paths])

    def test_memory(self) -> None:
        """Each growth of memory refused in turn is Memory, with all results as they were; and then the call is answered."""
        for line in GROWING.splitlines():
            tries = [it for number in range(1, 120) for it in (f"refuse {number}", line)]
            found = [it for it in self.said(*begins(), *tries)[4:] if it[0] == line.split()[0]]
            with self.subTest(line):
                states = [status for _, status, _, _ in found]
                refused = states.index("Ok")
                self.assertGreater(refused, 0)
                self.assertEqual(set(states[:refused]), {"Memory"})
                self.assertEqual({kept for _, _, kept, _ in found[:refused]}, {"kept"})
        found = self.said(*(it for number in range(1, 400) for it in (f"refuse {number}", f"table_open {clib.PRACTICE}")))
        states = [status for _, status, _, _ in found]
        self.assertEqual(set(states[: states.index("Ok")]), {"Memory"})

    def test_several_code_blocks(self) -> None:
        """The golden transmission of three code blocks, one of which is not sent, and what its judge says of the second one."""
        table = shared.table_text({2: shared.drawn_entries(2)})
        block = bytes(it * it % 241 for it in range(957))
        numbers = coding.plan(8 * len(block), 512)
        self.assertEqual(numbers["c"], 3)
        sent = coding.sent(table.encode(), block, clib.tx(1204, rv=1, qm=4, blocks=[0, 2]), 512)
        path = self.file("table.csv", table)
        beats = [f"golden_beat 6 0 {at} 301 0" for at in range(4)]
        found = self.said(
            f"table_open {path}", "tx 1 1204 4 1", "some 5", "golden_new", f"golden_send 512 0 {block.hex()}", *beats,
            "golden_block 0", "golden_block 1", "golden_block 2", "golden_count 4 1", "golden_judge 6 0 19 32 0 0 0",
            "golden_judge 6 0 18 32 0 0 0",
        )
        bits = [int(digit) for it in found[3:7] for digit in f"{int(it[3][0], 16):0301b}"[::-1]]
        self.assertEqual(bytes(bits), sent)
        self.assertEqual([it[3][2] for it in found[7:10]], ["600", "0", "604"])
        self.assertEqual(found[10][3], ["0"])
        for (_, status, _, rest), first in zip(found[11:], (608, 576)):
            wrong = first + sent[first : first + 32].index(1)
            r = 0 if wrong < 600 else 2
            self.assertEqual(status, "Differs")
            said = f"sent of code block r = {r}: bit {wrong} is 0, right is 1 (beat {first // 32}, tdata[{wrong - first}])"
            self.assertEqual(" ".join(rest), said)

    def test_places(self) -> None:
        """Of 40 places in QPSK of the block 01 (K' = 24, 2 Zc = 8): d_0 to d_15, then d_32 on behind the filler bits, by columns."""
        lines = [f"golden_place {m}" for m in range(40)]
        found = self.said(f"table_open {clib.PRACTICE}", "tx 0 40 2 1", "golden_new", "golden_send 2048 0 01", *lines)
        live = [*range(16), *range(32, 56)]
        self.assertEqual([it[3] for it in found[3:]], [["0", str(live[m // 2 + m % 2 * 20])] for m in range(40)])

    def test_the_first_bit_of_the_block_is_highest(self) -> None:
        """`a` and `attached` in octets are the block's, with its CRC."""
        attached = encoder.octets_of(encoder.attached(encoder.bits_of(BLOCK)))
        lines = [f"golden_beat 1 0 {at} 8 1" for at in range(len(attached))]
        found = self.said(
            f"table_open {clib.PRACTICE}", "tx 0 24 1 1", "golden_new", f"golden_send 2048 0 {BLOCK.hex()}", *lines
        )
        self.assertEqual(bytes(int(it[3][0], 16) for it in found[3:]), attached)

    def test_receiver(self) -> None:
        """Two transmissions, of which neither is enough: what is left after each, and the block. A refused one is not heard, and
        an erased beat past G says nothing."""
        block = b"\1"
        first = coding.sent(PRACTICE, block, clib.tx(24), 2048)
        second = coding.sent(PRACTICE, block, clib.tx(40, rv=2), 2048)
        one, two, three = (int(digits_of(bits[::-1]), 2) for bits in (first, second[:32], second[32:]))
        found = self.said(
            *begins(), "receiver_left 0", f"receiver_hear 0 24 0 {one:x} fff000", "receiver_take", "receiver_left 0",
            "receiver_beat 0 8 1", f"receiver_hear 0 32 0 {two:x} 0", f"receiver_hear 1 32 0 {three:x} ffffff00",
            "receiver_hear 2 32 0 0 ffffffff", "tx 2 39 2 1", "receiver_take", "tx 2 40 1 1", "receiver_take", "receiver_left 0",
            "receiver_beat 0 8 1",
        )[4:]
        states = [(name, status) for name, status, _, _ in found if status != "Ok"]
        self.assertEqual(states, [("receiver_beat", "Beat"), ("receiver_take", "Ragged")])
        told = [rest for name, status, _, rest in found if status == "Ok" and rest]
        # Twelve bits of 24 are heard, and then the whole buffer.
        self.assertEqual(told, [["24"], ["0"], ["12"], ["1"], ["0"], ["1", "8"]])

    def test_valgrind(self) -> None:
        """No call reads or writes what it may not, and none keeps memory."""
        tool = clib.needs("valgrind")
        clib.needs("verilator")
        lines = begins()
        for _, _, some in causes():
            lines += [*some, "tx 0 24 1 1"]
        lines += ["golden_free", "receiver_free", "table_close"]
        path = self.file("calls.txt", "".join(line + "\n" for line in lines))
        words = [tool, "--quiet", "--error-exitcode=9", "--leak-check=full", "--errors-for-leak-kinds=definite"]
        said = simulators.done([*words, simulators.begin("calls").result(), f"+calls={path}"])
        self.assertNotIn("==", said)
