"""What brings each fault of each call of the package: lines for tb_calls."""

from __future__ import annotations

import re

import clib

# The transmissions that are refused, in the order of the faults: the fault, and the lines that bring it.
TXS = """\
Rv: tx 4 24 3 1
Order: tx 0 24 3 5
Layers: tx 0 0 1 0
Layers: tx 0 24 1 5
Total: tx 0 0 1 1
Total: tx 0 4194305 1 1
Ragged: tx 0 23 2 1
NoneScheduled: tx 0 24 1 1; some 0
"""

# The faults of each call but those of a transmission and Memory. A number in braces is so many octets 00.
FAULTS = """\
table_close Handle: exchange; table_close; exchange
golden_free Handle: exchange_golden; golden_free; exchange_golden
golden_send Handle: exchange_golden; golden_send 2048 0 01; exchange_golden
golden_send Handle: exchange; golden_send 2048 0 01; exchange
golden_send Hex: golden_send 2048 0 0
golden_send Hex: golden_send 2048 0 0g
golden_send RateRange: golden_send 0 0 01
golden_send Uneven: golden_send 512 0 {955}
golden_send Graph: golden_send 2048 0 {479}
golden_send NoBuffer: golden_send 512 1 {479}
golden_plan Handle: exchange_golden; golden_plan; exchange_golden
golden_block Handle: exchange_golden; golden_block 0; exchange_golden
golden_block Beat: golden_block 1
golden_place Handle: exchange_golden; golden_place 0; exchange_golden
golden_place Beat: golden_place 24
golden_count Handle: exchange_golden; golden_count 6 0; exchange_golden
golden_count Beat: golden_count 7 0
golden_count Beat: golden_count 2 1
golden_beat Handle: exchange_golden; golden_beat 6 0 0 32 0; exchange_golden
golden_beat Width: golden_beat 6 0 0 0 0
golden_beat Width: golden_beat 6 0 0 513 0
golden_beat Beat: golden_beat 6 0 1 32 0
golden_beat Beat: golden_beat 6 0 4294967295 512 0
golden_judge Handle: exchange_golden; golden_judge 6 0 0 32 0 0 0; exchange_golden
golden_judge Width: golden_judge 6 0 0 513 0 0 0
golden_judge Beat: golden_judge 3 1 0 32 0 0 0
golden_judge Differs: golden_judge 6 0 0 32 0 0 0
golden_judge_sides Handle: exchange_golden; golden_judge_sides 6 0 0 32 0 7 1; exchange_golden
golden_judge_sides Width: golden_judge_sides 6 0 0 0 0 7 1
golden_judge_sides Beat: golden_judge_sides 9 0 0 32 0 7 1
golden_judge_sides Differs: golden_judge_sides 6 0 0 32 0 3 1
receiver_new Handle: exchange; receiver_new 2048 0 8; exchange
receiver_new Size: receiver_new 2048 0 7
receiver_new RateRange: receiver_new 0 0 8
receiver_new Uneven: receiver_new 512 0 7640
receiver_new Graph: receiver_new 2048 0 3832
receiver_new NoBuffer: receiver_new 512 1 3832
receiver_free Handle: exchange_receiver; receiver_free; exchange_receiver
receiver_hear Handle: exchange_receiver; receiver_hear 0 32 0 0 0; exchange_receiver
receiver_hear Width: receiver_hear 0 0 0 0 0
receiver_hear Beat: receiver_hear 131072 32 0 0 0
receiver_take Handle: exchange_receiver; receiver_take; exchange_receiver
receiver_take Length: receiver_hear 0 25 0 0 0; receiver_take
receiver_left Handle: exchange_receiver; receiver_left 0; exchange_receiver
receiver_left Beat: receiver_left 1
"""

# The calls with a transmission each.
SENDING = """\
golden_send 2048 0 01
receiver_take
"""

# The calls that take memory, answered once none is refused.
GROWING = """\
golden_send 2048 0 01
golden_new
receiver_new 2048 0 8
receiver_hear 0 24 0 000000 0
receiver_take
"""


def lines_of(text: str) -> list[str]:
    """The lines of a text, some of which stand in one."""
    whole = re.sub(r"\{(\d+)\}", lambda count: "00" * int(count[1]), text)
    return [line.strip() for line in whole.split(";")]


def causes() -> list[tuple[str, str, list[str]]]:
    """A call, its fault, and the lines that bring it."""
    found: list[tuple[str, str, list[str]]] = []
    for line in FAULTS.splitlines():
        head, _, some = line.partition(":")
        call, status = head.split()
        found.append((call, status, lines_of(some)))
    for call_line in SENDING.splitlines():
        for line in TXS.splitlines():
            status, _, some = line.partition(":")
            found.append((call_line.split()[0], status, [*lines_of(some), call_line]))
    return found


def begins() -> list[str]:
    """A table, a golden transmission of one code block, and a receiver; and a transmission of 24 bits for what follows."""
    return [
        f"table_open {clib.PRACTICE}", "tx 0 24 1 1", "golden_new", "golden_send 2048 0 01", "receiver_new 2048 0 8",
    ]
