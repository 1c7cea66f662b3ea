#!/usr/bin/env python3
"""A beginning for an encoder that is to be judged: reads a case a line as JSON, answers a line of JSON each.

    tools/conform run suite.jsonl -- python3 examples/conform/template.py

It answers the first step alone, the block with its CRC. Put your encoder's steps into `answer`; what it leaves out is
counted as not answered.
"""

from __future__ import annotations

import json
import sys
import typing


def bits_of(packed: dict[str, typing.Any]) -> list[int]:
    """The bits of {"count": 24, "hex": "011021"}: the first bit of each digit is the highest."""
    digits = packed["hex"]
    return [int(bit) for bit in f"{int(digits, 16):0{4 * len(digits)}b}"[: packed["count"]]]


def with_crc(bits: list[int]) -> list[int]:
    """The transport block with its CRC (TS 38.212, 6.2.1 and 5.1)."""
    length, polynomial = (24, 0x864CFB) if len(bits) > 3824 else (16, 0x1021)
    rest = 0
    for bit in bits:
        rest ^= bit << (length - 1)
        rest = rest << 1 ^ (polynomial | 1 << length if rest >> (length - 1) else 0)
    return bits + [rest >> place & 1 for place in range(length - 1, -1, -1)]


def answer(case: dict[str, typing.Any]) -> dict[str, str]:
    """What the encoder makes of a case. `case` has rate2048, lbrm, transmission (rv, g, qm, nl, mask) and a."""
    b = with_crc(bits_of(case["a"]))
    # More names, each as you have it: plan, bits, d, Ncb, k0, E, e, f, sent. A list of bits is written as a text of 0
    # and 1, and of `d` with - for a filler. Each of `bits`, `d`, `E`, `e` and `f` is a list with an item for each code
    # block.
    return {"attached": "".join(map(str, b))}


def main() -> None:
    for line in sys.stdin:
        case = json.loads(line)
        print(json.dumps({"id": case["id"], **answer(case)}), flush=True)


main()
