#!/usr/bin/env python3
"""A beginning for a receiver that is to be judged: reads a transmission a line as JSON, answers a line of JSON each.

    tools/conform receiver run suite.jsonl -- python3 examples/receiver/template.py

Put your receiver into `Receiver`. As it stands it hands up nothing.
"""

from __future__ import annotations

import json
import sys
import typing


class Receiver:
    """All that a receiver keeps: one is made for each case."""

    def __init__(self) -> None:
        self.processes: dict[int, typing.Any] = {}

    def receive(self, it: dict[str, typing.Any]) -> dict[str, typing.Any]:
        """Takes a transmission, and decides on its block. `it` has process, fresh, a (how many bits the block has),
        rate2048, lbrm (or None), rv, g, qm and nl. It also has mask ("all", or a digit a code block) and llr, a list of
        g values."""
        # Answer the block in hexadecimal digits if it is delivered. More names, each as you have it, are "passed",
        # "info" and "soft". "passed" is a text of a digit a code block. "info" and "soft" are lists with a text a code
        # block. For "info" it is the information bits as 0, 1 and ?. For "soft" it is the signs of the N values of the
        # soft buffer d as +, - and 0.
        return {"delivered": None}


def main() -> None:
    receiver = Receiver()
    for line in sys.stdin:
        it = json.loads(line)
        if "reset" in it:
            receiver = Receiver()
        else:
            print(json.dumps({"id": it["id"], "tx": it["tx"], **receiver.receive(it)}), flush=True)


main()
