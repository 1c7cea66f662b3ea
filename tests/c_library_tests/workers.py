"""Worker processes that take a Table and a Tx and answer what they say, for each way in which multiprocessing starts them."""

from __future__ import annotations

import multiprocessing
import sys
import typing

import nr

RATE = 2048
SECONDS = 300


def round_trip(table: nr.Table, tx: nr.Tx, block: bytes) -> typing.Any:
    """What a worker receives of what it sends."""
    return nr.receive(table, 8 * len(block), [(tx, nr.send(table, block, tx, rate2048=RATE))], rate2048=RATE)


def refused(table: nr.Table, tx: nr.Tx) -> typing.Any:
    """A worker's refusal."""
    return nr.send(table, b"", tx, rate2048=RATE)


def bad_table(text: bytes) -> typing.Any:
    """A worker's refusal with a place."""
    return nr.Table(text)


def fault_of(answer: typing.Any) -> typing.Any:
    """The fault that a worker raised."""
    try:
        answer.get(SECONDS)
    except nr.Fault as fault:
        return fault
    raise AssertionError("no fault")


def main() -> None:
    text = open(sys.argv[1], "rb").read()
    table, tx = nr.Table(text), nr.Tx(g=300, qm=2, blocks=iter([0]))
    blocks = [bytes([number] * 9) for number in range(20)]
    for way in sys.argv[2:]:
        with multiprocessing.get_context(way).Pool(2) as pool:
            answers = pool.starmap_async(round_trip, [(table, tx, block) for block in blocks]).get(SECONDS)
            assert [answer.block for answer in answers] == blocks and answers[0].outcome is nr.Outcome.DELIVERED
            fault = fault_of(pool.apply_async(refused, (table, tx)))
            assert (fault.status, fault.name) == (40, "Size"), fault
            fault = fault_of(pool.apply_async(bad_table, (text + text,)))
            assert (fault.name, fault.place) == ("Twice", 106), fault
        print(f"{way}: {len(answers)} delivered")


if __name__ == "__main__":
    main()
