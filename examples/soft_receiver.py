#!/usr/bin/env python3
"""A soft receiver with HARQ: rate recovery by nr.places, layered normalised min-sum, and nr.join.

    tools/conform receiver run suite.jsonl -- python3 examples/soft_receiver.py table.csv
    python3 examples/soft_receiver.py --plot curves.svg

The first answers a suite, the second draws block error rates over AWGN and over erasures. docs/soft-receiver.md explains it."""

from __future__ import annotations

import argparse
import collections
import json
import sys
import typing

import numpy as np
import nr

Array = typing.Any  # of numpy
SCALE, ITERATIONS, STRONGEST = 0.75, 50, 1e4


def check_nodes(given: Array) -> Array:
    """What check rows return to each bit: the product of the other bits' signs and, scaled, the least of their strengths."""
    strength, sign = np.abs(given), np.where(given < 0, -1.0, 1.0)
    least, second = np.moveaxis(np.partition(strength, 1, axis=1)[:, :2, None], 1, 0)
    others = np.minimum(np.where(strength == least, second, least), STRONGEST)
    return SCALE * others * sign * sign.prod(axis=1, keepdims=True)


class Decoder:
    """Decodes code blocks of one size, many at once."""

    def __init__(self, table: nr.Table, plan: nr.Plan) -> None:
        self.plan, rows = plan, collections.defaultdict(list)
        for graph, row, column, *shifts in table.entries:
            # Check row t has bit t + V mod Zc of this column, with V the shift value (5.3.2).
            bits = column * plan.z + (np.arange(plan.z) + shifts[plan.set]) % plan.z
            if graph == plan.graph:
                rows[row].append(bits)
        self.rows = [np.array(bits) for bits in rows.values()]

    def decode(self, soft: Array) -> tuple[Array, Array]:
        """The K' bits of each row of N soft values of d, and whether all of them are known. Positive is 0."""
        plan = self.plan
        values = np.zeros((len(soft), plan.n + 2 * plan.z))  # (the first 2 Zc bits are never sent)
        values[:, 2 * plan.z :] = soft
        values[:, plan.kdash : plan.k] = STRONGEST  # filler bits are 0
        # From row 4 on, a row only helps if its last bit was received, which no other row has.
        rows = self.rows[:4] + [row for row in self.rows[4:] if values[:, row[-1]].any()]
        messages = [np.zeros((len(soft), *row.shape)) for row in rows]
        bits, good, left = np.zeros((len(soft), plan.kdash), np.uint8), np.zeros(len(soft), bool), np.arange(len(soft))
        for _ in range(ITERATIONS):
            met = np.ones(len(left), bool)
            for at, row in enumerate(rows):
                sums = values[:, row]
                met &= ~(np.logical_xor.reduce(sums < 0, axis=1) & (sums != 0).all(axis=1)).any(axis=1)
                rest = sums - messages[at]
                messages[at] = check_nodes(rest)
                values[:, row] = rest + messages[at]
            bits[left] = values[:, : plan.kdash] < 0
            good[left] = (values[:, : plan.kdash] != 0).all(axis=1)
            going = ~(met & good[left])
            if not going.any():
                break
            left, values, messages = left[going], values[going], [it[going] for it in messages]
        return bits, good


class Receiver:
    """HARQ processes, each with a soft buffer of C rows of N values."""

    def __init__(self, table: nr.Table) -> None:
        self.table = table
        self.buffers: dict[int, Array] = {}
        self.decoders: dict[nr.Plan, Decoder] = {}

    def receive(self, it: dict[str, typing.Any]) -> dict[str, typing.Any]:
        """Combines a transmission with those of its block before it, decodes the block, and answers."""
        a, rate2048, plan = it["a"], it["rate2048"], nr.plan(it["a"], rate2048=it["rate2048"])
        some = None if it["mask"] == "all" else [r for r, sent in enumerate(it["mask"]) if sent == "1"]
        tx = nr.Tx(it["g"], rv=it["rv"], qm=it["qm"], nl=it["nl"], blocks=some)
        if it["fresh"] or it["process"] not in self.buffers:
            self.buffers[it["process"]] = np.zeros((plan.c, plan.n))
        soft = self.buffers[it["process"]]
        np.add.at(soft.reshape(-1), nr.places(a, tx, rate2048=rate2048, lbrm=it["lbrm"]), np.array(it["llr"], float))
        if plan not in self.decoders:
            self.decoders[plan] = Decoder(self.table, plan)
        bits, good = self.decoders[plan].decode(soft)
        joined = nr.join(bits, a, rate2048=rate2048)
        passed = good & joined.passed
        delivered = joined.block.hex() if passed.all() and joined.block_passed else None
        return {"id": it["id"], "tx": it["tx"], "delivered": delivered, "passed": "".join(map(str, passed.astype(int)))}


def awgn(table: nr.Table, decoder: Decoder, a: int, txs: list[nr.Tx], decibels: float, blocks: int) -> list[float]:
    """The block error rate after each of some transmissions in QPSK over white Gaussian noise, at a ratio Es/N0."""
    draw, noise, rate = np.random.default_rng(1), 10 ** (-decibels / 10), 0.75
    octets = draw.integers(0, 256, (blocks, a // 8), np.uint8)
    soft, rates = np.zeros((blocks, decoder.plan.n)), []
    for tx in txs:
        heard = (1 - 2.0 * nr.send_many(table, octets, tx, rate=rate)) * 0.5**0.5
        heard += draw.normal(0, (noise / 2) ** 0.5, heard.shape)
        np.add.at(soft.T, nr.places(a, tx, rate=rate), (4 * 0.5**0.5 / noise * heard).T)
        bits, good = decoder.decode(soft)
        rates.append(float(((bits[:, :a] != np.unpackbits(octets, axis=1)).any(axis=1) | ~good).mean()))
    return rates


def plot(table: nr.Table, path: str, blocks: int) -> None:
    """Draws block error rates over AWGN beside those over erasures: 1,000 bits at the code rate 0.75, sent twice."""
    import matplotlib.pyplot as pyplot

    pyplot.rcParams.update({"svg.hashsalt": "nr", "svg.fonttype": "none"})
    a, txs = 1000, [nr.Tx(1336, rv=rv, qm=2) for rv in (0, 2)]
    decoder = Decoder(table, nr.plan(a, rate=0.75))
    ratios, chances = np.r_[-2:1.1:0.25, 3:5.4:0.25], np.arange(0.12, 0.66, 0.02)
    curves = [
        (ratios, "Es/N0 in dB, QPSK over AWGN", [awgn(table, decoder, a, txs, it, blocks) for it in ratios]),
        (chances, "erased places", [nr.simulate(table, a, txs, p=it, rounds=16 * blocks, rate=0.75).rates for it in chances]),
    ]
    figure, axes = pyplot.subplots(1, 2, figsize=(9, 3.5), tight_layout=True)
    for place, (x, label, rates) in zip(axes, curves):
        for after, rate in enumerate(np.array(rates).T, 1):
            place.semilogy(x[rate > 0], rate[rate > 0], "o-", markersize=3, label=f"after transmission {after}")
        place.set(xlabel=label, ylabel="block error rate", ylim=(0.5 / blocks, 1.2))
        place.grid(alpha=0.3)
        place.legend()
    figure.savefig(path, metadata={"Date": None})


def main() -> None:
    parser = argparse.ArgumentParser()
    parser.add_argument("table", nargs="?", help="a shift table; without it the practice table")
    parser.add_argument("--plot", metavar="FILE", help="draw the curves into a file")
    parser.add_argument("--blocks", type=int, default=100, help="how many blocks each point of the noisy curves has")
    words = parser.parse_args()
    table = nr.Table.open(words.table) if words.table else nr.Table.practice()
    if words.plot:
        return plot(table, words.plot, words.blocks)
    receiver = Receiver(table)
    for it in map(json.loads, sys.stdin):
        if "reset" in it:
            receiver = Receiver(table)
        else:
            print(json.dumps(receiver.receive(it)), flush=True)


main()
