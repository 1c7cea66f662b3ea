"""Files of DPDK's test-bbdev for decoders: an operation of `ldpc_dec` for each code block and each HARQ round. An erasure is a soft
value of 0, so the proved outcome is the expected one."""

from __future__ import annotations

import dataclasses
import json
import typing

import nr
from linksim_tools.common.program import Failed
from linksim_tools.conform.bits import of_octets, octets_of
from linksim_tools.conform.case import scheduled
from linksim_tools.rtl import bbdev

if typing.TYPE_CHECKING:
    from linksim_tools.conform.case import Case
    from linksim_tools.rtl.by_block import Transmission
    from linksim_tools.rtl.folder import Folder

# A soft value is positive for 0. Sums of rounds are clipped to the largest of eight bits.
STRONG, LARGEST = 16, 127


@dataclasses.dataclass(frozen=True)
class Link:
    """Which redundancy versions are sent, one a round (the vector's own if there are none), and with which probability a link
    erases a bit, by this seed."""

    rounds: typing.Sequence[int]
    erased: float
    seed: int


@dataclasses.dataclass
class Sent:
    """A round: its transmission, what arrived at its places, and which bit of which code block each place carries."""

    tx: nr.Tx
    arrived: bytearray
    places: typing.Sequence[int]


def sent_of(table: nr.Table, case: Case, c: int, link: Link) -> list[Sent]:
    """The rounds of a vector's block."""
    found, block = [], octets_of(case.a)
    limited: dict[str, typing.Any] = {"rate2048": case.rate2048, **({} if case.lbrm is None else {"lbrm": case.lbrm})}
    for number, rv in enumerate(link.rounds or [case.rv]):
        tx = nr.Tx(case.g, rv=rv, qm=case.qm, nl=case.nl, blocks=None if case.mask == "all" else scheduled(case.mask, c))
        arrived = nr.erase(nr.send(table, block, tx, **limited), seed=link.seed * 1000 + number, p=link.erased)
        found.append(Sent(tx, arrived, nr.places(len(case.a), tx, **limited).tolist()))
    return found


def soft(bit: int) -> int:
    """The soft value of what arrived."""
    return 0 if bit == nr.ERASED else STRONG - 2 * STRONG * bit


def words(values: typing.Iterable[int]) -> str:
    """Soft values as octets in words."""
    return bbdev.words(of_octets(bytes(value % 256 for value in values)))


def lines(one: Transmission, r: int, rv: int, arrived: list[int], buffer: list[int] | None, is_fixed: bool) -> typing.Iterator[str]:
    """The file of a code block and a round. `buffer` has the sums of the rounds before it, without the fillers."""
    plan, values = one.values.plan, one.values
    flags = ["RTE_BBDEV_LDPC_ITERATION_STOP_ENABLE", *(["RTE_BBDEV_LDPC_CRC_TYPE_24B_CHECK"] if plan.l else [])]
    flags += [] if buffer is None else ["RTE_BBDEV_LDPC_HQ_COMBINE_IN_ENABLE"]
    named: dict[str, object] = {"op_type": "RTE_BBDEV_OP_LDPC_DEC", "input0": words(arrived)}
    named.update({} if buffer is None else {"harq_input0": words(buffer)})
    named.update({
        "output0": bbdev.words(values.bits[r]), "basegraph": plan.graph, "z_c": plan.z, "n_cb": values.Ncb, "q_m": one.case.qm,
        "n_filler": plan.fillers, "e": len(arrived), "rv_index": rv, "iter_max": 50, "expected_iter_count": 50,
        "code_block_mode": 1,
        "op_flags": ", ".join(flags), "expected_status": "OK" if is_fixed else "CRC, SYN" if plan.l else "SYN",
    })
    for name, value in named.items():
        yield f"{name} =\n{value}\n"


def of_block(folder: Folder, one: Transmission, table: nr.Table, link: Link) -> typing.Iterator[tuple[str, int]]:
    """Writes the files of a vector's code blocks; the name of each with how many of its K' bits are not fixed."""
    plan, case = one.values.plan, one.case
    rounds, live = sent_of(table, case, plan.c, link), [
        it for it in range(one.values.Ncb) if not plan.kdash - 2 * plan.z <= it < plan.k - 2 * plan.z
    ]
    buffers = [[0] * plan.n for _ in range(plan.c)]
    limit: dict[str, typing.Any] = {} if case.lbrm is None else {"lbrm": case.lbrm}
    receiver = nr.Receiver(table, len(case.a), rate2048=case.rate2048, **limit)
    for number, sent in enumerate(rounds, 1):
        left = receiver.take(sent.tx, sent.arrived).left
        arrived: list[list[tuple[int, int]]] = [[] for _ in range(plan.c)]
        for bit, index in zip(sent.arrived, sent.places):
            arrived[index // plan.n].append((soft(bit), index % plan.n))
        for r, values in enumerate(arrived):
            if values:
                name = f"{folder.named(case.id)}_{r}_round{number}.data"
                before = None if number == 1 else [buffers[r][it] for it in live]
                folder.write(name, lines(one, r, sent.tx.rv, [value for value, _ in values], before, not left[r]))
                yield name, left[r]
            for value, index in values:
                buffers[r][index] = min(max(buffers[r][index] + value, -LARGEST), LARGEST)


def export(
    folder: Folder, made: dict[str, typing.Any], transmissions: typing.Iterable[Transmission], table: nr.Table, link: Link
) -> int:
    """Writes a file for each code block and round, and the manifest, which also names vectors whose K' bits are no whole octets."""
    files, outside = {}, []
    for one in transmissions:
        if one.values.plan.kdash % 8:
            outside.append(one.case.id)
            continue
        for name, left in of_block(folder, one, table, link):
            files[name] = {"sha256": folder.digests[name], "left": left}
    if not files:
        raise Failed("no vector has code blocks of whole octets, as test-bbdev wants them")
    head = {"made": made, "form": "bbdev", "op": "ldpc_dec", "rounds": list(link.rounds), "erased": link.erased, "seed": link.seed}
    folder.write("manifest.json", [json.dumps({**head, "no_whole_octets": outside, "files": files})])
    return len(files)
