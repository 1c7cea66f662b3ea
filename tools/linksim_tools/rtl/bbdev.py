"""Files of DPDK's test-bbdev: an operation of `ldpc_enc` for each code block, with what goes in and what comes out."""

from __future__ import annotations

import json
import typing

from linksim_tools.conform.bits import little_endian_words
from linksim_tools.rtl.folder import Folder

if typing.TYPE_CHECKING:
    from linksim_tools.rtl.by_block import Transmission

# Words of four octets in a line.
IN_LINE = 8


def words(bits: str) -> str:
    """Bits in words, as these files have them."""
    found = little_endian_words(bits)
    return ",\n".join(", ".join(found[start : start + IN_LINE]) for start in range(0, len(found), IN_LINE))


def lines(one: Transmission, r: int) -> typing.Iterator[str]:
    """The file of a code block: its bits without a CRC24B, which the operation attaches, and its f."""
    plan, values = one.values.plan, one.values
    attaches = ["RTE_BBDEV_LDPC_CRC_24B_ATTACH"] if plan.l else []
    named: dict[str, object] = {
        "op_type": "RTE_BBDEV_OP_LDPC_ENC", "input0": words(values.bits[r][: plan.kdash - plan.l]), "output0": words(values.f[r]),
        "basegraph": plan.graph, "z_c": plan.z, "n_cb": values.Ncb, "q_m": one.case.qm, "n_filler": plan.fillers,
        "e": values.E[r], "rv_index": one.case.rv, "code_block_mode": 1,
        "op_flags": ", ".join(["RTE_BBDEV_LDPC_RATE_MATCH", *attaches]), "expected_status": "OK",
    }
    for name, value in named.items():
        yield f"{name} =\n{value}\n"


def export(folder: Folder, made: dict[str, typing.Any], transmissions: typing.Iterable[Transmission]) -> int:
    """Writes a file for each code block that is sent, but for those of no whole octets, which the manifest names."""
    count, left = 0, []
    for one in transmissions:
        for r, length in enumerate(one.values.E):
            name = f"{folder.named(one.case.id)}_{r}.data"
            if length and (one.values.plan.kdash - one.values.plan.l) % 8:
                left.append(name)
            elif length:
                folder.write(name, lines(one, r))
                count += 1
    folder.write("manifest.json", [json.dumps({"made": made, "form": "bbdev", "no_whole_octets": left, "files": folder.digests})])
    return count
