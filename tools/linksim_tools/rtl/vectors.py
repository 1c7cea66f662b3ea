"""What linksim-vectors writes: the vector of one transmission, or those of many in a folder, as JSON or as memory files."""

from __future__ import annotations

import argparse
import dataclasses
import json
import random
import re
import sys
import typing

import nr
from linksim_tools.common import files, toml_file
from linksim_tools.common.graphs import GRAPHS
from linksim_tools.common.message import shown
from linksim_tools.common.program import Failed, Wrong
from linksim_tools.common.tables import table_at
from linksim_tools.conform.bits import from_hex, of_library
from linksim_tools.conform.case import Case, Values
from linksim_tools.conform.encoder.suite import given as given_of
from linksim_tools.conform.encoder.suite import judged, own_cases, parts_of
from linksim_tools.conform.files import Object, entries_of, packed, vector_lines
from linksim_tools.rtl import arrays, decoding, draw, many
from linksim_tools.rtl.beats import Bus
from linksim_tools.rtl.by_block import export
from linksim_tools.rtl.folder import folder_at
from linksim_tools.rtl.origin import made_by

MOST_BITS = 1_310_720
# Code blocks as a schedule names them.
MASK = r"all|[0-9]+(-[0-9]+)?( [0-9]+(-[0-9]+)?)*"


def json_of(head: Object, case: Case, values: Values, packing: str) -> typing.Iterator[str]:
    """The lines of a vector's JSON, which begins with this: a code block a line."""
    told = {name: it for name, it in given_of(case, packing).items() if name != "id"}
    head = {**head, "digest": arrays.digest_of(values.sent)}
    whole = {**head, **told, "attached": packed(packing, values.attached), "plan": dataclasses.asdict(values.plan)}
    return vector_lines(whole, parts_of(values, packing), packed(packing, values.sent))


def cases_of(given: argparse.Namespace) -> list[Case]:
    """The transmissions that the words name: of a file of plain lines, drawn, or the one of the files."""
    if "count" not in given:
        return [case_of(given)]
    tables = entries_of(given.table)
    if given.cases is not None:
        return own_cases(given.cases, tables)[: given.count]
    cases = [draw.drawn(given.seed, number, tables) for number in range(given.count)]
    if given.payload is None:
        return cases
    return [dataclasses.replace(it, a=payload(given, len(it.a), it.id)) for it in cases]


def payload(given: argparse.Namespace, count: int | None, name: str = "") -> str:
    """The bits of a transport block as --payload says: drawn, all ones, or hexadecimal digits."""
    digits = given.payload if given.payload not in (None, "random", "ones") else None
    if digits is not None and (re.fullmatch("([0-9a-fA-F]{2})+", digits) is None or count not in (None, 4 * len(digits))):
        raise Failed(f"--payload is random, ones, or the hexadecimal digits of the block, and not {shown(digits)}")
    if digits is None and (count is None or not 0 < count <= MOST_BITS):
        raise Failed(f"--a is the size of the block in bits, 1 to {MOST_BITS}, if --payload does not have the block")
    if digits is not None:
        return from_hex(digits)
    drawn = random.Random(f"{given.seed} {name}").getrandbits(count or 1)
    return "1" * (count or 0) if given.payload == "ones" else f"{drawn:0{count}b}"


def link_of(given: argparse.Namespace) -> tuple[int, int | None]:
    """The code rate in 2048ths and TBS_LBRM, of a file or of options."""
    return (given.rate, given.lbrm) if given.settings is None else toml_file.settings_of(given.settings)


def case_of(given: argparse.Namespace) -> Case:
    """The one transmission of the files, or of options alone."""
    rate, limit = link_of(given)
    mask = given.mask.replace(",", " ")
    if not re.fullmatch(MASK, mask):
        raise Failed(f"--mask must be all, or code blocks such as 0,2-3, and not {shown(given.mask)}")
    named = "the block" if given.blocks is None else f"{files.shown(given.blocks)} block {given.block}"
    a = payload(given, given.a) if given.blocks is None else block_of(given, named)
    try:
        nr.plan(len(a), rate2048=rate)
    except (nr.Fault, ValueError) as fault:
        raise Failed(f"{named}: {fault}") from None
    # Without --g it is the block alone, of which one symbol would be sent.
    g = given.qm * given.nl if given.g is None else given.g
    return Case(f"block-{given.block}", a, rate, limit, given.rv, g, given.qm, given.nl, mask)


def block_of(given: argparse.Namespace, named: str) -> str:
    """The bits of a block of a file."""
    digits = files.block_line(given.blocks, given.block)
    if re.fullmatch("([0-9a-fA-F]{2})+", digits) is None:
        raise Failed(f"{named} is not an even number of hexadecimal digits")
    return from_hex(digits)


def lines(given: argparse.Namespace) -> typing.Iterator[str]:
    """The lines of the vector of one transmission, of a block, or of a code block."""
    made = {"made": made_by(given.table)}
    if given.graph is not None:
        return iter([json.dumps({**made, **code_block(given)})])
    (case, values), = judged(given.table, entries_of(given.table), [case_of(given)])
    found = json_of(made, case, values, given.pack)
    return found if given.g is not None else iter([json.dumps(without_transmission(json.loads("".join(found))))])


def without_transmission(vector: Object) -> Object:
    """A vector of the block alone: its code blocks and codewords."""
    parts = [{name: part[name] for name in ("r", "bits", "d")} for part in vector["codeblocks"]]
    kept = {name: it for name, it in vector.items() if name not in ("digest", "transmission", "sent")}
    return {**kept, "codeblocks": parts}


def code_block(given: argparse.Namespace) -> Object:
    """The vector of a code block alone: K bits, of which the last may be fillers, and d; with --g also what is sent of it."""
    if given.z is None:
        given.parser.error("--graph needs --z")
    z: int = given.z or 0
    fillers: int = given.fillers
    try:
        bits = payload(given, GRAPHS[given.graph].information * z - fillers)
        d = nr.encode(table_at(given.table), [*map(int, bits), *[nr.FILLER] * fillers], graph=given.graph, z=z)
        found: Object = {"graph": given.graph, "z": z, "fillers": fillers, "bits": packed(given.pack, bits)}
        if given.g is not None:
            numbers = {"ncb": given.ncb or len(d), "rv": given.rv, "qm": given.qm}
            f = of_library(nr.match(d, given.g, graph=given.graph, z=z, fillers=fillers, **numbers))
            found.update({**numbers, "digest": arrays.digest_of(f), "f": packed(given.pack, f)})
    except (nr.Fault, ValueError) as fault:
        raise Failed(f"the code block: {fault}") from None
    return {**found, "d": [None if it == nr.FILLER else it for it in d]}


def write(given: argparse.Namespace) -> None:
    """Writes the folder, and says on standard error what stands there."""
    bus = Bus(given.width, given.first)
    if getattr(given, "count", None) is not None and given.count < 1:
        raise Wrong(f"--count must be 1 or more, and not {given.count}")
    with folder_at(given.dir) as folder:
        cases = cases_of(given)
        made = made_by(given.table)
        found = many.transmissions(given.table, cases)
        if given.op == "ldpc_dec" and given.form != "bbdev":
            raise Wrong("--op ldpc_dec needs --form bbdev")
        if given.form == "json":
            for one in found:
                head = {"made": made, "covers": one.covers, "id": one.case.id}
                folder.write(f"{folder.named(one.case.id)}.json", json_of(head, one.case, one.values, given.pack))
            folder.write("manifest.json", [json.dumps({"made": made, "files": folder.digests})])
        elif given.form in arrays.FORMS:
            for one in found:
                arrays.write(folder, given.form, one)
            folder.write("manifest.json", [json.dumps({"made": made, "form": given.form, "files": folder.digests})])
        elif given.op == "ldpc_dec":
            decoding.export(folder, made, found, table_at(given.table), decoding.Link(given.rounds, given.erased, given.seed))
        else:
            export(folder, bus, given.form, made, found)
    print(f"{given.dir}: {len(cases)} vectors", file=sys.stderr)
