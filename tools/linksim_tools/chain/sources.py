"""Where the transport block of a page comes from: a vector, a case of a suite, or a block of a run."""

from __future__ import annotations

import argparse
import dataclasses
import typing

import nr

from linksim_tools.certificate.rounds import rounds
from linksim_tools.certificate.writing import Reception, fingerprint_of, settings
from linksim_tools.common import faults, files
from linksim_tools.common.program import Failed, Wrong, program_at
from linksim_tools.common.tables import table_at
from linksim_tools.conform import bits as lists
from linksim_tools.conform.case import scheduled
from linksim_tools.conform.files import Object, json_line

# What a value of a receiver's suite says of the bit; 0 is erased.
DECISIONS = {**dict.fromkeys("+qhli", 0), **dict.fromkeys("-QHLMI", 1), "0": nr.ERASED}


@dataclasses.dataclass(frozen=True)
class Source:
    """A transport block with what arrived of it."""

    title: str
    table: nr.Table
    block: bytes
    rate2048: int
    lbrm: int | None
    receptions: list[Reception]


def tx_of(numbers: Object, mask: str, c: int) -> nr.Tx:
    """A transmission as a vector or a case has it."""
    g, rv, qm, nl = (int(numbers[name]) for name in ("g", "rv", "qm", "nl"))
    return nr.Tx(g, rv=rv, qm=qm, nl=nl, blocks=None if mask == "all" else scheduled(mask, c))


def of_sent(title: str, table: nr.Table, value: Object) -> Source:
    """A vector, or a case of a suite for encoders: one transmission, of which everything arrives."""
    block, rate2048, lbrm = lists.octets_of(lists.read(value["a"])), int(value["rate2048"]), value["lbrm"]
    tx = tx_of(value["transmission"], str(value["transmission"]["mask"]), nr.plan(8 * len(block), rate2048=rate2048).c)
    return Source(title, table, block, rate2048, lbrm, [(tx, nr.send(table, block, tx, **settings(rate2048, lbrm)))])


def of_received(title: str, table: nr.Table, value: Object) -> Source:
    """A case of a suite for receivers: the last round of its first HARQ process."""
    process = value["transmissions"][0]["process"]
    sent = [it for it in value["transmissions"] if it["process"] == process]
    begun = max(at for at, it in enumerate(sent) if at == 0 or it["fresh"])
    first, a, rate2048 = sent[begun], int(sent[begun]["a"]), int(sent[begun]["rate2048"])
    c, receptions = nr.plan(a, rate2048=rate2048).c, []
    for it in sent[begun:]:
        named = "all" if it["mask"] == "all" else " ".join(str(r) for r, digit in enumerate(it["mask"]) if digit == "1")
        receptions.append((tx_of(it, named, c), bytes(DECISIONS[value] for value in it["values"])))
    return Source(title, table, lists.octets_of(lists.of_digits(first["block"], a)), rate2048, first["lbrm"], receptions)


def of_vector(given: argparse.Namespace) -> Source:
    """The vector of a file, which has the fingerprint of its table."""
    value = json_line(given.vector, 1, files.text_of(given.vector, files.RESULTS))
    table = table_at(given.table)
    source = of_sent("The chain of a vector", table, value)
    if fingerprint_of(table, nr.plan(8 * len(source.block), rate2048=source.rate2048)) not in value["made"]["fingerprint"]:
        raise Wrong(f"{given.vector} was made with another table than {given.table}")
    return source


def of_case(given: argparse.Namespace) -> Source:
    """The case of a suite, which has its table."""
    lines = files.numbered_lines(given.suite)
    head = json_line(given.suite, *next(lines, (1, "")))
    text = "".join(",".join(map(str, record)) + "\n" for record in head["table"])
    for number, line in lines:
        value = json_line(given.suite, number, line)
        if value["id"] == given.case:
            made = of_received if "receiver" in head else of_sent
            return made(f"The chain of the case {given.case}", nr.Table(text.encode()), value)
    raise Wrong(f"{given.suite} has no case {given.case}")


def of_run(given: argparse.Namespace) -> Source:
    """A block of a run; of HARQ processes the last round of the block."""
    words = {name: getattr(given, name) for name in faults.READS["run"]}
    found = [it for it in rounds(program_at(given.program), words) if it.ended.block == given.block]
    if not found:
        raise Wrong(f"the run has no block {given.block}")
    one = found[-1]
    return Source(f"The chain of block {given.block}", one.table, one.block, one.rate2048, one.lbrm, one.receptions())


def source_of(given: argparse.Namespace) -> Source:
    """What the words name."""
    named: list[tuple[typing.Any, tuple[str, ...], typing.Callable[[argparse.Namespace], Source]]] = [
        (given.vector, ("table",), of_vector), (given.suite, ("case",), of_case),
        (given.settings, tuple(faults.READS["run"]), of_run),
    ]
    for is_named, wanted, made in named:
        if is_named:
            missing = [f"--{name}" for name in wanted if getattr(given, name) is None]
            if missing:
                raise Wrong(f"chain also needs {', '.join(missing)}")
            try:
                return made(given)
            except (LookupError, TypeError, ValueError, ArithmeticError, AttributeError, lists.Unreadable) as error:
                raise Failed(f"{is_named} is not what tools of linksim write: {error}") from None
    raise Wrong("chain needs --vector and --table, --suite and --case, or the four files of a run")
