"""The suite as a file: a head with the table, and then a case a line, as tools/vectors writes a transmission. A case may be a line
of plain words too, for encoders without a JSON parser."""

from __future__ import annotations

import dataclasses
import functools
import json
import pathlib
import sys
import typing

from linksim_tools.common.message import shown
from linksim_tools.common.program import Failed, name_of
from linksim_tools.conform import bits as lists, code
from linksim_tools.conform.answer_lines import Wrong, pairs_of
from linksim_tools.conform.case import PLAN, Case, Plan, Tables, Values, scheduled
from linksim_tools.conform.chain import Chain
from linksim_tools.conform.clauses import Impossible, right
from linksim_tools.conform.code import TablesKey
from linksim_tools.conform.encoder import design, points
from linksim_tools.conform.files import FORMAT, Object, entries_of, listed, made_by, numbered_lines, packed, suite_of

# The names of a line, in their order, with the smallest and the largest value of those that are numbers.
NUMBERS = {"rate2048": (1, 2048), "lbrm": (1, 2**32 - 1), "rv": (0, 3), "g": (1, 4_194_304), "qm": (1, 8), "nl": (1, 4)}
NAMES = ("id", *NUMBERS, "mask", "a")

# How long an id may be, and a block in octets.
MOST_LETTERS, MOST_OCTETS = 63, 163_840


def words_of(case: Case, count: int) -> str:
    """A case of `count` code blocks in plain words: a name and a value in turn, `-` if there is no limit."""
    named = set(scheduled(case.mask, count))
    words = {name: getattr(case, name) for name in NAMES}
    words["mask"] = "all" if case.mask == "all" else "".join("1" if r in named else "0" for r in range(count))
    words["lbrm"] = "-" if case.lbrm is None else case.lbrm
    words["a"] = lists.hexadecimal(case.a)
    return " ".join(f"{name} {value}" for name, value in words.items())


def number_of(name: str, text: str) -> int:
    least, most = NUMBERS[name]
    if not (text.isdecimal() and text.isascii() and len(text) < 12 and least <= int(text) <= most):
        raise ValueError(f"{name} is not a number from {least} to {most}: {shown(text)}")
    return int(text)


def mask_of(text: str) -> str:
    """The mask of a digit for each code block, as a schedule names it."""
    if text == "all":
        return text
    if text.strip("01") or "1" not in text:
        raise ValueError(f"mask is not `all`, and no digits 0 and 1 with a 1: {shown(text)}")
    return " ".join(str(r) for r, digit in enumerate(text) if digit == "1")


def case_of_words(words: list[str]) -> Case:
    """The case of plain words; a mistake is an error that says what is wrong."""
    found = dict(pairs_of(words))
    strange = [name for name in found if name not in NAMES]
    lacking = [name for name in ("id", "rate2048", "g", "a") if name not in found]
    if strange or lacking:
        raise ValueError(f"unknown name: {shown(strange[0])}" if strange else f"{lacking[0]} is not there")
    digits = found["a"]
    if digits.strip("0123456789abcdefABCDEF") or len(digits) % 2 or len(digits) > 2 * MOST_OCTETS:
        raise ValueError(f"a is not hexadecimal digits of whole octets, at most {MOST_OCTETS}")
    if not found["id"].isprintable() or len(found["id"]) > MOST_LETTERS:
        raise ValueError(f"id is longer than {MOST_LETTERS} letters, or has one that cannot be printed")
    limit = found.get("lbrm", "-")
    rest = {name: number_of(name, found[name]) for name in ("rv", "g", "qm", "nl") if name in found}
    return Case(found["id"], lists.of_digits(digits, 4 * len(digits)), number_of("rate2048", found["rate2048"]),
                None if limit == "-" else number_of("lbrm", limit), mask=mask_of(found.get("mask", "all")), **rest)


def given(case: Case, form: str = "hex") -> Object:
    """What an encoder is given of a case, as JSON has it."""
    transmission = {name: getattr(case, name) for name in ("rv", "g", "qm", "nl", "mask")}
    return {"id": case.id, "rate2048": case.rate2048, "lbrm": case.lbrm, "transmission": transmission, "a": packed(form, case.a)}


def parts_of(values: Values, form: str) -> typing.Iterator[str]:
    """The JSON text of each code block."""
    for r, d in enumerate(values.d):
        part = {"r": r, "bits": packed(form, values.bits[r]), "k0": values.k0, "Ncb": values.Ncb, "E": values.E[r],
                "e": packed(form, values.e[r]), "f": packed(form, values.f[r])}
        yield json.dumps(part)[:-1] + f', "d": {listed(d)}}}'


def line_of(case: Case, values: Values, form: str) -> str:
    head = {"id": case.id, "covers": points.covered(case), **given(case, form), "attached": packed(form, values.attached),
            "plan": dataclasses.asdict(values.plan)}
    tail = json.dumps(packed(form, values.sent))
    return f'{json.dumps(head)[:-1]}, "codeblocks": [{", ".join(parts_of(values, form))}], "sent": {tail}}}'


def cases_of(tables: Tables, profile: str, seed: int) -> list[Case]:
    """The cases of a profile whose base graph the table has; what is left out is said on standard error."""
    cases = design.designed(profile, seed)
    kept = [case for case in cases if points.Facts(case).graph in tables]
    if len(kept) < len(cases):
        lacking, = {1, 2} - tables.keys()
        print(f"the table lacks base graph {lacking}: {len(cases) - len(kept)} cases are left out", file=sys.stderr)
    return kept


def own_cases(path: str | pathlib.Path, tables: Tables) -> list[Case]:
    """The cases of a file of plain lines."""
    found: dict[str, Case] = {}
    for number, line in numbered_lines(path):
        if not line.strip() or line.startswith("#"):
            continue
        try:
            case = case_of_words(line.split())
            if case.id in found:
                raise ValueError(f"a case before it is {shown(case.id)} too")
            facts = points.Facts(case)
            if facts.graph not in tables:
                raise ValueError(f"the table lacks base graph {facts.graph}")
            if facts.b % facts.c:
                raise ValueError(f"a block of {facts.a} bits cannot be cut; {name_of('vectors')} near names sizes that can")
        except (ValueError, Impossible, Wrong) as error:
            raise Failed(f"{path} line {number}: {error}") from None
        found[case.id] = case
    if not found:
        raise Failed(f"{path} has no case")
    return list(found.values())


def values_of(table: typing.Any, case: Case) -> Values:
    """All that stands between the case's block and its sent bits, each step by the library's own call."""
    # It is loaded here: who reads a suite has no need of the library.
    import nr

    block, a = lists.octets_of(case.a), len(case.a)
    rate: dict[str, typing.Any] = {"rate2048": case.rate2048}
    limited: dict[str, typing.Any] = {**rate, "lbrm": case.lbrm}
    try:
        plan = nr.plan(a, **rate)
        named = None if case.mask == "all" else scheduled(case.mask, plan.c)
        tx = nr.Tx(g=case.g, rv=case.rv, qm=case.qm, nl=case.nl, blocks=named)
        bits = [nr.cut(block, r, **rate) for r in range(plan.c)]
        words = [nr.codeword(table, part, a, **rate) for part in bits]
        buffer, lengths = nr.buffer(a, case.rv, **limited), nr.lengths(a, tx, **rate)
        selected = [nr.select(d, length, a, rv=case.rv, **limited) for d, length in zip(words, lengths)]
        interleaved = [nr.interleave(e, case.qm) for e in selected]
        sent = nr.send(table, block, tx, **limited)
    except (nr.Fault, ValueError) as fault:
        raise Failed(f"case {shown(case.id)}: the library rejects it: {fault}") from None
    degree, poly = (24, nr.CRC24A) if plan.b - a == 24 else (16, nr.CRC16)
    attached = case.a + f"{nr.crc(block, poly):0{degree}b}"
    shared, d, e, f = ([lists.of_library(it) for it in some] for some in (bits, words, selected, interleaved))
    numbers = Plan(a, **{name: getattr(plan, name) for name in PLAN[1:]})
    return Values(attached, numbers, shared, d, buffer.ncb, buffer.k0, lengths, e, f, lists.of_library(sent))


def judged(path: str | pathlib.Path, tables: Tables, cases: list[Case]) -> typing.Iterator[tuple[Case, Values]]:
    """Each case with what the library makes of it. The chain of the tools is held to the library."""
    # It is loaded here, as the library is.
    from linksim_tools.common.tables import table_at

    table = table_at(path)
    for case in cases:
        values, ours = values_of(table, case), Chain(TablesKey(tables), case, right()).values()
        for field in dataclasses.fields(Values):
            if getattr(values, field.name) != getattr(ours, field.name):
                fault = "this is a fault of the library or of the tool"
                raise Failed(f"case {case.id}: {field.name} is not as the model has it: {fault}")
        yield case, values


def written(path: str, profile: str, seed: int, form: str, own: str | None = None) -> typing.Iterator[str]:
    """The lines of a suite: of a profile, or of the cases of a file of one's own."""
    tables = entries_of(path)
    cases = cases_of(tables, profile, seed) if own is None else own_cases(own, tables)
    which = {"profile": profile, "seed": seed} if own is None else {"profile": "own", "seed": None}
    yield json.dumps({"conform": FORMAT, **which, "cases": len(cases), "made": made_by(path), "table": code.records_of(tables)})
    for case, values in judged(path, tables, cases):
        yield line_of(case, values, form)


@dataclasses.dataclass(frozen=True, eq=False)
class Suite:
    """A suite as it was read: its head, its table, the cases by id, and what is right of each."""

    path: str
    profile: str
    seed: int | None
    made: dict[str, str]
    tables: TablesKey
    cases: dict[str, Case]
    values: dict[str, Values]

    @functools.cached_property
    def before(self) -> dict[str, Case]:
        """The case before each, by id."""
        names = list(self.cases)
        return {name: self.cases[before] for before, name in zip(names, names[1:])}


def case_of(value: Object) -> tuple[Case, Values]:
    """A case and what is right of it, of an object of the suite."""
    sent = value["transmission"]
    a = lists.read(value["a"])
    rv, g, qm, nl = (int(sent[name]) for name in ("rv", "g", "qm", "nl"))
    limit = None if value["lbrm"] is None else int(value["lbrm"])
    case = Case(str(value["id"]), a, int(value["rate2048"]), limit, rv, g, qm, nl, str(sent["mask"]))
    parts, plan = value["codeblocks"], Plan(**{name: int(value["plan"][name]) for name in PLAN})
    bits, d, e, f = ([lists.read(part[name]) for part in parts] for name in ("bits", "d", "e", "f"))
    numbers = int(parts[0]["Ncb"]), int(parts[0]["k0"]), [int(part["E"]) for part in parts]
    return case, Values(lists.read(value["attached"]), plan, bits, d, *numbers, e, f, lists.read(value["sent"]))


def read(path: str | pathlib.Path) -> Suite:
    head, tables, found = suite_of(path, "conform", {"profile"}, case_of)
    cases, values = {name: it for name, (it, _) in found.items()}, {name: it for name, (_, it) in found.items()}
    made = {str(name): str(it) for name, it in head.get("made", {}).items()}
    return Suite(str(path), head["profile"], head.get("seed"), made, TablesKey(tables), cases, values)
