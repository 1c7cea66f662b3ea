"""What suites of cases share as files: packed lists of bits, lines of JSON, the table, and the head."""

from __future__ import annotations

import hashlib
import json
import pathlib
import typing

from linksim_tools.common import files, provenance
from linksim_tools.common.message import shown
from linksim_tools.common.program import Failed, name_of
from linksim_tools.conform import bits as lists, code
from linksim_tools.conform.case import Tables

FORMAT = 1
# What suites are for, by the name of their format, and the words that write them.
KINDS = {"conform": (" for encoders", "suite"), "receiver": (" for receivers", "receiver suite")}
numbered_lines = files.numbered_lines

Object = typing.Dict[str, typing.Any]
Read = typing.TypeVar("Read")


def packed(form: str, bits: str) -> Object:
    """A list of bits with their number, as tools/vectors packs it."""
    return {"count": len(bits), form: lists.PACKINGS[form](bits)}


def listed(d: str) -> str:
    """The JSON text of the bits of a codeword, null for a filler."""
    return "[" + ",".join(d).replace(lists.FILLER, "null") + "]"


def vector_lines(head: Object, parts: typing.Iterable[str], sent: Object) -> typing.Iterator[str]:
    """The lines of a vector: one object, with the JSON text of a code block a line."""
    yield "{"
    for name, value in head.items():
        yield f"{json.dumps(name)}: {json.dumps(value)},"
    yield '"codeblocks": ['
    yield ",\n".join(parts)
    yield "],"
    yield f'"sent": {json.dumps(sent)}'
    yield "}"


def json_line(path: str | pathlib.Path, number: int, line: str) -> Object:
    """The object of a line of JSON."""
    try:
        value = json.loads(line)
    except ValueError as error:
        raise Failed(f"{path} line {number}: not JSON: {shown(error, 120)}") from None
    except RecursionError:
        raise Failed(f"{path} line {number}: not JSON that can be read: too deep") from None
    if not isinstance(value, dict):
        raise Failed(f"{path} line {number}: not a JSON object")
    return value


def entries_of(path: str | pathlib.Path) -> Tables:
    """The entries of a shift table file that the library accepts."""
    # It is loaded here: who reads a suite has no need of the library.
    from linksim_tools.common.tables import table_at
    table_at(path)
    try:
        return code.entries_of(files.text_of(path, files.LIMITS["table"]))
    except ValueError as error:
        raise Failed(f"{path} cannot be read: {error}") from None


def digest_of_table(path: str | pathlib.Path) -> str:
    """The first digits of the SHA-256 of what `tools/table fingerprint` writes of a table."""
    from linksim_tools.table import fingerprint
    text = "".join(line + "\n" for line in fingerprint.fingerprint(path))
    return hashlib.sha256(text.encode()).hexdigest()[: fingerprint.DIGITS]


def made_by(path: str | pathlib.Path, program: pathlib.Path | None = None) -> dict[str, str]:
    """What makes a suite: the versions and digests of the library, and of the program if that has a part in it, and the table's
    fingerprint."""
    words = provenance.source_of(program).words()
    return {**words, "fingerprint": digest_of_table(path), "specification": words["specification"]}


def head_of(path: str | pathlib.Path, numbered: tuple[int, str], kind: str, wanted: typing.AbstractSet[str]) -> Object:
    """The head of a suite of a kind, of its first line with its number. It has its format under the kind, and what is wanted."""
    head = json_line(path, *numbered) if numbered[1] else {}
    of_kinds = isinstance(head.get("made", {}), dict) and isinstance(head.get("seed"), (int, type(None)))
    if head.get(kind) == FORMAT and wanted <= head.keys() and of_kinds:
        return head
    whose, made = KINDS[kind]
    others = [f"; it is a suite{it}" for name, (it, _) in KINDS.items() if name in head and name != kind]
    how = f"create one with {name_of('conform')} {made}"
    raise Failed(f"{path} is not a suite{whose}: its first line is not a suite header ({how}){''.join(others)}")


def suite_of(path: str | pathlib.Path, kind: str, wanted: typing.AbstractSet[str],
             case_of: typing.Callable[[Object], Read]) -> tuple[Object, Tables, dict[str, Read]]:
    """A suite of a kind: its head, in which this is wanted beside the table and the count, its table, and its cases by id."""
    lines = numbered_lines(path)
    head = head_of(path, next(lines, (1, "")), kind, {"table", "cases", *wanted})
    tables, cases = code.tables_of(path, head["table"]), {}
    for number, line in lines:
        value = json_line(path, number, line)
        try:
            cases[str(value["id"])] = case_of(value)
        except (LookupError, TypeError, ValueError, ArithmeticError, AttributeError, lists.Unreadable) as error:
            raise Failed(f"{path} line {number}: not a case of a suite: {shown(error, 120)}") from None
    if len(cases) != head["cases"]:
        raise Failed(f"{path} is not a complete suite: it has {len(cases)} cases of {head['cases']}")
    return head, tables, cases
