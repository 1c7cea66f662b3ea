"""What is wrong with a file that the program refuses: its line, record, field or key, by the fault's name."""

import csv
import functools
import io
import re
import typing

from linksim_tools.common import files, toml_file
from linksim_tools.common.graphs import GRAPHS
from linksim_tools.common.message import MOST, shown
from linksim_tools.common.program import Failed

Lines = typing.List[str]
# The values of a base graph, by row and column.
Entries = typing.Dict[typing.Tuple[int, int], typing.List[int]]
NAMES = ["graph", "row", "column", *(f"set {at}" for at in range(8))]
csv.field_size_limit(1 << 30)


def short(value: object) -> str:
    """A text, in quotes, or another value, as it is shown."""
    try:
        text, length = repr(value), len(str(value))
    except (RecursionError, ValueError):
        return f"a value of kind {type(value).__name__} that is too long or too deep to be shown"
    return shown(text) if len(text) <= MOST else f"{shown(text)} ({length} characters)"


class Record(typing.NamedTuple):
    """A record of comma-separated values: the line that it begins in, and its fields."""

    line: int
    fields: Lines


class File:
    """A file by its path, or standard input with its octets, read where it is asked for. One that is too long for the program
    is read up to there."""

    def __init__(self, path: str, stdin: bytes, most: int) -> None:
        self.shown = files.shown(path)
        self.octets, self.trouble, self.most = stdin, "", most
        if path != "-":
            try:
                with open(path, "rb") as file:
                    self.octets = file.read(most + 1)
            except OSError as error:
                self.trouble = error.strerror or str(error)

    @functools.cached_property
    def text(self) -> str:
        """The text, without a byte order mark."""
        return self.octets.decode("utf-8-sig", errors="surrogateescape")

    @functools.cached_property
    def records(self) -> typing.List[Record]:
        """The records of comma-separated values, without blank lines, their fields without spaces around."""
        reader = csv.reader(io.StringIO(self.text.replace("\0", "\ufffd"), newline=""))
        found, line = [], 1
        for fields in reader:
            if fields:
                found.append(Record(line, [field.strip(" \t") for field in fields]))
            line = reader.line_num + 1
        return found

    def record(self, number: int) -> Record:
        """A record by its number, from 1."""
        return self.records[number - 1]

    def record_lines(self, number: int) -> Lines:
        """Where a record stands, and what it says."""
        if not 1 <= number <= len(self.records):
            return [f"{self.shown}: there is no record {number}"]
        record = self.record(number)
        return [f"{self.shown}, record {number}, line {record.line}: {short(','.join(record.fields))}"]


def is_number(field: str, most: int = 10**10) -> bool:
    """Whether a field is a number of 1 to 10 decimal digits, below a bound."""
    return re.fullmatch("[0-9]{1,10}", field) is not None and int(field) < most


def field_lines(names: Lines, fields: Lines, is_good: typing.Callable[[str, str], bool]) -> Lines:
    """The fields that are not as they should be, by name."""
    return [f"{name} is {short(field)}" for name, field in zip(names, fields) if not is_good(name, field)]


def of_table(file: File, name: str, place: int) -> Lines:
    """What is wrong with a shift table."""
    if name in ("Core", "Extension", "MissingRow"):
        return of_shape(file, name, place)
    if name in ("Fields", "Empty"):
        if not file.records:
            return [f"{file.shown}: no record"]
        return [*file.record_lines(1), f"{len(file.record(1).fields)} fields"]
    lines, fields = file.record_lines(place), file.record(place).fields
    if name == "Csv":
        return [*lines, f"{len(fields)} fields, and {len(file.record(1).fields)} in record 1"]
    if name == "Number":
        return lines + field_lines(NAMES, fields, lambda _, field: is_number(field))
    if name == "Range":
        return lines + field_lines(NAMES, fields, lambda which, field: int(field) < most_of(which, fields[0]))
    same = numbers(file.record(place), 3)
    earlier = [at for at, record in enumerate(file.records[: place - 1], 1) if numbers(record, 3) == same]
    return [*lines, *(line for at in earlier[:1] for line in file.record_lines(at))]


def numbers(record: Record, count: int) -> typing.List[int]:
    """The first numbers of a record; of a header none."""
    return [int(field) for field in record.fields[:count] if is_number(field)]


def most_of(which: str, graph: str) -> int:
    """The number that a field of a table stays below; base graph 0 is out of range too, which is seen elsewhere."""
    rows, columns = (GRAPHS[int(graph)].rows, GRAPHS[int(graph)].columns) if int(graph) in GRAPHS else (46, 68)
    return {"graph": 3 if graph.strip("0") else 0, "row": rows, "column": columns}.get(which, 65536)


def of_shape(file: File, name: str, number: int) -> Lines:
    """Which rows of a base graph lack the shape."""
    graph = GRAPHS[number]
    entries = [numbers(record, 11) for record in file.records]
    mine = {(it[1], it[2]): it[3:] for it in entries if len(it) == 11 and it[0] == number}
    first = graph.information
    rows = {row: sorted(column for at, column in mine if at == row and column >= first) for row in range(graph.rows)}
    if name == "MissingRow":
        empty = [row for row in range(4, graph.rows) if not any(at == row for at, _ in mine)]
        return [f"{file.shown}: base graph {number} has no entry in {rows_shown(empty)}"]
    if name == "Core":
        return [f"{file.shown}: base graph {number}", *core_lines(mine, rows, first)]
    there = {at for at, _ in mine if at >= 4}
    wrong = [row for row in sorted(there) if not ends_well(mine, rows[row], row, first)]
    return [f"{file.shown}: base graph {number}, {rows_shown(wrong)}"]


def core_lines(mine: Entries, rows: typing.Dict[int, typing.List[int]], first: int) -> Lines:
    """What the core rows have from the first parity column on, and what is wanted of them."""
    ends = [f"row {row}: columns {shown_list(rows[row]) or 'none'} from {first} on" for row in range(4)]
    values = [f"row {row}, column {column}: {mine[row, column]}" for row in range(4) for column in rows[row]]
    return [
        *ends,
        f"wanted are {first} in rows 0, 3 and one of 1 and 2; {first + 1} in 0, 1; {first + 2} in 1, 2; "
        f"{first + 3} in 2, 3",
        "with 0 in the last three, and two equal values in the first:",
        *values,
    ]


def ends_well(mine: Entries, columns: typing.List[int], row: int, first: int) -> bool:
    """Whether a row from 4 on ends in a single zero shift, at its own column."""
    own = first + row
    return [column for column in columns if column >= first + 4] == [own] and not any(mine[row, own])


def rows_shown(rows: typing.List[int]) -> str:
    """The numbers of rows after the word."""
    return f"{'row' if len(rows) == 1 else 'rows'} {shown_list(rows)}"


def shown_list(values: typing.List[int]) -> str:
    """Some numbers, the first ones if they are many."""
    return ", ".join(map(str, values[:8])) + (f" and {len(values) - 8} more" if len(values) > 8 else "")


def keys_of(file: File) -> typing.Dict[str, object]:
    """The keys of the settings."""
    return toml_file.parsed(file.shown, file.octets)


def of_settings(file: File, name: str, _place: int) -> Lines:
    """What is wrong with settings."""
    try:
        keys = keys_of(file)
    except Failed as failed:
        return [str(failed)]
    unknown = [key for key in keys if key not in ("rate2048", "lbrm")]
    if name == "Unknown":
        return [f"{file.shown}: {key} = {short(keys[key])}{rate_hint(key, keys[key])}" for key in unknown]
    shown = [f"{key} = {short(value)}{rate_hint(key, value)}" for key, value in keys.items()]
    return [f"{file.shown}: {', '.join(shown) or 'no key'}"]


def rate_hint(key: str, value: object) -> str:
    """What a code rate as a share, or in 1024ths as the MCS tables have it, is in 2048ths."""
    doubled = 0.0
    if isinstance(value, float) and key in ("rate", "rate1024", "rate2048"):
        doubled = value * (2048 if value < 1 else 2)
    elif isinstance(value, int) and key == "rate1024":
        doubled = value * 2.0
    return f" (rate2048 = {int(doubled)} is the same)" if 1 <= doubled <= 2048 and doubled == int(doubled) else ""


def rate_of(file: File) -> typing.Optional[int]:
    """The code rate in 2048ths of settings, if it can be read here."""
    try:
        rate = keys_of(file).get("rate2048")
    except Failed:
        return None
    return rate if isinstance(rate, int) else None


def blocks_of(file: File) -> typing.List[typing.Tuple[int, str]]:
    """The lines of a blocks file with their numbers."""
    lines = file.octets.decode("latin-1").split("\n")
    if lines[-1] == "":
        lines.pop()
    return [(number, line[:-1] if line.endswith("\r") else line) for number, line in enumerate(lines, 1)]


def of_blocks(file: File, name: str, place: int) -> Lines:
    """What is wrong with transport blocks."""
    if name in ("Empty", "TooMany"):
        return [f"{file.shown}: {len(file.octets)} octets in {len(blocks_of(file))} lines"]
    _, text = blocks_of(file)[place - 1]
    lines = [f"{file.shown}, line {place}: {short(text)}"]
    if name == "Digit":
        at = next(at for at, character in enumerate(text) if character not in "0123456789abcdefABCDEF")
        lines.append(f"character {at + 1} is {text[at]!r}")
    return lines if name in ("Digit", "Blank") else [*lines, f"{len(text)} digits"]


def of_schedule(file: File, name: str, place: int, blocks: File) -> Lines:
    """What is wrong with a schedule."""
    if name == "TooMany":
        return [f"{file.shown}: {len(file.octets)} octets, {len(file.records)} records with the header"]
    if name == "Header":
        return file.record_lines(1) if file.records else [f"{file.shown}: no record"]
    lines, header, fields = file.record_lines(place), file.record(1).fields, file.record(place).fields
    if name == "Csv":
        return [*lines, f"{len(fields)} fields, and {len(header)} in the header"]
    if name == "Number":
        return lines + field_lines(header[:5], fields, lambda _, field: is_number(field, 1 << 32))
    if name == "Block":
        return [*lines, f"block is {fields[0]}, of {len(blocks_of(blocks))} in {blocks.shown}"]
    which = header.index(name.lower())
    lines.append(f"{name.lower()} is {short(fields[which])}")
    return lines + of_round(file, place) if name == "Fresh" else lines


def of_round(file: File, place: int) -> Lines:
    """The record that began the round of a process, which another one goes on with."""
    fields = file.record(place).fields
    for at in range(place - 1, 1, -1):
        earlier = file.record(at).fields
        if numbers(Record(0, earlier[8:9]), 1) == numbers(Record(0, fields[8:9]), 1) and earlier[9] == "1":
            return ["the round of its process began with", *file.record_lines(at)]
    return ["no round of its process began before"]
