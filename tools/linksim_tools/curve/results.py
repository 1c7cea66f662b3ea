"""The results of `tools/curve`: a CSV line for each chunk of a point, and their sums."""

from __future__ import annotations

import collections
import contextlib
import dataclasses
import fcntl
import io
import os
import pathlib
import re
import shutil
import sys
import typing

from linksim_tools.common import files
from linksim_tools.common.program import Failed, name_of, named_in_faults
from linksim_tools.curve import head
from linksim_tools.curve.draws import threshold_of
from linksim_tools.curve.source import DIGITS, PARTS, Source, differing, table_and_keys

if typing.TYPE_CHECKING:
    from linksim_tools.curve.setting import Setting

SOURCE = re.compile("-".join(["[0-9a-f]{4}"] * len(PARTS)))

# The counts of code blocks of one length, as K:COUNT; those of another length come after a slash.
COUNT = r"\d+:\d+"
COUNTS = re.compile(rf"({COUNT}( {COUNT})*)?(/({COUNT}( {COUNT})*)?)?")

# A probability and its comma, wherever they begin.
PROBABILITY = re.compile(r"(?=((?:[01]\.\d+|[1-9](?:\.\d+)?e-\d+)),)")

# What stands ahead of words that are no fault.
NOTE = "note: "

# At most this many lines of a file that are ignored are named.
MOST_SAID = 8

# How many code blocks were open with K erased places, by K.
Counts = typing.Dict[int, int]


def counts_text(groups: typing.Sequence[typing.Mapping[int, int]]) -> str:
    """The counts of one transmission as they stand in a line: of each length of code blocks, by K."""
    texts = [" ".join(f"{k}:{count}" for k, count in sorted(counts.items())) for counts in groups]
    return "/".join(texts) if any(texts) else ""


def counts_from(text: str) -> list[Counts]:
    """The counts of a text, by length of code blocks."""
    groups: list[Counts] = []
    for part in text.split("/"):
        pairs = (item.split(":") for item in part.split())
        groups.append({int(k): int(count) for k, count in pairs})
    return groups


@dataclasses.dataclass(frozen=True)
class Line:
    """A chunk: of `rounds` rounds of `c` code blocks each, how many rounds, code blocks and bits were open after each
    transmission. Then the open code blocks by how many of their places were erased (`counts_text`), and where it comes from.
    In a sum of several chunks `chunk` is how many they are. Lines of earlier versions have neither counts nor a source."""

    p: float
    chunk: int
    rounds: int
    c: int
    failed: tuple[int, ...]
    failed_codeblocks: tuple[int, ...]
    left: tuple[int, ...]
    erased: tuple[str, ...] = ()
    source: str = ""

    def text(self) -> str:
        """The line of the CSV file, without its end."""
        numbers = [self.chunk, self.rounds, self.c, *self.failed, *self.failed_codeblocks, *self.left]
        later = [*self.erased, self.source] if self.source else []
        return ",".join([repr(self.p), *map(str, numbers), *later])

    def key(self) -> tuple[int, int]:
        """What names the chunk: the threshold of its probability, and its number."""
        return threshold_of(self.p), self.chunk


def header(transmissions: int, chunk: str = "chunk", with_source: bool = True) -> str:
    """The first line of a file of results."""
    kinds = ["failed", "failed_codeblocks", "left", *(["erased"] if with_source else [])]
    counts = [f"{name}_{n}" for name in kinds for n in range(1, transmissions + 1)]
    return ",".join(["p", chunk, "rounds", "c", *counts, *(["source"] if with_source else [])])


def line_from(text: str) -> Line | None:
    """The line of a text, or nothing if it is none."""
    fields = text.strip().split(",")
    source = fields.pop() if SOURCE.fullmatch(fields[-1]) else ""
    n, rest = divmod(len(fields) - 4, 4 if source else 3)
    if rest or n < 1:
        return None
    erased = tuple(fields[4 + 3 * n :])
    try:
        p, (chunk, rounds, c, *counts) = float(fields[0]), map(int, fields[1 : 4 + 3 * n])
    except ValueError:
        return None
    if source and repr(p) != fields[0]:
        return None
    if not 0 <= p <= 1 or min(chunk, rounds - 1, c - 1, *counts) < 0 or not all(map(COUNTS.fullmatch, erased)):
        return None
    failed, failed_codeblocks, left = (tuple(counts[k * n : k * n + n]) for k in range(3))
    return Line(p, chunk, rounds, c, failed, failed_codeblocks, left, erased, source)


def contradiction(line: Line) -> str | None:
    """What a line says that no chunk can, or None. A round over flipped bits fails without an undecided code block."""
    for after, (failed, blocks, left) in enumerate(zip(line.failed, line.failed_codeblocks, line.left), 1):
        if failed > line.rounds:
            return f"failed_{after} is {failed} of {line.rounds} rounds"
        if blocks > failed * line.c:
            return f"failed_codeblocks_{after} is {blocks} in {failed} failed rounds of {line.c} code blocks"
        if failed > blocks and (blocks or left):
            return f"failed_{after} is {failed}, more than failed_codeblocks_{after}, which is {blocks}"
        if left < blocks or left and not blocks:
            return f"left_{after} is {left} in {blocks} failed code blocks"
    return None


def line_at_end(text: str) -> Line | None:
    """The whole line, with its source, that stands after the beginning of another one; or nothing if there is none. A
    line begins with a probability as Python writes it, and no other field looks like one."""
    for found in PROBABILITY.finditer(text):
        line = line_from(text[found.start() :])
        if line and line.source and repr(line.p) == found[1]:
            return line
    return None


def say(text: str) -> None:
    """A word on standard error."""
    print(f"{name_of('curve')}: {text}", file=sys.stderr)


def note(text: str) -> None:
    """A word on standard error that is no fault."""
    say(f"{NOTE}{text}")


def lines_from(path: pathlib.Path | str) -> list[Line]:
    """The lines of a file of results, with its header or without. A line that was cut off while it was written is ignored, and a
    message says so. If any line has a source, the same holds for lines without one or with another number of transmissions. A
    line that contradicts itself is an error."""
    text = files.text_of(path, files.RESULTS)
    found: list[tuple[int, Line]] = []
    ignored: list[str] = []
    for number, one in enumerate(text.splitlines(keepends=True), 1):
        line = line_from(one)
        if not one.endswith(("\n", "\r")):
            ignored.append("the last line has no end")
        elif line:
            found.append((number, line))
        elif one.startswith("p,chunks,"):
            raise Failed(f"{path}: these are sums of chunks, as merge --total writes them, and would count twice")
        elif one.strip() and not one.startswith(("p,chunk,", "#")):
            line = line_at_end(one)
            found += [(number, line)] if line else []
            ignored.append(f"line {number} {'begins with a line that was cut off' if line else 'is no line of results'}")
    kept = whole(found, ignored)
    for said in ignored[:MOST_SAID]:
        say(f"{path}: {said}; it is ignored")
    if ignored[MOST_SAID:]:
        say(f"{path}: {len(ignored) - MOST_SAID} more lines are ignored")
    if not kept and text.strip() and not text.startswith("p,chunk,"[: len(text)]) and not text.startswith("#"):
        raise Failed(f"{path}: there is no line of results in it")
    for number, line in kept:
        wrong = contradiction(line)
        if wrong:
            raise Failed(f"{path}: line {number} contradicts itself: {wrong}")
    return [line for _, line in kept]


def whole(found: list[tuple[int, Line]], ignored: list[str]) -> list[tuple[int, Line]]:
    """The lines without those that can only be the beginnings of longer ones: if any has a source, each has one, and as many
    transmissions."""
    sourced = {len(line.failed) for _, line in found if line.source}
    if len(sourced) != 1:
        return found
    ignored += [f"line {number} was cut off: it has no source, as the others have" for number, line in found if not line.source]
    return [(number, line) for number, line in found if line.source]


def log_of(path: pathlib.Path) -> pathlib.Path:
    """The log of a file of results."""
    return path.with_name(f"{path.name}.log")


@contextlib.contextmanager
def results_file(path: pathlib.Path) -> typing.Iterator[io.FileIO]:
    """The file of results, open at its end and for this run alone. If it can only be read, it is open for reading, and fails when
    it is written: a run may have nothing to do."""
    if str(path) == "-" or os.path.exists(path) and not os.path.isfile(path):
        raise Failed(f"{path} is not a regular file: results are kept there, and read again")
    may_write = not os.path.exists(path) or os.access(path, os.W_OK)
    with open(path, "a+b" if may_write else "rb", buffering=0) as file:
        try:
            fcntl.flock(file, (fcntl.LOCK_EX if may_write else fcntl.LOCK_SH) | fcntl.LOCK_NB)
        except BlockingIOError:
            raise Failed(f"{path}: another run writes there") from None
        except OSError as error:
            raise Failed(f"{path} cannot be locked there: {error.strerror}") from None
        yield file


def comments_of(path: pathlib.Path) -> list[str]:
    """The comments of a file of results."""
    return [line for line in path.read_text(encoding="utf-8").splitlines() if line.startswith("#")]


def comments_of_all(paths: typing.Sequence[pathlib.Path | str]) -> list[str]:
    """The comments of the first file that has any, and what others say beside."""
    found: list[str] = []
    for path in map(pathlib.Path, paths):
        some = comments_of(path) if path.is_file() else []
        found += head.without(some) if found else some
    return list(dict.fromkeys(found))


def rewrite(path: pathlib.Path, comments: list[str], lines: list[Line]) -> None:
    """Writes a file of results in order, unless it has the same octets already: what was there stays until all of it is on disk."""
    texts = [*comments, header(len(lines[0].failed)), *(line.text() for line in sorted(lines, key=Line.key))]
    octets = "".join(f"{text}\n" for text in texts).encode()
    whole = path.resolve()
    if whole.read_bytes() == octets:
        return
    new = whole.with_name(f".{path.name}.new")
    with named_in_faults(new):
        try:
            with open(new, "wb") as file:
                file.write(octets)
                file.flush()
                os.fsync(file.fileno())
            shutil.copymode(whole, new)
            new.replace(whole)
        except BaseException:
            new.unlink(missing_ok=True)
            raise


def merged(paths: typing.Sequence[pathlib.Path | str]) -> list[Line]:
    """The lines of all files, each chunk of a point once, by point and chunk; a failure if two disagree, or come
    from two sources."""
    found: dict[tuple[int, int], Line] = {}
    sources: dict[str, pathlib.Path | str] = {}
    shapes: dict[tuple[int, int], pathlib.Path | str] = {}
    for path in paths:
        for line in lines_from(path):
            sources.setdefault(line.source, path)
            shapes.setdefault((len(line.failed), line.c), path)
            if len(sources) > 1:
                raise Failed(two_sources(sources))
            other = found.setdefault(line.key(), line)
            if other != line:
                raise Failed(
                    f"{path}: chunk {line.chunk} of the point {line.p} stands there with other numbers than before"
                )
    judge_shapes(shapes)
    return [found[key] for key in sorted(found)]


def judge_shapes(shapes: typing.Mapping[tuple[int, int], pathlib.Path | str]) -> None:
    """Fails if files have lines of different numbers of transmissions or code blocks, each named with the file that has it
    first."""
    if len(shapes) > 1:
        (one, here), (other, there) = list(shapes.items())[:2]
        texts = [f"{path} has {sent} transmissions of {c} code blocks" for (sent, c), path in ((one, here), (other, there))]
        raise Failed(f"the results belong to different curves: {' and '.join(texts)}")


def two_sources(sources: typing.Mapping[str, pathlib.Path | str]) -> str:
    """Why lines of two sources, each with the file in which it first stands, are not taken together."""
    (one, here), (other, there) = list(sources.items())[:2]
    if not (one and other):
        old, new = (there, here) if one else (here, there)
        return f"{old} has lines without a source, of an earlier version, and {new} has lines with one"
    named = differing(one, other)
    verb = "differ" if " and " in named else "differs"
    said = f"{there} has results of another source than {here}: {named} {verb} ({one}, {other})"
    if one[DIGITS:] != other[DIGITS:]:
        return said
    return f"{said}; {name_of('curve')} audit CONF FILE --restamp tries a share of the older ones, and takes them over"


def judge(setting: Setting, lines: list[Line], paths: typing.Sequence[pathlib.Path | str]) -> None:
    """Fails if the lines of files are not of this curve; another program may have made them."""
    names = ", ".join(map(str, paths))
    if not lines:
        raise Failed(f"{names}: there is no line of results")
    there, count = lines[0].source, len(lines[0].failed)
    if count != len(setting.rvs):
        raise Failed(f"{names}: the results are of {count} transmissions, and {setting.path} has {len(setting.rvs)}")
    now = Source(there, *table_and_keys(setting)).text()
    if there and there != now:
        raise Failed(f"{names}: not the curve of {setting.path}: {differing(there, now)} differs ({there}, {now})")


def totals(lines: list[Line]) -> list[Line]:
    """The sum of the chunks of each point, by point; `chunk` is how many there are."""
    points: dict[float, list[Line]] = {}
    for line in lines:
        points.setdefault(line.key()[0], []).append(line)
    return [total(points[key]) for key in sorted(points)]


def summed(texts: typing.Iterable[str]) -> list[typing.Counter[int]]:
    """The sum of the counts of several texts, by length of code blocks."""
    groups: list[typing.Counter[int]] = []
    for counts in map(counts_from, texts):
        groups += [collections.Counter() for _ in counts[len(groups) :]]
        for group, some in zip(groups, counts):
            group.update(some)
    return groups


def total(lines: list[Line]) -> Line:
    """The sum of chunks of one point."""
    failed, code_blocks, left = (
        tuple(sum(numbers) for numbers in zip(*(getattr(line, name) for line in lines)))
        for name in ("failed", "failed_codeblocks", "left")
    )
    first, rounds = lines[0], sum(line.rounds for line in lines)
    erased = tuple(counts_text(summed(texts)) for texts in zip(*(line.erased for line in lines)))
    return Line(first.p, len(lines), rounds, first.c, failed, code_blocks, left, erased, first.source)
