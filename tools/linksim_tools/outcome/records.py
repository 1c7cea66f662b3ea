"""The text of `linksim run` as lines of JSON or CSV, one at a time (docs/formats.md)."""

from __future__ import annotations

import csv
import json
import pathlib
import subprocess
import typing

from linksim_tools.common.message import shown
from linksim_tools.common.program import Failed

Object = typing.Dict[str, typing.Any]
OUTCOMES = {"delivered": "delivered", "open": "undecided", "contradiction": "inconsistent"}
# The columns of CSV. An object of JSON has those that are not empty.
COLUMNS = (
    "kind", "transmission", "process", "block", "error", "left", "sent", "outcome", "transmissions", "codeblocks", "failed",
    "payload", "count", *OUTCOMES.values(),
)


def of_sent(words: list[str]) -> Object:
    return {"kind": "transmission", "transmission": int(words[1]), "block": int(words[2]), "left": [], "sent": words[3]}


def of_refused(words: list[str]) -> Object:
    return {"kind": "transmission", "transmission": int(words[1]), "block": int(words[2]), "error": words[3]}


def of_block(words: list[str]) -> Object:
    """A line `block 1 open tx 1 failed 1 of 1`, or `block 1 delivered tx 2 failed 0 of 1 01`."""
    found = {"kind": "block", "block": int(words[1]), "outcome": OUTCOMES[words[2]], "transmissions": int(words[4])}
    found.update({"codeblocks": int(words[8]), "failed": int(words[6])})
    return {**found, **({"payload": words[9]} if words[2] == "delivered" else {})}


def of_process(words: list[str]) -> Object:
    """The line of a round of a HARQ process, which has that of its block."""
    return {**of_block(words[2:]), "kind": "round", "process": int(words[1])}


def of_total(words: list[str]) -> Object:
    """The last line, which counts the blocks or the rounds."""
    numbers = dict(zip(words[1::2], map(int, words[2::2])))
    counts = {told: numbers[name] for name, told in OUTCOMES.items()}
    return {"kind": "total", "count": int(words[2]), **counts, "codeblocks": numbers["codeblocks"], "failed": numbers["failed"]}


READERS = {"sent": of_sent, "refused": of_refused, "block": of_block, "process": of_process, "total": of_total}


def objects(lines: typing.Iterable[bytes]) -> typing.Iterator[Object]:
    """An object for each transmission, each block or round, and the total of a text of `run`."""
    held: Object = {}
    for number, line in enumerate(lines, 1):
        words = line.decode("ascii", "replace").split()
        try:
            if words[0] == "left":
                held["left"].append(int(words[4]))
                continue
            found = READERS[words[0]](words)
        except (LookupError, ValueError):
            raise Failed(f"line {number} is not one that linksim run writes: {shown(line.decode('ascii', 'replace'))}") from None
        if held:
            yield held
        held = found
    if held.get("kind") != "total":
        raise Failed("the text of linksim run ends before its last line, total")
    yield held


def copied(lines: typing.Iterable[bytes], to: typing.TextIO, form: str, with_sent: bool) -> int:
    """Writes the objects of a text as lines of JSON or of CSV."""
    records = csv.DictWriter(to, COLUMNS, lineterminator="\n")
    if form == "csv":
        records.writeheader()
    for found in objects(lines):
        if not with_sent:
            found.pop("sent", None)
        if form == "json":
            to.write(json.dumps(found) + "\n")
        else:
            records.writerow({**found, "left": " ".join(map(str, found.get("left", [])))})
    return 0


def ran(program: pathlib.Path, words: dict[str, str], to: typing.TextIO, form: str, with_sent: bool) -> int:
    """Runs `linksim run` with these files, and writes what it says as it comes."""
    given = [word for name, path in words.items() for word in (f"--{name}", path)]
    with subprocess.Popen([str(program), "run", *given], stdout=subprocess.PIPE, stderr=subprocess.PIPE) as child:
        assert child.stdout and child.stderr
        try:
            return copied(child.stdout, to, form, with_sent)
        except Failed as failed:
            raise Failed(child.stderr.read().decode(errors="replace").strip() or failed) from None
