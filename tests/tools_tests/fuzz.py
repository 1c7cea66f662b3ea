"""The readers of the tools over changed files, in one process: a reader ends with one short line that names the file."""

from __future__ import annotations

import argparse
import contextlib
import datetime
import io
import json
import pathlib
import random
import re
import resource
import signal
import traceback
import typing

import curve_files
import layouts
import shared
import test_table_confirm
from linksim_tools.chain import sources
from linksim_tools.common import toml_file
from linksim_tools.common.message import MOST_MESSAGE, shown
from linksim_tools.common.program import Failed
from linksim_tools.conform import code, files
from linksim_tools.conform.encoder import commands as encoders
from linksim_tools.conform.encoder import suite as own
from linksim_tools.conform.receiver import commands as receivers
from linksim_tools.conform.receiver import known_answers, steps, writing
from linksim_tools.conform.receiver.mistakes import MISTAKES
from linksim_tools.conform.receiver.suite import Kept
from linksim_tools.conform.receiver.reception import Arrival, Case
from linksim_tools.curve import commands as curves
from linksim_tools.curve import setting, status
from linksim_tools.outcome import records
from linksim_tools.table import tool as tables

MEMORY, SECONDS, MOST_LINE = 1 << 30, 10, 400
Given = argparse.Namespace
Read = typing.Callable[[str], object]


class Reader(typing.NamedTuple):
    """What reads a file, right ones to begin with, how the file's name ends, and how often it is chosen: by what it costs."""

    read: Read
    seeds: list[bytes]
    ending: str = ".txt"
    weight: float = 20


# What is put in place of a number, a word or a value of JSON.
NUMBERS = (b"", b"0", b"-1", b"1", b"2", b"3", b"255", b"256", b"4294967296", b"9" * 30, b"1e999", b"nan", b"0x1f", b"\xd9\xa1")
WORDS = (
    b"", b"-", b"{}", b"[]", b"null", b"true", b'"', b"\x1b[2J", b"\xff\xfe", b"\0", b"\r", b"\n", b",", b" ", b"=", b"#", b"{",
    b"}", b";", b"id ", b"## ", b"\xe2\x80\xa8", b"\xef\xbb\xbf", b"NO_EDGE", b"Table 5.3.2-2", b"op_type =", b"x" * 5000,
    b"[" * 2000,
)
VALUES: tuple[typing.Any, ...] = (
    None, True, -1, 0, 1, 7, 10**30, 1e999, "", "-", "0" * 99, "zz", "\x1b[2J", "x" * 5000, [], [1], [[]], {},
    {"count": 3, "hex": "ff"},
)


def changed_json(drawn: random.Random, text: bytes) -> bytes:
    """A line of JSON with another value somewhere."""
    lines = text.split(b"\n")
    at = drawn.randrange(len(lines))
    try:
        value = whole = [json.loads(lines[at])]
    except (ValueError, RecursionError):
        return text
    while True:
        keys: list[typing.Any] = list(value) if isinstance(value, dict) else list(range(len(value)))
        key = drawn.choice(keys)
        if not isinstance(value[key], (dict, list)) or not value[key] or drawn.random() < 0.2:
            break
        value = value[key]
    if drawn.random() < 0.1:
        del value[key]
    else:
        value[key] = drawn.choice(VALUES)
    lines[at] = json.dumps(*whole[:1]).encode() if whole else b""
    return b"\n".join(lines)


def changed(drawn: random.Random, seeds: list[bytes]) -> bytes:
    """A right file with some changes."""
    text = drawn.choice(seeds)
    for _ in range(drawn.choice((1, 1, 1, 2, 3, 8))):
        kind, at = drawn.randrange(9), drawn.randrange(len(text) + 1)
        end = min(len(text), at + drawn.choice((1, 1, 2, 10, 100)))
        if kind == 0 and text.lstrip()[:1] == b"{":
            text = changed_json(drawn, text)
        elif kind <= 2:
            found = re.compile(rb"[0-9.]+").search(text, at)
            if found:
                text = text[: found.start()] + drawn.choice(NUMBERS) + text[found.end() :]
        elif kind == 3:
            text = text[:at] + drawn.choice(WORDS) + text[drawn.choice((at, end)) :]
        elif kind == 4:
            text = text[:at] + bytes(drawn.randrange(256) for _ in text[at:end]) + text[end:]
        elif kind == 5:
            text = text[:at] + text[end:]
        elif kind == 6:
            text = text[:end] + text[at:end] * drawn.choice((1, 3)) + text[end:]
        elif kind == 7:
            lines = text.splitlines(keepends=True)
            drawn.shuffle(lines)
            text = b"".join(lines)
        else:
            text = text[:at] if drawn.random() < 0.3 else text[:at] + drawn.choice(seeds)[at:end] + text[end:]
    return text


def late(_number: int, _frame: object) -> None:
    raise TimeoutError(f"it took more than {SECONDS} seconds of a processor")


def wrong(reader: Reader, path: pathlib.Path) -> str | None:
    """What is wrong with how a reader ends on a file, or None."""
    said = io.StringIO()
    try:
        signal.setitimer(signal.ITIMER_VIRTUAL, SECONDS)
        with contextlib.redirect_stdout(io.StringIO()), contextlib.redirect_stderr(said):
            reader.read(str(path))
    except Failed as failed:
        text = f"tools/conform: {shown(failed, MOST_MESSAGE)}"
        if path.name not in text:
            return f"no name of the file: {text}"
        said.write(text)
    except KeyboardInterrupt:
        raise
    except BaseException:
        return traceback.format_exc()
    finally:
        signal.setitimer(signal.ITIMER_VIRTUAL, 0)
    return next((f"a line of {len(it)} characters: {it[:500]}" for it in said.getvalue().splitlines() if len(it) > MOST_LINE), None)


def receiver_suite(path: pathlib.Path) -> list[str]:
    """A suite for receivers, whose block and codeword are zeros: all of it arrives, a half, or nothing."""
    entries = files.entries_of(path)
    tables, lines = steps.Tables(entries), list[str]()
    for values in ("+" * 96, "+0" * 48, "0" * 96, "+" * 96, "q" * 96, "+-" * 48, "+" * 96, "h" * 96, "0+" * 48):
        told = [Arrival(24, 512, None, 0, 96, 2)]
        case = Case(f"case-{len(lines)}", "decoder", "zeros", told, [values], ["0" * 24])
        found = known_answers.everyone(tables, [*list(MISTAKES)[:3]], case)
        right, clash = found.pop("")
        lines.append(writing.line_of(Kept(case, right, ("open",), found, clash)))
    head = {"receiver": files.FORMAT, "profile": "quick", "seed": 1, "made": {}, "table": code.records_of(entries)}
    return [json.dumps(head), *lines]


def of_conform(folder: pathlib.Path, words: list[str], table: pathlib.Path) -> tuple[list[bytes], pathlib.Path, Given]:
    """Suites of one to three cases, the file of one, and the options of a check over it."""
    if words:
        head, *cases = receiver_suite(table)
    else:
        head, *cases = shared.tool("conform", "suite", "--table", table)[1].splitlines()
    kept = [sorted(cases, key=len)[at : at + 3] for at in (0, 3, 6)]
    suites = ["\n".join([json.dumps({**json.loads(head), "cases": len(it)}), *it, ""]).encode() for it in kept]
    path = folder / f"suite{len(words)}.jsonl"
    path.write_bytes(suites[-1])
    return suites, path, Given(suite=str(path), plain=False, only=[], json=False, html=None, junit=None, coverage=None, require=[])


def with_path(call: typing.Callable[[Given], object], given: Given, name: str, **more: object) -> Read:
    """A call of a command with the file in place of one of its words."""
    words: dict[str, typing.Any] = {**vars(given), **more}
    return lambda path: call(Given(**{**words, name: [path] if name in ("texts", "files") else path}))


def conforming(folder: pathlib.Path, table: pathlib.Path) -> dict[str, Reader]:
    """The readers of `tools/conform`."""
    found: dict[str, Reader] = {}
    checks: list[tuple[str, list[str], typing.Callable[[Given], object]]] = [
        ("encoder", [], encoders.check), ("receiver", ["receiver"], receivers.check),
    ]
    for kind, words, check in checks:
        suites, path, given = of_conform(folder, words, table)
        cases = [json.loads(line) for line in suites[-1].splitlines()[1:]]
        right = "".join(json.dumps(answer_of(it)) + "\n" for it in cases).encode()
        answers = folder / f"{kind}-answers.jsonl"
        answers.write_bytes(right)
        plain = "".join(plain_of(it) for it in cases).encode()
        found[f"{kind} suite"] = Reader(with_path(check, given, "suite", answers=str(answers)), suites, ".jsonl", 8)
        found[f"{kind} answers"] = Reader(with_path(check, given, "answers"), [right], ".jsonl", 1)
        found[f"{kind} plain"] = Reader(with_path(check, given, "answers", plain=True), [plain], ".txt", 2)
    return found


def answer_of(case: dict[str, typing.Any]) -> dict[str, typing.Any]:
    """What is answered rightly of a case of either suite."""
    if "transmissions" not in case:
        return case
    sent = case["transmissions"][0]
    return {"id": case["id"], "tx": 0, "delivered": sent["right"][0], "passed": sent["right"][1], "info": ["01"], "soft": [[1, -2]]}


def plain_of(case: dict[str, typing.Any]) -> str:
    """The same in plain words."""
    if "transmissions" in case:
        return f"id {case['id']} tx 0 delivered {case['transmissions'][0]['right'][0] or '-'} passed 1\n"
    return f"id {case['id']} sent {case['sent']['hex']} E {','.join(str(it['E']) for it in case['codeblocks'])} k0 0 attached 01\n"


def read_run(path: str) -> None:
    """The text of `linksim run` as JSON, from standard input, which has no name: the one that a user gave stands for it."""
    try:
        records.copied(io.BytesIO(pathlib.Path(path).read_bytes()), io.StringIO(), "json", True)
    except Failed as failed:
        raise Failed(f"{path}: {failed}") from None


def readers(folder: pathlib.Path) -> dict[str, Reader]:
    """All of them, by name; the folder keeps the files beside the changed one."""
    entries = shared.drawn_entries(2)
    table, words = folder / "table.csv", test_table_confirm.line(2, 26, entries)
    operation, = test_table_confirm.operations("id a rate2048 512 rv 0 g 200 qm 2 a 0102030405", entries)
    table.write_text(shared.table_text({2: entries}))
    (folder / "right.jsonl").write_text(shared.made("vectors", "one", "--table", table, "--a", "8", "--g", "24"))
    matrices = "\n".join(layouts.MATRICES["C"](2, rows) for rows in layouts.matrices(2, entries)).encode()
    printed = layouts.text(2, [layouts.side_by_side(layouts.halves(entries))]).encode()
    curve = curve_files.text_of(table, curve_files.SHORT, {"points": [0.1, 0.5], "rounds": 50, "errors": 20, "chunks": 9}).encode()
    results = (shared.EXAMPLES / "curve.csv").read_bytes().splitlines(keepends=True)
    named: Given = Given(table=str(table), out="-", form="mem", z=[], graph=[2], old_table=None)
    merge = Given(missing=None, total=False, points=None, chunks=None)
    case = Given(vector=None, suite=None, settings=None, case="case-1", table=str(table))
    now = datetime.datetime.now(datetime.timezone.utc)
    conform = conforming(folder, table)
    suites = [it for kind in ("encoder suite", "receiver suite") for it in conform[kind].seeds]
    cases = [b"id a rate2048 512 rv 1 g 24 qm 2 a 01\n# a\nid b rate2048 1024 g 48 mask 1 lbrm 200 a 0102\n"]
    return {
        **conform,
        "cases": Reader(lambda path: own.own_cases(path, {2: []}), cases, ".txt", 100),
        "settings": Reader(toml_file.settings_of, [b"rate2048 = 1024\nlbrm = 3000\n"], ".toml", 200),
        "curve": Reader(setting.read_setting, [curve], ".toml", 200),
        "results": Reader(with_path(curves.do_merge, merge, "files"), [b"".join(results[:9]), b"".join(results[-5:])], ".csv", 100),
        "missing": Reader(with_path(curves.do_merge, merge, "missing", files=[]), [b"".join(results[:40])], ".csv", 100),
        "status": Reader(lambda path: list(status.lines(pathlib.Path(path), now)), [b"".join(results[:60])], ".csv", 50),
        "table file": Reader(with_path(tables.read, named, "texts"), [table.read_bytes()], ".csv", 5),
        "table text": Reader(with_path(tables.read, named, "texts"), [printed, printed.replace(b"  ", b"\t")], ".txt", 1),
        "matrices": Reader(with_path(tables.read, named, "texts"), [matrices], ".h", 0.2),
        "rom": Reader(with_path(tables.write_rom, named, "table"), [table.read_bytes(), *suites], ".csv", 5),
        "vectors": Reader(with_path(tables.confirm, named, "files"), [words.encode(), operation.encode()], ".data", 20),
        "chain": Reader(with_path(sources.source_of, case, "vector"), [(folder / "right.jsonl").read_bytes()], ".json", 20),
        "case": Reader(with_path(sources.source_of, case, "suite"), suites, ".jsonl", 20),
        "run": Reader(read_run, [b"sent 1 2 0a\nblock 1 open tx 2 failed 1 of 1\ntotal blocks 1 delivered 0\n"], ".txt", 150),
    }


def limit_memory() -> None:
    """No more than MEMORY for this process, from now on."""
    resource.setrlimit(resource.RLIMIT_AS, (MEMORY, MEMORY))
