"""What the tests of tools/conform receiver share. It is a suite of the profile `quick` that is made once, a receiver in
C, and what receivers with mistakes answer."""

from __future__ import annotations

import concurrent.futures
import dataclasses
import functools
import pathlib
import re
import subprocess
import typing

import conform_shared
import shared
from linksim_tools.conform.receiver import answers as answering
from linksim_tools.conform.receiver import known_answers, report
from linksim_tools.conform.receiver import suite as suites
from linksim_tools.conform.receiver.diagnosis import Diagnosis
from linksim_tools.conform.receiver.reception import MODEL, Level

if typing.TYPE_CHECKING:
    from linksim_tools.conform.receiver.chain import Receiver

FOLDER = shared.EXAMPLES / "receiver"


@functools.lru_cache(None)
def table() -> pathlib.Path:
    """The path of a table of both base graphs: the two example tables, as docs/receivers.md has them."""
    path = conform_shared.folder() / "examples.csv"
    path.write_text("".join((shared.EXAMPLES / f"{name}.csv").read_text() for name in ("drawn", "practice")))
    return path


@functools.lru_cache(None)
def suite_path() -> pathlib.Path:
    """The path of a suite of the profile `quick`."""
    status, output, error = shared.tool("conform", "receiver", "suite", "--table", table())
    assert status == 0 and re.fullmatch("(no pattern is found for [0-9]+ cases, which are left out: .*\n)?", error), error
    path = conform_shared.folder() / "receivers.jsonl"
    path.write_text(output)
    return path


@functools.lru_cache(None)
def suite() -> suites.Suite:
    """The same as it is read."""
    return suites.read(suite_path())


# Small cases of every kind; a suite of these alone is read at once.
FEW = ("nothing-24", "flip-24", "processes-far-24", "a8-rv1-limit47-even", "mirror-k0-shifted", "fresh-24")


@functools.lru_cache(None)
def few_path() -> pathlib.Path:
    """The path of a suite of a few cases of the same."""
    return conform_shared.some_of(suite_path(), FEW, "few-receivers.jsonl")


@functools.lru_cache(None)
def few() -> suites.Suite:
    """The same as it is read."""
    return suites.read(few_path())


def receiver(*words: object, **options: typing.Any) -> tuple[int, str, str]:
    """The status, the standard output and the standard error of `tools/conform receiver`."""
    return shared.tool("conform", "receiver", *words, with_program=False, **options)


@functools.lru_cache(None)
def built(name: str) -> pathlib.Path:
    """The path of the program of an example in C."""
    path = conform_shared.folder() / f"built-{name}"
    words = ["cc", "-std=c99", "-Wall", "-Wextra", "-Werror", "-O3", "-o", path, FOLDER / f"{name}.c", "-lm"]
    status, output, error = shared.run(words)
    assert (status, output, error) == (0, b"", b""), error.decode()
    return path


@functools.lru_cache(None)
def asked(level: Level) -> bytes:
    """All lines of the suite as plain words."""
    manner = answering.Manner(level, plain=True)
    lines = [line for kept in suite().cases.values() for line in answering.lines_of(kept.case, manner)]
    return "".join(f"{line}\n" for line in lines).encode()


def answered(level: Level, *words: str) -> answering.Answers:
    """What the receiver in C answers to the suite, with these words of its own."""
    command = [str(built("receiver")), str(table()), *words]
    ended = subprocess.run(command, input=asked(level), stdout=subprocess.PIPE, check=True, timeout=shared.SECONDS)
    there: answering.Answers = {}
    for line in ended.stdout.splitlines():
        answering.take(line, True, suite(), there)
    return there


def side_by_side(some: typing.Sequence[tuple[Level, str]]) -> typing.Iterator[tuple[Level, str, answering.Answers]]:
    """The answers of several receivers, of which a few run at a time."""
    built("receiver")
    for level, _ in some:
        asked(level)
    with concurrent.futures.ThreadPoolExecutor(3) as pool:
        waiting = [pool.submit(answered, level, *words.split()) for level, words in some]
        for (level, words), it in zip(some, waiting):
            yield level, words, it.result()


def answers_of(
    kind: type[Receiver], every_level: bool = False, level: Level = MODEL, of: suites.Suite | None = None
) -> answering.Answers:
    """What such a receiver of the model answers to a suite, its blocks and which code blocks passed or all that it has."""
    of = of or suite()
    found: answering.Answers = {}
    for name, kept in of.cases.items():
        answers = known_answers.taken(kind(of.tables), kept.case, level)
        found[name] = [it if every_level else dataclasses.replace(it, info=None, soft=None) for it in answers]
    return found


def of_model(mistake: str, levels: int = 1) -> Diagnosis:
    """The diagnosis of what the suite says a receiver with this mistake hands up: blocks, and after them so much more."""
    found = Diagnosis(suite(), {})
    for name, kept in suite().cases.items():
        told = kept.answers(mistake)[0]
        found.words[name] = [(*words[:levels], *(None,) * (len(words) - levels)) for words in told]
        found.also[name] = found.accepted(name, [None] * len(told))
    found.judged = [name for name, kept in suite().cases.items() if kept.known and not found.is_doubt(name)]
    return found


def reported(answers: answering.Answers) -> report.Report:
    """The report on these answers."""
    return report.report(suite(), answers)


def reported_of(kind: type[Receiver], **options: typing.Any) -> tuple[report.Report, str]:
    """The report on what such a receiver of the model answers to the suite, and its lines of diagnosis and doubt."""
    made = reported(answers_of(kind, **options))
    return made, "\n".join([*(made.diagnosis.says() if made.diagnosis else ()), *made.doubts])
