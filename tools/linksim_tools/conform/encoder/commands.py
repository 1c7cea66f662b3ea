"""The words of `tools/conform encoder`, which are those without a kind too."""

from __future__ import annotations

import argparse
import json
import typing

from linksim_tools.common.command_line import add_out, hint
from linksim_tools.common.message import shown
from linksim_tools.common.program import Failed
from linksim_tools.conform.bits import PACKINGS
from linksim_tools.conform.case import BITS, FIELDS, STEPS, Answer
from linksim_tools.conform.commands import PROFILES, Words, chosen, command_of, reported, save, written
from linksim_tools.conform.encoder import answers as answering, design, points, report as reporting, run as running, suite as suites
from linksim_tools.conform.encoder.judging import NOTHING, Trial
from linksim_tools.conform.encoder.mistakes import MISTAKES
from linksim_tools.conform.encoder.search import outcome
from linksim_tools.conform.files import head_of, json_line, numbered_lines, vector_lines
from linksim_tools.conform.report import record_of
from linksim_tools.conform.run import until_interrupted
from linksim_tools.rtl import beats, suite_files

EXAMPLES = """
examples:
  tools/conform suite --table table.csv --out suite.jsonl
  tools/conform run suite.jsonl -- python3 my_encoder.py
  tools/conform check suite.jsonl answers.jsonl

Exit status: 0 if all answers agree, 1 if any differs or could not be judged, or a file could not be
read, 2 for a usage error.
"""
ABOUT = ("Conformance of an encoder with TS 38.212: a suite of cases, and a check that names the mistake; "
         "`receiver` before COMMAND does the same for a receiver.")


def show(path: str, wanted: str) -> typing.Iterator[str]:
    """A case of a suite file, as tools/vectors writes it: an object with a code block a line."""
    lines = numbered_lines(path)
    head_of(path, next(lines, (1, "")), "conform", set())
    value = next((it for it in (json_line(path, *numbered) for numbered in lines) if it.get("id") == wanted), None)
    if value is None:
        raise Failed(f"{path} has no case {shown(wanted)}")
    parts, sent = value.pop("codeblocks"), value.pop("sent")
    return vector_lines(value, map(json.dumps, parts), sent)


def plain(path: str) -> typing.Iterator[str]:
    """The cases of a suite as plain words."""
    suite = suites.read(path)
    return (suites.words_of(case, suite.values[case.id].plan.c) for case in suite.cases.values())


def mistakes(path: str) -> typing.Iterator[str]:
    """A line for each mistake: how many cases show it, its name and clause, and which mistakes give the same bits in all cases."""
    suite, right = suites.read(path), ""
    candidates = {right: NOTHING, **{name: frozenset([it]) for name, it in MISTAKES.items()}}
    found: dict[str, list[int | None]] = {name: [] for name in candidates}
    for case in suite.cases:
        trial = Trial(suite, case, Answer())
        for name, wrong in candidates.items():
            made = [outcome(trial, field, wrong) for field in BITS]
            found[name].append(None if None in made else hash(repr(made)))
        trial.forget()
    for name, it in MISTAKES.items():
        count = sum(one != two for one, two in zip(found[name], found[right]))
        same = [other for other in MISTAKES if other != name and count and found[other] == found[name]]
        alike = f" (the same bits as {', '.join(same)})" if same else ""
        yield f"{count:5} {STEPS[it.step][0]:15} {name} ({it.clause}): {it.wrong}{alike}"


def export(given: argparse.Namespace) -> None:
    """Writes a suite as memory files by code block."""
    bus = beats.Bus(given.width, given.first)
    if given.dir is not None:
        hint(given.parser.prog, "--out DIR")
    elif given.out is None:
        given.parser.error("--out is required")
    suite_files.write(suites.read(given.suite), given.dir or given.out, bus, given.form)


def judged(given: argparse.Namespace, suite: suites.Suite, answers: dict[str, Answer], troubles: list[str], notes: list[str],
           words: list[str]) -> int:
    """Writes the report of these answers, and says the status."""
    made = reporting.report(suite, answers, troubles, notes)
    made.lacking = [*reporting.required(suite, answers, given.require)]
    made.record = record_of(words, suite)
    failing = sorted({name for step in made.steps.values() for name in step.failing}, key=list(suite.cases).index)
    save(given.coverage, points.coverage([suite.cases[name] for name in suite.cases if name in made.names], failing))
    if getattr(given, "twice", False) and not running.Run.interrupted:
        with until_interrupted(made.troubles):
            made.twice = running.again(form_of(given), suite, answers, failing)
    return reported(given, made, reporting.text(made), reporting.page_lines(made))


def check(given: argparse.Namespace) -> int:
    suite = suites.read(given.suite)
    answers, troubles, notes = answering.read(given.answers, suite, given.plain)
    suite = chosen(suite, given.only)
    answers = {name: it for name, it in answers.items() if name in suite.cases}
    return judged(given, suite, answers, troubles, notes, [given.answers])


def form_of(given: argparse.Namespace) -> running.Form:
    return running.Form(command_of(given), given.plain, given.pack, given.seconds, given.skip)


def run(given: argparse.Namespace) -> int:
    form, suite = form_of(given), chosen(suites.read(given.suite), given.only)
    return judged(given, suite, *running.answers(form, suite), given.command)


def names_of(text: str) -> list[str]:
    """Names of an answer with commas between."""
    names = text.split(",")
    odd = [name for name in names if name not in FIELDS]
    if odd:
        raise argparse.ArgumentTypeError(f"{shown(odd[0])} is not one of {', '.join(FIELDS)}")
    return names


def add_judges(words: Words) -> None:
    one, two = words.add_judges(check, run, "an encoder")
    two.add_argument("--twice", action="store_true", help="asks failing cases again, alone and after themselves")
    two.add_argument("--pack", choices=PACKINGS, default="hex", help="how the block is written (hex)")
    for command in (one, two):
        command.add_argument("--coverage", metavar="FILE",
                             help="a file of the points that the answered cases cover, and of how many fail")
        command.add_argument("--require", type=names_of, action="extend", default=[], metavar="NAME,..",
                             help="status 1 if a case lacks one of these names of an answer, as sent")


def add_export(words: Words) -> None:
    about = "writes a suite as memory files by code block, for testbenches"
    command = words.add("export", export, about, "--form axis --width 64 --out memories", out=False)
    command.add_argument("dir", nargs="?", help=argparse.SUPPRESS)
    add_out(command, "the folder to write, new or empty", None)
    forms = "data, beats of an AXI4-Stream, or files of DPDK's test-bbdev (mem)"
    command.add_argument("--form", choices=beats.FORMS, default="mem", help=forms)
    command.add_argument("--width", type=int, default=32, metavar="N", help="the bits of a beat, 1 to 512 (32)")
    command.add_argument("--first", choices=beats.FIRSTS, default="lsb", help="the first bit of a beat: lowest or highest (lsb)")


def options(with_kinds: bool) -> argparse.ArgumentParser:
    """The command line's parser. It shows the words `encoder` and `receiver` if neither was written."""
    words = Words(ABOUT, EXAMPLES)
    suite, which = words.add_suite(written(suites.written, "table", "profile", "seed", "pack", "cases"))
    which.add_argument("--cases", metavar="FILE", help="your own cases, as lines of plain words")
    suite.add_argument("--pack", choices=PACKINGS, default="hex", help="how lists of bits are written (hex)")
    add_judges(words)
    words.add("plain", written(plain, "suite"), "writes the cases of a suite as lines of plain words", "--out cases.txt")
    said = "writes one case of a suite as a set of vectors holds it"
    shows = words.add("show", written(show, "suite", "id"), said, "kb-560")
    shows.add_argument("id", metavar="ID", help="the id of the case")
    said = "writes the known mistakes, each with the number of cases that show it"
    words.add("mistakes", written(mistakes, "suite"), said)
    add_export(words)
    said = "writes the points of the clauses, each with the number of cases that cover it"
    by_profile = written(lambda: points.lines({profile: design.designed(profile, 1) for profile in PROFILES}))
    words.add("points", by_profile, said, suite=False)
    if with_kinds:
        words.whole.commands.add_parser("encoder", help="before one of these words: of an encoder, as without it")
        words.whole.commands.add_parser("receiver", help="before one of these words: the same of a receiver")
    return words.parser
