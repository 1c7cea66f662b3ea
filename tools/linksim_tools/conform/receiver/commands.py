"""The words of `tools/conform receiver`, and what they list of a suite."""

from __future__ import annotations

import argparse
import dataclasses
import gc
import typing

from linksim_tools.common.command_line import write
from linksim_tools.common.message import shown
from linksim_tools.common.program import Failed, add_program, program_at
from linksim_tools.conform import bits, page
from linksim_tools.conform.commands import Words, chosen, command_of, number_in, reported, written
from linksim_tools.conform.receiver import answers as answering
from linksim_tools.conform.receiver import doubts, known_answers, report
from linksim_tools.conform.receiver import suite as suites
from linksim_tools.conform.receiver.chain import Receiver
from linksim_tools.conform.receiver.diagnosis import Diagnosis
from linksim_tools.conform.receiver.mistakes import DOUBT, MISTAKES, STEPS
from linksim_tools.conform.receiver.reception import Level
from linksim_tools.conform.report import record_of

EXAMPLES = """
examples:
  tools/conform receiver suite --table table.csv --out receivers.jsonl
  tools/conform receiver run receivers.jsonl -- python3 my_receiver.py
  tools/conform receiver check receivers.jsonl answers.jsonl

Exit status: 0 if all answers agree, 1 if any differs or could not be judged, or a file could not be
read, 2 for a usage error.
"""
TITLE = "Conformance of a receiver with TS 38.212"
ABOUT = f"{TITLE}: a suite of cases, and a check that names the mistake."


def manner_of(given: argparse.Namespace) -> answering.Manner:
    level = Level(1, given.bits, given.positive)
    level = dataclasses.replace(level, strong=given.level or min(16, level.largest))
    for strong in (level.strong, *(getattr(given, "levels", None) or ())):
        if strong > level.largest:
            raise Failed(f"--level {strong} is not a value of --bits {level.bits}: the largest is {level.largest}")
    more = {name: getattr(given, name) for name in ("plain", "seconds", "restart", "skip") if hasattr(given, name)}
    return answering.Manner(level, **{"plain": True, **more})


def suite_lines(program: str | None, *words: typing.Any) -> list[str]:
    """The lines of a suite. What they alone need is loaded here: `check` is to be done at once."""
    from linksim_tools.conform.receiver import writing
    return writing.written(program_at(program), *words)


def show(suite: suites.Suite, name: str, manner: answering.Manner) -> typing.Iterator[str]:
    """One case: its lines, and after each what is right and what the program proves."""
    if name not in suite.cases:
        raise Failed(f"{suite.path} has no case {shown(name)}")
    kept = suite.cases[name]
    yield f"# {name}: {kept.case.what}"
    for line, answer, proved in zip(answering.lines_of(kept.case, manner), Receiver(suite.tables).answers(kept.case), kept.proved):
        yield line
        block = known_answers.NONE if answer.delivered is None else bits.hexadecimal(answer.delivered)
        yield f"# right: delivered {block} passed {answer.passed}; the program proves: {proved}"


def plain(suite: suites.Suite, manner: answering.Manner) -> typing.Iterator[str]:
    for kept in suite.cases.values():
        if manner.level.asks(kept.case):
            yield from answering.lines_of(kept.case, manner)


def shows(kept: suites.Kept, name: str) -> bool:
    return kept.known and known_answers.blocks(kept.answers(name)[0]) != known_answers.blocks(kept.right)


def mistakes(suite: suites.Suite) -> typing.Iterator[str]:
    """A line for each mistake: how many cases show it, its step, name and clause, and which mistakes have the same blocks."""
    known = [kept for kept in suite.cases.values() if kept.known]
    found = {name: tuple(known_answers.blocks(kept.answers(name)[0]) for kept in known) for name in MISTAKES}
    for name, mistake in MISTAKES.items():
        count = sum(shows(kept, name) for kept in known)
        same = [other for other in MISTAKES if other != name and count and found[other] == found[name]]
        alike = f" (the same blocks as {', '.join(same)})" if same else ""
        yield f"{count:5} {STEPS[mistake.step]:27} {name} ({mistake.clause}): {mistake.wrong}{alike}"


def points(suite: suites.Suite) -> typing.Iterator[str]:
    """A line for each case: how many transmissions and values it has, how many mistakes it shows, its step, and what it is for."""
    yield f"{'case':36} {'tx':>3} {'values':>8} {'shows':>6} step"
    for name, kept in suite.cases.items():
        count = sum(shows(kept, mistake) for mistake in MISTAKES)
        step = STEPS.get(kept.case.step, DOUBT)
        what = f": {kept.case.what}" if kept.case.what else ""
        yield f"{name:36} {len(kept.case.arrivals):3} {kept.case.size:8} {count:6} {step}{what}"


def lines(listed: typing.Callable[..., typing.Iterable[str]], *names: str) -> typing.Callable[[argparse.Namespace], None]:
    """Writes the lines of a suite, as this function of the listing has them."""
    return lambda given: write(listed(suites.read(given.suite), *(
        manner_of(given) if name == "manner" else getattr(given, name) for name in names)), given.out)


def judged(given: argparse.Namespace, suite: suites.Suite, answers: answering.Answers, troubles: list[str], notes: list[str],
           words: list[str], levels: typing.Sequence[str] = ()) -> int:
    """Writes the report of these answers, and says the status."""
    made = report.report(suite, answers, troubles, notes, record_of(words, suite))
    made.levels += levels
    return reported(given, made, report.text(made), page.document(TITLE, page.of_report(made, report.text(made))))


def check(given: argparse.Namespace) -> int:
    """Judges a file of answers. What is made for it stays until the end: to look for what does not takes a tenth of the time."""
    gc.disable()
    suite = suites.read(given.suite)
    answers, troubles, notes = answering.read(given.answers, suite, given.plain)
    suite = chosen(suite, given.only)
    answers = {name: it for name, it in answers.items() if name in suite.cases}
    return judged(given, suite, answers, troubles, notes, [given.answers])


def go(given: argparse.Namespace) -> int:
    """Runs a receiver and judges what it answers."""
    command, manner, suite = command_of(given), manner_of(given), chosen(suites.read(given.suite), given.only)
    levels = sorted(dataclasses.replace(manner.level, strong=it) for it in given.levels or ())
    if not levels:
        return judged(given, suite, *answering.asked(command, suite, manner), command)
    found: dict[Level, tuple[answering.Answers, list[str], list[str]]] = {}
    for level in levels:
        if not answering.Run.interrupted:
            found[level] = answering.asked(command, suite, dataclasses.replace(manner, level=level))
    failing = {level: Diagnosis(suite, it[0]).failing for level, it in found.items()}
    # The report is on the first level with trouble, or at which something fails.
    first = next((it for it in levels if found[it][1] or failing[it]), levels[0])
    whole = set(suite.cases).intersection(*({name for name, it in there.items() if None not in it} for there, *_ in found.values()))
    return judged(given, suite, *found[first], command, doubts.of_levels(suite, failing, whole))


def levels_of(text: str) -> list[int]:
    return [int(it) for it in map(number_in(1, 1 << 15, int), text.split(","))]


def add_level(command: argparse.ArgumentParser) -> None:
    """The options that say what values are."""
    strong, bits = number_in(1, 1 << 15, int), number_in(1, 16, int)
    command.add_argument("--level", type=strong, metavar="N", help="a strong value (16, or the largest of fewer bits)")
    command.add_argument("--bits", type=bits, default=8, metavar="N", help="how many bits a value has; 1 for hard decisions (8)")
    command.add_argument("--positive", type=int, choices=(0, 1), default=0, help="which bit a positive value means (0)")


def options() -> argparse.ArgumentParser:
    words = Words(ABOUT, EXAMPLES, "receiver")
    made, _ = words.add_suite(written(suite_lines, "program", "table", "profile", "seed"))
    add_program(made)
    _, asks = words.add_judges(check, go, "a receiver")
    asks.add_argument("--restart", action="store_true", help="starts the command anew for each case, and writes no `reset`")
    asks.add_argument("--levels", type=levels_of, metavar="N,..",
                      help="runs it at each of these strong values, and tells them together")
    writes = words.add("plain", lines(plain, "manner"), "writes the cases as lines of plain words", "--level 8")
    shows = words.add("show", lines(show, "id", "manner"), "writes one case, and what is right of it", "nothing-24")
    shows.add_argument("id", metavar="ID", help="the id of the case")
    words.add("mistakes", lines(mistakes), "writes the known mistakes, each with the number of cases that show it")
    words.add("points", lines(points), "writes what each case is for, and how many mistakes it shows")
    for command in (asks, writes, shows):
        add_level(command)
    return words.parser
