"""What the reports on encoders and on receivers share: the steps, the first difference, and lines of text."""

from __future__ import annotations

import dataclasses
import datetime
import shlex
import typing
from xml.sax import saxutils

from linksim_tools.common import provenance
from linksim_tools.conform.files import Object

# How many failing cases are listed.
LISTED = 12


@dataclasses.dataclass(frozen=True)
class Record:
    """What was judged. The version is that of what made the suite, and the fingerprint is that of the suite's table."""

    command: str
    date: str
    tools: str
    program: str
    fingerprint: str
    suite: str
    profile: str
    seed: int | None

    def lines(self) -> list[str]:
        suite = f"{self.suite}, profile {self.profile}" + ("" if self.seed is None else f", seed {self.seed}")
        return [f"judged: {self.command}", f"on {self.date} by the tools of linksim {self.tools}",
                f"suite: {suite}, made by linksim {self.program}, table's fingerprint {self.fingerprint}"]


def record_of(judged: typing.Sequence[str], suite: typing.Any) -> Record:
    """The record of a command's words, or of a file of answers, with a suite."""
    words = " ".join(map(shlex.quote, judged))
    # Suites of earlier versions were made by the program.
    program = suite.made.get("library") or suite.made.get("program", "unknown")
    fingerprint = suite.made.get("fingerprint", "unknown")
    date = datetime.datetime.now(datetime.timezone.utc).strftime("%Y-%m-%d %H:%M:%S UTC")
    return Record(words, date, provenance.version_of_tools(), program, fingerprint, suite.path, suite.profile, suite.seed)


@dataclasses.dataclass(frozen=True)
class Step:
    """How many cases pass, fail, were not answered and, of encoders, could not be judged in a step, and which fail, small
    ones first."""

    name: str
    passing: int
    failing: list[str]
    not_answered: int
    unjudged: int | None = None

    def as_object(self) -> Object:
        unjudged = {} if self.unjudged is None else {"unjudged": self.unjudged}
        return {"name": self.name, "pass": self.passing, "fail": len(self.failing), "not_answered": self.not_answered,
                **unjudged, "failing": self.failing}

    @property
    def kind(self) -> str:
        """How the step is shown."""
        return "fail" if self.failing else "pass" if self.passing else "none"


@dataclasses.dataclass(frozen=True)
class First:
    """The first difference of a step, in the smallest case that fails, in lines."""

    step: str
    id: str
    difference: list[str]


@dataclasses.dataclass
class Report:
    """A report on the answers to a suite: lines about what could not be judged, and what is said and left out of account."""

    suite: typing.Any
    answered: int
    steps: dict[str, Step]
    troubles: list[str] = dataclasses.field(default_factory=list)
    notes: list[str] = dataclasses.field(default_factory=list)
    record: Record | None = None
    names: typing.Container[str] = ()

    @property
    def fails(self) -> bool:
        return any(step.failing for step in self.steps.values())

    def status(self) -> int:
        """The status: 1 if something differs or could not be judged, or if nothing was judged."""
        return 1 if self.fails or self.troubles or not self.answered else 0

    def junit(self) -> typing.Iterator[str]:
        """The lines of JUnit's XML: a test for each case, which fails in some steps, or is skipped if it was not answered."""
        failing: dict[str, list[str]] = {}
        for step in self.steps.values():
            for name in step.failing:
                failing.setdefault(name, []).append(step.name)
        skipped = [name for name in self.suite.cases if name not in self.names]
        yield '<?xml version="1.0" encoding="UTF-8"?>'
        yield (f'<testsuite name="TS 38.212 {self.suite.profile}" tests="{len(self.suite.cases)}" failures="{len(failing)}" '
               f'errors="{len(self.troubles)}" skipped="{len(skipped)}">')
        for name in self.suite.cases:
            inside = "<skipped/>" if name in skipped else ""
            if name in failing:
                inside = f"<failure message={saxutils.quoteattr('fails in ' + ', '.join(failing[name]))}/>"
            yield f"<testcase name={saxutils.quoteattr(name)}>{inside}</testcase>"
        yield from (f"<system-err>{saxutils.escape(line)}</system-err>" for line in self.troubles)
        yield "</testsuite>"

    def as_object(self) -> Object:
        return {"record": dataclasses.asdict(self.record) if self.record else None, "suite": self.suite.path,
                "profile": self.suite.profile, "cases": len(self.suite.cases), "answered": self.answered, "troubles": self.troubles,
                "notes": self.notes, "steps": {step: it.as_object() for step, it in self.steps.items()}}

    def head_lines(self) -> typing.Iterator[str]:
        """The lines of text that every report begins with: what was judged, the table of steps, and what is said of answers."""
        if self.record:
            yield from self.record.lines()
        yield f"suite {self.suite.profile}: {len(self.suite.cases)} cases, {self.answered} answered"
        wide = max(16, *(len(step.name) for step in self.steps.values()))
        yield f"{'step':{wide}} {'pass':>6} {'fail':>6} {'not answered':>13}"
        for step in self.steps.values():
            yield f"{step.name:{wide}} {step.passing:6} {len(step.failing):6} {step.not_answered:13}"
        yield from (*self.troubles, *self.notes)

    def end_line(self) -> str:
        """What is said in the end if nothing fails and all could be judged."""
        return "all that was answered agrees" if self.answered else "nothing was answered"


def counted(count: int, what: str) -> str:
    """A number of things in words: `1 case`, `2 cases`."""
    return f"{count:,} {what}" + ("" if count == 1 else "s")


def listed(names: typing.Sequence[str]) -> str:
    """The first of some cases in words, and how many more there are."""
    more = f", and {len(names) - LISTED} more" if len(names) > LISTED else ""
    return ", ".join(names[:LISTED]) + more


def what_gives(fitting: typing.Sequence[typing.Sequence[str]]) -> str:
    """The mistakes of which each gives something, one or several names together, with their verb."""
    if len(fitting) > 1:
        return "each of these gives"
    names, = fitting
    return f"{names[0]} gives" if len(names) == 1 else f"{' and '.join(names)} together give"
