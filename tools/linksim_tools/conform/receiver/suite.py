"""The suite as a file: a head with the table, and then a case a line. A case has its transmissions with their values, a
character each. It also has what is right after each of them, and what receivers with the known mistakes answer."""

from __future__ import annotations

import dataclasses
import itertools
import pathlib

from linksim_tools.conform import bits as lists
from linksim_tools.conform import files
from linksim_tools.conform.receiver import steps
from linksim_tools.conform.receiver.mistakes import DOUBT, STEPS
from linksim_tools.conform.receiver.known_answers import Shown
from linksim_tools.conform.receiver.reception import Arrival, Case

# What a case of a suite has of a transmission beside its values.
TOLD = ("process", "fresh", "a", "rate2048", "lbrm", "rv", "g", "qm", "nl", "mask")


def either(one: str, other: str) -> str:
    """Which code blocks pass by the digits of one or of the other."""
    return "".join(map(max, itertools.zip_longest(one, other, fillvalue="0")))


@dataclasses.dataclass(frozen=True)
class Kept:
    """A case as a suite has it: what a right receiver answers, and what the program proves after each transmission. Of each mistake
    that answers otherwise it has the answers and whether some row was not met."""

    case: Case
    right: Shown
    proved: tuple[str, ...]
    wrong: dict[str, tuple[Shown, bool]]
    clash: bool = False
    known: bool = True

    def passed_before(self) -> list[str]:
        """Which code blocks passed before each transmission in the same round, a digit each."""
        passed: dict[int, str] = {}
        found = []
        for told, right in zip(self.case.arrivals, self.right):
            found.append("" if told.fresh else passed.get(told.process, ""))
            passed[told.process] = either(found[-1], right[1])
        return found

    def answers(self, name: str) -> tuple[Shown, bool]:
        """What a receiver with this mistake answers."""
        return self.wrong.get(name, (self.right, self.clash))


@dataclasses.dataclass(frozen=True)
class Suite:
    """A suite as it was read."""

    path: str
    profile: str
    seed: int
    made: dict[str, str]
    tables: steps.Tables
    cases: dict[str, Kept]


def told_of(told: Arrival) -> files.Object:
    """What a receiver is told of a transmission, as JSON has it."""
    mask = "all"
    if told.mask is not None:
        count = steps.sizes(told.a, told.rate2048).c
        mask = "".join("1" if r in told.mask else "0" for r in range(count))
    found = {name: getattr(told, name) for name in TOLD}
    return {**found, "fresh": int(told.fresh), "mask": mask}


def case_of(value: files.Object) -> Kept:
    arrivals, values, meant = [], [], []
    for it in value["transmissions"]:
        mask = None if it["mask"] == "all" else tuple(r for r, digit in enumerate(it["mask"]) if digit == "1")
        numbers = {name: int(it[name]) for name in ("a", "rate2048", "rv", "g", "qm", "nl", "process")}
        limit = None if it["lbrm"] is None else int(it["lbrm"])
        arrivals.append(Arrival(lbrm=limit, mask=mask, fresh=bool(it["fresh"]), **numbers))
        values.append(str(it["values"]))
        meant.append(lists.of_digits(it["block"], numbers["a"]))
        if len(values[-1]) != numbers["g"] or values[-1].strip("0+-qQhHlLMiI"):
            raise ValueError("values are none")
    right = tuple(tuple(map(str, it["right"])) for it in value["transmissions"])
    wrong: dict[str, tuple[Shown, bool]] = {}
    for group in value["wrong"]:
        answers = tuple(tuple(map(str, it)) for it in group["answers"])
        wrong.update(dict.fromkeys(group["mistakes"], (answers, bool(group["clash"]))))
    rounds = None if value["rounds"] is None else (int(value["rounds"][0]), int(value["rounds"][1]))
    if value["step"] not in (*STEPS, DOUBT) or not arrivals:
        raise ValueError("no such step")
    case = Case(str(value["id"]), value["step"], str(value["what"]), arrivals, values, meant, str(value["mirror"]), rounds)
    proved = tuple(str(it["proved"]) for it in value["transmissions"])
    return Kept(case, right, proved, wrong, bool(value["clash"]), bool(value["known"]))


def read(path: str | pathlib.Path) -> Suite:
    head, tables, cases = files.suite_of(path, "receiver", {"profile", "seed", "made"}, case_of)
    made = {str(name): str(value) for name, value in head["made"].items()}
    return Suite(str(path), str(head["profile"]), int(head["seed"] or 0), made, steps.Tables(tables), cases)
