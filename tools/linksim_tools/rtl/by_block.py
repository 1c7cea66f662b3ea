"""Vectors by code block, as files that a testbench reads: each stage of each transmission, and one run of all code blocks."""

from __future__ import annotations

import dataclasses
import json
import typing

from linksim_tools.common.graphs import FACTORS
from linksim_tools.conform.bits import FILLER
from linksim_tools.rtl import bbdev
from linksim_tools.rtl.beats import Bus, memory
from linksim_tools.rtl.folder import Folder

if typing.TYPE_CHECKING:
    from linksim_tools.conform.case import Case, Plan, Values

# The words of a record of control.mem, 32 bits each, the first one highest.
CONTROL = (
    "case", "r", "graph", "set", "power", "z", "kdash", "l", "k", "n", "ncb", "k0", "rv", "e", "qm", "bits", "beats_in", "beats_out"
)


@dataclasses.dataclass(frozen=True)
class Transmission:
    """A transmission with what is right of it, by the names of an answer of tools/conform, and the points it covers."""

    case: Case
    values: Values
    covers: list[str]

    def stages(self) -> typing.Iterator[tuple[str, str]]:
        """Each stage by its name, those of a code block with its number."""
        yield "a", self.case.a
        yield "attached", self.values.attached
        for r, length in enumerate(self.values.E):
            for name in ("bits", "d", "e", "f") if length else ("bits", "d"):
                yield f"{name}_{r}", getattr(self.values, name)[r]
        yield "sent", self.values.sent


def power_of(plan: Plan) -> int:
    """j of Zc = a 2^j, where a is the factor of the set index."""
    return (plan.z // FACTORS[plan.set]).bit_length() - 1


@dataclasses.dataclass
class Run:
    """All code blocks that are sent, one after the other: numbers, bits in without their CRC24B, and f."""

    bus: Bus
    form: str
    control: list[list[int]] = dataclasses.field(default_factory=list)
    stimulus: list[str] = dataclasses.field(default_factory=list)
    expected: list[str] = dataclasses.field(default_factory=list)

    def add(self, number: int, one: Transmission) -> None:
        """Adds the code blocks of a transmission, which is the case of this number."""
        plan, values, case = one.values.plan, one.values, one.case
        for r, length in enumerate(values.E):
            if not length:
                continue
            share = values.bits[r][: plan.kdash - plan.l]
            numbers = {
                **dataclasses.asdict(plan), "case": number, "r": r, "power": power_of(plan), "ncb": values.Ncb,
                "k0": values.k0, "rv": case.rv, "e": length, "qm": case.qm, "bits": len(share),
                "beats_in": self.bus.count(share), "beats_out": self.bus.count(values.f[r]),
            }
            self.control.append([numbers[name] for name in CONTROL])
            self.stimulus += self.bus.lines(self.form, share)
            self.expected += self.bus.lines(self.form, values.f[r])

    def write(self, folder: Folder) -> None:
        """Writes the run, and how long its memories are."""
        folder.write("control.mem", ("".join(memory(numbers, 32)) for numbers in self.control))
        folder.write("stimulus.mem", self.stimulus)
        folder.write("expected.mem", self.expected)
        bits = self.bus.width if self.form == "mem" else self.bus.width + self.bus.lanes + 1
        sizes = {
            "NR_BLOCKS": len(self.control), "NR_FIELDS": len(CONTROL), "NR_BEATS_IN": len(self.stimulus),
            "NR_BEATS_OUT": len(self.expected), "NR_BITS": bits,
        }
        folder.write("sizes.svh", (f"localparam {name} = {value};" for name, value in sizes.items()))


def write_one(folder: Folder, bus: Bus, form: str, one: Transmission) -> dict[str, typing.Any]:
    """Writes the files of a transmission in a folder of its own, and says what the manifest has of it."""
    case, values, files = one.case, one.values, {}
    for name, bits in one.stages():
        path = f"{folder.named(case.id)}/{name}.{'axis.' if form == 'axis' else ''}mem"
        folder.write(path, bus.lines(form, bits))
        files[name] = {"file": path, "bits": len(bits), "beats": bus.count(bits), "sha256": folder.digests[path]}
        if FILLER in bits:
            care = f"{case.id}/{name}_care.mem"
            folder.write(care, memory(bus.cares(bits), bus.width))
            files[name].update(care=care, care_sha256=folder.digests[care])
    plan = values.plan
    blocks = [
        {"r": r, "kdash": plan.kdash, "z": plan.z, "set": plan.set, "power": power_of(plan), "E": length, "k0": values.k0,
         "Ncb": values.Ncb}
        for r, length in enumerate(values.E)
    ]
    transmission = {name: getattr(case, name) for name in ("rv", "g", "qm", "nl", "mask")}
    return {
        "id": case.id, "covers": one.covers, "rate2048": case.rate2048, "lbrm": case.lbrm, "transmission": transmission,
        "plan": dataclasses.asdict(plan), "codeblocks": blocks, "files": files,
    }


def export(
    folder: Folder, bus: Bus, form: str, made: dict[str, typing.Any], transmissions: typing.Iterable[Transmission]
) -> int:
    """Writes all files and the manifest; how many code blocks the run has."""
    if form == "bbdev":
        return bbdev.export(folder, made, transmissions)
    run = Run(bus, form)
    cases = []
    for number, one in enumerate(transmissions):
        run.add(number, one)
        cases.append(write_one(folder, bus, form, one))
    run.write(folder)
    head: dict[str, typing.Any] = {"made": made, "form": form, "width": bus.width, "first": bus.first, "control": CONTROL}
    head["run"] = {name: folder.digests[name] for name in ("control.mem", "stimulus.mem", "expected.mem", "sizes.svh")}
    lines = [f"{json.dumps(name)}: {json.dumps(value)}," for name, value in head.items()]
    texts = [json.dumps(case) + "," for case in cases]
    texts[-1:] = [text[:-1] for text in texts[-1:]]
    folder.write("manifest.json", ["{", *lines, '"cases": [', *texts, "]", "}"])
    return len(run.control)
