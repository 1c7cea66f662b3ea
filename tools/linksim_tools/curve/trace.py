"""A curve with its results: what is drawn or told of it, and the line by which a picture of it can be traced."""

from __future__ import annotations

import dataclasses
import pathlib
import typing

from linksim_tools.common.program import Failed
from linksim_tools.common.tables import table_at
from linksim_tools.curve import results
from linksim_tools.curve.making import shape_of
from linksim_tools.curve.packages import numpy_for
from linksim_tools.curve.pool import Plain, Pool
from linksim_tools.curve.setting import Setting, read_setting
from linksim_tools.curve.theory import Code, code_of
from linksim_tools.table import fingerprint

if typing.TYPE_CHECKING:
    from linksim_tools.curve.harq import Rates


@dataclasses.dataclass(frozen=True)
class Curve:
    """A curve, the program, the files of its results and their lines."""

    setting: Setting
    program: pathlib.Path
    files: typing.List[pathlib.Path]
    lines: typing.List[results.Line]

    @property
    def name(self) -> str:
        """What a legend calls it."""
        return self.setting.path.stem

    def points(self) -> list[results.Line]:
        """The sums of its points."""
        return results.totals(self.lines)

    def pool(self) -> Pool | None:
        """The chunks of all points taken together, if that can be done."""
        if not self.setting.is_pooled or not all(line.source for line in self.lines):
            return None
        return Pool(self.setting, shape_of(self.setting), self.lines, numpy_for("a curve over erasures"))

    def rates(self) -> Rates:
        """Its rates: pooled, or by point."""
        return self.pool() or Plain(self.lines, numpy_for("a curve"), self.setting.is_single)

    def code(self) -> Code | None:
        """What theory needs, over erasures; a failure if the results have another number of code blocks."""
        if self.setting.link != "erase":
            return None
        code, there = code_of(self.setting), self.lines[0].c
        if there != code.plan["c"]:
            raise Failed(f"the results are of {there} code blocks, and {self.setting.path} has {code.plan['c']}")
        return code

    def trace(self) -> str:
        """Where its picture comes from, in a line."""
        setting, code = self.setting, self.code()
        digest = ""
        if code is not None:
            graph, index = code.plan["graph"], code.plan["set"]
            digest = f" (graph {graph} set {index} {fingerprint.digest(table_at(setting.table), graph, index)})"
        buffer = "" if setting.lbrm is None else f", lbrm {setting.lbrm}"
        rounds = sum(line.rounds for line in self.lines)
        keys = f"rate {setting.rate2048}/2048{buffer}, Qm {setting.qm}, NL {setting.nl}, G {setting.g}"
        return f"{setting.table.name}{digest}, {keys}, {rounds:,} rounds, source {self.lines[0].source or 'unknown'}"


def curve_of(setting: Setting, program: pathlib.Path, files: typing.Sequence[str | pathlib.Path]) -> Curve:
    """A curve with the results of files, or of its own; a failure if they are of another one."""
    paths = [pathlib.Path(file) for file in files] or [setting.path.with_suffix(".csv")]
    lines = results.merged(paths)
    results.judge(setting, lines, paths)
    return Curve(setting, program, paths, lines)


def curves_of(setting: Setting, program: pathlib.Path, words: typing.Sequence[str | pathlib.Path]) -> list[Curve]:
    """The curves of a command's words: files of results, and the files of further curves, each with its results."""
    groups: list[tuple[Setting, list[str]]] = [(setting, [])]
    for word in map(str, words):
        if word.endswith(".toml"):
            groups.append((read_setting(word), []))
        else:
            groups[-1][1].append(word)
    return [curve_of(one, program, files) for one, files in groups]
