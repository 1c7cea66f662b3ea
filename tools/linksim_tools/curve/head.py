"""The head of a file of results: what made it, and the keys of its curve, so that it can be repeated from this file alone. Digests
of the library and the program are those of what is loaded of them (binary.py).

Lines with ## say what made it. The lines after them, without their #, are the curve's TOML file. No host, time or path is among
them, so that the same curve has the same head on all machines."""

from __future__ import annotations

import dataclasses
import json
import pathlib
import re
import typing

from linksim_tools.common import provenance
from linksim_tools.curve.source import digest_of, digest_of_maker, makers_of, sha256_of, version_of_maker

if typing.TYPE_CHECKING:
    from linksim_tools.curve.setting import Setting

ABOUT = "## "
KEY = "# "

# What a line of the head begins with. Other comments, as of --restamp, are kept when a head is replaced.
KEY_LINE = re.compile(r"# \w+ = ")
TERMS = ("curve", "program", "library", "module", "table", "repeat")


def of(setting: Setting, program: pathlib.Path) -> list[str]:
    """The head of the results of a setting by a program."""
    commit = provenance.commit()
    said = [f"curve by linksim {provenance.version_of_tools()}{f', commit {commit}' if commit else ''}; {provenance.SPECIFICATION}"]
    version, makers = version_of_maker(setting, program), makers_of(setting, program)
    maker = "library" if setting.is_pooled else "program"
    said += [f"{maker} {path.name} {version}, SHA-256 {digest_of_maker(path)}" for path in makers if path.suffix != ".py"]
    modules = [digest_of_maker(path) for path in makers if path.suffix == ".py"]
    said += [f"module nr {version}, SHA-256 of its files' SHA-256 in order {digest_of(*modules)}"] if modules else []
    said.append(f"table {setting.table.name}, SHA-256 {sha256_of(setting.table)}")
    said.append("repeat it: tools/curve run THIS_FILE --out OTHER.csv, with the table in the same folder")
    return [*(f"{ABOUT}{text}" for text in said), *(f"{KEY}{name} = {json.dumps(value)}" for name, value in keys_of(setting))]


def keys_of(setting: Setting) -> typing.Iterator[tuple[str, typing.Any]]:
    """The keys of a setting that its TOML file needs, and their values."""
    left_out = {"path", *(name for name in ("lbrm", "burst", "errors") if not getattr(setting, name))}
    left_out |= set() if setting.width else {"width", "lowest"}
    left_out |= {"unit"} if setting.unit == "bit" else set()
    for field in dataclasses.fields(setting):
        if field.name not in left_out:
            value = getattr(setting, field.name)
            yield field.name, value.name if isinstance(value, pathlib.Path) else value


def without(comments: typing.Iterable[str]) -> list[str]:
    """The comments that are not of a head."""
    of_head = tuple(f"{ABOUT}{term} " for term in TERMS)
    return [line for line in comments if not KEY_LINE.match(line) and not line.startswith(of_head)]
