"""What `tools/curve` is asked for: the keys of its TOML file."""

from __future__ import annotations

import dataclasses
import pathlib
import re
import typing

from linksim_tools.common import files, toml_file
from linksim_tools.common.program import Failed, settings_text
from linksim_tools.curve.draws import threshold_of

# The key, what its value is, and the least and the greatest value. Whether qm, nl and g go together says the program.
NUMBERS = [
    ("a", 8, 1_310_720),
    ("rate2048", 1, 2048),
    ("lbrm", 1, 2**32 - 1),
    ("g", 1, 4_194_304),
    ("qm", 1, 10),
    ("nl", 1, 4),
    ("seed", 0, 2**64 - 1),
    ("rounds", 1, 1_000_000),
    ("errors", 1, 10**9),
    ("chunks", 1, 10**9),
    ("wave", 1, 100_000),
]
# The bits of a symbol: pi/2-BPSK, QPSK, 16QAM, 64QAM and 256QAM (TS 38.211).
MODULATIONS = (1, 2, 4, 6, 8)
OPTIONAL = {"lbrm", "step", "link", "errors", "width", "lowest", "wave", "unit", "burst"}
OTHERS = {"table", "rvs", "points", "step", "link", "width", "lowest", "unit", "burst"}
LINKS = ("erase", "flip")

# If `step` is left out, points that are added where the curve falls stand so far apart.
STEP = 0.005

# A wave has so many chunks if `wave` is left out.
WAVE = 64

# With `width`, rates are wanted down to this one if `lowest` is left out.
LOWEST = 1e-4


@dataclasses.dataclass(frozen=True)
class Setting:
    """One curve: a block of `a` bits, sent by transmissions of `g` bits with the redundancy versions `rvs` in turn."""

    path: pathlib.Path
    table: pathlib.Path
    a: int
    rate2048: int
    lbrm: typing.Optional[int]
    g: int
    qm: int
    nl: int
    rvs: tuple[int, ...]
    seed: int
    rounds: int
    points: tuple[float, ...]
    step: float
    errors: int
    chunks: int
    link: str = "erase"
    width: float = 0.0
    lowest: float = LOWEST
    wave: int = WAVE
    unit: typing.Union[int, str] = "bit"
    burst: typing.Optional[tuple[float, ...]] = None

    @property
    def is_single(self) -> bool:
        """Whether what the link does to a bit has nothing to do with any other bit."""
        return self.unit == "bit" and self.burst is None

    @property
    def is_pooled(self) -> bool:
        """Whether all points speak of each other: each set of so many erased places is equally likely at any of them."""
        return self.link == "erase" and self.is_single

    def settings_text(self) -> str:
        """The settings file of the program."""
        return settings_text(self.rate2048, self.lbrm)


def is_number(value: float, low: float, high: float, kinds: tuple[type[typing.Any], ...] = (int,)) -> bool:
    """Whether a value of a TOML file is a number of these kinds in the range; true and false are none."""
    return isinstance(value, kinds) and not isinstance(value, bool) and low <= value <= high


def judge(path: pathlib.Path, keys: dict[str, typing.Any]) -> None:
    """Fails with the first key that is missing, unknown or out of range."""
    known = {name for name, _, _ in NUMBERS} | OTHERS
    for name in keys:
        if name not in known:
            raise Failed(f"{path}: there is no key {name}; the keys are {', '.join(sorted(known))}")
    for name in sorted(known - OPTIONAL - set(keys)):
        raise Failed(f"{path}: the key {name} is missing")
    for name, low, high in NUMBERS:
        if name in keys and not is_number(keys[name], low, high):
            raise Failed(f"{path}: {name} is not an integer from {low} to {high}")
    if keys["qm"] not in MODULATIONS:
        raise Failed(f"{path}: qm is not 1, 2, 4, 6 or 8{'; 1024QAM (qm = 10) is of Release 17' if keys['qm'] == 10 else ''}")
    if keys["a"] % 8:
        raise Failed(f"{path}: a is not a multiple of 8: blocks have whole octets")
    if keys.get("link", "erase") not in LINKS:
        raise Failed(f'{path}: link is neither "erase" nor "flip"')
    if not isinstance(keys["table"], str):
        raise Failed(f"{path}: table is not a path in quotes")
    lists = {"rvs": (0, 3, (int,)), "points": (0, 1, (int, float))}
    for name, (low, high, kinds) in lists.items():
        values = keys[name]
        if not isinstance(values, list) or not values or not all(is_number(v, low, high, kinds) for v in values):
            raise Failed(f"{path}: {name} is not a list of numbers from {low} to {high}")
    if len(keys["rvs"]) > 64:
        raise Failed(f"{path}: rvs has more than 64 transmissions")
    if not is_number(keys.get("step", STEP), 0, 1, (int, float)):
        raise Failed(f"{path}: step is not a number from 0 to 1")
    judge_units(path, keys)
    judge_rule(path, keys)


def judge_units(path: pathlib.Path, keys: dict[str, typing.Any]) -> None:
    """Fails if the keys of erasures that are no single bits are not what they may be."""
    unit, burst = keys.get("unit", "bit"), keys.get("burst", [1, 1])
    if unit not in ("bit", "layer") and not is_number(unit, 1, 4_194_304):
        raise Failed(f'{path}: unit is neither "bit" nor "layer", nor a number of symbols from 1 to 4194304')
    if not isinstance(burst, list) or len(burst) != 2 or not all(is_number(v, 1e-9, 1, (int, float)) for v in burst):
        raise Failed(f"{path}: burst is not a list of two probabilities above 0: of a bad unit after a good one, and the other way")
    if keys.get("link") == "flip" and {"unit", "burst"} & set(keys):
        raise Failed(f"{path}: unit and burst are for erasures, and here bits are flipped")


def judge_rule(path: pathlib.Path, keys: dict[str, typing.Any]) -> None:
    """Fails if the keys do not say when a point is done: by `errors`, or by `width` and `lowest`."""
    if ("errors" in keys) == ("width" in keys):
        raise Failed(f"{path}: one of the keys errors and width is wanted: they say when a point is done")
    single = keys.get("link", "erase") == "erase" and keys.get("unit", "bit") == "bit" and "burst" not in keys
    if "width" in keys and not single:
        raise Failed(f"{path}: width is for erasures of single bits: over another link errors says when a point is done")
    if "lowest" in keys and "width" not in keys:
        raise Failed(f"{path}: lowest is how far down width holds, and there is no key width")
    for name, least in (("width", 0.01), ("lowest", 1e-12)):
        if name in keys and not is_number(keys[name], least, 0.9, (int, float)):
            raise Failed(f"{path}: {name} is not a number from {least:g} to 0.9")


def keys_in(path: pathlib.Path) -> str:
    """The keys in the head of a file of results (head.py)."""
    text = files.text_of(path, files.RESULTS)
    found = "".join(f"{line[2:]}\n" for line in text.splitlines() if re.match(r"# \w+ = ", line))
    if not text.startswith("## ") or not found:
        raise Failed(f"{path} has no head with the keys of its curve: name the curve's TOML file")
    return found


def read_setting(name: str | pathlib.Path) -> Setting:
    """The setting of a TOML file, or of the head of a file of results, or a failure with its first fault."""
    path = pathlib.Path(name)
    keys: dict[str, typing.Any] = toml_file.parsed(path, keys_in(path).encode()) if path.suffix == ".csv" else toml_file.read(path)
    judge(path, keys)
    others: dict[str, typing.Any] = {"path": path, "table": path.parent / keys["table"], "lbrm": keys.get("lbrm")}
    points = {threshold_of(p): float(p) for p in reversed(keys["points"])}
    others.update({"rvs": tuple(keys["rvs"]), "points": tuple(sorted(points.values()))})
    others["step"] = float(keys.get("step", STEP))
    others["errors"] = keys.get("errors", 0)
    others["burst"] = tuple(keys["burst"]) if "burst" in keys else None
    return Setting(**{**keys, **others})
