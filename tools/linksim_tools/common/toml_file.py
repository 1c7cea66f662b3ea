"""The keys of a TOML file, by Python's own reader, or by the package tomli if Python is older than 3.11."""

from __future__ import annotations

import pathlib
import sys
import typing

from linksim_tools.common import files
from linksim_tools.common.message import shown
from linksim_tools.common.program import Failed

try:
    import tomllib
except ImportError:
    try:
        import tomli as tomllib
    except ImportError:
        tomllib = None


def read(path: pathlib.Path | str) -> dict[str, typing.Any]:
    """The keys of a TOML file, or a failure with its first fault."""
    return parsed(path, files.octets_of(path, files.LIMITS["settings"]))


def settings_of(path: str) -> tuple[int, int | None]:
    """The rate in 2048ths of a settings file and its TBS_LBRM, or None."""
    settings = read(path)
    for name in settings.keys() - {"rate2048", "lbrm"}:
        raise Failed(f"{path}: {shown(name)} is not a key of the settings, which are rate2048 and lbrm")
    for name, numbers in (("rate2048", range(1, 2049)), ("lbrm", range(1, 1 << 32))):
        value = settings.get(name, 1 if name == "lbrm" else None)
        if type(value) is not int or value not in numbers:
            raise Failed(f"{path}: {name} is not a whole number from {numbers[0]} to {numbers[-1]}")
    return settings["rate2048"], settings.get("lbrm")


def parsed(path: pathlib.Path | str, octets: bytes) -> dict[str, typing.Any]:
    """The keys of the octets of a TOML file, or a failure with its first fault."""
    if tomllib is None:
        version = ".".join(map(str, sys.version_info[:3]))
        said = f"TOML is read by Python 3.11, or by the package tomli; this is Python {version} without it"
        raise Failed(f"{path}: {said}")
    try:
        keys: dict[str, typing.Any] = tomllib.loads(octets.decode("utf-8-sig"))
        return keys
    except ValueError as error:
        raise Failed(f"{path}: not TOML: {shown(error, 120)}") from None
    except RecursionError:
        raise Failed(f"{path}: not TOML that can be read: values are nested too deep") from None
