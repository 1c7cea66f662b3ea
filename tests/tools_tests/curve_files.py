"""The files of curves that tests make, and numpy, which some of these tests need."""

from __future__ import annotations

import contextlib
import importlib
import pathlib
import typing
import unittest

import shared

numpy: typing.Any = None
with contextlib.suppress(ImportError):
    numpy = importlib.import_module("numpy")

PRACTICE = shared.EXAMPLES / "practice.csv"

# A block of 40 bits over the practice table, and one of 3,840 over the drawn one; each key in a line of its own.
SHORT: dict[str, object] = {"a": 40, "rate2048": 512, "g": 120, "qm": 2, "nl": 1, "rvs": [0, 2], "seed": 7}
LONG: dict[str, object] = {"a": 3840, "rate2048": 1365, "g": 5760, "qm": 2, "nl": 1, "rvs": [0], "seed": 3}


def text_of(table: str | pathlib.Path, *keys: dict[str, object]) -> str:
    """The file of a curve over a table; of the keys the later ones count."""
    whole: dict[str, object] = {"table": f'"{table}"'}
    for some in keys:
        whole.update(some)
    return "".join(f"{key} = {value}\n" for key, value in whole.items())


def needs_numpy() -> None:
    """Skips the tests of a module that counts and fits by numpy."""
    if numpy is None:
        raise unittest.SkipTest("numpy is not there")
