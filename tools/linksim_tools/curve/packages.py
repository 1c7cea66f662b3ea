"""The packages that only some commands need: numpy and matplotlib, and distributed for dask."""

from __future__ import annotations

import importlib.util
import sys
import typing

from linksim_tools.common.program import Failed

# By the module that is imported: the package of Debian's Python.
PACKAGES = {"numpy": "python3-numpy", "matplotlib": "python3-matplotlib", "distributed": "python3-distributed"}


def need(command: str, *names: str) -> None:
    """Fails if this Python lacks one of these packages, with how each is installed."""
    missing = [name for name in names if not importlib.util.find_spec(name)]
    if missing:
        debian = " ".join(PACKAGES[name] for name in missing)
        lacking = f"{command} needs {' and '.join(missing)}, which {sys.executable} does not have"
        raise Failed(f"{lacking}: pip install {' '.join(missing)}, or for Debian's own Python apt-get install {debian}")


def numpy_for(command: str) -> typing.Any:
    """The package numpy, or a failure that says how it is installed."""
    need(command, "numpy")
    import numpy

    return numpy
