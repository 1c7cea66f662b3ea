"""Many transmissions at once: those of a file of plain lines, or drawn ones, as the library has them."""

from __future__ import annotations

import pathlib
import typing

from linksim_tools.common.tables import table_at
from linksim_tools.conform.encoder import points
from linksim_tools.conform.encoder.suite import values_of
from linksim_tools.rtl.by_block import Transmission

if typing.TYPE_CHECKING:
    from linksim_tools.conform.case import Case


def transmissions(path: str | pathlib.Path, cases: list[Case]) -> typing.Iterator[Transmission]:
    """Each case with what is right of it, in their order."""
    table = table_at(path)
    for case in cases:
        yield Transmission(case, values_of(table, case), points.covered(case))
