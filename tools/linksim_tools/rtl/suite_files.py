"""A suite of tools/conform as memory files by code block."""

from __future__ import annotations

import sys
import typing

from linksim_tools.common import provenance
from linksim_tools.conform.encoder import points
from linksim_tools.rtl.beats import Bus
from linksim_tools.rtl.by_block import Transmission, export
from linksim_tools.rtl.folder import folder_at

if typing.TYPE_CHECKING:
    from linksim_tools.conform.encoder.suite import Suite


def write(given: Suite, place: str, bus: Bus, form: str) -> None:
    """Writes the folder, and says on standard error what stands there."""
    transmissions = (
        Transmission(case, given.values[case.id], points.covered(case)) for case in given.cases.values()
    )
    # These tools, of what the head of the suite says that it was made with.
    made = {**given.made, "tools": provenance.version_of_tools()}
    with folder_at(place) as folder:
        count = export(folder, bus, form, made, transmissions)
    print(f"{place}: {len(given.cases)} cases, {count} code blocks", file=sys.stderr)
