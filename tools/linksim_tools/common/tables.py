"""A shift table file, as the library reads it."""

from __future__ import annotations

import nr
from linksim_tools.common import files
from linksim_tools.common.program import Failed


def table_at(path: files.Path) -> nr.Table:
    """The table of a file, or a failure that names its first error as the program does."""
    try:
        return nr.Table(files.octets_of(path, files.LIMITS["table"]))
    except nr.Fault as fault:
        raise Failed(f"{files.shown(path)}: rejected: table {fault}") from None
