"""What made vectors."""

from __future__ import annotations

import pathlib
import typing

from linksim_tools.common import provenance
from linksim_tools.table import fingerprint


def made_by(table: str | pathlib.Path) -> dict[str, typing.Any]:
    """Versions and digests, the commit if it is known, and the fingerprint of the table (docs/tables.md)."""
    # The library says what is wrong with a table before its octets are asked for.
    lines = list(fingerprint.fingerprint(table))
    commit = provenance.commit()
    return {**provenance.source_of(table=table).words(), **({"commit": commit} if commit else {}), "fingerprint": lines}
