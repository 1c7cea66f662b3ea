"""Where each tool begins: as an entry point of the wheel, and as a script of a checkout or an installation.

A tool's own modules are loaded after `early` has taken up interrupts and closed streams."""

from __future__ import annotations

import contextlib
import functools
import typing

from linksim_tools.common import early

Run = typing.Callable[[typing.Callable[[], typing.Any]], None]


@contextlib.contextmanager
def begun(tool: str) -> typing.Iterator[Run]:
    """Gives what runs a tool's main function, which is loaded in this context. Without the library of nr the tool ends with one
    line that says so."""
    early.begin()
    from linksim_tools.common.program import ended, main_of

    try:
        yield functools.partial(main_of, tool)
    except ImportError as error:
        ended(tool, 1, error)


def certify() -> None:
    """linksim-certify."""
    with begun("certify") as run:
        from linksim_tools.certificate.tool import main
    run(main)


def conform() -> None:
    """linksim-conform."""
    with begun("conform") as run:
        from linksim_tools.conform.commands import main
    run(main)


def curve() -> None:
    """linksim-curve."""
    with begun("curve") as run:
        from linksim_tools.curve.tool import main
    run(main)


def explain() -> None:
    """linksim-explain."""
    with begun("explain") as run:
        from linksim_tools.outcome.tool import main
    run(main)


def table() -> None:
    """linksim-table."""
    with begun("table") as run:
        from linksim_tools.table.tool import main
    run(main)


def vectors() -> None:
    """linksim-vectors."""
    with begun("vectors") as run:
        from linksim_tools.rtl.tool import main
    run(main)
