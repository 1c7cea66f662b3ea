"""What all pictures of curves share: matplotlib, colours and marks, and how a picture is written."""

from __future__ import annotations

import io
import pathlib
import typing

from linksim_tools.common.program import Wrong, named_in_faults
from linksim_tools.curve import svg
from linksim_tools.curve.packages import need

if typing.TYPE_CHECKING:
    from linksim_tools.curve.setting import Setting

# Colours that are told apart also by those who do not see all of them (Okabe and Ito), and marks in their turn.
COLOURS = ["#0072B2", "#D55E00", "#009E73", "#CC79A7", "#E69F00", "#56B4E9", "#000000"]
MARKS = ["o", "s", "^", "D", "v", "P", "X"]

# What all curves have in common is grey.
GREY = "#555555"


def look_of(seat: int) -> tuple[str, str]:
    """The colour and the mark of a curve."""
    return COLOURS[seat % len(COLOURS)], MARKS[seat % len(MARKS)]


def libraries() -> tuple[typing.Any, typing.Any]:
    """matplotlib and numpy; if this Python lacks them and Debian's has them, that one goes on with the same
    words."""
    need("plot", "matplotlib", "numpy")
    import matplotlib
    import numpy

    matplotlib.use("svg")
    matplotlib.rcParams.update({
        "svg.hashsalt": "linksim", "svg.fonttype": "none", "font.size": 9, "axes.grid": True, "axes.axisbelow": True,
        "grid.color": "#e6e6e6", "grid.linewidth": 0.6, **dict.fromkeys(("axes.spines.top", "axes.spines.right"), False),
        **{f"{axis}tick.{kind}.size": 0 for axis in "xy" for kind in ("major", "minor")},
    })
    from matplotlib import pyplot

    return pyplot, numpy


def axis_name(setting: Setting) -> str:
    """What the probability is of."""
    return {"erase": "erasure probability", "flip": "flip probability"}[setting.link]


def trace(figure: typing.Any, lines: typing.Sequence[str]) -> None:
    """Writes below the picture where it comes from."""
    figure.supxlabel("\n".join(lines), fontsize=6.5, color=GREY, x=0.01, ha="left")


def save(figure: typing.Any, out: pathlib.Path | typing.IO[bytes], title: str, description: str) -> None:
    """Writes the picture: a file of its own, or SVG into what is open. SVG has no date, and says in words what it shows."""
    from matplotlib.backend_bases import FigureCanvasBase

    path = pathlib.Path(out) if isinstance(out, (str, pathlib.Path)) else None
    if path and path.suffix[1:].lower() not in FigureCanvasBase.filetypes:
        raise Wrong(f"{out}: the ending of a picture is one of {', '.join(sorted(FigureCanvasBase.filetypes))}")
    with named_in_faults(str(out)):
        if path and path.suffix != ".svg":
            figure.savefig(path, format=path.suffix[1:])
            return
        drawn = io.StringIO()
        figure.savefig(drawn, format="svg", metadata=dict.fromkeys(("Date", "Creator", "Format", "Type")))
        text = svg.compact(drawn.getvalue(), title, description).encode()
        if path:
            path.write_bytes(text)
        else:
            typing.cast("typing.IO[bytes]", out).write(text)
