"""The report of a curve as one HTML file, which needs no other file. It has the picture, the rates with both intervals,
which of them are unreliable and why, and what makes all of it again."""

from __future__ import annotations

import html
import io
import json
import math
import pathlib
import re
import shlex
import typing

from linksim_tools.common.program import name_of, named_in_faults, output_of
from linksim_tools.curve import harq, plot, several
from linksim_tools.curve.results import comments_of, log_of
from linksim_tools.curve.source import differing, keys_that_count, sha256_of, source_of

if typing.TYPE_CHECKING:
    from linksim_tools.curve.harq import Rates
    from linksim_tools.curve.pool import Estimate
    from linksim_tools.curve.setting import Setting
    from linksim_tools.curve.trace import Curve

STYLE = """
body { font: 16px/1.45 system-ui, sans-serif; max-width: 62rem; margin: 2rem auto; padding: 0 1rem; color: #1b1f24; }
.wide { overflow-x: auto; } table { border-collapse: collapse; margin: 1rem 0; }
th, td { padding: .3rem .7rem; border-bottom: 1px solid #d0d7de; text-align: right; white-space: nowrap; }
th { vertical-align: bottom; } tr.why td { text-align: left; white-space: normal; min-width: 20rem; color: #6e4b00; }
tr.poor td, tr.why td { background: #fff8e5; } tr.poor td { border-bottom: 0; }
figure { margin: 1rem 0; } figure svg { width: 100%; height: auto; }
code, pre { font: 14px/1.4 ui-monospace, monospace; background: #f6f8fa; padding: .1rem .3rem; overflow-wrap: anywhere; }
pre { padding: .8rem; white-space: pre-wrap; } h2 { margin-top: 2rem; }
@media (prefers-color-scheme: dark) {
body { color: #e6edf3; background: #0d1117; } code, pre { background: #161b22; } th, td { border-color: #30363d; }
tr.poor td, tr.why td { background: #2d2410; } tr.why td { color: #e3b341; } }
dt { font-weight: 600; } dd { margin: 0 0 .6rem 1rem; overflow-wrap: anywhere; }
"""

# If fewer failures were seen, the second interval covers less than it says.
FEW = 36

# If a share of all rounds has numbers of erased places that the rounds hardly met, the upper end is of little use.
REACHED = 0.999


def notes(setting: Setting, found: Estimate) -> list[str]:
    """Why a rate is unreliable, if it is."""
    said: list[str] = []
    if found.estimate >= 1:
        return said
    if not found.events:
        said.append("no failure was seen: only the upper end says something")
    elif found.events < FEW:
        worth = f"{found.events:.0f} of equal weight"
        said.append(f"the failures that were seen are worth {worth}, too few for the second interval")
    if found.reached < REACHED:
        said.append(f"{1 - found.reached:.1%} of all rounds there have numbers of erasures that were hardly met")
    width = setting.width or 0.3
    if found.estimate >= setting.lowest and found.half_width() > width:
        said.append(f"the first interval is wider than {width:.0%} to each side")
    if found.high_if is not None and found.high > 3 * found.high_if:
        said.append("what is below rests on there being no error floor that these rounds could not see")
    return said


def escaped(text: object) -> str:
    """Text as HTML has it."""
    return html.escape(str(text))


def pair(low: float | None, high: float | None) -> str:
    """An interval in a cell."""
    return "-" if low is None else f"{low:.3g} to {high:.3g}"


def rows(setting: Setting, rates: Rates) -> typing.Iterator[str]:
    """The rows of the table. For each number of transmissions they have the fall, from the two greatest points below
    `lowest` to the first one at which nearly all fail."""
    for after in range(1, len(setting.rvs) + 1):
        found = [rates.at(line.p, after) for line in rates.points]
        below = [seat for seat, one in enumerate(found) if one.estimate < setting.lowest]
        first = max(0, below[-1] - 1) if below else 0
        last = min((seat for seat, one in enumerate(found) if one.low > 0.99), default=len(found) - 1)
        for one in found[first : last + 1]:
            said = notes(setting, one)
            cells = [after, f"{one.p:g}", f"{one.estimate:.3g}", pair(one.low, one.high), pair(one.low_if, one.high_if)]
            cells += [f"{one.events:.0f}", f"{one.rounds:.3g}" if math.isfinite(one.rounds) else "-"]
            text = "".join(f"<td>{escaped(cell)}</td>" for cell in cells)
            yield f'<tr class="{"poor" if said else "good"}">{text}</tr>'
            if said:
                yield f'<tr class="why"><td colspan="{len(cells)}">Unreliable: {escaped("; ".join(said))}.</td></tr>'


def picture(draw: typing.Callable[[typing.IO[bytes]], object]) -> str:
    """What a function draws, as SVG that stands in the page."""
    drawn = io.BytesIO()
    draw(drawn)
    # Its size is the page's business.
    head, _, rest = drawn.getvalue().decode().partition(">")
    return re.sub(r' (width|height)="[^"]*"', "", head) + ">" + rest


def harq_rows(curve: Curve) -> typing.Iterator[str]:
    """The rows of the HARQ figures: those of whole rounds at each point, and where target rates are."""
    for line in harq.lines(curve.setting, curve.rates(), [point.p for point in curve.points()]):
        p, name, *cells = line.split(",")
        if name not in ("figure", "block_error_rate", "code_block_error_rate", "residual_error"):
            yield f"<tr><td>{p}</td><td>{name}</td>{''.join(f'<td>{escaped(cell)}</td>' for cell in cells)}</tr>"


def log_words(log: pathlib.Path) -> str:
    """What the log says of when and where the chunks were made."""
    found = [line.split(",") for line in log.read_text(errors="replace").splitlines()[1:]] if log.exists() else []
    whole = [fields for fields in found if len(fields) in (5, 6)]
    if not whole:
        return "There is no log of when and where the chunks were made."
    seconds = sum(float(fields[4]) for fields in whole)
    hosts = ", ".join(sorted({fields[1] for fields in whole}))
    first, last = min(fields[0] for fields in whole), max(fields[0] for fields in whole)
    return f"{len(whole)} chunks from {first} to {last} on {hosts}: {seconds / 3600:.2f} hours of a processor."


def provenance(curve: Curve) -> typing.Iterator[tuple[str, str]]:
    """What the lines come from; and if the program, the table or the keys are others now, which."""
    setting, program, lines = curve.setting, curve.program, curve.lines
    yield "In one line", curve.trace()
    yield "Source of each line", lines[0].source
    now = source_of(setting, program).text()
    if now != lines[0].source:
        yield "Not what is here now", f"{now}: {differing(lines[0].source, now)} of these lines was another one than below"
    yield "Program", f"{output_of(program, ['--version']).strip()}, SHA-256 {sha256_of(program)}"
    yield "Table", f"{setting.table.name}, SHA-256 {sha256_of(setting.table)}"
    values = {name: getattr(setting, name) for name in keys_that_count(setting)}
    yield "Keys", ", ".join(f"{name} = {json.dumps(value)}" for name, value in values.items() if value is not None)
    rounds = sum(line.rounds for line in lines)
    yield "Rounds", f"{rounds:,} in {len(lines):,} chunks at {len({line.p for line in lines})} points"
    for path in curve.files:
        yield str(path), " ".join([*comments_of(path), log_words(log_of(path))])


def commands(curve: Curve, out: pathlib.Path) -> list[str]:
    """What makes the results, judges them, and makes the report again."""
    tool, conf, names = name_of("curve"), str(curve.setting.path), list(map(str, curve.files))
    return [
        shlex.join([tool, "run", conf, "--out", names[0]]), shlex.join([tool, "audit", conf, *names, "--share", "1%"]),
        shlex.join([tool, "report", conf, *names, "--out", str(out)]),
    ]


def page(curve: Curve, out: pathlib.Path) -> typing.Iterator[str]:
    """The lines of the file."""
    name = curve.setting.path.name
    yield '<!doctype html>\n<html lang="en">\n<head>\n<meta charset="utf-8">'
    yield '<meta name="viewport" content="width=device-width, initial-scale=1"><meta name="color-scheme" content="light dark">'
    yield f"<title>Block error rates of {escaped(name)}</title>\n<style>{STYLE}</style>\n</head>\n<body>"
    yield f"<h1>Block error rates of {escaped(name)}</h1>"
    yield f'<figure id="picture">{picture(lambda drawn: plot.draw(curve, drawn))}</figure>'
    yield '<h2>Rates</h2>\n<div class="wide"><table id="rates"><thead><tr><th>after</th><th>p</th><th>rate</th>'
    yield "<th>95 %, free of<br>assumptions</th><th>95 %, if nothing fails<br>at fewer erasures than<br>were seen to fail</th>"
    yield "<th>failures of<br>equal weight</th><th>rounds that<br>tell as much</th></tr></thead><tbody>"
    yield from rows(curve.setting, curve.rates())
    yield "</tbody></table></div>"
    yield f'<h2>HARQ</h2>\n<figure id="harq">{picture(lambda drawn: several.draw_harq([curve], drawn))}</figure>'
    yield '<details><summary>The figures</summary><div class="wide"><table id="figures"><thead><tr><th>p</th><th>figure</th>'
    yield "<th>transmissions</th><th>estimate</th><th>low</th><th>high</th></tr></thead><tbody>"
    yield from harq_rows(curve)
    yield "</tbody></table></div></details>"
    yield '<h2>Made again</h2>\n<pre id="commands">' + escaped("\n".join(commands(curve, out))) + "</pre>"
    yield '<h2>Provenance</h2>\n<dl id="provenance">'
    for term, said in provenance(curve):
        yield f"<dt>{escaped(term)}</dt><dd>{escaped(said)}</dd>"
    yield "</dl>\n</body>\n</html>"


def write(curve: Curve, out: pathlib.Path) -> None:
    """Writes the report."""
    text = "\n".join(page(curve, out)) + "\n"
    with named_in_faults(out):
        pathlib.Path(out).write_text(text, encoding="utf-8")
