"""The chain of a transport block as one HTML file, which needs no other file and no network."""

from __future__ import annotations

import json
import pathlib
import typing

from linksim_tools.chain.data import Object
from linksim_tools.conform.page import document, escaped, paragraph

HERE = pathlib.Path(__file__).resolve().parent
# The numbers of segmentation, and what each is.
NUMBERS = {
    "a": "A, the bits of the transport block", "b": "B, the same with its CRC", "graph": "the base graph",
    "c": "C, the code blocks", "l": "L, the CRC bits of each code block", "kdash": "K', the bits of each code block",
    "z": "Zc, the lifting size", "set": "its set index", "k": "K, the bits with fillers", "n": "N, the coded bits",
}
CONTROLS = """
<form class="controls" id="find">
<label>transmission <input type="number" id="find-transmission" min="1" value="1"></label>
<label>index in g <input type="number" id="find-place" min="0" value="0"></label> <button>Show this bit</button>
</form>
"""
STEPS = """
<div class="controls">
<label>code block <select id="code-block"></select></label>
<button type="button" id="first">First</button> <button type="button" id="back">Back</button>
<input type="range" id="steps" min="0" aria-label="steps of peeling">
<button type="button" id="next">Next</button> <button type="button" id="last">Last</button>
</div>
<p id="step" aria-live="polite"></p>
"""


def numbers(data: Object) -> typing.Iterator[str]:
    """The table of the numbers of segmentation."""
    yield "<table><tr><th>Number (5.2.2, 5.3.2, 5.4.2.1)</th><th></th></tr>"
    named = {**{text: data["plan"][name] for name, text in NUMBERS.items()}, "Ncb, the bits of the circular buffer": data["ncb"]}
    yield from (f"<tr><td>{escaped(text)}</td><td>{number}</td></tr>" for text, number in named.items())
    yield "</table>"


def body(data: Object) -> typing.Iterator[str]:
    """The parts of the page, which the script fills."""
    yield paragraph(
        "Point at a bit, or press Tab until a map has the focus and use the arrow keys. The box below then says where the bit "
        "comes from, where it is sent, and which check rows hold it. Bits differ in shape, so no colour is needed to read the page."
    )
    yield f"<p>{escaped(data['ended'])}</p>"
    yield '<dl id="about" aria-live="polite"></dl>'
    yield "<h2>The transport block with its CRC: b (6.2.1, 7.2.1)</h2>"
    yield '<pre id="b"></pre>'
    yield "<h2>Segmentation (5.2.2)</h2>"
    yield from numbers(data)
    share = data["plan"]["kdash"] - data["plan"]["l"]
    last = f", and {data['plan']['l']} bits of CRC24B" if data["plan"]["l"] else ""
    for r in range(data["plan"]["c"]):
        yield paragraph(f"Code block {r}: bits {r * share} to {(r + 1) * share - 1} of b{last}.")
    yield "<h2>What was sent and what arrived: interleaver (5.4.2.2) and g (5.5)</h2>"
    yield paragraph(
        "Each code block's bits fill Qm rows one after the other, and are sent column by column, a symbol each. So g runs down the "
        "columns, from left to right; a long map goes on below."
    )
    yield f'{CONTROLS}<p id="sent-legend"></p><div id="sent"></div>'
    yield "<h2>The circular buffer (5.4.2.1)</h2>"
    yield paragraph(
        "The buffer begins at the top and runs clockwise: the thick arc is the systematic bits, the dashed one the fillers, which "
        "are never sent, and the thin one parity. A dotted arc outside is beyond the limit of TBS_LBRM. Each numbered ring inside "
        "is a transmission, thick where bits arrived and thin where they were erased."
    )
    yield '<div id="ring"></div><h2>The base graph, lifted by Zc (5.3.2)</h2>'
    yield paragraph(
        "A mark is an identity matrix of Zc rows, shifted. When a bit is pointed at, the box around a column is the one that holds "
        "it, and those around rows have its check rows."
    )
    yield '<div id="graph"></div><h2>The codeword and peeling</h2>'
    yield paragraph("The bits of the codeword by column of the base graph. In each step a check row fixes its only unknown bit.")
    yield f'{STEPS}<p id="word-legend"></p><div id="word"></div>'


def lines(title: str, data: Object) -> typing.Iterator[str]:
    """The lines of the file."""
    style, *parts = ((HERE / name).read_text(encoding="utf-8") for name in ("chain.css", "model.js", "chain.js"))
    script = "".join(parts)
    # The text of a script element ends at its first end tag, which no data may hold.
    text = json.dumps(data, separators=(",", ":")).replace("<", "\\u003c")
    scripts = [f'<script type="application/json" id="data">{text}</script>', f"<script>{script}</script>"]
    return document(title, [f"<style>{style}</style>", *body(data), *scripts])
