"""A shift table as the texts of TS 38.212 print it, in each layout that `tools/table read` knows."""

from __future__ import annotations

import io
import typing
import zipfile
from xml.sax.saxutils import escape

CAPTIONS = {
    1: "Table 5.3.2-2: LDPC base graph 1 (HBG) and its parity check matrices (Vi,j)",
    2: "Table 5.3.2-3: LDPC base graph 2 (HBG) and its parity check matrices (Vi,j)",
}
HEADS = ["HBG Vi,j", "Row index Column index Set index iLS", "i j 0 1 2 3 4 5 6 7"]
FOOT = "3GPP TS 38.212 version 15.2.0 Release 15     25     ETSI TS 138 212 V15.2.0 (2018-07)"

# A half of a printed line is ten cells: the row index, the column index, and eight values; empty ones are "".
EMPTY = [""] * 10


def halves(entries: dict[tuple[int, int], list[int]], index: str = "first") -> list[list[str]]:
    """The cells of each line of a table. A row's index stands at its first line, at its middle one, at its last one, at
    each one, or alone amid its lines. If it is alone, as many lines are below as above it. If that cannot be, it stands
    at the middle one."""
    rows: dict[typing.Any, typing.Any] = {}
    for (row, column), values in sorted(entries.items()):
        rows.setdefault(row, []).append(["", str(column), *map(str, values)])
    lines = []
    for row, cells in rows.items():
        middle = len(cells) // 2
        if index == "alone" and len(cells) % 2 == 0:
            cells.insert(middle, [str(row), *EMPTY[1:]])
        else:
            at = {"first": 0, "last": -1}.get(index, middle)
            for cell in cells if index == "each" else [cells[at]]:
                cell[0] = str(row)
        lines += cells
    return lines


def side_by_side(lines: list[list[str]], count: int | None = None) -> list[list[str]]:
    """The lines in two halves, the first with `count` of them (or half of them): twenty cells each."""
    count = (len(lines) + 1) // 2 if count is None else count
    left, right = lines[:count], lines[count:]
    most = max(len(left), len(right))
    left, right = (half + [EMPTY] * (most - len(half)) for half in (left, right))
    return [one + other for one, other in zip(left, right)]


def page_by_page(lines: list[list[str]], count: int) -> list[list[list[str]]]:
    """The lines in pages of two halves of `count` lines each, the second one going on where the first one ends."""
    return [side_by_side(lines[start : start + 2 * count]) for start in range(0, len(lines), 2 * count)]


def aligned(cells: list[str]) -> str:
    """A line of a page as it is laid out: each cell in a column of its own."""
    return "".join(f"{cell:>7}" for cell in cells).rstrip()


def single_spaces(cells: list[str]) -> str:
    """A line with one space between what stands in it."""
    return " ".join(cell for cell in cells if cell)


def tabs(cells: list[str]) -> str:
    """A line with a tab between its cells, as a table is copied from a document."""
    return "\t".join(cells)


def matrices(graph: int, entries: dict[tuple[int, int], list[int]]) -> list[list[list[int]]]:
    """The eight matrices of a base graph, with -1 where a row has no entry."""
    rows, columns = {1: (46, 68), 2: (42, 52)}[graph]
    return [
        [[entries[row, column][index] if (row, column) in entries else -1 for column in range(columns)] for row in range(rows)]
        for index in range(8)
    ]


def in_c(graph: int, rows: list[list[int]]) -> str:
    """A matrix as a program in C has it, with a row over several lines in base graph 2."""
    listed = [", ".join(map(str, row)).replace(", -1, -1", ", -1,\n    -1" if graph == 2 else ", -1, -1") for row in rows]
    return f"const int16_t BG{graph}[{len(rows)}][{len(rows[0])}] = {{ // 7 8\n" + "".join(f"  {{{it}}},\n" for it in listed) + "};"


# How a matrix is written, from its base graph and its rows.
MATRICES: dict[str, typing.Callable[[int, list[list[int]]], str]] = {
    "MATLAB": lambda graph, rows: f"BG{graph}S1 = [" + ";\n".join(" ".join(map(str, row)) for row in rows) + "];",
    "one line": lambda graph, rows: f"BG{graph} = [" + "; ".join(" ".join(map(str, row)) for row in rows) + "]",
    "C": in_c,
    "names": lambda graph, rows: in_c(graph, rows).replace("-1", "NO_EDGE"),
    "flat": lambda graph, rows: "{" + ",\n".join(", ".join(map(str, row)) for row in rows) + "}",
    "commas": lambda graph, rows: "\n".join(",".join(map(str, row)) for row in rows),
    "AFF3CT": lambda graph, rows: f"{len(rows[0])} {len(rows)} 384\n\n" + "\n".join("\t".join(map(str, row)) for row in rows),
}


def text(
    graph: int,
    pages: list[list[list[str]]],
    form: typing.Callable[..., typing.Any] = aligned,
    feed: str = "\f",
    heads: list[str] = HEADS,
    foot: tuple[str, ...] = (FOOT,
    ),
) -> str:
    """The text of a table: its caption, and pages with heads and feet."""
    parts = [[CAPTIONS[graph]]]
    parts += [[*heads, *(form(cells) for cells in page), *foot] for page in pages]
    return feed.join("\n".join(part) + "\n" for part in parts)


def pages_of(cells: list[list[str]], count: int) -> list[list[list[str]]]:
    """The lines of a table in pages of `count` lines."""
    return [cells[start : start + count] for start in range(0, len(cells), count)]


def placed_page(head: str, halves_of_page: list[list[tuple[int, ...]]], at_top: bool) -> list[tuple[int, int, str]]:
    """A page of a PDF: texts with their places, the row index at the top of a row's lines or in their middle."""
    texts = [
        (60, 810, head), (60, 770, "Row Column Set index iLS"), (60, 750, "i j 0 1 2 3 4 5 6 7 i j 0 1 2 3 4 5 6 7")
    ]
    for left, lines in zip((40, 320), halves_of_page):
        rows: dict[typing.Any, typing.Any] = {}
        for number, (row, *cells) in enumerate(lines):
            rows.setdefault(row, []).append(730 - 11 * number)
            places = [left + 26, *(left + 60 + 24 * index for index in range(8))]
            texts += [(x, rows[row][-1], str(cell)) for x, cell in zip(places, cells)]
        texts += [(left, ys[0] if at_top else (ys[0] + ys[-1]) / 2, str(row)) for row, ys in rows.items()]
    return texts


def pdf_of_tables(
    entries_by_graph: dict[int, dict[tuple[int, int], list[int]]], at_top: bool, lines: int = 60
) -> bytes:
    """A PDF with these tables in two halves side by side, the right one going on where the whole left one ends."""
    pages = []
    for graph, entries in entries_by_graph.items():
        rows = [(row, column, *values) for (row, column), values in sorted(entries.items())]
        count = (len(rows) + 1) // 2
        heads = [CAPTIONS[graph]] + [FOOT] * count
        for head, start in zip(heads, range(0, count, lines)):
            halves_of_page = [rows[start : min(start + lines, count)], rows[count + start : count + start + lines]]
            pages.append(placed_page(head, halves_of_page, at_top))
    return pdf(pages)


def pdf(pages: list[list[tuple[int, int, str]]]) -> bytes:
    """A PDF in octets; each page is texts with their places."""
    font = "<< /Type /Font /Subtype /Type1 /BaseFont /Times-Roman >>"
    objects = [font, ""]
    for texts in pages:
        escaped = ((x, y, text.replace("(", "\\(").replace(")", "\\)")) for x, y, text in texts)
        stream = "".join(f"BT /F 7 Tf {x} {y} Td ({text}) Tj ET\n" for x, y, text in escaped)
        objects.append(f"<< /Length {len(stream)} >>\nstream\n{stream}endstream")
        objects.append(
            f"<< /Type /Page /Parent 2 0 R /MediaBox [0 0 595 842] /Contents {len(objects)} 0 R "
            "/Resources << /Font << /F 1 0 R >> >> >>"
        )
    kids = " ".join(f"{number} 0 R" for number in range(4, len(objects) + 1, 2))
    objects[1] = f"<< /Type /Pages /Kids [{kids}] /Count {len(pages)} >>"
    objects.append("<< /Type /Catalog /Pages 2 0 R >>")
    text, places = "%PDF-1.4\n", []
    for number, part in enumerate(objects, 1):
        places.append(len(text))
        text += f"{number} 0 obj\n{part}\nendobj\n"
    table = "".join(f"{place:010} 00000 n \n" for place in places)
    end = f"xref\n0 {len(objects) + 1}\n0000000000 65535 f \n{table}"
    end += f"trailer << /Size {len(objects) + 1} /Root {len(objects)} 0 R >>\nstartxref\n{len(text)}\n%%EOF\n"
    return (text + end).encode()


def document(paragraphs_and_tables: list[list[list[str]] | str]) -> bytes:
    """A .docx document in octets: a text is a paragraph, and a list of lists of cells a table."""
    body = ""
    for part in paragraphs_and_tables:
        if isinstance(part, str):
            body += f"<w:p><w:r><w:t>{escape(part)}</w:t></w:r></w:p>"
        else:
            rows = (
                "".join(f"<w:tc><w:p><w:r><w:t>{cell}</w:t></w:r></w:p></w:tc>" for cell in cells) for cells in part
            )
            body += "<w:tbl>" + "".join(f"<w:tr>{row}</w:tr>" for row in rows) + "</w:tbl><w:p/>"
    name = "http://schemas.openxmlformats.org/wordprocessingml/2006/main"
    octets = io.BytesIO()
    with zipfile.ZipFile(octets, "w") as parts:
        parts.writestr("word/document.xml", f'<w:document xmlns:w="{name}"><w:body>{body}</w:body></w:document>')
    return octets.getvalue()


def archive(files: dict[str, typing.Any]) -> bytes:
    """A .zip in octets, of files by name."""
    octets = io.BytesIO()
    with zipfile.ZipFile(octets, "w") as parts:
        for name, content in files.items():
            parts.writestr(name, content)
    return octets.getvalue()
