"""The man page linksim-formats(5), made of docs/formats.md: its headings, paragraphs, items, tables and blocks of code."""

from __future__ import annotations

import re
import typing

NUMBER = re.compile(r"(\d+)\. ")


def plain(text: str) -> str:
    """A piece of Markdown as roff: code and bold in bold, links as their text."""
    text = re.sub(r"\[([^\]]*)\]\(([^)]*)\)", r"\1", text)
    parts = re.split(r"(`[^`]*`)", text)
    for place, part in enumerate(parts):
        raw = part.strip("`") if part.startswith("`") else part
        raw = raw.replace("\\|", "|").replace("\\", "\\e").replace("-", "\\-")
        parts[place] = f"\\fB{raw}\\fR" if part.startswith("`") else re.sub(r"\*\*([^*]*)\*\*", r"\\fB\1\\fR", raw)
    found = "".join(parts)
    return "\\&" + found if found.startswith((".", "'")) else found


def cells(line: str) -> list[str]:
    return [cell.strip() for cell in re.split(r"(?<!\\)\|", line.strip().strip("|"))]


def table(rows: list[str]) -> list[str]:
    """A table, whose last column takes what room is left."""
    found = [cells(row) for row in rows if not re.fullmatch(r"[|\s:-]+", row)]
    count = len(found[0])
    head = " ".join(["lb"] * (count - 1) + ["lbx"]) + "."
    lines = [".PP", ".TS", "allbox;", head, "\t".join(plain(cell) for cell in found[0]), ".T&", " ".join(["l"] * count) + "."]
    for row in found[1:]:
        lines.append("\t".join(f"T{{\n{plain(cell)}\nT}}" for cell in row))
    return [*lines, ".TE"]


def blocks(text: str) -> typing.Iterator[list[str]]:
    """The parts of a page, each the lines of a heading, a paragraph, an item, a table or a block of code."""
    current: list[str] = []
    fenced = False
    for line in text.splitlines():
        mark = line.startswith("```")
        turns = line.startswith("|") != bool(current and current[0].startswith("|"))
        begins = turns or line.startswith("#") or re.match(r"(- |\d+\. )", line)
        if not fenced and (mark or not line.strip() or begins):
            if current:
                yield current
            current = []
        if mark and fenced:
            yield [*current, line]
            current, fenced = [], False
            continue
        fenced = fenced or mark
        if fenced or line.strip():
            current.append(line)
    if current:
        yield current


def page(text: str, version: str) -> str:
    """The whole man page."""
    name = "linksim\\-formats \\- files, lines of output and faults of linksim"
    lines = ["'\\\" t", f'.TH LINKSIM\\-FORMATS 5 "" "linksim {version}" "File formats"', ".SH NAME", name]
    for block in blocks(text.partition("\n")[2]):
        first = block[0]
        if first.startswith("```"):
            code = [line.replace("\\", "\\e").replace("-", "\\-") for line in block[1:-1]]
            shown = ["\\&" + line if line.startswith((".", "'")) else line for line in code]
            lines += [".PP", ".RS 4", ".nf", *shown, ".fi", ".RE"]
        elif first.startswith("#"):
            level = ".SH" if first.startswith("## ") else ".SS"
            title = first.lstrip("# ")
            lines.append(f"{level} {plain(title.upper() if level == '.SH' and '`' not in title else title)}")
        elif first.startswith("|"):
            lines += table(block)
        elif first.startswith("- "):
            lines += [".IP \\(bu 2", plain(" ".join([first[2:], *(line.strip() for line in block[1:])]))]
        elif NUMBER.match(first):
            number = NUMBER.match(first)
            assert number
            lines += [f".IP {number[1]}. 3", plain(" ".join([first[number.end() :], *(line.strip() for line in block[1:])]))]
        else:
            lines += [".PP", plain(" ".join(line.strip() for line in block))]
    places = "In a package the documents that are named here are in \\fI/usr/share/doc/linksim/docs\\fR, the examples in "
    files = [".SH FILES", f"{places}\\fI/usr/share/linksim/examples\\fR."]
    more = [*files, ".SH SEE ALSO", ".BR linksim (1),", ".BR linksim\\-explain (1),", ".BR linksim\\-table (1)"]
    return "\n".join([*lines, *more]) + "\n"
