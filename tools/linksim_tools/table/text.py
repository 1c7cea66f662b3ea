"""The lines of a text that holds a shift table of TS 38.212, each with its numbers. It reads plain text, a .docx
document, and a PDF by pdftotext."""

from __future__ import annotations

import dataclasses
import io
import itertools
import lzma
import re
import shutil
import subprocess
import typing
import unicodedata
import xml.etree.ElementTree
import zipfile
import zlib

from linksim_tools.common.files import DOCUMENT
from linksim_tools.common.program import Failed

WORD = "{http://schemas.openxmlformats.org/wordprocessingml/2006/main}"

# Hyphens and minus signs of every kind; and what no reader sees: soft hyphens, zero-width characters, byte order marks.
HYPHENS = dict.fromkeys(map(ord, "\u2010\u2011\u2012\u2013\u2014\u2015\u2212\ufe63\uff0d"), "-")
UNSEEN = dict.fromkeys(map(ord, "\u00ad\u200b\u200c\u200d\u200e\u200f\u2060\ufeff"))

# So many whole numbers in a line with words are a line of the table that was damaged, and no head of a page.
MANY = 6

# A text whose line is longer than so many characters has no lines of a table.
LONGEST = 100_000

# What Python's reader of archives, and of XML in them, says of files that are damaged, encrypted or of another kind.
DAMAGED = (
    zipfile.BadZipFile, zlib.error, lzma.LZMAError, KeyError, ValueError, LookupError, NotImplementedError, RuntimeError,
    EOFError, OSError, xml.etree.ElementTree.ParseError,
)


# The words of a line, and how much further to the right than a character's width a tab leads.
CELL = re.compile(r"[^\s;,|\"']+")
TAB = 1000


@dataclasses.dataclass
class Line:
    """A line of a text: the file, the number of the line in it, its text, and whether a page begins with it. Its cells
    are its whole numbers and other words, each with its place from left to right (`starts`, `ends`). Where two halves
    stand side by side, `left` is how many of the cells belong to the left one, if that is known."""

    file: str
    number: int
    text: str
    page: bool
    left: int | None = None

    def __post_init__(self) -> None:
        found = [it for it in CELL.finditer(self.text) if it[0].strip("-")]
        words = [it[0] for it in found]
        before, shifts = 0, []
        for it, last in zip(found, [0, *(it.start() for it in found)]):
            before += self.text.count("\t", last, it.start())
            shifts.append(TAB * before)
        self.starts = [shift + it.start() for shift, it in zip(shifts, found)]
        self.ends = [shift + it.end() for shift, it in zip(shifts, found)]
        self.cells = [int(word) if re.fullmatch("[0-9]{1,10}", word) else word for word in words]
        self.numbers = [cell for cell in self.cells if isinstance(cell, int)]
        self.words = len(self.cells) - len(self.numbers)

    @property
    def place(self) -> str:
        """Where the line stands, for the reader of a message."""
        return f"{self.file}, line {self.number}"

    @property
    def is_head(self) -> bool:
        """Whether the line is none of a table's entries: it has words and few numbers, or the set indexes alone."""
        indexes = self.numbers in (list(range(8)), [*range(8), *range(8)])
        return indexes or (self.words > 0 and len(self.numbers) < MANY) or not self.numbers


def clean(text: str) -> str:
    """The text with one kind of space, hyphen and digit, and with nothing unseen."""
    return unicodedata.normalize("NFKC", text.translate(UNSEEN)).translate(HYPHENS)


def decoded(name: str, octets: bytes) -> str:
    """The text of a file's octets: UTF-8, or UTF-16 with its mark, or else one octet a character."""
    if octets[:2] in (b"\xff\xfe", b"\xfe\xff"):
        return octets.decode("utf-16", errors="replace")
    if b"\0" in octets:
        raise Failed(f"{name} is neither text, nor a .docx document, nor a PDF: save it as one of these")
    try:
        return octets.decode("utf-8-sig")
    except UnicodeDecodeError:
        return octets.decode("cp1252", errors="replace")


def text_of_pdf(name: str, octets: bytes) -> typing.Any:
    """The text of a PDF, laid out as on its pages, as pdftotext has it."""
    if not shutil.which("pdftotext"):
        raise Failed(f"{name} is a PDF, which pdftotext reads: apt-get install poppler-utils")
    ended = subprocess.run(["pdftotext", "-layout", "-", "-"], input=octets, capture_output=True)
    if ended.returncode:
        said = ended.stderr.decode(errors="replace").strip().splitlines()
        raise Failed(f"pdftotext does not read {name}: {said[0] if said else f'status {ended.returncode}'}")
    return ended.stdout.decode(errors="replace")


# What stands in the place of a document's elements that are no text.
SIGNS = {WORD + "noBreakHyphen": "-", WORD + "tab": " ", WORD + "br": " ", WORD + "cr": " "}


def paragraph_text(paragraph: typing.Any) -> typing.Any:
    """The text of a document's paragraph."""
    return "".join(SIGNS.get(it.tag, it.text or "" if it.tag == WORD + "t" else "") for it in paragraph.iter())


def document_lines(element: typing.Any) -> typing.Iterator[typing.Any]:
    """The lines of a document's element: each paragraph, and each line of each row of its tables, with tabs between the
    cells."""
    for part in element:
        if part.tag == WORD + "p":
            yield paragraph_text(part)
        elif part.tag == WORD + "tr":
            cells = [[paragraph_text(it) for it in cell.iter(WORD + "p")] for cell in part.findall(WORD + "tc")]
            yield from ("\t".join(line) for line in itertools.zip_longest(*cells, fillvalue=""))
        else:
            yield from document_lines(part)


def part_of(parts: zipfile.ZipFile, name: str) -> bytes:
    """A part of an archive, if it is no longer than a document may be."""
    with parts.open(name) as part:
        octets = part.read(DOCUMENT + 1)
    if len(octets) > DOCUMENT:
        raise ValueError(f"{name} in it has more than {DOCUMENT:,} octets")
    return octets


def text_of_document(name: str, octets: bytes, inside: bool = False) -> str:
    """The text of a .docx document, or of those in a .zip."""
    try:
        with zipfile.ZipFile(io.BytesIO(octets)) as parts:
            inner = [] if inside else [it for it in parts.namelist() if it.lower().endswith(".docx")]
            if inner:
                return "\n".join(text_of_document(f"{name} {it}", part_of(parts, it), inside=True) for it in inner)
            return "\n".join(document_lines(xml.etree.ElementTree.fromstring(part_of(parts, "word/document.xml"))))
    except DAMAGED as error:
        said = "its parts lie too deep in one another" if isinstance(error, RecursionError) else str(error).strip("'\"")
        raise Failed(f"{name} is not a .docx document: {said or type(error).__name__}") from None


def lines_of(name: str, octets: bytes) -> list[Line]:
    """The lines of a file that has numbers or words. A form feed begins a page, and so does the file."""
    if octets.startswith(b"%PDF"):
        text = text_of_pdf(name, octets)
    elif octets.startswith(b"PK\x03\x04"):
        text = text_of_document(name, octets)
    elif octets.startswith(b"\xd0\xcf\x11\xe0"):
        raise Failed(f"{name} is a .doc document: save it as .docx, or as text")
    else:
        text = decoded(name, octets)
    lines = []
    page = True
    for number, line in enumerate(re.split("\r\n|\n|\r|\u2028|\u2029|\x85", clean(text)), 1):
        if len(line) > LONGEST:
            raise Failed(f"{name}, line {number}: {len(line):,} characters, and no line of a table has more than {LONGEST:,}")
        page = page or "\f" in line
        if line.strip():
            lines.append(Line(name, number, line.replace("\f", " "), page))
            page = False
    return lines
