"""Files that no user means to give to a tool, but some do: endless, deep, damaged, encrypted, of another kind."""

from __future__ import annotations

import bz2
import gzip
import io
import json
import lzma
import pathlib
import random
import struct
import typing
import zipfile

import layouts
import shared

WORDS = "http://schemas.openxmlformats.org/wordprocessingml/2006/main"
HEAD = {"conform": 1, "table": [], "cases": 1, "profile": "quick", "seed": 1, "made": {}}


def document(xml: bytes, method: int = zipfile.ZIP_STORED) -> bytes:
    """A .docx document of this text in XML."""
    octets = io.BytesIO()
    with zipfile.ZipFile(octets, "w", method) as parts:
        parts.writestr("word/document.xml", xml)
    return octets.getvalue()


def changed(octets: bytes, offset: int, value: bytes) -> bytes:
    """An archive of one part whose two headers, the part's own and that of the list, have another field of two octets."""
    here, there = octets.index(b"PK\x03\x04"), octets.index(b"PK\x01\x02")
    for at in (here + offset, there + offset + 2):
        octets = octets[:at] + value + octets[at + len(value) :]
    return octets


def damaged(method: int) -> bytes:
    """An archive whose part was compressed so, with wrong octets amid it."""
    octets = document(b"<w:p/>" * 5000 + random.Random(1).randbytes(500), method)
    middle = octets.index(b"document.xml") + 40
    return octets[:middle] + b"\xff" * 30 + octets[middle + 30 :]


def encoded(name: str) -> bytes:
    """A document in this encoding, as its first line says."""
    return document(f'<?xml version="1.0" encoding="{name}"?><w:document xmlns:w="{WORDS}"/>'.encode())


def documents() -> typing.Dict[str, bytes]:
    """Documents and archives."""
    whole = layouts.document(["Table 5.3.2-2", layouts.halves(shared.drawn_entries(1))])
    deep = f'<w:document xmlns:w="{WORDS}">' + "<w:x>" * 5000 + "</w:x>" * 5000 + "</w:document>"
    bomb = "".join(f'<!ENTITY e{at} "{f"&e{at - 1};" * 10 if at else "ha"}">' for at in range(12))
    found = {f"{name}.docx": damaged(getattr(zipfile, name)) for name in ("ZIP_DEFLATED", "ZIP_BZIP2", "ZIP_LZMA")}
    found.update((f"encoding-{name}.docx", encoded(name)) for name in ("foo", "gbk", "utf-7"))
    return {
        **found, "encrypted.docx": changed(whole, 6, b"\x01\x00"), "method-99.docx": changed(whole, 8, struct.pack("<H", 99)),
        "deep.docx": document(deep.encode()), "bomb.docx": document(f"<!DOCTYPE d [{bomb}]><d>&e11;</d>".encode()),
        "zeros.docx": document(bytes(1 << 27), zipfile.ZIP_DEFLATED), "cut.docx": whole[:5000], "head.docx": whole[:4],
        "other.docx": layouts.archive({"a.txt": "a"}), "in-itself.zip": layouts.archive({"a.docx": layouts.archive({"b.docx": whole})}),
        "no-paragraph.docx": document(f'<w:document xmlns:w="{WORDS}"/>'.encode()),
        "head.pdf": b"%PDF-1.4\n", "cut.pdf": layouts.pdf([[(60, 700, "Table 5.3.2-2")]])[:300], "old.doc": b"\xd0\xcf\x11\xe0" + bytes(600),
        "text.gz": gzip.compress(b"graph 1"), "text.bz2": bz2.compress(b"graph 1"), "text.xz": lzma.compress(b"graph 1"),
    }


def settings() -> typing.Dict[str, bytes]:
    """Settings and curves in TOML."""
    texts = {
        "deep": "a = " + "[" * 500 + "]" * 500, "dotted": "rate2048" + ".a" * 3000 + " = 1", "hex": "rate2048 = 0x" + "f" * 5000,
        "digits": "rate2048 = " + "9" * 5000, "hex-limit": "rate2048 = 1024\nlbrm = 0x" + "f" * 5000, "float": "rate2048 = 1e999999999",
        "nan": "rate2048 = nan", "date": "rate2048 = 1979-05-27", "true": "rate2048 = true", "text": 'rate2048 = "1024"',
        "twice": "rate2048 = 1\nrate2048 = 1", "open": 'rate2048 = "', "tables": "[[rate2048]]\n[[rate2048]]", "sign": "rate2048 = -1",
        "lists": "\n".join(f"{name} = []" for name in ("table", "rate2048", "a", "g", "qm", "nl", "rvs", "p", "seed", "rounds")),
    }
    return {f"{name}.toml": text.encode() for name, text in texts.items()}


def objects() -> typing.Dict[str, bytes]:
    """Suites and answers in JSON."""
    record = [1, 0, 0, *[0] * 8]
    others: list[dict[str, typing.Any]] = [{}, {"table": [record]}, {"cases": []}, {"made": 7}, {"table": "1,2", "profile": []}]
    heads = [{**HEAD, **it} for it in others]
    texts = {
        "deep": "[" * 100_000, "digits": '{"id": ' + "9" * 5000 + "}", "list": "[1]", "text": '"a"', "nan": '{"id": NaN}',
        **{f"head-{at}": json.dumps(head) + '\n{"id": "a"}\n' for at, head in enumerate(heads)},
        **{f"receiver-{at}": json.dumps({**head, "receiver": 1}).replace("conform", "x") for at, head in enumerate(heads)},
    }
    return {f"{name}.jsonl": text.encode() for name, text in texts.items()}


def texts() -> typing.Dict[str, bytes]:
    """Tables, schedules, results, and what is no text."""
    numbers = random.Random(2)
    return {
        "empty": b"", "line": b"\n", "zeros": bytes(1000), "mark": b"\xef\xbb\xbf", "utf-16": "rate2048 = 1\n".encode("utf-16"),
        "surrogate": b"\xed\xa0\x80\n", "latin": b"caf\xe9 = 1\n", "drawn": numbers.randbytes(100_000), "lines": b"\n" * 1_000_000,
        "one-line": b"1 2 3 4 5 6 7 8 9 " * 230_000, "commas": b"," * 4_000_000, "quotes": b'"' * 300_001, "returns": b"1,0,0\r" * 100,
        "open-quote": b'graph,"' + b"0," * 100_000, "long-digits": b"1,0," + b"9" * 5000 + b",0,0,0,0,0,0,0,0\n",
        "other-digits": "1,0,\u0663,0,0,0,0,0,0,0,0\n".encode(), "results": b"nan,0,1,1,0,0,0\n1e999,0,1,1,0,0,0\n0.5," + b"9" * 5000 + b",1,1,0,0,0\n",
    }


def write(folder: pathlib.Path) -> typing.List[pathlib.Path]:
    """Writes them all, and says where they are: with a device that has no end, a folder, and a file that is not there."""
    files = {**texts(), **settings(), **objects(), **documents()}
    for name, octets in files.items():
        (folder / name).write_bytes(octets)
    return [*(folder / name for name in files), pathlib.Path("/dev/zero"), folder, folder / "missing"]
