"""The repository's crates, as crates.txt lists them."""

from __future__ import annotations

import pathlib
import re
import typing

ROOT = pathlib.Path(__file__).resolve().parent.parent


def crates_and_direct() -> dict[str, list[str]]:
    """The crates, lowest first, each with the libraries that its line names."""
    lines = [line.partition("#")[0] for line in (ROOT / "crates.txt").read_text().splitlines()]
    parts = [line.partition(":") for line in lines]
    return {name.split()[0]: libraries.split() for name, colon, libraries in parts if colon}


def crates_and_below() -> dict[str, set[str]]:
    """The crates, lowest first, each with those that it stands on, through others too."""
    found: dict[str, set[str]] = {}
    for name, libraries in crates_and_direct().items():
        direct = [it for it in libraries if it in found]
        found[name] = {*direct, *(below for it in direct for below in found[it])}
    return found


def newest_source(crates: typing.Iterable[str]) -> pathlib.Path:
    """Of what these crates are built of, their sources and definitions, the file that was written last."""
    sources = [ROOT / "crates.txt"]
    for name in crates:
        sources += [*ROOT.glob(f"crates/{name}/src/**/*.rt"), *ROOT.glob(f"crates/{name}/specs/**/*.antt")]
    return max(sources, key=lambda path: path.stat().st_mtime)


def layers() -> dict[str, tuple[str, list[str]]]:
    """The layers, lowest first, each with what it has and with its crates."""
    text = (ROOT / "crates.txt").read_text()
    crates = re.findall(r"(?m)^(\w+).*# (\w+)$", text)
    return {name: (said, [it for it, of in crates if of == name]) for name, said in re.findall(r"(?m)^#   (\w+): (.*)$", text)}
