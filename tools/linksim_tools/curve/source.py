"""Where a line of results comes from: the program or library, the table and the keys that make a chunk, as twelve digits."""

from __future__ import annotations

import dataclasses
import hashlib
import json
import os
import pathlib
import typing

import nr
from linksim_tools.common import provenance
from linksim_tools.common.program import Failed, version_of
from linksim_tools.curve import binary
from linksim_tools.curve.simulating import files_of_library

if typing.TYPE_CHECKING:
    from linksim_tools.curve.setting import Setting

# The keys of the curve's file on which a chunk depends; the others only say which chunks are made.
KEYS = ("a", "rate2048", "lbrm", "g", "qm", "nl", "rvs", "seed", "rounds", "link")

# These two count only if they are there, so that curves of earlier versions keep their source.
UNITS = ("unit", "burst")

PARTS = ("program", "table", "keys")
DIGITS = 4


def sha256_of(path: pathlib.Path) -> str:
    """The SHA-256 of a file, in hexadecimal."""
    try:
        return provenance.digest_of(path)
    except OSError as error:
        raise Failed(f"{path}: {error.strerror}") from None


def keys_of(setting: Setting) -> str:
    """The keys that make a chunk, as text."""
    return json.dumps({name: getattr(setting, name) for name in keys_that_count(setting)})


def keys_that_count(setting: Setting) -> list[str]:
    """The keys on which a chunk depends. Where single bits are erased or flipped, those of earlier versions are all of them."""
    return [*KEYS, *(() if setting.is_single else UNITS)]


@dataclasses.dataclass(frozen=True)
class Source:
    """The SHA-256 of what makes a chunk, which is the library or the program, of the table's file, and of the keys."""

    program: str
    table: str
    keys: str

    def text(self) -> str:
        """The twelve digits that stand in a line: four for each, so that it is seen what differs."""
        return "-".join(digest[:DIGITS] for digest in (self.program, self.table, self.keys))

    def word(self) -> str:
        """All digits, as `point` is told them."""
        return "-".join((self.program, self.table, self.keys))


def digest_of(*texts: str) -> str:
    """The SHA-256 of texts, a line each."""
    return hashlib.sha256("".join(f"{text}\n" for text in texts).encode()).hexdigest()


def table_and_keys(setting: Setting) -> tuple[str, str]:
    """What stays of a source if another program makes the chunks: the table and the keys."""
    return digest_of("table", sha256_of(setting.table)), digest_of("keys", keys_of(setting))


def makers_of(setting: Setting, program: pathlib.Path) -> list[pathlib.Path]:
    """The files that make the chunks: the library and its module, or the program if not single bits are erased."""
    return files_of_library() if setting.is_pooled else [program]


def digest_of_maker(path: pathlib.Path) -> str:
    """The SHA-256 of such a file."""
    return sha256_of(path) if path.suffix == ".py" else binary.sha256_of(path)


def version_of_maker(setting: Setting, program: pathlib.Path) -> str:
    """The version of the library or program."""
    return nr.__version__ if setting.is_pooled else version_of(program)


def source_of(setting: Setting, program: pathlib.Path) -> Source:
    """The source of the chunks of a setting."""
    version = f"linksim {version_of_maker(setting, program)}"
    return Source(digest_of("program", version, *map(digest_of_maker, makers_of(setting, program))), *table_and_keys(setting))


def differing(one: str, other: str) -> str:
    """What differs in two sources, in words."""
    pairs = zip(PARTS, one.split("-"), other.split("-"))
    named = {"program": "the library or program", "table": "the table", "keys": f"one of the keys {', '.join(KEYS + UNITS)}"}
    return " and ".join(named[part] for part, here, there in pairs if here != there) or "nothing"


def judge_told(told: str, found: Source) -> None:
    """Fails if this machine's source is not the one that the caller has."""
    if told != found.word():
        raise Failed(f"{os.uname().nodename}: {differing(told, found.word())} is not that of the run's own machine")


Mark = typing.Tuple[int, int, int]


class Watch:
    """The files on which a run depends, which must not change while it goes on."""

    def __init__(self, setting: Setting, program: pathlib.Path) -> None:
        self.names = {setting.table: "table", setting.path: "file"}
        self.names.update(dict.fromkeys(makers_of(setting, program), "library" if setting.is_pooled else "program"))
        self.marks = {path: self.mark(path) for path in self.names}
        self.digests = {path: sha256_of(path) for path in self.names}

    @staticmethod
    def mark(path: pathlib.Path) -> Mark | None:
        """What changes if a file is written: its number, size and time."""
        try:
            found = os.stat(path)
        except OSError:
            return None
        return found.st_ino, found.st_size, found.st_mtime_ns

    def judge(self) -> None:
        """Fails if one of the files is no longer what it was."""
        for path, part in self.names.items():
            mark = self.mark(path)
            if mark == self.marks[path]:
                continue
            if mark is None or sha256_of(path) != self.digests[path]:
                raise Failed(f"{path}: the {part} changed while the run went on; its chunks until then are kept")
            self.marks[path] = mark
