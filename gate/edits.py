"""The wrong bodies that the prover is to refuse: crates/NAME/must-fail/EDIT.edit, as `rt` reads them, and those beside the
gate in crates/NAME/more-edits.txt.

In both, `file:` names the file of what follows, and each `old:` is to be replaced with the `new:` below it. A line
`# refused by: FUNCTION, clause NAME` says what refuses the edit. In more-edits.txt it has the edit's name before it and begins
the edit: `# NAME refused by: ..`.

gate/tried-edits.txt keeps what the prover said of those beside the gate when they were last tried: for each crate, digest of its
sources and of those below it, and verdict the edits, each with a digest of it and of the functions that it changes.
"""

from __future__ import annotations

import dataclasses
import hashlib
import pathlib
import re
import shutil
import sys
import textwrap
import typing

sys.path.append(str(pathlib.Path(__file__).resolve().parent.parent / "tests"))

from crate_list import ROOT, crates_and_below  # noqa: E402  (it stands in tests/)

TRIED = ROOT / "gate" / "tried-edits.txt"
HEAD = re.compile(r"^( *)(?:pub(?:\(crate\))? )?(?:const |unsafe )*fn \w+", re.MULTILINE)
REFUSED_BY = re.compile(r"# (?:(\S+) )?refused by: (\S.*)")


class BadEdit(Exception):
    """Why an edit can't be applied."""


@dataclasses.dataclass
class Edit:
    """What refuses an edit, and the file, old and new text of each of its changes."""

    crate: pathlib.Path
    name: str
    refused_by: str = ""
    changes: list[tuple[str, str, str]] = dataclasses.field(default_factory=list)

    def __str__(self) -> str:
        return f"{self.crate.name} {self.name}"

    def text(self) -> str:
        """The edit as a file that `rt` reads."""
        return "".join(f"file: {file}\nold: {old}\nnew: {new}\n" for file, old, new in self.changes)

    def digest(self) -> str:
        """A digest of the edit, and of the head and body of each function that it changes."""
        functions = [function_around((self.crate / file).read_text(), old) for file, old, _ in self.changes]
        return hashlib.sha256(" ".join("".join([self.text(), *functions]).split()).encode()).hexdigest()[:8]

    def texts(self, crate: pathlib.Path) -> dict[pathlib.Path, str]:
        """The files that it changes in a copy of its crate, with their new texts."""
        found: dict[pathlib.Path, str] = {}
        for file, old, new in self.changes:
            path = crate / file
            if not path.is_file():
                raise BadEdit(f"there is no file {file}")
            before = found.get(path) or path.read_text()
            if before.count(old) != 1:
                raise BadEdit(f"its old text stands {before.count(old)} times in {path.name}: {old.strip()}")
            found[path] = before.replace(old, new)
        if not found:
            raise BadEdit("it changes nothing")
        return found


def function_around(text: str, part: str) -> str:
    """The function of a source that a part of it stands in, or the whole text if no function has it."""
    at = text.find(part)
    for head in reversed(list(HEAD.finditer(text, 0, at + len(part)))):
        end = re.compile(rf"^{head[1]}\}}$", re.MULTILINE).search(text, head.end())
        if end and at < end.end():
            return text[head.start() : end.end()]
    return text


def read(path: pathlib.Path, crate: pathlib.Path) -> typing.Iterator[Edit]:
    """The edits of a file."""
    edit, file, old = Edit(crate, path.stem), "", ""
    for line in path.read_text().split("\n"):
        word, _, text = line.partition(": ") if ": " in line else line.partition(":")
        refused = REFUSED_BY.match(line)
        if refused and refused[1]:
            if edit.changes:
                yield edit
            edit = Edit(crate, refused[1], refused[2])
        elif refused:
            edit.refused_by = refused[2]
        elif word == "file":
            file = text.strip()
        elif word == "old":
            old = text
        elif word == "new":
            edit.changes.append((file, old, text))
    yield edit


def copied(room: str, *left_out: str) -> pathlib.Path:
    """A copy of the repository with what is built of it, but for folders of these names."""
    copy = pathlib.Path(room)
    shutil.copytree(ROOT / "crates", copy / "crates", ignore=shutil.ignore_patterns("out", *left_out))
    for name in ("crates.txt", "HANDLES"):
        shutil.copy(ROOT / name, copy / name)
    for built in ROOT.glob("crates/*/out/rlib"):
        shutil.copytree(built, copy / built.relative_to(ROOT))
    return copy


def in_gate(crates: pathlib.Path = ROOT / "crates") -> list[Edit]:
    """The edits of must-fail/, which `rt ci` tries."""
    return [edit for path in sorted(crates.glob("*/must-fail/*.edit")) for edit in read(path, path.parent.parent)]


def beside_gate() -> list[Edit]:
    """The edits of more-edits.txt, which `gate/wrong-bodies` tries."""
    return [edit for path in sorted((ROOT / "crates").glob("*/more-edits.txt")) for edit in read(path, path.parent)]


def states() -> dict[str, str]:
    """A digest of each crate's code, definitions and proofs, and of those that it stands on."""
    found: dict[str, str] = {}
    for crate, below in crates_and_below().items():
        files = [it for part in ("src", "specs", "proofs") for it in sorted(ROOT.glob(f"crates/{crate}/{part}/**/*.*"))]
        parts = [*(found[it].encode() for it in sorted(below)), *(it.read_bytes() for it in files)]
        found[crate] = hashlib.sha256(b"\0".join(parts)).hexdigest()[:8]
    return found


class Verdict(typing.NamedTuple):
    """What the prover said of an edit, and of what: the digest of the edit, and the state of its crate."""

    digest: str
    state: str
    said: str


def verdicts() -> dict[tuple[str, str], Verdict]:
    """The verdict on each edit beside the gate that was tried, by its crate and name."""
    found = {}
    text = TRIED.read_text() if TRIED.exists() else ""
    for crate, state, said, those in re.findall(r"^(\w+) (\w+) (\w+): (.*)$", text, re.MULTILINE):
        for name, digest in (it.split("=") for it in those.split()):
            found[crate, name] = Verdict(digest, state, said)
    return found


def write_verdicts(found: dict[tuple[str, str], Verdict]) -> None:
    """Writes what was said of the edits that are still beside the gate."""
    groups: dict[str, list[str]] = {}
    for edit in beside_gate():
        of = found.get((edit.crate.name, edit.name))
        if of:
            groups.setdefault(f"{edit.crate.name} {of.state} {of.said}: ", []).append(f"{edit.name}={of.digest}")
    lines = [line for head, those in groups.items() for line in wrapped(head, those)]
    TRIED.write_text("".join(f"{line}\n" for line in lines))


def wrapped(head: str, those: list[str]) -> list[str]:
    """Lines that begin with a head and have these words."""
    room = 130 - len(head)
    return [head + line for line in textwrap.wrap(" ".join(those), room, break_long_words=False, break_on_hyphens=False)]
