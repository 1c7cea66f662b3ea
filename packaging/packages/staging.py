"""What all packages are made of: what `make install` puts below a folder, without a machine's time and owner."""

from __future__ import annotations

import calendar
import hashlib
import os
import pathlib
import re
import shutil
import subprocess
import time

import nr_build
import nr_version

ROOT = pathlib.Path(__file__).resolve().parent.parent.parent
LICENCE = nr_build.LICENCE
SUMS = "SHA256SUMS"
STRIPPED = ["--remove-section=.comment", "--remove-section=.note", "--strip-unneeded"]


class Failed(Exception):
    """The packages cannot be made; its text is the line that says why."""


def epoch() -> int:
    """The time that all files have: SOURCE_DATE_EPOCH, or the date of the version in CHANGELOG.md. If that version is
    not released yet, it is the date of the last release."""
    named = os.environ.get("SOURCE_DATE_EPOCH")
    if named:
        return int(named)
    headings = re.findall(r"(?m)^## (\S+) \((\d{4}-\d\d-\d\d|not released yet)\)$", (ROOT / "CHANGELOG.md").read_text())
    number = nr_version.declared().partition("-")[0]
    wanted = next((date for version, date in headings if version == number), "")
    if nr_version.is_released() is not wanted[:1].isdigit():
        state = "DATE" if nr_version.is_released() else "not released yet"
        raise Failed(f"CHANGELOG.md has no heading '## {number} ({state})', as VERSION says {nr_version.declared()}")
    dates = [date for version, date in headings if version == number or date[0].isdigit()]
    return calendar.timegm(time.strptime(next(date for date in dates if date[0].isdigit()), "%Y-%m-%d"))


def install(folder: pathlib.Path, **places: str) -> None:
    """Puts below a folder what `make install` does, without the names of symbols that nobody links by. All packages have it
    from here, so that program and library are the same octets in each."""
    set_ = [f"{name}={value}" for name, value in places.items()]
    words = ["make", "-s", "-C", str(ROOT), "install", f"DESTDIR={folder}", *set_]
    ended = subprocess.run(words, stdin=subprocess.DEVNULL, stdout=subprocess.PIPE, stderr=subprocess.STDOUT, text=True)
    if ended.returncode:
        raise Failed("make install: " + (ended.stdout.strip().splitlines() or ["it failed"])[-1])
    strip = {"bin/linksim": STRIPPED, "libnr.so.3": STRIPPED, "libnr.a": ["--strip-debug", "-D"]}
    for name, options in strip.items() if shutil.which("strip") else ():
        for path in folder.glob(f"**/{name}"):
            subprocess.run(["strip", *options, str(path)], check=True)


def libc_of(path: pathlib.Path) -> str:
    """What a program or a library wants of glibc, as Debian says it."""
    return "libc6 (>= {}.{})".format(*nr_build.glibc_of(path.read_bytes()))


def digests(folder: pathlib.Path) -> dict[str, str]:
    """The digests of the files below a folder by their names, but for SHA256SUMS."""
    paths = sorted(it for it in folder.glob("**/*") if it.is_file() and it.name != SUMS)
    return {it.relative_to(folder).as_posix(): hashlib.sha256(it.read_bytes()).hexdigest() for it in paths}


def write_sums(folder: pathlib.Path, found: dict[str, str]) -> str:
    """Writes digests in the form of sha256sum."""
    text = "".join(f"{digest}  {name}\n" for name, digest in found.items())
    (folder / SUMS).write_text(text)
    return text


def empty(folder: pathlib.Path, beside: str = "") -> None:
    """Makes a folder, and takes away what an earlier call wrote there by its list SHA256SUMS. It fails if there is anything
    else, or if something was changed since; a folder of the name `beside` may be there, and stays."""
    folder.mkdir(parents=True, exist_ok=True)
    text = (folder / SUMS).read_text() if (folder / SUMS).is_file() else ""
    ours = dict(line.split("  ", 1)[::-1] for line in text.splitlines() if "  " in line)
    names = []
    for path in folder.glob("**/*"):
        name = path.relative_to(folder).as_posix()
        if path.is_dir() and not path.is_symlink() or beside and name.startswith(f"{beside}/"):
            continue
        if name != SUMS and (name not in ours or hashlib.sha256(path.read_bytes()).hexdigest() != ours[name]):
            raise Failed(f"{folder} has {name}, which was not written there by this: name an empty folder")
        names.append(name)
    for name in names:
        (folder / name).unlink()
    for path in sorted((it for it in folder.glob("**/*") if it.is_dir()), key=lambda it: -len(it.parts)):
        if not any(path.iterdir()):
            path.rmdir()


def copy(name: str, target: pathlib.Path) -> None:
    """Copies a file, or the files of a folder, without what Python keeps."""
    source = ROOT / name
    for path in [source] if source.is_file() else sorted(source.glob("**/*")):
        if path.is_file() and "__pycache__" not in path.parts:
            to = target / path.relative_to(source) if source.is_dir() else target
            to.parent.mkdir(parents=True, exist_ok=True)
            to.write_bytes(path.read_bytes())
            to.chmod(0o755 if os.access(path, os.X_OK) else 0o644)


def settle(folder: pathlib.Path, when: int) -> None:
    """Gives all below a folder one time, and the modes that do not depend on who makes it."""
    paths = [*folder.glob("**/*"), folder]
    for path in paths:
        if not path.is_symlink():
            path.chmod(0o755 if path.is_dir() or os.access(path, os.X_OK) else 0o644)
    for path in sorted(paths, key=lambda path: -len(path.parts)):
        os.utime(path, (when, when), follow_symlinks=False)
