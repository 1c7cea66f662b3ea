"""The packages as the tests have them, made once in a folder of their own; and how commands run without the kit."""

from __future__ import annotations

import os
import pathlib
import shutil
import subprocess
import sys
import tempfile
import typing
import unittest

ROOT = pathlib.Path(__file__).resolve().parent.parent.parent
sys.path.append(str(ROOT / "c"))

import nr_version  # noqa: E402  (it is in a folder that was just named)

PROGRAM = ROOT / "crates" / "linksim" / "out" / "linksim"
ARCHIVE = ROOT / "crates" / "nr_c" / "out" / "libnr_c.a"
VERSION = nr_version.declared()
FOLDER = pathlib.Path(tempfile.mkdtemp(prefix="linksim-packages-"))
DIST = FOLDER / "dist"
SECONDS = 600
UNSET = {"NR_LIBRARY", "PYTHONPATH", "LD_LIBRARY_PATH", "PKG_CONFIG_PATH", "SOURCE_DATE_EPOCH", "MAKEFLAGS"}


def make() -> None:
    """Makes the packages, or ends if what makes them is not there, or what they are made of is not built."""
    missing = [tool for tool in ("make", os.environ.get("CC", "cc")) if not shutil.which(tool)]
    if missing:
        print(f"skipped: all of tests/packages: no {missing[0]}")
        sys.exit(0)
    for path, how in ((PROGRAM, "(cd crates/linksim && rt run -- --version)"), (ARCHIVE, "tests/c-library")):
        if not path.exists():
            sys.exit(f"packages: {path.relative_to(ROOT)} is not there; this makes it: {how}")
    done(["make", "-s", "-C", ROOT, "dist", f"DIST={DIST}"], environment=dict(os.environ))


def end() -> None:
    """Takes away what was made."""
    shutil.rmtree(FOLDER)


def without_kit(**more: object) -> dict[str, str]:
    """The environment of somebody who has no kit: no folder of PATH has rt or linksim. Some names are given."""
    folders = os.environ["PATH"].split(os.pathsep)
    kept = [it for it in folders if not any((pathlib.Path(it) / name).exists() for name in ("rt", "linksim"))]
    environment = {name: value for name, value in os.environ.items() if name not in UNSET}
    given = {name: str(value) for name, value in more.items()}
    return {**environment, "PATH": os.pathsep.join(kept), "PYTHONDONTWRITEBYTECODE": "1", **given}


def ran(
    words: typing.Sequence[object], folder: pathlib.Path | None = None, environment: dict[str, str] | None = None,
    stdin: bytes = b"",
) -> tuple[int, str]:
    """A command's status and what it wrote, standard error after standard output."""
    ended = subprocess.run(
        [str(word) for word in words], input=stdin, timeout=SECONDS, cwd=folder, env=environment or without_kit(),
        stdout=subprocess.PIPE, stderr=subprocess.STDOUT,
    )
    return ended.returncode, ended.stdout.decode(errors="replace")


def done(
    words: typing.Sequence[object], folder: pathlib.Path | None = None, environment: dict[str, str] | None = None,
    stdin: bytes = b"",
) -> str:
    """What a command wrote; a failure fails the test."""
    status, output = ran(words, folder, environment, stdin)
    if status:
        raise AssertionError(f"{' '.join(map(str, words))}: status {status}\n{output}")
    return output


def needs(tool: str) -> str:
    """The path of a tool without the kit; a test that lacks it is skipped."""
    found = shutil.which(tool, path=without_kit()["PATH"])
    if not found:
        raise unittest.SkipTest(f"no {tool}")
    return found


def compiler() -> str:
    """The C compiler, or the test is skipped."""
    return needs(os.environ.get("CC", "cc"))


class InFolder(unittest.TestCase):
    """A test with a folder of its own, whose name has a space."""

    maxDiff = None

    def setUp(self) -> None:
        self.folder = pathlib.Path(tempfile.mkdtemp(prefix="linksim packages ", dir=FOLDER))
