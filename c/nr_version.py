"""The version of this tree, in the form that each kind of package has for it.

The file VERSION has the number, such as 0.4.0, with the ending -dev until it is released. A package of a tree that is not
released also names the commit, because otherwise apt and pip would take a second one for the first. The release sorts after
all of them: 0.4.0.dev0+g<commit> for pip (PEP 440), 0.4.0~dev<date>.<commit> for Debian, 0.4.0-dev.<commit> for the archive.
"""

from __future__ import annotations

import functools
import os
import pathlib
import subprocess
import time

ROOT = pathlib.Path(__file__).resolve().parent.parent
DEV = "-dev"
# The digits of a commit that a version names.
DIGITS = 8


@functools.lru_cache(maxsize=None)
def declared() -> str:
    """What the file VERSION says, which is what the program and the library print."""
    return (ROOT / "VERSION").read_text().strip()


def is_released() -> bool:
    return not declared().endswith(DEV)


def git(*words: str) -> str:
    """What git says of this repository; nothing without git."""
    words = ("git", "-C", str(ROOT), *words)
    try:
        ended = subprocess.run(words, stdout=subprocess.PIPE, stderr=subprocess.DEVNULL, text=True, check=False)
    except OSError:
        return ""
    return ended.stdout.strip()


@functools.lru_cache(maxsize=None)
def source() -> tuple[str, str]:
    """The commit of the sources and its time (UTC), as 203012312359. LINKSIM_COMMIT names both, as COMMIT@TIME, where the repository is
    not there. Both are empty if they are not known, or if tracked files differ from the commit."""
    if "LINKSIM_COMMIT" in os.environ:
        commit, _, when = os.environ["LINKSIM_COMMIT"].partition("@")
        return commit, when
    is_ours = git("rev-parse", "--show-toplevel") == str(ROOT)
    if not is_ours or git("status", "--porcelain", "--untracked-files=no"):
        return "", ""
    commit, _, seconds = git("log", "-1", "--format=%H %ct").partition(" ")
    return commit, time.strftime("%Y%m%d%H%M", time.gmtime(int(seconds or 0)))


def of_package(form: str) -> str:
    """The number, with this form in place of its ending -dev."""
    commit, when = source()
    number = declared()
    return number if is_released() else number[: -len(DEV)] + form.format(when=when or "0", mark=commit[:DIGITS] or "local")


def for_python() -> str:
    return of_package(".dev0+g{mark}")


def for_debian() -> str:
    return of_package("~dev{when}.{mark}")


def for_archive() -> str:
    return of_package("-dev.{mark}")
