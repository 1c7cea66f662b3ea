"""A folder of files that is there whole or not at all."""

from __future__ import annotations

import contextlib
import hashlib
import os
import pathlib
import re
import shutil
import tempfile
import typing

from linksim_tools.common.message import shown
from linksim_tools.common.program import Failed, named_in_faults


NAME = re.compile(r"[A-Za-z0-9_][A-Za-z0-9_.-]*")


class Folder:
    """Files that are written, each with its SHA-256."""

    def __init__(self, path: pathlib.Path) -> None:
        self.path = path
        self.digests: dict[str, str] = {}

    def named(self, case: str) -> str:
        """The id of a case, which names a file or a folder."""
        if not NAME.fullmatch(case):
            raise Failed(f"{shown(case)}: an id that names a file may have only letters, digits, _ . and -")
        return case

    def write(self, name: str, lines: typing.Iterable[str]) -> None:
        """Writes a file of these lines."""
        self.keep(name, "".join(line + "\n" for line in lines).encode())

    def keep(self, name: str, octets: bytes) -> None:
        """Writes a file of these octets."""
        path = self.path / name
        path.parent.mkdir(exist_ok=True)
        with named_in_faults(path):
            path.write_bytes(octets)
        self.digests[name] = hashlib.sha256(octets).hexdigest()


@contextlib.contextmanager
def folder_at(name: str) -> typing.Iterator[Folder]:
    """A new folder, or one that is empty. What is written there is seen when all of it is; if it fails, nothing is left."""
    place = pathlib.Path(name).absolute()
    if place.exists() and (not place.is_dir() or any(place.iterdir())):
        raise Failed(f"{name} exists and is not empty")
    try:
        made = pathlib.Path(tempfile.mkdtemp(prefix=f".{place.name}-", dir=place.parent))
    except OSError as error:
        raise Failed(f"{name} cannot be written: {error.strerror}") from None
    try:
        yield Folder(made)
        made.chmod(0o777 & ~umask())
        made.rename(place)
    except OSError as error:
        shutil.rmtree(made, ignore_errors=True)
        raise Failed(f"{name} cannot be written: {error.strerror}") from None
    except BaseException:
        shutil.rmtree(made, ignore_errors=True)
        raise


def umask() -> int:
    """The process's mask of rights, which can only be read by setting it."""
    mask = os.umask(0)
    os.umask(mask)
    return mask
