"""The archive linksim-VERSION-x86_64-linux.tar.gz, which runs from where it is unpacked."""

from __future__ import annotations

import gzip
import pathlib
import shutil
import tarfile
import typing

import nr_version
from packages import staging

NAME = f"linksim-{nr_version.for_archive()}-x86_64-linux"
ABOUT = ["README.md", "CHANGELOG.md", "CONTRIBUTING.md", "SECURITY.md", "VERSION"]
# The folders of the repository's top that documents name, as they are here.
LINKS = {
    "tools": "share/linksim/tools",
    "examples": "share/linksim/examples",
    "docs": "share/doc/linksim/docs",
    "crates": "share/doc/linksim/crates",
}


def relocate(path: pathlib.Path) -> None:
    """Lets the file of pkg-config name the library by where it stands itself."""
    places = {"prefix=": "${pcfiledir}/../..", "libdir=": "${prefix}/lib", "includedir=": "${prefix}/include"}
    lines = path.read_text().splitlines()
    for start, place in places.items():
        lines = [f"{start}{place}" if line.startswith(start) else line for line in lines]
    # (pkg-config itself escapes what stands in pcfiledir, which then is not quoted)
    path.write_text("".join(line.replace('"', "") + "\n" for line in lines))


def stage(top: pathlib.Path) -> None:
    """Puts all files below the folder of the archive."""
    staging.install(top, PREFIX="")
    relocate(top / "lib" / "pkgconfig" / "nr.pc")
    for name in ABOUT:
        staging.copy(name, top / name)
    staging.copy("c/examples", top / "share" / "nr" / "examples")
    (top / "LICENCE").write_text(staging.LICENCE + "\n")
    for name, target in LINKS.items():
        (top / name).symlink_to(target)


def archive(folder: pathlib.Path, out: pathlib.Path, when: int, pages: pathlib.Path | None) -> None:
    """Writes the archive, its members sorted by name, all of the owner 0; with the site, if it was made."""
    top = folder / NAME
    stage(top)
    if pages:
        shutil.copytree(pages, top / "share" / "doc" / "linksim" / "html")
    staging.settle(top, when)
    with open(out / f"{NAME}.tar.gz", "wb") as file, gzip.GzipFile("", "wb", 9, file, when) as packed:
        with tarfile.open(fileobj=typing.cast(typing.IO[bytes], packed), mode="w", format=tarfile.GNU_FORMAT) as tar:
            for path in sorted([top, *top.glob("**/*")]):
                member = tar.gettarinfo(path, str(path.relative_to(folder)))
                member.uid = member.gid = 0
                member.uname = member.gname = "root"
                if member.isfile():
                    with open(path, "rb") as octets:
                        tar.addfile(member, octets)
                else:
                    tar.addfile(member)
