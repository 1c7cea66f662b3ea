"""Debian's packages: linksim, linksim-doc, libnr3, libnr-dev and python3-nr, by dpkg-deb."""

from __future__ import annotations

import gzip
import hashlib
import pathlib
import shutil
import subprocess
import time

import nr_version
from packages import staging

VERSION = nr_version.for_debian()
TRIPLET = "x86_64-linux-gnu"
LIBRARY = f"/usr/lib/{TRIPLET}"
ABOUT = """ The data coding chain of 5G NR's shared channels (DL-SCH and UL-SCH; 3GPP
 TS 38.212, Release 15), proved: which bits a transport block becomes, and when
 a receiver may hand one up.
"""

# What says which glibc is wanted.
BUILT = {"program": "usr/bin/linksim", "library": f"{LIBRARY[1:]}/libnr.so.3"}

# For each package its fields, what it is in a line and in more, and which files are its own, the first that fits.
PACKAGES = {
    "linksim-doc": (
        {"Architecture": "all", "Section": "doc", "Recommends": "linksim"},
        "data coding chain of 5G NR - documentation as a site",
        " This package has all documents, the man pages and the calls of the library as\n"
        " pages to be read in a browser, with a search.\n",
        ["usr/share/doc/linksim/html/"],
    ),
    "python3-nr": (
        {"Architecture": "all", "Section": "python", "Depends": f"python3 (>= 3.8), libnr3 (= {VERSION})",
         "Recommends": "linksim, python3-numpy, python3 (>= 3.11) | python3-tomli"},
        "data coding chain of 5G NR - Python module",
        " This package has the Python module nr, and the package linksim_tools of which\n"
        " the tools of linksim are made.\n",
        ["usr/lib/python3/", "usr/share/doc/python3-nr/"],
    ),
    "libnr3": (
        {"Architecture": "amd64", "Section": "libs", "Multi-Arch": "same", "Depends": "{library}"},
        "data coding chain of 5G NR - shared library", " This package has the shared library for C and C++.\n",
        [f"{LIBRARY[1:]}/libnr.so.3", f"{LIBRARY[1:]}/glibc-hwcaps/x86-64-v3/libnr.so.3"],
    ),
    "libnr-dev": (
        {"Architecture": "amd64", "Section": "libdevel", "Multi-Arch": "same", "Depends": f"libnr3 (= {VERSION})",
         "Recommends": "linksim", "Suggests": "verilator, iverilog"},
        "data coding chain of 5G NR - files for development",
        " This package has the header, the static library, what pkg-config and CMake\n"
        " read, and the sources for Rust, Octave and testbenches of RTL.\n",
        [f"{LIBRARY[1:]}/", "usr/include/", "usr/share/nr/", "usr/share/doc/libnr-dev/"],
    ),
    "linksim": (
        {"Architecture": "amd64", "Section": "science", "Depends": f"{{program}}, python3-nr (= {VERSION})",
         "Suggests": "python3-matplotlib"},
        "data coding chain of 5G NR - program and simulator of links",
        " This package has the program linksim, which also simulates links that erase\n and flip bits.\n",
        [""],
    ),
}


# What Python keeps beside a module is made when it is installed, and goes with it; not below another root.
SCRIPTS = {
    "postinst": '[ "$1" != configure ] || [ -n "$DPKG_ROOT" ] || ! command -v py3compile > /dev/null || py3compile -p python3-nr',
    "prerm": '[ -n "$DPKG_ROOT" ] || ! command -v py3clean > /dev/null || py3clean -p python3-nr',
}


def owner_of(name: str) -> str:
    """The package that a file belongs to."""
    places = {package: tuple(starts) for package, (*_, starts) in PACKAGES.items()}
    return next(package for package, starts in places.items() if name.startswith(starts))


def packed(path: pathlib.Path, text: bytes) -> None:
    """Writes a text as Debian packs it, without a time."""
    path.parent.mkdir(parents=True, exist_ok=True)
    with open(path, "wb") as file, gzip.GzipFile("", "wb", 9, file, 0) as out:
        out.write(text)


def write_about(top: pathlib.Path, package: str, when: int) -> None:
    """Writes what a package says of itself: its changes and its licence."""
    folder = top / "usr" / "share" / "doc" / package
    date = time.strftime("%a, %d %b %Y %H:%M:%S +0000", time.gmtime(when))
    head = f"{package} ({VERSION}) unstable; urgency=medium"
    said = "  * /usr/share/doc/linksim/CHANGELOG.md, of the package linksim, says what changed."
    packed(folder / "changelog.gz", f"{head}\n\n{said}\n\n -- linksim  {date}\n".encode())
    (folder / "copyright").write_text(f"{staging.LICENCE}\n")


def write_control(top: pathlib.Path, package: str, fields: dict[str, str], line: str, more: str) -> None:
    """Writes the files that dpkg reads."""
    control = top / "DEBIAN"
    control.mkdir()
    paths = sorted(path for path in top.glob("usr/**/*") if path.is_file() and not path.is_symlink())
    sums = [f"{hashlib.md5(path.read_bytes()).hexdigest()}  {path.relative_to(top)}\n" for path in paths]
    size = sum(-(-path.stat().st_size // 1024) for path in paths)
    source = {} if package == "linksim" else {"Source": "linksim"}
    head = {"Package": package, **source, "Version": VERSION, **fields}
    head.update({"Installed-Size": str(size), "Priority": "optional"})
    text = "".join(f"{name}: {value}\n" for name, value in head.items())
    (control / "control").write_text(f"{text}Description: {line}\n{ABOUT} .\n{more}")
    (control / "md5sums").write_text("".join(sums))
    for name, script in SCRIPTS.items() if package == "python3-nr" else ():
        (control / name).write_text(f"#!/bin/sh\nset -e\n{script}\n")
        (control / name).chmod(0o755)
    if package == "libnr3":
        (control / "shlibs").write_text(f"libnr 3 libnr3 (>= {VERSION})\n")
        (control / "triggers").write_text("activate-noawait ldconfig\n")


def sort_out(stage: pathlib.Path, folder: pathlib.Path) -> None:
    """Moves each file of the installed tree below its package's own folder."""
    for path in sorted(stage.glob("**/*")):
        if path.is_symlink() or path.is_file():
            name = str(path.relative_to(stage))
            to = folder / owner_of(name) / name
            to.parent.mkdir(parents=True, exist_ok=True)
            path.rename(to)


def add_documents(stage: pathlib.Path, pages: pathlib.Path | None) -> None:
    """Puts the examples of the library and the site where Debian has such things."""
    documents = stage / "usr" / "share" / "doc"
    for package, ending in (("libnr-dev", ".c"), ("python3-nr", ".py")):
        for path in sorted((staging.ROOT / "c" / "examples").glob(f"*{ending}")):
            staging.copy(path.relative_to(staging.ROOT).as_posix(), documents / package / "examples" / path.name)
    staging.copy("examples/practice.csv", documents / "libnr-dev" / "examples" / "practice.csv")
    if pages:
        shutil.copytree(pages, documents / "linksim" / "html")


def packages(folder: pathlib.Path, out: pathlib.Path, when: int, pages: pathlib.Path | None) -> None:
    """Writes the packages; that of the site, if it was made."""
    stage = folder / "installed"
    staging.install(stage, PREFIX="/usr", LIBDIR=LIBRARY, PYTHONDIR="/usr/lib/python3/dist-packages")
    wanted = {name: staging.libc_of(stage / path) for name, path in BUILT.items()}
    for path in sorted(stage.glob("usr/share/man/man?/*.?")):
        packed(path.with_name(f"{path.name}.gz"), path.read_bytes())
        path.unlink()
    for tool in (stage / "usr" / "share" / "linksim" / "tools").iterdir():
        # Debian's Python has Debian's packages; one that stands before it in PATH has not.
        tool.write_text(tool.read_text().replace("#!/usr/bin/env python3", "#!/usr/bin/python3", 1))
    add_documents(stage, pages)
    # Debian's zsh looks for what packages complete in a folder of its own.
    (stage / "usr" / "share" / "zsh" / "site-functions").rename(stage / "usr" / "share" / "zsh" / "vendor-completions")
    sort_out(stage, folder / "debs")
    made = {package: said for package, said in PACKAGES.items() if pages or package != "linksim-doc"}
    for package, (said, line, more, _) in made.items():
        fields = {name: text.format(**wanted) for name, text in said.items()}
        top = folder / "debs" / package
        write_about(top, package, when)
        write_control(top, package, fields, line, more)
        staging.settle(top, when)
        file = out / f"{package}_{VERSION}_{fields['Architecture']}.deb"
        words = ["dpkg-deb", "--root-owner-group", "-Zxz", "-z6", "--build", str(top), str(file)]
        # It warns that there is no field Maintainer, which is left out on purpose (docs/decisions.md, Open).
        ended = subprocess.run(words, stdout=subprocess.DEVNULL, stderr=subprocess.PIPE, text=True, check=False)
        if ended.returncode:
            raise staging.Failed(f"dpkg-deb: {ended.stderr.strip()}")
