"""The archive of nr_c, crates/nr_c/out/libnr_c.a, made if it is missing or older than a source; and beside it, of the same sources,
the one for processors of level x86-64-v3. A test asks for one that Rattle's own compiler has built in place of LLVM.

`rt lib` makes it over what `rt lib` and `rt check` keep in the crates' folders out/. `rt ci` keeps nothing there: in a
new clone `rt lib` would prove the crates below nr_c once more. But each of them then has the library that `rt ci` has
just proved, so `rattle build` is asked for the archive over these. It proves nr_c, and builds only what is proved."""

from __future__ import annotations

import pathlib
import subprocess

from crate_list import ROOT, crates_and_below, crates_and_direct, newest_source

CRATES = ROOT / "crates"
ARCHIVE = CRATES / "nr_c" / "out" / "libnr_c.a"
LEVEL = "x86-64-v3"
FASTER = ARCHIVE.with_name(f"libnr_c-{LEVEL}.a")
BY_RATTLE = ARCHIVE.with_name("libnr_c-rattle.a")


def kit() -> pathlib.Path:
    """The folder of the Rattle kit."""
    said = subprocess.run(["rt", "doc"], stdout=subprocess.PIPE, check=True, text=True)
    return pathlib.Path(said.stdout.strip()).parent


def below() -> tuple[list[str], list[str]]:
    """The crates that nr_c stands on, all of them and those that its line of crates.txt names."""
    return sorted(crates_and_below()["nr_c"]), crates_and_direct()["nr_c"]


def library(name: str) -> tuple[pathlib.Path, pathlib.Path]:
    """The folder that has the library of a crate, as rt builds it, and the library."""
    folder = CRATES / name / "out" / "rlib"
    return folder, folder / f"{name}.rlib"


def is_of_gate(crates: list[str], written: float) -> bool:
    """Whether `rt ci` left the libraries of these crates: newer than the sources, without the stamp of a check's own."""
    places = [library(name) for name in crates]
    is_new = all(rlib.is_dir() and rlib.stat().st_mtime > written for _, rlib in places)
    return is_new and not any((folder / "stamp").exists() for folder, _ in places)


def build_over(crates: list[str], named: list[str], archive: pathlib.Path, *level: str, backend: str = "llvm") -> None:
    """Builds an archive over the libraries that `rt ci` or `rt lib` left. The proofs of nr_c are kept for the next archive."""
    of_kit = kit()
    words: list[str | pathlib.Path] = [of_kit / "bin" / "rattle", "build", "--crate-name", "nr_c", "src/lib.rt", "--crate-type", "staticlib"]
    words += ["-L", f"dependency={of_kit / 'rlibs'}", *[it for name in crates for it in ("-L", f"dependency={library(name)[0]}")]]
    for name in ["std", *named]:
        words += ["--extern", f"{name}={library(name)[1] if name in crates else of_kit / 'rlibs' / f'{name}.rlib'}"]
    words += ["--antt-project", of_kit / "rattle" / "logic" / "antt-project.json", "--logic-built", of_kit / "logic_built"]
    words += ["--incremental", archive.with_name("incremental")]
    words += ["--toolchain", of_kit / "toolchain", "--backend", backend, "--links", "nr_c=", "--jobs", "2", *level, "-o", archive]
    ARCHIVE.parent.mkdir(exist_ok=True)
    subprocess.run(words, cwd=CRATES / "nr_c", stdin=subprocess.DEVNULL, check=True)


def made() -> pathlib.Path:
    """The archive. It is made if it is missing or older than a source. So is the one for the higher level, where the libraries of the
    crates below are at hand, as they are after `rt ci` and `rt lib`."""
    crates, named = below()
    written = newest_source(["nr_c", *crates]).stat().st_mtime
    if not ARCHIVE.exists() or ARCHIVE.stat().st_mtime <= written:
        if is_of_gate(crates, written):
            build_over(crates, named, ARCHIVE)
        else:
            subprocess.run(["rt", "lib"], cwd=CRATES / "nr_c", stdin=subprocess.DEVNULL, check=True)
    made_beside(FASTER, "--cpu", LEVEL)
    return ARCHIVE


def made_beside(other: pathlib.Path, *level: str, backend: str = "llvm") -> bool:
    """Makes another archive of the same sources, if the libraries of the crates below are at hand. Whether it is there."""
    crates, named = below()
    is_old = not other.exists() or other.stat().st_mtime < ARCHIVE.stat().st_mtime
    if is_old and all(library(name)[1].exists() for name in crates):
        build_over(crates, named, other, *level, backend=backend)
        is_old = False
    return not is_old
