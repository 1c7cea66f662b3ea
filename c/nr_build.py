"""Makes the wheel of the Python project: the module nr with the library libnr.so.3 beside it, the package linksim_tools with an
entry point for each tool, and the examples. `pip install ./c` calls it (PEP 517). It needs the standard library alone, and the
built library: out/libnr.so.3, which `make` makes if it is missing or old.

The wheel has no time and no path of this machine in it, so that it is the same octets wherever it is made."""

from __future__ import annotations

import ast
import base64
import hashlib
import json
import os
import pathlib
import re
import subprocess
import sys
import time
import typing
import zipfile

import nr_version

HERE = pathlib.Path(__file__).resolve().parent
ROOT = HERE.parent
TOOLS = ("certify", "conform", "curve", "explain", "table", "vectors")
# What some tools need beside the standard library: `pip install 'nr[curve]'`.
EXTRAS = {"curve": ["numpy", "tomli; python_version < '3.11'"], "plot": ["numpy", "matplotlib", "tomli; python_version < '3.11'"]}
SUMMARY = "The data coding chain of 5G NR's shared channels (3GPP TS 38.212), proved"
LICENCE = "No licence is chosen yet: that is for the project's owner. Until then all rights are reserved."
# If no SOURCE_DATE_EPOCH says when: the first time that a zip file can have.
FIRST = 315532800
version = nr_version.for_python


def below(folder: pathlib.Path, *endings: str) -> dict[str, bytes]:
    """The files below a folder with one of these endings, by their names from its parent on."""
    paths = [path for path in folder.glob("**/*") if path.suffix in endings and path.is_file() and "out" not in path.parts]
    return {path.relative_to(folder.parent).as_posix(): path.read_bytes() for path in paths}


def sources() -> dict[str, bytes]:
    """The files of both packages and the practice table, by their names below the folder of Python's packages."""
    practice = {"nr/practice.csv": b"".join((ROOT / "examples" / name).read_bytes() for name in ("drawn.csv", "practice.csv"))}
    return {**below(HERE / "nr", ".py", ".typed"), **practice, **below(ROOT / "tools" / "linksim_tools", ".py", ".txt", ".js", ".css")}


def data() -> dict[str, bytes]:
    """What the wheel puts below share/linksim of the environment: the examples of the tools' help, and which sources it is of. And the
    verifier of certificates, which elsewhere is a script by itself: an entry point runs wherever the environment is."""
    examples = below(ROOT / "examples", ".csv", ".toml", ".txt", ".py")
    commit, when = nr_version.source()
    of = {"version": nr_version.declared(), **({"commit": commit, "time": when} if commit else {})}
    said = {"built.json": json.dumps(of).encode() + b"\n"}
    placed = {f"nr-{version()}.data/data/share/linksim/{name}": octets for name, octets in {**examples, **said}.items()}
    return {**placed, "linksim_tools/verify.py": (ROOT / "tools" / "verify").read_bytes()}


def glibc_of(octets: bytes) -> tuple[int, int]:
    """The version of glibc that a library or a program wants, by the versions of the symbols that it takes from there."""
    return max((int(one), int(other)) for one, other in re.findall(rb"GLIBC_(\d+)\.(\d+)", octets))


def tags(octets: bytes) -> list[str]:
    """The tags of a wheel with this library. No tag is older than glibc 2.17: that one has a name that old versions of pip know."""
    wanted = max((2, 17), glibc_of(octets))
    older = ["py3-none-manylinux2014_x86_64"] if wanted == (2, 17) else []
    return [f"py3-none-manylinux_{wanted[0]}_{wanted[1]}_x86_64", *older]


def libraries() -> dict[str, bytes]:
    """The shared library that NR_LIBRARY names, else this folder's, built if it is missing or old; and the one for a higher level
    of processors below its folder, if it is there."""
    named = os.environ.get("NR_LIBRARY")
    if not named:
        subprocess.run(["make", "all"], cwd=HERE, check=True, stdout=subprocess.DEVNULL)
    path = pathlib.Path(named or HERE / "out" / "libnr.so.3")
    found = {"nr/libnr.so.3": path.read_bytes()}
    for faster in path.parent.glob("glibc-hwcaps/*/libnr.so.3"):
        found[f"nr/{faster.relative_to(path.parent).as_posix()}"] = faster.read_bytes()
    return found


def about(octets: bytes) -> dict[str, bytes]:
    """The files that say what the wheel is, by their names; what the module says of itself is the long description."""
    folder = f"nr-{version()}.dist-info"
    lines = ["Metadata-Version: 2.1", "Name: nr", f"Version: {version()}", f"Summary: {SUMMARY}"]
    said = ast.get_docstring(ast.parse((HERE / "nr" / "__init__.py").read_bytes())) or ""
    lines += ["Requires-Python: >=3.8", "Description-Content-Type: text/markdown"]
    for extra, wanted in EXTRAS.items():
        lines.append(f"Provides-Extra: {extra}")
        lines += [f"Requires-Dist: {it}{' and' if ';' in it else ';'} extra == '{extra}'" for it in wanted]
    lines += ["", said, ""]
    entries = ["[console_scripts]", *(f"linksim-{tool} = linksim_tools.start:{tool}" for tool in TOOLS)]
    entries += ["linksim-verify = linksim_tools.verify:main", ""]
    marked = "".join(f"Tag: {tag}\n" for tag in tags(octets))
    wheel = f"Wheel-Version: 1.0\nGenerator: nr_build\nRoot-Is-Purelib: false\n{marked}"
    texts = {"METADATA": "\n".join(lines), "WHEEL": wheel, "entry_points.txt": "\n".join(entries)}
    return {f"{folder}/{name}": text.encode() for name, text in texts.items()}


def record(files: dict[str, bytes]) -> dict[str, bytes]:
    """The list of the files with their digests."""
    lines = []
    for name, octets in files.items():
        digest = base64.urlsafe_b64encode(hashlib.sha256(octets).digest()).rstrip(b"=").decode()
        lines.append(f"{name},sha256={digest},{len(octets)}\n")
    name = f"nr-{version()}.dist-info/RECORD"
    return {name: "".join([*lines, f"{name},,\n"]).encode()}


def build_wheel(
    wheel_directory: str | os.PathLike[str], config_settings: typing.Any = None, metadata_directory: str | None = None
) -> str:
    """Writes the wheel into a folder, and returns its name."""
    built = libraries()
    octets = built["nr/libnr.so.3"]
    files = dict(sorted({**sources(), **data(), **built}.items()))
    files.update(about(octets))
    files.update(record(files))
    when = time.gmtime(max(FIRST, int(os.environ.get("SOURCE_DATE_EPOCH", FIRST))))[:6]
    platforms = ".".join(tag.rpartition("-")[2] for tag in tags(octets))
    name = f"nr-{version()}-py3-none-{platforms}.whl"
    with zipfile.ZipFile(pathlib.Path(wheel_directory) / name, "w") as wheel:
        for path, octets in files.items():
            member = zipfile.ZipInfo(path, when)
            member.external_attr, member.compress_type, member.create_system = 0o100644 << 16, zipfile.ZIP_DEFLATED, 3
            wheel.writestr(member, octets)
    return name


def build_sdist(sdist_directory: str, config_settings: typing.Any = None) -> typing.NoReturn:
    """There is no source package: the library is built from proved crates, which stand outside this folder."""
    raise NotImplementedError("nr has wheels alone")


def install(folder: str) -> None:
    """Puts the files of both packages below the folder of Python's packages, as `make install` does."""
    for name, octets in sources().items():
        path = pathlib.Path(folder) / name
        path.parent.mkdir(parents=True, exist_ok=True)
        path.write_bytes(octets)
        path.chmod(0o644)


if __name__ == "__main__":
    try:
        install(*sys.argv[1:])
    except OSError as error:
        sys.exit(f"install: cannot write {error.filename}: {error.strerror}")
