"""The simulators as the tests have them: models that are built once, side by side, and how they are run."""

from __future__ import annotations

import concurrent.futures
import dataclasses
import os
import pathlib
import shutil
import sys
import tempfile
import typing

import clib
import shared

ROOT = pathlib.Path(__file__).resolve().parent.parent.parent
C = ROOT / "c"
DPI = C / "dpi"
RTL = pathlib.Path(__file__).resolve().parent / "rtl"
EXAMPLES = ROOT / "examples" / "rtl"
FOLDER = pathlib.Path(tempfile.mkdtemp(prefix="nr-rtl-"))

PACKAGE = DPI / "nr_dpi_pkg.sv"
DUT = [EXAMPLES / name for name in ("nr_crc.sv", "nr_interleaver.sv", "beat_queue.sv", "code_block_chain.sv")]
SHIM = [DPI / name for name in ("nr_golden.c", "nr_golden_receiver.c", "nr_beats.c", "nr_packed.c", "nr_suite.c")]
WRAPPED = "-Wl,--wrap=malloc,--wrap=calloc,--wrap=realloc"


@dataclasses.dataclass(frozen=True)
class Model:
    """A testbench with its sources: for Verilator (with the library, or without), or for Icarus."""

    top: str
    sources: tuple[pathlib.Path, ...] = ()
    icarus: bool = False
    library: bool = True
    more: tuple[str, ...] = ()


MODELS = {
    "calls": Model("tb_calls", (RTL / "tb_calls.sv", RTL / "refusing.c"), more=("-LDFLAGS", WRAPPED)),
    "beats": Model("tb_beats", (RTL / "tb_beats.sv",)),
    "judge": Model("tb_judge", (RTL / "tb_judge.sv",)),
    "suite": Model("tb_suite", (*DUT, EXAMPLES / "tb_suite.sv")),
    "memory": Model("tb_memory", (RTL / "tb_memory.sv",), library=False),
    "memory-icarus": Model("tb_memory", (RTL / "tb_memory.sv",), icarus=True, library=False),
    "beats-icarus": Model("tb_beats", (RTL / "tb_beats.sv",), icarus=True),
    "judge-icarus": Model("tb_judge", (RTL / "tb_judge.sv",), icarus=True),
}

# Of a folder of vectors, whose sizes are its own: built by the tests that have the folder.
FILES = (*DUT, RTL / "tb_files.sv")

_pool = concurrent.futures.ThreadPoolExecutor(os.cpu_count())
_models: dict[str, concurrent.futures.Future[pathlib.Path]] = {}


def use(archive: pathlib.Path | None, program: pathlib.Path) -> None:
    """Makes the library, and begins with all models if no words name tests."""
    clib.use(archive, program)
    shared.use(program)
    for name, model in MODELS.items() if not sys.argv[1:] else ():
        if shutil.which("iverilog" if model.icarus else "verilator"):
            begin(name)


def end() -> None:
    """Takes away what was made."""
    _pool.shutdown()
    for folder in (clib.FOLDER, FOLDER):
        shutil.rmtree(folder, ignore_errors=True)


def ran(words: typing.Sequence[object], folder: pathlib.Path | None = None) -> tuple[int, str]:
    """A command's status and what it wrote, standard error after standard output."""
    status, said = clib.ran(words, folder)
    return status, said.decode(errors="replace")


def done(words: typing.Sequence[object], folder: pathlib.Path | None = None) -> str:
    """What a command wrote; a failure fails the test."""
    return clib.done(words, folder).decode(errors="replace")


def vpi() -> pathlib.Path:
    """The folder of the shim as a module of Icarus."""
    flags = done(["iverilog-vpi", "--cflags"]).split()
    words = [clib.compiler(), "-O1", "-shared", "-fPIC", *flags, "-I", C, "-o", FOLDER / "nr.vpi", DPI / "nr_vpi.c", *SHIM]
    done([*words, clib.STATIC])
    return FOLDER


def build(name: str) -> pathlib.Path:
    """Builds a model: the file that runs."""
    model, folder = MODELS[name], FOLDER / name
    folder.mkdir()
    if model.icarus:
        words: list[object] = ["iverilog", "-g2012", "-I", EXAMPLES, *model.more, "-s", model.top, "-o", folder / "tb"]
        if model.library:
            words += ["-DNR_VPI", "-L", FOLDER, "-mnr", PACKAGE]
        done([*words, *model.sources])
        return folder / "tb"
    words = ["verilator", "--binary", "--timing", "-Wno-fatal", "-Wno-WIDTH", "--x-initial", "unique", "-j", "2", "-I" + str(EXAMPLES)]
    words += ["--top", model.top, "--Mdir", folder, "-o", "tb", "-CFLAGS", f"-O1 -I{C}", *model.more]
    if model.library:
        words += ["-LDFLAGS", clib.STATIC, "-F", DPI / "nr_dpi.f"]
    done([*words, *model.sources])
    return folder / "tb"


def begin(name: str) -> concurrent.futures.Future[pathlib.Path]:
    """Begins to build a model, once. The shim for Icarus is built before the first that loads it."""
    if name not in _models:
        model = MODELS[name]
        if model.icarus and model.library and not (FOLDER / "nr.vpi").exists():
            vpi()
        _models[name] = _pool.submit(build, name)
    return _models[name]


def run(name: str, *plusargs: str, folder: pathlib.Path | None = None) -> str:
    """What a simulation writes, without the simulator's own lines; a test without the simulator is skipped."""
    model = MODELS[name]
    clib.needs("iverilog" if model.icarus else "verilator")
    path = begin(name).result()
    words: list[object] = ["vvp", "-M", FOLDER, *(["-mnr"] if model.library else []), path] if model.icarus else [path]
    limit = [] if model.icarus else ["+verilator+error+limit+100000"]
    said = done([*words, *plusargs, *limit], folder or FOLDER)
    return "".join(line + "\n" for line in said.splitlines() if not line.startswith("-"))


def tables() -> str:
    """A table of both base graphs."""
    return "".join((ROOT / "examples" / name).read_text() for name in ("drawn.csv", "practice.csv"))
