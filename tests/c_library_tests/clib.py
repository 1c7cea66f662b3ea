"""The library as the tests have it: built from the archive of nr_c into a folder of its own, and called as C calls it."""

from __future__ import annotations

import array
import csv
import ctypes
import importlib
import os
import pathlib
import shutil
import subprocess
import sys
import tempfile
import threading
import time
import types
import typing
import unittest

import archive as making

ROOT = pathlib.Path(__file__).resolve().parent.parent.parent
C = ROOT / "c"
PACKAGES = [str(C), str(ROOT / "tools")]
HERE = pathlib.Path(__file__).resolve().parent
PRACTICE, DRAWN = ROOT / "examples" / "practice.csv", ROOT / "examples" / "drawn.csv"
SECONDS = 600

FOLDER = pathlib.Path(tempfile.mkdtemp(prefix="nr-c-"))
LIBRARY, STATIC = FOLDER / "libnr.so.3", FOLDER / "libnr.a"

_archive: pathlib.Path
_program: pathlib.Path
_calls: ctypes.CDLL
_module: types.ModuleType | None = None


def use(archive: pathlib.Path | None, program: pathlib.Path) -> None:
    """Names the archive, which is made if none is given, and the program linksim, and builds both libraries."""
    global _archive, _program, _calls
    _archive, _program = (archive or making.made()).resolve(), program.resolve()
    objects = FOLDER / "objects"
    objects.mkdir()
    for path in (_archive, allocator()):
        done(["ar", "x", path], objects)
    done([compiler(), "-O2", "-fPIC", "-c", C / "fault_name.c", "-o", objects / "fault_name.o"])
    members = sorted(objects.glob("*.o"))
    done(["ld", "-r", "-o", FOLDER / "nr.o", *members])
    done(["objcopy", "--wildcard", "--keep-global-symbol=nr_*", FOLDER / "nr.o"])
    done(["ar", "rcs", STATIC, FOLDER / "nr.o"])
    linked = ["-Wl,-soname,libnr.so.3", f"-Wl,--version-script,{C / 'nr.map'}", "-Wl,--no-undefined"]
    done([compiler(), "-shared", *linked, "-o", LIBRARY, *members])
    _calls = ctypes.CDLL(str(LIBRARY))


def end() -> None:
    """Takes away what was built."""
    shutil.rmtree(FOLDER)


def archive() -> pathlib.Path:
    """The archive that `rt lib` left."""
    return _archive


def allocator() -> pathlib.Path:
    """The kit's archive that has the allocator's three calls."""
    return making.kit() / "c" / "liblibc_c.a"


def program() -> pathlib.Path:
    """The program linksim; a test without it is skipped."""
    if not os.access(_program, os.X_OK):
        raise unittest.SkipTest(f"no program at {_program}")
    return _program


def compiler() -> str:
    """The C compiler's name."""
    return os.environ.get("CC", "cc")


def ran(
    words: typing.Sequence[object], folder: pathlib.Path | None = None, environment: typing.Mapping[str, str] | None = None
) -> tuple[int, bytes]:
    """A command's status and what it wrote, standard error after standard output."""
    ended = subprocess.run(
        [str(word) for word in words], stdin=subprocess.DEVNULL, timeout=SECONDS, cwd=folder, env=environment,
        stdout=subprocess.PIPE, stderr=subprocess.STDOUT,
    )
    return ended.returncode, ended.stdout


def done(
    words: typing.Sequence[object], folder: pathlib.Path | None = None, environment: typing.Mapping[str, str] | None = None
) -> bytes:
    """What a command wrote; a failure ends the tests or fails the one that asked."""
    status, output = ran(words, folder, environment)
    if status:
        raise AssertionError(f"{' '.join(map(str, words))}: status {status}\n{output.decode(errors='replace')}")
    return output


def needs(*tools: str) -> str:
    """The first of these tools that is there; a test that finds none is skipped."""
    for tool in tools:
        if shutil.which(tool):
            return tool
    raise unittest.SkipTest(f"no {' or '.join(tools)}")


def numpy() -> types.ModuleType:
    """The module numpy; a test without it is skipped."""
    try:
        return importlib.import_module("numpy")
    except ImportError:
        raise unittest.SkipTest("no numpy") from None


def module() -> types.ModuleType:
    """The Python module nr, over the library."""
    global _module
    if _module is None:
        os.environ["NR_LIBRARY"] = str(LIBRARY)
        sys.path[:0] = PACKAGES
        _module = importlib.import_module("nr")
    return _module


def for_python() -> dict[str, str]:
    """The environment of a Python program over the library."""
    found = os.pathsep.join(filter(None, [*PACKAGES, os.environ.get("PYTHONPATH")]))
    return {**os.environ, "NR_LIBRARY": str(LIBRARY), "PYTHONPATH": found, "PYTHONDONTWRITEBYTECODE": "1"}


def fault_of(call: typing.Callable[..., object], *given: typing.Any, **more: typing.Any) -> typing.Any:
    """The fault with which the module refuses a call."""
    try:
        call(*given, **more)
    except module().Fault as fault:
        return fault
    raise AssertionError("no fault")


def link_words(
    folder: pathlib.Path, table: bytes, link: tuple[int, int], blocks: list[bytes], schedule: str
) -> list[str | pathlib.Path]:
    """Writes the files of a link, its rate and limit among them, and gives the words by which the program reads them."""
    rate2048, lbrm = link
    limit = f"lbrm = {lbrm}\n" if lbrm else ""
    texts = {
        "table": table, "settings": f"rate2048 = {rate2048}\n{limit}".encode(),
        "blocks": "".join(it.hex() + "\n" for it in blocks).encode(), "schedule": schedule.encode(),
    }
    words: list[str | pathlib.Path] = []
    for name, text in texts.items():
        (folder / name).write_bytes(text)
        words += [f"--{name}", folder / name]
    return words


def others_run(call: typing.Callable[[], object]) -> bool:
    """Whether another thread runs within the call, which it would not by itself here: so several threads call side by side, on as
    many cores."""
    inside, seen = [False], [False]
    interval = sys.getswitchinterval()
    sys.setswitchinterval(10_000)
    try:
        for _ in range(20):
            waits = threading.Lock()
            waits.acquire()

            def look(waits: threading.Lock = waits) -> None:
                with waits:
                    seen[0] = seen[0] or inside[0]

            thread = threading.Thread(target=look)
            thread.start()
            time.sleep(0.05)  # until it waits
            waits.release()
            inside[0] = True
            call()
            inside[0] = False
            thread.join()
    finally:
        sys.setswitchinterval(interval)
    return seen[0]


class InFolder(unittest.TestCase):
    """A test with a folder of its own."""

    maxDiff = None

    def setUp(self) -> None:
        self.folder = pathlib.Path(tempfile.mkdtemp(dir=FOLDER))

    def file(self, name: str, text: str) -> pathlib.Path:
        """A file of this folder with this text."""
        path = self.folder / name
        path.write_text(text)
        return path


class OfModule(unittest.TestCase):
    """Calls of the Python module nr over the practice table."""

    def setUp(self) -> None:
        self.nr = module()
        self.table = self.nr.Table(PRACTICE.read_bytes())


class Tx(ctypes.Structure):
    """A transmission, as nr.h has it."""

    _fields_ = [
        *((name, ctypes.c_uint32) for name in ("rv", "g", "qm", "nl")),
        ("some", ctypes.c_uint64), ("blocks", ctypes.c_uint64 * 6), ("reserved", ctypes.c_uint32 * 4),
    ]


def tx(g: int, rv: int = 0, qm: int = 1, nl: int = 1, blocks: typing.Iterable[int] | None = None) -> Tx:
    """A transmission of all code blocks, or of those with these numbers."""
    given = Tx(rv, g, qm, nl, blocks is not None)
    for number in blocks or []:
        given.blocks[number // 64] |= 1 << number % 64
    return given


# Transmissions that are refused, with their statuses.
WRONG = [
    (50, tx(24, rv=4, qm=3)), (51, tx(24, qm=3, nl=5)), (52, tx(0, nl=0)), (52, tx(24, nl=5)), (53, tx(0)), (53, tx(4_194_305)),
    (54, tx(23, qm=2, blocks=[])), (55, tx(24, blocks=[])), (55, tx(24, blocks=[1, 383])),
]


class Entry(ctypes.Structure):
    """An entry of a shift table, as nr.h has it."""

    _fields_ = [(name, ctypes.c_uint16) for name in ("graph", "row", "col")] + [("values", ctypes.c_uint16 * 8)]


class Table:
    """Entries as a call takes them, each of eleven numbers, in the order that they are given in."""

    def __init__(self, rows: list[list[int]]) -> None:
        self.rows = rows
        # (an array of none has no address of its own)
        self.array = (Entry * max(1, len(rows)))(*[Entry(*row[:3], tuple(row[3:])) for row in rows])

    def octets(self) -> bytes:
        """The octets of the entries."""
        return bytes(self.array)[: 22 * len(self.rows)]


def rows_of(text: bytes) -> list[list[int]]:
    """The records of a table's text, as they are to stand: by base graph, row and column. The library has no part in it."""
    return sorted([int(field) for field in row] for row in csv.reader(text.decode().splitlines()))


def table(text: bytes) -> Table:
    """The entries of a table's text."""
    return Table(rows_of(text))


class Room:
    """Memory for so many items that a call may write, between octets that it may not, all filled with one octet."""

    FILL, AROUND = 0xA5, 64

    def __init__(self, count: int, item: int = 1, counted: bool = True) -> None:
        self.count, self.length, self.counted = count, count * item, counted
        self.whole = bytearray([self.FILL]) * (self.length + 2 * self.AROUND)
        self.memory = (ctypes.c_ubyte * len(self.whole)).from_buffer(self.whole)

    def octets(self) -> bytes:
        """What stands in the room; an assertion fails if something was written around it."""
        around = self.whole[: self.AROUND] + self.whole[self.AROUND + self.length :]
        assert around == bytes([self.FILL]) * len(around), "written outside the room"
        return bytes(self.whole[self.AROUND : self.AROUND + self.length])

    def numbers(self) -> list[int]:
        """The same as numbers of 32 bits."""
        return list(memoryview(self.octets()).cast("I"))

    def is_unwritten(self) -> bool:
        return self.octets() == bytes([self.FILL]) * self.length

    def words(self) -> list[typing.Any]:
        """The address of the room, and its count if a call wants one."""
        address = ctypes.c_void_p(ctypes.addressof(self.memory) + self.AROUND)
        return [address, ctypes.c_size_t(self.count)] if self.counted else [address]


def counter() -> Room:
    """A room for a count of items."""
    return Room(1, item=ctypes.sizeof(ctypes.c_size_t), counted=False)


def struct(count: int = 1) -> Room:
    """A room for a struct of so many numbers of 32 bits, the reserved ones among them."""
    return Room(count, item=4, counted=False)


def settings(rate2048: int, lbrm: int = 0) -> ctypes.Array[ctypes.c_uint32]:
    """The settings of a link."""
    return (ctypes.c_uint32 * 4)(rate2048, lbrm)


def matching(graph: int, z: int, fillers: int, ncb: int, rv: int, qm: int) -> ctypes.Array[ctypes.c_uint32]:
    """The numbers by which one code block is rate matched."""
    return (ctypes.c_uint32 * 8)(graph, z, fillers, ncb, rv, qm)


def call(name: str, *given: typing.Any) -> int:
    """The status of a call. Octets, entries, arrays, lists of transmissions and rooms are passed with their count.
    Numbers that are not ctypes' own are passed with 32 bits, and any other value by its address."""
    passed: list[typing.Any] = []
    for it in given:
        if isinstance(it, bytes):
            passed += [ctypes.c_char_p(it), ctypes.c_size_t(len(it))]
        elif isinstance(it, Room):
            passed += it.words()
        elif isinstance(it, Table):
            passed += [it.array, ctypes.c_size_t(len(it.rows))]
        elif isinstance(it, list):
            passed += [(Tx * len(it))(*it), ctypes.c_size_t(len(it))]
        elif isinstance(it, array.array):
            passed += [ctypes.c_void_p(it.buffer_info()[0]), ctypes.c_size_t(len(it))]
        elif isinstance(it, (ctypes.c_uint64, ctypes.c_size_t)):
            passed.append(it)
        else:
            passed.append(ctypes.c_uint32(it) if isinstance(it, int) else ctypes.byref(it))
    answer = getattr(_calls, name)
    answer.restype = ctypes.c_uint32
    status: int = answer(*passed)
    return status


def written(room: Room, name: str, *given: typing.Any) -> Room:
    """The room that a call has written, which is done."""
    status = call(name, *given, room)
    assert status == 0, f"{name}: status {status}"
    return room


def made(count: int, name: str, *given: typing.Any) -> bytes:
    """What a call writes to so many octets."""
    return written(Room(count), name, *given).octets()
