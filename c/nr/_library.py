"""The library libnr.so.3 by ctypes: its structs (nr.h), and what its calls take and return."""

from __future__ import annotations

import ctypes
import os
import pathlib
import re

# made by tests/generated from c/nr.h


class SettingsStruct(ctypes.Structure):
    _fields_ = [("rate2048", ctypes.c_uint32), ("lbrm", ctypes.c_uint32), ("reserved", ctypes.c_uint32 * 2)]


class TxStruct(ctypes.Structure):
    _fields_ = [("rv", ctypes.c_uint32), ("g", ctypes.c_uint32), ("qm", ctypes.c_uint32), ("nl", ctypes.c_uint32),
                ("some", ctypes.c_uint64), ("blocks", ctypes.c_uint64 * 6), ("reserved", ctypes.c_uint32 * 4)]


class PlanStruct(ctypes.Structure):
    _fields_ = [("graph", ctypes.c_uint32), ("b", ctypes.c_uint32), ("l", ctypes.c_uint32), ("c", ctypes.c_uint32),
                ("kdash", ctypes.c_uint32), ("kb", ctypes.c_uint32), ("z", ctypes.c_uint32), ("set", ctypes.c_uint32),
                ("k", ctypes.c_uint32), ("n", ctypes.c_uint32), ("reserved", ctypes.c_uint32 * 2)]


class ReportStruct(ctypes.Structure):
    _fields_ = [("one", ctypes.c_uint32), ("two", ctypes.c_uint32), ("place", ctypes.c_uint32), ("reserved", ctypes.c_uint32)]


class Entry(ctypes.Structure):
    _fields_ = [("graph", ctypes.c_uint16), ("row", ctypes.c_uint16), ("col", ctypes.c_uint16), ("values", ctypes.c_uint16 * 8)]


class BufferStruct(ctypes.Structure):
    _fields_ = [("ncb", ctypes.c_uint32), ("k0", ctypes.c_uint32), ("reserved", ctypes.c_uint32 * 2)]


class MatchStruct(ctypes.Structure):
    _fields_ = [("graph", ctypes.c_uint32), ("z", ctypes.c_uint32), ("fillers", ctypes.c_uint32), ("ncb", ctypes.c_uint32),
                ("rv", ctypes.c_uint32), ("qm", ctypes.c_uint32), ("reserved", ctypes.c_uint32 * 2)]


# What each call takes, a letter an argument: a pointer, or a number of ctypes.
TAKES = {
    "nr_fault_name": "i",
    "nr_version": "",
    "nr_table_check": "pnp",
    "nr_table_entries": "pnpnp",
    "nr_plan": "iip",
    "nr_lengths": "iippn",
    "nr_buffer": "piip",
    "nr_cut": "ipnipn",
    "nr_encode": "pniipnpn",
    "nr_codeword": "pniipnpn",
    "nr_select": "piipnpn",
    "nr_interleave": "ipnpn",
    "nr_match": "ppnpn",
    "nr_places": "pippn",
    "nr_join": "iipnpnppn",
    "nr_crc": "ipnp",
    "nr_send": "pnppnppn",
    "nr_send_packed": "pnppnppn",
    "nr_send_many": "pnpipnnpnpn",
    "nr_receive": "pnpipnpnpnpnpn",
    "nr_receive_packed": "pnpipnpnpnpnpnpn",
    "nr_receive_many": "pnpipnnpnpnpnpn",
    "nr_receiver_size": "iip",
    "nr_receiver_start": "pnpipn",
    "nr_receiver_take": "pnpipnppnppnpn",
    "nr_erase": "qipn",
    "nr_simulate": "pnpipnpnpnpnpnpn",
}
# end of what tests/generated made

# Where the library is beside this folder: in a wheel, in the sources, and as `make install` puts it.
PLACES = ["libnr.so.3", "../out/libnr.so.3", "../../../lib/libnr.so.3"]


# The library for processors of this level, below the folder of the one for all: ld.so looks for it there, too.
LEVEL = "x86-64-v3"
FASTER = pathlib.Path("glibc-hwcaps", LEVEL)
FEATURES = {"avx", "avx2", "bmi1", "bmi2", "f16c", "fma", "abm", "movbe", "xsave"}


def has_level() -> bool:
    """Whether the library for the higher level is to be loaded: NR_CPU says so (x86-64-v2 or x86-64-v3), or else the processor."""
    wanted = os.environ.get("NR_CPU", "")
    if wanted not in ("", "x86-64-v2", LEVEL):
        raise ImportError(f"NR_CPU is x86-64-v2 or {LEVEL}, and not {wanted[:60]!r}")
    try:
        flags = re.search(r"(?m)^flags\s*: (.*)", pathlib.Path("/proc/cpuinfo").read_text())
    except OSError:
        flags = None
    return wanted == LEVEL if wanted else bool(flags and FEATURES <= set(flags[1].split()))


def file_of(place: pathlib.Path) -> pathlib.Path:
    """The library at a place, or the faster one below it."""
    faster = place.parent / FASTER / place.name
    return faster if faster.exists() and has_level() else place


def load() -> ctypes.CDLL:
    """The library, with what its calls take and return."""
    here = pathlib.Path(__file__).resolve().parent
    beside = (here / place for place in PLACES)
    named = os.environ.get("NR_LIBRARY") or next((str(file_of(path)) for path in beside if path.exists()), "libnr.so.3")
    try:
        found = ctypes.CDLL(named)
    except OSError as error:
        raise ImportError(f"nr cannot load its library: {error} (in a checkout `make -C c` builds it)") from None
    kinds = {"p": ctypes.c_void_p, "n": ctypes.c_size_t, "i": ctypes.c_uint32, "q": ctypes.c_uint64}
    for name, letters in TAKES.items():
        call = getattr(found, name, None)
        if call is None:
            raise ImportError(f"{named} is older than this copy of nr: it has no {name}")
        call.argtypes = [kinds[letter] for letter in letters]
        call.restype = ctypes.c_char_p if name in ("nr_fault_name", "nr_version") else ctypes.c_uint32
    return found


class _Symbol(ctypes.Structure):
    _fields_ = [("file", ctypes.c_char_p), ("base", ctypes.c_void_p), ("name", ctypes.c_char_p), ("address", ctypes.c_void_p)]


def library_path() -> pathlib.Path:
    """The file of the library that is loaded, as the system's loader found it."""
    symbol, call = _Symbol(), ctypes.cast(library.nr_version, ctypes.c_void_p)
    if not ctypes.CDLL(None).dladdr(call, ctypes.byref(symbol)) or not symbol.file:
        raise OSError("the system's loader does not say which file the library is")
    return pathlib.Path(os.fsdecode(symbol.file)).resolve()


def library_base() -> pathlib.Path:
    """The file of the library for every processor, which gives the same results as the loaded one: where both are installed, two
    machines agree on this one."""
    loaded = library_path()
    base = loaded.parents[2] / loaded.name
    return base if loaded.parent.parts[-2:] == FASTER.parts and base.exists() else loaded


library = load()
