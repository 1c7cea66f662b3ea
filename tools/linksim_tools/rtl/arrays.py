"""The stages of a vector as arrays of octets, one for each bit: files of octets alone, or an archive that numpy reads."""

from __future__ import annotations

import hashlib
import io
import typing
import zipfile

from linksim_tools.conform.bits import FILLER

if typing.TYPE_CHECKING:
    from linksim_tools.rtl.by_block import Transmission
    from linksim_tools.rtl.folder import Folder

FORMS = ("dat", "npz")
# A bit as an octet; a filler is 2, as in nr.
OCTETS = {ord("0"): 0, ord("1"): 1, ord(FILLER): 2}
# When every member of an archive was made, so that the same vectors are the same octets.
FIRST = (1980, 1, 1, 0, 0, 0)


def octets_of(bits: str) -> bytes:
    """The bits, an octet each."""
    return bits.translate(OCTETS).encode("latin-1")


def digest_of(bits: str) -> str:
    """The SHA-256 of the octets, which is what sha256sum says of a .dat file."""
    return hashlib.sha256(octets_of(bits)).hexdigest()


def npy(octets: bytes) -> bytes:
    """An array of uint8 as numpy's file format has it (version 1.0)."""
    head = f"{{'descr': '|u1', 'fortran_order': False, 'shape': ({len(octets)},), }}"
    head += " " * (-(len(head) + 11) % 64) + "\n"
    return b"\x93NUMPY\x01\x00" + len(head).to_bytes(2, "little") + head.encode() + octets


def npz(arrays: dict[str, bytes]) -> bytes:
    """The arrays as an archive that numpy.load() reads."""
    made = io.BytesIO()
    with zipfile.ZipFile(made, "w") as archive:
        for name, octets in arrays.items():
            archive.writestr(zipfile.ZipInfo(f"{name}.npy", FIRST), npy(octets), zipfile.ZIP_DEFLATED)
    return made.getvalue()


def write(folder: Folder, form: str, one: Transmission) -> None:
    """Writes the stages of a transmission."""
    arrays = {name: octets_of(bits) for name, bits in one.stages()}
    if form == "npz":
        folder.keep(f"{folder.named(one.case.id)}.npz", npz(arrays))
    else:
        for name, octets in arrays.items():
            folder.keep(f"{folder.named(one.case.id)}/{name}.dat", octets)
