"""NRRD and MetaImage: a header of a few lines, and the numbers behind it or in a file beside it. Both are read here, without a package."""
from __future__ import annotations

import bz2
import gzip
import re
import zlib
from collections.abc import Callable
from dataclasses import dataclass
from pathlib import Path

import numpy as np

from ..faults import Fault
from ..images import Grey
from ..spacing import Spacing
from .solids import solid

_NRRD = {
    **{name: "i1" for name in ("signed char", "int8", "int8_t")}, **{name: "u1" for name in ("uchar", "unsigned char", "uint8", "uint8_t")},
    **{name: "i2" for name in ("short", "short int", "signed short", "signed short int", "int16", "int16_t")},
    **{name: "u2" for name in ("ushort", "unsigned short", "unsigned short int", "uint16", "uint16_t")},
    **{name: "i4" for name in ("int", "signed int", "int32", "int32_t")}, **{name: "u4" for name in ("uint", "unsigned int", "uint32", "uint32_t")},
    **{name: "i8" for name in ("longlong", "long long", "long long int", "int64", "int64_t")},
    **{name: "u8" for name in ("ulonglong", "unsigned long long", "uint64", "uint64_t")}, "float": "f4", "double": "f8",
}  # fmt: skip
_META = {
    "MET_CHAR": "i1", "MET_UCHAR": "u1", "MET_SHORT": "i2", "MET_USHORT": "u2", "MET_INT": "i4", "MET_UINT": "u4", "MET_LONG": "i4", "MET_ULONG": "u4",
    "MET_LONG_LONG": "i8", "MET_ULONG_LONG": "u8", "MET_FLOAT": "f4", "MET_DOUBLE": "f8",
}  # fmt: skip
_UNPACKED: dict[str, Callable[[bytes], bytes]] = {"raw": bytes, "gzip": gzip.decompress, "gz": gzip.decompress, "bzip2": bz2.decompress, "bz2": bz2.decompress}
_BROKEN = (OSError, EOFError, ValueError, KeyError, IndexError, zlib.error, TypeError)


@dataclass(frozen=True)
class Header:
    """What a header tells: the sides, x first, the type of a number, the sizes of a voxel, and the bytes of the numbers as they lie there."""

    sides: list[int]
    kind: np.dtype
    spacing: Spacing | None
    data: bytes

    def volume(self, path: Path) -> Grey:
        """The volume that it tells of. A Fault where the numbers are fewer than its sides say."""
        count = int(np.prod(self.sides, dtype=object))
        if len(self.data) < count * self.kind.itemsize:
            raise Fault(path, f"{len(self.data):,} bytes, and its header tells of {count:,} numbers of {self.kind.itemsize}", "is it a whole file? copy it again")
        return solid(path, np.frombuffer(self.data, self.kind, count).reshape(self.sides[::-1]), self.spacing)


def read_nrrd(path: Path) -> Grey:
    """The volume of an NRRD file, its numbers in it or in one beside it. A Fault where it is none."""
    return _read(path, "NRRD", _nrrd)


def read_meta(path: Path) -> Grey:
    """The volume of a MetaImage, its numbers in it or in one file beside it. A Fault where it is none."""
    return _read(path, "MetaImage", _meta)


def _read(path: Path, name: str, header: Callable[[Path, bytes], Header]) -> Grey:
    try:
        return header(path, path.read_bytes()).volume(path)
    except Fault:
        raise
    except _BROKEN as error:
        raise Fault(path, f"a {name} file that cannot be read ({error or type(error).__name__})", "is it a whole file? copy it again") from error


def _nrrd(path: Path, text: bytes) -> Header:
    head, _, behind = text.partition(b"\n\n") if b"\r\n\r\n" not in text[:65536] else text.partition(b"\r\n\r\n")
    first, *lines = head.decode("utf-8", "replace").splitlines()
    if not first.startswith("NRRD"):
        raise ValueError("its first line is none of NRRD")
    told = dict(line.split(": ", 1) for line in lines if ": " in line and not line.startswith("#") and ":=" not in line.split(": ", 1)[0])
    told = {name.lower().replace("datafile", "data file"): value.strip() for name, value in told.items()}
    sides = [int(side) for side in told["sizes"].split()]
    kind = np.dtype(_NRRD[told["type"].lower()]).newbyteorder(">" if told.get("endian") == "big" else "<")
    beside = told.get("data file")
    data = behind if beside is None else _beside(path, beside)
    return Header(sides, kind, _nrrd_spacing(told, len(sides)), _nrrd_bytes(data, told, kind))


def _nrrd_bytes(data: bytes, told: dict[str, str], kind: np.dtype) -> bytes:
    """The bytes of the numbers, after those that are to be left out at the begin; a negative number of these means: all before the last."""
    encoding = told["encoding"].lower()
    skipped = int(told.get("line skip", told.get("lineskip", 0)))
    data = data.split(b"\n", skipped)[-1] if skipped else data
    if encoding in ("ascii", "text", "txt"):
        return np.array(data.split(), kind).tobytes()
    if encoding not in _UNPACKED:
        raise ValueError(f"the encoding {encoding}")
    data, skip = _UNPACKED[encoding](data), int(told.get("byte skip", told.get("byteskip", 0)))
    return data[skip:] if skip >= 0 else data[-int(np.prod([int(side) for side in told["sizes"].split()])) * kind.itemsize :]


def _nrrd_spacing(told: dict[str, str], axes: int) -> Spacing | None:
    """The sizes of a voxel along the axes of the volume, which are those that have one."""
    units = re.findall(r'"([^"]*)"', told.get("space units", told.get("units", "")))
    unit = next((unit for unit in units if unit), None)
    if "space directions" in told:
        vectors = [word for word in re.findall(r"none|\([^)]*\)", told["space directions"]) if word != "none"]
        sizes = [float(np.linalg.norm([float(part) for part in vector.strip("()").split(",")])) for vector in vectors]
    else:
        sizes = [float(size) for size in told.get("spacings", "").split()]
        sizes = [size for size in sizes if size == size] if len(sizes) == axes else []
    return Spacing.read(sizes, unit) if len(sizes) == 3 else None


def _meta(path: Path, text: bytes) -> Header:
    end = text.index(b"ElementDataFile")
    stop = text.index(b"\n", end) + 1 if b"\n" in text[end:] else len(text)
    pairs = (line.split("=", 1) for line in text[:stop].decode("ascii", "replace").splitlines() if "=" in line)
    told = {name.strip(): value.strip() for name, value in pairs}
    sides = [int(side) for side in told["DimSize"].split()]
    if int(told.get("ElementNumberOfChannels", 1)) != 1:
        raise ValueError(f"{told['ElementNumberOfChannels']} numbers a voxel")
    is_big = told.get("BinaryDataByteOrderMSB", told.get("ElementByteOrderMSB", "False")).lower() == "true"
    kind = np.dtype(_META[told["ElementType"]]).newbyteorder(">" if is_big else "<")
    data = text[stop:] if told["ElementDataFile"].upper() == "LOCAL" else _beside(path, told["ElementDataFile"])
    sizes = told.get("ElementSpacing", told.get("ElementSize", "")).split()
    return Header(sides, kind, Spacing.read(sizes, told.get("DistanceUnits")), _meta_bytes(data, told, sides, kind))


def _meta_bytes(data: bytes, told: dict[str, str], sides: list[int], kind: np.dtype) -> bytes:
    if told.get("CompressedData", "False").lower() == "true":
        return zlib.decompress(data)
    if told.get("BinaryData", "True").lower() == "false":
        return np.array(data.split(), kind).tobytes()
    skip = int(told.get("HeaderSize", 0))
    return data[-int(np.prod(sides)) * kind.itemsize :] if skip < 0 else data[skip:]


def _beside(path: Path, name: str) -> bytes:
    """The bytes of the file of this name beside a header."""
    if " " in name.strip() and not (path.parent / name).exists() or name.upper().startswith("LIST") or "%" in name:
        raise ValueError("its numbers lie in several files; save them in one")
    return (path.parent / name).read_bytes()
