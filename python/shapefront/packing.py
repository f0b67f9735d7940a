"""Packs bytes as gzip, and images as PNG: by libdeflate where the system has it, as Debian has wherever Pillow is, which takes half the time; else by zlib.

The same bytes for the same data on one machine. Whoever reads them sees no difference.
"""
from __future__ import annotations

import ctypes
import gzip
import struct
import zlib
from collections.abc import Callable, Sequence
from functools import lru_cache

import numpy as np

# The level that takes least time: packing takes as long as measuring else.
_LEVEL = 1
_GREY, _COLOURS, _PALETTE = 0, 2, 3
_BY_THE_ROW_ABOVE = 2


def gzipped(data: bytes) -> bytes:
    """The data as gzip, without a time."""
    return _packers()[0](data)


def png(image: np.ndarray, palette: Sequence[int] = ()) -> bytes:
    """The PNG of an image of eight bits: of grey values [y, x], of places in a palette, told as red, green and blue of one after the other, or of colours
    [y, x, 3]. Each row is told by what differs from the one above."""
    kind = _COLOURS if image.ndim == 3 else _PALETTE if palette else _GREY
    height, width = image.shape[:2]
    rows = image.reshape(height, -1)
    told = np.full((height, rows.shape[1] + 1), _BY_THE_ROW_ABOVE, np.uint8)
    told[0, 1:] = rows[0]
    np.subtract(rows[1:], rows[:-1], out=told[1:, 1:])
    head = struct.pack(">IIBBBBB", width, height, 8, kind, 0, 0, 0)
    parts = [(b"IHDR", head), *([(b"PLTE", bytes(palette))] if palette else []), (b"IDAT", _packers()[1](told.tobytes())), (b"IEND", b"")]
    return b"\x89PNG\r\n\x1a\n" + b"".join(_chunk(*part) for part in parts)


def _chunk(kind: bytes, data: bytes) -> bytes:
    return struct.pack(">I", len(data)) + kind + data + struct.pack(">I", zlib.crc32(data, zlib.crc32(kind)))


@lru_cache
def _packers() -> tuple[Callable[[bytes], bytes], Callable[[bytes], bytes]]:
    """What packs as gzip and as zlib."""
    try:
        library = ctypes.CDLL("libdeflate.so.0")
    except OSError:
        return lambda data: gzip.compress(data, _LEVEL, mtime=0), lambda data: zlib.compress(data, _LEVEL)
    library.libdeflate_alloc_compressor.restype = ctypes.c_void_p
    library.libdeflate_free_compressor.argtypes = [ctypes.c_void_p]
    return _packer(library, "gzip"), _packer(library, "zlib")


def _packer(library: ctypes.CDLL, kind: str) -> Callable[[bytes], bytes]:
    """What packs in this way by libdeflate; each call has a compressor of its own, so that threads may call it at once."""
    bound, pack = library[f"libdeflate_{kind}_compress_bound"], library[f"libdeflate_{kind}_compress"]
    bound.restype = pack.restype = ctypes.c_size_t
    bound.argtypes, pack.argtypes = [ctypes.c_void_p, ctypes.c_size_t], [ctypes.c_void_p, ctypes.c_char_p, ctypes.c_size_t, ctypes.c_void_p, ctypes.c_size_t]

    def packed(data: bytes) -> bytes:
        compressor = library.libdeflate_alloc_compressor(_LEVEL)
        if not compressor:
            raise MemoryError
        try:
            room = np.empty(bound(compressor, len(data)), np.uint8)
            return room[: pack(compressor, data, len(data), room.ctypes.data, room.size)].tobytes()
        finally:
            library.libdeflate_free_compressor(compressor)

    return packed
