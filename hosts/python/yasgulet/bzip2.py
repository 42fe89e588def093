"""bzip2 streams.

Python's own module collects what it unpacks in pieces and then joins them. A symbology block says how long it is, so libbz2, which that
module stands on, can be given one place for all of it; that saves a fortieth of the time. Whatever is not so simple goes to the module.
"""
from __future__ import annotations

import bz2
import ctypes
import struct
from functools import lru_cache
from typing import Callable, NamedTuple, Optional, Tuple

from .errors import BadFile

_OK, _STREAM_END = 0, 4
_FRONT, _MORE = 8, 1 << 16


class _Stream(ctypes.Structure):
    """bz_stream of bzlib.h."""

    _fields_ = [("next_in", ctypes.c_void_p), ("avail_in", ctypes.c_uint), ("total_in_lo", ctypes.c_uint), ("total_in_hi", ctypes.c_uint),
                ("next_out", ctypes.c_void_p), ("avail_out", ctypes.c_uint), ("total_out_lo", ctypes.c_uint), ("total_out_hi", ctypes.c_uint),
                ("state", ctypes.c_void_p), ("bzalloc", ctypes.c_void_p), ("bzfree", ctypes.c_void_p), ("opaque", ctypes.c_void_p)]


class _Calls(NamedTuple):
    begin: Callable[..., int]
    step: Callable[..., int]
    end: Callable[..., int]
    #: New bytes of a length, to be filled before anybody else sees them, and where bytes stand.
    room: Callable[..., bytes]
    address: Callable[[bytes], int]


@lru_cache(maxsize=None)
def _calls() -> Optional[_Calls]:
    """libbz2 as Python's module has loaded it; None where it can't be called."""
    try:
        import _bz2
        library, stream, number = ctypes.CDLL(_bz2.__file__), ctypes.POINTER(_Stream), ctypes.c_int
        return _Calls(ctypes.CFUNCTYPE(number, stream, number, number)(("BZ2_bzDecompressInit", library)),
                      ctypes.CFUNCTYPE(number, stream)(("BZ2_bzDecompress", library)), ctypes.CFUNCTYPE(number, stream)(("BZ2_bzDecompressEnd", library)),
                      ctypes.PYFUNCTYPE(ctypes.py_object, ctypes.c_void_p, ctypes.c_ssize_t)(("PyBytes_FromStringAndSize", ctypes.pythonapi)),
                      ctypes.PYFUNCTYPE(ctypes.c_void_p, ctypes.py_object)(("PyBytes_AsString", ctypes.pythonapi)))
    except (ImportError, OSError, AttributeError):
        return None


def _at_once(data: bytes, start: int, cap: int) -> Optional[Tuple[bytes, bytes]]:
    """What a stream holds and what stands after it, if it begins with a block of the length that the block declares; None for any other."""
    calls = _calls()
    if calls is None:
        return None
    stream, front = _Stream(), ctypes.create_string_buffer(_FRONT)

    def step(place: int, count: int) -> int:
        stream.next_out, stream.avail_out = place, count
        return calls.step(stream)

    if calls.begin(stream, 0, 0) != _OK:
        return None
    try:
        stream.next_in, stream.avail_in = calls.address(data) + start, len(data) - start
        if step(ctypes.addressof(front), _FRONT) != _OK or stream.avail_out:
            return None
        length = struct.unpack_from(">i", front, 4)[0]
        if not _FRONT < length <= cap:
            return None
        body = calls.room(None, length)
        place = calls.address(body)
        ctypes.memmove(place, front, _FRONT)
        state = step(place + _FRONT, length - _FRONT)
        if stream.avail_out:
            return None
        others = bytearray()
        if state == _OK:  # not at its end, or not known to be
            more = ctypes.create_string_buffer(_MORE)
            while state == _OK and not stream.avail_out and length + len(others) <= cap:
                state = step(ctypes.addressof(more), _MORE)
                others += more[:_MORE - stream.avail_out]
        if state != _STREAM_END or length + len(others) > cap:
            return None
        return body + others if others else body, data[len(data) - stream.avail_in:]
    finally:
        calls.end(stream)


def unpack(data: bytes, start: int, cap: int) -> Tuple[bytes, bytes]:
    """What the bzip2 stream at a place of data holds, at most cap bytes, and the bytes after the stream."""
    whole = _at_once(data, start, cap)
    if whole:
        return whole
    stream = bz2.BZ2Decompressor()
    try:
        body = stream.decompress(memoryview(data)[start:], cap + 1)
    except (OSError, ValueError) as error:
        raise BadFile("the bzip2 stream is damaged: %s" % error) from None
    if len(body) > cap:
        raise BadFile("more than %d bytes would be unpacked" % cap)
    if not stream.eof:
        raise BadFile("the bzip2 stream is cut short after %d unpacked bytes" % len(body))
    return body, stream.unused_data
