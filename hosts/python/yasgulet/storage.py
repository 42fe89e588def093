"""Storage that is lent to the library, and lent again when nobody holds it any more.

New pages cost the system more than a product's decoding does, so a few pieces are kept. Large ones are of huge pages where the system has
them: a product's 8 MB are 2,000 ordinary pages, more than the processor knows the places of at once.
"""
from __future__ import annotations

import mmap
import struct
import sys
import threading
from contextlib import suppress
from typing import List, Union

Piece = Union[bytearray, mmap.mmap]

_KEPT, _KEPT_BYTES = 8, 64 << 20
_HUGE = 2 << 20
_lock = threading.Lock()
_pieces: List[Piece] = []  # the last used at the end
_references = getattr(sys, "getrefcount", None)


def _holders() -> int:
    """What the count of references says of a piece that nobody but the list and the loop below holds."""
    for piece in [bytearray()]:
        return _references(piece) if _references else 0
    return 0


_FREE = _holders()


def _new(size: int) -> Piece:
    """A piece of at least that size."""
    if size >= _HUGE and hasattr(mmap, "MADV_HUGEPAGE"):
        size += -size % _HUGE
        with suppress(OSError):  # no room, or a system without huge pages
            piece = mmap.mmap(-1, size, flags=mmap.MAP_PRIVATE | mmap.MAP_ANONYMOUS)
            piece.madvise(mmap.MADV_HUGEPAGE)
            return piece
    return bytearray(size)


def lend(places: int, form: str) -> memoryview:
    """Storage for a number of items of a format. What stands in it is whatever stood there."""
    size = places * struct.calcsize("=" + form)
    if size < 1 << 16 or not _references:
        return memoryview(bytearray(size)).cast(form)
    with _lock:
        for piece in _pieces:
            if size <= len(piece) <= 2 * size and _references(piece) == _FREE:
                break
        else:
            piece = _new(size)
            _pieces.append(piece)
            while len(_pieces) > _KEPT or sum(map(len, _pieces)) > _KEPT_BYTES:
                del _pieces[0]  # whoever still has a view of it keeps it
        return memoryview(piece)[:size].cast(form)
