"""The compiled library: where it is found, its entries, and the report that every call fills in."""
from __future__ import annotations

import ctypes
import ctypes.util
import os
from functools import lru_cache
from pathlib import Path
from typing import Callable, Dict, Iterator, List, Optional, Sequence, Tuple

from .errors import NotInLibrary, refused

INTS, FLOATS, NAME = 24, 8, 32
#: The major version that this package is for; of a library with another one the entries may take other arguments.
MAJOR = 4
ACCEPTED, SHORT_REPORT, BAD_ARGUMENT = 0, 100, 101
#: The most cells and radials that a sweep can have.
MOST_CELLS, MOST_RADIALS = 4_000_000, 100_000

_P, _Z, _B = ctypes.c_void_p, ctypes.c_size_t, ctypes.c_char_p
_U16, _I16, _I32, _U32, _U64, _F32 = ctypes.c_uint16, ctypes.c_int16, ctypes.c_int32, ctypes.c_uint32, ctypes.c_uint64, ctypes.c_float
_REPORT = [_P, _Z, _P, _Z]
_HEAD = [_B, _Z, _U64, _U32, _F32]  # file, clock, scheme, parameter
_PICTURE = [_P, _Z, _P, _Z, _P, _Z]  # azimuths, codes, physical

#: Arguments of the entries that are called from here. Those of a newer library may be missing from an older one.
ENTRIES = {
    "l3_sweep": _HEAD + [_B, _Z] + _PICTURE + _REPORT,
    "l3_strict": _HEAD + [_B, _Z] + _PICTURE + _REPORT,
    "l3_gaps": _HEAD + [_B, _Z] + _PICTURE + [_P, _Z] + _REPORT,
    "l3_merge": _HEAD + [_B, _Z, _B, _Z] + _PICTURE + [_P, _Z] + _REPORT,
    "l3_totals": _HEAD + [_B, _Z, _B, _Z] + _PICTURE + [_P, _Z] + _REPORT,
    "l3_plan_totals": [_B, _Z, _Z, _P, _Z, _Z, _Z, _B, _Z, _P, _Z] + _REPORT,
    "l3_export16": [_B, _Z, _P, _Z] + _REPORT,
    "l3_token": [_B, _Z] + _REPORT,
    "l3_message_header": [_B, _Z] + _REPORT,
    "l3_pdb": [_B, _Z, _Z] + _REPORT,
    "l3_field": [_B, _Z, _Z, _Z, _U32] + _REPORT,
    "l3_precip": [_B, _Z, _Z, _F32] + _REPORT,
    "l3_threshold": [_B, _Z, _Z, _P, _Z] + _REPORT,
    "l3_physical": [_B, _Z, _Z, _U32, _F32, _P, _Z, _P, _Z] + _REPORT,
    "l3_trailing": [_B, _Z] + _REPORT,
    "l3_date": [_U16] + _REPORT,
    "l3_charge": [_U64, _P, _Z, _P, _Z] + _REPORT,
    "l3_product": [_I16] + _REPORT,
    "l3_known": [_I16],
    "l3_codes": [_P, _Z],
    "l3_refusal_name": [_U32, _P, _Z],
    "l3_version": [],
}


def candidates() -> Iterator[str]:
    """Where the library is looked for: YASGULET_LIBRARY, beside the package, the repository's build, the system."""
    named = os.environ.get("YASGULET_LIBRARY")
    if named:
        yield named
        return
    here = Path(__file__).resolve().parent
    for folder in (here, here.parents[2] / "target" / "hosts"):
        path = folder / "libyasgulet.so"
        if path.is_file():
            yield str(path)
    found = ctypes.util.find_library("yasgulet")
    if found:
        yield found


class Library:
    """A loaded libyasgulet. Calls may be made from several threads at once; the interpreter's lock is given up during each."""

    def __init__(self, path: Optional[str] = None) -> None:
        tried: List[str] = []
        for name in [path] if path else candidates():
            try:
                self._library = ctypes.CDLL(name)
                self.path = name
                break
            except OSError as error:
                tried.append("%s: %s" % (name, error))
        else:
            raise NotInLibrary("libyasgulet.so is not found: run make, or name it in YASGULET_LIBRARY" + "".join("\n  " + t for t in tried))
        self._bound: Dict[str, Callable[..., int]] = {}
        for name, arguments in ENTRIES.items():
            try:
                function = getattr(self._library, name)
            except AttributeError:
                continue
            function.argtypes, function.restype = arguments, ctypes.c_uint32
            self._bound[name] = function
        if "l3_sweep" not in self._bound:
            raise NotInLibrary("%s is not the Level III library: it has no l3_sweep" % self.path)
        version = self.version()
        if version is not None and version[0] != MAJOR:
            raise NotInLibrary("%s has version %d.%d.%d, and this package is for version %d" % (self.path, *version, MAJOR))

    def has(self, name: str) -> bool:
        """Whether the library has the entry."""
        return name in self._bound

    def function(self, name: str) -> Callable[..., int]:
        """The bare entry; NotInLibrary if it is missing."""
        try:
            return self._bound[name]
        except KeyError:
            raise NotInLibrary("%s has no %s: a newer library is needed" % (self.path, name)) from None

    def version(self) -> Optional[Tuple[int, int, int]]:
        """Major, minor and patch of the library, or None for one that does not say."""
        if not self.has("l3_version"):
            return None
        number = self._bound["l3_version"]()
        return number // 10000, number // 100 % 100, number % 100

    def refusal_name(self, number: int) -> Optional[str]:
        """The name of a refusal; None for a number that has none, or with a library that does not say."""
        name = ctypes.create_string_buffer(NAME)
        if not self.has("l3_refusal_name") or self._bound["l3_refusal_name"](number, name, NAME) != ACCEPTED:
            return None
        return name.value.decode("ascii")

    def call(self, name: str, *arguments: object) -> Tuple[Sequence[int], Sequence[float]]:
        """One call with a report of its own: the report's whole numbers and floats, or the refusal as an exception."""
        ints, floats = _INTS(), _FLOATS()
        number = self.function(name)(*arguments, ints, INTS, floats, FLOATS)
        if number == ACCEPTED:
            return ints, floats
        if number == SHORT_REPORT:
            raise NotInLibrary("%s asks for a longer report than this package has: it is newer than the package" % self.path)
        if number == BAD_ARGUMENT:
            raise ValueError("%s does not take these arguments" % name)
        raise refused(number, ints, floats, self.refusal_name(number))


@lru_cache(maxsize=None)
def load(path: Optional[str] = None) -> Library:
    """A library by its path, loaded once."""
    return Library(path)


def default() -> Library:
    """The library that is found first, loaded once."""
    return load()


def address(view: memoryview) -> Optional[int]:
    """Where a writable view's bytes stand. One of no bytes has no place of its own, and gets one that is not null."""
    return ctypes.addressof(ctypes.c_char.from_buffer(view)) if view.nbytes else ctypes.addressof(_NOWHERE)


_NOWHERE = (ctypes.c_char * 8)()
_INTS, _FLOATS = ctypes.c_int64 * INTS, ctypes.c_double * FLOATS
