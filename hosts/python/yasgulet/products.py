"""Schemes, and what the library's product table says of a product code."""
from __future__ import annotations

import enum
import math
import struct
from typing import NamedTuple, Optional, Tuple, Union

from .library import Library


class Scheme(enum.IntEnum):
    """How codes become physical values."""

    HALFWORD = 0
    FLOAT = 1
    PRECIPITATION = 2
    LEGACY = 3
    CLASS = 4

    @property
    def takes_parameter(self) -> bool:
        """Whether the scheme has a factor (precipitation) or a post-scale (legacy)."""
        return self in (Scheme.PRECIPITATION, Scheme.LEGACY)


MOMENTS = ("DBZH", "VRADH", "WRADH", "SRMV", "ZDR", "RHOHV", "KDP", "HCLASS", "ACCUM", "RATE")
UNITS = ("dBZ", "m/s", "dB", "", "deg/km", "", "mm", "mm/h")
TITLES = {
    "DBZH": "Reflectivity", "VRADH": "Radial velocity", "WRADH": "Spectrum width", "SRMV": "Storm relative velocity",
    "ZDR": "Differential reflectivity", "RHOHV": "Correlation coefficient", "KDP": "Specific differential phase",
    "HCLASS": "Hydrometeor class", "ACCUM": "Accumulated rain", "RATE": "Rain rate",
}


class Product(NamedTuple):
    """What the library's table says of a product code."""

    code: int
    scheme: Scheme
    parameter: float
    moment: str
    unit: str
    #: Gate length in metres; 0 where the body says it.
    gate: int
    has_elevation: bool


def product_of(library: Library, code: int) -> Optional[Product]:
    """The table's row for a code; None for a code that is not in it, or with a library that has no table."""
    if not library.has("l3_product"):
        return None
    ints, floats = library.call("l3_product", code)
    if not ints[0]:
        return None
    return Product(code, Scheme(ints[1]), floats[0], MOMENTS[ints[2]], UNITS[ints[3]], ints[4], bool(ints[5]))


def single(number: float) -> float:
    """The number as an f32 holds it."""
    return struct.unpack("<f", struct.pack("<f", number))[0]


def short(value: float) -> str:
    """The shortest decimals that name an f32 and no other; empty for NaN."""
    if value != value:
        return ""
    if math.isinf(value):
        return "inf" if value > 0 else "-inf"
    for digits in range(6, 10):
        text = "%.*g" % (digits, value)
        try:
            if struct.unpack("<f", struct.pack("<f", float(text)))[0] == value:
                return text
        except OverflowError:
            continue
    return "%.9g" % value


def scheme_text(scheme: Scheme, parameter: float) -> str:
    """A scheme as it is written on the command line, such as ``precipitation:0.254``."""
    return scheme.name.lower() + (":" + short(single(parameter)) if scheme.takes_parameter else "")


def parse_scheme(text: Union[str, Scheme, Tuple[Scheme, float]]) -> Tuple[Scheme, float]:
    """Scheme and parameter from ``halfword``, ``float``, ``precipitation:FACTOR``, ``legacy:POSTSCALE``, ``class``, or from a pair."""
    if isinstance(text, Scheme):
        if text.takes_parameter:
            raise ValueError("the scheme %s needs its parameter" % text.name.lower())
        return text, 0.0
    if isinstance(text, tuple):
        return Scheme(text[0]), single(text[1])
    name, colon, number = text.partition(":")
    try:
        scheme = Scheme[name.upper()]
        if scheme.takes_parameter != bool(colon):
            raise ValueError
        return scheme, single(float(number)) if colon else 0.0
    except (KeyError, ValueError, OverflowError):
        raise ValueError("%r is no scheme: halfword, float, precipitation:FACTOR, legacy:POSTSCALE or class" % text) from None
