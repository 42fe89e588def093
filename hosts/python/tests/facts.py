"""What the tests hold the product table to, typed from the Rust's products.rs (its PRODUCTS) and mod.rs (the two factors of rain)."""
import struct
from typing import Dict, NamedTuple


def single(number: float) -> float:
    """The number as an f32 holds it."""
    return struct.unpack("<f", struct.pack("<f", number))[0]


class Row(NamedTuple):
    """One product code."""

    scheme: str
    #: Factor or post-scale; 0 for a scheme without one.
    parameter: float
    moment: str
    unit: str
    #: Gate length in metres; 0 where it is not fixed.
    gate: int
    elevation: bool


_KNOTS, _INCH, _HUNDREDTH = single(.514444), single(25.4), single(single(.01) * single(25.4))


def _legacy(post_scale: float, moment: str, unit: str, gate: int) -> Row:
    return Row("legacy", post_scale, moment, unit, gate, gate != 0)


PRODUCTS: Dict[int, Row] = {
    19: _legacy(1.0, "DBZH", "dBZ", 1000),
    20: _legacy(1.0, "DBZH", "dBZ", 2000),
    25: _legacy(_KNOTS, "VRADH", "m/s", 250),
    27: _legacy(_KNOTS, "VRADH", "m/s", 1000),
    28: _legacy(_KNOTS, "WRADH", "m/s", 250),
    30: _legacy(_KNOTS, "WRADH", "m/s", 1000),
    56: _legacy(_KNOTS, "SRMV", "m/s", 1000),
    78: _legacy(_INCH, "ACCUM", "mm", 0),
    79: _legacy(_INCH, "ACCUM", "mm", 0),
    80: _legacy(_INCH, "ACCUM", "mm", 0),
    94: Row("halfword", 0.0, "DBZH", "dBZ", 1000, True),
    99: Row("halfword", 0.0, "VRADH", "m/s", 250, True),
    153: Row("halfword", 0.0, "DBZH", "dBZ", 250, True),
    154: Row("halfword", 0.0, "VRADH", "m/s", 250, True),
    155: Row("halfword", 0.0, "WRADH", "m/s", 250, True),
    159: Row("float", 0.0, "ZDR", "dB", 250, True),
    161: Row("float", 0.0, "RHOHV", "ratio", 250, True),
    163: Row("float", 0.0, "KDP", "deg/km", 250, True),
    165: Row("class", 0.0, "HCLASS", "class", 250, True),
    **{code: Row("precipitation", _HUNDREDTH, "ACCUM", "mm", 0, False) for code in (170, 172, 173, 174, 175)},
    176: Row("precipitation", _INCH, "RATE", "mm/h", 0, False),
    177: Row("class", 0.0, "HCLASS", "class", 250, False),
}

#: The numbers that the library has for these words, in its order.
SCHEMES = ("halfword", "float", "precipitation", "legacy", "class")
MOMENTS = ("DBZH", "VRADH", "WRADH", "SRMV", "ZDR", "RHOHV", "KDP", "HCLASS", "ACCUM", "RATE")
UNITS = ("dBZ", "m/s", "dB", "ratio", "deg/km", "class", "mm", "mm/h")
