"""What can go wrong, and the names of the library's refusals."""
from __future__ import annotations

from typing import Dict, NamedTuple, Optional, Sequence, Tuple


class Refusal(NamedTuple):
    """One row of the library's table of refusals. A value that starts with ``*`` is a float, the others are whole numbers."""

    name: str
    values: Tuple[str, ...]
    meaning: str


def _row(name: str, values: str, meaning: str) -> Refusal:
    return Refusal(name, tuple(values.split()), meaning)


REFUSALS: Dict[int, Refusal] = {
    1: _row("NoAwipsToken", "", "no product and site name in the first 128 bytes"),
    2: _row("NoMessageHeader", "", "no message header of a known product"),
    3: _row("PdbFieldOutOfBounds", "field", "the description block is cut short"),
    4: _row("ImplausibleScanTime", "days seconds", "no such scan time"),
    5: _row("ScanTimeTooFarAhead", "seconds_ahead", "the scan lies in the future"),
    6: _row("ClockOutOfRange", "", "the clock is out of range"),
    7: _row("NonFiniteScale", "*scale", "the scale is zero or not a finite number"),
    8: _row("NonFiniteOffset", "*offset", "the offset is not a finite number"),
    9: _row("NonPositiveIncrement", "*step", "the step between levels is not above 0"),
    10: _row("SchemeMismatch", "", "the scheme is not one for this packet"),
    11: _row("UnexpectedTrailingBytes", "length", "bytes after the body that should not be there"),
    12: _row("SymbologyTruncated", "body_length", "the body is too short"),
    13: _row("BadSymbologyHeader", "divider block", "the body does not start as a symbology block does"),
    14: _row("UnsupportedPacketCode", "code", "a packet that is not read"),
    15: _row("EmptySweep", "radials bins", "a picture of no bins"),
    16: _row("GridTooLarge", "radials bins cells limit", "too many cells"),
    17: _row("NonZeroFirstBin", "first_bin", "the first bin is not 0"),
    18: _row("AllocationExceedsBody", "radials bins needed there", "the body is too short for its radials"),
    19: _row("TruncatedAtRadial", "radial radials", "the body ends before this radial"),
    20: _row("ImplausibleRadialWidth", "radial *width", "a radial of no width or of more than 10 degrees"),
    21: _row("RadialByteCountMismatch", "radial count bins", "a radial's byte count does not fit"),
    22: _row("RleExpansionMismatch", "radial expanded bins", "a radial's runs make no row"),
    23: _row("XdrTruncated", "item left needed", "a packet 28 item is cut short"),
    24: _row("XdrStringTooLong", "length limit", "a packet 28 string is too long"),
    25: _row("XdrArrayTooLong", "length limit", "a packet 28 array is too long"),
    26: _row("XdrListTooLong", "count limit", "a packet 28 list is too long"),
    27: _row("UnsupportedXdrComponent", "type", "a packet 28 component that is not read"),
    28: _row("UnexpectedXdrComponentCount", "components", "other than one packet 28 component"),
    29: _row("NonPositiveXdrGeometry", "radials bins", "a packet 28 picture of no radials or bins"),
    30: _row("ImplausibleXdrRadialCount", "radials limit", "too many packet 28 radials"),
    31: _row("XdrRadialBinCountMismatch", "radial bins first_bins", "a packet 28 radial has another number of bins than the first"),
    32: _row("XdrRadialDataLengthMismatch", "radial integers bins", "a packet 28 radial has other data than bins"),
    33: _row("XdrGridTooLarge", "radials bins cells limit", "too many packet 28 cells"),
    34: _row("XdrRawLevelOutOfRange", "radial gate value", "a packet 28 level outside 0 to 65,535"),
    35: _row("XdrTrailingBytes", "left", "packet 28 bytes left over"),
    36: _row("BufferTooShort", "buffer", "a buffer is too short"),
    37: _row("PlanMalformed", "offset", "a record of the field plan is malformed"),
    38: _row("FieldRepeated", "offset", "a field is named twice in the plan"),
    39: _row("StripOutside", "offset", "a strip of the plan leaves the picture"),
    40: _row("TariffMalformed", "", "the tariff is malformed"),
    41: _row("TotalTooLarge", "", "the total is above 2^40"),
    42: _row("RowTooLong", "", "a row too long to be exported"),
    43: _row("DifferentSweeps", "", "the two bodies are not of one sweep"),
    44: _row("RowsDisagree", "radial", "the two bodies have this radial whole and not alike"),
    45: _row("SurplusInRow", "radial", "bytes in this radial that belong to no row"),
    46: _row("SurplusAfterRadials", "", "bytes after the last radial"),
}

#: What ``item`` names in refusal 23, and ``buffer`` in 36.
ITEMS = ("Int", "Uint", "Float", "StringBody", "Padding", "ArrayBody", "PacketBody")
BUFFERS = ("Azimuths", "Codes", "Physical", "Marks", "Totals", "Output")


class Level3Error(Exception):
    """Any reason why a product could not be read."""


class BadFile(Level3Error):
    """The file is not a product file as distributed: empty, too large, cut, badly packed, or at odds with itself."""


class NotInLibrary(Level3Error):
    """The library that was found lacks an entry that is needed, or there is no library."""


class Refused(Level3Error):
    """The library refused its input.

    ``number`` and ``name`` are those of the table of refusals, ``values`` the figures by name, in the table's order.
    """

    def __init__(self, number: int, name: str, values: Dict[str, object], meaning: str = "") -> None:
        self.number = number
        self.name = name
        self.values = values
        self.meaning = meaning
        super().__init__(number, name, values, meaning)

    def __str__(self) -> str:
        figures = ", ".join("%s %s" % (name.replace("_", " "), value) for name, value in self.values.items())
        return "%d %s" % (self.number, self.name) + (" (%s)" % self.meaning if self.meaning else "") + (": " + figures if figures else "")


def refused(number: int, ints: Sequence[int], floats: Sequence[float], name: Optional[str] = None) -> Refused:
    """The exception for a refusal's number and its report. name is the library's, for a number that is not in this package's table."""
    row: Optional[Refusal] = REFUSALS.get(number)
    if row is None:
        return Refused(number, name or "Refusal%d" % number, {"ints": list(ints), "floats": list(floats)}, "not in this package's table")
    values: Dict[str, object] = {}
    whole = 0
    for key in row.values:
        if key.startswith("*"):
            values[key[1:]] = floats[0]
            continue
        value: object = ints[whole]
        if key == "item" and 0 <= ints[whole] < len(ITEMS):
            value = ITEMS[ints[whole]]
        elif key == "buffer" and 0 <= ints[whole] < len(BUFFERS):
            value = BUFFERS[ints[whole]]
        elif number == 3:
            value = ints[whole] & (1 << 64) - 1
        values[key] = value
        whole += 1
    return Refused(number, row.name, values, row.meaning)
