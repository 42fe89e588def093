"""A sweep as it was read: figures, azimuths, codes, values, and why a cell has no value."""
from __future__ import annotations

import enum
import sys
from array import array
from collections import Counter
from datetime import datetime, timedelta, timezone
from functools import cached_property
from typing import Any, Dict, Optional, Tuple

from .library import Library, address, load
from .product_file import ProductFile
from .products import Product, Scheme

PACKET_16, PACKET_28, PACKET_AF1F = 16, 28, 0xAF1F


class Reason(enum.IntEnum):
    """Why a cell has no value; VALUE if it has one."""

    VALUE = 0
    BELOW_FLOOR = 1
    ABOVE_CEILING = 2
    FLAGGED = 3
    RANGE_FOLDED = 4
    GAP = 5
    NOT_A_NUMBER = 6

    @property
    def text(self) -> str:
        """In words."""
        return self.name.lower().replace("_", " ")


def shaped(view: memoryview, shape: Tuple[int, ...]) -> Any:
    """A numpy array over the view if numpy is there, else the view itself with that shape. Nothing is copied."""
    try:
        import numpy
    except ImportError:
        return view.cast("B").cast(view.format, shape=list(shape)) if all(shape) else view
    return numpy.asarray(view).reshape(shape)


class Sweep:
    """The picture of one product.

    ``azimuths`` has the centre of each radial in degrees; ``codes`` and ``values`` have a row of ``bins`` cells for each radial, ``gaps``
    a 1 for each radial that is a gap. They are numpy arrays where numpy is installed, else memoryviews; both take ``values[radial, bin]``.
    A cell without a value has NaN; ``reasons`` (or ``reason(radial, bin)``) says why. A clear scan has 0 radials.
    """

    def __init__(self, library: Library, file: ProductFile, table: Optional[Product], scheme: Scheme, parameter: float,
                 ints: Any, floats: Any, picture: Tuple[memoryview, memoryview, memoryview], marks: Optional[memoryview],
                 gate: Optional[float], notes: Tuple[str, ...]) -> None:
        self._library, self._block = library, file.block
        self._head = file.head
        self.name, self.product, self.site = file.name, file.product, file.site
        self.packed = file.packed
        #: The row of the product table, if the library has one for this code.
        self.table = table
        self.scheme, self.parameter = scheme, parameter
        #: What a reader of the picture should be told, such as a scheme that is not the table's.
        self.notes = notes
        #: Whether scheme and parameter are those of the table; if not, the values have another unit than its.
        self.by_table = table is not None and not notes
        self.code, self.vcp, self.days, self.seconds, self.time = ints[1], ints[2], ints[3], ints[4], ints[5]
        self.packet, self.radials, self.bins = ints[6], ints[7], ints[8]
        self.range_scale: Optional[int] = None if self.packet == PACKET_28 else ints[9]
        self.has_scale = bool(ints[10])
        self.levels, self.floor = ints[11], ints[12]
        self.minimum, self.step = floats[6], floats[7]
        #: Whole numbers of the file: thousandths of a degree, feet, tenths of a degree.
        self.latitude_thousandths, self.longitude_thousandths, self.height_feet, self.elevation_tenths = ints[16], ints[17], ints[18], ints[19]
        self.latitude, self.longitude, self.height = floats[0], floats[1], floats[2]
        #: The elevation in degrees; 0 for a product of the whole volume.
        self.elevation = floats[3] if table is None or table.has_elevation else 0.0
        #: Gate length and the centre of the first gate, in metres; 0 if the gate length is known from nowhere.
        self.gate, self.first_gate = self._range(table, gate, ints, floats)
        cells = self.radials * self.bins
        self._azimuths, self._codes, self._values = picture[0][:self.radials], picture[1][:cells], picture[2][:cells]
        self._marks = marks[:self.radials] if marks is not None else memoryview(bytes(self.radials))

    def _range(self, table: Optional[Product], gate: Optional[float], ints: Any, floats: Any) -> Tuple[float, float]:
        if self.packet == PACKET_28:
            return (gate, gate / 2) if gate else (floats[4], floats[5])
        length = float(gate or (table.gate if table else 0) or (ints[9] if table else 0))
        return length, length / 2

    # -- what it is

    @property
    def moment(self) -> str:
        """The moment, such as DBZH; empty if the table does not say."""
        return self.table.moment if self.table else ""

    @property
    def unit(self) -> str:
        """The unit of the values; empty for a ratio or a class, and where the scheme is not the table's."""
        return self.table.unit if self.table and self.by_table else ""

    @property
    def clear(self) -> bool:
        """Whether the radar has seen nothing: a sweep of no radials."""
        return self.radials == 0

    @property
    def when(self) -> datetime:
        """The scan time in UTC."""
        return datetime(1970, 1, 1, tzinfo=timezone.utc) + timedelta(seconds=self.time)

    @property
    def date(self) -> Tuple[int, int, int]:
        """Year, month and day of the scan, by the library's calendar."""
        ints = self._library.call("l3_date", self.days)[0]
        return ints[0], ints[1], ints[2]

    # -- the picture

    @cached_property
    def azimuths(self) -> Any:
        """The centre of each radial, in degrees from north."""
        return shaped(self._azimuths, (self.radials,))

    @cached_property
    def codes(self) -> Any:
        """The codes, a row for each radial."""
        return shaped(self._codes, (self.radials, self.bins))

    @cached_property
    def values(self) -> Any:
        """The physical values, a row for each radial; NaN where there is none."""
        return shaped(self._values, (self.radials, self.bins))

    @cached_property
    def gaps(self) -> Any:
        """1 for each radial that is a gap, else 0."""
        return shaped(self._marks, (self.radials,))

    @cached_property
    def reasons(self) -> Any:
        """For each cell a number of Reason."""
        cells = bytearray(self.cells_by_code(bytes(self.code_reasons)))
        for radial in self.gap_radials:
            cells[radial * self.bins:(radial + 1) * self.bins] = bytes((Reason.GAP,)) * self.bins
        return shaped(memoryview(cells), (self.radials, self.bins))

    def reason(self, radial: int, bin: int) -> Reason:
        """Why the cell has no value, or Reason.VALUE."""
        if not (0 <= radial < self.radials and 0 <= bin < self.bins):
            raise IndexError("no cell %d, %d in a sweep of %d by %d" % (radial, bin, self.radials, self.bins))
        if self._marks[radial]:
            return Reason.GAP
        return Reason(self.code_reasons[self._codes[radial * self.bins + bin]])

    @property
    def gap_radials(self) -> Tuple[int, ...]:
        """The radials that are gaps."""
        return tuple(r for r, mark in enumerate(self._marks.tolist()) if mark)

    def range_of(self, bin: int) -> float:
        """The range of a bin's centre, in metres along the beam."""
        return self.first_gate + bin * self.gate

    # -- by code: a cell's value and reason depend on its code alone

    @cached_property
    def _narrow(self) -> bool:
        return self.packet != PACKET_28 or not self._codes or max(self._codes) < 256

    @cached_property
    def code_values(self) -> array:
        """The physical value of each code, from 0 to 255 or, where larger codes occur, to 65,535."""
        codes = array("H", range(256 if self._narrow else 65536))
        values = array("f", bytes(4 * len(codes)))
        self._library.call("l3_physical", self._head, len(self._head), self._block, int(self.scheme), self.parameter,
                           address(memoryview(codes)), len(codes), address(memoryview(values)), len(values))
        return values

    @cached_property
    def ceiling(self) -> Optional[int]:
        """The largest valid code of the precipitation scheme, if the file has one."""
        if self.scheme != Scheme.PRECIPITATION:
            return None
        ints = self._library.call("l3_precip", self._head, len(self._head), self._block, self.parameter)[0]
        return ints[13] if ints[13] >= 0 else None

    @cached_property
    def code_reasons(self) -> bytearray:
        """For each code of code_values a number of Reason."""
        values = self.code_values
        reasons = bytearray(v != v for v in values)
        for code in (c for c, none in enumerate(bytes(reasons)) if none):
            reasons[code] = self._reason_of(code)
        return reasons

    def _reason_of(self, code: int) -> Reason:
        if self.scheme in (Scheme.HALFWORD, Scheme.FLOAT):
            return {0: Reason.BELOW_FLOOR, 1: Reason.RANGE_FOLDED}.get(code, Reason.NOT_A_NUMBER)
        if self.scheme == Scheme.PRECIPITATION:
            if code < self.floor:
                return Reason.BELOW_FLOOR
            return Reason.ABOVE_CEILING if self.ceiling is not None and code > self.ceiling else Reason.NOT_A_NUMBER
        if self.scheme == Scheme.LEGACY and code < 16:
            flag, value = self._thresholds[2 * code:2 * code + 2]
            if flag & 0x80:  # TH is 1, ND 2, RF 3
                return {1: Reason.BELOW_FLOOR, 3: Reason.RANGE_FOLDED}.get(value, Reason.FLAGGED)
            return Reason.NOT_A_NUMBER
        return Reason.BELOW_FLOOR if code == 0 else Reason.NOT_A_NUMBER

    @cached_property
    def _thresholds(self) -> bytes:
        thresholds = bytearray(32)
        self._library.call("l3_threshold", self._head, len(self._head), self._block, address(memoryview(thresholds)), 32)
        return bytes(thresholds)

    def cells_by_code(self, table: bytes) -> bytes:
        """One byte for each cell, which the table, as long as code_values, has for its code."""
        if self._narrow:
            low = bytes(self._codes.cast("B"))[sys.byteorder == "big"::2] if self._codes else b""
            return low.translate(table[:256])
        return bytes(map(table.__getitem__, self._codes))

    def code_counts(self) -> Dict[int, int]:
        """How many cells have each code, gaps left out."""
        if self._narrow:
            cells = self.cells_by_code(bytes(range(256)))
            whole = b"".join(cells[r * self.bins:(r + 1) * self.bins] for r in range(self.radials) if not self._marks[r]) \
                if self.gap_radials else cells
            return dict(Counter(whole))
        counts = Counter(self._codes)
        counts[0] -= self.bins * len(self.gap_radials)  # a gap has codes 0
        return {code: count for code, count in counts.items() if count}

    # -- out of it

    def save_png(self, path: Any, **options: Any) -> None:
        """Draws the polar picture to a file; the options are those of picture.draw."""
        from .picture import save_png
        save_png(self, path, **options)

    def save_csv(self, path: Any, **options: Any) -> int:
        """Writes the cells to a file, and returns how many; the options are those of table.rows."""
        from .table import save_csv
        return save_csv(self, path, **options)

    def __repr__(self) -> str:
        return "<Sweep %s %s %s, %d radials of %d bins>" % (self.product, self.site, self.when.strftime("%Y-%m-%d %H:%M:%S"), self.radials, self.bins)

    def __getstate__(self) -> Dict[str, Any]:
        plain = ("azimuths", "codes", "values", "gaps", "reasons")
        state = {name: value for name, value in self.__dict__.items() if name not in plain and name != "_library"}
        for name in ("_azimuths", "_codes", "_values", "_marks"):
            state[name] = (state[name].format, bytes(state[name]))
        state["_library"] = self._library.path
        return state

    def __setstate__(self, state: Dict[str, Any]) -> None:
        self.__dict__.update(state)
        for name in ("_azimuths", "_codes", "_values", "_marks"):
            form, data = state[name]
            setattr(self, name, memoryview(data).cast(form) if data else memoryview(b"").cast("B").cast(form))
        self._library = load(state["_library"])
