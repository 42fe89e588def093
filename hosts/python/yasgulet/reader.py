"""Reading: product files to sweeps, and the library's other answers."""
from __future__ import annotations

import ctypes
import os
import time
import warnings
from typing import List, NamedTuple, Optional, Sequence, Tuple, Union

from .errors import BadFile, NotInLibrary, Refused
from .library import MOST_CELLS, MOST_RADIALS, Library, address, default
from .product_file import UNPACK_CAP, ProductFile, open_product, places
from .products import Product, Scheme, parse_scheme, product_of, scheme_text, single
from .storage import lend
from .sweep import Sweep

Source = Union[str, os.PathLike, bytes, ProductFile]
SchemeLike = Union[None, str, Scheme, Tuple[Scheme, float]]


class SchemeWarning(UserWarning):
    """The scheme that was given is not the product table's."""


class Charge(NamedTuple):
    """A charge in cents, rounded down, and the thousandths of a cent that this leaves."""

    cents: int
    remainder: int


class Totals(NamedTuple):
    """A sweep and a total for each field of a plan, in the plan's order."""

    sweep: Sweep
    totals: List[int]


class Reader:
    """Reads products with one library. Its calls may be made from several threads at once.

    ``clock`` is the present in seconds since 1970, by default the system's; scans more than a day ahead of it are refused. ``cap`` is the
    most that is unpacked from a file.
    """

    def __init__(self, library: Union[None, str, Library] = None, clock: Optional[int] = None, cap: int = UNPACK_CAP) -> None:
        self.library = library if isinstance(library, Library) else Library(library) if library else default()
        self.clock = clock
        self.cap = cap

    def open(self, source: Source) -> ProductFile:
        """The parts of a product file, its symbology unpacked."""
        return source if isinstance(source, ProductFile) else open_product(self.library, source, self.cap)

    def product(self, code: int) -> Optional[Product]:
        """What the library's product table says of a code; None if it has no such row or the library no table."""
        return product_of(self.library, code)

    def sweep(self, source: Source, scheme: SchemeLike = None, gate: Optional[float] = None) -> Sweep:
        """The sweep of a product. A radial whose data make no row is refused.

        Scheme and gate length are those of the product table unless they are given; a scheme that is not the table's is warned of.
        """
        return self._read("l3_sweep", self.open(source), scheme, gate)

    def strict(self, source: Source, scheme: SchemeLike = None, gate: Optional[float] = None) -> Sweep:
        """The same for an archive: stray bytes in or after the radials are refused, with 45 and 46."""
        return self._read("l3_strict", self.open(source), scheme, gate)

    def with_gaps(self, source: Source, scheme: SchemeLike = None, gate: Optional[float] = None) -> Sweep:
        """The same with gaps: a radial whose data make no row becomes a gap."""
        return self._read("l3_gaps", self.open(source), scheme, gate, marked=True)

    def merge(self, first: Source, second: Source, scheme: SchemeLike = None, gate: Optional[float] = None) -> Sweep:
        """Two receptions of one product as one sweep: each row from the first if whole there, else from the second, else a gap."""
        one, two = self.open(first), self.open(second)
        if (one.product, one.site) != (two.product, two.site):
            raise BadFile("the two files are not receptions of one product: %s %s and %s %s" % (one.product, one.site, two.product, two.site))
        if _product_of(one) != _product_of(two):
            raise BadFile("the two files are not receptions of one product: their headers differ")
        return self._read("l3_merge", one, scheme, gate, marked=True, second=two.body)

    def totals(self, source: Source, plan: bytes, scheme: SchemeLike = None, gate: Optional[float] = None) -> Totals:
        """The sweep of a precipitation product and the total of each field of a field plan; l3.h says how a plan is laid out."""
        totals = lend(max(1, len(plan) // 5), "Q")  # a field's record has 5 bytes
        report: List[Sequence[int]] = []
        sweep = self._read("l3_totals", self.open(source), scheme, gate, second=bytes(plan), after=totals, report=report)
        return Totals(sweep, totals[:report[0][14]].tolist())

    def plan_totals(self, head: bytes, block: int, codes: memoryview, radials: int, bins: int, plan: bytes) -> List[int]:
        """The total of each field of a plan over the codes of any picture, row after row; head has a description block at place block."""
        totals = lend(max(1, len(plan) // 5), "Q")  # a field's record has 5 bytes
        ints = self.library.call("l3_plan_totals", head, len(head), block, address(codes), len(codes), radials, bins, bytes(plan), len(plan),
                                 address(totals), len(totals))[0]
        return totals[:ints[0]].tolist()

    def export(self, source: Source) -> bytes:
        """The packet 16 body of a product of packet AF1F."""
        body = self.open(source).body
        radials, cells = places(body, MOST_RADIALS, MOST_CELLS)
        output = lend(30 + 7 * radials + cells, "B")
        try:
            ints = self.library.call("l3_export16", body, len(body), address(output), len(output))[0]
        except Refused as error:
            if error.number == 14:
                raise Refused(error.number, error.name, error.values, "only packet AF1F is exported") from None
            raise
        return bytes(output[:ints[0]])

    def export_file(self, source: Source) -> bytes:
        """A product file like the given one with the packet 16 body of its AF1F body. Blocks after the symbology are left out."""
        file = self.open(source)
        return file.with_body(self.export(file))

    def date(self, days: int) -> Tuple[int, int, int]:
        """Year, month and day of a day number; day 1 is 1 January 1970."""
        if not 0 <= days < 65536:
            raise ValueError("a day number is from 1 to 65,535")
        ints = self.library.call("l3_date", days)[0]
        return ints[0], ints[1], ints[2]

    def charge(self, total: int, ends: Sequence[int], rates: Sequence[int]) -> Charge:
        """The charge of a total by tariff: upper ends of the bands, and their rates in cents per 1,000 units."""
        if not (0 <= total < 1 << 64 and all(0 <= e < 1 << 64 for e in ends) and all(0 <= r < 1 << 32 for r in rates)):
            raise ValueError("total and ends are numbers of 64 bits, rates of 32")
        e, r = (ctypes.c_uint64 * max(1, len(ends)))(*ends), (ctypes.c_uint32 * max(1, len(rates)))(*rates)
        ints = self.library.call("l3_charge", total, e, len(ends), r, len(rates))[0]
        return Charge(ints[0], ints[1])

    # --

    def _scheme(self, file: ProductFile, scheme: SchemeLike) -> Tuple[Optional[Product], Scheme, float, Tuple[str, ...]]:
        table = self.product(file.code)
        if scheme is None:
            if table is None:
                if not self.library.has("l3_product"):
                    raise NotInLibrary("%s has no product table (l3_product): the scheme must be given" % self.library.path)
                raise BadFile("product code %d is not in the product table: the scheme must be given" % file.code)
            return table, table.scheme, table.parameter, ()
        kind, parameter = parse_scheme(scheme)
        if table is None:
            return table, kind, parameter, ("scheme %s as given; there is no product table to compare it with" % scheme_text(kind, parameter),)
        if kind == table.scheme and (not kind.takes_parameter or parameter == single(table.parameter)):
            return table, kind, parameter, ()
        note = "scheme %s as given; the product table has %s for product code %d" % (
            scheme_text(kind, parameter), scheme_text(table.scheme, table.parameter), file.code)
        warnings.warn(SchemeWarning("%s: %s" % (file.name, note) if file.name else note), stacklevel=4)
        return table, kind, parameter, (note,)

    def _read(self, entry: str, file: ProductFile, scheme: SchemeLike, gate: Optional[float], marked: bool = False,
              second: Optional[bytes] = None, after: Optional[memoryview] = None, report: Optional[list] = None) -> Sweep:
        self.library.function(entry)
        table, kind, parameter, notes = self._scheme(file, scheme)
        radials, cells = places(file.body, MOST_RADIALS, MOST_CELLS)
        picture = (lend(radials, "d"), lend(cells, "H"), lend(cells, "f"))
        marks = lend(radials, "B") if marked else None
        arguments: List[object] = [file.head, len(file.head), int(time.time()) if self.clock is None else self.clock, int(kind), parameter,
                                   file.body, len(file.body)]
        if second is not None:
            arguments += [second, len(second)]
        for view in (*picture, *(() if marks is None else (marks,)), *(() if after is None else (after,))):
            arguments += [address(view), len(view)]
        try:
            ints, floats = self.library.call(entry, *arguments)
        except Refused as error:
            if error.number == 10:
                raise Refused(10, error.name, error.values, "the scheme %s is not one for this packet" % scheme_text(kind, parameter)) from None
            raise
        if report is not None:
            report.append(ints)
        return Sweep(self.library, file, table, kind, parameter, ints, floats, picture, marks, gate, notes)


def _product_of(file: ProductFile) -> bytes:
    """What two receptions share: product code and description block, and nothing of the message's time, length and sender."""
    return file.head[file.header:file.header + 2] + file.head[file.block:]


def read(source: Source, scheme: SchemeLike = None, gaps: bool = False, clock: Optional[int] = None, gate: Optional[float] = None) -> Sweep:
    """The sweep of a product file, by its path or its bytes, with the library that is found first."""
    reader = Reader(clock=clock)
    return reader.with_gaps(source, scheme, gate) if gaps else reader.sweep(source, scheme, gate)
