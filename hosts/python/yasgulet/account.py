"""What a rain product comes to: a total and a charge for each field of a plan. Nothing here is worked out in floating point."""
from __future__ import annotations

import os
from fractions import Fraction
from typing import Any, Dict, List, NamedTuple, Optional, Sequence, Tuple

from .errors import REFUSALS, Level3Error, Refused
from .forms import BadForm, Plan, Tariff
from .product_file import ProductFile, parse, parse_head, read_bytes
from .products import Scheme
from .reader import Charge, Reader, Source
from .sweep import Sweep

#: What scale 1 makes of a code step: a hundredth of an inch of rain, or an inch an hour.
STEPS = {"ACCUM": (Fraction(254, 1000), "mm"), "RATE": (Fraction(254, 10), "mm/h")}
_PAIR, _SCALE_FIELD = 3, 22

#: Day number, seconds of the day, product code, site: what the receptions of one product share.
Key = Tuple[int, int, int, str, str]


class FieldAccount(NamedTuple):
    """A field under one product."""

    field: int
    #: None if one of the field's strips lies in a gap.
    total: Optional[int]
    #: None without a total, and for one above 2^40.
    charge: Optional[Charge]
    #: The field's radials that are gaps.
    gaps: Tuple[int, ...]


class Account(NamedTuple):
    """A product and its fields, in the plan's order."""

    key: Key
    #: The files that it was received in.
    names: Tuple[str, ...]
    product: str
    date: Tuple[int, int, int]
    #: What a step of one code is, and its unit; exact. Below 0 where the declared scale is: totals then are no rain.
    step: Fraction
    unit: str
    radials: int
    bins: int
    gate: float
    fields: Tuple[FieldAccount, ...]


class NoRain(Refused):
    """The product's scheme has no totals."""


def key_of(reader: Reader, file: ProductFile) -> Key:
    """What makes two files receptions of one product."""
    ints = reader.library.call("l3_pdb", file.head, len(file.head), file.block)[0]
    return ints[3], ints[4], file.code, file.site, file.product


def need_rain(reader: Reader, file: ProductFile) -> None:
    """NoRain, which is 10, for a product whose scheme is not the precipitation scheme."""
    table = reader.product(file.code)
    if table is not None and table.scheme != Scheme.PRECIPITATION:
        raise NoRain(10, REFUSALS[10].name, {}, "no rain product: the scheme of product code %d is %s" % (file.code, table.scheme.name.lower()))


def merged(reader: Reader, receptions: Sequence[ProductFile]) -> Sweep:
    """The receptions of one product as one sweep with gaps. A row is that of the first reception in which it is whole.

    Any two receptions are held to each other, so that no row is taken that is whole and another one elsewhere. ValueError for none.
    """
    if not receptions:
        raise ValueError("no files: a product is received at least once")
    if len(receptions) == 1:
        return reader.with_gaps(receptions[0])
    sweep = reader.merge(receptions[0], receptions[1])
    for k, reception in enumerate(receptions[2:], 2):
        for other in receptions[1:k]:
            reader.merge(other, reception)
        _fill(sweep, reader.merge(receptions[0], reception))
    return sweep


def _fill(sweep: Sweep, other: Sweep) -> None:
    """Takes the rows that are gaps from another sweep of the same shape, in which they may be whole."""
    for radial in sweep.gap_radials:
        row = slice(radial * sweep.bins, (radial + 1) * sweep.bins)
        sweep._codes[row], sweep._values[row] = other._codes[row], other._values[row]
        sweep._marks[radial] = other._marks[radial]


def _charge(reader: Reader, total: int, tariff: Tariff) -> Optional[Charge]:
    try:
        return reader.charge(total, tariff.ends, tariff.rates)
    except Refused as error:
        if error.number != 41:
            raise
        return None


def step_of(reader: Reader, sweep: Sweep) -> Tuple[Fraction, str]:
    """What a step of one code is by the scale that the file declares, exactly, and its unit."""
    scale = reader.library.call("l3_field", sweep._head, len(sweep._head), sweep._block, _SCALE_FIELD, _PAIR)[1][0]
    whole, unit = STEPS[sweep.moment]
    return whole / Fraction(scale), unit


def account(reader: Reader, sources: Sequence[Source], plan: Plan, tariff: Tariff) -> Account:
    """One product, received once or more often, by a plan and a tariff.

    It is read with gaps, and merged first if it was received more than once. A field with a strip in a gap has no total.
    """
    if isinstance(sources, (str, bytes, bytearray, memoryview, os.PathLike, ProductFile)):
        raise TypeError("the files of a product are a list")
    receptions = [reader.open(source) for source in sources]
    for reception in receptions:
        need_rain(reader, reception)
    sweep = merged(reader, receptions)
    try:
        totals = reader.plan_totals(sweep._head, sweep._block, sweep._codes, sweep.radials, sweep.bins, plan.records)
    except Refused as error:
        if "offset" not in error.values:
            raise
        told = plan.refused(error)
        if error.number != 39:
            raise told from None
        picture = "a clear scan has no cells" if sweep.clear else "this one has %d radials of %d bins" % (sweep.radials, sweep.bins)
        raise BadForm(told.name, told.line, told.words + ": " + picture, told.number) from None
    marked = set(sweep.gap_radials)
    fields = []
    for field, total in zip(plan.fields, totals):
        gaps = tuple(sorted(marked & {strip.radial for strip in field.strips}))
        fields.append(FieldAccount(field.number, None if gaps else total, None if gaps else _charge(reader, total, tariff), gaps))
    step, unit = step_of(reader, sweep)
    return Account(key_of(reader, receptions[0]), tuple(reception.name for reception in receptions), sweep.product, sweep.date, step, unit,
                   sweep.radials, sweep.bins, sweep.gate, tuple(fields))


def answer(reader: Reader, names: List[str], plan: Plan, tariff: Tariff) -> Dict[str, Any]:
    """The account of a product by the names of its files, or the error; its key where the head is read; and that it is no rain if it is none.

    The head says both by itself: a file whose body is no good still is a reception of its product.
    """
    said: Dict[str, Any] = {}
    try:
        read = [read_bytes(name) for name in names]
        head = parse_head(reader.library, read[0], names[0])
        said["key"] = key_of(reader, head)
        need_rain(reader, head)
        receptions = [parse(reader.library, data, name, reader.cap) for data, name in zip(read, names)]
        said["account"] = account(reader, receptions, plan, tariff)
    except NoRain as error:
        said["error"], said["rain"] = "%s: %s" % (names[0], error), False
    except Level3Error as error:
        said["error"] = "%s: %s" % (" and ".join(names), error)
    return said
