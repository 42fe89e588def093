"""The polar picture of a sweep: cells in the moment's colours, range rings, colour bar and legend, gaps hatched."""
from __future__ import annotations

import math
import os
import re
from bisect import bisect_left
from functools import lru_cache
from operator import add
from typing import Any, List, Optional, Sequence, Tuple

from .canvas import LINE, Canvas, hatched, text_width
from .colours import Scale, scale_for
from .errors import Level3Error
from .files import write_whole
from .forms import Plan
from .products import TITLES
from .sweep import Reason, Sweep

#: Numbers of the colours before those of the scale.
OUTSIDE, BELOW, ABOVE, FLAGGED, FOLDED, GAP, GAP_LINE, NAN, NO_RADIAL, RING, TEXT, NOTE, UNDER, PLAN, FIRST = range(15)
_FIXED = ((0, 0, 0), (18, 18, 24), (250, 250, 250), (26, 24, 30), (119, 0, 125), (40, 36, 30), (170, 150, 110), (90, 60, 60), (4, 4, 6),
          (120, 120, 130), (225, 225, 230), (255, 210, 80), (34, 34, 42), (255, 255, 255))
_REASONS = {Reason.BELOW_FLOOR: BELOW, Reason.ABOVE_CEILING: ABOVE, Reason.FLAGGED: FLAGGED, Reason.RANGE_FOLDED: FOLDED,
            Reason.NOT_A_NUMBER: NAN}

_TOP, _BOTTOM, _SIDE = 40, 32, 72  # room for title, legend and colour bar
SMALLEST, LARGEST = 240, 4000
_SLOTS = 1800  # azimuths that are told apart in a quarter of the circle


@lru_cache(maxsize=4)
def _quarter(half: int) -> Tuple[List[int], List[float]]:
    """Azimuth slot and distance in pixels of each pixel north-east of the centre, row by row outward."""
    slots: List[int] = []
    distances: List[float] = []
    per = _SLOTS / (math.pi / 2)
    for j in range(half):
        north = j + .5
        slots += [int(math.atan2(i + .5, north) * per) for i in range(half)]
        distances += [math.hypot(i + .5, north) for i in range(half)]
    return slots, distances


def nearest(azimuths: Sequence[float]) -> List[int]:
    """The radial of each of 7,200 azimuths: the one with the nearest centre, or -1 where there is none near enough.

    Near enough is three quarters of the usual distance between two centres, and at most the 5 degrees of half the widest radial.
    """
    total = 4 * _SLOTS
    centres = sorted((a % 360, r) for r, a in enumerate(azimuths) if a == a)
    if not centres:
        return [-1] * total
    where = [a for a, _ in centres]
    between = sorted(b - a for a, b in zip(where, where[1:]))
    limit = min(5.0, .75 * between[len(between) // 2] if between else .5)
    ring = [(a - 360, r) for a, r in centres[-1:]] + centres + [(a + 360, r) for a, r in centres[:1]]
    where = [a for a, _ in ring]
    found = []
    for slot in range(total):
        azimuth = (slot + .5) * 360 / total
        at = bisect_left(where, azimuth)
        near = at if at < len(ring) and (at == 0 or where[at] - azimuth < azimuth - where[at - 1]) else at - 1
        found.append(ring[near][1] if abs(where[near] - azimuth) <= limit else -1)
    return found


def colour_table(sweep: Sweep, scale: Scale) -> bytes:
    """The colour of each code."""
    table = bytearray()
    for value, reason in zip(sweep.code_values, sweep.code_reasons):
        if reason == Reason.VALUE:
            step = scale.step(value)
            table.append(FIRST + step if step >= 0 else UNDER)
        else:
            table.append(_REASONS[Reason(reason)])
    return bytes(table)


def _cells(sweep: Sweep, flat: bytes) -> Tuple[bytes, int]:
    """The colours of all cells, each row with one place before and one after it, then a row for no radial; and a row's length."""
    bins = sweep.bins
    edge, gap = bytes((BELOW,)), bytes((GAP,)) * bins
    out = bytes((OUTSIDE,))
    gaps = set(sweep.gap_radials)
    rows = [edge + (gap if r in gaps else flat[r * bins:(r + 1) * bins]) + out for r in range(sweep.radials)]
    rows.append(bytes((NO_RADIAL,)) * (bins + 1) + out)
    return b"".join(rows), bins + 2


def _lines(sweep: Sweep, cells: bytes, stride: int, radials: List[int], half: int, reach: float) -> List[bytes]:
    """The disc, in a square of twice half pixels that reach metres go into half of, line by line: for each pixel what cells has for it."""
    slots, distances = _quarter(half)
    per = reach / half / sweep.gate
    start = 1 - (sweep.first_gate - sweep.gate / 2) / sweep.gate
    last = stride - 1
    columns = [max(0, min(last, math.floor(d * per + start))) for d in distances] if start < 0 else \
        [c if c < last else last for c in [int(d * per + start) for d in distances]]
    starts = [r * stride if r >= 0 else sweep.radials * stride for r in radials]
    quarters = []
    for part in (starts[:_SLOTS], starts[2 * _SLOTS - 1:_SLOTS - 1:-1], starts[2 * _SLOTS:3 * _SLOTS], starts[:3 * _SLOTS - 1:-1]):
        quarters.append(bytes(map(cells.__getitem__, map(add, map(part.__getitem__, slots), columns))))
    north_east, south_east, south_west, north_west = quarters
    outward = [slice(j * half, (j + 1) * half) for j in range(half)]
    return [north_west[part][::-1] + north_east[part] for part in reversed(outward)] + [south_west[part][::-1] + south_east[part] for part in outward]


def _paint(canvas: Canvas, sweep: Sweep, flat: bytes, radials: List[int], left: int, top: int, half: int, reach: float) -> None:
    """The disc in its colours."""
    for y, line in enumerate(_lines(sweep, *_cells(sweep, flat), radials, half, reach), top):
        canvas.row(left, y, line)
    if sweep.gap_radials:
        _hatch(canvas, left, top, 2 * half)


def _outline(canvas: Canvas, sweep: Sweep, plan: Plan, radials: List[int], left: int, top: int, half: int, reach: float) -> None:
    """The edges of a plan's fields: those of their pixels that have another beside them."""
    stride = sweep.bins + 2
    cells = bytearray((sweep.radials + 1) * stride)
    for k, field in enumerate(plan.fields):
        for strip in field.strips:
            if strip.radial >= sweep.radials or strip.gate + strip.gates > sweep.bins:
                raise Level3Error("field %d of %s has a strip outside the picture: radial %d, gate %d, gates %d" % (field.number, plan.name, *strip[:3]))
            at = strip.radial * stride + 1 + strip.gate
            cells[at:at + strip.gates] = bytes((1 + k % 255,)) * strip.gates
    none = bytes(2 * half)
    lines = [none, *_lines(sweep, bytes(cells), stride, radials, half, reach), none]
    for y, (above, line, below) in enumerate(zip(lines, lines[1:], lines[2:]), top):
        for run in re.finditer(b"[^\\0]+", line):
            for x in range(*run.span()):
                if {above[x], below[x], *line[max(0, x - 1):x + 2]} != {line[x]} or x in (0, 2 * half - 1):
                    canvas.put(left + x, y, PLAN)


def _hatch(canvas: Canvas, left: int, top: int, side: int) -> None:
    """Lines over what is a gap."""
    pattern = bytes(hatched(x, 0, GAP, GAP_LINE) for x in range(side + 6))
    for y in range(top, top + side):
        at = y * canvas.width + left
        line = bytes(canvas.pixels[at:at + side])
        if GAP in line:
            for run in re.finditer(bytes((GAP,)) + b"+", line):
                x = (left + run.start() + y) % 6
                canvas.row(left + run.start(), y, pattern[x:x + run.end() - run.start()])


def ring_step(reach: float) -> float:
    """The distance between range rings in metres: 1, 2 or 5 times a power of ten, three to six of them in the picture."""
    step = 10 ** math.floor(math.log10(reach / 2))
    for times in (5, 2, 1):
        if reach / (step * times) >= 3:
            return float(step * times)
    return step / 2.0


def _rings(canvas: Canvas, x: int, y: int, half: int, reach: float) -> None:
    step = ring_step(reach)
    for azimuth in range(0, 360, 30):
        canvas.ray(x, y, step / reach * half, half, azimuth, RING)
    n = 1
    while n * step <= reach * 1.0001:
        radius = min(n * step / reach * half, half - .5)
        canvas.circle(x, y, radius, RING)
        if n * step < reach * .97:
            label = "%g km" % (n * step / 1000)
            canvas.text(round(x + 3), round(y - radius + 3), label, TEXT)
        n += 1
    for d in range(-3, 4):
        canvas.put(x + d, y, TEXT)
        canvas.put(x, y + d, TEXT)


def _bar(canvas: Canvas, scale: Scale, unit: str, x: int, top: int, height: int) -> None:
    """The colour bar, the largest values on top."""
    canvas.text(x, top, unit or " ", TEXT)
    top += LINE
    height -= LINE
    count = len(scale.bounds)
    each = max(1, min(36, height // count))
    for i in range(count):
        y = top + each * (count - 1 - i)
        canvas.box(x, y, 14, each, FIRST + i)
        if scale.names:
            words = scale.names[i].split()[0]
        elif i == 0 and abs(scale.bounds[0]) >= 1000:
            words = ""
        else:
            words = "%g" % round(scale.bounds[i], 3)
        if each >= 8:
            canvas.text(x + 18, y + each - 7, words, TEXT)


def _legend(canvas: Canvas, sweep: Sweep, flat: bytes, missing: bool, planned: bool, y: int) -> None:
    """What the colours beside those of the bar mean, of those that occur."""
    entries = [(reason.text, colour) for reason, colour in _REASONS.items() if colour in flat]
    if sweep.gap_radials:
        entries.append(("gap", GAP))
    if missing:
        entries.append(("no radial", NO_RADIAL))
    if planned:
        entries.append(("plan", PLAN))
    x = 6
    for words, colour in entries:
        if x + 16 + text_width(words) > canvas.width - 6 and x > 6:
            x, y = 6, y + LINE
        canvas.box(x, y - 1, 11, 9, RING)
        if colour == GAP:
            canvas.hatch(x + 1, y, 9, 7, GAP, GAP_LINE)
        else:
            canvas.box(x + 1, y, 9, 7, colour)
        x = canvas.text(x + 15, y, words, TEXT) + 12


def _title(canvas: Canvas, sweep: Sweep, reach: float) -> None:
    name = TITLES.get(sweep.moment, "no product table")
    lines = ["%s %s  %s%s  product %d" % (sweep.product, sweep.site, name, ", " + sweep.unit if sweep.unit else "", sweep.code),
             "%s UTC  VCP %d%s" % (sweep.when.strftime("%Y-%m-%d %H:%M:%S"), sweep.vcp,
                                   "  elevation %.1f\xb0" % sweep.elevation if sweep.table is None or sweep.table.has_elevation else ""),
             "%d radials, %d bins of %g m, to %g km" % (sweep.radials, sweep.bins, sweep.gate, round(reach / 1000, 1))]
    for i, line in enumerate(lines):
        canvas.text(6, 4 + i * LINE, line, TEXT)
    for i, note in enumerate(sweep.notes[:2]):
        canvas.text(canvas.width - 6 - min(text_width(note), canvas.width - 12), canvas.height - (1 + i) * LINE, note, NOTE)


def draw(sweep: Sweep, size: int = 800, reach: Optional[float] = None, rings: bool = True, plan: Optional[Plan] = None) -> Canvas:
    """The picture in a square of size pixels. reach is the range at the edge in metres, by default that of the last gate.

    The fields of a plan are outlined; their strips must lie in the picture, and a clear scan has none for any strip.
    """
    if not SMALLEST <= size <= LARGEST:
        raise ValueError("a picture has from %d to %d pixels a side" % (SMALLEST, LARGEST))
    if reach is not None and not 0 < reach < 1e7:
        raise ValueError("the range at the edge is above 0 and below 10,000 km")
    if not 0 < sweep.gate < 1e6:
        raise Level3Error("the gate length is not known, or is %g m: give one" % sweep.gate)
    if not abs(sweep.first_gate) < 1e7:
        raise Level3Error("the first gate is at %g m" % sweep.first_gate)
    scale = scale_for(sweep.moment if sweep.by_table else "", sweep.code_values)
    canvas = Canvas(size, size, _FIXED + scale.colours, OUTSIDE)
    half = (size - _SIDE) // 2
    full = sweep.first_gate + (sweep.bins - .5) * sweep.gate
    reach = reach or (230_000.0 if sweep.clear or full <= 0 else full)
    x, y = half, _TOP + half
    if sweep.clear:
        if plan and any(field.strips for field in plan.fields):
            raise Level3Error("a clear scan has no cells for the strips of %s" % plan.name)
        words = "clear scan: the radar has seen nothing"
        canvas.text(x - text_width(words) // 2, y + half // 3, words, TEXT)
    else:
        flat, radials = sweep.cells_by_code(colour_table(sweep, scale)), nearest(sweep._azimuths.tolist())
        _paint(canvas, sweep, flat, radials, 0, _TOP, half, reach)
        _legend(canvas, sweep, flat, -1 in radials, plan is not None, size - _BOTTOM + 6)
    if rings:
        _rings(canvas, x, y, half, reach)
    if plan and not sweep.clear:
        _outline(canvas, sweep, plan, radials, 0, _TOP, half, reach)
    _title(canvas, sweep, reach)
    _bar(canvas, scale, sweep.unit, 2 * half + 12, _TOP, 2 * half)
    return canvas


def save_png(sweep: Sweep, path: Any, **options: Any) -> None:
    """Draws to a file, which is there whole or not at all."""
    write_whole(os.fspath(path), draw(sweep, **options).png())
