"""The cells of a sweep as a table: azimuth, range, latitude, longitude, code, value."""
from __future__ import annotations

import math
import os
from typing import Any, Iterator, List, Sequence, Tuple

from .errors import Level3Error
from .files import replacing
from .products import short
from .sweep import Reason, Sweep

EARTH = 6_371_000.0
#: The beam bends with the air: it runs as a straight line over an earth of four thirds the radius.
BEAM_EARTH = EARTH * 4 / 3
COLUMNS = ("radial", "bin", "azimuth", "range_m", "latitude", "longitude", "code", "value", "reason")


def ground_distance(slant: float, elevation: float, height: float = 0.0) -> float:
    """How far along the ground a place on the beam is, in metres."""
    radius = BEAM_EARTH + height
    angle = math.radians(elevation)
    return BEAM_EARTH * math.atan2(slant * math.cos(angle), radius + slant * math.sin(angle))


def place(latitude: float, longitude: float, azimuth: float, distance: float) -> Tuple[float, float]:
    """Latitude and longitude of what lies at a distance along the ground, in degrees."""
    return _place(_site(latitude, longitude), math.sin(math.radians(azimuth)), math.cos(math.radians(azimuth)), _arc(distance))


def _site(latitude: float, longitude: float) -> Tuple[float, float, float]:
    return math.sin(math.radians(latitude)), math.cos(math.radians(latitude)), longitude


def _arc(distance: float) -> Tuple[float, float]:
    return math.sin(distance / EARTH), math.cos(distance / EARTH)


def _place(site: Tuple[float, float, float], sine: float, cosine: float, arc: Tuple[float, float]) -> Tuple[float, float]:
    up = site[0] * arc[1] + site[1] * arc[0] * cosine
    latitude = math.asin(max(-1.0, min(1.0, up)))
    longitude = site[2] + math.degrees(math.atan2(sine * arc[0] * site[1], arc[1] - site[0] * up))
    return math.degrees(latitude), (longitude + 180) % 360 - 180


def rows(sweep: Sweep, everything: bool = False) -> Iterator[str]:
    """Lines of the table, those of one radial at a time. Cells without a value are left out unless everything is asked for."""
    if not (math.isfinite(sweep.gate) and math.isfinite(sweep.first_gate) and sweep.gate > 0):
        raise Level3Error("the gate length is not known, or is %g m: give one" % sweep.gate)
    site = _site(sweep.latitude, sweep.longitude)
    bins = sweep.bins
    slants = [sweep.range_of(k) for k in range(bins)]
    arcs = [_arc(ground_distance(slant, sweep.elevation, sweep.height)) for slant in slants]
    ranges = ["%.10g" % slant for slant in slants]
    reasons = sweep.code_reasons
    texts: dict = {}
    gaps = set(sweep.gap_radials)
    yield ",".join(COLUMNS) + "\n"
    for radial, azimuth in enumerate(sweep._azimuths.tolist()):
        gap = radial in gaps
        if gap and not everything or azimuth != azimuth:
            if everything and azimuth != azimuth:
                raise Level3Error("radial %d has no azimuth" % radial)
            continue
        sine, cosine = math.sin(math.radians(azimuth)), math.cos(math.radians(azimuth))
        lines: List[str] = []
        front = "%d,%%d,%.10g,%%s,%%.5f,%%.5f,%%d,%%s\n" % (radial, azimuth)
        codes: Sequence[int] = sweep._codes[radial * bins:(radial + 1) * bins].tolist()
        for k, code in enumerate(codes):
            reason = Reason.GAP if gap else reasons[code]
            if reason and not everything:
                continue
            text = texts.get(code) if not gap else ",gap"
            if text is None:
                text = texts[code] = short(sweep.code_values[code]) + "," + ("" if not reason else Reason(reason).text)
            lines.append(front % (k, ranges[k], *_place(site, sine, cosine, arcs[k]), code, text))
        yield "".join(lines)


def save_csv(sweep: Sweep, path: Any, everything: bool = False) -> int:
    """Writes the table to a file, which is there whole or not at all; returns the number of cells in it."""
    count = 0
    with replacing(os.fspath(path), text=True) as file:
        for part in rows(sweep, everything):
            file.write(part)
            count += part.count("\n")
    return count - 1
