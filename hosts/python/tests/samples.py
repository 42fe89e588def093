"""Makes product files as they are distributed, with storms at known places.

    python3 samples.py FOLDER [COUNT]

writes one file for each sample below, and COUNT more large ones; for each also NAME.body, its unpacked symbology block. Nothing is decoded
here. Both forms of text header occur: the bare one, and the one with a start of heading and a sequence number before it, which ends with
an end of text.
"""
import bz2
import math
import os
import random
import struct
import sys
import zlib
from functools import lru_cache
from typing import Any, Callable, Iterator, List, NamedTuple, Optional, Sequence, Tuple

Rows = List[Sequence[int]]
Field = Callable[[float, float], float]  # of azimuth and km

LATITUDE, LONGITUDE, HEIGHT = 41604, -88085, 663   # thousandths of a degree, feet
DAYS, SECONDS = 20594, 80077                       # 20 May 2026, 22:14:37
TIME = (DAYS - 1) * 86400 + SECONDS
VCP, ELEVATION = 215, 5

#: East and north of the radar in km, peak in dBZ, radius in km.
STORMS = ((60.0, 45.0, 62.0, 12.0), (-80.0, 20.0, 52.0, 20.0), (10.0, -70.0, 45.0, 15.0))
CLUTTER = 8.0                                      # km around the radar


def dbz(azimuth: float, km: float) -> float:
    """The made-up reflectivity at a place; -40 is nothing."""
    x, y = km * math.sin(math.radians(azimuth)), km * math.cos(math.radians(azimuth))
    best = 25 - 2.5 * km if km < CLUTTER else -40.0
    for east, north, peak, radius in STORMS:
        best = max(best, peak - 25 * ((x - east) ** 2 + (y - north) ** 2) / radius ** 2)
    return best


def rate(azimuth: float, km: float) -> float:
    """The rain rate that goes with it, in mm/h."""
    z = dbz(azimuth, km)
    return 0.0 if z < 10 else (10 ** (z / 10) / 300) ** (1 / 1.4)


def wind(azimuth: float, km: float) -> float:
    """A made-up radial velocity in m/s: 25 m/s from the south-west."""
    return 25.0 * math.cos(math.radians(azimuth - 45))


# ---- blocks

def text_header(product: str, site: str, framed: bool) -> bytes:
    """The bare form, or the one with a start of heading."""
    head = b"SDUS53 K%s 202214\r\r\n%s%s\r\r\n" % (site.encode(), product.encode(), site.encode())
    return b"\x01\r\r\n001 \r\r\n" + head if framed else head


def trailer(framed: bool) -> bytes:
    """What ends the second form."""
    return b"\r\r\n\x03" if framed else b""


def description(code: int, scale: bytes, elevation: int = ELEVATION, days: int = DAYS, seconds: int = SECONDS, latitude: int = LATITUDE,
                longitude: int = LONGITUDE) -> bytes:
    """The description block, 102 bytes: field i is the halfword at 2 * (i - 1); scale goes from field 22 on."""
    block = bytearray(102)
    struct.pack_into(">hiihhhhhh", block, 0, -1, latitude, longitude, HEIGHT, code, 2, VCP, 77, 33)
    struct.pack_into(">HiHi", block, 22, days, seconds, days, (seconds + 60) % 86400)
    struct.pack_into(">h", block, 40, elevation)
    block[42:42 + len(scale)] = scale
    struct.pack_into(">iii", block, 90, 60, 0, 0)
    return bytes(block)


def product_file(product: str, code: int, scale: bytes, body: bytes, packed: bool = True, framed: bool = False, site: str = "LOT",
                 tail: Optional[bytes] = None, **fields: int) -> bytes:
    """A whole file; fields are those of the description block."""
    data = bz2.compress(body) if packed else body
    message = struct.pack(">hHiihhh", code, DAYS, SECONDS + 90, 120 + len(data), 301, 0, 3)
    return text_header(product, site, framed) + message + description(code, scale, **fields) + data + (trailer(framed) if tail is None else tail)


def symbology(packet: bytes) -> bytes:
    """A symbology block of one layer."""
    return struct.pack(">hhihhi", -1, 1, 16 + len(packet), 1, -1, len(packet)) + packet


def body16(rows: Rows, range_scale: int, start: int = 0, first: int = 0, stray: bytes = b"") -> bytes:
    """Rows of codes as packet 16, evenly round the circle from a start in tenths of a degree."""
    width = min(100, 3600 // max(1, len(rows)))
    bins = len(rows[0]) if rows else 1
    radials = b"".join(struct.pack(">HHH", len(row) + len(row) % 2, (start + i * width) % 3600, width) + bytes(row) + bytes(len(row) % 2)
                       for i, row in enumerate(rows))
    return symbology(struct.pack(">HHHhhHH", 16, first, bins, 0, 0, range_scale, len(rows)) + radials + stray)


def runs(row: Sequence[int]) -> bytes:
    """A row as runs of at most 15, to a whole number of halfwords."""
    out, i = bytearray(), 0
    while i < len(row):
        j = i
        while j < len(row) and j - i < 15 and row[j] == row[i]:
            j += 1
        out.append((j - i) << 4 | row[i])
        i = j
    return bytes(out) + bytes(len(out) % 2)


def body_af1f(rows: Rows, range_scale: int, damaged: Sequence[int] = (), surplus: Sequence[int] = ()) -> bytes:
    """Rows of codes 0 to 15 as packet AF1F; the data of a damaged radial make no row, those of one with surplus go beyond it."""
    radials = []
    for i, row in enumerate(rows):
        data = runs(row)
        if i in damaged:
            data = bytes(len(data))
        if i in surplus:
            data += b"\x25\x00"
        radials.append(struct.pack(">HHH", len(data) // 2, i * 10, 10) + data)
    return symbology(struct.pack(">HHHhhHH", 0xAF1F, 0, len(rows[0]), 0, 0, range_scale, len(rows)) + b"".join(radials))


def xdr_string(text: bytes) -> bytes:
    """An XDR string."""
    return struct.pack(">I", len(text)) + text + bytes(-len(text) % 4)


def body28(rows: Rows, gate: float, first: float, code: int = 176) -> bytes:
    """Rows of 16-bit codes as packet 28, one degree each."""
    radials = b"".join(struct.pack(">fffI", float(i), 0.5, 360.0 / len(rows), len(row)) + xdr_string(b"") +
                       struct.pack(">I%di" % len(row), len(row), *row) for i, row in enumerate(rows))
    component = struct.pack(">I", 1) + xdr_string(b"radial") + struct.pack(">ff", gate, first) + struct.pack(">II", 0, 0) + \
        struct.pack(">I", len(rows)) + radials
    payload = xdr_string(b"DPR") + xdr_string(b"Rate") + struct.pack(">iiI", code, 1, TIME) + xdr_string(b"KLOT") + \
        struct.pack(">fffIIf", 41.604, -88.085, 202.0, TIME, TIME, 0.0) + struct.pack(">iiiiii", 1, 0, VCP, 1, 0, 0) + \
        struct.pack(">II", 0, 0) + struct.pack(">II", 1, 0x1234) + component
    return symbology(struct.pack(">HHi", 28, 0, len(payload)) + payload)


# ---- scales

def halfword(minimum: int, step: int, levels: int = 254) -> bytes:
    """Tenths of the smallest value and of the step."""
    return struct.pack(">hhH", minimum, step, levels)


def floats(scale: float, offset: float, largest: int = 0, leading: int = 0, trailing: int = 0) -> bytes:
    """Scale and offset, and the flags of the precipitation family."""
    return struct.pack(">ffhHhh", scale, offset, 0, largest, leading, trailing)


def thresholds(levels: Sequence[Any]) -> bytes:
    """Sixteen levels: a number, which is written whole, or TH, ND or RF."""
    special = {"TH": 1, "ND": 2, "RF": 3}
    return b"".join(bytes((0x80, special[x])) if x in special else bytes((1 if x < 0 else 0, abs(x))) for x in levels)


# ---- rows

def grid(radials: int, bins: int, gate: float, code: Callable[[float, float], int]) -> Rows:
    """Codes by a function of azimuth and km, at the cells' centres."""
    return [[code((i + .5) * 360 / radials, (k + .5) * gate) for k in range(bins)] for i in range(radials)]


def reflectivity(radials: int, bins: int, gate: float, noise: random.Random) -> List[bytearray]:
    """Codes of -32 dBZ in steps of 0.5 from code 2 on, with noise. Cells far from any storm are not looked at."""
    rows = []
    for i in range(radials):
        azimuth = (i + .5) * 360 / radials
        sine, cosine = math.sin(math.radians(azimuth)), math.cos(math.radians(azimuth))
        row = bytearray(bins)
        spans = [(0.0, CLUTTER)]
        for east, north, peak, radius in STORMS:
            along, off = east * sine + north * cosine, abs(east * cosine - north * sine)
            reach = radius * math.sqrt((peak + 10) / 25)
            if off < reach:
                half = math.sqrt(reach ** 2 - off ** 2)
                spans.append((along - half, along + half))
        for low, high in spans:
            for k in range(max(0, int(low / gate)), min(bins, int(high / gate) + 1)):
                z = dbz(azimuth, (k + .5) * gate) + noise.gauss(0, 1.5)
                row[k] = max(2, min(255, round((z + 32) * 2) + 2)) if z > -5 else 0
        rows.append(row)
    return rows


def light(rows: List[bytearray], count: int) -> List[bytearray]:
    """One row cut into thin drizzle, so that a file is not like its neighbour."""
    rows[count % len(rows)] = bytearray((count * 7 + k) % 23 for k in range(len(rows[0])))
    return rows


LEGACY_DBZ = ["ND"] + [5 * k for k in range(1, 16)]
LEGACY_KNOTS = ["ND", -64, -50, -36, -26, -20, -10, -1, 0, 10, 20, 26, 36, 50, 64, "RF"]
LEGACY_INCHES = ["ND"] + [0, 1, 2, 3, 4, 5, 6, 7, 8, 9, 10, 11, 12, 13, 14]


def legacy_velocity(azimuth: float, km: float) -> int:
    """The level of LEGACY_KNOTS, folded beyond 90 km."""
    if dbz(azimuth, km) < 0:
        return 0
    if km > 90:
        return 15
    knots = wind(azimuth, km) / 0.514444
    return 1 + max(i for i, level in enumerate(LEGACY_KNOTS[1:15]) if level <= max(knots, -64))


def velocity(azimuth: float, km: float) -> int:
    """The code of -63.5 m/s in steps of 0.5, folded beyond 90 km."""
    if dbz(azimuth, km) < 0:
        return 0
    return 1 if km > 90 else max(2, min(255, round((wind(azimuth, km) + 63.5) * 2) + 2))


def scaled(make: Field, scale: float, offset: float) -> Callable[[float, float], int]:
    """Codes of value * scale + offset where there is an echo, folded beyond 90 km."""
    def code(azimuth: float, km: float) -> int:
        if dbz(azimuth, km) < 0:
            return 0
        return 1 if km > 90 else max(2, min(255, round(make(azimuth, km) * scale + offset)))
    return code


def hydrometeor(azimuth: float, km: float) -> int:
    """A class by the strength of the echo."""
    z = dbz(azimuth, km)
    return 0 if z < 0 else 20 if km < CLUTTER else 10 * min(12, 4 + int(z / 8))


def legacy_rows(radials: int = 360, bins: int = 230) -> Rows:
    """Reflectivity in steps of 5 dBZ."""
    return grid(radials, bins, 1.0, lambda a, k: max(0, min(15, int(dbz(a, k) // 5))))


def rate_rows(radials: int = 360, bins: int = 240, gate: float = 1.0) -> Rows:
    """Rain rates in thousandths of an inch an hour."""
    return grid(radials, bins, gate, lambda a, k: min(65535, round(rate(a, k) / 25.4 * 1000)))


class Sample(NamedTuple):
    """A product file, and what stands in it."""

    name: str
    data: bytes
    rows: Rows
    #: Gate length in km.
    gate: float
    #: Radials whose data make no row.
    gaps: Tuple[int, ...] = ()


def _sample(name: str, code: int, scale: bytes, rows: Rows, gate: float, packet: str = "16", range_scale: int = 999, gaps: Sequence[int] = (),
            surplus: Sequence[int] = (), stray: bytes = b"", **options: Any) -> Sample:
    if packet == "28":
        body = body28(rows, gate * 1000, gate * 500)
    elif packet == "AF1F":
        body = body_af1f(rows, range_scale, gaps, surplus)
    else:
        body = body16(rows, range_scale, stray=stray)
    return Sample(name, product_file(name[:3], code, scale, body, **options), rows, gate, tuple(gaps))


@lru_cache(maxsize=None)
def samples() -> Tuple[Sample, ...]:
    """One of each scheme, packet and form, and some that are damaged."""
    noise = random.Random(3)
    z, dpr = legacy_rows(), rate_rows()
    odd = [*dpr[:77], [*dpr[77][:3], 70000, *dpr[77][4:]], *dpr[78:]]
    n0q = reflectivity(360, 460, 1.0, noise)
    dbz16, knots16, inches16 = thresholds(LEGACY_DBZ), thresholds(LEGACY_KNOTS), thresholds(LEGACY_INCHES)
    rain, dpr_scale = floats(2.0, 0.0, 255, 1, 1), floats(1000.0, 0.0, 65535, 1, 0)
    return (
        _sample("N0RLOT", 19, dbz16, z, 1.0, "AF1F", packed=False),
        _sample("N0RLOT.gaps", 19, dbz16, z, 1.0, "AF1F", gaps=range(50, 58), framed=True),
        _sample("N0RLOT.second", 19, dbz16, z, 1.0, "AF1F", gaps=(100, 101, 250), framed=True),
        _sample("N0RLOT.surplus", 19, dbz16, z, 1.0, "AF1F", surplus=(30, 31)),
        _sample("N0VLOT", 27, knots16, grid(360, 230, 1.0, legacy_velocity), 1.0, "AF1F", framed=True),
        _sample("N1PLOT", 78, inches16, grid(360, 115, 2.0, lambda a, k: int(min(15, rate(a, k) / 6))), 2.0, "AF1F", 2000, packed=False, framed=True,
                elevation=0),
        _sample("N0QLOT", 94, halfword(-320, 5), n0q, 1.0),
        _sample("N0QLOT.stray", 94, halfword(-320, 5), n0q, 1.0, stray=b"\0\0"),
        _sample("N0QLOT.clear", 94, halfword(-320, 5), [], 1.0, packed=False),
        _sample("N0ULOT", 99, halfword(-635, 5), grid(360, 300, .25, velocity), .25, framed=True),
        _sample("N0XLOT", 159, floats(16.0, 128.0), grid(360, 400, .25, scaled(lambda a, k: dbz(a, k) / 15, 16, 128)), .25),
        _sample("N0CLOT", 161, floats(300.0, -60.5), grid(360, 400, .25, scaled(lambda a, k: min(1.05, .7 + dbz(a, k) / 180), 300, -60.5)), .25,
                packed=False),
        _sample("N0KLOT", 163, floats(20.0, 43.0), grid(360, 400, .25, scaled(lambda a, k: dbz(a, k) / 12, 20, 43)), .25, framed=True),
        _sample("N0HLOT", 165, b"", grid(360, 300, .25, hydrometeor), .25),
        _sample("DAALOT", 170, rain, grid(360, 230, 1.0, lambda a, k: min(255, round(rate(a, k) / .254 * 2))), 1.0, range_scale=1000, elevation=0),
        _sample("DPRLOT", 176, dpr_scale, dpr, 1.0, "28", framed=True, elevation=0),
        _sample("DPRLOT.gaps", 176, dpr_scale, odd, 1.0, "28", gaps=(77,), packed=False, elevation=0),
        _sample("HHCLOT", 177, b"", grid(360, 230, .25, hydrometeor), .25, range_scale=250, packed=False, framed=True, elevation=0),
        *_small(),
    )


def _small() -> Iterator[Sample]:
    """Small products of each packet, for the fuzz driver."""
    rows = [[(r * k) % 16 for k in range(13)] for r in range(6)]
    yield _sample("N0RLOT.small", 19, thresholds(LEGACY_DBZ), rows, 1.0, "AF1F", packed=False)
    yield _sample("N0QLOT.small", 94, halfword(-320, 5), rows, 1.0, packed=False)
    yield _sample("N0XLOT.small", 159, floats(16.0, 128.0), rows, .25, packed=False)
    yield _sample("DAALOT.small", 170, floats(2.0, 0.0, 255, 1, 1), rows, 1.0, range_scale=1000, packed=False, elevation=0)
    yield _sample("DPRLOT.small", 176, floats(1000.0, 0.0, 65535, 1, 0), rows, 1.0, "28", packed=False, elevation=0)


def large(count: int = 0) -> bytes:
    """A product of 720 radials of 1,840 bins."""
    return product_file("N0B", 153, halfword(-320, 5), body16(light(reflectivity(720, 1840, .25, random.Random(5 + count)), count), 999), framed=True)


def body_of(data: bytes) -> bytes:
    """The unpacked symbology block of a file that was made here."""
    start = data.index(struct.pack(">hi", -1, LATITUDE)) + 102
    return bz2.BZ2Decompressor().decompress(data[start:]) if data[start:start + 3] == b"BZh" else data[start:]


def write(folder: str, name: str, data: bytes, body: bool = True) -> None:
    """A file and, as NAME.body, its body."""
    with open(os.path.join(folder, name), "wb") as file:
        file.write(data)
    if body:
        with open(os.path.join(folder, name + ".body"), "wb") as file:
            file.write(body_of(data))


def main(arguments: List[str]) -> int:
    """Writes the samples."""
    if len(arguments) not in (2, 3):
        print(__doc__, file=sys.stderr)
        return 2
    os.makedirs(arguments[1], exist_ok=True)
    for sample in samples():
        write(arguments[1], sample.name, sample.data)
        print("%-16s %8d bytes, checksum %08x" % (sample.name, len(sample.data), zlib.crc32(sample.data)))
    for i in range(int(arguments[2]) if len(arguments) == 3 else 0):
        write(arguments[1], "N0BLOT.%03d" % i, large(i), body=False)
    return 0


if __name__ == "__main__":
    sys.exit(main(sys.argv))
