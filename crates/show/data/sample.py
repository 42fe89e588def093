"""Makes the sample: N0BLOT, the product file, N0BLOT.body, its unpacked symbology body, and, on standard output, what show is to print
of them with the scheme halfword. Nothing is decoded here: the text is worked out from the values below.

    python3 sample.py >../stdout
"""
import struct
from datetime import datetime, timedelta
from fractions import Fraction as Q

# Description block: field i is the halfword at 2 * (i - 1).
LATITUDE, LONGITUDE = 41604, -88085          # 2 and 4, thousandths of a degree
HEIGHT, CODE, VCP = 663, 153, 215            # 6 feet, 7, 9
DAYS, SECONDS = 20594, 80077                 # 12 and 13: 20 May 2026, 22:14:37
ELEVATION = 5                                # 21, tenths
MINIMUM, STEP, LEVELS = -320, 5, 254         # 22 to 24, tenths
# Body: packet 16.
RANGE_SCALE = 999
RADIALS = [                                  # start and width in tenths, codes
    (0, 5, [0, 1, 2, 3, 66, 67, 68, 100, 120, 130, 1, 0]),
    (5, 5, [0, 0, 2, 66, 76, 86, 96, 106, 116, 126, 136, 146]),
    (10, 5, [1, 1, 1, 60, 61, 62, 63, 64, 65, 66, 67, 68]),
    (15, 5, [255, 254, 253, 129, 128, 127, 2, 1, 0, 1, 2, 3]),
    (20, 5, [0] * 12),
    (25, 5, [2] * 12),
    (30, 10, list(range(2, 26, 2))),
    (40, 5, list(range(255, 243, -1))),
]
BINS = 12

def halfwords(*xs):
    return struct.pack(">%dh" % len(xs), *xs)

def product():
    head = b"SDUS53 KLOT 202214\r\r\nN0BLOT\r\r\n"
    message = halfwords(CODE, DAYS) + struct.pack(">iihhh", 80100, 150, 1, 0, 3)
    block = bytearray(102)
    def put(field, form, x):
        struct.pack_into(form, block, 2 * (field - 1), x)
    put(1, ">h", -1)
    put(2, ">i", LATITUDE)
    put(4, ">i", LONGITUDE)
    for field, x in (6, HEIGHT), (7, CODE), (8, 2), (9, VCP), (12, DAYS), (21, ELEVATION), (22, MINIMUM), (23, STEP), (24, LEVELS):
        put(field, ">h", x)
    put(13, ">i", SECONDS)
    return head + message + bytes(block)

def body():
    radials = b"".join(halfwords(BINS, start, width) + bytes(codes) for start, width, codes in RADIALS)
    packet = struct.pack(">h", 16) + halfwords(0, BINS, 0, 0, RANGE_SCALE, len(RADIALS)) + radials
    return struct.pack(">hhihhi", -1, 1, 16 + len(packet), 1, -1, len(packet)) + packet

def fixed(x, places):
    n = (abs(x) * 10 ** places * 2 + 1) // 2
    return ("-" if x < 0 else "") + "%d.%0*d" % (n // 10 ** places, places, n % 10 ** places)

def line(name, text, unit=""):
    print("%-16s%16s%s" % (name, text, unit))

def value(code):                             # minimum + (code - 2) * step; every sum here is exact in f32
    return "-" if code < 2 else fixed(Q(MINIMUM, 10) + (code - 2) * Q(STEP, 10), 3)

open("N0BLOT", "wb").write(product())
open("N0BLOT.body", "wb").write(body())
line("product", "N0B")
line("site", "LOT")
line("latitude", fixed(Q(LATITUDE, 1000), 3), " degrees")
line("longitude", fixed(Q(LONGITUDE, 1000), 3), " degrees")
line("height", fixed(HEIGHT * Q(3048, 10000), 4), " m, %d feet" % HEIGHT)
line("product code", CODE)
line("vcp", VCP)
line("elevation", fixed(Q(ELEVATION, 10), 1), " degrees")
line("scan days", DAYS)
line("scan seconds", SECONDS)
line("scan time", (DAYS - 1) * 86400 + SECONDS, " seconds since 1970")
scan = datetime(1970, 1, 1) + timedelta(DAYS - 1, SECONDS)
line("scan date", scan.strftime("%Y-%m-%d"))
line("time of day", scan.strftime("%H:%M:%S"), " UTC")
line("scale minimum", fixed(Q(MINIMUM, 10), 6))
line("scale step", fixed(Q(STEP, 10), 6))
line("scale levels", LEVELS)
line("scale floor", 2)
line("packet", 16)
line("radials", len(RADIALS))
line("bins", BINS)
line("range scale", RANGE_SCALE)
print("\nthe first 4 of %d radials, the first 8 of %d bins" % (len(RADIALS), BINS))
for r, (start, width, codes) in enumerate(RADIALS[:4]):
    print("radial %d, centre %s degrees" % (r, fixed(Q((2 * start + width) % 7200, 20), 3)))
    print("  codes " + "".join(" %8d" % c for c in codes[:8]))
    print("  values" + "".join(" %8s" % value(c) for c in codes[:8]))
