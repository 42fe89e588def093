"""Colours of the moments, as radar displays have them: a colour for each step between two values."""
from __future__ import annotations

from bisect import bisect_right
from typing import Dict, NamedTuple, Sequence, Tuple

Colour = Tuple[int, int, int]


class Scale(NamedTuple):
    """Colour i is for values from bounds[i] up to the next bound, the last for all above; values below bounds[0] have none."""

    bounds: Tuple[float, ...]
    colours: Tuple[Colour, ...]
    #: What stands at the steps of the bar; empty: the bounds themselves.
    names: Tuple[str, ...] = ()

    def step(self, value: float) -> int:
        """The number of the value's colour, or -1."""
        return bisect_right(self.bounds, value) - 1


def _scale(text: str) -> Scale:
    """A scale from pairs of bound and colour, with a name as third part where it has names."""
    parts = [line.split(None, 2) for line in text.strip().splitlines()]
    colours = tuple((int(p[1][0:2], 16), int(p[1][2:4], 16), int(p[1][4:6], 16)) for p in parts)
    return Scale(tuple(float(p[0]) for p in parts), colours, tuple(p[2] for p in parts) if len(parts[0]) > 2 else ())


def ramp(bounds: Sequence[float], stops: Sequence[str]) -> Scale:
    """A scale whose colours go evenly through the stops."""
    rgb = [tuple(int(s[i:i + 2], 16) for i in (0, 2, 4)) for s in stops]
    colours = []
    for n in range(len(bounds)):
        at = n * (len(rgb) - 1) / max(1, len(bounds) - 1)
        i = min(int(at), len(rgb) - 2)
        colours.append(tuple(round(a + (b - a) * (at - i)) for a, b in zip(rgb[i], rgb[i + 1])))
    return Scale(tuple(bounds), tuple(colours))


_REFLECTIVITY = _scale("""
-30 3c3c46
-20 50505c
-10 646478
0   7d8c96
5   04e9e7
10  019ff4
15  0300f4
20  02fd02
25  01c501
30  008e00
35  fdf802
40  e5bc00
45  fd9500
50  fd0000
55  d40000
60  bc0000
65  f800fd
70  9854c6
75  fdfdfd
""")
_VELOCITY = _scale("""
-1000 02f8f8
-32   0090d0
-26   00e060
-18   00b400
-13   008c00
-10   006e00
-5    4b6e4b
-0.5  787878
0.5   6e4b4b
5     780000
10    a00000
13    c80000
18    f00000
26    ff7d00
32    ffd000
""")
_WIDTH = _scale("""
0  505050
2  787878
4  02c502
6  008e00
8  fdf802
10 e59c00
12 fd0000
15 bc0000
20 f800fd
""")
_RAIN = _scale("""
0.1 aaaaaa
1   04e9e7
2.5 019ff4
5   0300f4
10  02fd02
15  01c501
20  008e00
25  fdf802
35  e5bc00
50  fd9500
75  fd0000
100 d40000
150 bc0000
200 f800fd
300 9854c6
""")
_RATE = _scale("""
0.1 646478
0.5 04e9e7
1   019ff4
2   0300f4
5   02fd02
10  008e00
20  fdf802
35  e5bc00
50  fd9500
75  fd0000
100 bc0000
150 f800fd
200 9854c6
""")
_CLASS = _scale("""
10  9c9c9c BI biological
20  767676 GC clutter
30  ffb0b0 IC ice crystals
40  00ffff DS dry snow
50  0090ff WS wet snow
60  00fb90 RA rain
70  00bb00 HR heavy rain
80  d0d060 BD big drops
90  d28484 GR graupel
100 ff0000 HA hail
110 b40000 LH large hail
120 780000 GH giant hail
140 e7e7e7 UK unknown
150 770077 RF folded
""")

SCALES: Dict[str, Scale] = {
    "DBZH": _REFLECTIVITY,
    "VRADH": _VELOCITY,
    "SRMV": _VELOCITY,
    "WRADH": _WIDTH,
    "ZDR": ramp((-8, -4, -2, -1, -.5, 0, .25, .5, 1, 1.5, 2, 2.5, 3, 4, 5, 6), ("202020", "9c9c9c", "0300f4", "02fd02", "fdf802", "fd0000", "f0b4f0")),
    "RHOHV": ramp((.2, .45, .65, .75, .8, .85, .9, .93, .95, .96, .97, .98, .99, 1),
                  ("95949c", "16148c", "0902d9", "8987d6", "5cff59", "ffff00", "ff3c00", "a00064")),
    "KDP": ramp((-2, -1, -.5, 0, .25, .5, 1, 1.5, 2, 2.5, 3, 4, 5, 7), ("656565", "a4a4a4", "b4006e", "00d8d8", "02fd02", "fdf802", "fd9500", "f0b4f0")),
    "HCLASS": _CLASS,
    "ACCUM": _RAIN,
    "RATE": _RATE,
}


def scale_for(moment: str, values: Sequence[float]) -> Scale:
    """The moment's scale; where none is known, sixteen even steps over the values."""
    if moment in SCALES:
        return SCALES[moment]
    real = [v for v in values if v == v and abs(v) != float("inf")] or [0.0]
    low, high = min(real), max(real)
    step = (high - low) / 16 or 1.0
    return ramp([low + i * step for i in range(16)], ("3c3c5a", "28a0f0", "14be3c", "faf03c", "fa8214", "dc141e", "f05af0"))
