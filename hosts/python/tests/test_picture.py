"""Pictures, compared with stored ones by their pixels.

    python3 test_picture.py --store

draws the stored ones again, after a change that is meant. What stands in their discs is held to the generator's rows by a computation that
shares nothing with the drawing but the colours; rings, letters, bar and legend were looked at, so look at them before they are kept.
"""
import math
import os
import struct
import sys
import zlib
from functools import lru_cache
from typing import Callable, Dict, List, Optional, Sequence, Tuple

from common import HERE, Folder, files, made, read, reader, samples, unittest, yasgulet
import facts
from yasgulet import picture
from yasgulet.canvas import Canvas
from yasgulet.colours import SCALES, scale_for
from yasgulet.font import HEIGHT, LETTERS, WIDTH
from yasgulet.forms import parse_plan

STORED = os.path.join(HERE, "pictures")
NAMES = ("N0RLOT.gaps", "N0VLOT", "N1PLOT", "N0QLOT", "N0QLOT.clear", "N0ULOT", "N0XLOT", "N0CLOT", "N0KLOT", "N0HLOT", "DAALOT", "DPRLOT", "HHCLOT")
SIZE = 360


def pixels(data: bytes) -> Tuple[int, int, bytes]:
    """Width, height and the colours of a PNG file as Canvas writes it."""
    assert data[:8] == b"\x89PNG\r\n\x1a\n"
    at, parts = 8, {}
    while at < len(data):
        length, kind = struct.unpack_from(">I4s", data, at)
        body = data[at + 8:at + 8 + length]
        assert struct.unpack_from(">I", data, at + 8 + length)[0] == zlib.crc32(kind + body)
        parts[kind] = parts.get(kind, b"") + body
        at += 12 + length
    width, height, depth, colour, *rest = struct.unpack(">IIBBBBB", parts[b"IHDR"])
    assert (depth, colour, rest) == (8, 3, [0, 0, 0])
    palette = [parts[b"PLTE"][i:i + 3] for i in range(0, len(parts[b"PLTE"]), 3)]
    raw = zlib.decompress(parts[b"IDAT"])
    rows = []
    for y in range(height):
        line = raw[y * (width + 1):(y + 1) * (width + 1)]
        assert line[0] == 0
        rows.append(b"".join(palette[i] for i in line[1:]))
    return width, height, b"".join(rows)


def draw(name: str) -> bytes:
    """The picture of a sample."""
    return picture.draw(read(name, gaps=True), size=SIZE).png()


Value = Callable[[int], Optional[float]]  # of a code


def check_picture(test: unittest.TestCase, shown: Tuple[int, int, bytes], rows: samples.Rows, gate: float, gaps: Sequence[int], moment: str,
                  value: Value, reach: float, size: int) -> None:
    """Holds a picture to the rows that its product was made of. gate is in km, reach in m.

    Every third pixel of every third line is looked at: the cell at its middle, by azimuth and range, or one that is within a twentieth of a
    degree and 1 m of it, must have the pixel's colour. Pixels of rings, rays, letters and a plan are passed over; they are few.
    """
    width, height, colours = shown
    test.assertEqual((width, height), (size, size))
    half = (size - 72) // 2
    scale = SCALES[moment]
    over = {bytes(picture._FIXED[colour]) for colour in (picture.RING, picture.TEXT, picture.PLAN)}
    hatch = {bytes(picture._FIXED[colour]) for colour in (picture.GAP, picture.GAP_LINE)}
    plain = {bytes(picture._FIXED[colour]) for colour in picture._REASONS.values()}
    looked = passed = coloured = 0
    for y in range(40, 40 + 2 * half, 3):
        for x in range(0, 2 * half, 3):
            seen = colours[3 * (y * width + x):3 * (y * width + x) + 3]
            if seen in over:
                passed += 1
                continue
            east, north = (x + .5 - half) * reach / half, (40 + half - y - .5) * reach / half
            azimuth, distance = math.degrees(math.atan2(east, north)), math.hypot(east, north)
            wanted: List[bytes] = []
            for turn, move in ((0, 0), (.05, 0), (-.05, 0), (0, 1), (0, -1)):
                k = math.floor((distance + move) / gate / 1000)
                radial = math.floor((azimuth + turn) % 360 * len(rows) / 360)
                if k >= len(rows[0]) or k < 0:
                    wanted.append(bytes(picture._FIXED[picture.OUTSIDE]))
                elif radial in gaps:
                    wanted += hatch
                else:
                    number = value(rows[radial][k])
                    if number is None:
                        wanted += plain
                    else:
                        step = max((i for i, bound in enumerate(scale.bounds) if bound <= number), default=-1)
                        wanted.append(bytes(scale.colours[step] if step >= 0 else picture._FIXED[picture.UNDER]))
            looked += 1
            coloured += seen not in plain and seen != bytes(picture._FIXED[picture.OUTSIDE])
            test.assertIn(seen, wanted, "pixel %d, %d" % (x, y))
    test.assertGreater(looked, 20 * passed)
    test.assertGreater(coloured, looked // 500)


#: The value of a code of each sample, by the scale that the generator wrote; None where there is none.
VALUES: Dict[str, Value] = {
    "N0R": lambda c: 5.0 * c if c else None,
    "N0V": lambda c: samples.LEGACY_KNOTS[c] * .514444 if 0 < c < 15 else None,
    "N1P": lambda c: (c - 1) * 25.4 if c else None,
    "N0Q": lambda c: -32 + (c - 2) * .5 if c > 1 else None,
    "N0U": lambda c: -63.5 + (c - 2) * .5 if c > 1 else None,
    "N0X": lambda c: (c - 128) / 16 if c > 1 else None,
    "N0C": lambda c: (c + 60.5) / 300 if c > 1 else None,
    "N0K": lambda c: (c - 43) / 20 if c > 1 else None,
    "N0H": lambda c: c or None,
    "HHC": lambda c: c or None,
    "DAA": lambda c: c / 2 * .254 if 0 < c < 255 else None,
    "DPR": lambda c: c / 1000 * 25.4 if c else None,
}


class Stored(unittest.TestCase):
    def test_are_what_the_generator_wrote(self):
        for name in NAMES:
            with self.subTest(name), open(os.path.join(STORED, name + ".png"), "rb") as file:
                sample = made(name)
                if sample.rows:
                    code = struct.unpack_from(">h", sample.data, sample.data.index(b"\xff\xff\x00\x00\xa2\x84") + 12)[0]
                    check_picture(self, pixels(file.read()), sample.rows, sample.gate, sample.gaps, facts.PRODUCTS[code].moment, VALUES[name[:3]],
                                  len(sample.rows[0]) * sample.gate * 1000, SIZE)

    def test_pixels(self):
        for name in NAMES:
            with self.subTest(name):
                with open(os.path.join(STORED, name + ".png"), "rb") as file:
                    stored = pixels(file.read())
                drawn = pixels(draw(name))
                self.assertEqual(drawn[:2], stored[:2])
                differing = sum(drawn[2][i:i + 3] != stored[2][i:i + 3] for i in range(0, len(drawn[2]), 3)) if drawn[2] != stored[2] else 0
                self.assertEqual(differing, 0, "%d pixels differ" % differing)


class Drawn(Folder):
    def centre(self, canvas, east, north, reach):
        half = (canvas.width - 72) // 2
        return math.floor(half + east / reach * half), math.floor(40 + half - north / reach * half)

    def test_storms_are_where_they_were_put(self):
        for name, reach in (("N0QLOT", 460), ("N0RLOT", 230)):
            sweep = read(name)
            canvas = picture.draw(sweep, size=800, rings=False)
            for east, north, peak, radius in samples.STORMS:
                x, y = self.centre(canvas, east, north, reach)
                step = canvas.pixels[y * canvas.width + x] - picture.FIRST
                self.assertAlmostEqual(SCALES["DBZH"].bounds[step], peak, delta=8)
                x, y = self.centre(canvas, east, north + 2 * radius, reach)
                self.assertIn(canvas.pixels[y * canvas.width + x], (picture.BELOW, picture.FLAGGED))

    def test_zoom(self):
        sweep = read("N0QLOT")
        canvas = picture.draw(sweep, size=400, reach=100_000.0, rings=False)
        x, y = self.centre(canvas, *samples.STORMS[0][:2], 100)
        self.assertGreaterEqual(canvas.pixels[y * 400 + x], picture.FIRST)

    def test_fields_of_a_plan_are_outlined(self):
        """A pixel is the outline's if it lies in a field and one beside it does not; where a twentieth of a degree or 1 m decides, it may be."""
        plan = parse_plan("field 7\nstrip 52 60 6 1\nstrip 53 60 6 1\nstrip 54 62 3 1\n"
                          "field 8\nstrip 55 58 9 1\nstrip 56 58 9 1\nstrip 359 20 30 2\nstrip 0 20 30 2\nstrip 1 20 30 2\n"
                          "field 9\nfield 10\nstrip 180 0 90 1\nstrip 181 0 90 1\nstrip 182 0 90 1\n")
        fields = {(strip.radial, gate): field.number for field in plan.fields for strip in field.strips for gate in range(strip.gate, strip.gate + strip.gates)}
        sweep, size, reach = read("DPRLOT"), 400, 80_000.0
        half = (size - 72) // 2
        plain, outlined = (picture.draw(sweep, size=size, reach=reach, plan=one) for one in (None, plan))

        @lru_cache(maxsize=None)
        def owners(x: int, y: int) -> frozenset:
            if not (0 <= x < 2 * half and 0 <= y < 2 * half):
                return frozenset((None,))
            east, north = (x + .5 - half) * reach / half, (half - y - .5) * reach / half
            azimuth, distance = math.degrees(math.atan2(east, north)), math.hypot(east, north)
            return frozenset(fields.get((math.floor((azimuth + turn) % 360), math.floor((distance + move) / 1000)))
                             for turn, move in ((0, 0), (.05, 0), (-.05, 0), (0, 1), (0, -1)))

        drawn = dict.fromkeys((7, 8, 10), 0)
        for y in range(2 * half):
            for x in range(2 * half):
                place = (40 + y) * size + x
                mine, beside = owners(x, y), [owners(x + right, y + down) for right, down in ((1, 0), (-1, 0), (0, 1), (0, -1))]
                if outlined.pixels[place] == picture.PLAN:
                    self.assertTrue(mine - {None} and any(one | mine != {number} for one in beside for number in mine), (x, y))
                    drawn[next(iter(mine - {None}))] += 1
                else:
                    self.assertEqual(outlined.pixels[place], plain.pixels[place])
                    self.assertTrue(None in mine or len(mine) > 1 or all(one & mine for one in beside), (x, y))
        self.assertGreater(min(drawn.values()), 20)

    def test_plans_that_leave_the_picture(self):
        for name, text, words in (("DPRLOT", "field 3\nstrip 360 0 1 1", "field 3 of plan has a strip outside the picture: radial 360, gate 0, gates 1"),
                                  ("DPRLOT", "field 3\nstrip 0 239 2 1", "radial 0, gate 239, gates 2"),
                                  ("N0QLOT.clear", "field 3\nstrip 0 0 1 1", "clear scan")):
            with self.assertRaises(yasgulet.Level3Error) as caught:
                picture.draw(read(name), plan=parse_plan(text))
            self.assertIn(words, str(caught.exception))
        picture.draw(read("N0QLOT.clear"), size=240, plan=parse_plan("field 3"))

    def test_sizes_and_bad_options(self):
        sweep = reader().sweep(files()["N0QLOT.small"], gate=1000)
        for size in (picture.SMALLEST, 401, 1200):
            self.assertEqual(pixels(picture.draw(sweep, size=size).png())[:2], (size, size))
        for options in ({"size": 10}, {"size": 100_000}, {"reach": -1.0}, {"reach": math.nan}):
            with self.assertRaises(ValueError):
                picture.draw(sweep, **options)

    def test_any_gate_figures_of_packet_28(self):
        for gate, first in ((1000.0, 500.0), (1000.0, 5500.0), (1000.0, -3000.0), (0.0, 0.0), (-5.0, 1.0), (math.nan, 1.0), (1.0, math.nan), (math.inf, 0.0),
                            (1e-30, 0.0), (1e30, 0.0), (1.0, 1e30)):
            data = samples.product_file("DPR", 176, samples.floats(1000.0, 0.0, 65535, 1, 0), samples.body28([[1, 2, 3]] * 36, gate, first))
            sweep = reader().sweep(data)
            try:
                picture.draw(sweep, size=240)
            except yasgulet.Level3Error as error:
                self.assertIn("gate", str(error))
            if abs(first) < 10_000 and gate == 1000.0:
                picture.draw(sweep, size=240)

    def test_a_failed_write_leaves_nothing(self):
        sweep = reader().sweep(files()["N0QLOT.small"], gate=1000)
        with self.assertRaises(ValueError):
            sweep.save_png(self.path("x.png"), size=1)
        with self.assertRaises(OSError):
            sweep.save_png(self.path("no/such/x.png"))
        self.assertEqual(os.listdir(self.folder), [])
        sweep.save_png(self.path("x.png"), size=240)
        self.assertEqual(os.listdir(self.folder), ["x.png"])


class Nearest(unittest.TestCase):
    def test_whole_circle(self):
        found = picture.nearest([i + .5 for i in range(360)])
        self.assertEqual(found, [slot // 20 for slot in range(7200)])

    def test_across_north(self):
        found = picture.nearest([(i + .3) % 360 for i in range(-1, 359)])
        self.assertEqual((found[0], found[-1], found[-10]), (1, 1, 0))

    def test_missing_sector(self):
        found = picture.nearest([i + .5 for i in range(90)])
        self.assertEqual(found[:1800], [slot // 20 for slot in range(1800)])
        self.assertEqual(set(found[1810:7190]), {-1})

    def test_odd_azimuths(self):
        self.assertEqual(set(picture.nearest([])), {-1})
        self.assertEqual(set(picture.nearest([math.nan])), {-1})
        self.assertEqual(picture.nearest([-10.0]).count(0), 20)
        self.assertEqual(picture.nearest([5.0, 5.0, math.nan]).count(-1), 7200)


class Pieces(unittest.TestCase):
    def test_letters(self):
        for name, rows in LETTERS.items():
            self.assertEqual([len(row) for row in rows], [WIDTH] * HEIGHT, name)
        self.assertTrue(set("ABCXYZabcxyz0123456789 .,:-/()\xb0") <= set(LETTERS))

    def test_words_outside_the_picture(self):
        canvas = Canvas(20, 10, ((0, 0, 0), (9, 9, 9)))
        canvas.text(-3, -3, "W\u1234W", 1)
        canvas.text(15, 5, "WWW", 1)
        canvas.box(-5, -5, 100, 7, 1)
        canvas.circle(10, 5, 40, 1)
        self.assertEqual(len(canvas.pixels), 200)

    def test_scales(self):
        for moment, scale in SCALES.items():
            self.assertEqual(list(scale.bounds), sorted(set(scale.bounds)), moment)
            self.assertEqual(len(scale.bounds), len(scale.colours), moment)
            self.assertEqual(scale.step(scale.bounds[0]), 0)
            self.assertEqual(scale.step(1e9), len(scale.bounds) - 1)
        self.assertEqual(SCALES["DBZH"].step(-1000), -1)
        self.assertEqual(len(scale_for("", [1.0, 5.0, math.nan]).bounds), 16)
        scale_for("", [])
        scale_for("", [math.inf, math.nan])

    def test_rings(self):
        for km, step in ((460, 100), (230, 50), (75, 20), (1, .2), (10, 2), (300, 100), (299, 50)):
            self.assertEqual(picture.ring_step(km * 1000.0), step * 1000.0, km)


if __name__ == "__main__":
    if sys.argv[1:] == ["--store"]:
        os.makedirs(STORED, exist_ok=True)
        for one in NAMES:
            with open(os.path.join(STORED, one + ".png"), "wb") as out:
                out.write(draw(one))
    else:
        unittest.main()
