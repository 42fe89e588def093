"""Tables of cells."""
import csv
import math

from common import Folder, files, read, reader, samples, unittest, yasgulet
from yasgulet.products import short
from yasgulet.table import ground_distance, place


class Places(unittest.TestCase):
    def test_due_north_and_east(self):
        latitude, longitude = place(41.604, -88.085, 0.0, 111_194.93)
        self.assertAlmostEqual(latitude, 42.604, 4)
        self.assertAlmostEqual(longitude, -88.085, 9)
        latitude, longitude = place(0.0, 179.5, 90.0, 111_194.93)
        self.assertAlmostEqual(latitude, 0.0, 9)
        self.assertAlmostEqual(longitude, -179.5, 4)

    def test_the_way_back(self):
        for azimuth in range(0, 360, 15):
            latitude, longitude = place(41.604, -88.085, azimuth, 200_000.0)
            a, b = math.radians(41.604), math.radians(latitude)
            arc = math.acos(math.sin(a) * math.sin(b) + math.cos(a) * math.cos(b) * math.cos(math.radians(longitude + 88.085)))
            self.assertAlmostEqual(arc * 6_371_000, 200_000, delta=1)

    def test_poles(self):
        for latitude in (90.0, -90.0):
            self.assertTrue(all(map(math.isfinite, place(latitude, 0.0, 45.0, 100_000.0))))

    def test_ground(self):
        self.assertAlmostEqual(ground_distance(0.0, 19.5), 0.0)
        self.assertLess(ground_distance(100_000, 19.5), 100_000 * math.cos(math.radians(19.5)))
        self.assertAlmostEqual(ground_distance(230_000, 0.5), 229_800, delta=400)


class Cells(Folder):
    def table(self, sweep, **options):
        count = sweep.save_csv(self.path("x.csv"), **options)
        with open(self.path("x.csv"), newline="") as file:
            rows = list(csv.DictReader(file))
        self.assertEqual(len(rows), count)
        return rows

    def test_cells_with_a_value(self):
        for name in ("N0QLOT", "N0VLOT", "DPRLOT", "N0HLOT"):
            sweep = read(name)
            rows = self.table(sweep)
            self.assertEqual(len(rows), sum(v == v for v in sweep._values.tolist()))
            for row in rows[::97]:
                cell = int(row["radial"]), int(row["bin"])
                self.assertEqual(int(row["code"]), sweep.codes[cell])
                self.assertEqual(float(row["value"]), float(short(sweep.values[cell])))
                self.assertAlmostEqual(float(row["azimuth"]), sweep.azimuths[cell[0]], 6)
                self.assertAlmostEqual(float(row["range_m"]), sweep.range_of(cell[1]), 3)

    def test_the_strongest_cell_is_at_the_strongest_storm(self):
        rows = self.table(read("N0QLOT"))
        best = max(rows, key=lambda row: float(row["value"]))
        east, north, _, radius = samples.STORMS[0]
        latitude, longitude = place(41.604, -88.085, math.degrees(math.atan2(east, north)), math.hypot(east, north) * 1000)
        self.assertAlmostEqual(float(best["latitude"]), latitude, delta=radius / 2 / 111)
        self.assertAlmostEqual(float(best["longitude"]), longitude, delta=radius / 2 / 80)

    def test_everything(self):
        sweep = read("N0RLOT.gaps", gaps=True)
        rows = self.table(sweep, everything=True)
        self.assertEqual(len(rows), 360 * 230)
        self.assertEqual({row["reason"] for row in rows}, {"", "flagged", "gap"})
        self.assertTrue(all(bool(row["value"]) == (row["reason"] == "") for row in rows))
        self.assertEqual([row["reason"] for row in rows if row["radial"] == "52"], ["gap"] * 230)

    def test_clear_scan(self):
        self.assertEqual(self.table(read("N0QLOT.clear")), [])

    def test_short_numbers(self):
        self.assertEqual([short(v) for v in (-32.0, 0.5, math.nan, math.inf, -math.inf, 0.0)], ["-32", "0.5", "", "inf", "-inf", "0"])
        self.assertEqual(short(yasgulet.products.single(0.1)), "0.1")
        self.assertEqual(short(yasgulet.products.single(16777217.0)), "16777216")


if __name__ == "__main__":
    unittest.main()
