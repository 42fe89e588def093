"""The worked examples of README.md: each is run and prints what stands below it; and their figures, worked out from the generator's rows."""
import importlib.util
import math
import os
import random
import re
import shutil
import subprocess
import sys
from typing import Dict, List, Tuple

from common import ROOT, Folder, environment, files, large, made, samples, unittest
from test_picture import check_picture, pixels

PACKAGE = os.path.join(ROOT, "hosts", "python")
SAMPLES = os.path.join(PACKAGE, "samples")


def text() -> str:
    """The page."""
    with open(os.path.join(PACKAGE, "README.md")) as file:
        return file.read()


def examples() -> List[Tuple[str, str]]:
    """Each command with what it prints."""
    found: List[Tuple[str, str]] = []
    going = False
    for line in text().splitlines():
        if line.startswith("    $ "):
            found.append((line[6:], ""))
            going = True
        elif going and line.startswith("    "):
            found[-1] = found[-1][0], found[-1][1] + line[4:] + "\n"
        else:
            going = False
    return found


def printed(start: str) -> str:
    """What the example that starts so prints."""
    return next(out for command, out in examples() if command.startswith("python3 -m yasgulet " + start))


def figures(out: str) -> Dict[str, str]:
    """The figures that `show` prints, by their names."""
    return dict(re.findall(r"^([a-z ]*[a-z]) {2,}(\S+)", out, re.M))


class Examples(Folder):
    def test_each_prints_what_stands_below_it(self):
        copy = self.path("samples")
        shutil.copytree(SAMPLES, copy)
        shutil.copytree(os.path.join(PACKAGE, "orchard"), os.path.join(copy, "orchard"))
        commands = {word for command, _ in examples() for word in re.findall(r"yasgulet (\w+)", command)}
        self.assertEqual(commands, {"show", "png", "csv", "export", "check", "merge", "account", "plan"})
        for command, expected in examples():
            end = subprocess.run(command, shell=True, cwd=copy, env=environment(), stdout=subprocess.PIPE, stderr=subprocess.STDOUT, text=True, timeout=120)
            self.assertEqual(end.stdout, expected, command)
        reach = 100_000.0
        with open(os.path.join(copy, "n0b.png"), "rb") as file:
            check_picture(self, pixels(file.read()), large_rows(), .25, (), "DBZH", lambda code: -32 + (code - 2) / 2 if code > 1 else None, reach, 480)
        self.assertEqual(len(os.listdir(os.path.join(copy, "pictures"))), 3)

    def test_first_picture(self):
        """One command at the top of the repository, as it stands on the page."""
        command = re.search(r"^    (make && .*)$", text(), re.M)[1]
        picture = os.path.join(ROOT, re.search(r"-o (\S+)", command)[1])
        if os.path.exists(picture):
            os.unlink(picture)
        with open(os.path.join(ROOT, "README.md")) as file:
            self.assertIn("    " + command + "\n", file.read())
        end = subprocess.run(command, shell=True, cwd=ROOT, env=environment(), capture_output=True, text=True, timeout=120)
        self.assertEqual((end.returncode, end.stderr), (0, ""))
        with open(picture, "rb") as png:
            check_picture(self, pixels(png.read()), large_rows(), .25, (), "DBZH", lambda code: -32 + (code - 2) / 2 if code > 1 else None, 460_000.0, 800)
        os.unlink(picture)

    def test_first_picture_from_python(self):
        """The three lines, where `hosts` is."""
        lines = re.search(r"^From Python:\n\n((?:    .*\n)+)", text(), re.M)[1]
        self.assertEqual(lines.count("\n"), 3)
        os.symlink(os.path.join(ROOT, "hosts"), self.path("hosts"))
        end = subprocess.run([sys.executable, "-c", re.sub("^    ", "", lines, flags=re.M)], cwd=self.folder, env=environment(), capture_output=True, text=True)
        self.assertEqual((end.returncode, end.stderr), (0, ""))
        check_picture(self, pixels(self.get("n0b.png")), large_rows(), .25, (), "DBZH", lambda code: -32 + (code - 2) / 2 if code > 1 else None, 460_000.0, 800)

    def test_folder(self):
        """The example that maps a function over a folder."""
        shutil.copytree(SAMPLES, self.path("in"))
        self.put("in/bad", b"")
        engines = ["processes"]
        if importlib.util.find_spec("dask"):
            engines.append("dask")
        for engine in engines:
            end = subprocess.run([sys.executable, os.path.join(PACKAGE, "examples", "folder.py"), self.path("in"), engine], env=environment(),
                                 capture_output=True, text=True, timeout=120)
            self.assertEqual((end.returncode, end.stderr), (0, ""))
            lines = end.stdout.splitlines()
            name, value, unit, azimuth, away = lines[0].split()
            east, north = samples.STORMS[0][:2]
            best = max(((row[k], i, k) for i, row in enumerate(large_rows()) for k in range(len(row))), key=lambda cell: cell[0])
            self.assertEqual((name, float(value), unit), ("N0BLOT", (best[0] - 66) / 2, "dBZ"))
            self.assertEqual((float(azimuth), float(away)), (round((best[1] + .5) / 2, 2), round((best[2] + .5) / 4, 2)))
            self.assertAlmostEqual(float(azimuth), math.degrees(math.atan2(east, north)), delta=5)
            self.assertAlmostEqual(float(away), math.hypot(east, north), delta=8)
            self.assertEqual(lines[5], "bad the file is empty")
            self.assertRegex(lines[6], r"^6 files: one worker [\d.]+ s, two workers [\d.]+ s, ratio [\d.]+$")

    def test_samples_are_the_generator_s(self):
        for name in os.listdir(SAMPLES):
            with open(os.path.join(SAMPLES, name), "rb") as file:
                stored, data = file.read(), large() if name == "N0BLOT" else files()[name]
            self.assertEqual(samples.body_of(stored), samples.body_of(data), name)
            self.assertEqual(stored[:stored.index(b"BZh")], data[:data.index(b"BZh")], name)


def large_rows() -> samples.Rows:
    """The rows of the large sample."""
    return samples.light(samples.reflectivity(720, 1840, .25, random.Random(5)), 0)


class Figures(unittest.TestCase):
    def test_show(self):
        cells = [code for row in large_rows() for code in row]
        some = [code for code in cells if code > 1]
        shown = figures(printed("show N0BLOT"))
        expected = {"cells": len(cells), "with a value": len(some), "below floor": cells.count(0), "range folded": cells.count(1), "radials": 720,
                    "bins": 1840, "smallest value": (min(some) - 66) / 2, "largest value": (max(some) - 66) / 2, "gate length": 250, "vcp": samples.VCP,
                    "height": samples.HEIGHT, "latitude": samples.LATITUDE / 1000, "longitude": samples.LONGITUDE / 1000, "product code": 153,
                    "elevation": samples.ELEVATION / 10, "packet": 16}
        self.assertEqual({name: float(shown[name]) for name in expected}, expected)

    def test_table(self):
        rows = large_rows()
        first = [(r, k) for r, row in enumerate(rows) for k, code in enumerate(row) if code > 1][:2]
        lines = printed("csv N0BLOT").splitlines()[1:]
        for (radial, k), line in zip(first, lines):
            self.at(line, radial, k, .25, 720)
            self.assertEqual(line.split(",")[6:], [str(rows[radial][k]), "%g" % ((rows[radial][k] - 66) / 2), ""])
        gaps = dict(examples())['grep "^52,22[89]," N0RLOT.gaps.csv'].splitlines()
        for k, line in zip((228, 229), gaps):
            self.at(line, 52, k, 1.0, 360)
            self.assertEqual(line.split(",")[6:], ["0", "", "gap"])
        self.assertEqual((len(lines), len(gaps)), (2, 2))

    def at(self, line: str, radial: int, k: int, gate: float, radials: int) -> None:
        """Holds a line's place to the way back: azimuth and distance from the radar to it, by vectors."""
        words = line.split(",")
        self.assertEqual((int(words[0]), int(words[1]), float(words[2]), float(words[3])), (radial, k, (radial + .5) * 360 / radials, (k + .5) * gate * 1000))

        def vector(latitude: float, longitude: float) -> Tuple[float, float, float]:
            a, b = math.radians(latitude), math.radians(longitude)
            return math.cos(a) * math.cos(b), math.cos(a) * math.sin(b), math.sin(a)
        here = vector(samples.LATITUDE / 1000, samples.LONGITUDE / 1000)
        north = vector(samples.LATITUDE / 1000 + 90, samples.LONGITUDE / 1000)
        east = vector(0, samples.LONGITUDE / 1000 + 90)
        there = vector(float(words[4]), float(words[5]))
        x, y, z = (sum(a * b for a, b in zip(there, one)) for one in (east, north, here))
        # 4/3 earth by the law of cosines; the elevation is half a degree
        radius, slant = 6_371_000 * 4 / 3, float(words[3])
        away = radius + samples.HEIGHT * .3048
        up = math.sqrt(away ** 2 + slant ** 2 + 2 * away * slant * math.sin(math.radians(.5)))
        ground = radius * math.asin(slant * math.cos(math.radians(.5)) / up)
        self.assertAlmostEqual(math.atan2(math.hypot(x, y), z) * 6_371_000, ground, delta=2)  # five decimals of a degree
        self.assertAlmostEqual(math.degrees(math.atan2(x, y)) % 360, float(words[2]), delta=math.degrees(2 / slant))

    def test_gaps_and_surplus(self):
        first, second = made("N0RLOT.gaps"), made("N0RLOT.second")
        self.assertIn("radial %d, expanded 0, bins 230" % min(first.gaps), printed("show N0RLOT.gaps"))
        merged = printed("merge")
        self.assertIn("%d radials; %d in the first, %d in the second" % (len(set(first.gaps) & set(second.gaps)), len(first.gaps), len(second.gaps)), merged)
        codes = {code for row in first.rows for code in row if code}
        self.assertEqual(figures(merged), {"smallest value": str(5 * min(codes)), "largest value": str(5 * max(codes)), "gaps": "0"})
        self.assertRegex(printed("check"), r"N0RLOT.surplus: 45 .*: radial 30\n3 files, 1 bad\n$")
        self.assertIn("wrote N0RLOT.gaps.csv, %d cells" % (360 * 230), printed("csv N0RLOT.gaps"))

    def test_export(self):
        codes = [code for row in made("N0VLOT").rows for code in row if code]  # as classes, of which 0 has no value
        self.assertEqual(figures(printed("show N0VLOT.packet16 --scheme class")),
                         {"packet": "16", "with a value": str(len(codes)), "smallest value": str(min(codes)), "largest value": str(max(codes))})


if __name__ == "__main__":
    unittest.main()
