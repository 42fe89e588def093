"""Sweeps: storms at their places, values by the scales, reasons, gaps, and the library's other answers."""
import math
import os
import pickle
import struct
import subprocess
import sys
import tempfile
import threading
import warnings
from typing import Dict
from unittest import mock

import facts
from common import CLOCK, Library, default, environment, files, large, made, older, read, reader, samples, unittest, yasgulet
from yasgulet import Reason, Scheme, storage


def single(x):
    return struct.unpack("f", struct.pack("f", x))[0]


class Picture(unittest.TestCase):
    def cell(self, sweep, east, north, gate):
        """Radial and bin of a place in km."""
        azimuth = math.degrees(math.atan2(east, north)) % 360
        return int(azimuth / 360 * sweep.radials), int(math.hypot(east, north) / gate)

    def test_storms_are_where_they_were_put(self):
        for name, gate in (("N0RLOT", 1.0), ("N0QLOT", 1.0)):
            sweep = read(name)
            for east, north, peak, _ in samples.STORMS:
                radial, k = self.cell(sweep, east, north, gate)
                self.assertAlmostEqual(sweep.values[radial, k], peak, delta=6, msg=name)
            self.assertEqual(sweep.reason(*self.cell(sweep, -60, -60, gate)), Reason.FLAGGED if name == "N0RLOT" else Reason.BELOW_FLOOR)

    def test_large(self):
        sweep = reader().sweep(large())
        self.assertEqual((sweep.radials, sweep.bins, sweep.packet), (720, 1840, 16))
        radial, k = self.cell(sweep, *samples.STORMS[0][:2], .25)
        self.assertAlmostEqual(sweep.values[radial, k], 62, delta=6)

    def test_azimuths(self):
        self.assertEqual([round(a, 3) for a in list(read("N0QLOT").azimuths)[:3]], [0.5, 1.5, 2.5])

    def test_halfword_values(self):
        sweep = read("N0QLOT")
        for code in (2, 3, 100, 255):
            self.assertEqual(sweep.code_values[code], -32 + (code - 2) * .5)
        self.assertEqual([sweep.code_reasons[c] for c in (0, 1, 2)], [Reason.BELOW_FLOOR, Reason.RANGE_FOLDED, Reason.VALUE])
        self.assertEqual((sweep.minimum, sweep.step, sweep.floor, sweep.levels), (-32.0, 0.5, 2, 254))

    def test_values_are_those_of_the_codes(self):
        for name in files():
            with self.subTest(name):
                sweep = read(name, gaps=True)
                gaps = set(sweep.gap_radials)
                self.assertEqual(gaps, set(made(name).gaps))
                self.assertEqual([[0] * sweep.bins if r in gaps else list(row) for r, row in enumerate(made(name).rows)],
                                 [sweep._codes[r * sweep.bins:(r + 1) * sweep.bins].tolist() for r in range(sweep.radials)])
                values, codes = sweep._values.tolist(), sweep._codes.tolist()
                for i in range(0, len(codes), 7):
                    expected = math.nan if i // sweep.bins in gaps else sweep.code_values[codes[i]]
                    self.assertTrue(values[i] == expected or values[i] != values[i] and expected != expected)

    def test_reason_of_each_cell(self):
        for name in files():
            with self.subTest(name):
                sweep = read(name, gaps=True)
                values, reasons = sweep._values.tolist(), bytes(sweep.reasons)
                self.assertEqual(len(values), len(reasons))
                self.assertTrue(all((v == v) == (r == Reason.VALUE) for v, r in zip(values, reasons)))
                self.assertEqual(sum(sweep.code_counts().values()), len(values) - sweep.bins * len(sweep.gap_radials))
                if len(values):
                    last = sweep.radials - 1, sweep.bins - 1
                    self.assertEqual(sweep.reason(*last), reasons[-1])
                    self.assertEqual(sweep.reasons[last], reasons[-1])

    def test_kinds_of_reasons(self):
        expected = {"N0VLOT": {Reason.VALUE, Reason.FLAGGED, Reason.RANGE_FOLDED}, "N0XLOT": {Reason.VALUE, Reason.BELOW_FLOOR, Reason.RANGE_FOLDED},
                    "DAALOT": {Reason.VALUE, Reason.BELOW_FLOOR, Reason.ABOVE_CEILING}, "DPRLOT": {Reason.VALUE, Reason.BELOW_FLOOR},
                    "N0HLOT": {Reason.VALUE, Reason.BELOW_FLOOR}, "N0RLOT.gaps": {Reason.VALUE, Reason.FLAGGED, Reason.GAP},
                    "DPRLOT.gaps": {Reason.VALUE, Reason.BELOW_FLOOR, Reason.GAP}}
        for name, kinds in expected.items():
            self.assertEqual(set(bytes(read(name, gaps=True).reasons)), set(map(int, kinds)), name)

    def test_precipitation(self):
        sweep = read("DAALOT")
        self.assertEqual((sweep.floor, sweep.ceiling), (1, 254))
        self.assertAlmostEqual(sweep.code_values[10], 10 * .127, 5)
        self.assertEqual(sweep.code_reasons[255], Reason.ABOVE_CEILING)
        rate = read("DPRLOT")
        self.assertEqual((rate.packet, rate.gate, rate.first_gate), (28, 1000.0, 500.0))
        self.assertAlmostEqual(rate.values[self.cell(rate, *samples.STORMS[0][:2], 1.0)], samples.rate(53.13, 75), delta=40)

    def test_legacy(self):
        sweep = read("N0VLOT")
        self.assertAlmostEqual(sweep.code_values[1], -64 * .514444, 4)
        self.assertEqual(sweep.code_reasons[15], Reason.RANGE_FOLDED)
        threshold = samples.thresholds(["TH", "ND", "RF"] + [1] * 13)
        sweep = reader().sweep(samples.product_file("N0R", 19, threshold, samples.body_af1f([[0, 1, 2, 3]], 999)))
        self.assertEqual([sweep.reason(0, k) for k in range(4)], [Reason.BELOW_FLOOR, Reason.FLAGGED, Reason.RANGE_FOLDED, Reason.VALUE])

    def test_wide_codes(self):
        sweep = read("DPRLOT")
        self.assertGreater(max(sweep._codes), 255)
        self.assertEqual(len(sweep.code_values), 65536)
        self.assertEqual(read("DPRLOT.small")._narrow, True)

    def test_gaps(self):
        sweep = read("N0RLOT.gaps", gaps=True)
        self.assertEqual(sweep.gap_radials, tuple(range(50, 58)))
        whole = read("N0RLOT")
        for radial in range(360):
            same = bytes(sweep._codes[radial * 230:(radial + 1) * 230]) == bytes(whole._codes[radial * 230:(radial + 1) * 230])
            self.assertEqual(same, radial not in range(50, 58) or not any(whole._codes[radial * 230:(radial + 1) * 230]))
        self.assertEqual(list(sweep.gaps), [int(50 <= r < 58) for r in range(360)])

    def test_clear_scan(self):
        sweep = read("N0QLOT.clear")
        self.assertTrue(sweep.clear)
        self.assertEqual((len(sweep.values), len(sweep.azimuths), bytes(sweep.reasons), sweep.code_counts()), (0, 0, b"", {}))
        with self.assertRaises(IndexError):
            sweep.reason(0, 0)

    def test_head(self):
        sweep = read("N0VLOT")
        self.assertEqual((sweep.product, sweep.site, sweep.code, sweep.vcp, sweep.days, sweep.seconds), ("N0V", "LOT", 27, 215, 20594, 80077))
        self.assertEqual((sweep.latitude_thousandths, sweep.longitude_thousandths, sweep.height_feet, sweep.elevation_tenths), (41604, -88085, 663, 5))
        self.assertEqual((sweep.latitude, sweep.longitude, sweep.elevation), (41.604, -88.085, 0.5))
        self.assertEqual(sweep.when.isoformat(), "2026-05-20T22:14:37+00:00")
        self.assertEqual(sweep.date, (2026, 5, 20))

    def test_without_numpy(self):
        with tempfile.TemporaryDirectory() as folder:
            with open(os.path.join(folder, "numpy.py"), "w") as file:
                file.write("raise ImportError('not there')\n")
            with open(os.path.join(folder, "file"), "wb") as file:
                file.write(files()["N0QLOT.small"])
            words = "import yasgulet, sys; s = yasgulet.read(sys.argv[1], clock=%d); print(type(s.values).__name__, s.codes[5, 3])" % CLOCK
            end = subprocess.run([sys.executable, "-c", words, os.path.join(folder, "file")], capture_output=True, text=True,
                                 env=dict(environment(), PYTHONPATH=os.pathsep.join([folder] + sys.path)))
        self.assertEqual(end.stdout, "memoryview 15\n", end.stderr)

    def test_pickle(self):
        for name in ("N0RLOT.gaps", "N0QLOT.clear", "DPRLOT"):
            sweep = read(name, gaps=True)
            again = pickle.loads(pickle.dumps(sweep))
            self.assertEqual(bytes(again._values), bytes(sweep._values))
            self.assertEqual((again.gap_radials, again.code_reasons, again.time), (sweep.gap_radials, sweep.code_reasons, sweep.time))

    def test_storage_is_lent_again_when_nobody_holds_it(self):
        for huge in (storage._HUGE, 1 << 40):  # with huge pages and without, with numpy where it is there and without
            for modules in ({}, {"numpy": None}):
                with mock.patch.object(storage, "_HUGE", huge), mock.patch.dict(sys.modules, modules):
                    self.lent_again()

    def lent_again(self):
        """Storage that somebody still holds is not lent to another, whoever holds it and whatever it is of."""
        lend = storage.lend
        storage._pieces.clear()
        first = lend(1 << 20, "H")
        first[5] = 7
        second = lend(1 << 20, "H")
        second[5] = 9
        self.assertEqual((first[5], second[5]), (7, 9))
        part = first[:10]
        del first
        third = lend(1 << 20, "H")
        third[5] = 11
        self.assertEqual((part[5], second[5]), (7, 9))
        del part
        fourth = lend(1 << 20, "H")
        fourth[5] = 13
        self.assertEqual((second[5], third[5]), (9, 11))
        kept = [reader().sweep(large()) for _ in range(6)]
        parts = [sweep.values for sweep in kept]
        expected = bytes(kept[0]._values)
        del kept
        reader().sweep(samples.product_file("N0B", 153, samples.halfword(-320, 5), samples.body16([[9] * 1840] * 720, 999)))
        self.assertTrue(all(bytes(part) == expected for part in parts))

    def test_threads(self):
        one = reader()
        names = [n for n in files() if not n.endswith("gaps") and n != "N0RLOT.second"] * 3
        expected = {n: bytes(read(n)._values) for n in set(names)}
        wrong = []

        def work():
            for name in names:
                if bytes(one.sweep(files()[name])._values) != expected[name]:
                    wrong.append(name)
        threads = [threading.Thread(target=work) for _ in range(2)]
        [t.start() for t in threads]
        [t.join() for t in threads]
        self.assertEqual(wrong, [])



class Arrays(unittest.TestCase):
    """Arrays as memoryviews and, where numpy is there, as numpy's: the same shapes and numbers, and nothing copied."""

    def arrays(self, kind: str, forms: Dict[str, str]) -> None:
        for name in ("N0QLOT.small", "N0RLOT.gaps", "DPRLOT", "N0QLOT.clear"):
            sweep = read(name, gaps=True)
            cells = (sweep.radials, sweep.bins)
            for part, form, shape, under in (("azimuths", "d", cells[:1], sweep._azimuths), ("gaps", "B", cells[:1], sweep._marks),
                                             ("codes", "H", cells, sweep._codes), ("values", "f", cells, sweep._values), ("reasons", "B", cells, None)):
                with self.subTest(name + " " + part):
                    array = getattr(sweep, part)
                    self.assertIs(getattr(sweep, part), array)
                    self.assertEqual((type(array).__name__, str(getattr(array, "dtype", None) or array.format)), (kind, forms[form]))
                    if sweep.radials:
                        self.assertEqual(tuple(array.shape), shape)
                        last = tuple(n - 1 for n in shape)
                        flat = memoryview(array).cast("B").cast(form)
                        self.assertEqual(struct.pack(form, array[last]), struct.pack(form, flat[-1]))
                    self.assertEqual(len(array), sweep.radials)
                    if under is not None:
                        self.assertEqual(bytes(array), bytes(under))
                    if under is not None and len(under) and not under.readonly:
                        under[len(under) - 1] = 3
                        self.assertEqual(array[last], 3)
        self.assertEqual(int(read("N0QLOT.small").codes[5, 3]), 15)

    def test_memoryviews(self):
        with mock.patch.dict(sys.modules, {"numpy": None}):
            self.arrays("memoryview", {form: form for form in "dHfB"})

    def test_numpy(self):
        try:
            import numpy  # noqa: F401
        except ImportError:
            self.skipTest("numpy is not installed, so its path was not run")
        self.arrays("ndarray", {"d": "float64", "H": "uint16", "f": "float32", "B": "uint8"})


class ProductTable(unittest.TestCase):
    def test_rows(self):
        from yasgulet.products import product_of
        for code in (*range(-300, 300), -32768, 32767):
            row, expected = product_of(default(), code), facts.PRODUCTS.get(code)
            self.assertEqual(row is None, expected is None, code)
            self.assertEqual(default().function("l3_known")(code), int(expected is not None), code)
            if row and expected:
                self.assertEqual((row.scheme.name.lower(), row.parameter, row.moment, row.gate, row.has_elevation),
                                 (expected.scheme, expected.parameter, expected.moment, expected.gate, expected.elevation), code)
                self.assertEqual(row.unit or ("class" if row.moment == "HCLASS" else "ratio"), expected.unit, code)

    def test_gate_lengths(self):
        for name in files():
            sweep = read(name, gaps=True)
            self.assertEqual((sweep.moment, sweep.gate, sweep.notes), (facts.PRODUCTS[sweep.code].moment, made(name).gate * 1000, ()), name)

    def test_another_scheme_is_told(self):
        for given in ("legacy:1", (Scheme.LEGACY, 1.0)):
            with warnings.catch_warnings(record=True) as caught:
                warnings.simplefilter("always")
                sweep = reader().sweep(files()["N0VLOT"], given)
            self.assertEqual([w.category for w in caught], [yasgulet.SchemeWarning])
            self.assertIn("legacy:0.514444", str(caught[0].message))
            self.assertEqual(len(sweep.notes), 1)
            self.assertEqual(sweep.code_values[1], -64.0)
            self.assertEqual((sweep.moment, sweep.unit, read("N0VLOT").unit), ("VRADH", "", "m/s"))
        with warnings.catch_warnings():
            warnings.simplefilter("error")
            self.assertEqual(reader().sweep(files()["N0VLOT"], "legacy:0.514444").notes, ())

    def test_words_of_schemes(self):
        from yasgulet.products import parse_scheme, scheme_text
        for words in ("halfword", "float", "class", "precipitation:0.254", "legacy:25.4"):
            self.assertEqual(scheme_text(*parse_scheme(words)), words)
        for words in ("", "halfword:1", "legacy", "legacy:", "legacy:x", "other", "precipitation:1e99"):
            with self.assertRaises(ValueError):
                parse_scheme(words)


class OlderLibrary(unittest.TestCase):
    def test_entries_that_are_missing_are_named(self):
        with older("l3_product", "l3_strict", "l3_export16", "l3_merge", "l3_refusal_name", "l3_version") as library:
            one = reader(library=library)
            self.assertEqual((library.version(), library.refusal_name(1)), (None, None))
            for entry, call in {"l3_strict": lambda: one.strict(files()["N0QLOT.small"]), "l3_export16": lambda: one.export(files()["N0RLOT.small"]),
                                "l3_merge": lambda: one.merge(files()["N0RLOT.small"], files()["N0RLOT.small"])}.items():
                with self.assertRaises(yasgulet.NotInLibrary) as caught:
                    call()
                self.assertIn(entry, str(caught.exception))

    def test_without_a_table_scheme_and_gate_must_be_given(self):
        with older("l3_product") as library:
            one = reader(library=library)
            with self.assertRaises(yasgulet.NotInLibrary) as caught:
                one.sweep(files()["N0VLOT"])
            self.assertIn("l3_product", str(caught.exception))
            sweep = one.sweep(files()["N0VLOT"], "legacy:0.514444")
            self.assertIn("no product table", sweep.notes[0])
            with tempfile.TemporaryDirectory() as folder:
                for save in (sweep.save_png, sweep.save_csv):
                    with self.assertRaises(yasgulet.Level3Error) as missing:
                        save(os.path.join(folder, "x"))
                    self.assertIn("gate length is not known", str(missing.exception))
                self.assertEqual(os.listdir(folder), [])
            self.assertEqual(one.sweep(files()["N0VLOT"], "legacy:0.514444", gate=1000).gate, 1000)

    def test_other_major_version(self):
        with tempfile.TemporaryDirectory() as folder:
            path = os.path.join(folder, "library.so")
            source = "unsigned l3_sweep(void) { return 0; } unsigned l3_version(void) { return 50001; }"
            subprocess.run(["cc", "-shared", "-fPIC", "-x", "c", "-", "-o", path], input=source, text=True, check=True)
            with self.assertRaises(yasgulet.NotInLibrary) as caught:
                Library(path)
            self.assertIn("version 5.0.1", str(caught.exception))


class Others(unittest.TestCase):
    def test_strict(self):
        for name in ("N0RLOT", "N0QLOT", "DAALOT", "DPRLOT", "N0QLOT.clear"):
            self.assertEqual(bytes(reader().strict(files()[name])._values), bytes(read(name)._values))
        for name, number, values in (("N0RLOT.surplus", 45, {"radial": 30}), ("N0QLOT.stray", 46, {})):
            self.assertEqual(bytes(read(name)._codes), b"".join(struct.pack("=%dH" % len(row), *row) for row in made(name).rows))
            with self.assertRaises(yasgulet.Refused) as caught:
                reader().strict(files()[name])
            self.assertEqual((caught.exception.number, caught.exception.values), (number, values))

    def test_merge(self):
        sweep = reader().merge(files()["N0RLOT.gaps"], files()["N0RLOT.second"])
        self.assertEqual(sweep.gap_radials, ())
        self.assertEqual(bytes(sweep._codes), bytes(read("N0RLOT")._codes))
        self.assertEqual(reader().merge(files()["N0RLOT.gaps"], files()["N0RLOT.gaps"]).gap_radials, tuple(range(50, 58)))
        with self.assertRaises(yasgulet.BadFile):
            reader().merge(files()["N0RLOT.gaps"], files()["N0VLOT"])
        other = samples.product_file("N0R", 19, samples.thresholds(samples.LEGACY_DBZ), samples.body_af1f([[1] * 230] * 360, 999))
        with self.assertRaises(yasgulet.Refused) as caught:
            reader().merge(files()["N0RLOT.gaps"], other)
        self.assertEqual((caught.exception.number, caught.exception.values), (44, {"radial": 0}))

    def test_export(self):
        again = reader().open(reader().export_file(files()["N0VLOT"]))
        self.assertEqual(again.body, reader().export(files()["N0VLOT"]))
        self.assertEqual(again.body, samples.body16(made("N0VLOT").rows, 999))
        with warnings.catch_warnings():
            warnings.simplefilter("ignore", yasgulet.SchemeWarning)
            sweep = reader().sweep(again, "class")
        self.assertEqual((sweep.packet, bytes(sweep._codes)), (16, bytes(read("N0VLOT")._codes)))
        with self.assertRaises(yasgulet.Refused) as caught:
            reader().export(files()["N0QLOT"])
        self.assertEqual((caught.exception.number, caught.exception.values), (14, {"code": 16}))
        self.assertIn("only packet AF1F is exported", str(caught.exception))

    def test_totals(self):
        plan = struct.pack(">BHH", 1, 2, 700) + struct.pack(">BHHHHH", 2, 8, 53, 60, 30, 2) + struct.pack(">BHH", 1, 2, 3)
        sweep, totals = reader().totals(files()["DAALOT"], plan)
        codes = sweep._codes[53 * 230 + 60:53 * 230 + 90].tolist()
        self.assertEqual(totals, [sum(2 * (c - 1) for c in codes if 1 <= c <= 254), 0])
        with self.assertRaises(yasgulet.Refused) as caught:
            reader().totals(files()["DAALOT"], plan + b"\x09")
        self.assertEqual((caught.exception.number, caught.exception.values), (37, {"offset": len(plan)}))
        self.assertEqual(reader().totals(files()["DAALOT"], b"").totals, [])

    def test_charge(self):
        self.assertEqual(reader().charge(2500, [1000, 1 << 40], [3, 5]), (10, 500))
        with self.assertRaises(ValueError):
            reader().charge(-1, [1 << 40], [1])

    def test_date(self):
        self.assertEqual([reader().date(d) for d in (1, 20594, 65535)], [(1970, 1, 1), (2026, 5, 20), (2149, 6, 5)])

    def test_no_library(self):
        with self.assertRaises(yasgulet.NotInLibrary) as caught:
            Library("/nowhere/libyasgulet.so")
        self.assertIn("/nowhere/libyasgulet.so", str(caught.exception))


if __name__ == "__main__":
    unittest.main()
