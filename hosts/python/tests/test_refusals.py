"""The table of refusals and the exceptions."""
import re

from common import ROOT, default, files, reader, samples, unittest, yasgulet
from yasgulet.errors import REFUSALS, refused


class Table(unittest.TestCase):
    def test_is_the_readme_s(self):
        with open(ROOT + "/README.md") as file:
            rows = re.findall(r"^\| (\d+) \| (\w+) \| ([^|]*)\|", file.read(), re.M)
        self.assertEqual([int(number) for number, _, _ in rows], list(range(1, 47)))
        for number, name, values in rows:
            row = REFUSALS[int(number)]
            self.assertEqual(row.name, name)
            listed = [v for v in re.sub(r"\([^)]*\)", "", values).split(",") if v.strip()]
            if int(number) in (16, 33, 24, 25, 26, 30):  # numbers with thousands in them
                listed = [v for v in re.sub(r"\d,\d", "", values).split(",") if v.strip()]
            if int(number) == 13:
                listed.remove(" signed ")
            if int(number) == 14:
                listed.remove(" signed ")
            self.assertEqual(len(row.values), len(listed), (number, values))

    def test_is_the_library_s(self):
        self.assertEqual(sorted(REFUSALS), list(range(1, 47)))
        for number in range(-1, 120):
            row = REFUSALS.get(number)
            self.assertEqual(default().refusal_name(number & 0xFFFFFFFF), row and row.name)

    def test_number_outside_the_table(self):
        error = refused(77, [5] + [0] * 23, [0.5] + [0.0] * 7)
        self.assertEqual(error.number, 77)
        self.assertIn("77", str(error))
        self.assertEqual(refused(77, [5] + [0] * 23, [0.5] + [0.0] * 7, "NewName").name, "NewName")


class Exceptions(unittest.TestCase):
    def refusal(self, data, **options):
        with self.assertRaises(yasgulet.Refused) as caught:
            reader().sweep(data, **options)
        return caught.exception

    def test_number_name_and_values(self):
        error = self.refusal(files()["N0RLOT.gaps"])
        self.assertEqual((error.number, error.name), (22, "RleExpansionMismatch"))
        self.assertEqual(error.values, {"radial": 50, "expanded": 0, "bins": 230})
        self.assertIn("22 RleExpansionMismatch", str(error))
        self.assertIn("radial 50", str(error))

    def test_value_of_packet_28(self):
        error = self.refusal(files()["DPRLOT.gaps"])
        self.assertEqual((error.number, error.values), (34, {"radial": 77, "gate": 3, "value": 70000}))

    def test_float_value(self):
        body = bytearray(samples.body16([[2, 3]], 999))
        body[34:36] = (101).to_bytes(2, "big")
        error = self.refusal(samples.product_file("N0Q", 94, samples.halfword(-320, 5), bytes(body)))
        self.assertEqual(error.number, 20)
        self.assertEqual(error.values["radial"], 0)
        self.assertAlmostEqual(error.values["width"], 10.1, 5)

    def test_scheme_not_for_the_packet(self):
        import warnings
        with warnings.catch_warnings():
            warnings.simplefilter("ignore", yasgulet.SchemeWarning)
            self.assertEqual(self.refusal(files()["DPRLOT"], scheme="halfword").number, 10)

    def test_clock(self):
        with self.assertRaises(yasgulet.Refused) as caught:
            yasgulet.Reader(clock=samples.TIME - 100_000).sweep(files()["N0QLOT"])
        self.assertEqual((caught.exception.number, caught.exception.values), (5, {"seconds_ahead": 100_000}))

    def test_no_values(self):
        with self.assertRaises(yasgulet.Refused) as caught:
            reader().charge(1, [], [])
        self.assertEqual((caught.exception.number, caught.exception.values), (40, {}))
        with self.assertRaises(yasgulet.Refused) as caught:
            reader().date(0)
        self.assertEqual(caught.exception.values, {"days": 0, "seconds": 0})


if __name__ == "__main__":
    unittest.main()
