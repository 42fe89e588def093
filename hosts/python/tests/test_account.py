"""The rain book: totals, charges and sums are held to a plain count over the codes that the generator wrote."""
import bz2
import csv
import io
import os
import pty
import random
import re
import shutil
import subprocess
import sys
import textwrap
from array import array
from fractions import Fraction
from pathlib import Path
from typing import Any, Dict, List, NamedTuple, Optional, Sequence, Set, Tuple

import orchard
from common import HERE, ROOT, Folder, environment, files, made, older, reader, samples, unittest
from samples import Rows
from test_picture import VALUES, check_picture, pixels
from yasgulet import BadFile, Refused
from yasgulet.account import STEPS, Account, account
from yasgulet.forms import BadForm, Field, Plan, Strip, Tariff, check_plan, check_tariff, parse_plan, parse_tariff, read_plan, read_tariff
from yasgulet.rainbook import COLUMNS, decimal

LAST = 1 << 40
ORCHARD = os.path.join(os.path.dirname(HERE), "orchard")
PLAN, TARIFF = os.path.join(ORCHARD, "block.plan"), os.path.join(ORCHARD, "tariff")
EMPTY = dict.fromkeys(COLUMNS, "")


class Figures(NamedTuple):
    """What a field comes to."""

    total: Optional[int]
    cents: Optional[int]
    remainder: Optional[int]
    gaps: Tuple[int, ...] = ()


def charge(total: int, tariff: Tariff) -> Tuple[int, int]:
    """Cents and remainder, unit by band."""
    begin = product = 0
    for end, rate in zip(tariff.ends, tariff.rates):
        product += rate * max(0, min(total, end) - begin)
        begin = end
    return product // 1000, product % 1000


def count(rows: Rows, floor: int, ceiling: Optional[int], gaps: Set[int], field: Field, tariff: Tariff) -> Figures:
    """A field's figures, cell by cell."""
    total, touched = 0, set()
    for radial, gate, gates, weight in field.strips:
        touched |= {radial} & gaps
        for k in range(gate, gate + gates):
            code = rows[radial][k]
            if floor <= code and (ceiling is None or code <= ceiling):
                total += weight * (code - floor)
    if touched:
        return Figures(None, None, None, tuple(sorted(touched)))
    return Figures(total, None, None) if total > LAST else Figures(total, *charge(total, tariff))


def plan_with(fields: Sequence[Field]) -> Plan:
    """A plan of these fields, checked."""
    plan = parse_plan("".join("field %d\n%s" % (f.number, "".join("strip %d %d %d %d\n" % s for s in f.strips)) for f in fields))
    check_plan(reader(), plan)
    return plan


def some_plan(noise: random.Random, radials: int, bins: int) -> Plan:
    """A plan inside a picture; fields without strips and cells under two strips occur."""
    fields = []
    for number in noise.sample(range(65536), noise.randrange(1, 6)):
        strips = []
        for _ in range(noise.randrange(6)):
            gate = noise.randrange(bins)
            strips.append(Strip(noise.randrange(radials), gate, noise.randrange(1, bins - gate + 1), noise.choice((0, 1, 2, 10, 65535))))
        fields.append(Field(number, tuple(strips)))
    return plan_with(fields)


def some_tariff(noise: random.Random, most: int = 5000) -> Tariff:
    """A tariff with narrow bands."""
    ends = sorted(noise.sample(range(most), noise.randrange(8))) + [LAST]
    tariff = Tariff("tariff", tuple(ends), tuple(noise.choice((0, 1, 7, 999, 1000, 65535)) for _ in ends))
    check_tariff(reader(), tariff)
    return tariff


def rain_file(rows: Rows, scale: bytes, code: int = 170, **options: int) -> bytes:
    """An accumulation of packet 16."""
    return samples.product_file("DAA", code, scale, samples.body16(rows, 1000), elevation=0, **options)


def figures(one: Account) -> List[Figures]:
    """An account's fields."""
    return [Figures(f.total, f.charge and f.charge.cents, f.charge and f.charge.remainder, f.gaps) for f in one.fields]


class Exact(unittest.TestCase):
    def test_accumulations(self):
        """Packet 16, with all kinds of floors and ceilings."""
        noise = random.Random(21)
        for _ in range(120):
            radials, bins = noise.randrange(1, 9), noise.randrange(1, 12)
            largest, leading, trailing = noise.choice((0, 1, 3, 200, 255)), noise.randrange(10), noise.randrange(10)
            floor, ceiling = (leading, max(0, largest - trailing)) if leading <= 8 and trailing <= 8 and largest else (1, None)
            edges = [c for c in (0, floor - 1, floor, floor + 1, (ceiling or 0) - 1, ceiling or 0, (ceiling or 0) + 1, 255) if 0 <= c < 256]
            rows = [[noise.choice((noise.choice(edges), noise.randrange(256))) for _ in range(bins)] for _ in range(radials)]
            plan, tariff = some_plan(noise, radials, bins), some_tariff(noise)
            data = rain_file(rows, samples.floats(2.0, 0.0, largest, leading, trailing), packed=False)
            self.assertEqual(figures(account(reader(), [data], plan, tariff)), [count(rows, floor, ceiling, set(), f, tariff) for f in plan.fields])

    def test_rates_received_once_or_more_often(self):
        """Packet 28, with damaged radials: a row is there if it is whole in one of the receptions."""
        noise = random.Random(22)
        kinds = set()
        for _ in range(120):
            radials, bins = noise.randrange(1, 9), noise.randrange(1, 9)
            rows = [[noise.choice((0, 1, 2, noise.randrange(65536), 65534, 65535)) for _ in range(bins)] for _ in range(radials)]
            plan, tariff = some_plan(noise, radials, bins), some_tariff(noise)
            hit = [{r for r in range(radials) if noise.random() < .5} for _ in range(noise.randrange(1, 5))]
            one = account(reader(), [orchard.rate_file(rows, sorted(some)) for some in hit], plan, tariff)
            gaps = set.intersection(*hit)
            expected = [count(rows, 1, 65535, gaps, f, tariff) for f in plan.fields]
            self.assertEqual(figures(one), expected)
            kinds |= {(len(hit), bool(f.gaps), f.total is not None and f.total > LAST) for f in expected}
        self.assertTrue({(n, gap, False) for n in (1, 2, 3) for gap in (False, True)} <= kinds, kinds)

    def test_totals_of_any_picture(self):
        """The reader's call: as many totals as fields, of the codes that it is given."""
        noise = random.Random(23)
        head = rain_file([[1]], samples.floats(2.0, 0.0, 255, 2, 1))
        block = reader().open(head).block
        for _ in range(50):
            radials, bins = noise.randrange(1, 9), noise.randrange(1, 9)
            plan, rows = some_plan(noise, radials, bins), [[noise.randrange(300) for _ in range(bins)] for _ in range(radials)]
            codes = memoryview(array("H", [code for row in rows for code in row]))
            want = [count(rows, 2, 254, set(), field, Tariff("t", (LAST,), (0,))).total for field in plan.fields]
            self.assertEqual(reader().plan_totals(head, block, codes, radials, bins, plan.records), want)

    def test_accumulation_of_runs(self):
        """Packet AF1F has gaps too."""
        rows = [[1, 2, 15], [3, 3, 3], [4, 5, 6]]
        plan, tariff = plan_with([Field(k, (Strip(k, 0, 3, 7),)) for k in range(3)]), Tariff("t", (10, LAST), (1001, 999))
        data = samples.product_file("DAA", 170, samples.floats(2.0, 0.0, 255, 1, 1), samples.body_af1f(rows, 1000, damaged=[1]), elevation=0)
        self.assertEqual(figures(account(reader(), [data], plan, tariff)), [count(rows, 1, 254, {1}, f, tariff) for f in plan.fields])

    def test_totals_too_large(self):
        rows = [[65535] * 300] * 2
        tariff = Tariff("t", (LAST,), (65535,))
        plan = plan_with([Field(1, (Strip(0, 0, 256, 65535), Strip(1, 0, 1, 131))), Field(2, (Strip(0, 0, 256, 65535), Strip(1, 0, 300, 65535))),
                          Field(3, (Strip(0, 0, 255, 65535),))])
        expected = [count(rows, 1, 65535, set(), f, tariff) for f in plan.fields]
        self.assertEqual([f.cents is None for f in expected], [False, True, False])
        self.assertEqual(figures(account(reader(), [orchard.rate_file(rows)], plan, tariff)), expected)

    def test_a_field_of_no_weight_is_still_a_gap(self):
        plan = plan_with([Field(1, (Strip(1, 0, 1, 0),)), Field(2, (Strip(0, 0, 1, 0),)), Field(3, ())])
        one = account(reader(), [orchard.rate_file([[5], [5]], [1])], plan, Tariff("t", (LAST,), (1,)))
        self.assertEqual(figures(one), [Figures(None, None, None, (1,)), Figures(0, 0, 0), Figures(0, 0, 0)])


class Steps(unittest.TestCase):
    def test_decimals(self):
        for number, text in ((Fraction(0), "0"), (Fraction(254, 1000), "0.254"), (Fraction(-1, 8), "-0.125"), (Fraction(10), "10"), (Fraction(1, 3), None),
                             (Fraction(7, 1 << 20), "0.00000667572021484375"), (Fraction(21020 * 254, 10000), "533.908"), (Fraction(1, 15), None)):
            self.assertEqual(decimal(number), text)
            if text is not None:
                self.assertEqual(Fraction(text), number)

    def test_step_is_the_declared_one(self):
        """The exact step rounds to that of the library, which has it as an f32."""
        plan, tariff = plan_with([]), Tariff("t", (LAST,), (1,))
        for scale in (1.0, 2.0, 3.0, 0.5, 100.0, 1000.0):
            for code, moment in ((170, "ACCUM"), (172, "ACCUM"), (176, "RATE")):
                scale_fields = samples.floats(scale, 0.0, 255, 1, 0)
                data = rain_file([[1]], scale_fields, code) if moment == "ACCUM" else orchard.rate_file([[1]], scale=scale_fields)
                one = account(reader(), [data], plan, tariff)
                self.assertEqual((one.step, one.unit), (STEPS[moment][0] / Fraction(scale), {"ACCUM": "mm", "RATE": "mm/h"}[moment]))
                self.assertAlmostEqual(float(one.step) / reader().with_gaps(data).step, 1, 6)
        for scale in (0.0, float("inf"), float("nan")):
            with self.assertRaises(Refused) as caught:
                account(reader(), [orchard.rate_file([[1]], scale=samples.floats(scale, 0.0, 65535, 1, 0))], plan, tariff)
            self.assertEqual(caught.exception.number, 7)
        below = orchard.rate_file([[1]], scale=samples.floats(-1000.0, 0.0, 65535, 1, 0))
        self.assertEqual(account(reader(), [below], plan, tariff).step, Fraction(-254, 10000))
        inch = Fraction(254, 10)
        self.assertEqual((STEPS["ACCUM"][0], STEPS["RATE"][0]), (inch / 100, inch))


class Refusals(unittest.TestCase):
    plan, tariff = parse_plan("# one\nfield 1\n\nstrip 1 0 2 1", "block"), Tariff("t", (LAST,), (1,))

    def refusal(self, *data: bytes, plan: Optional[Plan] = None) -> Any:
        """What an account is refused with."""
        with self.assertRaises((Refused, BadFile, BadForm)) as caught:
            account(reader(), list(data), plan or self.plan, self.tariff)
        return caught.exception

    def test_no_rain(self):
        for name, scheme in (("N0RLOT", "legacy"), ("N1PLOT", "legacy"), ("N0QLOT", "halfword"), ("N0XLOT", "float"), ("HHCLOT", "class")):
            self.assertEqual(str(self.refusal(made(name).data)),
                             "10 SchemeMismatch (no rain product: the scheme of product code %d is %s)" % (reader().open(made(name).data).code, scheme))

    def test_strip_outside(self):
        for rows, picture in (([[1, 2]], "this one has 1 radials of 2 bins"), ([[1], [2]], "this one has 2 radials of 1 bins"),
                              ([], "a clear scan has no cells")):
            error = self.refusal(rain_file(rows, samples.floats(2.0, 0.0, 255, 1, 1), packed=False))
            self.assertEqual(str(error), "block:4: 39 StripOutside (a strip of the plan leaves the picture): " + picture)
        account(reader(), [rain_file([[1, 2]] * 2, samples.floats(2.0, 0.0, 255, 1, 1))], self.plan, self.tariff)
        clear = account(reader(), [rain_file([], samples.floats(2.0, 0.0, 255, 1, 1))], parse_plan("field 4"), self.tariff)
        self.assertEqual(figures(clear), [Figures(0, 0, 0)])

    def test_no_files(self):
        with self.assertRaisesRegex(ValueError, "^no files: a product is received at least once$"):
            account(reader(), [], self.plan, self.tariff)

    def test_one_file_that_is_no_list(self):
        """A byte of it would else be taken for an open file: 1 is standard output."""
        data = rain_file([[1, 2]] * 2, samples.floats(2.0, 0.0, 255, 1, 1), framed=True)
        for one in ("DPRLOT", data, bytearray(data), memoryview(data), Path("DPRLOT"), reader().open(data)):
            with self.assertRaisesRegex(TypeError, "^the files of a product are a list$"):
                account(reader(), one, self.plan, self.tariff)
        os.fstat(1)

    def test_plan_that_was_not_checked(self):
        """The picture is to do with 39 alone."""
        data = rain_file([[1, 2]] * 2, samples.floats(2.0, 0.0, 255, 1, 1))
        for text, said in (("\nstrip 0 0 1 1", "block:2: 37 PlanMalformed (a record of the field plan is malformed)"),
                           ("field 1\nfield 1", "block:2: 38 FieldRepeated (a field is named twice in the plan)")):
            self.assertEqual(str(self.refusal(data, plan=parse_plan(text, "block"))), said)

    def test_receptions_that_are_not_alike(self):
        first, other = [[1, 2], [3, 4], [5, 6]], [[1, 2], [3, 4], [5, 7]]
        error = self.refusal(orchard.rate_file(first), orchard.rate_file(other))
        self.assertEqual((error.number, error.values), (44, {"radial": 2}))
        # the first has a gap where the second and the third disagree
        error = self.refusal(orchard.rate_file(first, [2]), orchard.rate_file(first), orchard.rate_file(other))
        self.assertEqual((error.number, error.values), (44, {"radial": 2}))
        self.assertEqual(self.refusal(orchard.rate_file(first), orchard.rate_file(first[:2])).number, 43)
        self.assertIn("their headers differ", str(self.refusal(orchard.rate_file(first), orchard.rate_file(first, latitude=41000))))

    def test_malformed_body(self):
        whole = orchard.rate_file([[1, 2]] * 2)
        start = whole.index(b"BZh")
        self.assertIsInstance(self.refusal(whole[:start] + whole[start:start + 20]), BadFile)
        body = samples.body_of(whole)
        self.assertEqual(self.refusal(whole[:start] + body[:40]).number, 23)


class Book(Folder):
    """The command line."""

    def setUp(self) -> None:
        super().setUp()
        self.put("plan", b"field 9\nstrip 0 0 3 2\nfield 4\nstrip 1 1 2 1\n")
        self.put("tariff", b"upto 100 1500\nupto rest 99\n")

    def scan(self, name: str, seconds: int, rows: Rows, gaps: Sequence[int] = (), **options: Any) -> None:
        """Writes a rate product of a time of the day."""
        self.put(name, orchard.rate_file(rows, gaps, seconds=seconds, **options))

    def account(self, *words: str, status: int = 0) -> Tuple[List[Dict[str, str]], str]:
        """The table's lines and standard error."""
        end, out, err = self.run_it("account", "plan", "tariff", *words)
        self.assertEqual(end, status, err)
        return self.table(out), err

    def table(self, out: str) -> List[Dict[str, str]]:
        """The lines of a table."""
        self.assertEqual(out.splitlines()[0], ",".join(COLUMNS))
        return list(csv.DictReader(io.StringIO(out)))

    ROWS = [[[11, 21, 31], [41, 51, 61]], [[1001, 1, 0], [5, 6, 7]], [[1, 1, 1], [1, 1, 1]]]

    def three(self, gaps: Sequence[Sequence[int]] = ((), (), ())) -> None:
        """Three scans, named against the order of their times."""
        for name, seconds, rows, some in zip("cba", (3600, 3960, 4320), self.ROWS, gaps):
            self.scan(name, seconds, rows, some)

    def expected(self, k: int, field: int) -> Figures:
        """The figures of field 0 or 1 of the plan in a scan."""
        plan, tariff = parse_plan(self.get("plan").decode()), parse_tariff(self.get("tariff").decode())[0]
        return count(self.ROWS[k], 1, 65535, set(), plan.fields[field], tariff)

    def test_order_lines_and_sums(self):
        self.three()
        lines, err = self.account("a", "b", "c")
        self.assertEqual(err, "3 files, 0 bad\n")
        self.assertEqual([(line["line"], line["time"], line["field"]) for line in lines],
                         [("field", time, field) for time in ("01:00:00", "01:06:00", "01:12:00") for field in "94"] + [("sum", "", "9"), ("sum", "", "4")])
        for k in range(3):
            for field in range(2):
                want, line = self.expected(k, field), lines[2 * k + field]
                step = Fraction(254, 10000)
                self.assertEqual(line, dict(EMPTY, line="field", date="2026-05-20", time=line["time"], site="LOT", product="DPR", code="176", receptions="1",
                                            field="94"[field], total=str(want.total), weighted_rain=decimal(want.total * step), unit="mm/h",
                                            cents=str(want.cents), remainder=str(want.remainder), products="1", missing="0"))
        for field in range(2):
            want = [self.expected(k, field) for k in range(3)]
            self.assertEqual(lines[6 + field], dict(EMPTY, line="sum", field="94"[field], total=str(sum(w.total for w in want)), unit="mm/h",
                                                    weighted_rain=decimal(sum(w.total for w in want) * Fraction(254, 10000)),
                                                    cents=str(sum(w.cents for w in want)), remainder=str(sum(w.remainder for w in want)),
                                                    products="3", missing="0"))
        # each charge is rounded down by itself: the sum is not the charge of the sum
        self.assertNotEqual(sum(self.expected(k, 0).cents for k in range(3)),
                            charge(sum(self.expected(k, 0).total for k in range(3)), parse_tariff(self.get("tariff").decode())[0])[0])

    def test_gap_and_partial_sum(self):
        self.three(((), (1,), ()))
        plain, err = self.account("a", "b", "c")
        self.assertEqual(err, "note: no sum because of gaps: field 4 (1 product, radial 1)\n3 files, 0 bad\n")
        self.assertEqual(plain[3], dict(EMPTY, line="gap", date="2026-05-20", time="01:06:00", site="LOT", product="DPR", code="176", receptions="1", field="4",
                                        products="0", missing="1", gap_radials="1"))
        self.assertEqual((plain[2]["line"], plain[2]["total"]), ("field", str(self.expected(1, 0).total)))
        self.assertEqual((plain[6]["line"], plain[6]["products"]), ("sum", "3"))
        self.assertEqual(plain[7], dict(EMPTY, line="none", field="4", products="2", missing="1"))
        partial, err = self.account("a", "b", "c", "--partial")
        self.assertEqual(err, "3 files, 0 bad\n")
        self.assertEqual(partial[:7], plain[:7])
        rest = [self.expected(k, 1) for k in (0, 2)]
        self.assertEqual(partial[7], dict(EMPTY, line="partial", field="4", total=str(sum(w.total for w in rest)), unit="mm/h",
                                          weighted_rain=decimal(sum(w.total for w in rest) * Fraction(254, 10000)), cents=str(sum(w.cents for w in rest)),
                                          remainder=str(sum(w.remainder for w in rest)), products="2", missing="1"))

    def test_gaps_are_noted(self):
        """Fields, products and radials; where --partial has no sum either."""
        self.put("plan", b"field 9\nstrip 0 0 3 2\nstrip 1 0 1 1\nfield 4\nstrip 1 1 2 1\nfield 5\n")
        self.three(((0,), (1,), ()))
        lines, err = self.account("a", "b", "c")
        self.assertEqual(err, "note: no sum because of gaps: field 9 (2 products, radials 0 1), field 4 (1 product, radial 1)\n3 files, 0 bad\n")
        self.assertEqual([(line["line"], line["field"]) for line in lines[9:]], [("none", "9"), ("none", "4"), ("sum", "5")])
        lines, err = self.account("b", "c", "--partial")
        self.assertEqual(err, "note: no sum because of gaps: field 9 (2 products, radials 0 1)\n2 files, 0 bad\n")
        self.assertEqual([line["line"] for line in lines[6:]], ["none", "partial", "sum"])
        self.assertEqual(self.account("b")[1], "note: no sum because of gaps: field 9 (1 product, radial 1), field 4 (1 product, radial 1)\n")

    def test_received_twice(self):
        self.three(((), (0, 1), ()))
        self.scan("second", 3960, self.ROWS[1], (1,))
        lines, _ = self.account("a", "second", "b", "c")
        self.assertEqual([(line["line"], line["receptions"], line["gap_radials"]) for line in lines[2:4]], [("field", "2", ""), ("gap", "2", "1")])
        self.assertEqual(lines[2]["total"], str(self.expected(1, 0).total))
        self.scan("third", 3960, self.ROWS[1], (0,))
        for jobs in ("1", "2"):
            lines, err = self.account("a", "second", "b", "third", "c", "--jobs", jobs)
            self.assertEqual([(line["line"], line["receptions"], line["products"]) for line in lines[2:4]], [("field", "3", "1")] * 2)
            self.assertEqual([line["total"] for line in lines[2:4]], [str(self.expected(1, field).total) for field in range(2)])
            self.assertEqual([line["line"] for line in lines[6:]], ["sum", "sum"])
            self.assertEqual(err, "5 files, 0 bad\n")

    def test_receptions_that_disagree(self):
        self.three()
        self.scan("second", 3960, self.ROWS[0])
        lines, err = self.account("a", "b", "c", "second", status=1)
        self.assertEqual(err, "b and second: 44 RowsDisagree (the two bodies have this radial whole and not alike): radial 0\n"
                              "4 files, 0 bad; 1 product not merged\n")
        self.assertEqual([(line["line"], line["products"], line["missing"]) for line in lines[4:]], [("none", "2", "1")] * 2)
        self.assertEqual([line["time"] for line in lines[:4]], ["01:00:00"] * 2 + ["01:12:00"] * 2)

    def test_bad_files(self):
        """A bad file is told; what may be rain is missing from the sums, and no rain is not."""
        self.three()
        self.samples("N0RLOT")
        lines, err = self.account("a", "N0RLOT", "b", "c", status=1)
        self.assertEqual(err, "N0RLOT: 10 SchemeMismatch (no rain product: the scheme of product code 19 is legacy)\n4 files, 1 bad\n")
        self.assertEqual([(line["line"], line["missing"]) for line in lines[6:]], [("sum", "0")] * 2)
        self.put("empty", b"")
        whole = self.get("b")
        self.put("cut", whole[:whole.index(b"BZh")] + samples.body_of(whole)[:40])
        lines, err = self.account("a", "empty", "nowhere", "c", "cut", status=1)
        for words in ("empty: the file is empty\n", "nowhere: No such file or directory\n", "cut: 23 XdrTruncated", "5 files, 3 bad\n"):
            self.assertIn(words, err)
        self.assertEqual([(line["line"], line["products"], line["missing"], line["cents"]) for line in lines[4:]], [("none", "2", "3", "")] * 2)
        lines, err = self.account("a", "empty", "nowhere", "c", "cut", "--partial", status=1)
        self.assertEqual([(line["line"], line["products"], line["missing"]) for line in lines[4:]], [("partial", "2", "3")] * 2)
        # the product of the one that is cut came whole in another file
        lines, err = self.account("a", "b", "c", "cut", status=1)
        self.assertEqual([(line["line"], line["products"], line["missing"]) for line in lines[6:]], [("sum", "3", "0")] * 2)
        # nothing is not dry
        lines, _ = self.account("N0RLOT", "--partial", status=1)
        self.assertEqual([(line["line"], line["total"], line["cents"], line["products"]) for line in lines], [("none", "", "", "0")] * 2)

    def test_bad_reception_of_a_product_that_is_there(self):
        """A body that can't be had leaves the head: the product is known, and is missing once or not at all."""
        self.three()
        whole = self.get("b")
        start = whole.index(b"BZh")
        block = start - 102

        def head(at: int, data: bytes) -> bytes:
            return whole[:block + at] + data + whole[block + at + len(data):]
        bad = {"cut": whole[:start + 20], "damaged": whole[:start + 4] + b"xxxx" + whole[start + 8:], "no stream": whole[:start], "short": whole[:start - 4],
               "large": whole[:start] + bz2.compress(bytes((32 << 20) + 1)), "trailing": whole + b"and more", "place": head(2, b"\x7f\xff"),
               "offset": head(90, b"\0\0\0\1")}
        for name, data in bad.items():
            self.put(name, data)
            with self.assertRaises((BadFile, Refused), msg=name):
                reader().with_gaps(data)
        for jobs in ("1", "2"):
            lines, err = self.account("a", "b", "c", *bad, "--jobs", jobs, status=1)
            self.assertEqual(err.splitlines()[-1], "11 files, 8 bad")
            self.assertEqual([(line["line"], line["products"], line["missing"]) for line in lines[6:]], [("sum", "3", "0")] * 2)
        for some in (list(bad), ["cut"], ["damaged", "large"]):
            lines, _ = self.account("a", "c", *some, status=1)
            self.assertEqual([(line["line"], line["products"], line["missing"]) for line in lines[4:]], [("none", "2", "1")] * 2)
        # with two product codes in its head a file may be of any product
        self.put("odd", head(12, b"\0\xaa"))
        self.assertEqual([line["missing"] for line in self.account("a", "b", "c", "odd", status=1)[0][6:]], ["1"] * 2)

    def test_no_rain_whose_body_can_t_be_had(self):
        self.three()
        whole = files()["N0RLOT.gaps"]
        start = whole.index(b"BZh")
        self.put("N0R.cut", whole[:start + 50])
        self.put("N0R.large", whole[:start] + bz2.compress(bytes((32 << 20) + 1)))
        lines, err = self.account("a", "b", "c", "N0R.cut", "N0R.large", status=1)
        said = ": 10 SchemeMismatch (no rain product: the scheme of product code 19 is legacy)\n"
        self.assertEqual(err, "N0R.cut" + said + "N0R.large" + said + "5 files, 2 bad\n")
        self.assertEqual([(line["line"], line["missing"]) for line in lines[6:]], [("sum", "0")] * 2)

    def test_strip_outside_one_product(self):
        self.three()
        self.scan("small", 60, [[1, 2, 3]])
        lines, err = self.account("a", "b", "c", "small", status=1)
        self.assertEqual(err, "small: plan:4: 39 StripOutside (a strip of the plan leaves the picture): this one has 1 radials of 3 bins\n4 files, 1 bad\n")
        self.assertEqual([(line["line"], line["missing"]) for line in lines[6:]], [("none", "1")] * 2)

    def test_total_too_large(self):
        self.put("plan", b"field 9\nstrip 0 0 300 65535\nfield 4\nstrip 0 0 1 1\n")
        self.scan("a", 60, [[65535] * 300])
        self.scan("b", 120, [[2] * 300])
        lines, err = self.account("a", "b", status=1)
        total = 300 * 65535 * 65534
        self.assertEqual(err, "a: field 9: 41 TotalTooLarge (the total is above 2^40): %d\n2 files, 0 bad; 1 total without a charge\n" % total)
        self.assertEqual(lines[0], dict(lines[0], line="too large", total=str(total), weighted_rain=decimal(total * Fraction(254, 10000)),
                                        cents="", remainder="",
                                        products="0", missing="1"))
        tariff = parse_tariff(self.get("tariff").decode())[0]
        cents = charge(65534, tariff)[0] + charge(1, tariff)[0]
        self.assertEqual([(line["line"], line["total"], line["cents"]) for line in lines[4:]], [("none", "", ""), ("sum", "65535", str(cents))])
        self.scan("c", 180, [[65535] * 300])
        self.put("d", b"")
        self.scan("e", 120, [[3] * 300])
        err = self.account("a", "b", "c", "d", "e", status=1)[1]
        self.assertEqual(err.splitlines()[-1], "5 files, 1 bad; 1 product not merged; 2 totals without a charge")

    def test_products_of_different_steps(self):
        self.put("a", rain_file([[11, 12, 13]] * 2, samples.floats(2.0, 0.0, 255, 1, 1), seconds=60))
        self.put("b", rain_file([[21, 22, 23]] * 2, samples.floats(10.0, 0.0, 255, 1, 1), seconds=120))
        lines, err = self.account("a", "b")
        self.assertIn("note: the products' steps differ: their totals are not added\n", err)
        self.assertEqual((lines[4]["total"], lines[4]["weighted_rain"], lines[4]["unit"]),
                         ("", decimal(66 * Fraction(127, 1000) + 126 * Fraction(254, 10000)), "mm"))
        self.scan("c", 180, [[1, 2, 3]] * 2)
        lines, err = self.account("a", "b", "c")
        self.assertEqual([(line["line"], line["total"], line["weighted_rain"], line["unit"], line["products"]) for line in lines[6:]],
                         [("sum", "", "", "", "3")] * 2)
        self.assertIn("note: products of 2 grids by one plan: 2 by 3 of 1000 m, 2 by 3 of 250 m\n", err)
        self.put("d", rain_file([[11, 12, 15]] * 2, samples.floats(3.0, 0.0, 255, 1, 1), seconds=60, site="ILX"))
        lines, err = self.account("d")
        self.assertEqual([(line["total"], line["weighted_rain"], line["unit"]) for line in lines], [("70", "", ""), ("25", "", "")] * 2)
        self.assertIn("note: products of 2 sites by one plan: ILX, LOT\n", self.account("a", "d")[1])

    def test_scale_below_0(self):
        """Totals and charges go by codes and stay; rain below nothing is none."""
        self.three()
        self.scan("d", 4680, self.ROWS[0], scale=samples.floats(-1000.0, 0.0, 65535, 1, 0))
        self.scan("e", 4680, self.ROWS[0], scale=samples.floats(-1000.0, 0.0, 65535, 1, 0))
        self.scan("f", 5040, self.ROWS[1], scale=samples.floats(-1000.0, 0.0, 65535, 1, 0))
        note = "note: no weighted rain, the declared scale is below 0: "
        lines, err = self.account("d", "f")
        self.assertEqual(err, note + "d, f\n2 files, 0 bad\n")
        for field in range(2):
            want = [self.expected(k, field) for k in range(2)]
            for k in range(2):
                line = lines[2 * k + field]
                self.assertEqual((line["line"], line["total"], line["weighted_rain"], line["unit"], line["cents"], line["remainder"]),
                                 ("field", str(want[k].total), "", "", str(want[k].cents), str(want[k].remainder)))
            self.assertEqual(lines[4 + field], dict(EMPTY, line="sum", field="94"[field], total=str(sum(w.total for w in want)),
                                                    cents=str(sum(w.cents for w in want)), remainder=str(sum(w.remainder for w in want)),
                                                    products="2", missing="0"))
        lines, err = self.account("a", "d", "e")
        self.assertEqual(err, "note: the products' steps differ: their totals are not added\n%sd and e\n3 files, 0 bad\n" % note)
        self.assertEqual([(line["line"], line["total"], line["weighted_rain"], line["unit"], line["products"]) for line in lines[4:]],
                         [("sum", "", "", "", "2")] * 2)
        self.assertTrue(lines[0]["weighted_rain"])

    def test_progress(self):
        self.three()
        self.scan("second", 3960, self.ROWS[1], (1,))
        self.put("d", b"")
        ours, its = pty.openpty()
        status, out, _ = self.run_it("account", "plan", "tariff", ".", capture_output=False, stdout=subprocess.PIPE, stderr=its)
        os.close(its)
        told = os.read(ours, 10_000).decode()
        os.close(ours)
        self.assertEqual((status, len(self.table(out))), (1, 8))
        for words in ("1 of 5 files\r", "d: the file is empty\r\n", "5 of 5 files, 1 bad\r\n", "1 of 1 products received more than once\r\n"):
            self.assertIn(words, told)

    def test_older_library(self):
        self.three()
        with older("l3_plan_totals") as library:
            for words in (("account", "plan", "tariff", "a"), ("plan", "plan", "-o", "x")):
                status, out, err = self.run_it(*words, "--library", library.path)
                self.assertEqual((status, out, err), (2, "", "yasgulet: %s has no l3_plan_totals: a newer library is needed\n" % library.path))

    def test_plan_of_no_fields(self):
        self.three()
        for data in (b"# none yet\n", b""):
            self.put("plan", data)
            self.assertEqual(self.run_it("account", "plan", "tariff", "a", "b", "--out", "book.csv"), (2, "", "yasgulet: plan: no fields\n"))
        self.assertFalse(os.path.exists(self.path("book.csv")))
        none = account(reader(), [self.path("a")], read_plan(reader(), self.path("plan")), read_tariff(reader(), self.path("tariff")))
        self.assertEqual(none.fields, ())  # the call has an answer

    def test_plan_or_tariff_that_can_t_be_taken(self):
        self.three()
        self.put("bad", b"field 9\nstrip 0 0 0 2\n")
        for plan, tariff, said in (("bad", "tariff", "bad:2: 37 PlanMalformed"), ("none", "tariff", "none: No such file or directory"),
                                   ("plan", "bad", "bad:1: 'field' is not upto"), ("plan", "none", "none: No such file or directory")):
            status, out, err = self.run_it("account", plan, tariff, "a", "--out", "book.csv")
            self.assertEqual((status, out), (2, ""))
            self.assertTrue(err.startswith("yasgulet: " + said), err)
        self.assertFalse(os.path.exists(self.path("book.csv")))
        os.mkdir(self.path("folder"))
        self.assertEqual(self.run_it("account", "plan", "tariff", "folder")[::2], (2, "yasgulet: no files in folder\n"))

    def test_out(self):
        self.three()
        self.assertEqual(self.account(".")[1], "3 files, 0 bad\n")  # plan and tariff are not taken for products
        for name in "abc":
            os.makedirs(self.path("scans"), exist_ok=True)
            os.rename(self.path(name), self.path("scans/" + name))
        _, printed, err = self.run_it("account", "plan", "tariff", "scans")
        self.assertEqual(err, "3 files, 0 bad\n")
        for word in ("-o", "--out", "--output"):
            status, out, err = self.run_it("account", "plan", "tariff", "scans", word, "book.csv")
            self.assertEqual((status, out, self.get("book.csv").decode()), (0, "wrote book.csv, 8 lines\n", printed))
            self.assertNotIn(b"\r", self.get("book.csv"))
            os.unlink(self.path("book.csv"))
        for target in ("plan", "tariff", "scans/a", "./scans/../plan"):
            before = self.get(target)
            status, _, err = self.run_it("account", "plan", "tariff", "scans", "--out", target)
            self.assertEqual((status, err), (2, "yasgulet: %s would be written, and is named for another file too\n" % target))
            self.assertEqual(self.get(target), before)
        self.assertEqual(self.run_it("account", "plan", "tariff", "scans", "--out", "no/such", "--quiet")[::2], (1, "no/such: No such file or directory\n"))
        self.assertEqual(sorted(os.listdir(self.folder)), ["plan", "scans", "tariff"])


class ByHand(Folder):
    """The account that is worked out in the README."""

    def page(self) -> str:
        """Its section."""
        with open(os.path.join(os.path.dirname(HERE), "README.md")) as file:
            return re.search(r"### One account by hand\n(.*?)\n## ", file.read(), re.S)[1]

    def test_arithmetic(self):
        """Each line is right, and says what the sample's codes, plan and tariff say."""
        lines = re.findall(r"^    ([()\d][-()\d +×/.=]* = [\d .×+]+)$", self.page(), re.M)
        self.assertEqual(len(lines), 11)
        sides = [[side.replace("×", "*") for side in line.split("=")] for line in lines]
        values = [{eval(re.sub(r"[\d.]+", lambda number: "Fraction('%s')" % number[0], side), {"Fraction": Fraction}) for side in one} for one in sides]
        self.assertTrue(all(len(one) == 1 for one in values), values)
        last = [one[-1].strip() for one in sides]
        plan = read_plan(reader(), PLAN)
        tariff = read_tariff(reader(), TARIFF)
        terms: List[Tuple[int, int]] = [(int(c), int(w)) for line in lines for c, w in re.findall(r"\((\d+) - 1\) × (\d+)", line)]
        self.assertEqual(terms, [(orchard.code(s.radial, k), s.weight) for f in plan.fields for s in f.strips for k in range(s.gate, s.gate + s.gates)])
        want = [count(orchard.rows(), 1, 65535, set(), field, tariff) for field in plan.fields]
        self.assertEqual([int(last[k]) for k in (3, 6)], [w.total for w in want])
        self.assertEqual([Fraction(last[k]) for k in (7, 8)], [w.total * Fraction(254, 10000) for w in want])
        self.assertEqual([last[k] for k in (9, 10)], ["%d * 1000 + %d" % (w.cents, w.remainder) for w in want])

    def test_the_command_has_these_numbers(self):
        page = self.page()
        cents = re.findall(r"= (\d+) × 1000 \+ (\d+)$", page, re.M)
        rain = re.findall(r"/ 1000 = ([\d.]+)$", page, re.M)
        totals = re.findall(r"^    \d+ \+ .* = (\d+)$", page, re.M)
        status, out, err = self.run_it("account", PLAN, TARIFF, *(os.path.join(ORCHARD, name) for name in orchard.DAMAGED))
        self.assertEqual((status, err), (0, "2 files, 0 bad\n"))
        lines = list(csv.DictReader(io.StringIO(out)))
        self.assertEqual([line["line"] for line in lines], ["field", "field", "sum", "sum"])
        for part in (lines[:2], lines[2:]):
            self.assertEqual([line["field"] for line in part], ["7", "8"])
            self.assertEqual([line["total"] for line in part], totals)
            self.assertEqual([line["weighted_rain"] for line in part], rain)
            self.assertEqual([(line["cents"], line["remainder"]) for line in part], cents)

    @unittest.skipUnless(shutil.which("make") and shutil.which("cc"), "make or cc is not at hand")
    def test_one_command(self):
        """The command of the repository's README: the same table, and the picture."""
        with open(os.path.join(ROOT, "README.md")) as file:
            self.assertIn("\n    make account\n", file.read())
        picture = os.path.join(ROOT, os.environ.get("BUILD", "target/hosts"), "orchard.png")
        if os.path.exists(picture):
            os.unlink(picture)
        where = {name: value for name, value in os.environ.items() if name not in ("MAKEFLAGS", "MAKELEVEL")}
        end = subprocess.run(["make", "account"], cwd=ROOT, env=where, capture_output=True, text=True, timeout=120)
        self.assertEqual((end.returncode, end.stderr), (0, "2 files, 0 bad\n"))
        paths = (PLAN, TARIFF, *(os.path.join(ORCHARD, name) for name in orchard.DAMAGED))
        self.assertIn("\n" + self.run_it("account", *paths)[1], end.stdout)
        with open(picture, "rb") as file:
            check_picture(self, pixels(file.read()), orchard.rows(), orchard.GATE, (), "RATE", VALUES["DPR"], orchard.BINS * orchard.GATE * 1000, 800)
        os.unlink(picture)

    def test_sample_is_the_generator_s(self):
        self.assertEqual(sorted(os.listdir(ORCHARD)), sorted([*orchard.DAMAGED, "block.plan", "tariff"]))
        for name, data in orchard.files().items():
            with open(os.path.join(ORCHARD, name), "rb") as file:
                stored = file.read()
            self.assertEqual(samples.body_of(stored), samples.body_of(data))
            self.assertEqual(stored[:stored.index(b"BZh")], data[:data.index(b"BZh")])

    def test_from_python(self):
        """The page's lines, and what the last of them comes to."""
        lines = textwrap.dedent(re.search(r"From Python:\n\n(.*)", self.page(), re.S)[1]).splitlines()
        words = "\n".join(["import yasgulet", *lines[:-1], "print(%s)" % lines[-1]])
        end = subprocess.run([sys.executable, "-c", words], cwd=ORCHARD, env=environment(), capture_output=True, text=True, timeout=120)
        want = count(orchard.rows(), 1, 65535, set(), read_plan(reader(), PLAN).fields[0], read_tariff(reader(), TARIFF))
        self.assertEqual((end.stdout, end.stderr), ("%d %d ()\n" % (want.total, want.cents), ""))

    def test_figures_of_the_page(self):
        page = self.page()
        self.assertIn("wrote cells.csv, %d cells\n" % sum(code > 0 for row in orchard.rows() for code in row), page)
        cells = re.search(r"^    52,79,.*$", page, re.M)[0].split()
        self.assertEqual(cells, ["%d,%d,%d" % (r, k, orchard.code(r, k)) for r in range(52, 57) for k in range(79, 82)])


if __name__ == "__main__":
    unittest.main()
