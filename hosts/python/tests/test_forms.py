"""Plans and tariffs as text: there and back, and what is told of those that can't be taken."""
import os
import random
from typing import List, Optional, Tuple

from common import Folder, reader, unittest
from yasgulet.errors import REFUSALS
from yasgulet.forms import BadForm, check_plan, check_tariff, parse_plan, parse_tariff, plan_of, plan_text, read_plan, read_tariff, tariff_text, Tariff

LAST = 1 << 40


def field(number: int) -> bytes:
    """A field's record."""
    return b"\x01\x00\x02" + number.to_bytes(2, "big")


def strip(*numbers: int) -> bytes:
    """A strip's record."""
    return b"\x02\x00\x08" + b"".join(n.to_bytes(2, "big") for n in numbers)


def number_of(noise: random.Random) -> int:
    """A halfword, with the ends more often."""
    return noise.choice((0, 1, 255, 256, 65535, noise.randrange(65536)))


def dressed(noise: random.Random, words: List[str]) -> str:
    """A line of some words as a hand may write it."""
    line = noise.choice(("", " ", "\t")) + noise.choice((" ", "   ", "\t")).join(words)
    return line + noise.choice(("", " ", " # strip 1 2 3 4", "#")) + noise.choice(("\n", "\r\n", "\n\n# a remark\n", "\n   \n"))


class Plans(unittest.TestCase):
    def test_there_and_back(self):
        noise = random.Random(11)
        for _ in range(300):
            text, records = "", b""
            for number in noise.sample(range(65536), noise.randrange(5)):
                text += dressed(noise, ["field", noise.choice(("", "0", "000")) + str(number)])
                records += field(number)
                for _ in range(noise.randrange(5)):
                    numbers = [number_of(noise) for _ in range(4)]
                    text += dressed(noise, ["strip", *map(str, numbers)])
                    records += strip(*numbers)
            plan = parse_plan(text)
            self.assertEqual(plan.records, records)
            self.assertEqual(plan_of(records).fields, plan.fields)
            for one in (plan, plan_of(records)):
                self.assertEqual(parse_plan(plan_text(one)).records, records)
        self.assertEqual(parse_plan("# nothing\n").records, b"")

    def test_the_lines_of_records(self):
        plan = parse_plan("\n# one\nfield 1\r\n\r\n strip 1 2 3 4 # two\rfield 2\n")
        self.assertEqual(plan.lines, {0: 3, 5: 5, 16: 6})

    def test_what_is_no_plan(self):
        for text, line, words in (("field 1\nfeld 2", 2, "'feld' is neither field nor strip"), ("field", 1, "field takes one number"),
                                  ("field 1 2", 1, "field takes one number"), ("field x", 1, "number 'x' is no whole number"),
                                  ("field 65536", 1, "number 65536 is not from 0 to 65535"), ("field -1", 1, "number '-1' is no whole number"),
                                  ("field 1\n\nstrip 1 2 3", 3, "strip takes 4 numbers: RADIAL GATE GATES WEIGHT"),
                                  ("field 1\nstrip 1 2 3 4 5", 2, "strip takes 4 numbers"), ("field 1\nstrip 1 2 3 1e2", 2, "weight '1e2' is no whole number"),
                                  ("field 1\nstrip 1 2 3 70000", 2, "weight 70000 is not from 0 to 65535"),
                                  ("# a\x0c\u2028b\nfield 1_0", 2, "'1_0'"), ("field \u0663", 1, "no whole number"),
                                  ("field 1\nstrip %s 2 3 4" % ("9" * 5000), 2, "is not from 0 to 65535")):
            with self.assertRaises(BadForm) as caught:
                parse_plan(text, "block")
            self.assertEqual((caught.exception.line, caught.exception.number), (line, None), text)
            self.assertIn(words, str(caught.exception))
            self.assertTrue(str(caught.exception).startswith("block:%d: " % line))

    def refusal(self, text: str) -> BadForm:
        """The refusal of a plan's text."""
        with self.assertRaises(BadForm) as caught:
            check_plan(reader(), parse_plan(text, "block"))
        return caught.exception

    def test_refused_in_the_library_s_words(self):
        for text, number, line, why in (("strip 1 2 3 4", 37, 1, "no field is named yet"), ("field 1\nstrip 1 2 0 4", 37, 2, "no gates"),
                                        ("field 1\n" + "strip 1 2 3 4\n" * 4097, 37, 4098, "strip 4097 of at most 4096"),
                                        ("field 5\nfield 6\n# and\nfield 5", 38, 4, "field 5 is there since line 1"),
                                        ("field 5\nfield 5\nstrip 1 2 0 4", 37, 3, "no gates")):
            told = self.refusal(text)
            row = REFUSALS[number]
            self.assertEqual((told.number, told.line), (number, line))
            self.assertEqual(str(told), "block:%d: %d %s (%s): %s" % (line, number, row.name, row.meaning, why))
        check_plan(reader(), parse_plan("field 1\n" + "strip 65535 65535 65535 65535\n" * 4096))
        check_plan(reader(), parse_plan(""))

    def test_held_to_the_library_on_random_plans(self):
        """Number and line of the refusal are those of a plain walk over the lines."""
        noise = random.Random(12)
        seen = set()
        for _ in range(400):
            lines: List[Tuple[str, List[int]]] = []
            for _ in range(noise.randrange(8)):
                if noise.random() < .4:
                    lines.append(("field", [noise.randrange(12)]))
                else:
                    lines.append(("strip", [noise.randrange(9), noise.randrange(9), noise.choice((0, 1, 2, 3, 4, 5, 6, 7)), 1]))
            expected = self.walk(lines)
            seen.add(expected and expected[0])
            plan = parse_plan("".join("%s %s\n" % (word, " ".join(map(str, numbers))) for word, numbers in lines))
            try:
                check_plan(reader(), plan)
                told: Optional[Tuple[Optional[int], Optional[int]]] = None
            except BadForm as error:
                told = error.number, error.line
            self.assertEqual(told, expected)
        self.assertEqual(seen, {None, 37, 38})

    def walk(self, lines: List[Tuple[str, List[int]]]) -> Optional[Tuple[int, int]]:
        """37 and its line, else 38 and its line, else None."""
        named: List[int] = []
        for k, (word, numbers) in enumerate(lines, 1):
            if word == "strip" and (not named or numbers[2] == 0):
                return 37, k
            named += numbers if word == "field" else []
        found: List[int] = []
        for k, (word, numbers) in enumerate(lines, 1):
            if word == "field" and numbers[0] in found:
                return 38, k
            found += numbers if word == "field" else []
        return None


class Tariffs(unittest.TestCase):
    def test_there_and_back(self):
        noise = random.Random(13)
        for _ in range(300):
            ends = sorted(noise.sample(range(LAST), noise.randrange(8))) + [noise.choice((LAST, LAST + noise.randrange(1 << 20), (1 << 64) - 1))]
            rates = [number_of(noise) for _ in ends]
            text = "".join(dressed(noise, ["upto", "rest" if end == LAST and noise.random() < .5 else str(end), str(rate)]) for end, rate in zip(ends, rates))
            tariff, lines = parse_tariff(text)
            self.assertEqual((list(tariff.ends), list(tariff.rates), len(lines)), (ends, rates, len(ends)))
            check_tariff(reader(), tariff, lines)
            again = parse_tariff(tariff_text(tariff))[0]
            self.assertEqual((again.ends, again.rates), (tariff.ends, tariff.rates))
        self.assertEqual(parse_tariff("upto rest 3")[0][1:], ((LAST,), (3,)))
        self.assertEqual(tariff_text(Tariff("t", (5, LAST), (1, 2))), "upto 5 1\nupto rest 2\n")

    def test_what_is_no_tariff(self):
        for text, line, words in (("up 1 2", 1, "'up' is not upto"), ("upto 1", 1, "upto takes 2 numbers: END RATE"),
                                  ("upto rest 1 2", 1, "upto takes 2 numbers"),
                                  ("upto x 2", 1, "end 'x' is no whole number"), ("upto 1 2.5", 1, "rate '2.5' is no whole number"),
                                  ("upto 18446744073709551616 2", 1, "end 18446744073709551616 is not from 0 to 18446744073709551615"),
                                  ("upto rest 2\nupto 2199023255552 3", 1, "the rest is for the last band")):
            with self.assertRaises(BadForm) as caught:
                parse_tariff(text, "rates")
            self.assertEqual((caught.exception.line, caught.exception.number), (line, None))
            self.assertIn(words, str(caught.exception))

    def test_refused_in_the_library_s_words(self):
        bands = "".join("upto %d 1\n" % k for k in range(1, 8))
        for text, line, why in (("", None, "no bands"), ("upto 10 1", 1, "the last end 10 is below 1099511627776: write 'rest'"),
                                ("upto 10 1\nupto 10 2\nupto rest 3", 2, "the end 10 is not above the one before it, 10"),
                                ("upto 10 1\n\nupto 9 2\nupto rest 3", 3, "the end 9 is not above the one before it, 10"),
                                ("upto 10 65536\nupto rest 3", 1, "the rate 65536 is above 65535"),
                                (bands + "upto 8 1\nupto rest 1", 9, "a band beyond the 8th"),
                                ("upto 1099511627775 1", 1, "the last end 1099511627775 is below 1099511627776: write 'rest'")):
            with self.assertRaises(BadForm) as caught:
                check_tariff(reader(), *parse_tariff(text, "rates"))
            self.assertEqual(str(caught.exception), "rates%s: 40 TariffMalformed (the tariff is malformed): %s" % ("" if line is None else ":%d" % line, why))
            self.assertEqual((caught.exception.number, caught.exception.line), (40, line))
        check_tariff(reader(), *parse_tariff(bands + "upto rest 65535"))

    def test_held_to_the_library_on_random_tariffs(self):
        """A fault has a line in each tariff that the library refuses, and no other."""
        noise = random.Random(14)
        refused = 0
        for _ in range(400):
            ends = [noise.choice((0, 1, 2, 3, LAST - 1, LAST, LAST + 1)) for _ in range(noise.randrange(1, 10))]
            ends = sorted(set(ends)) if noise.random() < .7 else ends
            rates = [noise.choice((0, 1, 65535) * 5 + (65536,)) for _ in ends]
            bad = [k for k in range(len(ends)) if k >= 8 or rates[k] > 65535 or k and ends[k] <= ends[k - 1]]
            expected = bad[0] + 1 if bad else len(ends) if ends[-1] < LAST else None
            refused += expected is not None
            tariff, lines = parse_tariff("".join("upto %d %d\n" % pair for pair in zip(ends, rates)))
            try:
                check_tariff(reader(), tariff, lines)
                told = None
            except BadForm as error:
                told = error.line
            self.assertEqual(told, expected, (ends, rates))
        self.assertTrue(50 < refused < 350)


class Files(Folder):
    def test_read(self):
        records = field(7) + strip(1, 2, 3, 4)
        for data, text in ((b"field 7\nstrip 1 2 3 4\n", True), (b"\xef\xbb\xbffield 7\r\nstrip 1 2 3 4", True), (records, False)):
            plan = read_plan(reader(), self.put("plan", data))
            self.assertEqual((plan.records, plan.text), (records, text))
        self.assertEqual(read_plan(reader(), self.put("none", b"")).records, b"")
        self.assertEqual(read_tariff(reader(), self.put("tariff", b"upto rest 5\n"))[1:], ((LAST,), (5,)))

    def test_what_can_t_be_read(self):
        for data, words in ((b"# caf\xe9\nfield 1", ":1: not text in UTF-8"), (b"field 1\n\xff", ":2: not text in UTF-8"),
                            (field(1) + b"\x02\x00", ": 37 PlanMalformed (a record of the field plan is malformed): offset 5"),
                            (field(1) + strip(0, 0, 1, 1) + field(1), ": 38 FieldRepeated (a field is named twice in the plan): offset 16")):
            with self.assertRaises(BadForm) as caught:
                read_plan(reader(), self.put("plan", data))
            self.assertEqual(str(caught.exception), self.path("plan") + words)
        for path, words in ((self.path("nowhere"), "No such file or directory"), (self.folder, "Is a directory")):
            for read in (read_plan, read_tariff):
                with self.assertRaises(BadForm) as caught:
                    read(reader(), path)
                self.assertEqual(str(caught.exception), "%s: %s" % (path, words))
        with self.assertRaises(BadForm) as caught:
            read_plan(reader(), self.put("large", b"#" * ((2 << 20) + 1)))
        self.assertIn("more than 2097152 bytes", str(caught.exception))

    def test_command(self):
        records = field(7) + strip(1, 2, 3, 4) + field(65535)
        self.put("text", b"field 7 # apples\n\nstrip 1 2 3 4\nfield 65535")
        for source, target in (("text", "bytes"), ("bytes", "again"), ("again", "bytes2")):
            status, out, err = self.run_it("plan", source, "-o", target, clock=False)
            self.assertEqual((status, out, err), (0, "wrote %s\n" % target, ""))
        self.assertEqual((self.get("bytes"), self.get("bytes2")), (records, records))
        self.assertEqual(self.get("again"), b"field 7\nstrip 1 2 3 4\nfield 65535\n")
        self.assertEqual(self.run_it("plan", "bytes", "-o", "-", clock=False)[1], "field 7\nstrip 1 2 3 4\nfield 65535\n")
        self.put("none", b"# no fields yet\n")
        for source, target in (("none", "no records"), ("no records", "none again")):
            self.assertEqual(self.run_it("plan", source, "-o", target, clock=False), (0, "wrote %s\n" % target, ""))
            self.assertEqual(self.get(target), b"")
        self.put("bad", b"field 7\nstrip 1 2 0 4")
        for words, said in ((("bad", "-o", "x"), "bad:2: 37 PlanMalformed"), (("text", "-o", "./text"), "./text would be written"), (("text",), "--out")):
            status, _, err = self.run_it("plan", *words, clock=False)
            self.assertEqual(status, 2)
            self.assertIn(said, err)
        self.assertEqual(self.run_it("plan", "text", "-o", "no/such", clock=False)[::2], (1, "no/such: No such file or directory\n"))
        self.assertEqual(sorted(os.listdir(self.folder)), ["again", "bad", "bytes", "bytes2", "no records", "none", "none again", "text"])


if __name__ == "__main__":
    unittest.main()
