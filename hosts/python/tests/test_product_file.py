"""Product files as distributed, and hostile ones: a clear error, nothing lost, memory bounded."""
import bz2
import os
import random
import resource
import struct
import time
from unittest import mock

from common import CLOCK, Folder, files, reader, samples, unittest, yasgulet
from yasgulet import bzip2, product_file


class Parts(unittest.TestCase):
    def test_every_sample(self):
        for name, data in files().items():
            with self.subTest(name):
                file = reader().open(data)
                body = samples.body_of(data)
                trailing = b"\r\r\n\x03" if data.startswith(b"\x01") else b""
                start = data.index(b"\xff\xff\x00\x00\xa2\x84") + 102
                self.assertEqual(file.head, data[:start])
                self.assertEqual(file.packed, data[start:start + 3] == b"BZh")
                self.assertEqual(file.trailing, trailing)
                self.assertEqual(file.body, body if file.packed else body[:len(body) - len(trailing)])
                self.assertEqual((file.site, file.product), ("LOT", name[:3]))
                self.assertEqual(file.others, b"")

    def test_both_forms_and_both_packings_read_alike(self):
        body = samples.body16([[2, 3, 4], [5, 6, 7]], 999)
        seen = set()
        for packed in (False, True):
            for framed in (False, True):
                sweep = reader().sweep(samples.product_file("N0Q", 94, samples.halfword(-320, 5), body, packed, framed))
                seen.add((sweep.product, sweep.site, bytes(sweep._codes), bytes(sweep._values), bytes(sweep._azimuths), sweep.time))
        self.assertEqual(len(seen), 1)

    def test_other_blocks_after_the_symbology(self):
        body = samples.body_of(files()["N0RLOT.small"])
        tabular = struct.pack(">hhi", -1, 3, 8 + 20) + bytes(20)
        for packed in (False, True):
            data = samples.product_file("N0R", 19, samples.thresholds(samples.LEGACY_DBZ), body + tabular, packed, True)
            file = reader().open(data)
            self.assertEqual((file.body, file.others, file.trailing), (body, tabular, b"\r\r\n\x03"))

    def test_declared_length_that_does_not_fit_is_not_followed(self):
        body = bytearray(samples.body_of(files()["N0RLOT.small"]))
        body[4:8] = struct.pack(">i", 1 << 30)
        file = reader().open(samples.product_file("N0R", 19, samples.thresholds(samples.LEGACY_DBZ), bytes(body)))
        self.assertEqual(file.body, body)

    def test_new_body_in_an_old_file(self):
        for name in ("N0RLOT", "N0VLOT", "N1PLOT"):
            file = reader().open(files()[name])
            body = samples.body16([[1, 2, 3]], 999)
            again = reader().open(file.with_body(body))
            self.assertEqual((again.body, again.packed, again.trailing, again.product), (body, file.packed, file.trailing, file.product))
            self.assertEqual(len(file.with_body(body)) - file.header - len(file.trailing), struct.unpack_from(">i", again.head, again.header + 8)[0])


class Hostile(Folder):
    def bad(self, data, kind=yasgulet.Level3Error):
        with self.assertRaises(kind) as caught:
            reader().sweep(data)
        self.assertTrue(str(caught.exception))
        return str(caught.exception)

    def test_nothing(self):
        self.assertIn("empty", self.bad(b"", yasgulet.BadFile))
        self.assertIn("empty", self.bad(self.put("none", b""), yasgulet.BadFile))

    def test_text_alone(self):
        self.bad(b"SDUS53 KLOT 202214\r\r\nN0QLOT\r\r\n", yasgulet.Refused)
        self.bad(b"\x00" * 10_000, yasgulet.Refused)
        self.bad(b"\xff" * 10_000, yasgulet.Refused)

    def test_cut_at_every_place(self):
        whole = samples.product_file("N0Q", 94, samples.halfword(-320, 5), samples.body16([[2, 3, 4]] * 4, 999), framed=True)
        for length in range(len(whole) - 4):
            with self.subTest(length):
                self.bad(whole[:length])
        reader().sweep(whole[:-4])

    def test_plain_cut_at_every_place(self):
        whole = samples.product_file("N0Q", 94, samples.halfword(-320, 5), samples.body16([[2, 3, 4]] * 4, 999), packed=False)
        for length in range(len(whole) - 1):  # the last byte is the filling of an odd row, which the count covers
            with self.subTest(length):
                self.bad(whole[:length])

    def test_bomb(self):
        bomb = samples.product_file("N0Q", 94, samples.halfword(-320, 5), bytes(300_000_000))
        self.assertLess(len(bomb), 2000)
        self.assertIn("unpacked", self.bad(bomb, yasgulet.BadFile))
        with self.assertRaises(yasgulet.BadFile):
            yasgulet.Reader(clock=CLOCK, cap=1000).sweep(files()["N0QLOT"])

    def test_bomb_in_little_memory(self):
        path = self.put("bomb", samples.product_file("N0Q", 94, samples.halfword(-320, 5), bytes(300_000_000)))
        before = lambda: resource.setrlimit(resource.RLIMIT_AS, (400 << 20, 400 << 20))  # noqa: E731
        status, _, error = self.run_it("show", path, preexec_fn=before)
        self.assertEqual(status, 1, error)
        self.assertIn("unpacked", error)

    def test_damaged_stream(self):
        whole = bytearray(files()["N0QLOT"])
        start = whole.index(b"BZh")
        for at in (start + 3, start + 4, start + 20, len(whole) // 2, len(whole) - 3):
            damaged = bytes(whole[:at]) + bytes((whole[at] ^ 0x55,)) + bytes(whole[at + 1:])
            self.bad(damaged)

    def test_second_stream_and_stray_bytes(self):
        data = files()["N0QLOT"]
        for tail in (b"x", b"\r\r\n\x03\x03", bz2.compress(b"more")):
            error = self.bad(data + tail, yasgulet.Refused)
            self.assertIn("UnexpectedTrailingBytes", error)
        reader().sweep(data + b"\x03\0\0")

    def test_headers_that_point_anywhere(self):
        data = files()["N0QLOT.small"]
        block = data.index(b"\xff\xff\x00\x00\xa2\x84")
        for offset in (-1, 1, 59, 61, 1 << 30, -(1 << 31)):
            self.assertIn("halfwords", self.bad(data[:block + 90] + struct.pack(">i", offset) + data[block + 94:], yasgulet.BadFile))
        self.assertIn("product code", self.bad(data[:block + 12] + b"\x00\x99" + data[block + 14:], yasgulet.BadFile))
        self.assertIn("earth", self.bad(data[:block + 2] + struct.pack(">i", 90_001) + data[block + 6:], yasgulet.BadFile))
        whole, body = reader().sweep(data), data[block + 102:]
        for length in (-1, 0, 7, len(body) + 1, 1 << 30, -(1 << 31)):  # the block's own length, which is not followed: no block is so long
            sweep = reader().sweep(data[:block + 102] + body[:4] + struct.pack(">i", length) + body[8:])
            self.assertEqual((sweep.radials, sweep.bins, bytes(sweep._codes), bytes(sweep._values), bytes(sweep._azimuths)),
                             (whole.radials, whole.bins, bytes(whole._codes), bytes(whole._values), bytes(whole._azimuths)))
        for length in (8, 30, len(body) - 1):  # a shorter block: the rest is taken for what stands after it
            self.bad(data[:block + 102] + body[:4] + struct.pack(">i", length) + body[8:], yasgulet.Refused)

    def test_counts_beyond_the_body(self):
        for radials, bins in ((65535, 61), (2000, 2000), (65535, 65535), (1, 65535), (0, 0), (4, 0)):
            for code in (16, 0xAF1F):
                body = samples.symbology(struct.pack(">HHHhhHH", code, 0, bins, 0, 0, 999, radials) + bytes(12))
                began = time.perf_counter()
                self.bad(samples.product_file("N0Q", 94, samples.halfword(-320, 5), body))
                self.assertLess(time.perf_counter() - began, 5)

    def test_stream_at_once_and_by_the_module_are_alike(self):
        """libbz2's own calls, where they can be made, and Python's module: the same bytes and the same refusals."""
        def outcome(data, start, cap):
            try:
                return bzip2.unpack(data, start, cap)
            except yasgulet.BadFile as error:
                return str(error)

        if bzip2._calls() is None:
            self.skipTest("this Python's libbz2 can't be called")
        chance = random.Random(4)
        body = samples.body_of(files()["N0QLOT"])
        tabular = struct.pack(">hhi", -1, 3, 100_000) + chance.randbytes(99_992)
        insides = [body, body + tabular, body[:-1], body + b"x", body[:8], body[:9], body[:7], b"", bytes(100_000)]
        insides += [body[:4] + struct.pack(">i", length) + body[8:] for length in (-1, 0, 7, 8, 9, len(body) - 1, len(body) + 1, 1 << 30, -1 << 31)]
        cases = []
        for inside in insides:
            stream = bz2.compress(inside)
            cases += [(b"123" + stream + b"tail", 3, cap) for cap in (len(inside) + 1, len(inside), max(0, len(inside) - 1), 1000)]
            cases += [(stream[:length], 0, 1 << 22) for length in (3, 4, 14, len(stream) // 2, len(stream) - 1)]
            for _ in range(20):
                damaged = bytearray(stream)
                damaged[chance.randrange(len(stream))] ^= 1 << chance.randrange(8)
                cases.append((bytes(damaged), 0, 1 << 22))
        at_once = 0
        for case in cases:
            given = outcome(*case)
            at_once += bzip2._at_once(*case) is not None
            with mock.patch.object(bzip2, "_calls", lambda: None):
                self.assertEqual(outcome(*case), given)
        self.assertGreaterEqual(at_once, 10)

    def test_pipe(self):
        ours, its = os.pipe()
        os.write(its, files()["N0QLOT"])
        os.close(its)
        self.assertEqual(reader().open("/dev/fd/%d" % ours).body, samples.body_of(files()["N0QLOT"]))
        os.close(ours)

    def test_file_of_too_many_bytes(self):
        path = self.path("huge")
        with open(path, "wb") as file:
            file.truncate(product_file.FILE_CAP + 1)
        self.assertIn("bytes", self.bad(path, yasgulet.BadFile))

    def test_random_damage(self):
        chance = random.Random(9)
        names = sorted(files())
        for _ in range(400):
            data = bytearray(files()[chance.choice(names)])
            for _ in range(chance.randrange(1, 6)):
                data[chance.randrange(min(len(data), 200))] = chance.randrange(256)
            try:
                reader().with_gaps(bytes(data))
            except yasgulet.Level3Error as error:
                self.assertTrue(str(error))


if __name__ == "__main__":
    unittest.main()
