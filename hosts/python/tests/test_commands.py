"""The command line."""
import os
import pty
import re
import signal
import struct
import subprocess
import sys
import time
from typing import List

from common import CLOCK, Folder, environment, files, made, samples, unittest


class Commands(Folder):
    def left_over(self) -> List[str]:
        """Files that were begun and not finished."""
        return [name for _, _, names in os.walk(self.folder) for name in names if name.startswith(".")]

    def tearDown(self) -> None:
        self.assertEqual(self.left_over(), [])

    def figure(self, name: str, out: str) -> str:
        """The figure of a line that show prints."""
        return re.search(r"^%s +(\S+)" % name, out, re.M)[1]

    def test_show(self):
        self.samples("N0QLOT", "N0QLOT.clear")
        status, out, err = self.run_it("show", "N0QLOT")
        self.assertEqual((status, err), (0, ""))
        for words in ("N0Q", "LOT", "2026-05-20 22:14:37 UTC", "41.604 degrees", "-88.085 degrees", "663 feet"):
            self.assertIn(words, out)
        cells = [code for row in made("N0QLOT").rows for code in row]
        for name, number in (("cells", 360 * 460), ("below floor", cells.count(0)), ("with a value", sum(c > 1 for c in cells)),
                             ("smallest value", -32 + (min(c for c in cells if c > 1) - 2) / 2), ("largest value", -32 + (max(cells) - 2) / 2)):
            self.assertEqual(float(self.figure(name, out)), number, name)
        self.assertIn("clear scan", self.run_it("show", "N0QLOT.clear")[1])

    def test_one_bad_file_does_not_stop_the_others(self):
        self.samples("N0QLOT.small", "N0RLOT.small")
        self.put("empty", b"")
        self.put("other", b"not a product file, but long enough to be looked at, and then some more words to have it longer than the header")
        os.mkdir(self.path("sub"))
        os.symlink("nowhere", self.path("link"))
        for jobs in ("1", "2"):
            status, out, err = self.run_it("png", ".", "-o", "out" + jobs, "--size", "240", "--jobs", jobs)
            self.assertEqual((status, out), (1, ""))
            self.assertEqual(sorted(os.listdir(self.path("out" + jobs))), ["N0QLOT.small.png", "N0RLOT.small.png"])
            self.assertIn("empty: the file is empty", err)
            self.assertIn("other: 1 NoAwipsToken", err)
            self.assertIn("link: No such file or directory", err)
            self.assertIn("5 files, 3 bad", err)
        for name in ("N0QLOT.small.png", "N0RLOT.small.png"):
            self.assertEqual(self.get("out1/" + name), self.get("out2/" + name))

    def test_many_jobs(self):
        for i in range(12):
            self.put("%02d" % i, files()["N0QLOT.small"])
        status, out, err = self.run_it("csv", ".", "-o", "out", "--jobs", "3")
        self.assertEqual((status, err), (0, "12 files, 0 bad\n"))
        self.assertEqual(len({self.get("out/%02d.csv" % i) for i in range(12)}), 1)
        self.assertEqual(self.run_it("show", ".", "00", "--quiet")[1].count("N0Q"), 12)  # one that is named twice is shown once

    def test_progress(self):
        for i in range(3):
            self.put("%02d" % i, files()["N0QLOT.small"] if i else b"")
        ours, its = pty.openpty()
        status = self.run_it("csv", ".", capture_output=False, stdout=subprocess.DEVNULL, stderr=its)[0]
        os.close(its)
        told = os.read(ours, 10_000).decode()
        os.close(ours)
        self.assertEqual(status, 1)
        for words in ("1 of 3 files, 1 bad", "2 of 3 files, 1 bad", "3 of 3 files, 1 bad\r\n", "00: the file is empty"):
            self.assertIn(words, told)

    def test_beside_the_files(self):
        self.samples("N0QLOT.small", "N0RLOT.small")
        for command, name in (("png", "N0QLOT.small.png"), ("csv", "N0QLOT.small.csv"), ("export", "N0RLOT.small.packet16")):
            status, out, err = self.run_it(command, name.rpartition(".")[0])
            self.assertEqual((status, err), (0, ""))
            self.assertTrue(out.startswith("wrote " + name), out)
            self.assertTrue(self.get(name))
        self.assertEqual(self.run_it("show", ".")[0], 0)  # its own output is not taken for product files

    def test_outputs_that_would_overwrite(self):
        for folder in "ab":
            os.mkdir(self.path(folder))
            self.put(folder + "/same", files()["N0RLOT.small"])
        for words, named in ((("png", "a", "b", "-o", "out"), "same.png"), (("png", "a/same", "-o", "a/same"), "a/same"),
                             (("csv", "a/same", "-o", "a/../a/same"), "a/same"), (("export", "a/same", "-o", "a/same"), "a/same"),
                             (("merge", "a/same", "b/same", "-o", "b/same"), "b/same"), (("merge", "a/same", "b/same", "--csv", "a/same"), "a/same"),
                             (("merge", "a/same", "b/same", "-o", "x", "--csv", "x"), "x"),
                             (("merge", "a/same", "b/same", "-o", "x", "--csv", "./x"), "x"),
                             (("merge", "a/same", "b/same", "-o", "a/../x", "--csv", "x"), "x")):
            status, _, err = self.run_it(*words)
            self.assertEqual(status, 2, words)
            self.assertIn(named, err)
        for folder in "ab":
            self.assertEqual(self.get(folder + "/same"), files()["N0RLOT.small"])

    def test_where_output_goes(self):
        self.samples("N0QLOT.small")
        os.mkdir(self.path("folder"))
        os.mkdir(self.path("folder/N0QLOT.small.csv"))
        self.put("old", b"old")
        os.symlink("old", self.path("link"))
        for output, said in (("no/such/folder.csv", "no/such/folder.csv: No such file"), ("folder", "folder/N0QLOT.small.csv: Is a directory")):
            status, _, err = self.run_it("csv", "N0QLOT.small", "-o", output)
            self.assertEqual(status, 1)
            self.assertIn(said, err)
        self.assertEqual(self.run_it("csv", "N0QLOT.small", "-o", "link")[0], 0)
        self.assertTrue(os.path.islink(self.path("link")))
        for output in ("-", "/dev/stdout", "/dev/stderr"):
            status, out, err = self.run_it("csv", "N0QLOT.small", "-o", output, "--quiet")
            self.assertEqual((status, (out + err).encode()), (0, self.get("old")))
        self.assertTrue(os.path.islink("/dev/stdout") and not os.path.exists(self.path("-")))
        if os.path.exists("/dev/full"):
            status, _, err = self.run_it("png", "N0QLOT.small", "-o", "/dev/full")
            self.assertEqual((status, err), (1, "/dev/full: No space left on device\n"))
            with open("/dev/full", "w") as full:
                status, _, err = self.run_it("show", "N0QLOT.small", capture_output=False, stdout=full, stderr=subprocess.PIPE)
            self.assertEqual((status, err), (1, "yasgulet: standard output: No space left on device\n"))

    def test_nobody_reads_on(self):
        for i in range(40):
            self.put("%02d" % i, files()["N0QLOT.small"])
        end = subprocess.run("'%s' -m yasgulet show . --quiet --clock %d | head -n 1" % (sys.executable, CLOCK), shell=True, capture_output=True,
                             text=True, cwd=self.folder, env=environment())
        self.assertEqual((end.stdout, end.stderr), ("./00\n", ""))

    def test_name_of_any_bytes(self):
        with open(os.path.join(self.folder.encode(), b"\xff\xfe"), "wb") as file:
            file.write(files()["N0QLOT.small"])
        with open(os.path.join(self.folder.encode(), b"\xff"), "wb"):
            pass
        status, out, err = self.run_it("show", ".")
        self.assertEqual(status, 1)
        self.assertIn(r"\udcff\udcfe", out)
        self.assertIn(r"\udcff: the file is empty", err)

    def test_gaps(self):
        self.samples("N0RLOT.gaps")
        status, _, err = self.run_it("show", "N0RLOT.gaps")
        self.assertEqual(status, 1)
        self.assertIn("22 RleExpansionMismatch", err)
        status, out, _ = self.run_it("show", "N0RLOT.gaps", "--gaps")
        self.assertEqual(status, 0)
        self.assertRegex(out, r"gap +1840\n")

    def test_another_scheme_is_told(self):
        self.samples("N0VLOT")
        for command in ("show", "png", "csv"):
            status, out, err = self.run_it(command, "N0VLOT", "--scheme", "legacy:1")
            self.assertEqual(status, 0)
            self.assertIn("scheme legacy:1 as given; the product table has legacy:0.514444 for product code 27", err)

    def test_wrong_words(self):
        self.samples("N0QLOT.small")
        for words, said in (([], "COMMAND"), (["fly", "x"], "fly"), (["show"], "FILE"), (["png", "N0QLOT.small", "--size", "1"], "240"),
                            (["png", "N0QLOT.small", "--size", "big"], "'big' is no whole number"),
                            (["show", "N0QLOT.small", "--gate", "x"], "'x' is no number"),
                            (["show", "N0QLOT.small", "--scheme", "legacy"], "legacy:POSTSCALE"), (["show", "N0QLOT.small", "--jobs", "0"], "1 to 256"),
                            (["show", "N0QLOT.small", "--library", "/nowhere.so"], "/nowhere.so"), (["merge", "N0QLOT.small"], "FILE")):
            status, _, err = self.run_it(*words, clock=bool(words[1:]))
            self.assertEqual(status, 2, words)
            self.assertIn(said, err)
            self.assertNotIn("Traceback", err)
        os.mkdir(self.path("none"))
        self.assertEqual(self.run_it("show", "none")[0], 2)
        status, _, err = self.run_it("show", "nothing-there")
        self.assertEqual(status, 1)
        self.assertIn("nothing-there: No such file", err)

    def test_version(self):
        import yasgulet
        status, out, _ = self.run_it("--version", clock=False)
        self.assertEqual(status, 0)
        self.assertIn("yasgulet %s, library %s at" % (yasgulet.__version__, yasgulet.__version__), out)

    def test_check(self):
        self.samples("N0RLOT", "N0RLOT.gaps", "N0RLOT.surplus", "N0QLOT.stray", "N0QLOT.clear", "DPRLOT")
        status, out, err = self.run_it("check", ".")
        self.assertEqual(status, 1)
        self.assertEqual(out, "./DPRLOT: good, DPR LOT, 360 radials of 240 bins\n./N0QLOT.clear: good, N0Q LOT, 0 radials of 1 bins\n"
                              "./N0RLOT: good, N0R LOT, 360 radials of 230 bins\n")
        for words in ("N0RLOT.gaps: 22 ", "N0RLOT.surplus: 45 SurplusInRow", "radial 30", "N0QLOT.stray: 46 SurplusAfterRadials", "6 files, 3 bad"):
            self.assertIn(words, err)

    def test_merge(self):
        self.samples("N0RLOT", "N0RLOT.gaps", "N0RLOT.second", "N0VLOT")
        status, out, err = self.run_it("merge", "N0RLOT.gaps", "N0RLOT.second", "-o", "m.png", "--csv", "m.csv")
        self.assertEqual((status, err), (0, ""))
        self.assertRegex(out, r"gaps +0 radials; 8 in the first, 3 in the second\nwrote m.png\nwrote m.csv, 6256 cells\n$")
        table = self.get("m.csv")
        status, out, _ = self.run_it("merge", "N0RLOT.gaps", "N0RLOT.second", "--csv", "-", "--quiet")  # no figures behind the table
        self.assertEqual((status, out.encode()), (0, table))
        self.run_it("png", "N0RLOT")
        self.run_it("csv", "N0RLOT")
        self.assertEqual((self.get("m.png"), self.get("m.csv")), (self.get("N0RLOT.png"), self.get("N0RLOT.csv")))
        for name, product, site in (("tilt", "N1R", "LOT"), ("site", "N0R", "LOX")):  # alike but for the name
            self.put(name, files()["N0RLOT.second"].replace(b"N0RLOT", (product + site).encode()))
        for pair, said in ((("N0RLOT.gaps", "N0VLOT"), "N0RLOT.gaps and N0VLOT: the two files are not receptions of one product: N0R LOT and N0V LOT"),
                           (("N0RLOT.gaps", "tilt"), "the two files are not receptions of one product: N0R LOT and N1R LOT"),
                           (("N0RLOT.gaps", "site"), "the two files are not receptions of one product: N0R LOT and N0R LOX"),
                           (("N0RLOT.gaps", "none"), "none: No such file")):
            status, _, err = self.run_it("merge", *pair, "-o", "no.png")
            self.assertEqual(status, 1)
            self.assertIn(said, err)
        self.assertFalse(os.path.exists(self.path("no.png")))

    def test_plan_in_the_picture(self):
        os.mkdir(self.path("in"))
        for name in ("a", "b"):
            self.put("in/" + name, files()["N0QLOT.small"])
        self.put("in/block.plan", b"field 1\nstrip 2 3 4 5\n")
        self.put("wrong.plan", b"field 1\nstrip 2 3 0 5\n")
        self.assertEqual(self.run_it("png", "in", "-o", "out", "--plan", "in/block.plan", "--jobs", "2")[::2], (0, "2 files, 0 bad\n"))
        self.run_it("png", "in/a", "-o", "plain.png")
        self.run_it("merge", "in/a", "in/b", "-o", "merged.png", "--plan", "in/block.plan")
        self.assertEqual(sorted(os.listdir(self.path("out"))), ["a.png", "b.png"])
        self.assertEqual(len({self.get(name) for name in ("out/a.png", "out/b.png", "merged.png")}), 1)
        self.assertNotEqual(self.get("out/a.png"), self.get("plain.png"))
        for words, said in ((("png", "in/a", "--plan", "wrong.plan"), "wrong.plan:2: 37 PlanMalformed"), (("png", "in/a", "--plan", "none"), "none"),
                            (("png", "in/a", "--plan", "in/block.plan", "-o", "in/block.plan"), "in/block.plan"),
                            (("merge", "in/a", "in/b", "--plan", "in/block.plan", "-o", "in/block.plan"), "in/block.plan")):
            status, _, err = self.run_it(*words)
            self.assertEqual(status, 2, err)
            self.assertIn(said, err)

    def test_pipes(self):
        """What can be read but once is read once."""
        self.samples("N0RLOT.gaps", "N0RLOT.second")
        for words in (("merge", "-o", "%s.png"), ("merge", "--csv", "%s.csv")):
            expected = self.run_it(*words[:2], words[2] % "files", "N0RLOT.gaps", "N0RLOT.second")
            ends = []
            for name in ("N0RLOT.gaps", "N0RLOT.second"):
                ours, its = os.pipe()
                os.write(its, files()[name])
                os.close(its)
                ends.append(ours)
            status, out, err = self.run_it(*words[:2], words[2] % "pipes", *("/dev/fd/%d" % end for end in ends), pass_fds=ends)
            self.assertEqual((status, err), (0, ""))
            for end in ends:
                os.close(end)
            self.assertEqual(out.splitlines()[1:-1], expected[1].splitlines()[1:-1])
            self.assertEqual(self.get(words[2] % "pipes"), self.get(words[2] % "files"))

    def test_export_tells_what_it_leaves_out(self):
        tabular = struct.pack(">hhi", -1, 3, 8 + 20) + bytes(20)
        body = samples.body_of(files()["N0RLOT.small"])
        for packed in (False, True):
            self.put("N0R", samples.product_file("N0R", 19, samples.thresholds(samples.LEGACY_DBZ), body + tabular, packed))
            status, out, err = self.run_it("export", "N0R")
            self.assertEqual((status, out), (0, "wrote N0R.packet16\n"))
            self.assertEqual(err, "N0R: note: left out: 28 bytes of graphic and tabular blocks after the symbology\n")
            self.assertEqual(self.run_it("export", "--body", "N0R", "-o", "body"), (0, "wrote body\n", ""))
            status, out, err = self.run_it("export", "N0R", "N0R", "-o", "out" + os.sep)
            self.assertEqual((status, err.count("left out: 28 bytes")), (0, 1))

    def test_export(self):
        self.samples("N0RLOT", "N0VLOT", "N0QLOT")
        status, _, err = self.run_it("export", ".", "-o", "out")
        self.assertEqual(status, 1)
        self.assertIn("14 UnsupportedPacketCode (only packet AF1F is exported): code 16", err)
        self.assertEqual(sorted(os.listdir(self.path("out"))), ["N0RLOT.packet16", "N0VLOT.packet16"])
        status, out, _ = self.run_it("show", "out/N0RLOT.packet16", "--scheme", "class")
        self.assertEqual((status, self.figure("packet", out)), (0, "16"))
        self.run_it("export", "--body", "N0RLOT")
        self.assertEqual(self.get("N0RLOT.packet16"), samples.body16(made("N0RLOT").rows, 999))

    def test_a_process_that_is_ended(self):
        """One of several processes is lost on a file: that file is told, the others are read."""
        for i in range(9):
            self.put("%02d" % i, files()["N0QLOT.small"])
        words = ("import os, signal, sys, yasgulet.__main__ as m; own = m.attempt\n"
                 "m.attempt = lambda task, reader: os.kill(os.getpid(), %s) if '05' in task.files[0] else own(task, reader)\n"
                 "import multiprocessing; multiprocessing.set_start_method('fork')\n"
                 "sys.exit(m.main(['csv', '.', '--jobs', '2', '--clock', '%d']))")
        for number in ("signal.SIGKILL", "signal.SIGTERM"):
            end = subprocess.run([sys.executable, "-c", words % (number, CLOCK)], cwd=self.folder, capture_output=True, text=True, env=environment(),
                                 timeout=120)
            self.assertEqual((end.returncode, end.stderr), (1, "./05: the process that read it was ended from outside\n9 files, 1 bad\n"))
            self.assertEqual([i for i in range(9) if not os.path.exists(self.path("%02d.csv" % i))], [5])
            for i in (0, 1, 2, 3, 4, 6, 7, 8):
                os.unlink(self.path("%02d.csv" % i))

    def test_interrupted(self):
        for i in range(200):
            self.put("%03d" % i, files()["N0QLOT"])
        for jobs in ("1", "2"):
            for number, status in ((signal.SIGINT, 130), (signal.SIGTERM, 143)):
                out = "out%s.%d" % (jobs, number)
                going = subprocess.Popen([sys.executable, "-m", "yasgulet", "png", ".", "-o", out, "--jobs", jobs, "--clock", str(CLOCK)], cwd=self.folder,
                                         env=environment(), stderr=subprocess.PIPE, text=True)
                end = time.monotonic() + 60
                while time.monotonic() < end and not (os.path.isdir(self.path(out)) and any(n[0] != "." for n in os.listdir(self.path(out)))):
                    time.sleep(.01)
                going.send_signal(number)
                err = going.communicate(timeout=60)[1]
                self.assertEqual((going.returncode, err), (status, "yasgulet: interrupted\n" if number == signal.SIGINT else ""))
                made_ = os.listdir(self.path(out))
                self.assertTrue(0 < len(made_) < 200)
                self.assertEqual(len({self.get(os.path.join(out, name)) for name in made_}), 1)


if __name__ == "__main__":
    unittest.main()
