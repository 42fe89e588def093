"""One version everywhere, the header and the package's declarations, and what make install puts under a prefix."""
import os
import re
import shutil
import subprocess

from common import ROOT, Folder, default, files, unittest, yasgulet
from yasgulet.library import ENTRIES, FLOATS, INTS


def text(path):
    with open(os.path.join(ROOT, path)) as file:
        return file.read()


class Version(unittest.TestCase):
    def test_one_version(self):
        version = text("hosts/VERSION").strip()
        self.assertEqual(yasgulet.__version__, version)
        self.assertIn('version = "%s"' % version, text("hosts/python/pyproject.toml"))
        macro = re.search(r"#define L3_VERSION (\d+)", text("crates/capi/l3.h"))
        if macro:
            self.assertEqual(int(macro[1]), sum(int(x) * y for x, y in zip(version.split("."), (10000, 100, 1))))

    def test_of_the_library(self):
        self.assertEqual(".".join(map(str, default().version() or ())), yasgulet.__version__)


class Header(unittest.TestCase):
    def test_arguments(self):
        header = re.sub(r"/\*.*?\*/", "", text("crates/capi/l3.h"), flags=re.S)
        declared = {name: arguments for name, arguments in re.findall(r"uint32_t (l3_\w+)\(([^)]*)\);", header)}
        self.assertGreater(len(declared), 20)
        kinds = {"uint64_t": "c_ulong", "uint32_t": "c_uint", "uint16_t": "c_ushort", "int16_t": "c_short", "float": "c_float", "size_t": "c_ulong"}
        self.assertEqual([name for name in ENTRIES if name not in declared], [])
        for name, mine in ENTRIES.items():
            theirs = [a for a in (" ".join(a.split()) for a in declared[name].split(",")) if a and a != "void"]
            self.assertEqual(len(theirs), len(mine), name)
            for argument, kind in zip(theirs, mine):
                if "*" in argument:
                    self.assertIn(kind.__name__, ("c_void_p", "c_char_p"), (name, argument))
                    self.assertEqual(kind.__name__ == "c_char_p", argument.startswith("const uint8_t"), (name, argument))
                else:
                    self.assertEqual(kind.__name__, kinds[argument.split()[0]], (name, argument))

    def test_every_entry_is_fuzzed(self):
        declared = re.findall(r"uint32_t (l3_\w+)\(", re.sub(r"/\*.*?\*/", "", text("crates/capi/l3.h"), flags=re.S))
        fuzzed = re.findall(r'add\("(l3_\w+)"', text("hosts/c/fuzz.c"))
        self.assertEqual(sorted(fuzzed), sorted({*declared, "l3_product", "l3_version", "l3_refusal_name"}))

    def test_report(self):
        header = text("crates/capi/l3.h")
        self.assertEqual(int(re.search(r"L3_INTS = (\d+)", header)[1]), INTS)
        self.assertEqual(int(re.search(r"L3_FLOATS = (\d+)", header)[1]), FLOATS)


@unittest.skipUnless(shutil.which("make") and shutil.which("cc") and os.environ.get("CAPI"), "make, cc or the archive is not at hand")
class Install(Folder):
    def call(self, *words, **more):
        end = subprocess.run(words, capture_output=True, text=True, cwd=ROOT, **more)
        self.assertEqual(end.returncode, 0, end.stderr)
        return end.stdout

    def test_prefix(self):
        prefix, build = self.path("prefix"), self.path("build")
        self.call("make", "install", "PREFIX=" + prefix, "BUILD=" + build, "CAPI=" + os.environ["CAPI"])
        version = yasgulet.__version__
        for name in ("lib/libyasgulet.a", "lib/libyasgulet.so", "lib/libyasgulet.so." + version, "include/l3.h", "include/l3_version.h",
                     "lib/pkgconfig/yasgulet.pc"):
            self.assertTrue(os.path.exists(os.path.join(prefix, name)), name)
        flags = ["-I%s/include" % prefix, "-L%s/lib" % prefix, "-lyasgulet"]
        if shutil.which("pkg-config"):
            where = dict(os.environ, PKG_CONFIG_PATH=prefix + "/lib/pkgconfig")
            self.assertEqual(self.call("pkg-config", "--modversion", "yasgulet", env=where).strip(), version)
            self.assertEqual(self.call("pkg-config", "--cflags", "--libs", "yasgulet", env=where).split(), flags)
        program = self.path("example")
        self.call("cc", "-Wall", "-Wextra", "-Werror", "-o", program, "hosts/c/example.c", *flags)
        path = self.put("N0RLOT", files()["N0RLOT"])
        out = self.call(program, path, "3", "1", env=dict(os.environ, LD_LIBRARY_PATH=prefix + "/lib"))
        self.assertEqual(out, "N0RLOT product 19, 360 by 230, 6256 cells with a value, the largest 60\n")
        if shutil.which("nm"):
            names = [line.split()[-1] for line in self.call("nm", "-D", "--defined-only", prefix + "/lib/libyasgulet.so").splitlines()]
            self.assertTrue(names and all(name.startswith("l3_") for name in names), names)


if __name__ == "__main__":
    unittest.main()
