"""What the tests share: the sample files, made once, and a reader whose clock stands just after their scans."""
import os
import shutil
import subprocess
import sys
import tempfile
import unittest
from contextlib import contextmanager
from functools import lru_cache
from typing import Any, Dict, Iterator, Tuple

HERE = os.path.dirname(os.path.abspath(__file__))
ROOT = os.path.dirname(os.path.dirname(os.path.dirname(HERE)))
sys.path[:0] = [HERE, os.path.dirname(HERE)]

import samples  # noqa: E402
import yasgulet  # noqa: E402
from yasgulet.library import ENTRIES, Library, default  # noqa: E402

CLOCK = samples.TIME + 3600

@lru_cache(maxsize=None)
def files() -> Dict[str, bytes]:
    """Bytes of the samples by name."""
    return {sample.name: sample.data for sample in samples.samples()}


def made(name: str) -> samples.Sample:
    """A sample with what stands in it."""
    return next(sample for sample in samples.samples() if sample.name == name)


@lru_cache(maxsize=None)
def large() -> bytes:
    """A sample of 720 by 1,840."""
    return samples.large()


def reader(**options: Any) -> yasgulet.Reader:
    """A reader whose clock stands an hour after the samples' scans."""
    return yasgulet.Reader(clock=CLOCK, **options)


def read(name: str, gaps: bool = False) -> yasgulet.Sweep:
    """The sweep of a sample."""
    one = reader()
    return (one.with_gaps if gaps else one.sweep)(files()[name])


class Folder(unittest.TestCase):
    """A test with a folder of its own."""

    def setUp(self) -> None:
        self.folder = tempfile.mkdtemp(prefix="yasgulet-test-")
        self.addCleanup(shutil.rmtree, self.folder)

    def path(self, name: str) -> str:
        """The path of a file in the folder."""
        return os.path.join(self.folder, name)

    def put(self, name: str, data: bytes) -> str:
        """Writes a file there; its path."""
        with open(self.path(name), "wb") as file:
            file.write(data)
        return self.path(name)

    def get(self, name: str) -> bytes:
        """What a file there holds."""
        with open(self.path(name), "rb") as file:
            return file.read()

    def samples(self, *names: str) -> None:
        """Writes samples there."""
        for name in names:
            self.put(name, files()[name])

    def run_it(self, *words: str, clock: bool = True, **options: Any) -> Tuple[int, str, str]:
        """Runs the command line there: its status, standard output and standard error."""
        end = subprocess.run([sys.executable, "-m", "yasgulet", *words, *(["--clock", str(CLOCK)] if clock else [])], cwd=self.folder, env=environment(),
                             timeout=300, **{"capture_output": True, "text": True, **options})
        return end.returncode, end.stdout, end.stderr


@contextmanager
def older(*missing: str) -> Iterator[Library]:
    """A library that lacks some entries, made of the archive that hosts/check names in CAPI."""
    with tempfile.TemporaryDirectory() as folder:
        script, path = os.path.join(folder, "exports"), os.path.join(folder, "libyasgulet.so")
        with open(script, "w") as file:
            file.write("{ global: %s local: *; };" % "".join(name + ";" for name in ENTRIES if name not in missing))
        subprocess.run(["cc", "-shared", "-o", path, "-Wl,--version-script," + script, "-Wl,--whole-archive", os.environ["CAPI"],
                        "-Wl,--no-whole-archive", "-lm"], check=True)
        yield Library(path)


def environment() -> Dict[str, str]:
    """The environment in which another process finds the package and the samples' module."""
    return dict(os.environ, PYTHONPATH=os.pathsep.join(sys.path))


__all__ = ["CLOCK", "Folder", "HERE", "Library", "ROOT", "default", "environment", "files", "large", "made", "older", "read", "reader", "samples", "unittest",
           "yasgulet"]
