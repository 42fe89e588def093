"""How fast the package is, on a machine that does nothing else.

    python3 speed.py [FILES]

Prints, each as the best of several runs: bzip2's own time on a product of 720 x 1,840, file to numbers and the ratio of the two; a picture
of 800 x 800, the first and a later one; a table; FILES (100) files to pictures with one and with two jobs; reading them with one and with
two threads. Processor times stand beside those by the clock. YASGULET_LIBRARY names the library if it is not the built one.
"""
import bz2
import os
import subprocess
import sys
import tempfile
import threading
import time
from typing import Callable, List, Sequence, Tuple

from common import CLOCK, environment, large, reader, samples
from yasgulet import picture


def once(work: Callable[[], object]) -> Tuple[float, float]:
    """Time by the clock and of the processor, in seconds."""
    a, b = time.perf_counter(), time.process_time()
    work()
    return time.perf_counter() - a, time.process_time() - b


def best(work: Callable[[], object], times: int) -> Tuple[float, float]:
    """The best of several times."""
    clock, processor = zip(*(once(work) for _ in range(times)))
    return min(clock), min(processor)


def in_turn(works: Sequence[Callable[[], object]], rounds: int, times: int = 3) -> List[Tuple[float, float]]:
    """The best times of several works, each done a few times before the next has its turn, so that the machine is alike to all."""
    found = [[best(work, times) for work in works] for _ in range(rounds)]
    return [(min(clock for clock, _ in one), min(processor for _, processor in one)) for one in zip(*found)]


def say(name: str, figures: Tuple[float, float]) -> None:
    """Prints a line."""
    print("%-44s %8.2f ms by the clock, %8.2f of the processor" % (name, figures[0] * 1e3, figures[1] * 1e3), flush=True)


def one_file() -> None:
    """One product: to numbers, to its picture, to its table."""
    data, one = large(), reader()
    stream = data[data.index(b"BZh"):]
    with tempfile.TemporaryDirectory() as folder:
        path = os.path.join(folder, "N0B")
        with open(path, "wb") as file:
            file.write(data)
        unpack, read = in_turn([lambda: bz2.BZ2Decompressor().decompress(stream), lambda: one.sweep(path)], 30)
        say("bzip2 alone, %d bytes" % len(stream), unpack)
        say("file to numbers, 720 x 1,840", read)
        print("%-44s %8.2f by the clock, %8.2f of the processor" % ("ratio", read[0] / unpack[0], read[1] / unpack[1]))
        sweep = one.sweep(path, gate=250)
        picture._quarter.cache_clear()
        say("picture of 800 x 800, the first", best(lambda: sweep.save_png(os.path.join(folder, "a.png")), 1))
        say("picture of 800 x 800, a later one", best(lambda: one.sweep(path, gate=250).save_png(os.path.join(folder, "a.png")), 5))
        say("table of %d cells" % sweep.save_csv(os.path.join(folder, "a.csv")), best(lambda: sweep.save_csv(os.path.join(folder, "a.csv")), 2))


def many_files(count: int) -> None:
    """Many products, with one and two jobs, and with one and two threads."""
    with tempfile.TemporaryDirectory() as folder:
        made = [samples.large(i) for i in range(4)]
        source = os.path.join(folder, "in")
        os.mkdir(source)
        for i in range(count):
            with open(os.path.join(source, "N0B.%03d" % i), "wb") as file:
                file.write(made[i % len(made)])
        figures = []
        for jobs in (1, 2):
            began = time.perf_counter()
            subprocess.run([sys.executable, "-m", "yasgulet", "png", source, "-o", os.path.join(folder, str(jobs)), "--jobs", str(jobs), "--quiet",
                            "--clock", str(CLOCK)], check=True, env=environment())
            figures.append(time.perf_counter() - began)
        print("%d files to pictures: one job %.2f s, two jobs %.2f s, ratio %.2f" % (count, *figures, figures[0] / figures[1]), flush=True)
        one, figures = reader(), []
        for threads in (1, 2):
            def work(part: int, threads: int = threads) -> None:
                for i in range(part, count, threads):
                    one.sweep(made[i % len(made)])
            began = time.perf_counter()
            running = [threading.Thread(target=work, args=(part,)) for part in range(threads)]
            [t.start() for t in running]
            [t.join() for t in running]
            figures.append(time.perf_counter() - began)
        print("%d files to numbers: one thread %.2f s, two threads %.2f s, ratio %.2f" % (count, *figures, figures[0] / figures[1]), flush=True)


if __name__ == "__main__":
    one_file()
    many_files(int(sys.argv[1]) if len(sys.argv) > 1 else 100)
