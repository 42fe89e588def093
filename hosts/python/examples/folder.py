"""Maps a function over a folder of product files with an existing engine, and prints the time with one worker and with two.

    python3 folder.py FOLDER [processes|dask]

The function here finds the strongest cell of each product. With `dask` the engine is Dask's bag with its process scheduler; with
`processes`, which is the default, the standard library's process pool.
"""
import os
import sys
import time
from concurrent.futures import ProcessPoolExecutor
from typing import Any, List, Tuple

sys.path.insert(0, os.path.join(os.path.dirname(os.path.abspath(__file__)), ".."))
import yasgulet  # noqa: E402


def strongest(path: str) -> Tuple[Any, ...]:
    """Name, largest value, azimuth and range in km of a product's strongest cell; the error's text for one that can't be read."""
    try:
        sweep = yasgulet.read(path, gaps=True)
    except (yasgulet.Level3Error, OSError) as error:
        return os.path.basename(path), str(error)
    counts = sweep.code_counts()
    valid = [code for code in counts if sweep.code_reasons[code] == yasgulet.Reason.VALUE]
    if not valid:
        return os.path.basename(path), "no cell has a value"
    code = max(valid, key=lambda c: sweep.code_values[c])
    cell = sweep.cells_by_code(bytes(c == code for c in range(len(sweep.code_values)))).index(1)
    radial, k = divmod(cell, sweep.bins)
    return os.path.basename(path), sweep.code_values[code], sweep.unit, round(sweep.azimuths[radial], 2), round(sweep.range_of(k) / 1000, 2)


def with_processes(paths: List[str], workers: int) -> List[Tuple[Any, ...]]:
    """By the standard library's process pool."""
    with ProcessPoolExecutor(workers) as pool:
        return list(pool.map(strongest, paths, chunksize=max(1, len(paths) // (4 * workers))))


def with_dask(paths: List[str], workers: int) -> List[Tuple[Any, ...]]:
    """By Dask's bag."""
    import dask.bag
    return dask.bag.from_sequence(paths, npartitions=4 * workers).map(strongest).compute(scheduler="processes", num_workers=workers)


def main(words: List[str]) -> int:
    """Maps over the folder twice; the exit status."""
    engines = {"processes": with_processes, "dask": with_dask}
    if len(words) not in (2, 3) or not os.path.isdir(words[1]) or words[2:] and words[2] not in engines:
        print(__doc__, file=sys.stderr)
        return 2
    paths = [path for path in (os.path.join(words[1], name) for name in sorted(os.listdir(words[1]))) if os.path.isfile(path)]
    times = []
    for workers in (1, 2):
        began = time.perf_counter()
        try:
            found = engines[words[2] if words[2:] else "processes"](paths, workers)
        except ImportError:
            print("Dask is not installed", file=sys.stderr)
            return 2
        times.append(time.perf_counter() - began)
    for line in found:
        print(*line)
    print("%d files: one worker %.2f s, two workers %.2f s, ratio %.2f" % (len(paths), *times, times[0] / times[1]))
    return 0


if __name__ == "__main__":
    sys.exit(main(sys.argv))
