"""The command line: python3 -m yasgulet COMMAND FILES."""
from __future__ import annotations

import argparse
import multiprocessing
import os
import signal
import sys
import warnings
from concurrent.futures import BrokenExecutor, ProcessPoolExecutor
from typing import Any, Callable, Dict, Iterator, List, NoReturn, Optional

from . import __version__, rainbook
from .commands import Task, attempt, folder_files
from .errors import Level3Error
from .files import abandon
from .forms import read_plan
from .library import Library
from .picture import LARGEST, SMALLEST
from .products import parse_scheme
from .reader import Reader, SchemeWarning

#: Exit statuses: all went well; some file was bad; nothing could be begun. Ended by a signal: 128 and its number.
GOOD, SOME_BAD, NOT_BEGUN = 0, 1, 2

EPILOG = """A folder stands for the files in it. A bad file is told on standard error and does not stop the others; the exit status is then 1. It is
0 if all were good, and 2 if nothing could be begun: a wrong command line, no library, or one without the entry that the command needs."""


def _number(kind: Callable[[str], float], low: float, high: float) -> Callable[[str], float]:
    """A number of a kind, int or float, within bounds."""
    def parse(text: str) -> float:
        try:
            value = kind(text)
        except ValueError:
            raise argparse.ArgumentTypeError("%r is no %snumber" % (text, "whole " if kind is int else "")) from None
        if not low <= value <= high:
            raise argparse.ArgumentTypeError("%s is not from %s to %s" % (text, low, high))
        return value
    return parse


def _scheme(text: str) -> str:
    try:
        parse_scheme(text)
    except ValueError as error:
        raise argparse.ArgumentTypeError(str(error)) from None
    return text


def parser() -> argparse.ArgumentParser:
    """The command line's grammar."""
    top = argparse.ArgumentParser(prog="yasgulet", description="NEXRAD Level III product files: figures, pictures and tables.", epilog=EPILOG)
    top.add_argument("--version", action="store_true", help="the version of this package and of the library")
    commands = top.add_subparsers(dest="command", metavar="COMMAND")
    common = argparse.ArgumentParser(add_help=False)
    common.add_argument("--library", metavar="FILE", help="the libyasgulet.so to use")
    common.add_argument("--clock", type=_number(int, 0, 1 << 40), metavar="SECONDS", help="the present in seconds since 1970, by default the system's")
    common.add_argument("--quiet", action="store_true", help="no progress line")
    one = argparse.ArgumentParser(add_help=False)
    one.add_argument("--scheme", type=_scheme, help="halfword, float, precipitation:FACTOR, legacy:POSTSCALE or class, in place of the product table's")
    one.add_argument("--gate", type=_number(float, 1, 100_000), metavar="METRES", help="the gate length in place of the product table's")
    gaps = argparse.ArgumentParser(add_help=False)
    gaps.add_argument("--gaps", action="store_true", help="a radial whose data make no row becomes a gap, where the product is otherwise refused")
    many = argparse.ArgumentParser(add_help=False)
    many.add_argument("files", nargs="+", metavar="FILE", help="product files or folders of them")
    many.add_argument("--jobs", type=_number(int, 1, 256), default=1, metavar="N", help="how many files to work on at once")
    out = argparse.ArgumentParser(add_help=False)
    out.add_argument("-o", "--output", metavar="PATH", help="the file to write, or the folder for more than one; by default beside each file")
    look = argparse.ArgumentParser(add_help=False)
    look.add_argument("--size", type=_number(int, SMALLEST, LARGEST), default=800, metavar="PIXELS", help="height and width of the picture (800)")
    look.add_argument("--range", dest="range_km", type=_number(float, 1, 2000), metavar="KM", help="the range at the edge, by default that of the last gate")
    look.add_argument("--no-rings", action="store_true", help="without range rings")
    look.add_argument("--plan", dest="outlined", metavar="PLAN", help="a field plan, whose fields are outlined")
    commands.add_parser("show", parents=[many, one, gaps, common], help="head and figures")
    commands.add_parser("png", parents=[many, out, one, gaps, look, common], help="the polar picture")
    table = commands.add_parser("csv", parents=[many, out, one, gaps, common], help="the cells as a table")
    table.add_argument("--all", action="store_true", help="cells without a value too, with the reason")
    export = commands.add_parser("export", parents=[many, out, common], help="a product file of packet 16 from one of packet AF1F")
    export.add_argument("--body", action="store_true", help="the packet 16 body alone")
    commands.add_parser("check", parents=[many, one, common], help="whether a file may enter an archive: no stray bytes")
    merge = commands.add_parser("merge", parents=[out, one, look, common], help="two receptions of one product as one")
    merge.add_argument("files", nargs=2, metavar="FILE")
    merge.add_argument("--csv", dest="table", metavar="FILE", help="also write the cells as a table")
    rainbook.add_commands(commands, many, common)
    return top


ENDINGS = {"png": ".png", "csv": ".csv", "export": ".packet16"}
NEEDS = {"check": "l3_strict", "merge": "l3_merge", "export": "l3_export16", "account": "l3_plan_totals", "plan": "l3_plan_totals"}


def tasks(arguments: argparse.Namespace, reader: Reader) -> List[Task]:
    """One task for each file; ValueError for outputs that would overwrite each other or an input."""
    options = {name: value for name, value in vars(arguments).items() if name in ("scheme", "gate", "gaps", "size", "no_rings", "all", "body", "table")}
    reach = getattr(arguments, "range_km", None)
    options["reach"] = reach * 1000 if reach else None
    outlined: Optional[str] = getattr(arguments, "outlined", None)
    if outlined:
        options["outlined"] = read_plan(reader, outlined)
    plans = [os.path.realpath(outlined)] if outlined else []
    output = getattr(arguments, "output", None)
    if arguments.command == "merge":
        outputs = [path for path in (output, arguments.table) if path]
        places = [os.path.realpath(path) for path in outputs]
        for path, place in zip(outputs, places):
            if place in plans or place in map(os.path.realpath, arguments.files) or places.count(place) > 1:
                raise ValueError("%s would be written, and is named for another file too" % path)
        return [Task("merge", list(arguments.files), output, options)]
    files = [file for file in folder_files(arguments.files) if os.path.realpath(file) not in plans]  # it may stand in the products' folder
    if not files:
        raise ValueError("no files in %s" % ", ".join(arguments.files))
    ending = ENDINGS.get(arguments.command)
    if ending is None:
        return [Task(arguments.command, [file], None, options) for file in files]
    single = len(files) == 1 and not os.path.isdir(arguments.files[0])
    as_folder = output is not None and (not single or os.path.isdir(output) or output.endswith(os.sep))
    if as_folder:
        os.makedirs(output, exist_ok=True)
    made: Dict[str, str] = {os.path.realpath(file): file for file in [*files, *plans]}
    found = []
    for file in files:
        path = file + ending if output is None else os.path.join(output, os.path.basename(file) + ending) if as_folder else output
        if os.path.realpath(path) in made:
            raise ValueError("%s would be written for %s and is there for %s" % (path, file, made[os.path.realpath(path)]))
        made[os.path.realpath(path)] = file
        found.append(Task(arguments.command, [file], path, options))
    return found


_reader: Optional[Reader] = None


def _begin(library: Optional[str], clock: Optional[int]) -> None:
    """The library, and no second word on schemes, which every command tells by itself."""
    global _reader
    warnings.simplefilter("ignore", SchemeWarning)
    _reader = Reader(Library(library) if library else None, clock)


def _attempt(task: Task) -> Dict[str, Any]:
    assert _reader is not None
    return attempt(task, _reader)


def _begin_process(library: Optional[str], clock: Optional[int]) -> None:
    """The same in each of several processes. Ctrl-C is for the first of them, which ends the others."""
    signal.signal(signal.SIGINT, signal.SIG_IGN)
    signal.signal(signal.SIGTERM, _end)
    _begin(library, clock)


def _end(number: int, frame: object) -> NoReturn:
    """Ends this process and those that it began, at once; what is half written is taken away."""
    for one in (signal.SIGINT, signal.SIGTERM):
        signal.signal(one, signal.SIG_IGN)
    others = multiprocessing.active_children()
    for other in others:
        other.terminate()
    for other in others:
        other.join()
    abandon()
    if number == signal.SIGINT:
        os.write(2, b"yasgulet: interrupted\n")
    os._exit(128 + number)


def _answers(todo: List[Task], jobs: int, library: Optional[str], clock: Optional[int]) -> Iterator[Dict[str, Any]]:
    """The answer to each task in turn. If a process is ended from outside, the first file without an answer is tried again alone."""
    if jobs == 1 or len(todo) == 1:
        yield from map(_attempt, todo)
        return
    done, alone = 0, False
    while done < len(todo):
        part = todo[done:done + 1] if alone else todo[done:]
        pool = ProcessPoolExecutor(min(jobs, len(part)), initializer=_begin_process, initargs=(library, clock))
        try:
            for answer in pool.map(_attempt, part, chunksize=max(1, min(8, len(part) // (4 * jobs)))):
                done += 1
                yield answer
            alone = False
        except BrokenExecutor:
            if alone:
                done += 1
                yield {"error": "%s: the process that read it was ended from outside" % part[0].files[0]}
            alone = not alone
        finally:
            pool.shutdown(cancel_futures=True)


def main(words: Optional[List[str]] = None) -> int:
    """Runs the command line; returns the exit status."""
    for number in (signal.SIGINT, signal.SIGTERM):
        signal.signal(number, _end)
    for stream in (sys.stdout, sys.stderr):  # names of files may be any bytes
        stream.reconfigure(errors="backslashreplace")  # type: ignore[union-attr]
    grammar = parser()
    arguments = grammar.parse_args(words)
    try:
        if arguments.version:
            library = Library()
            numbers = library.version()
            print("yasgulet %s, library %s at %s" % (__version__, ".".join(map(str, numbers)) if numbers else "without a version", library.path))
            return GOOD
        if not arguments.command:
            grammar.print_help(sys.stderr)
            return NOT_BEGUN
        _begin(arguments.library, arguments.clock)
        assert _reader is not None
        if arguments.command in NEEDS:
            _reader.library.function(NEEDS[arguments.command])
        book = rainbook.begin(arguments, _reader) if arguments.command in rainbook.COMMANDS else None
        todo = [] if book else tasks(arguments, _reader)
    except (Level3Error, ValueError, OSError) as error:
        print("yasgulet: %s" % error, file=sys.stderr)
        return NOT_BEGUN
    try:
        if book:
            return book(lambda todo: _answers(todo, arguments.jobs, arguments.library, arguments.clock))
        return _work(todo, arguments)
    except OSError as error:  # of standard output: a bad file's is told where it is read
        os.dup2(os.open(os.devnull, os.O_WRONLY), sys.stdout.fileno())
        if not isinstance(error, BrokenPipeError):
            print("yasgulet: standard output: %s" % error.strerror, file=sys.stderr)
        return SOME_BAD


def _work(todo: List[Task], arguments: argparse.Namespace) -> int:
    """Carries out the tasks and tells of each; the exit status."""
    several, terminal = len(todo) > 1, sys.stderr.isatty()
    progress = several and terminal and not arguments.quiet
    done = bad = 0
    for answer in _answers(todo, getattr(arguments, "jobs", 1), arguments.library, arguments.clock):
        if progress:
            sys.stderr.write("\r\x1b[K")
        if several and done and answer.get("text") and arguments.command == "show":
            sys.stdout.write("\n")
        sys.stdout.write(answer.get("text", "") + ("" if several or arguments.quiet else answer.get("wrote", "")))
        sys.stdout.flush()
        for words in (answer.get("error"), answer.get("notes")):
            if words:
                print(words, file=sys.stderr)
        done += 1
        bad += "error" in answer
        if progress:
            sys.stderr.write("%d of %d files%s" % (done, len(todo), ", %d bad" % bad if bad else ""))
            sys.stderr.flush()
    if progress:
        sys.stderr.write("\n")
    elif several and not arguments.quiet:
        print("%d files, %d bad" % (len(todo), bad), file=sys.stderr)
    return SOME_BAD if bad else GOOD


if __name__ == "__main__":
    sys.exit(main())
