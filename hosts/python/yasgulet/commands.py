"""What each command does with one file. A command's text goes to standard output, its files to where the options say."""
from __future__ import annotations

import os
from typing import Any, Callable, Dict, List, NamedTuple, Optional

from . import account
from .errors import Level3Error
from .files import STANDARD_OUTPUT, write_whole
from .picture import save_png
from .product_file import ProductFile
from .products import TITLES, scheme_text, short
from .reader import Reader
from .sweep import PACKET_AF1F, Reason, Sweep
from .table import save_csv


class Task(NamedTuple):
    """A command for one product (merge: two files), its output file if it has one, and the options."""

    command: str
    files: List[str]
    output: Optional[str]
    options: Dict[str, Any]


def read(reader: Reader, task: Task, files: List[ProductFile]) -> Sweep:
    """The sweep that the command is about, from its opened files."""
    options = task.options
    arguments = {"scheme": options.get("scheme"), "gate": options.get("gate")}
    if task.command == "merge":
        return reader.merge(files[0], files[1], **arguments)
    if task.command == "check":
        return reader.strict(files[0], **arguments)
    if options.get("gaps"):
        return reader.with_gaps(files[0], **arguments)
    return reader.sweep(files[0], **arguments)


def run(reader: Reader, task: Task) -> Dict[str, Any]:
    """Carries out a task; returns the text that is to be printed, and what a reader of the files should be told."""
    if task.command == "account":
        return account.answer(reader, task.files, task.options["plan"], task.options["tariff"])
    files = [reader.open(file) for file in task.files]  # once: a pipe gives its bytes to the first reading alone
    if task.command == "export":
        return export(reader, task, files[0])
    sweep = read(reader, task, files)
    answer = {"text": "", "wrote": "", "notes": "\n".join("%s: note: %s" % (task.files[0], note) for note in sweep.notes)}
    picture = task.output if task.command in ("png", "merge") else None
    table = task.output if task.command == "csv" else task.options.get("table")
    # the figures would spoil a picture or a table on standard output
    figures = task.command == "show" or task.command == "merge" and not {picture, table} & set(STANDARD_OUTPUT)
    if figures:
        answer["text"] = show(sweep, " and ".join(task.files))
    if figures and task.command == "merge":
        answer["text"] += receptions(reader, task, files, sweep)
    if task.command == "check":
        answer["text"] = "%s: good, %s %s, %d radials of %d bins\n" % (task.files[0], sweep.product, sweep.site, sweep.radials, sweep.bins)
    if picture:
        save_png(sweep, picture, size=task.options.get("size", 800), reach=task.options.get("reach"), rings=not task.options.get("no_rings"),
                 plan=task.options.get("outlined"))
        answer["wrote"] += _wrote(picture)
    if table:
        count = save_csv(sweep, table, everything=bool(task.options.get("all")))
        answer["wrote"] += _wrote(table, ", %d cells" % count)
    return answer


def export(reader: Reader, task: Task, file: ProductFile) -> Dict[str, Any]:
    """Writes the product file of packet 16, or its body alone."""
    body = bool(task.options.get("body"))
    write_whole(task.output or "", reader.export(file) if body else reader.export_file(file))
    answer = {"text": "", "wrote": _wrote(task.output)}
    if file.others and not body:
        answer["notes"] = "%s: note: left out: %d bytes of graphic and tabular blocks after the symbology" % (task.files[0], len(file.others))
    return answer


def receptions(reader: Reader, task: Task, files: List[ProductFile], merged: Sweep) -> str:
    """How many radials are gaps in each of two receptions, and in what was made of them."""
    arguments = {"scheme": task.options.get("scheme"), "gate": task.options.get("gate")}
    first, second = (len(reader.with_gaps(file, **arguments).gap_radials) for file in files)
    return _line("gaps", len(merged.gap_radials), "radials; %d in the first, %d in the second" % (first, second))


def _wrote(path: Optional[str], more: str = "") -> str:
    return "" if path in STANDARD_OUTPUT else "wrote %s%s\n" % (path, more)


def _line(name: str, text: object, unit: str = "") -> str:
    return "%-16s%20s%s\n" % (name, text, " " + unit if unit else "")


def thousandths(number: int, places: int) -> str:
    """A whole number of tenths or thousandths as decimals, the same digits on every desk."""
    whole, part = divmod(abs(number), 10 ** places)
    return "%s%d.%0*d" % ("-" if number < 0 else "", whole, places, part)


def show(sweep: Sweep, name: str) -> str:
    """Head and figures, a line each, below the name of the file."""
    lines: List[str] = [name + "\n"]

    def line(*words: Any) -> None:
        lines.append(_line(*words))

    line("product", sweep.product)
    line("site", sweep.site)
    line("product code", sweep.code, TITLES.get(sweep.moment, ""))
    line("scan", sweep.when.strftime("%Y-%m-%d %H:%M:%S"), "UTC")
    line("latitude", thousandths(sweep.latitude_thousandths, 3), "degrees")
    line("longitude", thousandths(sweep.longitude_thousandths, 3), "degrees")
    line("height", sweep.height_feet, "feet")
    line("vcp", sweep.vcp)
    if sweep.table is None or sweep.table.has_elevation:
        line("elevation", thousandths(sweep.elevation_tenths, 1), "degrees")
    line("scheme", scheme_text(sweep.scheme, sweep.parameter))
    if sweep.has_scale:
        line("scale from", short(sweep.minimum), "in steps of %s, floor %d, %d levels" % (short(sweep.step), sweep.floor, sweep.levels))
    line("packet", "AF1F" if sweep.packet == PACKET_AF1F else sweep.packet, "packed" if sweep.packed else "plain")
    line("radials", sweep.radials)
    line("bins", sweep.bins)
    line("gate length", *("%g" % sweep.gate, "m") if sweep.gate else ("not known",))
    if sweep.clear:
        lines.append("clear scan: the radar has seen nothing\n")
    else:
        _figures(sweep, line)
    return "".join(lines)


def _figures(sweep: Sweep, line: Callable[..., None]) -> None:
    counts = sweep.code_counts()
    reasons = {reason: 0 for reason in Reason}
    for code, count in counts.items():
        reasons[Reason(sweep.code_reasons[code])] += count
    reasons[Reason.GAP] = sweep.bins * len(sweep.gap_radials)
    values = [sweep.code_values[code] for code in counts if sweep.code_reasons[code] == Reason.VALUE]
    line("cells", sweep.radials * sweep.bins)
    line("with a value", reasons.pop(Reason.VALUE))
    for reason, count in reasons.items():
        if count:
            line(reason.text, count)
    if values:
        line("smallest value", short(min(values)), sweep.unit)
        line("largest value", short(max(values)), sweep.unit)


def attempt(task: Task, reader: Reader) -> Dict[str, Any]:
    """Carries out a task; a product that can't be read, or a file that can't be read or written, is told and nothing more."""
    try:
        return run(reader, task)
    except Level3Error as error:
        return {"error": "%s: %s" % (" and ".join(task.files), error)}
    except OSError as error:
        if isinstance(error, BrokenPipeError) and task.output in STANDARD_OUTPUT:
            raise
        return {"error": "%s: %s" % (error.filename or task.files[0], error.strerror or error)}
    except MemoryError:
        return {"error": "%s: not enough memory" % task.files[0]}
    except Exception as error:  # whatever it is, the other files are not to suffer
        return {"error": "%s: %s: %s" % (task.files[0], type(error).__name__, error)}


def folder_files(paths: List[str]) -> List[str]:
    """The files that are named, and for a folder those in it, by name; hidden files and this program's own output are left out.

    A link that leads nowhere is taken for a file, so that it is told. A file that is named twice is worked on once.
    """
    found: List[str] = []
    for path in paths:
        if os.path.isdir(path):
            names = sorted(n for n in os.listdir(path) if not n.startswith(".") and not n.endswith((".png", ".csv", ".packet16", ".body")))
            found += [p for p in (os.path.join(path, n) for n in names) if os.path.isfile(p) or not os.path.exists(p)]
        else:
            found.append(path)
    return list({os.path.realpath(path): path for path in reversed(found)}.values())[::-1]
