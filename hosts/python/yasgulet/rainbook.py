"""The rain book: the commands ``account`` and ``plan``."""
from __future__ import annotations

import argparse
import csv
import os
import sys
from collections import Counter
from fractions import Fraction
from typing import Any, Callable, Dict, Iterator, List, NamedTuple, Optional, Set, Tuple

from .account import Account, FieldAccount, Key
from .commands import Task, folder_files
from .errors import REFUSALS
from .files import STANDARD_OUTPUT, replacing, write_whole
from .forms import BadForm, Plan, plan_text, read_plan, read_tariff
from .reader import Charge, Reader

COMMANDS = ("account", "plan")
COLUMNS = ("line", "date", "time", "site", "product", "code", "receptions", "field", "total", "weighted_rain", "unit", "cents", "remainder",
           "products", "missing", "gap_radials")

Answers = Callable[[List[Task]], Iterator[Dict[str, Any]]]


def add_commands(commands: Any, many: argparse.ArgumentParser, common: argparse.ArgumentParser) -> None:
    """The grammar of both."""
    forms = argparse.ArgumentParser(add_help=False)
    forms.add_argument("plan", metavar="PLAN", help="the field plan: lines 'field NUMBER' and 'strip RADIAL GATE GATES WEIGHT'")
    forms.add_argument("tariff", metavar="TARIFF", help="the tariff: lines 'upto END RATE', the last 'upto rest RATE'")
    book = commands.add_parser("account", parents=[forms, many, common], help="the rain book: a total and a charge for each field and product")
    book.add_argument("-o", "--out", "--output", dest="output", metavar="FILE", default="-", help="the table, by default to standard output")
    book.add_argument("--partial", action="store_true", help="the sum of what there is for a field that is not whole in every product")
    plan = commands.add_parser("plan", parents=[common], help="a field plan's text as the bytes that the library takes, or back")
    plan.add_argument("plan", metavar="PLAN")
    plan.add_argument("-o", "--out", "--output", dest="output", metavar="FILE", required=True, help="the file to write")


def begin(arguments: argparse.Namespace, reader: Reader) -> Callable[[Answers], int]:
    """The work that the command line asks for; Level3Error or ValueError if it can't be begun."""
    inputs = [arguments.plan]
    if arguments.command == "account":
        forms = [os.path.realpath(path) for path in (arguments.plan, arguments.tariff)]  # they may stand in the products' folder
        inputs += [arguments.tariff, *(name for name in folder_files(arguments.files) if os.path.realpath(name) not in forms)]
        if len(inputs) == 2:
            raise ValueError("no files in %s" % ", ".join(arguments.files))
    if arguments.output not in STANDARD_OUTPUT and os.path.realpath(arguments.output) in map(os.path.realpath, inputs):
        raise ValueError("%s would be written, and is named for another file too" % arguments.output)
    plan = read_plan(reader, arguments.plan)
    if arguments.command == "plan":
        return lambda answers: _convert(plan, arguments)
    if not plan.fields:
        raise BadForm(plan.name, None, "no fields")
    options = {"plan": plan, "tariff": read_tariff(reader, arguments.tariff)}
    return lambda answers: _account([Task("account", [name], None, options) for name in inputs[2:]], arguments, plan, answers)


def _convert(plan: Plan, arguments: argparse.Namespace) -> int:
    def whole() -> str:
        write_whole(arguments.output, plan.records if plan.text else plan_text(plan).encode())
        return ""
    return _out(arguments, whole)


def _out(arguments: argparse.Namespace, write_it: Callable[[], str]) -> int:
    """Writes the output and tells of it, or why it can't be written; 0 or 1."""
    try:
        more = write_it()
    except OSError as error:
        if arguments.output in STANDARD_OUTPUT:
            raise
        print("%s: %s" % (arguments.output, error.strerror or error), file=sys.stderr)
        return 1
    if arguments.output not in STANDARD_OUTPUT and not arguments.quiet:
        print("wrote %s%s" % (arguments.output, more), flush=True)
    return 0


# ---- the book

class Book(NamedTuple):
    """All products that could be accounted, by scan time."""

    accounts: List[Account]
    #: How many rain products, or files that may be one, have no account.
    lost: int


#: What can be bad.
FILES, PRODUCTS, TOTALS = "files", "products received more than once", "totals"


class _Told:
    """Carries out tasks and tells of what is bad; ``bad`` counts it by its kind."""

    def __init__(self, answers: Answers, quiet: bool) -> None:
        self._answers = answers
        self.bad: Dict[str, int] = Counter()
        self.progress = sys.stderr.isatty() and not quiet

    def error(self, what: str, words: str) -> None:
        """Tells of something bad."""
        self.bad[what] += 1
        print(words, file=sys.stderr)

    def each(self, tasks: List[Task], what: str) -> Iterator[Tuple[Dict[str, Any], Task]]:
        """Each task with its answer; on a terminal a line counts them."""
        for done, (answer, task) in enumerate(zip(self._answers(tasks), tasks), 1):
            if self.progress:
                sys.stderr.write("\r\x1b[K")
            if "error" in answer:
                self.error(what, answer["error"])
            if self.progress:
                sys.stderr.write("%d of %d %s%s" % (done, len(tasks), what, ", %d bad" % self.bad[what] if self.bad[what] else ""))
                sys.stderr.flush()
            yield answer, task
        if self.progress and tasks:
            sys.stderr.write("\n")

    def summary(self, files: int) -> str:
        """How many files there were, and how much was bad."""
        line = "%d files, %d bad" % (files, self.bad[FILES])
        if self.bad[PRODUCTS]:
            line += "; %s not merged" % _several(self.bad[PRODUCTS], "product")
        if self.bad[TOTALS]:
            line += "; %s without a charge" % _several(self.bad[TOTALS], "total")
        return line


def _several(count: int, what: str) -> str:
    return "%d %s%s" % (count, what, "" if count == 1 else "s")


def _book(todo: List[Task], told: _Told) -> Book:
    """Accounts all files, each alone; then again those of which several are of one product, as one."""
    found: Dict[Key, List[Tuple[Task, Account]]] = {}
    keys: Set[Key] = set()
    unknown = 0
    for answer, task in told.each(todo, FILES):
        if "account" in answer:
            found.setdefault(answer["key"], []).append((task, answer["account"]))
        elif answer.get("rain", True):
            if "key" in answer:
                keys.add(answer["key"])
            else:
                unknown += 1
    accounts = {key: group[0][1] for key, group in found.items() if len(group) == 1}
    several = [Task("account", [task.files[0] for task, _ in group], None, todo[0].options) for group in found.values() if len(group) > 1]
    for answer, _ in told.each(several, PRODUCTS):
        if "account" in answer:
            accounts[answer["key"]] = answer["account"]
    keys |= found.keys()
    return Book([accounts[key] for key in sorted(accounts)], unknown + len(keys - accounts.keys()))


def _account(todo: List[Task], arguments: argparse.Namespace, plan: Plan, answers: Answers) -> int:
    """The command; the exit status."""
    told = _Told(answers, arguments.quiet)
    book = _book(todo, told)
    for one in book.accounts:
        for field in one.fields:
            if field.total is not None and field.charge is None:
                told.error(TOTALS, "%s: field %d: 41 %s (%s): %d" % (" and ".join(one.names), field.field, *REFUSALS[41][::2], field.total))
    for note in notes(book, plan, arguments.partial):
        print("note: " + note, file=sys.stderr)
    unwritten = _out(arguments, lambda: ", %d lines" % write(book, plan, arguments.output, arguments.partial))
    if len(todo) > 1 and not told.progress and not arguments.quiet:
        print(told.summary(len(todo)), file=sys.stderr)
    return 1 if any(told.bad.values()) or unwritten else 0


def notes(book: Book, plan: Plan, partial: bool) -> List[str]:
    """What a reader of the book should be told.

    A plan is of one radar and one grid, steps of another size can't be added, rain is not below 0, and a gap is not dry.
    """
    found = []
    for what, values in (("sites", {a.key[3] for a in book.accounts}),
                         ("grids", {"%d by %d of %g m" % (a.radials, a.bins, a.gate) for a in book.accounts})):
        if len(values) > 1:
            found.append("products of %d %s by one plan: %s" % (len(values), what, ", ".join(sorted(values))))
    kinds = {a.key[4] for a in book.accounts}
    if len(kinds) > 1:
        found.append("products of %d kinds are added, and may have the same rain: %s" % (len(kinds), ", ".join(sorted(kinds))))
    if len({(a.step, a.unit) for a in book.accounts}) > 1:
        found.append("the products' steps differ: their totals are not added")
    below = [" and ".join(a.names) for a in book.accounts if a.step < 0]
    if below:
        found.append("no weighted rain, the declared scale is below 0: " + ", ".join(below))
    gaps = [text for text in (_gaps(k, field.number, book, partial) for k, field in enumerate(plan.fields)) if text]
    if gaps:
        found.append("no sum because of gaps: " + ", ".join(gaps))
    return found


def _gaps(k: int, number: int, book: Book, partial: bool) -> str:
    """The plan's kth field with its gaps, if they leave it without a sum."""
    gaps = [one.fields[k].gaps for one in book.accounts if one.fields[k].gaps]
    if not gaps or partial and any(one.fields[k].charge is not None for one in book.accounts):
        return ""
    radials = sorted(set().union(*gaps))
    return "field %d (%s, radial%s %s)" % (number, _several(len(gaps), "product"), "" if len(radials) == 1 else "s", " ".join(map(str, radials)))


def decimal(number: Fraction) -> Optional[str]:
    """An exact decimal, or None for a number that has none."""
    rest, powers = number.denominator, {2: 0, 5: 0}
    for prime in powers:
        while rest % prime == 0:
            rest //= prime
            powers[prime] += 1
    if rest != 1:
        return None
    places = max(powers.values())
    whole, part = divmod(abs(number.numerator) * 10 ** places // number.denominator, 10 ** places)
    return ("-" if number < 0 else "") + str(whole) + (".%0*d" % (places, part) if places else "")


def _rain(number: Optional[Fraction], unit: str) -> Tuple[str, str]:
    """Weighted rain and its unit, where it has an exact decimal."""
    text = None if number is None else decimal(number)
    return ("", "") if text is None else (text, unit)


def write(book: Book, plan: Plan, path: str, partial: bool) -> int:
    """Writes the table, which is there whole or not at all; returns how many lines it has below the first."""
    rows = [*(row for one in book.accounts for row in _product(one)),
            *(_sum(k, field.number, book, partial) for k, field in enumerate(plan.fields))]
    with replacing(path, text=True) as file:
        table = csv.writer(file, lineterminator="\n")
        table.writerow(COLUMNS)
        table.writerows(rows)
    return len(rows)


def _product(one: Account) -> Iterator[List[object]]:
    """The lines of a product, one a field."""
    days, seconds, code, site, _ = one.key
    date = "%04d-%02d-%02d" % one.date
    time = "%02d:%02d:%02d" % (seconds // 3600, seconds // 60 % 60, seconds % 60)
    for field in one.fields:
        good = field.charge is not None
        rain = None if field.total is None or one.step < 0 else field.total * one.step
        yield ["field" if good else "gap" if field.total is None else "too large", date, time, site, one.product, code, len(one.names), field.field,
               "" if field.total is None else field.total, *_rain(rain, one.unit), *_money(field.charge), int(good), int(not good),
               " ".join(map(str, field.gaps))]


def _money(charge: Optional[Charge]) -> Tuple[object, object]:
    return ("", "") if charge is None else (charge.cents, charge.remainder)


def _sum(k: int, number: int, book: Book, partial: bool) -> List[object]:
    """The last line of a field, the plan's kth: what its lines add up to if none is missing, or if the sum of the rest is asked for."""
    counted: List[Tuple[Account, FieldAccount]] = [(one, one.fields[k]) for one in book.accounts if one.fields[k].charge is not None]
    missing = book.lost + len(book.accounts) - len(counted)
    figures: List[object] = [""] * 5
    word = "none"
    if counted and (partial or not missing):
        word = "partial" if missing else "sum"
        totals = [field.total or 0 for _, field in counted]
        charges = [field.charge or Charge(0, 0) for _, field in counted]
        one_size = len({(one.step, one.unit) for one, _ in counted}) == 1
        one_unit = len({one.unit for one, _ in counted}) == 1
        rain = None
        if one_unit and all(one.step > 0 for one, _ in counted):
            rain = sum((total * one.step for (one, _), total in zip(counted, totals)), Fraction(0))
        figures = [sum(totals) if one_size else "", *_rain(rain, counted[0][0].unit), sum(charge.cents for charge in charges),
                   sum(charge.remainder for charge in charges)]
    return [word, "", "", "", "", "", "", number, *figures, len(counted), missing, ""]
