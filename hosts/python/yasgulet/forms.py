"""Field plans and tariffs: a form that is written by hand, and what the library takes.

A plan is lines ``field NUMBER`` and ``strip RADIAL GATE GATES WEIGHT``, a tariff lines ``upto END RATE``. What stands behind ``#`` is not
read. The library alone decides what is refused; here the line is found.
"""
from __future__ import annotations

import os
import re
import struct
from typing import Dict, Iterator, List, NamedTuple, Optional, Sequence, Tuple

from .errors import BadFile, Level3Error, Refused
from .product_file import read_bytes
from .reader import Reader

#: The largest total that is charged; a tariff's last end is there or above it. ``rest`` in a tariff is this number.
LAST = 1 << 40
REST = "rest"
MOST_STRIPS, MOST_BANDS, MOST_RATE = 4096, 8, 65535
_CAP = 2 << 20
_FIELD, _STRIP = struct.Struct(">BHH"), struct.Struct(">BHHHHH")


class BadForm(Level3Error):
    """A plan or a tariff that can't be taken. ``name`` is that of its file, ``line`` the line, or None where it has none."""

    def __init__(self, name: str, line: Optional[int], words: str, number: Optional[int] = None) -> None:
        self.name, self.line, self.words = name, line, words
        #: The refusal's number, or None for what is no plan or tariff at all.
        self.number = number
        super().__init__(name, line, words, number)

    def __str__(self) -> str:
        return "%s: %s" % (self.name if self.line is None else "%s:%d" % (self.name, self.line), self.words)


class Strip(NamedTuple):
    """Gates of one radial that belong to a field, with their weight."""

    radial: int
    gate: int
    gates: int
    weight: int


class Field(NamedTuple):
    """A field of a plan."""

    number: int
    strips: Tuple[Strip, ...]


class Plan(NamedTuple):
    """A field plan."""

    name: str
    #: The plan as the library takes it.
    records: bytes
    fields: Tuple[Field, ...]
    #: The line of each record by its offset; None for a plan that was not read from text.
    lines: Optional[Dict[int, int]]

    @property
    def text(self) -> bool:
        """Whether the plan was read from text."""
        return self.lines is not None

    def refused(self, error: Refused) -> BadForm:
        """A refusal of the plan with the line of its record, in place of the offset if there is one."""
        offset = error.values.get("offset")
        line = self.lines.get(offset) if self.lines and isinstance(offset, int) else None
        if line is None:
            return BadForm(self.name, None, str(error), error.number)
        return BadForm(self.name, line, str(Refused(error.number, error.name, {}, error.meaning)), error.number)


class Tariff(NamedTuple):
    """A rain tariff: the bands' upper ends, and their rates in cents for 1,000 units."""

    name: str
    ends: Tuple[int, ...]
    rates: Tuple[int, ...]


# ---- text

def _lines(text: str) -> Iterator[Tuple[int, List[str]]]:
    """The words of each line that has some, with its number."""
    for number, line in enumerate(re.split(r"\r\n|\r|\n", text), 1):
        words = line.partition("#")[0].split()
        if words:
            yield number, words


def _numbers(name: str, line: int, words: Sequence[str], called: Sequence[str], below: Sequence[int]) -> List[int]:
    """The numbers behind a line's first word, each from 0 and below its bound."""
    if len(words) - 1 != len(called):
        raise BadForm(name, line, "%s takes %d numbers: %s" % (words[0], len(called), " ".join(called)) if len(called) > 1
                      else "%s takes one number" % words[0])
    found = []
    for word, what, bound in zip(words[1:], called, below):
        if not re.fullmatch("[0-9]+", word):
            raise BadForm(name, line, "%s %r is no whole number" % (what.lower(), word))
        digits = word.lstrip("0") or "0"
        if len(digits) > 20 or int(digits) >= bound:
            raise BadForm(name, line, "%s %s is not from 0 to %d" % (what.lower(), word, bound - 1))
        found.append(int(digits))
    return found


def parse_plan(text: str, name: str = "plan") -> Plan:
    """A plan from its text. What a number may be beyond its 16 bits is for check_plan to say."""
    records, lines = bytearray(), {}
    for line, words in _lines(text):
        offset = len(records)
        if words[0] == "field":
            records += _FIELD.pack(1, 2, *_numbers(name, line, words, ("NUMBER",), (65536,)))
        elif words[0] == "strip":
            records += _STRIP.pack(2, 8, *_numbers(name, line, words, ("RADIAL", "GATE", "GATES", "WEIGHT"), (65536,) * 4))
        else:
            raise BadForm(name, line, "%r is neither field nor strip" % words[0])
        lines[offset] = line
    return Plan(name, bytes(records), _fields(bytes(records)), lines)


def plan_of(records: bytes, name: str = "plan") -> Plan:
    """A plan from the bytes that the library takes."""
    return Plan(name, bytes(records), _fields(records), None)


def _records(records: bytes) -> Iterator[Tuple[int, ...]]:
    """The contents of whole records of known kinds, up to the first that is not one."""
    at = 0
    while at < len(records):
        kind = {1: _FIELD, 2: _STRIP}.get(records[at])
        if kind is None or len(records) - at < kind.size:
            return
        tag, length, *content = kind.unpack_from(records, at)
        if length != kind.size - 3:
            return
        yield (tag, *content)
        at += kind.size


def _fields(records: bytes) -> Tuple[Field, ...]:
    """The fields of a plan that is well formed, or of its front."""
    found: List[Tuple[int, List[Strip]]] = []
    for tag, *content in _records(records):
        if tag == 1:
            found.append((content[0], []))
        elif found:
            found[-1][1].append(Strip(*content))
    return tuple(Field(number, tuple(strips)) for number, strips in found)


def plan_text(plan: Plan) -> str:
    """The text of a plan that is well formed: read again, it has the same bytes."""
    return "".join("field %d\n" % field.number + "".join("strip %d %d %d %d\n" % strip for strip in field.strips) for field in plan.fields)


def parse_tariff(text: str, name: str = "tariff") -> Tuple[Tariff, Tuple[int, ...]]:
    """A tariff from its text, and the line of each band."""
    ends, rates, lines = [], [], []
    rest = None
    for line, words in _lines(text):
        if words[0] != "upto":
            raise BadForm(name, line, "%r is not upto" % words[0])
        if rest is not None:
            raise BadForm(name, rest, "the rest is for the last band")
        if words[1:2] == [REST]:
            rest = line
            words = ["upto", str(LAST), *words[2:]]
        end, rate = _numbers(name, line, words, ("END", "RATE"), (1 << 64, 1 << 32))
        ends.append(end)
        rates.append(rate)
        lines.append(line)
    return Tariff(name, tuple(ends), tuple(rates)), tuple(lines)


def tariff_text(tariff: Tariff) -> str:
    """The text of a tariff: read again, it has the same ends and rates."""
    last = len(tariff.ends) - 1
    return "".join("upto %s %d\n" % (REST if k == last and end == LAST else end, rate) for k, (end, rate) in enumerate(zip(tariff.ends, tariff.rates)))


# ---- what the library says of them

def check_plan(reader: Reader, plan: Plan) -> None:
    """BadForm with 37 or 38 for a plan that the library refuses whatever the picture is."""
    try:
        reader.plan_totals(_EMPTY, 0, memoryview(bytearray()).cast("H"), 0, 0, plan.records)
    except Refused as error:
        if error.number == 39:  # any strip leaves a picture of no cells; what is malformed comes before that
            return
        told = plan.refused(error)
        why = _why(plan, error)
        raise BadForm(told.name, told.line, told.words + (": " + why if why else ""), told.number) from None


#: A description block with a scale and nothing else.
_EMPTY = bytes(42) + struct.pack(">ff", 1.0, 0.0) + bytes(52)


def _why(plan: Plan, error: Refused) -> str:
    """What is wrong with the record that is refused, of a plan that was read from text."""
    if not plan.lines:
        return ""
    seen: Dict[int, int] = {}
    strips = 0
    for (offset, line), (tag, *content) in zip(sorted(plan.lines.items()), _records(plan.records)):
        strips += tag == 2
        if offset == error.values["offset"]:
            if error.number == 38:
                return "field %d is there since line %d" % (content[0], seen[content[0]])
            return "no field is named yet" if not seen else "no gates" if content[2] == 0 else "strip %d of at most %d" % (strips, MOST_STRIPS)
        if tag == 1:
            seen.setdefault(content[0], line)
    return ""


def check_tariff(reader: Reader, tariff: Tariff, lines: Sequence[int] = ()) -> None:
    """BadForm with 40 for a tariff that the library refuses."""
    try:
        reader.charge(0, tariff.ends, tariff.rates)
    except Refused as error:
        band, why = _fault(tariff)
        line = lines[band] if band is not None and lines else None
        raise BadForm(tariff.name, line, "%s: %s" % (error, why), error.number) from None


def _fault(tariff: Tariff) -> Tuple[Optional[int], str]:
    """The first band for which a tariff is refused, and why."""
    for k, (end, rate) in enumerate(zip(tariff.ends, tariff.rates)):
        if k == MOST_BANDS:
            return k, "a band beyond the %dth" % MOST_BANDS
        if rate > MOST_RATE:
            return k, "the rate %d is above %d" % (rate, MOST_RATE)
        if k and end <= tariff.ends[k - 1]:
            return k, "the end %d is not above the one before it, %d" % (end, tariff.ends[k - 1])
    if not tariff.ends:
        return None, "no bands"
    return len(tariff.ends) - 1, "the last end %d is below %d: write '%s'" % (tariff.ends[-1], LAST, REST)


# ---- files

def _read(path: str) -> bytes:
    try:
        return read_bytes(path, _CAP)
    except OSError as error:
        raise BadForm(path, None, error.strerror or str(error)) from None
    except BadFile as error:
        raise BadForm(path, None, str(error)) from None


def _decoded(path: str, data: bytes) -> str:
    try:
        return data.decode("utf-8-sig")
    except UnicodeDecodeError as error:
        raise BadForm(path, data.count(b"\n", 0, error.start) + 1, "not text in UTF-8") from None


def is_text(data: bytes) -> bool:
    """Whether a plan's bytes are its text: each record has bytes that no text has."""
    return not any(byte < 9 for byte in data)


def read_plan(reader: Reader, path: str) -> Plan:
    """A plan from a file, of its text or of the library's bytes, held to what the library takes."""
    data = _read(path)
    plan = parse_plan(_decoded(path, data), os.fspath(path)) if is_text(data) else plan_of(data, os.fspath(path))
    check_plan(reader, plan)
    return plan


def read_tariff(reader: Reader, path: str) -> Tariff:
    """A tariff from a text file, held to what the library takes."""
    tariff, lines = parse_tariff(_decoded(path, _read(path)), os.fspath(path))
    check_tariff(reader, tariff, lines)
    return tariff
