"""What the cells of a column are: numbers, dates, texts, bytes. No engine is asked, and nothing is guessed from a name.

A kind is that of all cells but the empty ones, and it is taken only where each cell is written as the kind is written, so that a value
that is loaded comes out as it went in: 007, +1, 1e5, -0 and 2021-02-30 are texts.
"""
import datetime
import re
from dataclasses import dataclass, replace

NUMBER = re.compile(rb"-?(0|[1-9][0-9]*)(?:\.([0-9]+))?")
ZERO = re.compile(rb"-[0.]+")  # below zero and yet zero: engines drop the sign
DATE = re.compile(rb"([1-9][0-9]{3})-([0-9]{2})-([0-9]{2})")  # from the year 1000 on, which every engine takes
TIME = re.compile(rb" (?:[01][0-9]|2[0-3]):[0-5][0-9]:[0-5][0-9]")
MOST_DIGITS = 38  # of a number: what engines with decimal numbers commonly hold
NOTHING, BOOLEAN, INTEGER, DECIMAL, DATE_KIND, TIMESTAMP, TEXT, BYTES = (
    "nothing", "boolean", "integer", "decimal", "date", "timestamp", "text", "bytes")


@dataclass(frozen=True)
class Facts:
    """What holds of all cells of a column."""
    kind: str = NOTHING
    empty: bool = False  # an empty cell is among them
    length: int = 0  # the most characters of a cell; of bytes the most bytes
    size: int = 0  # the most bytes of a cell
    least: int = 0  # of integers: no more than the least of them and 0
    greatest: int = 0  # and no less than the greatest
    whole: int = 0  # of numbers the most digits before the point
    places: tuple = ()  # of numbers the fewest and the most digits behind it
    trimmed: bool = True  # no number ends in a zero behind the point
    plain: bool = True  # each number is what 15 digits of a floating number show
    ends_in_space: bool = False  # a cell ends in a space


def kind_of(cell):
    """The kind of one cell that is a text and not empty."""
    found = NUMBER.fullmatch(cell)
    if found and not (cell.startswith(b"-") and ZERO.fullmatch(cell)):
        whole, places = found.groups(b"")
        if len(whole) + len(places) <= MOST_DIGITS:
            return DECIMAL if places else INTEGER
    if cell in (b"true", b"false"):
        return BOOLEAN
    if is_date(cell[:10]) and (len(cell) == 10 or TIME.fullmatch(cell, 10)):
        return DATE_KIND if len(cell) == 10 else TIMESTAMP
    return TEXT


def is_date(cell):
    """Whether a cell is a day of the calendar, as 2024-02-29."""
    found = DATE.fullmatch(cell)
    try:
        return bool(found and datetime.date(*map(int, found.groups())))
    except ValueError:
        return False


def are_texts(cells):
    """Whether all cells are UTF-8 without a zero byte, which is all that engines take for a text."""
    whole = b"\n".join(cells)
    try:
        whole.decode("utf-8")
    except UnicodeDecodeError:
        return False
    return b"\0" not in whole


def kind_of_all(cells):
    """The kind of cells that are not empty."""
    if not are_texts(cells):
        return BYTES
    kind = NOTHING
    for cell in cells:
        kind = joined_kind(kind, kind_of(cell))
        if kind == TEXT:
            break
    return kind


def facts_of(cells):
    """What holds of all these cells; their order and how often one comes do not matter."""
    cells = set(cells)
    filled = [cell for cell in cells if cell]
    kind = kind_of_all(filled)
    facts = Facts(kind, empty=b"" in cells, size=max(map(len, filled), default=0), ends_in_space=any(cell.endswith(b" ") for cell in filled))
    facts = replace(facts, length=facts.size if kind == BYTES else max((len(cell.decode("utf-8")) for cell in filled), default=0))
    return number_facts(facts, filled) if kind in (INTEGER, DECIMAL) else facts


def number_facts(facts, cells):
    """The facts of numbers too."""
    parts = [NUMBER.fullmatch(cell).groups(b"") for cell in cells]
    behind = [len(places) for _, places in parts]
    integers = [int(whole) for whole in cells] if facts.kind == INTEGER else [0]
    return replace(
        facts, least=min(integers), greatest=max(integers), whole=max(len(whole) for whole, _ in parts), places=(min(behind), max(behind)),
        trimmed=not any(places.endswith(b"0") for _, places in parts), plain=all(b"%.15g" % float(cell) == cell for cell in cells))


def joined_kind(a, b):
    """The kind of cells of two kinds."""
    if a == b or b == NOTHING:
        return a
    if a == NOTHING:
        return b
    if {a, b} == {INTEGER, DECIMAL}:
        return DECIMAL
    return BYTES if BYTES in (a, b) else TEXT


def merged(a, b):
    """What holds of the cells of both."""
    places = a.places + b.places
    return Facts(
        kind=joined_kind(a.kind, b.kind), empty=a.empty or b.empty, length=max(a.length, b.length), size=max(a.size, b.size),
        least=min(a.least, b.least), greatest=max(a.greatest, b.greatest), whole=max(a.whole, b.whole),
        places=(min(places), max(places)) if places else (), trimmed=a.trimmed and b.trimmed, plain=a.plain and b.plain,
        ends_in_space=a.ends_in_space or b.ends_in_space)


def as_text(facts):
    """The same cells where they are to be texts."""
    return facts if facts.kind == BYTES else replace(facts, kind=TEXT)
