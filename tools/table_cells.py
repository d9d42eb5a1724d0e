"""What the parts of profile_table.py share: refusals, lines of progress, and cells as `depprof` reads and writes them."""
import csv
import datetime
import decimal
import re
import sys
import time
import uuid

MOST_COLUMNS = 128
MOST_CELL = 65_536  # bytes
SPECIAL = re.compile('[,"\r\n]')  # a field with one of these is quoted
IDENTITY = -1  # the target that stands for a row's identity: what determines it is a key


class Refused(Exception):
    """Why there is no report, in one line."""


class Unsuitable(Refused):
    """Why there is none of one table: it is left out where there are others."""


def note(text):
    """A line of progress."""
    print(text, file=sys.stderr, flush=True)


def seconds(began):
    return f"{time.monotonic() - began:.1f} s"


def one_line(error):
    return " ".join(str(error).split()) or type(error).__name__


def shown(text):
    """A name for a message, on one line."""
    return "".join(c if c.isprintable() else f"<{ord(c):02X}>" for c in text)


# ---------------------------------------------------------------- cells


def record(fields):
    """One CSV record as depprof writes it: a field is quoted only where needed."""
    if fields == [""]:
        return '""\n'
    return ",".join('"' + f.replace('"', '""') + '"' if set(f) & set(',"\r\n') else f for f in fields) + "\n"


def header(names):
    """The header of a file. A mark of byte order at its start would be taken off, unless it stands in quotes."""
    text = record(names)
    return '"' + names[0].replace('"', '""') + '"' + text[len(names[0]):] if text.startswith("\ufeff") else text


def fields_of(text):
    """The fields of one CSV record."""
    return next(csv.reader([text]), [])


def encoded(text):
    """Bytes of a text. What a driver could not decode comes out as it was."""
    return text.encode("utf-8", "surrogateescape")


def text_of(value, name):
    """The cell of a value. NULL and the empty text are the same cell."""
    if value is None:
        return ""
    if isinstance(value, str):
        return value
    if isinstance(value, decimal.Decimal):
        return format(value, "f")  # str would write 0E-8
    if isinstance(value, (int, float, uuid.UUID)):
        return str(value)
    if isinstance(value, (datetime.date, datetime.time)):
        return value.isoformat()
    kind = "bytes" if isinstance(value, (bytes, bytearray, memoryview)) else f"a {type(value).__name__}"
    raise Unsuitable(f"column {shown(name)} holds {kind}, which has no text: leave it out (--columns), or compare texts (--text)")


def texts_of(column, name, known):
    """The cells of some values of a column. `known` keeps what other values gave: where equal ones have different texts, as 1 and 1.0,
    an engine takes them for equal."""
    kinds = set(map(type, column)) - {type(None)}
    if kinds == {str}:
        return ["" if value is None else value for value in column]
    if kinds == {int}:
        return ["" if value is None else str(value) for value in column]
    out = []
    for value in column:
        text = text_of(value, name)
        if value is not None and type(value) is not str and known.setdefault(value, text) != text:
            raise unlike(name, known[value], text)
        out.append(text)
    return out


def check_lengths(cells, name):
    """Cells are those that `depprof` takes."""
    if cells and max(map(len, cells)) > MOST_CELL // 4 and any(len(encoded(cell)) > MOST_CELL for cell in cells):
        raise Unsuitable(f"column {shown(name)} has a cell above {MOST_CELL:,} bytes")


def records(columns):
    """CSV records of columns of cells, as one text."""
    if len(columns) == 1:
        return "".join(record([cell]) for cell in columns[0])
    fields = [column if not SPECIAL.search("".join(column)) else [record([cell])[:-1] if cell else "" for cell in column] for column in columns]
    return "\n".join(map(",".join, zip(*fields))) + "\n"


def likeness(value):
    """The likeness of a value's type: of those that share one, equal cells are equal texts of the engine, and the other way round.
    Engines write numbers of floating point, times and truth values in ways of their own."""
    if value is None or isinstance(value, (str, decimal.Decimal, uuid.UUID)):
        return "text"
    if isinstance(value, bool):
        return "truth"
    if isinstance(value, int):
        return "text"
    if isinstance(value, float):
        return "real"
    return "text" if type(value) is datetime.date else type(value).__name__


# ---------------------------------------------------------------- errors that several parts know


def unlike(name, first, second, help="compare texts (--text)"):
    return Unsuitable(f"column {shown(name)}: the engine takes {first!r} and {second!r} for equal, their texts differ: {help}")


def alike(what):
    return Unsuitable(f"the engine tells apart values {what} whose texts are equal: compare texts (--text)")


def changing():
    return Refused("rows that the engine has just counted are not there: the table changes, or its query gives other rows each time")
