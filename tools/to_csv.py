#!/usr/bin/env python3
"""Makes a file that depprof takes of delimited text as people have it, and reads it back to see that nothing was lost.

  to_csv.py orders.txt.gz orders.csv                      delimiter, UTF-16 and gzip are found out
  to_csv.py --encoding cp1252 --columns 1-3,city old.txt | depprof profile /dev/stdin
  to_csv.py --table lines huge.csv huge.db                a table of sqlite, for tools/profile_table.py, with any number of rows

The output is UTF-8 with commas, and quotes only where they are needed. It is written beside the place where it goes, read again by the
rules of depprof, compared cell by cell by a digest, and put in place only then. One sentence and status 1 say why there is none.
"""
import argparse
import csv
import hashlib
import os
import shutil
import sqlite3
import stat
import sys
import tempfile
from array import array
from itertools import islice

import csv_records
from csv_source import Form, Source, Unfit, readable_encoding
from report import own_names, shown

MOST_COLUMNS, MOST_ROWS, MOST_CELL, MOST_BYTES = 128, 1_000_000, 65_536, 268_435_456  # what depprof takes
AT_ONCE = 1000  # rows
TOO_MANY = "--rows takes some of them, --table all of them to a database for tools/profile_table.py"


# ---------------------------------------------------------------- what is chosen


def columns_chosen(text, names):
    """The places of the columns that words ask for: names, numbers from 1, and ranges of numbers."""
    if text is None:
        return list(range(len(names)))
    out = []
    for word in next(csv.reader([text]), []):
        out += columns_of(word, names)
    for c in out:
        if out.count(c) > 1:
            raise Unfit(f"column {c + 1} is chosen twice")
    if not out:
        raise Unfit("no column is chosen")
    return out


def columns_of(word, names):
    if word in names:
        if names.count(word) > 1:
            raise Unfit(f"{names.count(word)} columns are named {shown(word)}: choose by number")
        return [names.index(word)]
    first, last = range_of(word, len(names))
    if first is None:
        raise Unfit(f"there is no column {shown(word) or '(no name)'}")
    if not 1 <= first <= last <= len(names):
        raise Unfit(f"{shown(word)} is no choice from {len(names)} columns")
    return list(range(first - 1, last))


def range_of(word, end):
    """The numbers of `3`, `3-5` or `3-`; nothing where a word is none of these."""
    parts = [part.strip() for part in word.split("-")]
    if not parts[0].isascii() or not parts[0].isdigit() or len(parts) > 2 or len(word) > 40:
        return None, None
    if len(parts) == 2 and parts[1] and not (parts[1].isascii() and parts[1].isdigit()):
        return None, None
    return int(parts[0]), end if parts[1:] == [""] else int(parts[-1])


def rows_chosen(text):
    """Ranges of row numbers in ascending order, as `1-100,500,900-`."""
    out = []
    for word in text.split(","):
        first, last = range_of(word, sys.maxsize)
        if first is None or not (out[-1][1] if out else 0) < first <= last:
            raise argparse.ArgumentTypeError(f"{shown(text, 40)} is no ascending list of rows, as 1-100,500,900-")
        out.append((first, last))
    return out


def table_of(source, args):
    """The chosen part of a source: its names, and its rows, each a list of bytes."""
    records = source.records()
    begin, names = next(records, (0, None))
    if names is None:
        raise Unfit(f"{source.name} has no header record")
    width, first = len(names), None
    if args.no_header:
        first, names = (begin, names), [f"column{k}" for k in range(1, width + 1)]
    chosen = columns_chosen(args.columns, names)
    if len(chosen) > MOST_COLUMNS:
        what = f"{len(chosen)} columns are chosen" if args.columns else f"{source.name} has {width} columns"
        raise Unfit(f"{what}, and depprof takes {MOST_COLUMNS}: --columns chooses some")
    cells = Cells(source, chosen, names, args.null)
    return cells.taken(names, 0, begin), cells.rows(records, first, width, args.rows)


class Cells:
    """Takes the chosen cells of records."""

    def __init__(self, source, chosen, names, nulls):
        self.source, self.chosen, self.names, self.nulls = source, chosen, names, set(nulls)
        self.is_all = chosen == list(range(len(names)))

    def rows(self, records, first, width, ranges):
        """The rows in the ranges. Each record before the last of them is looked at."""
        number, ranges = 0, list(ranges)
        for line, record in with_first(first, records):
            number += 1
            if len(record) != width:
                raise Unfit(f"{self.source.name}, line {line}: {fields(len(record))} where the header has {width}; cells were taken to be separated by "
                            f"{self.source.form_in_words().split(',')[0]} (--delimiter)")
            if number >= ranges[0][0]:
                yield self.taken(record, number, line)
            if number == ranges[0][1]:
                ranges.pop(0)
                if not ranges:
                    return

    def taken(self, record, number, line):
        """The chosen cells of a record, which is the header where its number is 0."""
        if not self.is_all:
            record = [record[c] for c in self.chosen]
        if self.nulls and number and not self.nulls.isdisjoint(record):
            record = ["" if cell in self.nulls else cell for cell in record]
        row = list(map(str.encode, record))
        if max(map(len, row)) > MOST_CELL:
            self.refuse_long(row, line)
        return row

    def refuse_long(self, row, line):
        c, cell = next((c, cell) for c, cell in zip(self.chosen, row) if len(cell) > MOST_CELL)
        raise Unfit(f"{self.source.name}, line {line}: the cell of {shown(self.names[c]) or f'column {c + 1}'} has {len(cell)} bytes, "
                    f"and depprof takes {MOST_CELL}")


def with_first(first, records):
    if first:
        yield first
    yield from records


def fields(count):
    return f"{count} field{'' if count == 1 else 's'}"


# ---------------------------------------------------------------- what is compared


class Tally:
    """The number and a digest of rows: lists of bytes, taken some at a time, as many here as there."""

    def __init__(self):
        self.count, self.digest = 0, hashlib.blake2b()

    def take(self, rows):
        cells = [cell for row in rows for cell in row]
        self.digest.update(array("Q", map(len, rows)).tobytes() + array("Q", map(len, cells)).tobytes())
        self.digest.update(b"".join(cells))
        self.count += len(rows)

    def is_same(self, other):
        return (self.count, self.digest.digest()) == (other.count, other.digest.digest())


def chunks(rows):
    rows = iter(rows)
    while True:
        chunk = list(islice(rows, AT_ONCE))
        if not chunk:
            return
        yield chunk


def tally_of(rows):
    out = Tally()
    for chunk in chunks(rows):
        out.take(chunk)
    return out


# ---------------------------------------------------------------- where it goes


def line_of(row):
    """A row as a line, with quotes only where depprof would read something else without them."""
    line = b",".join(row)
    has_marks = b'"' in line or b"\n" in line or b"\r" in line or line.startswith(csv_records.BYTE_ORDER_MARK)
    if line and not has_marks and line.count(b",") == len(row) - 1:
        return line + b"\n"
    return b",".join(cell_of(cell) for cell in row) + b"\n" if row != [b""] else b'""\n'


def cell_of(cell):
    if any(mark in cell for mark in (b",", b'"', b"\n", b"\r")) or cell.startswith(csv_records.BYTE_ORDER_MARK):
        return b'"' + cell.replace(b'"', b'""') + b'"'
    return cell


class ToFile:
    """A file of CSV, or the standard output."""

    def __init__(self, name):
        self.name = name
        self.is_stream = name == "-" or os.path.exists(name) and not stat.S_ISREG(os.stat(name).st_mode)
        folder = None if self.is_stream else os.path.dirname(name) or "."
        handle, self.part = tempfile.mkstemp(prefix=".to_csv_", dir=folder)
        self.file = os.fdopen(handle, "wb")

    def write(self, names, rows, source):
        tally, size = Tally(), 0
        for chunk in chunks(with_first(names, rows)):
            tally.take(chunk)
            text = b"".join(map(line_of, chunk))
            size += len(text)
            if tally.count > MOST_ROWS + 1:
                raise Unfit(f"{source.name} has more than {MOST_ROWS:,} rows, which is what depprof takes: {TOO_MANY}")
            if size > MOST_BYTES:
                raise Unfit(f"{source.name} makes more than {MOST_BYTES:,} bytes, which is what depprof takes: {TOO_MANY}")
            self.file.write(text)
        self.file.close()
        return tally

    def read_back(self):
        with open(self.part, "rb") as file:
            return tally_of(csv_records.records(file.read()))

    def keep(self):
        """Puts the file in its place."""
        if self.is_stream:
            with open(self.part, "rb") as file:
                if self.name == "-":
                    shutil.copyfileobj(file, sys.stdout.buffer)
                    sys.stdout.buffer.flush()
                else:
                    with open(self.name, "wb") as out:
                        shutil.copyfileobj(file, out)
            return
        mask = os.umask(0)
        os.umask(mask)
        os.chmod(self.part, 0o666 & ~mask)
        os.replace(self.part, self.name)

    def end(self):
        """Leaves nothing behind but what was kept."""
        try:
            self.file.close()
        except OSError:
            pass  # what could not be written is gone with the file
        if os.path.exists(self.part):
            os.remove(self.part)


class ToTable:
    """A new table of sqlite, each cell a text. Names that sqlite takes for one are numbered."""

    def __init__(self, name, table):
        self.name, self.table, self.is_new = name, '"' + table.replace('"', '""') + '"', not os.path.exists(name)
        self.is_kept = False
        self.base = sqlite3.connect(name, isolation_level=None)

    def write(self, names, rows, source):
        tally = Tally()
        self.columns = own_names([name.decode("utf-8").replace("\0", "\ufffd") for name in names], "column")
        self.base.execute("BEGIN IMMEDIATE")
        self.base.execute(f"CREATE TABLE {self.table} ({', '.join(self.quoted(name) + ' TEXT' for name in self.columns)})")
        marks = ", ".join("?" * len(names))
        for chunk in chunks(rows):
            tally.take(chunk)
            self.base.executemany(f"INSERT INTO {self.table} VALUES ({marks})", [[cell.decode("utf-8") for cell in row] for row in chunk])
        return tally

    def quoted(self, name):
        return '"' + name.replace('"', '""') + '"'

    def read_back(self):
        cells = ", ".join(f"CAST({self.quoted(name)} AS BLOB)" for name in self.columns)
        return tally_of(self.base.execute(f"SELECT {cells} FROM {self.table} ORDER BY rowid"))

    def keep(self):
        self.base.execute("COMMIT")
        self.is_kept = True

    def end(self):
        self.base.close()
        if self.is_new and not self.is_kept and os.path.exists(self.name):
            os.remove(self.name)


# ---------------------------------------------------------------- words


class Words(argparse.ArgumentParser):
    """Says what is wrong with the words in one line."""

    def error(self, message):
        print(f"to_csv: {shown(message, 300)}", file=sys.stderr)
        sys.exit(1)


def character(text):
    named = {"tab": "\t", "\\t": "\t", "comma": ",", "semicolon": ";", "space": " ", "bar": "|"}
    text = named.get(text, text)
    if len(text) != 1 or text in "\r\n\0" or "\ud800" <= text <= "\udfff":
        raise argparse.ArgumentTypeError(f"{shown(text, 20) or 'nothing'} is not one character")
    return text


def quote(text):
    return "" if text == "none" else character(text)


def encoding(text):
    try:
        return readable_encoding(text)
    except ValueError as why:
        raise argparse.ArgumentTypeError(str(why)) from None


def lines(text):
    if not (text.isascii() and text.isdigit() and len(text) < 7):
        raise argparse.ArgumentTypeError(f"{shown(text, 20)} is no number of lines")
    return int(text)


def words(given=None):
    parser = Words(prog="to_csv.py", description="Delimited text as a file that depprof takes, with a check that nothing was lost.")
    parser.add_argument("file", metavar="FILE", help="the text, packed by gzip, bzip2 or xz or not; `-` is the standard input")
    parser.add_argument("out", metavar="OUT", nargs="?", default="-", help="the file to write (the standard output)")
    parser.add_argument("--delimiter", metavar="C", type=character, help="what stands between cells, as `;` or `tab` (found out)")
    parser.add_argument("--quote", metavar="C", type=quote, default='"', help="what stands around cells, or `none` (the double quote)")
    parser.add_argument("--escape", metavar="C", type=character, help="what stands before a quote inside a cell (quotes are doubled)")
    parser.add_argument("--encoding", metavar="NAME", type=encoding, help="as cp1252 (by the file's mark, or UTF-8)")
    parser.add_argument("--skip", metavar="N", type=lines, default=0, help="so many lines before the header are left out")
    parser.add_argument("--no-header", action="store_true", help="the first record is a row, and columns are named column1, column2, ..")
    parser.add_argument("--null", metavar="TEXT", action="append", default=[], help="a cell that means nothing, as `\\N` or NA, is made empty")
    parser.add_argument("--columns", metavar="A,B,..", help="only these, in this order: names, numbers, or ranges as 3-5")
    parser.add_argument("--rows", metavar="RANGES", type=rows_chosen, default=[(1, sys.maxsize)], help="only these, as 1-1000,5000-")
    parser.add_argument("--table", metavar="NAME", help="OUT is a database of sqlite, and the rows become a new table of it")
    args = parser.parse_args(given)
    if args.table is not None and (args.out == "-" or not args.table or "\0" in args.table):
        parser.error("--table needs a name, and OUT, a database")
    if args.delimiter and args.delimiter in (args.quote, args.escape) or args.escape and args.escape == args.quote:
        parser.error("the delimiter, the quote and the escape are not three different characters")
    return args


def name_of(word):
    return "the standard input" if word == "-" else shown(word)


def opened(word):
    try:
        if os.path.isdir(word):
            raise Unfit(f"{shown(word)} is a folder")
        return open(word, "rb")
    except (OSError, ValueError) as error:
        raise Unfit(f"{shown(word)} can't be read: {getattr(error, 'strerror', None) or shown(str(error))}") from None


def is_one_file(one, other):
    return "-" not in (one, other) and os.path.exists(one) and os.path.exists(other) and os.path.samefile(one, other)


def convert(args):
    """Writes the output, and gives a sentence on it."""
    if is_one_file(args.file, args.out):
        raise Unfit(f"{shown(args.out)} is the file that is read")
    if args.file == "-":
        return converted(sys.stdin.buffer, args)
    with opened(args.file) as stream:
        return converted(stream, args)


def converted(stream, args):
    source = Source(stream, name_of(args.file), Form(args.delimiter, args.quote, args.escape, args.encoding, args.skip))
    names, rows = table_of(source, args)
    sink = ToFile(args.out) if args.table is None else ToTable(args.out, args.table)
    try:
        written = sink.write(names, rows, source)
        if not written.is_same(sink.read_back()):
            raise Unfit(f"{source.name}: what was written reads back as something else, so it is not kept")
        sink.keep()
    finally:
        sink.end()
    count = written.count - (args.table is None)
    return (f"{source.name} ({source.form_in_words()}): {count:,} row{'' if count == 1 else 's'} of {len(names)} "
            f"column{'' if len(names) == 1 else 's'}, read back as written")


def main():
    args = words()
    try:
        told = convert(args)
    except Unfit as why:
        told = str(why)
    except BrokenPipeError:
        os.dup2(os.open(os.devnull, os.O_WRONLY), sys.stdout.fileno())
        return 1
    except sqlite3.Error as error:
        told = f"{shown(args.out)}: {shown(str(error), 200)}"
    except OSError as error:
        told = f"the output can't be written: {error.strerror or shown(str(error))}"
    except MemoryError:
        told = "memory ran out"
    except KeyboardInterrupt:
        return 130
    else:
        print(f"to_csv: {told}", file=sys.stderr)
        return 0
    print(f"to_csv: {told}", file=sys.stderr)
    return 1


if __name__ == "__main__":
    sys.exit(main())
