"""The rows of a table's file, read by the rules of `depprof`, and what all of them tell: the values of each column, and its facts."""
import os
import stat
from bisect import bisect_left, bisect_right
from itertools import islice

import csv_records
from column_types import DECIMAL, INTEGER, facts_of
from report import Unreadable, shown
from score import Use

MOST_BYTES = 268_435_456  # what depprof takes
AT_ONCE = 5000  # rows


def contents(name):
    """The bytes of a file. A report names files as it likes, so nothing is opened that is no plain file."""
    try:
        kind = os.stat(name)
        if not stat.S_ISREG(kind.st_mode):
            raise Unreadable(f"{shown(name)} is no plain file, so its rows can't be read again")
        if kind.st_size > MOST_BYTES:
            raise Unreadable(f"{shown(name)} has more than {MOST_BYTES} bytes")
        with open(name, "rb") as file:
            return file.read()
    except OSError as error:
        raise Unreadable(f"{shown(name)} can't be read: {error.strerror}") from None
    except ValueError:
        raise Unreadable(f"{shown(name)} is no name of a file") from None


class Rows:
    """The rows of one file. Its bytes are kept, and parted anew whenever rows are asked for."""

    def __init__(self, table):
        self.name, self.data = table.file, contents(table.file)
        self.check_names(table.heads)
        self.values, self.count = self.look(len(table.heads))
        if table.rows not in (-1, self.count):
            raise Unreadable(f"{shown(self.name)} has {self.count} rows, and the report says {table.rows}: it is of another state of the file")
        self.facts = [facts_of(values) for values in self.values]
        self.orders = {}

    def check_names(self, heads):
        head = next(csv_records.records(self.data), None)
        if head is None or [name.decode("utf-8", "surrogateescape") for name in head] != heads:
            raise Unreadable(f"{shown(self.name)} does not begin with the names of the report's columns")

    def chunks(self):
        """The rows, some thousands at a time."""
        records = csv_records.records(self.data)
        next(records)
        while True:
            chunk = list(islice(records, AT_ONCE))
            if not chunk:
                return
            yield chunk

    def look(self, width):
        """The values of each column, and the number of rows."""
        values, count = [set() for _ in range(width)], 0
        for chunk in self.chunks():
            for number, row in enumerate(chunk, count + 2):
                if len(row) != width:
                    raise Unreadable(f"{shown(self.name)}, record {number}: wrong number of fields")
            for known, column in zip(values, zip(*chunk)):
                known.update(column)
            count += len(chunk)
        return values, count

    def parts(self, columns):
        """The different values that some columns have together, without those of which one is empty. Those of one column stand alone."""
        if len(columns) == 1:
            return self.values[columns[0]] - {b""}
        parts = {tuple(row[c] for c in columns) for chunk in self.chunks() for row in chunk}
        return {part for part in parts if all(part)}

    def order(self, columns):
        """The parts in ascending order, and what orders them: the numbers of one column as numbers, all else as bytes."""
        if columns not in self.orders:
            by = float if len(columns) == 1 and self.facts[columns[0]].kind in (INTEGER, DECIMAL) else same
            self.orders[columns] = sorted(map(by, self.parts(columns))), by
        return self.orders[columns]


def same(part):
    return part


def use_of(rows, columns, others, key):
    """How columns use the values of a key, which are to have all of theirs."""
    parts = rows.parts(columns)
    if not parts <= others.parts(key):
        raise Unreadable(f"{shown(rows.name)} has values that are not in {shown(others.name)}, where the report says that all are: "
                         "it is of another state of the files")
    if not parts:
        return Use(0, 0.0, 0.0)
    order, by = others.order(key)
    mine = list(map(by, parts))
    return Use(len(parts), len(parts) / len(order), (bisect_right(order, max(mine)) - bisect_left(order, min(mine))) / len(order))
