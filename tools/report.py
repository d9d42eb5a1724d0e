"""Reads what `depprof profile`, `nary`, `normalize` or `synthesize` writes. Columns, relations and tables count from 1, as in the report.

A report may come from anywhere, so nothing of it is believed: each number is in range, and a report that was cut is refused where that
shows. What it says of rows is checked by who reads the rows.
"""
import os
import re
import sys
import unicodedata
from collections import Counter
from dataclasses import dataclass, field
from functools import lru_cache

import csv_records

MOST_COLUMNS = 128
NUMBER = re.compile("0|[1-9][0-9]{0,17}")
CAUSES = {
    "1": "no header record", "2": "more than 128 columns", "3": "wrong number of fields", "4": "a cell above 65,536 bytes",
    "5": "more than 1,000,000 rows", "6": "more than 268,435,456 bytes",
}


class Unreadable(Exception):
    """Why a text is no report, in one line."""


@dataclass
class Relation:
    name: str
    width: int
    rows: int
    columns: list = field(default_factory=list)  # names
    keys: list = field(default_factory=list)  # tuples of numbers
    dependencies: list = field(default_factory=list)  # (tuple of numbers, number)


@dataclass
class Table:
    number: int
    columns: tuple  # numbers of columns of the first relation
    keys: list  # tuples of such numbers, the table's own key first


@dataclass
class Report:
    relations: list = field(default_factory=list)
    inclusions: list = field(default_factory=list)  # (relation, tuple of columns), (relation, tuple of columns)
    tables: list = field(default_factory=list)
    references: list = field(default_factory=list)  # (table, tuple of the relation's columns, table)
    passed_over: Counter = field(default_factory=Counter)  # how many lines of each kind were passed over


# ---------------------------------------------------------------- texts


def is_plain(character):
    """Whether a character can stand in a line: no control character, no end of a line, no byte that was no UTF-8, none that XML lacks."""
    return unicodedata.category(character) not in ("Cc", "Cs", "Zl", "Zp") and character not in "\ufffe\uffff"


def told(character):
    """A character that can't stand in a line, told by its number; of a byte that was no UTF-8 the byte."""
    return f"<{ord(character) - (0xDC00 if unicodedata.category(character) == 'Cs' else 0):02X}>"


def shown(text, most=80):
    """A text for a message: on one line, without control characters, and not too long."""
    out = "".join(c if is_plain(c) else told(c) for c in text[:most])
    return out + (".." if len(text) > most else "")


# ---------------------------------------------------------------- parsing


@lru_cache(4096)  # a report has few numbers, each many times
def number_of(text, least, most):
    if not NUMBER.fullmatch(text) or not least <= int(text) <= most:
        raise ValueError(f"{shown(text)} is no number from {least} to {most}")
    return int(text)


@lru_cache(65536)
def columns_of(text, width):
    """A set of columns: numbers in ascending order, separated by one space."""
    numbers = tuple(number_of(word, 1, width) for word in text.split(" ")) if text else ()
    if any(a >= b for a, b in zip(numbers, numbers[1:])):
        raise ValueError(f"{shown(text)} is no ascending list")
    return numbers


def no_fields(count, fields):
    if len(fields) != count:
        raise ValueError(f"{len(fields)} fields behind the first, not {count}")


class Parser:
    """Takes the records of a report one after another. Lines of the kinds that are passed over are counted and not read."""

    def __init__(self, passing=()):
        self.report, self.passing = Report(), passing
        self.takers = {
            "relation": self.relation, "column": self.column, "key": self.key, "fd": self.dependency, "ind": self.inclusion,
            "nind": self.inclusion, "table": self.table, "alternate": self.alternate, "reference": self.reference,
        }

    def take(self, kind, fields):
        if kind in self.passing:
            self.report.passed_over[kind] += 1
            return
        if kind not in self.takers:
            raise ValueError(f"no line of a report of profile, nary, normalize or synthesize begins with {shown(kind, 30) or 'nothing'}")
        if kind != "relation" and not self.report.relations:
            raise ValueError("it stands before any relation")
        if kind not in ("relation", "column"):
            self.check_width()
        self.takers[kind](*fields)

    def check_width(self):
        """Whether the last relation has all its columns."""
        last = self.report.relations[-1]
        if len(last.columns) < last.width:
            raise ValueError(f"{shown(last.name)} has {last.width} column(s), and {len(last.columns)} of them are named")

    def relation(self, *fields):
        no_fields(3, fields)
        if self.report.relations:
            self.check_width()
        self.report.relations.append(Relation(fields[0], number_of(fields[1], 1, MOST_COLUMNS), number_of(fields[2], 0, 10**17)))

    def column(self, *fields):
        no_fields(2, fields)
        last = self.report.relations[-1]
        if number_of(fields[0], 1, last.width) != len(last.columns) + 1:
            raise ValueError(f"column {fields[0]} is not the next one")
        last.columns.append(fields[1])

    def key(self, *fields):
        no_fields(1, fields)
        last = self.report.relations[-1]
        last.keys.append(columns_of(fields[0], last.width))

    def dependency(self, *fields):
        no_fields(2, fields)
        last = self.report.relations[-1]
        last.dependencies.append((columns_of(fields[0], last.width), number_of(fields[1], 1, last.width)))

    def places(self, text):
        """A list of columns of one relation, as `REL.COL` items."""
        places = [item.split(".") for item in text.split(" ")]
        if any(len(place) != 2 or place[0] != places[0][0] for place in places):
            raise ValueError(f"{shown(text)} is no list of columns of one relation")
        relation = number_of(places[0][0], 1, len(self.report.relations))
        columns = tuple(number_of(column, 1, self.report.relations[relation - 1].width) for _, column in places)
        if len(set(columns)) < len(columns):
            raise ValueError(f"{shown(text)} names a column twice")
        return relation, columns

    def inclusion(self, *fields):
        no_fields(2, fields)
        dependent, referenced = self.places(fields[0]), self.places(fields[1])
        if len(dependent[1]) != len(referenced[1]):
            raise ValueError("its two lists are not of one length")
        if dependent[0] == referenced[0] and any(a == b for a, b in zip(dependent[1], referenced[1])):
            raise ValueError("it has a column included in itself")
        self.report.inclusions.append((dependent, referenced))

    def table(self, *fields):
        no_fields(3, fields)
        if len(self.report.relations) > 1:
            raise ValueError("there are tables of a split and several relations")
        width = self.report.relations[0].width
        columns, key = columns_of(fields[1], width), columns_of(fields[2], width)
        if number_of(fields[0], 1, 10**6) != len(self.report.tables) + 1:
            raise ValueError(f"table {fields[0]} is not the next one")
        if not columns or not set(key) <= set(columns):
            raise ValueError("the key is no part of the table's columns")
        self.report.tables.append(Table(len(self.report.tables) + 1, columns, [key]))

    def table_at(self, text):
        return self.report.tables[number_of(text, 1, len(self.report.tables)) - 1]

    def alternate(self, *fields):
        no_fields(2, fields)
        table, key = self.table_at(fields[0]), columns_of(fields[1], self.report.relations[0].width)
        if not set(key) <= set(table.columns):
            raise ValueError("the key is no part of the table's columns")
        table.keys.append(key)

    def reference(self, *fields):
        no_fields(3, fields)
        table, other = self.table_at(fields[0]), self.table_at(fields[2])
        key = columns_of(fields[1], self.report.relations[0].width)
        if table is other or not key or not set(key) <= set(table.columns) or key not in other.keys:
            raise ValueError("it refers to no key of another table by columns of its own")
        self.report.references.append((table.number, key, other.number))


def refusal(fields):
    """What depprof said in place of a report, as a sentence; else None."""
    if fields[0].startswith("usage: depprof"):
        return "it is depprof's usage line: the words that depprof was given were wrong"
    if fields[0] == "refused" and len(fields) == 4 and fields[3] in CAUSES:
        return f"{shown(fields[1])}, record {shown(fields[2], 20)}: {CAUSES[fields[3]]}"
    if fields[:2] == ["fault", "read"] and len(fields) == 3:
        return f"depprof could not read {shown(fields[2])}"
    return None


def read(data, passing=()):
    """The report that bytes are."""
    parser = Parser(passing)
    for number, record in enumerate(csv_records.records(data), 1):
        fields = [cell.decode("utf-8", "surrogateescape") for cell in record]
        if refusal(fields):
            raise Unreadable(refusal(fields))
        try:
            parser.take(fields[0], fields[1:])
        except ValueError as why:
            raise Unreadable(f"record {number} of the report: {why}") from None
    finish(parser, data)
    return parser.report


def finish(parser, data):
    """Whether the report ends as one ends."""
    if not parser.report.relations:
        raise Unreadable("the report has no relation")
    if not data.endswith(b"\n"):
        raise Unreadable("the report is cut: its last line has no end")
    try:
        parser.check_width()
    except ValueError as why:
        raise Unreadable(f"the report is cut: {why}") from None


def read_file(name, passing=()):
    """The report in a file, or in the standard input where the name is `-`."""
    try:
        if name == "-":
            return read(sys.stdin.buffer.read(), passing)
        with open(name, "rb") as file:
            return read(file.read(), passing)
    except (OSError, ValueError) as error:
        raise Unreadable(f"{shown(name)}: {getattr(error, 'strerror', None) or shown(str(error))}") from None


def joined(reports):
    """One report of several on the same relations, as of `profile` and of `nary`."""
    first = reports[0]
    for other in reports[1:]:
        if [(r.name, r.rows, r.columns) for r in other.relations] != [(r.name, r.rows, r.columns) for r in first.relations]:
            raise Unreadable("the reports are not of the same relations")
        for mine, its in zip(first.relations, other.relations):
            mine.keys = list(dict.fromkeys(mine.keys + its.keys))
            mine.dependencies = list(dict.fromkeys(mine.dependencies + its.dependencies))
        first.inclusions = list(dict.fromkeys(first.inclusions + other.inclusions))
        first.tables, first.references = first.tables or other.tables, first.references or other.references
        first.passed_over += other.passed_over
    return first


# ---------------------------------------------------------------- tables


@dataclass
class Drawn:
    """A table as it is drawn or created: of a normalisation one of its tables, else a relation."""
    name: str
    file: str
    heads: list  # the names that the file gives its columns
    columns: list  # names, each once
    keys: list  # tuples of places in `columns`, from 0
    rows: int  # -1 where the report does not tell


def own_names(names, what):
    """The names, none empty and none twice, also where upper and lower case are one."""
    out, seen = [], set()
    for number, name in enumerate(names, 1):
        base = name or f"{what}{number}"
        own, k = base, 1
        while own.casefold() in seen:
            k += 1
            own = f"{base}_{k}"
        seen.add(own.casefold())
        out.append(own)
    return out


def tables_of(report, prefix, naming=own_names):
    """What there is to create or to draw. The tables of a split have their rows in PREFIXn.csv. `naming` makes the names of columns
    (`column`) and tables (`table`) out of those of the files."""
    if report.tables:
        first = report.relations[0]
        names = naming(first.columns, "column")
        stem = os.path.basename(prefix) or "table"
        stems = naming([f"{stem}{t.number}" for t in report.tables], "table")
        return [Drawn(own, f"{prefix}{t.number}.csv", [first.columns[c - 1] for c in t.columns], [names[c - 1] for c in t.columns],
                      [tuple(t.columns.index(c) for c in key) for key in t.keys], -1) for own, t in zip(stems, report.tables)]
    stems = naming([os.path.splitext(os.path.basename(r.name))[0] for r in report.relations], "table")
    return [Drawn(stem, r.name, r.columns, naming(r.columns, "column"), [tuple(c - 1 for c in key) for key in r.keys], r.rows)
            for stem, r in zip(stems, report.relations)]


def references_of(report):
    """Pairs of places that hold in the rows: columns of a table, and the columns of a key that has each of their values. Tables and
    places count from 0."""
    return split_references(report) if report.tables else relation_references(report)


def split_references(report):
    """The tables of a split are projections of the same rows, so where one has the columns of another's key, it refers to it. Of two
    that refer to each other the later one does. Where no key of a split joins two tables, another one may that the report tells."""
    pairs = [(t.number, o.keys[0], o.number) for t in report.tables for o in report.tables
             if t is not o and o.keys[0] and set(o.keys[0]) <= set(t.columns)]
    between = {(i, j) for i, _, j in pairs}
    pairs = [(i, key, j) for i, key, j in pairs if (j, i) not in between or j < i]
    pairs += [(i, key, j) for i, key, j in report.references if not {(i, j), (j, i)} & between]
    return [((i - 1, places(report.tables[i - 1], key)), (j - 1, places(report.tables[j - 1], key))) for i, key, j in pairs]


def places(table, columns):
    return tuple(table.columns.index(c) for c in columns)


def relation_references(report):
    """The inclusions in a key, also in one of the same relation."""
    keys, out = [set(r.keys) for r in report.relations], []
    for (i, columns), (j, others) in report.inclusions:
        key = tuple(sorted(others))
        if key in keys[j - 1]:
            pairs = dict(zip(others, columns))  # in the order of the key, which some engines ask for
            out.append(((i - 1, tuple(pairs[c] - 1 for c in key)), (j - 1, tuple(c - 1 for c in key))))
    return out
