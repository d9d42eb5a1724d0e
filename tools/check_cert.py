#!/usr/bin/env python3
"""Checks a certificate of a relation's keys and dependencies, without depprof and with python alone.

  check_cert.py FILE CERT

It writes `yes`, or `no,RECORD,FLAW`, as `depprof check` does. A certificate says: these pairs of rows, and these keys and dependencies. Two
rows that agree on some columns and differ in another show that the first do not determine the other. What no pair shows wrong is left, and
of that the smallest left sides are looked up in all rows. Where they hold, they are all minimal keys and dependencies: whatever is smaller,
a pair shows wrong, and whatever is not smaller is not minimal. Rows are compared as they stand in the file, cell by cell.
"""
import sys

import csv_records

FORM, SHAPE, PAIR, LEAST, FAILS = 21, 22, 23, 24, 25
ROW = "row"  # what a key determines: which row it is


class Flaw(Exception):
    """The record and the number of a flaw."""


def number(field):
    """The number that a field writes: up to ten digits, none of them a leading zero."""
    plain = field.isdigit() and len(field) <= 10 and (field == b"0" or not field.startswith(b"0"))
    return int(field) if plain and int(field) <= 4294967295 else None


def columns(field):
    """The columns of a field, counted from 1, ascending, with a space between."""
    found = [number(word) for word in field.split(b" ")] if field else []
    ascending = None not in found and found == sorted(set(found)) and all(1 <= column <= 128 for column in found)
    return frozenset(found) if ascending else None


def line(record):
    """What a record says, as a tuple, or None where it is out of form."""
    kind, fields = record[0], record[1:]
    if kind in (b"cert", b"pair") and len(fields) == 2:
        said = (kind, number(fields[0]), number(fields[1]))
    elif kind == b"key" and len(fields) == 1:
        said = (kind, columns(fields[0]), ROW)
    elif kind == b"fd" and len(fields) == 2:
        right = number(fields[1])
        said = (kind, columns(fields[0]), right if right is not None and 1 <= right <= 128 else None)
    elif kind == b"end" and not fields:
        said = (kind,)
    else:
        return None
    return None if None in said else said


def lines(data):
    """The lines of a text: one `cert`, pairs, keys, dependencies, and `end`."""
    found, order = [], [b"cert", b"pair", b"key", b"fd", b"end"]
    for record in csv_records.records(data):
        said = line(record)
        if said is None or (said[0] == b"cert") != (not found):
            raise Flaw(len(found) + 1, FORM)
        if found and (found[-1][0] == b"end" or order.index(said[0]) < order.index(found[-1][0])):
            raise Flaw(len(found) + 1, FORM)
        found.append(said)
    if not found or found[-1][0] != b"end":
        raise Flaw(len(found) + 1, FORM)
    return found


def least(agree_sets, target, width):
    """The smallest column sets without a target that lie in no agree set which lacks it, in the order of a report."""
    left = {frozenset()}
    for agreed in {agreed for agreed in agree_sets if target not in agreed}:
        inside = {x for x in left if x <= agreed}  # what the pair shows wrong grows by a column on which the two rows differ
        others = left - inside
        grown = {x | {column} for x in inside for column in range(1, width + 1) if column not in agreed and column != target}
        left = others | {x for x in grown if not any(x >= y for y in others)}
    return sorted(left, key=lambda x: (len(x), sorted(x)))


def holds(rows, left, target):
    """Whether columns determine a target: rows with the same cells on them have the same cell there."""
    seen, places = {}, sorted(column - 1 for column in left)
    for place, row in enumerate(rows):
        here = place if target == ROW else row[target - 1]
        if seen.setdefault(tuple(row[column] for column in places), here) != here:
            return False
    return True


def check(relation, certificate):
    """Raises the first flaw that a certificate of a relation has."""
    header, *rows = csv_records.records(relation)
    said, width = lines(certificate), len(header)
    if said[0][1:] != (width, len(rows)):
        raise Flaw(1, SHAPE)
    pairs = [one for one in said if one[0] == b"pair"]
    listed = [one[1:] for one in said if one[0] in (b"key", b"fd")]
    for record, (_, i, j) in enumerate(pairs, 2):
        if not 1 <= i < j <= len(rows):
            raise Flaw(record, PAIR)
    agree_sets = {frozenset(c for c in range(1, width + 1) if rows[i - 1][c - 1] == rows[j - 1][c - 1]) for _, i, j in pairs}
    wanted = [(left, target) for target in [ROW, *range(1, width + 1)] for left in least(agree_sets, target, width)]
    first = len(pairs) + 2
    for place in range(max(len(listed), len(wanted))):
        if listed[place:place + 1] != wanted[place:place + 1]:
            raise Flaw(first + place, LEAST)
    for record, (left, target) in enumerate(listed, first):
        if not holds(rows, left, target):
            raise Flaw(record, FAILS)


def main(file, certificate):
    with open(file, "rb") as relation, open(certificate, "rb") as text:
        try:
            check(relation.read(), text.read())
        except Flaw as flaw:
            return "no,%d,%d" % flaw.args
    return "yes"


if __name__ == "__main__":
    if len(sys.argv) != 3:
        sys.exit("usage: check_cert.py FILE CERT")
    print(main(*sys.argv[1:]))
