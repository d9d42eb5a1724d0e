#!/usr/bin/env python3
"""Writes a change text to measure sessions with, the same for the same words on each machine.

  changes.py FILE BATCHES OPERATIONS [SEED] [--mixed]

FILE is a relation as CSV. Each batch has so many operations, each an insert, a delete or an update, of rows that are drawn among those that
are there then, and a report is asked for after it. A new row is one of the file's with one or two cells of other rows; with --mixed each
of its cells is that of another row, so that dependencies break all the time. `depprof session FILE < CHANGES` takes the text.
"""
import argparse
import csv
import random
import sys


class Rows:
    """The numbers of the rows that are there, and the cells that new ones are made of."""

    def __init__(self, cells, draw, mixed):
        self.cells, self.draw, self.mixed = cells, draw, mixed
        self.live = list(range(1, len(cells) + 1))
        self.next = len(cells) + 1

    def below(self, bound):
        return int(bound * self.draw())

    def cell(self, column):
        return self.cells[self.below(len(self.cells))][column]

    def new(self):
        width = len(self.cells[0])
        self.live.append(self.next)
        self.next += 1
        if self.mixed:
            return [self.cell(column) for column in range(width)]
        row = list(self.cells[self.below(len(self.cells))])
        for _ in range(1 + self.below(2)):
            column = self.below(width)
            row[column] = self.cell(column)
        return row

    def gone(self):
        place = self.below(len(self.live))
        self.live[place], self.live[-1] = self.live[-1], self.live[place]
        return self.live.pop()


def operation(rows):
    kind = "+-="[rows.below(3)]
    gone = [] if kind == "+" else [rows.gone()]
    new = [] if kind == "-" else rows.new()
    return [kind, *gone, *new]


def main():
    parser = argparse.ArgumentParser(prog="changes.py", description="Writes a change text to measure sessions with.")
    parser.add_argument("file", metavar="FILE")
    parser.add_argument("batches", metavar="BATCHES", type=int)
    parser.add_argument("operations", metavar="OPERATIONS", type=int)
    parser.add_argument("seed", metavar="SEED", type=int, nargs="?", default=1)
    parser.add_argument("--mixed", action="store_true", help="each cell of a new row is that of another row")
    args = parser.parse_args()
    with open(args.file, newline="", encoding="utf-8") as file:
        cells = list(csv.reader(file))[1:]
    rows = Rows(cells, random.Random(args.seed).random, args.mixed)
    out = csv.writer(sys.stdout, lineterminator="\n")
    for _ in range(args.batches):
        for _ in range(args.operations):
            out.writerow(operation(rows))
        out.writerow(["!"])
        out.writerow(["?"])


if __name__ == "__main__":
    main()
