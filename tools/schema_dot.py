#!/usr/bin/env python3
"""Writes a report of `depprof profile` or `depprof normalize` as a graph for Graphviz: tables with their columns and keys, and what
refers to what.

  depprof normalize --out shop orders.csv | schema_dot.py --prefix shop | dot -Tsvg > shop.svg
  depprof profile customers.csv items.csv | schema_dot.py | dot -Tsvg > files.svg

The columns of a table's first key are underlined. An arrow goes from the columns that refer to the key that they refer to: between the
tables of a split each such place, between relations each inclusion in a key, of several columns too, and in one of the same relation.
"""
import argparse
import sys
from html import escape

import report as reports


def shown(text):
    """A text of a label, on one line."""
    return escape(reports.shown(" ".join(text.split()), 200)) or " "


def node(number, table):
    key = table.keys[0] if table.keys else ()
    rows = f' <FONT COLOR="gray40">{table.rows} rows</FONT>' if table.rows >= 0 else ""
    lines = [f'<TR><TD BGCOLOR="gray90"><B>{shown(table.name)}</B>{rows}</TD></TR>']
    for c, name in enumerate(table.columns):
        text = f"<U>{shown(name)}</U>" if c in key else shown(name)
        lines.append(f'<TR><TD PORT="c{c}" ALIGN="LEFT">{text}</TD></TR>')
    return f'    t{number} [label=<<TABLE BORDER="0" CELLBORDER="1" CELLSPACING="0">{"".join(lines)}</TABLE>>];\n'


def graph(report, prefix):
    tables = reports.tables_of(report, prefix)
    text = "digraph schema {\n    rankdir=LR;\n    node [shape=plain, fontname=\"sans-serif\"];\n"
    text += "".join(node(number, table) for number, table in enumerate(tables))
    for (i, columns), (j, key) in reports.references_of(report):
        side = ":e" if i == j else ""  # an arrow to its own table goes around it, and not through others
        for k, (c, other) in enumerate(zip(columns, key)):
            # Of a reference by several columns the first arrow is solid.
            text += f"    t{i}:c{c}{side} -> t{j}:c{other}{side}{' [style=dashed]' if k else ''};\n"
    return text + "}\n"


def main():
    parser = argparse.ArgumentParser(prog="schema_dot.py", description="A report as a graph for Graphviz.")
    parser.add_argument("report", metavar="REPORT", nargs="?", default="-", help="a file (the standard input)")
    parser.add_argument("--prefix", default="", help="the word of `normalize --out`, by which the tables are named")
    args = parser.parse_args()
    try:
        text = graph(reports.read_file(args.report), args.prefix)
    except reports.Unreadable as why:
        print(f"schema_dot: {why}", file=sys.stderr)
        return 1
    sys.stdout.buffer.write(text.encode("utf-8", "replace"))
    return 0


if __name__ == "__main__":
    sys.exit(main())
