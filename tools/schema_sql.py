#!/usr/bin/env python3
"""Writes a report of `depprof profile` or `depprof normalize` as a script of SQL: tables with types, keys and references, and their rows.

  depprof normalize --out shop orders.csv | schema_sql.py --prefix shop | sqlite3 -bail shop.db
  depprof profile customers.csv items.csv | schema_sql.py --dialect postgres | psql -v ON_ERROR_STOP=1 shop

The rows are read here, by the rules of depprof, and written as values, so that no reader of a shell takes part; behind each table a
statement fails unless it has as many rows as the report says. A type is taken only where each cell comes out as it went in. Keys and
references have a score from 0 to 100: those at or above the line (--line) are declared, and the others are remarks. An empty cell is NULL, but
where tables of a split join by the column: there it stays the empty text, since NULL equals NULL in the report, and not in SQL.
"""
import argparse
import sys

import report as reports
from column_types import BYTES, TEXT
from dialects import DIALECTS
from report import Unreadable, shown
from schema_plan import Plan, Wishes

MOST_REMARKS = 20  # on keys or references of a table that are not declared
ROWS_AT_ONCE, BYTES_AT_ONCE = 500, 200_000  # of one statement
CHECK = "depprof check"  # the table that takes no row where something is not as reported


def remark(text):
    """A line that engines skip. To some clients a backslash is a command wherever it stands."""
    return f"-- {shown(text, 400)}\n".replace("\\", "<5C>")


class Script:
    """The text of a plan, piece by piece."""

    def __init__(self, plan):
        self.plan, self.dialect = plan, plan.dialect
        self.names = {self.dialect.folded(table.name) for table in plan.tables}
        self.check = self.dialect.fresh(CHECK, "table", self.names)

    def pieces(self):
        yield remark(f"Tables of a report of depprof, for {self.dialect.name}. "
                     f"Declared are keys and references of score {self.plan.wishes.line} and above.")
        yield "".join(statement + "\n" for statement in self.dialect.head)
        yield f"CREATE {self.dialect.temporary} {self.dialect.quoted(self.check)} ({self.dialect.quoted('as reported')} INTEGER NOT NULL);\n"
        if self.dialect.needed:
            yield self.must_hold(*self.dialect.needed)
        for i in range(len(self.plan.tables)):
            yield "\n" + self.remarks(i) + self.create(i)
            yield from self.inserts(i)
            yield self.must_hold(f"COUNT(*) = {self.plan.rows[i].count}", self.dialect.quoted(self.plan.tables[i].name))
        yield "\n" + self.added_references()
        yield f"DROP {self.dialect.dropped} {self.dialect.place}{self.dialect.quoted(self.check)};\n"
        yield "".join(statement + "\n" for statement in self.dialect.tail)

    def must_hold(self, condition, source):
        """A statement that fails where a condition does not hold."""
        return f"INSERT INTO {self.dialect.place}{self.dialect.quoted(self.check)} SELECT CASE WHEN {condition} THEN 1 END FROM {source};\n"

    # -------------------------------------------------------- remarks

    def remarks(self, i):
        """What there is to say of a table before it is made."""
        table, rows = self.plan.tables[i], self.plan.rows[i]
        out = remark(f"{table.name}: {rows.count} row{'' if rows.count == 1 else 's'} of {shown(table.file)}")
        for c, (name, head) in enumerate(zip(table.columns, table.heads), 1):
            if name != head:
                out += remark(f"column {c}, which the file names \"{shown(head)}\", is {name}")
        out += self.ranked([(f"key {self.named(i, key.columns)}", key) for key in self.plan.keys[i]], "keys")
        if not table.keys:
            out += remark("no key is known" if self.plan.is_split else "there is no key in the report: two rows may be equal")
        mine = [r for r in self.plan.references if r.table == i]
        return out + self.ranked([(f"{self.named(i, r.columns)} refers to {self.plan.tables[r.other].name} {self.named(r.other, r.key)}", r)
                                  for r in mine], "references")

    def named(self, i, columns):
        return f"({', '.join(self.plan.tables[i].columns[c] for c in columns)})"

    def ranked(self, found, what):
        """A remark for each key or reference, the best first, but for the last of those that are not declared."""
        declared = [(text, one) for text, one in found if not one.flaw]
        others = [(text, one) for text, one in found if one.flaw]
        out = "".join(remark(f"{text}: {one.score}") for text, one in declared)
        out += "".join(remark(f"not declared, {one.flaw}: {text}: {one.score}") for text, one in others[:MOST_REMARKS])
        if len(others) > MOST_REMARKS:
            out += remark(f"{len(others) - MOST_REMARKS} more {what} are not declared, of score {others[MOST_REMARKS][1].score.points} and below")
        return out

    # -------------------------------------------------------- tables

    def create(self, i):
        """The statements that make a table, without its rows."""
        plan, table = self.plan, self.plan.tables[i]
        primary = plan.primary(i)
        lines = [(self.column(i, c), self.column_remark(i, c)) for c in range(len(table.columns))]
        for key in plan.keys[i]:
            if not key.flaw and key.columns:
                kind = "PRIMARY KEY" if key is primary else "UNIQUE"
                lines.append((f"{kind} ({self.dialect.listed(table.columns[c] for c in key.columns)})", ""))
        if self.dialect.add_reference(table.name, "") is None:
            lines += [(self.clause(r), "") for r in plan.declared_references(i)]
        body = "".join(f"    {text}{',' if n < len(lines) else ''}{note}\n" for n, (text, note) in enumerate(lines, 1))
        text = f"CREATE TABLE {self.dialect.quoted(table.name)} (\n{body}){self.dialect.table_options};\n"
        if any(not key.flaw and not key.columns for key in plan.keys[i]):
            text += self.one_row(table)
        return text

    def one_row(self, table):
        if not self.dialect.has_expression_index:
            return remark(f"{table.name} has one row at most")
        index = self.dialect.fresh(f"{table.name} one row", "table", self.names)
        self.names.add(self.dialect.folded(index))
        return self.dialect.one_row(table.name, index)

    def column(self, i, c):
        kind = self.dialect.type_of(self.plan.facts[i][c], self.plan.uses[i][c])
        return f"{self.dialect.quoted(self.plan.tables[i].columns[c])} {kind}{' NOT NULL' if self.plan.is_filled(i, c) else ''}"

    def column_remark(self, i, c):
        """What a column's cells are, where its type does not tell."""
        facts = self.plan.facts[i][c]
        kind = self.dialect.type_of(facts, self.plan.uses[i][c])
        if kind not in ("TEXT", "BLOB", "MEDIUMTEXT", "MEDIUMBLOB", "BYTEA") or not facts.size:
            return ""
        if facts.kind in (TEXT, BYTES):
            return f" -- {facts.kind} of at most {facts.length} {'characters' if facts.kind == TEXT else 'bytes'}"
        return f" -- {facts.kind}"

    def clause(self, r):
        table, other = self.plan.tables[r.table], self.plan.tables[r.other]
        return (f"FOREIGN KEY ({self.dialect.listed(table.columns[c] for c in r.columns)}) "
                f"REFERENCES {self.dialect.quoted(other.name)} ({self.dialect.listed(other.columns[c] for c in r.key)})")

    def added_references(self):
        """The references, which engines add once all rows are there. Where a table has them from the start they are looked at here."""
        out = ""
        for i, table in enumerate(self.plan.tables):
            mine = self.plan.declared_references(i)
            added = [self.dialect.add_reference(table.name, self.clause(r)) for r in mine]
            if mine and added[0] is None:
                out += self.must_hold("COUNT(*) = 0", f"pragma_foreign_key_check({self.dialect.text(table.name.encode())})")
            else:
                out += "".join(added)
        return out

    # -------------------------------------------------------- rows

    def inserts(self, i):
        """The rows of a table, some hundreds a statement."""
        head = f"INSERT INTO {self.dialect.quoted(self.plan.tables[i].name)} VALUES\n"
        lines, size = [], 0
        for line in self.lines(i):
            if lines and (len(lines) == ROWS_AT_ONCE or size + len(line) > BYTES_AT_ONCE):
                yield head + ",\n".join(lines) + ";\n"
                lines, size = [], 0
            lines.append(line)
            size += len(line)
        if lines:
            yield head + ",\n".join(lines) + ";\n"

    def lines(self, i):
        """Each row as values in brackets. A cell that comes again is written by what was made of it before."""
        literals = [Literals(self.dialect.literal_of(facts, self.plan.uses[i][c]), None if c in self.plan.kept[i] else "NULL")
                    for c, facts in enumerate(self.plan.facts[i])]
        for chunk in self.plan.rows[i].chunks():
            columns = [map(literal.__getitem__, column) for literal, column in zip(literals, zip(*chunk))]
            for row in zip(*columns):
                yield f"({', '.join(row)})"
            for literal in literals:
                literal.forget()


class Literals(dict):
    """The literals of the cells of a column."""

    most = 100_000

    def __init__(self, write, empty):
        super().__init__()
        self.write, self.empty = write, empty
        self.forget()

    def __missing__(self, cell):
        self[cell] = text = self.write(cell)
        return text

    def forget(self):
        """Begins anew where there are many."""
        if len(self) > self.most or not self:
            self.clear()
            if self.empty is not None:
                self[b""] = self.empty


class Words(argparse.ArgumentParser):
    """Says what is wrong with the words in one line."""

    def error(self, message):
        print(f"schema_sql: {shown(message, 300)}", file=sys.stderr)
        sys.exit(1)


def number_between(least, most):
    def number(text):
        if not reports.NUMBER.fullmatch(text) or not least <= int(text) <= most:
            raise argparse.ArgumentTypeError(f"{shown(text, 20)} is no number from {least} to {most}")
        return int(text)
    return number


def words(given=None):
    parser = Words(prog="schema_sql.py", description="A report as a script of SQL.")
    parser.add_argument("report", metavar="REPORT", nargs="*", default=["-"], help="a file (the standard input); of the same files several")
    parser.add_argument("--dialect", choices=sorted(DIALECTS), default="sqlite", help="the engine (sqlite)")
    parser.add_argument("--prefix", help="the word of `normalize --out`: the rows of table n are in PREFIXn.csv")
    parser.add_argument("--line", metavar="SCORE", type=number_between(0, 100), default=Wishes.line, help="declares what has this score or more (50)")
    parser.add_argument("--keys", metavar="N", type=number_between(1, 20), default=Wishes.keys, help="at most so many keys of a table (5)")
    return parser.parse_args(given)


def script_of(report, args):
    """The script of a report, by the words of the command."""
    if report.tables and args.prefix is None:
        raise Unreadable("the report is of a split: --prefix is to have the word that --out had")
    return Script(Plan(report, args.prefix or "", DIALECTS[args.dialect], Wishes(args.line, args.keys)))


def main():
    args = words()
    try:
        script = script_of(reports.joined([reports.read_file(name) for name in args.report]), args)
    except Unreadable as why:
        print(f"schema_sql: {why}", file=sys.stderr)
        return 1
    try:
        for piece in script.pieces():
            sys.stdout.buffer.write(piece.encode("utf-8"))
        sys.stdout.buffer.flush()
    except OSError as error:
        print(f"schema_sql: the output can't be written: {error.strerror}", file=sys.stderr)
        return 1
    return 0


if __name__ == "__main__":
    sys.exit(main())
