#!/usr/bin/env python3
"""Exact keys, dependencies and inclusions of tables that stay in their database.

A table within the limits of `depprof` is fetched whole. Of a larger one `depprof profile` finds all minimal keys and dependencies of a
sample of rows; the database tries each of them on the whole table, and rows that break one join the sample, until nothing breaks. Then they
are the table's own: what holds in the table holds in any of its rows, so where all that is minimal in the sample holds in the table, it is
minimal there, and nothing else is.

  profile_table.py --sqlite FILE TABLE
  profile_table.py --module NAME --connect ARGS TABLE                any other module of Python's database interface (DB-API 2)
  profile_table.py --module NAME --connect ARGS --table T --table U  several tables in one report, with inclusions among them
  profile_table.py --module NAME --connect ARGS --schema NAME        all tables of a schema

The report goes to standard output, as `depprof profile` writes it, a line a round to standard error. The status is 0, or 2
for wrong words, or 1 where there is no report; then one line on standard error says why. docs/GUIDE.md has an example,
and says what is proved and what rests on the engine.
"""
import argparse
import os
import shutil
import signal
import sys
import tempfile
import time

from table_cells import IDENTITY, Refused, Unsuitable, encoded, note, record, seconds, shown
from table_engine import Engine
from table_inclusions import inclusions
from table_sample import MOST_BYTES, MOST_SAMPLED, Full, Sample, reported
from table_scan import Table
from table_search import Search
from table_state import State, begin_with


def report(name, names, rows, covers):
    """The lines of one table."""
    out = [record(["relation", name, str(len(names)), str(rows)])]
    out += [record(["column", str(k), n]) for k, n in enumerate(names, 1)]
    for left, target in covers:
        columns = " ".join(str(c + 1) for c in left)
        out.append(record(["key", columns] if target == IDENTITY else ["fd", columns, str(target + 1)]))
    return "".join(out)


def inclusion_lines(pairs):
    return "".join(record(["ind", f"{r + 1}.{i + 1}", f"{s + 1}.{j + 1}"]) for (r, i), (s, j) in pairs)


# ---------------------------------------------------------------- the tables


def tables_of(engine, args):
    """The tables of the words. One that can't be profiled is left out where there are several."""
    if args.query is not None:
        return [Table(engine, args, None)]
    wanted = sorted(row[0] for row in engine.run(engine.dialect.catalogue, (args.schema,))) if args.schema is not None else args.table
    if args.schema is not None:
        engine.end_transaction()
        if not wanted:
            raise Refused(f"there are no tables in {shown(args.schema)}")
    if len(wanted) == 1 and args.schema is None:
        return [Table(engine, args, wanted[0])]
    out = []
    for name in wanted:
        if not with_out(name, lambda name=name: out.append(Table(engine, args, name)), Refused if args.schema is not None else Unsuitable):
            engine.end_transaction()  # which an error may have broken
    if not out:
        raise Refused("no table is left")
    return out


def with_out(name, do, kind=Unsuitable):
    """Does something with a table, and answers whether that was done. It is left out where it can't be profiled."""
    try:
        do()
        return True
    except kind as why:
        note(f"{shown(name)} is left out: {why}")
        return False


def look(tables, args):
    """The tables whose rows have texts. Where there is only one it must be such."""
    if args.is_one:
        tables[0].look()
        return tables
    return [table for table in tables if with_out(table.name, table.look)]


class Work:
    """A table, its sample, and what is found."""

    def __init__(self, table, program, folder, number):
        self.table, self.number, self.sample = table, number, Sample(table, program, folder, number)
        self.covers, self.pairs = None, None

    def open(self, args):
        """Draws the first sample: the whole table where `depprof` takes it."""
        table, each = self.table, max(1, self.bytes_of_a_row())
        number = min(args.sample or max(50_000, min(200_000, table.rows // 20)), int(MOST_BYTES / 4 / each))
        # A table little larger than a sample that is asked for is taken whole too.
        if table.rows <= (min(2 * number, MOST_SAMPLED) if args.sample else MOST_SAMPLED) and table.rows * each <= MOST_BYTES:
            try:
                self.fetch_whole()
                return
            except Full:
                self.sample = Sample(table, self.sample.program, os.path.dirname(self.sample.file), self.number)
        rows = table.some_rows(number)
        table.learn(rows)
        self.sample.open(rows)

    def fetch_whole(self):
        table = self.table
        table.engine.scans += 1
        self.sample.open(table.all_rows(streaming=True), is_whole=True)
        if not self.sample.is_whole():
            raise Refused(f"{shown(table.name)} had {table.rows} rows, and then {self.sample.count}")

    def bytes_of_a_row(self):
        """About how many bytes a row has in a file."""
        self.first = list(self.table.all_rows(f" LIMIT {self.table.probed}"))
        rows = list(map(self.table.cells_of, self.first))
        return sum(len(encoded(record(list(cells)))) for cells in rows) / max(1, len(rows))

    def profile(self, state):
        if self.sample.is_whole():
            covers, self.pairs = reported([self.sample], self.sample.program)
            self.covers = covers[0]
            note(f"{shown(self.table.name)}: fetched whole, {self.sample.count} rows, {len(self.covers)} keys and dependencies")
            return
        asked, rows = state.of(self.table)
        begin_with(self.sample, asked, rows)
        search = Search(self.table, self.sample)
        try:
            search.fill(asked)
            self.covers = search.covers(lambda: state.keep(self.sample))
        finally:
            state.keep(self.sample)


def profiled(tables, program, args, state, folder):
    """The tables with their keys and dependencies, and all inclusions where they are asked for."""
    works = []
    for number, table in enumerate(tables, 1):
        work = Work(table, program, folder, number)

        def do(work=work):
            work.open(args)
            work.profile(state)

        if args.is_one:
            do()
        elif not with_out(table.name, do):
            continue
        works.append(work)
        if args.is_one or not work.sample.is_whole():
            work.sample.copies.clear()
        work.sample.drawn = []
        table.texts.clear()
    if not works:
        raise Refused("no table is left")
    if not args.inclusions:
        return works, []
    if all(work.sample.is_whole() for work in works):
        return works, works[0].pairs if len(works) == 1 and works[0].pairs is not None else reported([work.sample for work in works], program)[1]
    for work in works:
        if work.sample.is_whole():
            work.table.learn(work.first)
    return works, inclusions([work.table for work in works])


def keep_files(works, folder):
    """Moves the files of tables that were fetched whole to a folder, and has the report name them, as schema_sql.py wants."""
    for work in works:
        if not work.sample.is_whole():
            note(f"{shown(work.table.name)} has no file: it was not fetched whole")
            continue
        work.table.name = os.path.join(folder, work.table.name.replace("/", "_") + ".csv")
        shutil.move(work.sample.file, work.table.name)


def look_again(works):
    """Whether the tables have as many rows as before, where the engine gave no state that stays."""
    for work in works:
        table = work.table
        if not table.engine.sees_one_state or table.is_foreign:
            table.engine.end_transaction()
            now = table.run(f"SELECT COUNT(*) FROM {table.source}")[0][0]
            if now != table.rows:
                raise Refused(f"{shown(table.name)} changed meanwhile: it had {table.rows} rows, and then {now}")


# ---------------------------------------------------------------- the run


def program_of(args):
    """The built program: the word of the command line, the repository's own, or one on the path."""
    top = os.path.dirname(os.path.dirname(os.path.abspath(__file__)))
    own = os.path.join(top, "crates", "depprof", "out", "depprof")
    for place in [args.program] if args.program else [own, shutil.which("depprof")]:
        if place and os.path.isfile(place) and os.access(place, os.X_OK):
            return os.path.abspath(place)
    raise Refused(f"the program is not built: there is no {args.program or own} (.ci/run or rt build it)")


def words():
    parser = argparse.ArgumentParser(prog="profile_table.py", description="Exact keys and dependencies of tables that stay in their database.")
    where = parser.add_mutually_exclusive_group(required=True)
    where.add_argument("--sqlite", metavar="FILE", help="a database file of sqlite")
    where.add_argument("--module", metavar="NAME", help="a module of Python's database interface (DB-API 2)")
    parser.add_argument("--connect", metavar="ARGS", help="what the module's connect takes: a text, or JSON, a list or an object with names")
    parser.add_argument("one", metavar="TABLE", nargs="?", help="a table, written as the engine keeps its name; SCHEMA.TABLE too")
    parser.add_argument("--table", metavar="TABLE", action="append", default=[], help="a table; several in one report by repeating this")
    parser.add_argument("--schema", metavar="NAME", help="all tables of a schema, by the engine's catalogue")
    parser.add_argument("--query", metavar="SQL", help="a query in place of a table; it must give the same rows each time")
    parser.add_argument("--columns", metavar="A,B,..", default="", help="only these columns, in this order (of one table)")
    parser.add_argument("--text", metavar="A,B,..", default="", help="columns that the engine compares by their texts")
    parser.add_argument("--inclusions", action="store_true", help="the inclusions among the columns too (always, where there are several tables)")
    parser.add_argument("--name", help="the relation's name in the report (the table's, or `query`)")
    parser.add_argument("--sample", metavar="ROWS", type=int, help="samples even a table that could be fetched whole, and begins with so many rows")
    parser.add_argument("--files", metavar="FOLDER", help="leaves the files of tables that are fetched whole there, and names them in the report")
    parser.add_argument("--state", metavar="FILE", help="keeps what broke rules in this file, and begins with it where it is there")
    parser.add_argument("--connections", metavar="N", type=int, default=1, help="so many statements at a time (1 to 64)")
    parser.add_argument("--program", metavar="FILE", help="the built depprof")
    parser.add_argument("--before", metavar="SQL", action="append", default=[], help="a statement to run first, as one that begins a transaction")
    parser.add_argument("--quote", metavar="MARK", help="the quote of names, where it is not known")
    parser.add_argument("--random", metavar="SQL", help="a random number below 1, where it is not known")
    parser.add_argument("--text-type", metavar="SQL", help="the type of texts, where it is not known")
    args = parser.parse_args()
    args.table += [args.one] if args.one is not None else []
    if (bool(args.table) + (args.schema is not None) + (args.query is not None)) != 1:
        parser.error("one of TABLE (or --table), --schema and --query")
    args.is_one = args.schema is None and len(args.table) < 2
    if not args.is_one and (args.columns or args.name):
        parser.error("--columns and --name go with one table")
    args.inclusions = args.inclusions or not args.is_one
    if args.module is not None and args.connect is None:
        parser.error("--module needs --connect")
    if args.sample is not None and not 1 <= args.sample <= MOST_SAMPLED:
        parser.error(f"--sample takes 1 to {MOST_SAMPLED}")
    if not 1 <= args.connections <= 64:
        parser.error("--connections takes 1 to 64")
    return args


def run(args):
    program, state, began = program_of(args), State(args.state), time.monotonic()
    engine = Engine(args)
    try:
        tables = tables_of(engine, args)
        engine.begin()
        tables = look(tables, args)
        for table in tables:
            known = f", {len(table.unique)} unique by the catalogue" if table.unique else ""
            note(f"table {shown(table.name)}: {table.rows} rows, {len(table.names)} columns{known}, {seconds(began)}")
        with tempfile.TemporaryDirectory(prefix="profile_table_") as folder:
            works, pairs = profiled(tables, program, args, state, folder)
            look_again(works)
            if args.files is not None:
                keep_files(works, args.files)
    finally:
        engine.close()
    text = "".join(report(w.table.name, w.table.names, w.table.rows, w.covers) for w in works)
    sys.stdout.buffer.write(encoded(text + inclusion_lines(pairs)))
    sys.stdout.buffer.flush()
    note(f"done: {engine.scans} passes, {seconds(began)}")


def main():
    args = words()
    signal.signal(signal.SIGTERM, lambda *_: sys.exit(143))
    try:
        run(args)
        return 0
    except Refused as why:
        note(f"profile_table: {why}")
    except KeyboardInterrupt:
        note("profile_table: interrupted")
    except OSError as error:
        note(f"profile_table: {error}")
        if sys.stdout is sys.__stdout__:  # what is left of the report is not written again at the end
            os.dup2(os.open(os.devnull, os.O_WRONLY), sys.stdout.fileno())
    return 1


if __name__ == "__main__":
    sys.exit(main())
