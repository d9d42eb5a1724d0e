#!/usr/bin/env python3
"""Tests of the parts of profile_table.py that need no engine, and of what it does where one fails.

  test_table_parts.py PROGRAM [TESTS..]
"""
import contextlib
import datetime
import decimal
import io
import itertools
import json
import os
import random
import resource
import sqlite3
import subprocess
import sys
import tempfile
import types
import unittest
from collections import Counter
from unittest import mock

TOOLS = os.path.dirname(os.path.abspath(__file__))
sys.path.insert(0, TOOLS)
import profile_table  # noqa: E402
import table_cells  # noqa: E402
import table_engine  # noqa: E402
import table_inclusions  # noqa: E402
import table_sample  # noqa: E402
import table_scan  # noqa: E402
import table_search  # noqa: E402
import table_state  # noqa: E402
from table_cells import IDENTITY, Refused, Unsuitable  # noqa: E402

PROGRAM = os.path.abspath(sys.argv.pop(1)) if len(sys.argv) > 1 else ""


class Cells(unittest.TestCase):
    def test_texts_of_values(self):
        values = [None, "x", 1, 1.5, decimal.Decimal("0.00000000"), datetime.date(2024, 2, 29), datetime.datetime(2024, 2, 29, 1, 2), True]
        self.assertEqual([table_cells.text_of(v, "c") for v in values],
                         ["", "x", "1", "1.5", "0.00000000", "2024-02-29", "2024-02-29T01:02:00", "True"])
        for value in (b"x", [1], {}):
            self.assertRaises(Unsuitable, table_cells.text_of, value, "c")

    def test_a_column_at_once_is_as_its_values(self):
        rng, kinds = random.Random(1), [["a", "", None], [1, 2, None], [1.5, 2, "x"], [None], [datetime.date(2024, 1, 1), None]]
        for some in kinds:
            column = [rng.choice(some) for _ in range(50)]
            self.assertEqual(table_cells.texts_of(column, "c", {}), [table_cells.text_of(v, "c") for v in column])
        self.assertRaises(Unsuitable, table_cells.texts_of, [1, 1.0], "c", {})

    def test_records_at_once_are_as_one_by_one(self):
        rng, cells = random.Random(2), ["", "a", "b,c", 'd"e', "f\ng", "h\ri", "\ufeff", "é"]
        for width in (1, 2, 5):
            rows = [[rng.choice(cells[:rng.choice([2, 8])]) for _ in range(width)] for _ in range(60)]
            self.assertEqual(table_cells.records(list(zip(*rows))), "".join(map(table_cells.record, rows)))

    def test_a_long_cell(self):
        table_cells.check_lengths(["é" * 32768], "c")
        self.assertRaises(Unsuitable, table_cells.check_lengths, ["", "é" * 32769], "c")


class Statements(unittest.TestCase):
    def test_marks_of_parameters(self):
        wanted = {"qmark": ("a % ? b ?", (1, 2)), "format": ("a %% %s b %s", (1, 2)), "pyformat": ("a %% %s b %s", (1, 2)),
                  "numeric": ("a % :1 b :2", (1, 2)), "named": ("a % :p1 b :p2", {"p1": 1, "p2": 2})}
        for style, out in wanted.items():
            engine = types.SimpleNamespace(module=types.SimpleNamespace(paramstyle=style), dialect=types.SimpleNamespace(by_name=False))
            self.assertEqual(table_engine.Engine.rendered(engine, "a % \0 b \0", (1, 2)), out)
        engine.module.paramstyle, engine.dialect.by_name = "pyformat", True
        self.assertEqual(table_engine.Engine.rendered(engine, "a % \0 b \0", (1, 2)), ("a %% %(p1)s b %(p2)s", {"p1": 1, "p2": 2}))
        self.assertEqual(table_engine.Engine.rendered(engine, "a % b", ()), ("a % b", ()))

    def test_numbers_of_grouping_sets(self):
        """As PostgreSQL tells them: the last column is the lowest bit, which is set where the column is not in the set."""
        self.assertEqual(table_scan.marks_of_sets([(0, 2), (5,)]), ([0, 2, 5], {(0, 2): 0b001, (5,): 0b110}))

    def test_lists_of_nearly_equal_length(self):
        for count, number in itertools.product(range(1, 9), range(1, 5)):
            lists = table_scan.spread(list(range(count)), number)
            self.assertEqual(sorted(sum(lists, [])), list(range(count)))
            self.assertLessEqual(max(map(len, lists)) - min(map(len, lists)), 1)

    def test_sets_of_a_statement(self):
        sets = [tuple(sorted(s)) for s in itertools.combinations(range(20), 2)]
        shares = list(table_scan.Table.shares(None, sets))
        self.assertEqual(sum(shares, []), sets)
        for share in shares:
            self.assertLessEqual(2 * len(set().union(*share)), table_scan.MOST_GROUPED)


class Findings(unittest.TestCase):
    def test_inclusions_by_sets_of_bits(self):
        places = [(0, 0), (0, 1), (1, 0)]
        self.assertEqual(table_inclusions.pairs_of(places, [0b011, 0b111, 0b010]), [((0, 0), (0, 1)), ((1, 0), (0, 0)), ((1, 0), (0, 1))])
        words = range(3)
        for k in (0, 49, 50, 120):
            self.assertEqual(sum(bits << table_inclusions.BITS * w for w, bits in zip(words, table_inclusions.bits_of(k, words))), 1 << k)

    def test_what_follows(self):
        held = table_search.Held(4)
        held.add((0,), 1)
        held.add((1, 2), IDENTITY)
        self.assertEqual(held.follows((0, 2), [1, 3, IDENTITY]), {1, 3, IDENTITY})
        self.assertEqual(held.follows((0,), [1, 2, IDENTITY]), {1})

    def test_repeated_rows_that_are_estimated(self):
        """Where all rows are drawn, the estimate is twice the pairs that agree, as far as there are rows."""
        rng = random.Random(4)
        rows = [tuple(rng.randrange(n) for n in (2, 5, 30, 100)) for _ in range(300)]
        estimates = table_sample.Estimates(rows, len(rows), [2, 5, 30, 100])
        sets = [s for k in range(1, 5) for s in itertools.combinations(range(4), k)]
        rng.shuffle(sets)
        for s in sets:
            counts = Counter(tuple(row[c] for c in s) for row in rows)
            self.assertEqual(estimates.repeats(s), min(sum(n * (n - 1) for n in counts.values()), 300))

    def test_a_report_is_read(self):
        self.assertEqual((table_sample.columns_of(""), table_sample.columns_of("1 12")), ((), (0, 11)))
        self.assertEqual(table_sample.place_of("2.10"), (1, 9))


# sqlite3 under another name, of which nothing is known. At some statement something happens.
MODULE = '''
from sqlite3 import *
import sqlite3
paramstyle, count, at, happens = "qmark", 0, -1, None
class Cursor(sqlite3.Cursor):
    def execute(self, text, values=()):
        global count
        count += 1
        if count == at:
            happens()
        return super().execute(text, values)
class Connection(sqlite3.Connection):
    def cursor(self):
        return super().cursor(Cursor)
def connect(name):
    return sqlite3.connect(name, factory=Connection, isolation_level=None, check_same_thread=False)
'''


class Faults(unittest.TestCase):
    def setUp(self):
        held = tempfile.TemporaryDirectory()
        self.addCleanup(held.cleanup)
        self.folder, self.database = held.name, os.path.join(held.name, "x.db")
        self.room = os.path.join(self.folder, "room")
        os.mkdir(self.room)
        with open(os.path.join(self.folder, "faulty.py"), "w") as file:
            file.write(MODULE)
        sys.path.insert(0, self.folder)
        sys.modules.pop("faulty", None)
        import faulty
        self.faulty = faulty
        self.addCleanup(sys.path.remove, self.folder)
        rng = random.Random(5)
        self.rows = [(k, rng.randrange(90), rng.randrange(80), k % 7, k % 7 % 3) for k in range(700)]
        self.rows[600] = (600, 1, 1, 5, 0)
        with contextlib.closing(sqlite3.connect(self.database)) as connection:
            connection.execute("CREATE TABLE t (a, b, c, d, e)")
            connection.executemany("INSERT INTO t VALUES (?, ?, ?, ?, ?)", self.rows)
            connection.commit()

    def right(self):
        with open(os.path.join(self.folder, "t"), "w") as file:
            file.write("a,b,c,d,e\n" + "".join(table_cells.record(list(map(str, row))) for row in self.rows))
        return subprocess.run([PROGRAM, "profile", "t"], cwd=self.folder, capture_output=True, check=True).stdout

    def run_tool(self, *words, at=-1, happens=None):
        out, told = io.TextIOWrapper(io.BytesIO()), io.StringIO()
        self.faulty.count, self.faulty.at, self.faulty.happens = 0, at, happens
        words = ["profile_table.py", "--program", PROGRAM, "--module", "faulty", "--connect", self.database, "--inclusions", "--sample", "30", *words, "t"]
        with mock.patch.object(sys, "argv", words), mock.patch.object(tempfile, "tempdir", self.room):
            with mock.patch.object(table_search.Search, "few_rows", 60), contextlib.redirect_stderr(told), contextlib.redirect_stdout(out):
                status = profile_table.main()
        self.assertEqual(os.listdir(self.room), [])
        return status, out.buffer.getvalue(), told.getvalue()

    def test_an_engine_that_dies_at_any_statement(self):
        """It dies, refuses or takes too long: at each statement in turn. The work so far is kept, and the next run goes on from it."""
        state, right, at, died = os.path.join(self.folder, "state"), self.right(), 0, []
        def dies():
            raise ConnectionError("the server closed the connection")
        while True:
            at += 1
            status, report, told = self.run_tool("--state", state, at=at, happens=dies)
            if self.faulty.count < at:
                self.assertEqual((status, report), (0, right), told)
                break
            if status == 0:  # asked whether it takes something, it did not
                self.assertEqual(report, right)
            else:
                self.assertEqual((status, report, told.count("profile_table: ")), (1, b"", 1), told)
                died.append(at)
        self.assertGreater(len(died), 5)
        self.assertIn("of an earlier run", told)
        self.assertEqual(sorted(name for name in os.listdir(self.folder) if name.startswith(".")), [])

    def test_a_table_that_changes(self):
        def grows():
            with contextlib.closing(sqlite3.connect(self.database)) as connection:
                connection.execute("INSERT INTO t VALUES (9000, 0, 0, 0, 0)")
                connection.commit()
        self.run_tool()
        status, report, told = self.run_tool(at=self.faulty.count - 1, happens=grows)
        self.assertEqual((status, report), (1, b""))
        self.assertIn("changed meanwhile: it had 700 rows, and then 701", told)

    def test_a_state_of_other_rows(self):
        """What is kept are rows of last month. This month some are gone, and the report is of the rows that are there."""
        state = os.path.join(self.folder, "state")
        self.assertEqual(self.run_tool("--state", state)[:2], (0, self.right()))
        with open(state) as file:
            kept = json.load(file)["tables"]["t"]
        self.assertTrue(kept["rows"] and kept["asked"])
        self.rows = [row for row in self.rows if row[0] % 3] + [(9000 + k, k, k, 1, 1) for k in range(50)]
        with contextlib.closing(sqlite3.connect(self.database)) as connection:
            connection.execute("DELETE FROM t WHERE a % 3 = 0")
            connection.executemany("INSERT INTO t VALUES (?, ?, ?, ?, ?)", self.rows[-50:])
            connection.commit()
        status, report, told = self.run_tool("--state", state)
        self.assertEqual((status, report), (0, self.right()), told)
        self.assertIn("of an earlier run", told)

    def test_what_is_no_state(self):
        state = os.path.join(self.folder, "state")
        for text in ("", "[]", "{}", '{"version": 1, "tables": {"t": {"columns": ["a"], "asked": [[7]], "rows": []}}}',
                     '{"version": 1, "tables": {"t": {"columns": ["a"], "asked": [], "rows": [["x", "y"]]}}}', '{"version": 1, "tables": {"t": 5}}'):
            with open(state, "w") as file:
                file.write(text)
            status, report, told = self.run_tool("--state", state)
            self.assertEqual((status, report, told.count("profile_table: ")), (1, b"", 1), text + told)

    def test_a_disk_that_is_full(self):
        words = [sys.executable, os.path.join(TOOLS, "profile_table.py"), "--program", PROGRAM, "--sqlite", self.database, "t"]
        with open("/dev/full", "wb") as full:
            done = subprocess.run(words, stdout=full, stderr=subprocess.PIPE, env={**os.environ, "TMPDIR": self.room})
        self.assertEqual((done.returncode, done.stderr.count(b"profile_table: ")), (1, 1), done.stderr)
        self.assertNotIn(b"Traceback", done.stderr)
        done = subprocess.run(words, capture_output=True, env={**os.environ, "TMPDIR": self.room},
                              preexec_fn=lambda: resource.setrlimit(resource.RLIMIT_FSIZE, (2000, 2000)))
        self.assertEqual((done.returncode, done.stdout, done.stderr.count(b"profile_table: ")), (1, b"", 1), done.stderr)
        self.assertEqual(os.listdir(self.room), [])

    def test_a_table_that_is_left_out(self):
        with contextlib.closing(sqlite3.connect(self.database)) as connection:
            connection.execute('CREATE TABLE "B.in"" ary" (a, b)')
            connection.execute('INSERT INTO "B.in"" ary" VALUES (1, x\'00ff\')')
            connection.execute('CREATE TABLE "UPPER" AS SELECT a, d FROM t')
            connection.commit()
        words = ["profile_table.py", "--program", PROGRAM, "--sqlite", self.database, "--schema", "main"]
        out, told = io.TextIOWrapper(io.BytesIO()), io.StringIO()
        with mock.patch.object(sys, "argv", words), contextlib.redirect_stderr(told), contextlib.redirect_stdout(out):
            self.assertEqual(profile_table.main(), 0)
        report = out.buffer.getvalue()
        self.assertIn('B.in" ary is left out: column b holds bytes', told.getvalue())
        self.assertEqual([line for line in report.splitlines() if line.startswith(b"relation")], [b"relation,UPPER,2,700", b"relation,t,5,700"])
        self.assertIn(b"ind,1.1,2.1\n", report)


if __name__ == "__main__":
    unittest.main()
