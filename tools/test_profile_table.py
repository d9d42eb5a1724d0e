#!/usr/bin/env python3
"""Tests of profile_table.py: its reports beside those of `depprof profile` on the same rows, and what it refuses.

  test_profile_table.py PROGRAM [TESTS..]
"""
import contextlib
import importlib.util
import io
import os
import random
import sqlite3
import subprocess
import sys
import tempfile
import unittest
from unittest import mock

TOOLS = os.path.dirname(os.path.abspath(__file__))
sys.path.insert(0, TOOLS)
import engines_for_tests  # noqa: E402
import profile_table  # noqa: E402
import table_cells  # noqa: E402
import table_scan  # noqa: E402
import table_search  # noqa: E402

PROGRAM = os.path.abspath(sys.argv.pop(1)) if len(sys.argv) > 1 else ""

# sqlite3 under another name is an engine of which nothing is known.
OTHER = '''
from sqlite3 import *
import sqlite3
paramstyle = "{style}"
class Cursor(sqlite3.Cursor):
    def execute(self, text, values=()):
        if values and "{style}" == "pyformat":
            text = text.replace("%s", "?").replace("%%", "%")
        return super().execute(text, values)
class Connection(sqlite3.Connection):
    def cursor(self):
        return super().cursor(Cursor)
def connect(name):
    return sqlite3.connect(name, factory=Connection)
'''


def cell(value):
    return "" if value is None else value if isinstance(value, str) else repr(value)


class Case(unittest.TestCase):
    def setUp(self):
        held = tempfile.TemporaryDirectory()
        self.addCleanup(held.cleanup)
        self.folder = held.name
        self.database = os.path.join(self.folder, "x.db")
        self.room = os.path.join(self.folder, "room")
        os.mkdir(self.room)

    def make(self, names, rows, kinds=None):
        with contextlib.closing(sqlite3.connect(self.database)) as connection:
            columns = ", ".join('"' + n.replace('"', '""') + '" ' + k for n, k in zip(names, kinds or [""] * len(names)))
            connection.execute(f"CREATE TABLE t ({columns})")
            connection.executemany(f"INSERT INTO t VALUES ({', '.join('?' * len(names))})", rows)
            connection.commit()

    def wanted(self, names, rows, inclusions=True):
        """What `depprof profile` writes for these rows."""
        with open(os.path.join(self.folder, "t"), "wb") as file:
            file.write(table_cells.encoded(table_cells.header(names)))
            file.writelines(table_cells.encoded(table_cells.record([cell(v) for v in row])) for row in rows)
        done = subprocess.run([PROGRAM, "profile", "t"], cwd=self.folder, capture_output=True, check=True)
        return b"".join(line for line in done.stdout.splitlines(True) if inclusions or not line.startswith(b"ind,"))

    def run_tool(self, *words):
        """The status, the report and the messages of a run in this process."""
        out, told, old = io.TextIOWrapper(io.BytesIO()), io.StringIO(), (sys.argv, tempfile.tempdir)
        sys.argv, tempfile.tempdir = ["profile_table.py", "--program", PROGRAM, *words], self.room
        try:
            with contextlib.redirect_stderr(told), contextlib.redirect_stdout(out):
                status = profile_table.main()
        finally:
            sys.argv, tempfile.tempdir = old
        self.assertEqual(os.listdir(self.room), [], "a temporary file was left behind")
        return status, out.buffer.getvalue(), told.getvalue()

    def check(self, names, rows, *words, kinds=None):
        self.make(names, rows, kinds)
        status, report, told = self.run_tool("--sqlite", self.database, "--inclusions", *words, "t")
        self.assertEqual(status, 0, told)
        self.assertEqual(report.decode(errors="surrogateescape"), self.wanted(names, rows).decode(errors="surrogateescape"), told)
        return told


class Reports(Case):
    def test_small_relations_by_chance(self):
        """Small samples and small rooms, so that each way through the search is taken."""
        for seed in range(40):
            rng = random.Random(seed)
            rooms = [mock.patch.object(table_search.Search, "few_rows", rng.choice([1, 8, 40, 150_000])),
                     mock.patch.object(table_scan.Table, "groups", rng.choice([1, 2, 64])),
                     mock.patch.object(table_search, "EVIDENCE", rng.choice([1, 32])),
                     mock.patch.object(table_search, "SMALL_GROUP", rng.choice([1, 2, 8])),
                     mock.patch.object(table_search, "MOST_PARTS", rng.choice([1, 3, 16])),
                     mock.patch.object(table_scan, "MOST_SETS", rng.choice([1, 2, 8]))]
            width, height = rng.randint(1, 6), rng.randint(1, 60)
            values = [rng.choice([[1, 2, 3], ["a", "b", "", None], ["x,y", 'q"q', "l\nf", "c\rr", " "], list(range(40)), [None, 5]])
                      for _ in range(width)]
            rows = [tuple(rng.choice(v) for v in values) for _ in range(height)]
            has_row_in = rng.choice([True, False])
            with self.subTest(seed=seed), contextlib.ExitStack() as stack:
                for room in rooms:
                    stack.enter_context(room)
                with contextlib.suppress(FileNotFoundError):
                    os.remove(self.database)
                stack.enter_context(mock.patch.object(table_scan.Table, "has_row_in", property(lambda _: has_row_in, lambda _, __: None), create=True))
                self.check([f"c{k}" for k in range(width)], rows, "--sample", str(rng.choice([1, 2, 5, 10])))

    def test_a_table_of_order_lines(self):
        csv, made = os.path.join(self.folder, "t"), os.path.join(TOOLS, "..", "bench", "order_lines.py")
        subprocess.run([sys.executable, made, "--rows", "20000", "--csv", csv, self.database], check=True)
        status, report, told = self.run_tool("--sqlite", self.database, "--inclusions", "--sample", "1000", "--name", "t", "lines")
        self.assertEqual(status, 0, told)
        done = subprocess.run([PROGRAM, "profile", "t"], cwd=self.folder, capture_output=True, check=True)
        self.assertEqual(report, done.stdout)
        self.assertRegex(told, r"round 2: ")

    def test_no_rows(self):
        self.check(["a", "b"], [])

    def test_two_equal_rows_leave_no_key(self):
        rows = [(k, k % 7) for k in range(400)] + [(77, 0)]
        self.check(["a", "b"], rows, "--sample", "10")

    def test_one_row_breaks_a_dependency(self):
        rows = [(k // 2, k // 2 % 50, k % 2) for k in range(3000)] + [(5, 6, 9)]
        self.check(["a", "b", "c"], rows, "--sample", "20")

    def test_names_with_commas_quotes_and_marks(self):
        self.check(["\ufeffa", "b,c", 'd"e', "f\ng"], [(1, 2, 3, 4), (1, 2, 4, 5)])

    def test_texts_that_are_no_utf8(self):
        self.make(["a", "b"], [])
        with contextlib.closing(sqlite3.connect(self.database)) as connection:
            for k in range(300):
                connection.execute("INSERT INTO t VALUES (CAST(? AS TEXT), ?)", (b"\xff%d" % (k // 2), k % 3))
            connection.commit()
        rows = [(b"\xff%d" % (k // 2)).decode("utf-8", "surrogateescape") for k in range(300)]
        status, report, told = self.run_tool("--sqlite", self.database, "--inclusions", "--sample", "5", "t")
        self.assertEqual(status, 0, told)
        self.assertEqual(report, self.wanted(["a", "b"], [(a, k % 3) for k, a in enumerate(rows)]))

    def test_a_column_that_folds_letters(self):
        rows = [(chr(97 + k % 20) if k % 3 else chr(65 + k % 20), k % 20) for k in range(300)]
        self.check(["a", "b"], rows, "--sample", "5", kinds=["TEXT COLLATE NOCASE", "INTEGER"])

    def test_numbers_beside_texts(self):
        told = self.check(["a", "b"], [(1, 2), ("1", 3), ("x", 4)])
        self.assertIn("different kinds", told)

    def test_some_columns_of_a_query(self):
        self.make(["a", "b", "c"], [(k, k % 5, k % 3) for k in range(90)])
        status, report, told = self.run_tool("--sqlite", self.database, "--query", "SELECT * FROM t WHERE a < 60;", "--columns", "c,b", "--name", "t",
                                             "--sample", "4")
        self.assertEqual(status, 0, told)
        self.assertEqual(report, self.wanted(["c", "b"], [(k % 3, k % 5) for k in range(60)], inclusions=False))

    def test_postgres_through_its_driver(self):
        """Columns of many types, with names that need quotes, in a server of the tests' own."""
        if not importlib.util.find_spec("psycopg2"):
            self.skipTest("no psycopg2")
        engine, why = engines_for_tests.Postgres.start()
        if not engine:
            self.skipTest(why)
        self.addCleanup(engine.end)
        kinds = {"select": "integer", 'a "b" c': "text", "it's": "numeric(6, 2)", "A": "date", "a": "timestamptz", "100%": "boolean", "u": "uuid",
                 "j": "json"}
        columns = ", ".join('"' + name.replace('"', '""') + '" ' + kind for name, kind in kinds.items())
        values = ("SELECT k, CASE WHEN k % 5 = 0 THEN NULL ELSE 'x' || k % 7 END, k % 9 / 4.0, date '2024-02-28' + k % 3, "
                  "timestamptz '2024-02-28 10:00+00' + k % 4 * interval '1 hour', k % 2 = 0, "
                  "md5((k % 6)::text)::uuid, json_build_object('k', k % 3) FROM generate_series(1, 200) k")
        script = f'CREATE TABLE "Mixed Case" ({columns}); INSERT INTO "Mixed Case" {values};'
        script += "CREATE TABLE lists (a integer[]); INSERT INTO lists VALUES ('{1}'), ('{2}');"
        self.assertEqual(engine.load(script.encode()), (0, ""))
        place = ["--module", "psycopg2", "--connect", f"host={engine.data} user=tests dbname=postgres"]
        names = list(kinds)
        rows = self.rows_through_the_driver(place)
        status, report, told = self.run_tool(*place, "--sample", "20", "--text", "u,j", "--name", "t", "Mixed Case")
        self.assertEqual((status, report), (0, self.wanted(names, rows, inclusions=False)), told)
        status, report, told = self.run_tool(*place, "lists")
        self.assertEqual((status, report, "holds a list" in told), (1, b"", True), told)

    def rows_through_the_driver(self, place):
        import psycopg2
        with contextlib.closing(psycopg2.connect(place[-1])) as connection, connection.cursor() as cursor:
            cursor.execute('SELECT "select", "a ""b"" c", "it\'s", "A", "a", "100%", u::text, j::text FROM "Mixed Case"')
            return [[table_cells.text_of(value, "") for value in row] for row in cursor.fetchall()]

    def test_names_with_a_dot(self):
        rows = [(k, k % 3) for k in range(9)]
        self.make(["a", "b"], rows)
        with contextlib.closing(sqlite3.connect(self.database)) as connection:
            connection.execute('CREATE TABLE "we""ird. name" AS SELECT * FROM t')
        for name in ("main.t", 'we"ird. name'):
            status, report, told = self.run_tool("--sqlite", self.database, "--name", "t", name)
            self.assertEqual((status, report), (0, self.wanted(["a", "b"], rows, inclusions=False)), told)
        self.assertEqual(self.run_tool("--sqlite", self.database, "nowhere.t")[0], 1)

    def test_a_schema_becomes_a_script(self):
        """By files that are left, the report goes through schema_sql.py."""
        with contextlib.closing(sqlite3.connect(self.database)) as connection:
            connection.execute("CREATE TABLE customers (customer_id, name)")
            connection.execute("CREATE TABLE sales (sale_id, customer_id, day)")
            connection.executemany("INSERT INTO customers VALUES (?, ?)", [(100 + k, f"name {k}") for k in range(40)])
            connection.executemany("INSERT INTO sales VALUES (?, ?, ?)", [(5000 + k, 100 + k * 7 % 40, f"2024-02-{k % 20 + 1:02d}") for k in range(300)])
            connection.commit()
        files = os.path.join(self.folder, "files")
        os.mkdir(files)
        status, report, told = self.run_tool("--sqlite", self.database, "--schema", "main", "--files", files)
        self.assertEqual((status, sorted(os.listdir(files))), (0, ["customers.csv", "sales.csv"]), told)
        done = subprocess.run([PROGRAM, "profile", os.path.join(files, "customers.csv"), os.path.join(files, "sales.csv")], capture_output=True)
        self.assertEqual(report, done.stdout)
        done = subprocess.run([sys.executable, os.path.join(TOOLS, "schema_sql.py")], input=report, capture_output=True)
        self.assertEqual((done.returncode, done.stderr), (0, b""))
        with contextlib.closing(sqlite3.connect(":memory:")) as connection:
            connection.executescript(done.stdout.decode())
            self.assertEqual(connection.execute("SELECT COUNT(*) FROM sales JOIN customers USING (customer_id)").fetchall(), [(300,)])
        self.assertIn(b'FOREIGN KEY ("customer_id") REFERENCES "customers" ("customer_id")', done.stdout)

    def test_other_modules(self):
        rows = [(k, f"{k % 40}%", None if k % 7 else "", k // 5) for k in range(500)]
        self.make(["a", "100%", "c", "d"], rows)
        sys.path.insert(0, self.folder)
        try:
            for style in ("qmark", "named", "pyformat"):
                with open(os.path.join(self.folder, f"other_{style}.py"), "w") as file:
                    file.write(OTHER.replace("{style}", style))
                status, report, told = self.run_tool("--module", f"other_{style}", "--connect", self.database, "--inclusions", "--sample", "9", "t")
                self.assertEqual(status, 0, told)
                self.assertEqual(report, self.wanted(["a", "100%", "c", "d"], rows), told)
        finally:
            sys.path.remove(self.folder)


class Refusals(Case):
    def refused(self, *words):
        status, report, told = self.run_tool(*words)
        self.assertEqual((status, report), (1, b""))
        self.assertEqual(told.count("profile_table: "), 1, told)
        return told

    def test_what_is_not_there(self):
        self.make(["a"], [(1,)])
        self.assertIn("no such table", self.refused("--sqlite", self.database, "nothing"))
        self.assertIn("no column b", self.refused("--sqlite", self.database, "--columns", "a,b", "t"))
        self.assertIn("no such file", self.refused("--sqlite", self.database + "x", "t"))
        self.assertIn("no module", self.refused("--module", "no_such_module", "--connect", "x", "t"))
        self.assertIn("no such table", self.refused("--sqlite", self.database, "--query", "SELECT * FROM u"))

    def test_a_file_that_is_no_database(self):
        with open(self.database, "w") as file:
            file.write("a,b\n" * 1000)
        self.assertIn("not a database", self.refused("--sqlite", self.database, "t"))

    def test_too_many_columns(self):
        self.make([f"c{k}" for k in range(129)], [range(129)])
        self.assertIn("129 columns", self.refused("--sqlite", self.database, "t"))
        self.make_widest()

    def make_widest(self):
        os.remove(self.database)
        self.check([f"c{k}" for k in range(128)], [range(128)])

    def test_bytes_have_no_text(self):
        self.make(["a", "b"], [(1, b"\1\2"), (2, b"")])
        self.assertIn("column b holds bytes", self.refused("--sqlite", self.database, "t"))

    def test_values_that_are_equal_with_other_texts(self):
        self.make(["a", "b", "c", "d"], [(k // 2, k % 2, f"x{k % 5}", f"y{k}") for k in range(50)],
                  ["", "", "TEXT COLLATE NOCASE", "TEXT COLLATE RTRIM"])
        query = "SELECT a, CASE WHEN b THEN 1.0 ELSE 1 END AS b FROM t"
        sys.path.insert(0, self.folder)
        try:
            with open(os.path.join(self.folder, "another.py"), "w") as file:
                file.write(OTHER.replace("{style}", "qmark"))
            words = ["--module", "another", "--connect", self.database]
            self.assertIn("for equal, their texts differ", self.refused(*words, "--query", query))
            self.assertEqual(self.run_tool(*words, "--query", query, "--text", "b")[0], 0)
            self.assertIn("column c: the engine takes 'x0' and 'X0' for equal", self.refused(*words, "--columns", "a,c", "t"))
            self.assertIn("column d: the engine takes 'y0' and 'y0 ' for equal", self.refused(*words, "--columns", "a,d", "t"))
            self.assertEqual(self.run_tool(*words, "--query", "SELECT a, c COLLATE BINARY AS c FROM t")[0], 0)
        finally:
            sys.path.remove(self.folder)

    def test_a_cell_that_is_too_long(self):
        self.make(["a"], [("x" * 65537,)])
        self.assertIn("column a has a cell above 65,536 bytes", self.refused("--sqlite", self.database, "t"))

    def test_a_program_that_is_not_built(self):
        self.make(["a"], [(1,)])
        self.assertIn("the program is not built", self.refused("--program", "/nowhere", "--sqlite", self.database, "t"))

    def test_words(self):
        for words in (["t"], ["--sqlite", "x"], ["--sqlite", "x", "--query", "q", "t"], ["--module", "m", "t"],
                      ["--sqlite", "x", "--sample", "0", "t"]):
            with self.assertRaises(SystemExit) as left:
                self.run_tool(*words)
            self.assertEqual(left.exception.code, 2)


if __name__ == "__main__":
    unittest.main()
