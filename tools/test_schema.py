#!/usr/bin/env python3
"""Tests of schema_sql.py and schema_dot.py: each engine that is there takes the script, and its tables have the files' rows, cell by cell;
dot takes the graph.

  test_schema.py PROGRAM [TESTS..]
"""
import os
import random
import shutil
import subprocess
import sys
import tempfile
import unittest
from collections import Counter

import csv_records
import engines_for_tests
import report as reports
import schema_sql
from dialects import DIALECTS

TOOLS = os.path.dirname(os.path.abspath(__file__))
EXAMPLES = os.path.join(TOOLS, "..", "examples")
PROGRAM = os.path.abspath(sys.argv.pop(1)) if len(sys.argv) > 1 else ""
ENGINES = []


def setUpModule():
    engines, missing = engines_for_tests.started()
    ENGINES.extend(engines)
    for why in missing:
        print(f"schema: {why}, its scripts are not loaded")


def tearDownModule():
    for engine in ENGINES:
        engine.end()


def quoted_text(rows):
    """The text of a file with these rows, each cell in quotes."""
    text = "".join(",".join('"' + cell.replace('"', '""') + '"' for cell in row) + "\n" for row in rows)
    return text.encode("utf-8", "surrogateescape")


class Case(unittest.TestCase):
    def setUp(self):
        held = tempfile.TemporaryDirectory()
        self.addCleanup(held.cleanup)
        self.folder = held.name
        before = os.getcwd()
        os.chdir(self.folder)
        self.addCleanup(os.chdir, before)

    def write(self, name, data):
        with open(os.path.join(self.folder, name), "wb") as file:
            file.write(data)

    def rows_of(self, name):
        with open(os.path.join(self.folder, name), "rb") as file:
            return list(csv_records.records(file.read()))[1:]

    def tool(self, name, report, *words):
        """What a tool writes, which is to end well."""
        done = self.tried(name, report, *words)
        self.assertEqual((done.returncode, done.stderr), (0, b""), words)
        return done.stdout

    def tried(self, name, report, *words):
        return subprocess.run([sys.executable, os.path.join(TOOLS, name), *words], cwd=self.folder, input=report, capture_output=True)

    def refused(self, report, *words, tools=("schema_sql.py", "schema_dot.py")):
        """The sentence by which the tools refuse a report: one line, and nothing else."""
        for tool in tools:
            done = self.tried(tool, report, *words)
            self.assertEqual((done.returncode, done.stdout, done.stderr.count(b"\n")), (1, b"", 1), done.stderr)
        return done.stderr.decode()

    def report(self, *words):
        done = subprocess.run([PROGRAM, *words], cwd=self.folder, capture_output=True)
        self.assertEqual(done.returncode, 0, done.stdout)
        return done.stdout

    def later_report(self, *words):
        """What a command writes that the program may not have yet."""
        done = subprocess.run([PROGRAM, *words], cwd=self.folder, capture_output=True)
        if done.returncode == 2:
            self.skipTest(f"the program has no `{words[0]}` yet")
        self.assertEqual(done.returncode, 0, done.stdout)
        return done.stdout

    def example(self, *names):
        for name in names:
            shutil.copy(os.path.join(EXAMPLES, name), self.folder)

    # -------------------------------------------------------- engines

    def loaded(self, report, *words, prefix=""):
        """Loads a report into each engine and compares all cells. Gives each engine that took it, and its script."""
        out = []
        for engine in ENGINES:
            with self.subTest(engine=engine.dialect):
                args = schema_sql.words(["--dialect", engine.dialect, f"--prefix={prefix}", *words])
                script = "".join(schema_sql.script_of(reports.read(report), args).pieces()).encode("utf-8")
                engine.fresh(self.folder)
                self.assertEqual(engine.load(script), (0, ""))
                self.compare(engine, report, prefix)
                out.append((engine, script.decode("utf-8")))
        return out

    def compare(self, engine, report, prefix):
        """Whether the tables have the rows of their files."""
        dialect = DIALECTS[engine.dialect]
        for table in reports.tables_of(reports.read(report), prefix, dialect.own_names):
            columns = ", ".join(self.hexed(engine, table.name, column) for column in table.columns)
            there = engine.ask(f"SELECT {columns} FROM {dialect.quoted(table.name)}")
            there = Counter(tuple(bytes.fromhex(cell or "") for cell in row) for row in there)
            self.assertEqual(there, Counter(map(tuple, self.rows_of(table.file))), table.name)

    def hexed(self, engine, table, column):
        """An expression for the bytes of a column's text, in digits."""
        column = DIALECTS[engine.dialect].quoted(column)
        if engine.dialect == "sqlite":
            return f"hex(CAST({column} AS BLOB))"
        if engine.dialect == "mysql":
            return f"HEX(CONCAT({column}))"
        is_bytes, text = f"pg_typeof({column})::text = 'bytea'", f"{column}::text"
        return f"CASE WHEN {is_bytes} THEN substr({text}, 3) ELSE encode(convert_to({text}, 'UTF8'), 'hex') END"


class Relations(Case):
    def shop(self):
        self.example("customers.csv", "items.csv", "sales.csv")
        return self.report("profile", "customers.csv", "items.csv", "sales.csv")

    def test_keys_references_and_types(self):
        for engine, script in self.loaded(self.shop()):
            quoted = DIALECTS[engine.dialect].quoted
            for reference in (("partner", "customers", "customer"), ("customer", "customers", "customer"), ("item", "items", "item")):
                self.assertIn("FOREIGN KEY ({}) REFERENCES {} ({})".format(*map(quoted, reference)), script)
            self.assertIn("-- not declared, below the line: key (name, city): score ", script)
            self.assertEqual(script.count("UNIQUE"), 0)
            self.assertIn(f"    {quoted('price')} INTEGER NOT NULL", script)
            self.assertEqual(engine.ask("SELECT COUNT(*) FROM sales JOIN items USING (item) JOIN customers USING (customer)"), [["32"]])
            self.assertEqual(engine.ask("SELECT MAX(price) FROM items"), [["150"]])
            self.assertEqual(engine.ask("SELECT COUNT(*) FROM customers WHERE partner IS NULL"), [["4"]])
            for wrong in ("INSERT INTO items VALUES ('P1', 'x', 1);", "INSERT INTO items VALUES ('P9', NULL, 1);"):
                self.assertNotEqual(engine.load(wrong.encode())[0], 0)
            on = b"PRAGMA foreign_keys = ON; " if engine.dialect == "sqlite" else b""
            self.assertNotEqual(engine.load(on + b"INSERT INTO customers VALUES ('C9', 'Gil', 'Bath', 'C77');")[0], 0)

    def test_the_line_moves(self):
        report = self.shop()
        for engine, script in self.loaded(report, "--line", "20"):
            self.assertEqual((script.count("UNIQUE"), script.count("FOREIGN KEY")), (1, 3))
        for engine, script in self.loaded(report, "--line", "0", "--keys", "1"):
            self.assertEqual(script.count("UNIQUE"), 0)
            self.assertIn("not declared, there are 1 before it: key (name, city)", script)
        for engine, script in self.loaded(report, "--line", "100"):
            self.assertEqual((script.count(" KEY ("), script.count("UNIQUE")), (0, 0))

    def test_the_count_of_rows_is_checked(self):
        report = self.shop()
        for engine in ENGINES:
            script = self.tool("schema_sql.py", report, "--dialect", engine.dialect).decode()
            lines = script.split("\n")
            lines.remove("('P8', 'chair', 60);")
            place = lines.index("('P7', 'stool', 40),")
            lines[place] = lines[place][:-1] + ";"
            engine.fresh(self.folder)
            status, error = engine.load("\n".join(lines).encode())
            self.assertNotEqual(status, 0)
            self.assertIn("as reported", error)

    def test_a_reference_that_does_not_hold_is_refused(self):
        self.write("a.csv", b"id\nx\ny\nz\nu\nv\n")
        self.write("b.csv", b"a_id,n\nx,1\nw,2\n")
        report = b"relation,a.csv,1,5\ncolumn,1,id\nkey,1\nrelation,b.csv,2,2\ncolumn,1,a_id\ncolumn,2,n\nkey,1\nind,2.1,1.1\n"
        self.assertIn("another state", self.refused(report, tools=["schema_sql.py"]))

    def test_references_of_several_columns(self):
        self.write("stock.csv", b"shelf,item,n\n" + b"".join(b"%d,P%d,%d\n" % (k // 6, k % 6, k % 4) for k in range(24)))
        moves = [[str(k), f"P{k * 5 % 6}" if k % 7 else "", str(k % 4)] for k in range(40)]
        self.write("moves.csv", quoted_text([["move", "item", "shelf"], *moves]))
        report = (b"relation,stock.csv,3,24\ncolumn,1,shelf\ncolumn,2,item\ncolumn,3,n\nkey,1 2\n"
                  b"relation,moves.csv,3,40\ncolumn,1,move\ncolumn,2,item\ncolumn,3,shelf\nkey,1\nnind,2.2 2.3,1.2 1.1\n")
        for engine, script in self.loaded(report):
            named = DIALECTS[engine.dialect].listed
            self.assertIn(f"FOREIGN KEY ({named(['shelf', 'item'])}) REFERENCES {named(['stock'])} ({named(['shelf', 'item'])})", script)

    def test_what_nary_writes(self):
        self.write("stock.csv", b"shelf,item,n\n" + b"".join(b"S%d,P%d,%d\n" % (k // 6, k % 6, k % 4) for k in range(24)))
        self.write("moves.csv", b"move,item,shelf\n" + b"".join(b"m%d,P%d,S%d\n" % (k, k * 5 % 6, k % 4) for k in range(40)))
        self.write("profile", self.report("profile", "stock.csv", "moves.csv"))
        self.write("nary", self.later_report("nary", "stock.csv", "moves.csv"))
        script = self.tool("schema_sql.py", b"", "profile", "nary").decode()
        self.assertIn('FOREIGN KEY ("shelf", "item") REFERENCES "stock" ("shelf", "item")', script)

    def test_reports_of_the_same_files(self):
        self.write("p.csv", b"a,b\n" + b"".join(b"%d,%d\n" % (k % 7, k % 9) for k in range(63)))
        one = b"relation,p.csv,2,63\ncolumn,1,a\ncolumn,2,b\nkey,1 2\n"
        self.write("one", one)
        self.write("two", b"relation,p.csv,2,63\ncolumn,1,a\ncolumn,2,b\nind,1.1,1.2\n")
        script = self.tool("schema_sql.py", b"", "one", "two")
        self.assertIn(b'PRIMARY KEY ("a", "b")', script)
        self.write("two", b"relation,q.csv,1,63\ncolumn,1,a\n")
        self.assertIn("not of the same relations", self.refused(b"", "one", "two", tools=["schema_sql.py"]))

    def test_a_reference_to_a_key_that_is_left_out(self):
        self.write("a.csv", b"id,name\n" + b"".join(b"%d,n%d\n" % (k, k) for k in range(30)))
        self.write("b.csv", b"name\n" + b"".join(b"n%d\n" % (k % 20) for k in range(40)))
        for engine, script in self.loaded(self.report("profile", "a.csv", "b.csv"), "--keys", "1"):
            self.assertIn("-- not declared, the key is not declared: (name) refers to a (name)", script)
            self.assertNotIn("FOREIGN KEY", script)

    def test_columns_that_refer_have_one_type(self):
        self.write("a.csv", b"part,at\n" + b"".join(b"%d,%d\n" % (k, k) for k in range(30)) + b"x,30\n")
        self.write("b.csv", b"part\n" + b"".join(b"%d\n" % (k % 20 + 1) for k in range(40)))
        kind = {"sqlite": "TEXT", "postgres": "VARCHAR(2)", "mysql": "VARCHAR(2)"}
        for engine, script in self.loaded(self.report("profile", "a.csv", "b.csv")):
            self.assertIn("FOREIGN KEY", script)
            self.assertEqual(script.count(f"    {DIALECTS[engine.dialect].quoted('part')} {kind[engine.dialect]} NOT NULL"), 2)

    def test_two_ways_and_two_targets(self):
        ids = b"".join(b"k%d\n" % k for k in range(30))
        for name in ("a.csv", "b.csv", "c.csv"):
            self.write(name, b"part\n" + ids)
        for engine, script in self.loaded(self.report("profile", "a.csv", "b.csv", "c.csv")):
            self.assertLessEqual(script.count("FOREIGN KEY"), 3)
            self.assertIn("not declared, the other way round is declared", script)
            self.assertIn("not declared, these columns refer to a better one", script)

    def test_empty_cells_that_agree_with_nothing(self):
        self.write("x.csv", b"a,b\n,1\n,2\nx,3\ny,4\nz,5\n")
        for engine, script in self.loaded(self.report("profile", "--nulls", "distinct", "x.csv"), "--line", "0"):
            quoted = DIALECTS[engine.dialect].quoted
            self.assertIn(f"UNIQUE ({quoted('a')})", script)
            self.assertIn(f"PRIMARY KEY ({quoted('b')})", script)

    def test_keys_that_an_engine_can_not_take(self):
        self.write("x.csv", b"a,b\n" + b"".join(b"%s%d,%s%d\n" % (b"x" * 3000, k, b"y" * 700, k) for k in range(9)))
        for engine, script in self.loaded(self.report("profile", "x.csv"), "--line", "0"):
            self.assertEqual("not declared, too long for an index: key (a)" in script, engine.dialect != "sqlite")
            self.assertEqual(("PRIMARY KEY" in script, "UNIQUE" in script), (True, engine.dialect == "sqlite"))

    def test_many_long_keys(self):
        wide = ["x" * 740 if c % 2 else "é" * 99 for c in range(128)]
        self.write("x.csv", quoted_text([[f"c{c}" for c in range(128)], *([f"{cell}{k}" for cell in wide] for k in range(3))]))
        report = b"relation,x.csv,128,3\n" + b"".join(b"column,%d,c%d\n" % (c + 1, c) for c in range(128))
        report += b"".join(b"key,%d\n" % c for c in range(1, 129))
        report += b"".join(b"key,%s\n" % b" ".join(b"%d" % c for c in range(first, first + 16)) for first in range(1, 99, 16))
        for engine, script in self.loaded(report, "--line", "0", "--keys", "20"):
            self.assertEqual("too long beside the others" in script, engine.dialect == "mysql")
        self.write("t1.csv", quoted_text([[f"c{c}" for c in range(60)], *([f"{'x' * 740}{k}"] * 60 for k in range(3))]))
        self.write("t2.csv", quoted_text([[f"c{c}" for c in range(61)], *([f"{'x' * 740}{k}"] * 60 + [str(k)] for k in range(3))]))
        columns = [b" ".join(b"%d" % c for c in range(1, most + 1)) for most in (60, 61)]
        report = report.split(b"key,")[0] + b"table,1,%s,1\ntable,2,%s,61\n" % tuple(columns)
        for engine, script in self.loaded(report, prefix="t"):
            self.assertEqual(script.count("FOREIGN KEY"), 1)

    def test_what_was_left_out_is_told(self):
        primes = (5, 7, 11, 13, 17, 19, 23, 29, 31, 37, 41, 43)
        rows = [[str(k * place % prime) for place, prime in enumerate(primes, 1)] for k in range(60)]
        self.write("w.csv", quoted_text([[f"c{k}" for k in range(12)], *rows]))
        for engine, script in self.loaded(self.report("profile", "w.csv")):
            self.assertRegex(script, r"\n-- [0-9]+ more keys are not declared, of score [0-9]+ and below\n")


class Commands(Case):
    """Names and words that a shell might run."""

    def test_a_name_is_no_command(self):
        for name in (b'"|touch pwned1; printf \'a\\n1\\n\'"', b"|touch pwned1", b"`touch pwned1`", b"/dev/zero", b".", b"nowhere.csv",
                     b'"a\n.shell touch pwned1\n"', b"a\x00b"):
            self.refused(b"relation," + name + b",1,1\ncolumn,1,a\nkey,\n", tools=["schema_sql.py"])
        split = b"relation,r,1,1\ncolumn,1,a\nkey,\ntable,1,1,\n"
        self.refused(split, "--prefix", "|touch pwned1;", tools=["schema_sql.py"])
        self.assertIn("--prefix", self.refused(split, tools=["schema_sql.py"]))
        self.assertEqual(os.listdir(self.folder), [])

    def test_a_file_of_such_a_name(self):
        for name in ("|touch pwned2", "-x; touch pwned2", ".shell touch pwned2", "a'; touch pwned2; --.csv", "\\! touch pwned2", "$(touch pwned2)",
                     "a\n.shell touch pwned2\n.csv"):
            self.write(name, b"a,b\n1,x\n2,y\n3,z\n4,u\n5,v\n")
            report = self.report("profile", "--", name)
            for engine, script in self.loaded(report):
                self.assertFalse(os.path.exists(os.path.join(self.folder, "pwned2")))
            os.remove(os.path.join(self.folder, name))

    def test_prefixes(self):
        self.example("orders.csv")
        for prefix in ("|touch pwned3;", "my out'", "a`b\"c"):
            for engine, script in self.loaded(self.report("normalize", "--out", prefix, "orders.csv"), prefix=prefix):
                self.assertFalse(os.path.exists(os.path.join(self.folder, "pwned3")))


class Files(Case):
    """Files whose rows a shell's reader takes otherwise."""

    def test_files_that_loaded_wrong(self):
        for name, data in [
            ("a blank line first", b"\na,b\n1,x\n2,y\n"), ("blank lines", b"a,b\n\n1,x\n\n\n2,y\n\n"), ("CR alone", b"a,b\r1,x\r2,y\r"),
            ("text behind a quote", b'a,b\n"1"z,x\n2,y\n'), ("zero bytes", b"a,b\n1\x00,x\n1\x00\x00,y\n1,z\n"),
            ("a mark", b"\xef\xbb\xbf\xef\xbb\xbfa,b\n1,x\n"),
            ("a quote never closed", b'a,b\n1,x\n2,"y\n3,z\n'), ("one empty cell", b'a\n""\n\n1\n'), ("a header alone", b"a,b\n"),
            ("an empty cell in the key", b"a,b\n,x\n1,y\n2,x\n"),
            ("no UTF-8", b"a,b\n\xff,\xc3\n\xfe,\xc3\xa9\n\xed\xa0\x80,x\n"), ("equal rows", b"a,b\n1,x\n1,x\n"), ("one row", b"a,b\n1,x\n"),
            ("no cells", b"a,b\n,\n,\n"),
            ("spaces at the end", b"a,b\nx,1\nx ,2\nx  ,3\n,4\nu,5\nv,6\nw,7\n"), ("upper and lower case", b"a\nx\nX\n\xc3\xa9\ne\nE\n\xc3\x89\n"),
        ]:
            self.write("x.csv", data)
            for line in ("0", "50"):
                with self.subTest(name=name, line=line):
                    for engine, script in self.loaded(self.report("profile", "x.csv"), "--line", line):
                        pass

    VALUES = [
        "007 1", "+1 1", "1e5 2", "-0 0", "-0.0 1.5", "1.50 2.25", "1.5 2.25", "1 2.5", "1.0 2.5", "0.00001 1.5", "123456789012345.5 1.5",
        "0.1 0.2 0.3", "1.5 1.50",
        "9223372036854775807 -9223372036854775808", "9223372036854775808 1", "2147483648 -1", "2147483647 -2147483648", "1" * 38 + " 2",
        "1" * 39 + " 2", "1" * 70 + " 2",
        "0." + "1" * 35 + " 0." + "2" * 35, "12345678901234567890.123456789 1.000000000", "0000-00-00 2021-02-30", "2021-02-28 2024-02-29",
        "0001-01-01 2020-01-01",
        "999-01-01 1000-01-01", "9999-12-31 1000-01-01", "10000-01-01 2000-01-01", "true false", "t f", "TRUE FALSE", "true", "NULL null",
        "infinity NaN", "Inf -inf", "0x10 16",
        "1_000 1", "1,5 2,5", "$1 $2", "12:00 13:00", "2021-01-01T10:00:00 2021-01-01T11:00:00", "1.e5 1.", ".5 0.5", "'' '", '"" "', "\\n \\",
        "\\N \\.", ":a :'b'", "é ü",
        "\U0001f600 \u2028", "%s %d", "-- /*", "$$ $a$", "x'00' E'a'",
    ]
    MORE = [
        ["2021-01-01 10:00:00", "2021-12-31 23:59:59"], ["2021-01-01 10:00:00.5", "2021-01-01 10:00:00.50"],
        ["2021-01-01 24:00:00", "2021-01-01 00:00:00"], ["2021-01-01 23:59:60", "x"],
        ["2021-03-28 02:30:00", "2021-01-01 00:00:00"], ["a\nb", "a\r\nb"], ["a\tb", "\x01"], ["\x7f", "\x1b[0m"], ["x" * 65536, "y"],
        ["é" * 700, "z"], [" a", "a "], ["2021-01-01 ", "2021-01-01"],
    ]

    def test_values_come_out_as_they_went_in(self):
        columns = [cells.split(" ") for cells in self.VALUES] + self.MORE
        for first in range(0, len(columns), 15):
            self.check(columns[first:first + 15])

    def check(self, columns):
        """Loads a file with these columns, each once more with an empty cell and once in a key beside the number of the row."""
        rows = max(map(len, columns)) + 1
        cells = [["n", *map(str, range(rows))]]
        for k, column in enumerate(columns):
            filled = [column[r % len(column)] for r in range(rows)]
            cells += [[f"a{k}", *filled], [f"b{k}", "", *filled[1:]]]
        self.write("x.csv", quoted_text(zip(*cells)))
        report = f"relation,x.csv,{len(cells)},{rows}\n" + "".join(f"column,{k},{column[0]}\n" for k, column in enumerate(cells, 1))
        report += "key,1\n" + "".join(f"key,1 {2 * k}\n" for k in range(1, len(columns) + 1))
        for engine, script in self.loaded(report.encode(), "--line", "0", "--keys", "20"):
            self.assertIn("PRIMARY KEY", script)

    def test_types(self):
        cells = [["n", "10", "-7", "2"], ["big", "3000000000", "1", "2"], ["huge", "9223372036854775808", "1", "2"],
                 ["money", "1.50", "20.25", "0.00"], ["mixed", "1", "2.5", "10.25"], ["day", "2024-02-29", "2024-03-01", ""],
                 ["at", "2024-02-29 10:00:00", "2024-03-01 23:59:59", "2024-03-01 00:00:00"], ["is", "true", "false", "true"],
                 ["text", "a", "bcd", "é"], ["bytes", "a", "\udcff", "b"], ["none", "", "", ""]]
        self.write("x.csv", "".join(",".join(row) + "\n" for row in zip(*cells)).encode("utf-8", "surrogateescape"))
        wanted = {
            "sqlite": ["INTEGER", "INTEGER", "TEXT", "TEXT", "NUMERIC", "TEXT", "TEXT", "TEXT", "TEXT", "BLOB", "TEXT"],
            "postgres": ["INTEGER", "BIGINT", "NUMERIC(19)", "NUMERIC(4, 2)", "NUMERIC", "DATE", "TIMESTAMP", "BOOLEAN", "VARCHAR(3)", "BYTEA",
                         "TEXT"],
            "mysql": ["INTEGER", "BIGINT", "DECIMAL(19, 0)", "DECIMAL(4, 2)", "VARCHAR(5)", "DATE", "DATETIME", "VARCHAR(5)", "VARCHAR(3)",
                      "VARBINARY(1)", "VARCHAR(1)"],
        }
        for engine, script in self.loaded(self.report("profile", "x.csv"), "--line", "100"):
            lines = [line.split(" --")[0].strip(" ,") for line in script.split("CREATE TABLE")[-1].split(");")[0].split("\n")[1:]]
            told = [line.split(" ", 1)[1] for line in lines[:len(cells)]]
            empty = ["day", "none"]
            self.assertEqual(told, [kind + ("" if column[0] in empty else " NOT NULL") for kind, column in zip(wanted[engine.dialect], cells)])

    def test_a_file_of_another_state(self):
        self.write("x.csv", b"a,b\n1,x\n2,y\n")
        report = self.report("profile", "x.csv")
        for data in (b"a,b\n1,x\n", b"a,c\n1,x\n2,y\n", b"a,b\n1,x\n2\n", b"", b"a\n1\n2\n"):
            self.write("x.csv", data)
            self.refused(report, tools=["schema_sql.py"])


class Names(Case):
    NAMES = ["select", "ORDER", '"', "'", 'a "b" c', "it's", "A", "a", "", "", "a`b", "a\\", "\\", "a\\b", "x\x01y", "x_y", "x\ny", "\t", " a", "a ",
             "a  ",
             "100%", "a.b", "-- x", "/* x", "*/", "; DROP TABLE t;",
             "é", "e", "É", "ß", "s", "ss", "ﬁ", "\u202eabc", "\u2028", "\U0001f600", "\U0001f601", "n" * 300, "n" * 301, "é" * 40, "é" * 41,
             "ctid",
             "xmin", "oid", "rowid", "_rowid_", "PRIMARY", "primary",
             "DB_ROW_ID", "FTS_DOC_ID", "GEN_CLUST_INDEX", "column1", "column7", "$$", "?", ":a", "%s", ".shell", "#", "\\!", "delimiter", "a\x7f",
             "\ufeff", "\ufffe"]

    def test_names_of_columns(self):
        rows = [["c%d" % (k * 10 + c) for c in range(len(self.NAMES))] for k in range(6)]
        self.write("x.csv", quoted_text([self.NAMES, *rows]))
        for engine, script in self.loaded(self.report("profile", "x.csv"), "--keys", "20", "--line", "0"):
            self.assertRegex(script, "-- column [0-9]+, which the file names \"x<01>y\", is x_y")

    def test_a_name_of_bytes(self):
        self.write("x.csv", b"\xff,\xfe,a\xc3\n1,2,3\n")
        for engine, script in self.loaded(self.report("profile", "x.csv")):
            self.assertIn('which the file names "<FF>"', script)

    def test_names_of_tables(self):
        names = ["sqlite_x.csv", "SQLITE_master.csv", "pg_class.csv", "pg_x.csv", "select.csv", "A.csv", "a.csv", "é.csv", "e.csv", "#mysql50#x.csv",
                 " .csv", "a.b.csv", ".csv", "x'y.csv", 'x"y.csv',
                 "x`y.csv", "x\\.csv", "x\n.csv", "t" * 200 + ".csv", "t" * 201 + ".csv", "é" * 60 + ".csv", "\U0001f600.csv", "depprof check.csv",
                 "one one row.csv", "one.csv"]
        for name in names:
            self.write(name, b"a,b\n1,x\n2,y\n3,z\n" if name != "one.csv" else b"a\n1\n")
        for engine, script in self.loaded(self.report("profile", "--", *names), "--line", "0"):
            pass


class Normalised(Case):
    def check(self, name, prefix="t"):
        """Each engine takes the tables, which join to the distinct rows. The scripts, by the engine."""
        report, scripts = self.report("normalize", "--out", prefix, name), {}
        for engine, script in self.loaded(report, prefix=prefix):
            tables = reports.tables_of(reports.read(report), prefix, DIALECTS[engine.dialect].own_names)
            joined = engine.ask(f"SELECT COUNT(*) FROM {' NATURAL JOIN '.join(DIALECTS[engine.dialect].quoted(table.name) for table in tables)}")
            self.assertEqual(joined, [[str(len(set(map(tuple, self.rows_of(name)))))]])
            scripts[engine.dialect] = script
        return scripts

    def test_the_example(self):
        self.example("orders.csv")
        for script in self.check("orders.csv").values():
            self.assertEqual(script.count("CREATE TABLE"), 4)
            self.assertEqual(script.count("FOREIGN KEY"), 3)

    def test_names(self):
        rows = [[str(k), str(k % 4), str(k % 4 // 2), str(k % 3), str(k % 3 * 2), ""] for k in range(12)]
        self.write("x.csv", quoted_text([["select", "select", "", 'a "b"', "SELECT", "x;y"], *rows]))
        self.check("x.csv", "my out'")

    def test_relations_by_chance(self):
        for seed in range(10):
            rng = random.Random(seed)
            width, values = rng.randint(1, 6), ["", "1", "2", "x,y", 'q"q', "a ", "\n", "\udcff"][:rng.randint(1, 8)]
            rows = [[f"c{k}" for k in range(width)]] + [[rng.choice(values) for _ in range(width)] for _ in range(rng.randint(1, 25))]
            self.write("r.csv", quoted_text(rows))
            with self.subTest(seed=seed):
                self.check("r.csv")

    def test_references_that_the_report_tells(self):
        self.write("t1.csv", b"id,zip\n1,10115\n2,10115\n3,14467\n")
        self.write("t2.csv", b"city,zip\nBerlin,10115\nPotsdam,14467\n")
        report = (b"relation,r.csv,3,3\ncolumn,1,id\ncolumn,2,city\ncolumn,3,zip\nkey,1\nfd,1,2\nfd,3,2\nfd,1,3\nfd,2,3\n"
                  b"table,1,1 3,1\ntable,2,2 3,3\nalternate,2,2\nreference,1,3,2\n")
        for engine, script in self.loaded(report, prefix="t"):
            self.assertEqual(script.count("FOREIGN KEY"), 1)

    def test_what_synthesize_writes(self):
        self.example("orders.csv")
        report = self.later_report("synthesize", "--out", "t", "orders.csv")
        for engine, script in self.loaded(report, prefix="t"):
            self.assertGreater(script.count("FOREIGN KEY"), 0)

    def test_two_tables_that_refer_to_each_other(self):
        self.write("t1.csv", b"a,b,c\n" + b"".join(b"%d,%d,%d\n" % (k, k + 1, k % 3) for k in range(20)))
        self.write("t2.csv", b"a,b,d\n" + b"".join(b"%d,%d,%d\n" % (k, k + 1, k % 4) for k in range(20)))
        report = b"relation,r.csv,4,20\ncolumn,1,a\ncolumn,2,b\ncolumn,3,c\ncolumn,4,d\ntable,1,1 2 3,1\ntable,2,1 2 4,2\n"
        for engine, script in self.loaded(report, prefix="t"):
            self.assertEqual(script.count("FOREIGN KEY"), 1)

    def test_a_reference_to_an_alternate_key(self):
        self.write("t1.csv", b"id,zip\n" + b"".join(b"%d,%d\n" % (k, 10000 + k % 9) for k in range(30)))
        self.write("t2.csv", b"city,zip\n" + b"".join(b"C%d,%d\n" % (k, 10000 + k) for k in range(9)))
        report = (b"relation,r.csv,3,30\ncolumn,1,id\ncolumn,2,city\ncolumn,3,zip\n"
                  b"table,1,1 3,1\ntable,2,2 3,2\nalternate,2,3\nreference,1,3,2\n")
        for engine, script in self.loaded(report, prefix="t"):
            self.assertEqual((script.count("FOREIGN KEY"), script.count("UNIQUE")), (1, 1))


class NoReports(Case):
    def test_what_is_no_report(self):
        head = b"relation,r,2,1\ncolumn,1,a\ncolumn,2,b\n"
        for text in [
            b"", b"\n", b"a,b\n", b"column,1,a\n", b"key,1\n", b"relation,r,2,x\n", b"relation,r,1,1\n", b"relation,r,1,1\ncolumn,1,a\nkey,x\n",
            head + b"key,5\n", head + b"key,0\n",
            head + b"key,2 1\n", head + b"key,1 1\n", head + b"key,1  2\n", head + b"key,-1\n", head + b"key,01\n", head + b"key,\xd9\xa1\n",
            head + b"key," + b"9" * 5000 + b"\n", head + b"key\n", head + b"key,1,2\n",
            head + b"ind,1.1,7.1\n", head + b"ind,1.1,1.7\n", head + b"ind,1.1,1.1\n", head + b"ind,1,1\n", head + b"ind,1.1 1.2,1.2\n",
            head + b"nind,1.1 1.1,1.2 1.1\n", head + b"nind,,\n",
            head + b"table,1,1 9,1\n", head + b"table,2,1,1\n", head + b"table,1,1,2\n", head + b"table,1,,\n", head + b"alternate,1,1\n",
            head + b"table,1,1,1\nalternate,0,1\n", head + b"fd,1,3\n",
            head + b"table,1,1,1\nreference,1,1,1\n", head + b"table,1,1,1\nreference,1,1,2\n", head + b"fd,1\n", b"relation,r,0,1\n",
            b"relation,r,129,1\n", b"relation,r,1,1\ncolumn,2,a\n",
            b"relation,r,1,1\ncolumn,1,a\ncolumn,2,b\n", b"relation,r,2,1\ncolumn,1,a\nkey,1\n",
            b"relation,r,2,1\ncolumn,1,a\nrelation,s,1,1\ncolumn,1,a\n", head + b"key,1", b"applied,1,1,0,9\n",
            head + b"relation,s,1,1\ncolumn,1,a\ntable,1,1,1\n", b"demo,1,12,5000,1,2,3,4\n", b"\x00\n", b"\xff\n", b'"',
        ]:
            with self.subTest(text=text[:80]):
                self.refused(text)

    def test_what_depprof_says_in_place_of_one(self):
        self.assertIn("x.csv, record 3: wrong number of fields\n", self.refused(b"refused,x.csv,3,3\n"))
        self.assertIn("could not read x.csv\n", self.refused(b"fault,read,x.csv\n"))
        self.assertIn("usage line", self.refused(self.usage()))

    def usage(self):
        return subprocess.run([PROGRAM, "--help"], capture_output=True).stdout

    def test_words(self):
        report = b"relation,r,1,1\ncolumn,1,a\nkey,\n"
        for words in (["--keys", "0"], ["--keys", "x"], ["--keys", "-1"], ["--keys", "99"], ["--line", "101"], ["--line", ""],
                      ["--dialect", "oracle"], ["--else"], ["nowhere"], ["."], ["a\nb"]):
            with self.subTest(words=words):
                self.refused(report, *words, tools=["schema_sql.py"])


class Graphs(Case):
    def test_a_graph(self):
        self.example("customers.csv", "items.csv", "sales.csv")
        graph = self.tool("schema_dot.py", self.report("profile", "customers.csv", "items.csv", "sales.csv")).decode()
        for arrow in ("t0:c3:e -> t0:c0:e;", "t2:c1 -> t0:c0;", "t2:c2 -> t1:c0;"):
            self.assertIn(arrow, graph)
        self.assertIn("<U>customer</U>", graph)
        self.draw(graph)

    def test_names(self):
        names = [name.replace('"', '""').encode() for name in Names.NAMES] + [b"\xff", b"]]>", b"&amp;"]
        text = b'relation,"x\x01<b>",%d,1\n' % len(names) + b"".join(b'column,%d,"%s"\n' % (k, name) for k, name in enumerate(names, 1))
        self.draw(self.tool("schema_dot.py", text + b"key,\n").decode())

    def draw(self, graph):
        if not shutil.which("dot"):
            self.skipTest("there is no dot to draw it")
        done = subprocess.run(["dot", "-Tsvg"], input=graph.encode(), capture_output=True)
        self.assertEqual((done.returncode, done.stderr), (0, b""))
        self.assertIn(b"<svg", done.stdout)


if __name__ == "__main__":
    unittest.main()
