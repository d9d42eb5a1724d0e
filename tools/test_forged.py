#!/usr/bin/env python3
"""Forged reports: whatever stands in one, schema_sql.py refuses it in one line or writes a script that does nothing but make, fill and
check its own tables. What such a report claims of rows may be false, so a script may fail, by a constraint alone.

  test_forged.py [TESTS..]
"""
import os
import random
import re
import shutil
import sqlite3
import subprocess
import sys
import tempfile
import unittest

import engines_for_tests
import report as reports
import schema_dot
import schema_sql
from dialects import DIALECTS

REPORTS = 2000
THROUGH_SHELLS = 25  # reports that each shell takes
HARM = [
    "|touch pwned", "`touch pwned`", "$(touch pwned)", "\n.shell touch pwned\n", ".shell touch pwned", "x\n.system touch pwned",
    "';\n.shell touch pwned\n--", '"); DROP TABLE t; --', "`); DROP TABLE t; --",
    "'); DROP TABLE t; --", "\\! touch pwned", "\n\\! touch pwned\n", "\nsystem touch pwned\n", "x;\nsystem touch pwned;", "$$; DROP TABLE t; $$",
    "*/ DROP TABLE t; /*", "-- \n.shell touch pwned", "\r.shell touch pwned\r",
    "\u2028.shell touch pwned", "\x00", "\x1a", "\x04", "a\x00b", "COPY t FROM PROGRAM 'touch pwned'", "\n\\copy t from program 'touch pwned'\n",
    "delimiter //", "\\", "'", '"', "`", "''", "a\\", "a'", 'a"', "a`", ";", "/", "go", "#",
]
NAMES = HARM + ["", "a", "A", "id", "order", "select", "sqlite_x", "pg_class", "xmin", "ß", "s", "é", "n" * 300, "\udcff", "x y", "x,y", "1",
                "rowid",
                "\U0001f600", " ", "\t", "DB_ROW_ID"]
CELLS = HARM + ["", "", "1", "2", "3", "10", "007", "1.5", "1.50", "2024-02-29", "2024-02-30", "true", "x", "x ", "\udcff", "9223372036854775808",
                "-0", "NULL", "x" * 200]
NUMBERS = ["0", "1", "2", "3", "9", "128", "129", "-1", "+1", "01", "", "x", "1.1", "99999999999", "9" * 400, "\u0661", " 1", "1 "]
LINES = re.compile(r"(--( .*)?|SET [A-Za-z_ =',0-9]+;|PRAGMA foreign_keys = OFF;|BEGIN;|COMMIT;|CREATE (TEMP |TEMPORARY )?TABLE [\"`].*"
                   r"|CREATE UNIQUE INDEX .*|INSERT INTO .*|    [\"`PUF].*|\(.*\)[,;]|\)[ A-Za-z=0-9_]*;|ALTER TABLE .*"
                   r"|DROP (TEMPORARY )?TABLE .*|)")
BY_A_CONSTRAINT = re.compile("constraint|unique|duplicate|cannot be null", re.IGNORECASE)


def quoted(field):
    return '"' + field.replace('"', '""') + '"'


def record(*fields):
    return ",".join(map(quoted, fields)) + "\n"


class Forgery:
    """A file and the lines of a report on it."""

    def __init__(self, names, rows, lines):
        self.names, self.rows, self.lines = names, rows, lines

    def parts(self, columns, empty=False):
        """The different parts of the rows on some columns, with those that have an empty cell or without."""
        return {part for part in (tuple(row[c] for c in columns) for row in self.rows) if empty or all(part)}


class Forger:
    """Draws files and a report on them that is right but for what is drawn to be wrong."""

    def __init__(self, seed):
        self.rng = random.Random(seed)

    def write(self, name, names, rows):
        """Writes a file, where its name can be one."""
        try:
            with open(name.encode("utf-8", "surrogateescape"), "wb") as file:
                file.write("".join(record(*row) for row in [names, *rows]).encode("utf-8", "surrogateescape"))
            return True
        except (OSError, ValueError):
            return False

    def relation(self, number):
        """A file and its lines in a report."""
        rng = self.rng
        width, count = rng.randint(1, 5), rng.choice([0, 1, 2, 6, 9])
        names = [rng.choice(NAMES) for _ in range(width)]
        cells = [rng.sample(CELLS, rng.randint(1, 8)) for _ in range(width)]
        rows = [[str(k) if c == 0 and width > 1 else rng.choice(cells[c]) for c in range(width)] for k in range(count)]
        name = f"{number}{rng.choice(NAMES)}"[rng.randint(0, 9) == 0:][:60].replace("/", "_") + rng.choice(["", ".csv"])
        self.write(name, names, rows)
        lines = [record("relation", name, str(width), str(count))] + [record("column", str(k), n) for k, n in enumerate(names, 1)]
        keys = {"1"} | {self.columns(width) for _ in range(rng.randint(0, 3))}
        return Forgery(names, rows, lines + [record("key", key) for key in sorted(keys)])

    def columns(self, width):
        return " ".join(str(c) for c in range(1, width + 1) if self.rng.random() < 0.5)

    def inclusions(self, relations):
        """Lines on inclusions, of which most hold."""
        rng, out = self.rng, []
        for _ in range(rng.randint(0, 30)):
            i, j, k = rng.randrange(len(relations)), rng.randrange(len(relations)), rng.choice([1, 1, 1, 2])
            one, other = relations[i], relations[j]
            if min(len(one.names), len(other.names)) >= k:
                mine, its = rng.sample(range(len(one.names)), k), rng.sample(range(len(other.names)), k)
                holds = one.parts(mine) <= other.parts(its) and not (i == j and any(a == b for a, b in zip(mine, its)))
                if holds or rng.random() < 0.01:
                    out.append(record("ind" if k == 1 else "nind", " ".join(f"{i + 1}.{c + 1}" for c in mine),
                                      " ".join(f"{j + 1}.{c + 1}" for c in its)))
        return out

    def report(self):
        rng = self.rng
        relations = [self.relation(number) for number in range(rng.choice([1, 1, 2, 3]))]
        lines = [line for relation in relations for line in relation.lines] + self.inclusions(relations)
        if len(relations) == 1 and rng.random() < 0.4:
            lines += self.tables(relations[0])
        return self.spoilt("".join(lines).encode("utf-8", "surrogateescape"))

    def tables(self, relation):
        """Lines on tables of a split, with files of the prefix `t`, which are parts of the rows."""
        rng, out, width = self.rng, [], len(relation.names)
        for number in range(1, rng.randint(1, 3) + 1):
            columns = sorted(rng.sample(range(width), rng.randint(1, width)))
            self.write(f"t{number}.csv", [relation.names[c] for c in columns], sorted(relation.parts(columns, True)))
            key = [c for c in columns if rng.random() < 0.6]
            out.append(record("table", str(number), " ".join(str(c + 1) for c in columns), " ".join(str(c + 1) for c in key)))
            if rng.random() < 0.3:
                out.append(record("alternate", str(number), str(columns[0] + 1)))
        if rng.random() < 0.1:
            out.append(record("reference", "1", "1", "2"))
        return out

    def spoilt(self, data):
        """The report with something wrong, or as it was."""
        rng, way = self.rng, self.rng.randint(0, 9)
        lines = data.split(b"\n")
        if way == 0:
            return data[:rng.randint(0, len(data))]
        if way == 1:
            place = rng.randint(0, len(data))
            return data[:place] + bytes([rng.randint(0, 255)]) + data[place + 1:]
        if way == 2:
            rng.shuffle(lines)
            return b"\n".join(lines)
        if way == 3:
            return b"\n".join(line for line in lines if rng.random() < 0.8)
        if way == 4:
            numbers = [found.span() for found in re.finditer(rb'(?<=")[0-9]+(?=")', data)]
            begin, end = rng.choice(numbers) if numbers else (0, 0)
            return data[:begin] + rng.choice(NUMBERS).encode() + data[end:]
        return data


class Forged(unittest.TestCase):
    def setUp(self):
        self.folder, self.before = tempfile.mkdtemp(), os.getcwd()
        os.chdir(self.folder)
        self.addCleanup(shutil.rmtree, self.folder, True)
        self.addCleanup(os.chdir, self.before)

    def empty(self):
        for name in os.listdir(b"."):
            os.remove(name)

    def script(self, data, dialect, *words):
        """The lines of the script, or None where the report is refused."""
        args = schema_sql.words(["--dialect", dialect, "--prefix", "t", *words])
        try:
            report = reports.read(data)
            schema_dot.graph(report, "t")
            text = "".join(schema_sql.script_of(report, args).pieces())
        except reports.Unreadable as why:
            self.assertTrue(all(map(reports.is_plain, str(why))) and str(why), data)
            return None
        for line in text.split("\n"):
            self.assertTrue(LINES.fullmatch(line) and all(map(reports.is_plain, line)), line)
            self.assertFalse(line.startswith("--") and "\\" in line, line)
        return text

    def own(self, data, dialect):
        """The names of the tables that a script may make."""
        tables = reports.tables_of(reports.read(data), "t", DIALECTS[dialect].own_names)
        return {table.name for table in tables}

    def run_guarded(self, text, own):
        """Runs a script in sqlite, which is asked of each thing it does whether that may be."""
        refused = []

        def may(action, first, second, place, inside):
            fine = action in (sqlite3.SQLITE_SELECT, sqlite3.SQLITE_TRANSACTION, sqlite3.SQLITE_CREATE_INDEX, sqlite3.SQLITE_CREATE_TEMP_TABLE,
                              sqlite3.SQLITE_DROP_TEMP_TABLE,
                              sqlite3.SQLITE_REINDEX, sqlite3.SQLITE_DROP_TEMP_INDEX)
            fine = fine or action == sqlite3.SQLITE_CREATE_TABLE and first in own
            fine = fine or action in (sqlite3.SQLITE_INSERT, sqlite3.SQLITE_UPDATE, sqlite3.SQLITE_DELETE, sqlite3.SQLITE_READ) and (
                place == "temp" or first in own or first in ("sqlite_master", "sqlite_temp_master", "pragma_encoding", "pragma_foreign_key_check"))
            fine = fine or action == sqlite3.SQLITE_PRAGMA and first in ("foreign_keys", "foreign_key_check", "encoding")
            fine = fine or action == sqlite3.SQLITE_FUNCTION and second.lower() in ("count",)
            fine = fine or action == sqlite3.SQLITE_CREATE_VTABLE and first in ("pragma_encoding", "pragma_foreign_key_check")
            if not fine:
                refused.append((action, first, second, place))
            return sqlite3.SQLITE_OK if fine else sqlite3.SQLITE_DENY

        connection = sqlite3.connect(":memory:")
        connection.set_authorizer(may)
        try:
            connection.executescript(text)
            done = True
        except sqlite3.IntegrityError:
            done = False
        finally:
            connection.set_authorizer(None)
            connection.close()
        self.assertEqual(refused, [])
        return done

    def test_reports(self):
        kept, loaded = 0, 0
        for seed in range(REPORTS):
            with self.subTest(seed=seed):
                data = Forger(seed).report()
                line = random.Random(seed).choice(["0", "30", "50"])
                dialect = random.Random(seed).choice(["sqlite", "sqlite", "sqlite", "postgres", "mysql"])
                text = self.script(data, dialect, "--line", line)
                kept += text is not None
                if text is not None and dialect == "sqlite":
                    loaded += self.run_guarded(text, self.own(data, "sqlite"))
                self.assertFalse(os.path.exists("pwned"))
                if seed % 50 == 0:
                    self.empty()
        self.assertGreater(kept, REPORTS / 4)
        self.assertGreater(loaded, REPORTS / 20)

    def test_through_shells(self):
        engines, missing = engines_for_tests.started()
        for engine in engines:
            self.addCleanup(engine.end)
        for why in missing:
            print(f"forged: {why}, its shell takes no script")
        for engine in engines:
            taken, seed = 0, REPORTS
            while taken < THROUGH_SHELLS:
                seed += 1
                data = Forger(seed).report()
                text = self.script(data, engine.dialect, "--line", "0")
                if text is None:
                    continue
                taken += 1
                with self.subTest(engine=engine.dialect, seed=seed):
                    engine.fresh(self.folder)
                    status, error = engine.load(text.encode("utf-8"))
                    self.assertTrue(status == 0 or BY_A_CONSTRAINT.search(error), error)
                    self.assertFalse(os.path.exists("pwned"))
                self.empty()

    def test_the_command_itself(self):
        """The tool as it is called: one line and status 1, or a script."""
        tool = os.path.join(os.path.dirname(os.path.abspath(__file__)), "schema_sql.py")
        for seed in range(3 * REPORTS, 3 * REPORTS + 20):
            done = subprocess.run([sys.executable, tool, "--prefix", "t"], input=Forger(seed).report(), capture_output=True)
            wanted = (0, 0) if done.returncode == 0 else (1, 1)
            self.assertEqual((done.returncode, done.stderr.count(b"\n")), wanted, done.stderr)
            self.assertTrue(done.stdout if done.returncode == 0 else not done.stdout)


if __name__ == "__main__":
    unittest.main()
