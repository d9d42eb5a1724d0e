#!/usr/bin/env python3
"""Tests of to_csv.py: tables in many forms come out as the same cells by the rules of depprof, and what can't be taken is refused by one
sentence, with nothing left behind.

  test_to_csv.py PROGRAM [TESTS..]
"""
import bz2
import gzip
import lzma
import os
import random
import sqlite3
import subprocess
import sys
import tempfile
import unittest
from unittest import mock

import csv_records
import csv_source
import to_csv
from csv_source import Unfit

TOOL = os.path.join(os.path.dirname(os.path.abspath(__file__)), "to_csv.py")
PROGRAM = os.path.abspath(sys.argv.pop(1)) if len(sys.argv) > 1 else ""
TABLES, SPOILT = 400, 600
CELLS = ["", "", "a", "bc", "7", " x ", "a,b", "a;b", "a\tb", "a|b", 'say "no"', '"', '""', "two\nlines", "a\rb", "\r\n", "\ufeffmark", "\u00e4\u20ac", "\U0001f600",
         "'", "it's", "\\", "\\N", "NULL", "#", "=1+1", "\x01", "\u2028", "x" * 300]
ONE_BYTE = [cell for cell in CELLS if all(c < "\u00ff" for c in cell)]


class Case(unittest.TestCase):
    def setUp(self):
        held = tempfile.TemporaryDirectory()
        self.addCleanup(held.cleanup)
        self.folder, before = held.name, os.getcwd()
        os.chdir(self.folder)
        self.addCleanup(os.chdir, before)

    def write(self, name, data):
        with open(name, "wb") as file:
            file.write(data)

    def converted(self, data, *words, name="in.txt"):
        """The records that come out, and what is said of them."""
        self.write(name, data)
        told = to_csv.convert(to_csv.words([*words, "--", name, "out.csv"]))
        with open("out.csv", "rb") as file:
            return list(csv_records.records(file.read())), told

    def texts(self, data, *words, **more):
        return [[cell.decode() for cell in record] for record in self.converted(data, *words, **more)[0]]

    def refused(self, data, *words, name="in.txt"):
        """The sentence by which a text is refused, where an earlier output stays as it was."""
        self.write(name, data)
        self.write("out.csv", b"as it was\n")
        with self.assertRaises(Unfit) as held:
            to_csv.convert(to_csv.words([*words, "--", name, "out.csv"]))
        self.assertEqual(sorted(os.listdir(".")), sorted([name, "out.csv"]))
        with open("out.csv", "rb") as file:
            self.assertEqual(file.read(), b"as it was\n")
        self.assertNotIn("\n", str(held.exception))
        return str(held.exception)


class Forms(Case):
    def test_what_people_have(self):
        wanted = [["name", "city"], ["Ada; B", "Yo\"rk"], ["Ben", ""]]
        for data, words in [
            (b'name,city\n"Ada; B","Yo""rk"\nBen,\n', []), (b'name;city\r\n"Ada; B";"Yo""rk"\r\nBen;\r\n', []), (b'name\tcity\rAda; B\t"Yo""rk"\rBen\t\r', []),
            (b'\xef\xbb\xbfsep=;\nname;city\n"Ada; B";"Yo""rk"\n\n\nBen;', []), (b'name|city\nAda; B|Yo\\"rk\nBen|\n', ["--quote", "none", "--escape", "\\"]),
            (b"'name' 'city'\n'Ada; B' 'Yo\"rk'\nBen ''\n", ["--quote", "'", "--delimiter", "space"]),
            (b'two lines\nbefore\nname;city\nAda\\; B;"Yo\\"rk"\nBen;\n', ["--skip", "2", "--escape", "\\"]),
            (b'sep=,\nname;city\n"Ada; B";"Yo""rk"\nBen;\n', ["--delimiter", ";"]), (b'name,city\nAda; B,"Yo""rk"\nBen,\\N\n', ["--null", "\\N"]),
            (b'a,name,b,city\n1,Ada; B,2,"Yo""rk"\n3,Ben,4,\n', ["--columns", "name,4"]), (b'name,city\n?,?\nAda; B,"Yo""rk"\nBen,\nx,y\n', ["--rows", "2-3"]),
        ]:
            with self.subTest(data=data):
                self.assertEqual(self.texts(data, *words), wanted)
                packed = [gzip.compress(data), bz2.compress(data), lzma.compress(data), gzip.compress(data[:9]) + gzip.compress(data[9:])]
                for one in packed:
                    self.assertEqual(self.texts(one, *words), wanted)

    def test_encodings(self):
        text = "name;city\n\u00c4da;Li\u00e8ge\n"
        wanted = [["name", "city"], ["\u00c4da", "Li\u00e8ge"]]
        for encoding in ("utf-8", "utf-8-sig", "utf-16", "utf-32"):
            self.assertEqual(self.texts(text.encode(encoding)), wanted)
        self.assertEqual(self.texts(b"\xfe\xff" + text.encode("utf-16-be")), wanted)
        for encoding in ("cp1252", "latin-1", "utf-16-le", "utf-16-be", "utf-32-be", "cp850", "mac-roman"):
            self.assertEqual(self.texts(text.encode(encoding), "--encoding", encoding), wanted)
        told = self.converted(gzip.compress(text.encode("utf-16")))[1]
        self.assertEqual(told, "in.txt (semicolons, UTF-16, gzip): 1 row of 2 columns, read back as written")

    def test_choices(self):
        data = b"a,b,c,b\n" + b"".join(b"%d,x,y,z\n" % k for k in range(1, 11))
        self.assertEqual(self.texts(data, "--columns", "c,1")[:2], [["c", "a"], ["y", "1"]])
        self.assertEqual(self.texts(data, "--columns", "2-3,4")[1], ["x", "y", "z"])
        self.assertEqual([row[0] for row in self.texts(data, "--rows", "2,4-5,9-")], ["a", "2", "4", "5", "9", "10"])
        self.assertEqual(self.texts(data, "--rows", "99"), [["a", "b", "c", "b"]])
        self.assertEqual(self.texts(b'x\n1\n', "--no-header"), [["column1"], ["x"], ["1"]])
        self.assertEqual(self.texts(b'"a,b",2\nx,y\n', "--columns", '"a,b"'), [["a,b"], ["x"]])
        self.assertEqual(self.texts(b'2,1\nx,y\n', "--columns", "1"), [["1"], ["y"]])
        for columns, why in [("d", "there is no column d"), ("b", "2 columns are named b: choose by number"), ("1,a", "column 1 is chosen twice"),
                             ("5", "5 is no choice from 4 columns"), ("3-2", "3-2 is no choice"), ("0", "0 is no choice"), ("", "no column is chosen"),
                             ("9" * 30, "is no choice"), ("\u0661", "there is no column")]:
            self.assertIn(why, self.refused(data, "--columns", columns))

    def test_tables_by_chance(self):
        """Each cell comes out as it went in, however it was written."""
        rng = random.Random(58)
        for seed in range(TABLES):
            width, encoding = rng.randint(1, 5), rng.choice(["utf-8", "utf-8", "utf-8-sig", "utf-16", "utf-32", "latin-1"])
            cells = ONE_BYTE if encoding == "latin-1" else CELLS
            rows = [[rng.choice(cells) for _ in range(width)] for _ in range(rng.randint(1, 300 if seed % 20 == 0 else 6))]
            rows[0][0] = rows[0][0].lstrip("\ufeff")
            delimiter, quote, end = rng.choice(",;\t|:"), rng.choice("\"\"'"), rng.choice(["\n", "\r\n", "\r", "\n\n"])
            escape = rng.choice([None, None, "\\"])

            def field(text):
                text = text.replace("\\", "\\\\") if escape else text
                if text and rng.random() < 0.5 and not any(mark in text for mark in (delimiter, quote, "\n", "\r", "\\")):
                    return text
                return quote + text.replace(quote, 2 * quote if not escape or rng.random() < 0.5 else "\\" + quote) + quote
            text = rng.choice(["", f"sep={delimiter}\n"]) + "".join(delimiter.join(map(field, row)) + end for row in rows)
            words = ["--delimiter", delimiter, "--quote", quote] + ["--escape", escape] * bool(escape) + ["--encoding", encoding] * (encoding == "latin-1")
            data = text.encode(encoding)
            with self.subTest(seed=seed, data=data):
                self.assertEqual(self.texts(gzip.compress(data) if rng.random() < 0.3 else data, *words), rows)

    @unittest.skipUnless(os.access(PROGRAM, os.X_OK), "no program")
    def test_the_program_takes_it(self):
        rng = random.Random(59)
        for _ in range(25):
            width = rng.randint(1, 4)
            rows = [[rng.choice(CELLS) for _ in range(width)] for _ in range(rng.randint(1, 9))]
            text = "".join(";".join('"' + cell.replace('"', '""') + '"' for cell in row) + "\n" for row in rows)
            self.converted(text.encode("utf-16"), "--delimiter", ";")
            done = subprocess.run([PROGRAM, "profile", "out.csv"], capture_output=True)
            lines = [[cell.decode() for cell in record] for record in csv_records.records(done.stdout)]
            self.assertEqual((done.returncode, lines[0]), (0, ["relation", "out.csv", str(width), str(len(rows) - 1)]))
            self.assertEqual([line[2] for line in lines if line[0] == "column"], rows[0])


class Refusals(Case):
    def test_each_sentence(self):
        for data, words, why in [
            (b"", [], "in.txt has no header record"), (b"\n\r\n", [], "in.txt has no header record"),
            (b"a,b\n1,2\n1,2,3\n", [], "in.txt, line 3: 3 fields where the header has 2; cells were taken to be separated by commas (--delimiter)"),
            (b"a;b\n1;2\n1;2;3\n", [], "in.txt, line 3: 3 fields where the header has 2; cells were taken to be separated by semicolons"),
            (b'a,b\n1,"x\n2,y\n3,z\n', [], "in.txt, line 2: a quote in the record that begins here is never closed"),
            (b'sep="\na\n', [], "in.txt says that `\"` stands between its cells, which can't be (--delimiter)"),
            (b"sep=\0\na\n", [], "in.txt says that `<00>` stands between its cells"),
            (b'a,b\n1,"x" y\n', [], "in.txt, line 2: there is text behind a closing quote"),
            (b'a,b\n1,"x\n2,"y"\n', [], "in.txt, line 3: there is text behind a closing quote"),
            (b"a,b\n\xe9,1\n", [], "in.txt is no UTF-8 at byte 5, which is 0xE9: --encoding says what it is, as cp1252"),
            (b"x" * 3_000_000 + b"\xff", [], "in.txt is no UTF-8 at byte 3000001, which is 0xFF"),
            (b"\xff\xfea\x00b", [], "in.txt is no UTF-16 at byte 5"), ("a;b\n1;2\n".encode("utf-16-le"), [], "--encoding utf-16-le reads it"),
            ("a;b\n1;2\n".encode("utf-16-be"), [], "--encoding utf-16-be reads it"), (b"a\n\x81\n", ["--encoding", "cp1252"], "in.txt is no CP1252 at byte 3"),
            (b"PK\x03\x04rest", [], "in.txt is an archive, or a spreadsheet as such"), (b"SQLite format 3\0x", [], "in.txt is a database"),
            (b"PAR1xxxx", [], "in.txt is a Parquet file"), (gzip.compress(b"a,b\n1,2\n" * 99)[:-9], [], "in.txt can't be read to its end"),
            (gzip.compress(b"a,b\n1,2\n")[:-8] + b"12345678", [], "in.txt can't be read to its end"), (b"\x1f\x8b", [], "in.txt can't be read to its end"),
            (b",".join([b"x"] * 129) + b"\n", [], "in.txt has 129 columns, and depprof takes 128: --columns chooses some"),
            (b",".join([b"x"] * 140) + b"\n", ["--columns", "2-130"], "129 columns are chosen, and depprof takes 128"),
            (b"a,b\n1," + b"x" * 65_537 + b"\n", [], "in.txt, line 2: the cell of b has 65537 bytes, and depprof takes 65536"),
            (("a\n" + "\u20ac" * 21_846 + "\n").encode(), [], "in.txt, line 2: the cell of a has 65538 bytes"),
            (b"+ADw-+2AA-\n", ["--encoding", "utf-7"], "in.txt is no UTF-7"),
        ]:
            with self.subTest(data=data[:40]):
                self.assertIn(why, self.refused(data, *words))
        self.assertEqual(self.texts(b"a,b\n1," + b"x" * 65_536 + b"\n")[1][1], "x" * 65_536)
        self.assertEqual(len(self.texts(b",".join([b"x"] * 129) + b"\n", "--columns", "2-")[0]), 128)

    def test_limits(self):
        with mock.patch.object(to_csv, "MOST_ROWS", 2500):
            self.assertEqual(len(self.converted(b"a\n" + b"1\n" * 2500)[0]), 2501)
            self.assertIn("in.txt has more than 2,500 rows", self.refused(b"a\n" + b"1\n" * 2501))
            self.assertEqual(len(self.converted(b"a\n" + b"1\n" * 9999, "--rows", "1-2500")[0]), 2501)
        with mock.patch.object(to_csv, "MOST_BYTES", 10_002):
            self.assertEqual(len(self.converted(b"a\n" + b"1\n" * 5000)[0]), 5001)
            self.assertIn("makes more than 10,002 bytes", self.refused(b"a\n" + b"1\n" * 5001))

    def test_texts_without_an_end(self):
        with mock.patch.object(csv_source, "MOST_READ", 5000):
            self.assertIn("in.txt, line 2: a cell of the record that begins here has more than 5,000 characters", self.refused(b'a,b\n1,"' + b"2\n" * 5000))
            self.assertEqual(len(self.texts(b'a,b\n1,"' + b"2\n" * 2500 + b'"\n')[1][1]), 5000)
        with mock.patch.object(csv_source, "MOST_LINE", 5000):
            self.assertIn("in.txt has a line of more than 5,000 characters", self.refused(gzip.compress(b"a\n" + b"x" * 5000)))

    def test_what_is_lost_is_seen(self):
        for wrong in (lambda row: b",".join(row) + b"\n", lambda row: b",".join(cell.strip() for cell in row) + b"\n", lambda row: b""):
            with mock.patch.object(to_csv, "line_of", wrong):
                self.assertIn("reads back as something else", self.refused(b'a,b\n" 1","x,y"\n'))

    def test_bytes_by_chance(self):
        """A sentence, or the records as read."""
        rng, kept = random.Random(60), 0
        base = [b'sep=;\na;b\n"x";2\n', b"a,b\n1,2\n", gzip.compress(b"a,b\n1,2\n"), "a,b\n\u00e9,2\n".encode("utf-16"), b'a\t"b"\n1\t"2\t3"\n']
        for seed in range(SPOILT):
            data = bytearray(rng.choice(base))
            for _ in range(rng.randint(0, 3)):
                place = rng.randrange(len(data))
                way = rng.randint(0, 2)
                if way == 0:
                    data[place] = rng.choice([0, 10, 13, 34, 44, 59, 255, rng.randrange(256)])
                elif way == 1:
                    del data[place:]
                    data += b"x"
                else:
                    data[place:place] = bytes(rng.choice(b'",;\n\r\t\x00') for _ in range(3))
            self.write("in.txt", bytes(data))
            try:
                to_csv.convert(to_csv.words(["in.txt", "out.csv", *rng.choice([[], [], ["--columns", "1"], ["--quote", "none"], ["--encoding", "utf-16"]])]))
                kept += 1
            except Unfit as why:
                self.assertTrue(str(why).isprintable(), data)
        self.assertGreater(kept, SPOILT / 5)

    def test_the_command_itself(self):
        self.write("in.txt", b"a;b\n1;2\n")
        self.write("bad\x1b.txt", b"a;b\n1;2;3\n")
        os.mkdir("folder")
        for words, why in [
            (["no such file"], "no such file can't be read: No such file or directory"), (["folder"], "folder is a folder"), ([], "required: FILE"),
            (["in.txt", "in.txt"], "in.txt is the file that is read"), (["in.txt", "no/where.csv"], "the output can't be written: No such file"),
            (["in.txt", "folder"], "the output can't be written: Is a directory"), (["in.txt", "--delimiter", "ab"], "ab is not one character"),
            (["in.txt", "--encoding", "hex"], "hex is no encoding of texts"), (["in.txt", "--encoding", "x\ny"], "is no encoding of texts"),
            (["in.txt", "--rows", "5-2"], "5-2 is no ascending list of rows"), (["in.txt", "--rows", "0"], "0 is no ascending list"), (["in.txt", "--skip", "-1"], "argument"),
            (["in.txt", "--delimiter", '"'], "are not three different characters"), (["bad\x1b.txt"], "bad<1B>.txt, line 2: 3 fields where the header has 2"),
            (["in.txt", "--table", "t"], "--table needs a name, and OUT"), (["in.txt", "out.db", "--columns", "1,1"], "column 1 is chosen twice"),
        ]:
            with self.subTest(words=words):
                done = subprocess.run([sys.executable, TOOL, *words], capture_output=True, text=True)
                self.assertEqual((done.returncode, done.stdout, done.stderr.count("\n")), (1, "", 1), done.stderr)
                self.assertTrue(done.stderr.startswith("to_csv: ") and why in done.stderr, done.stderr)
        done = subprocess.run([sys.executable, TOOL, "-"], input=b"a;b\n1;2\n", capture_output=True)
        self.assertEqual((done.returncode, done.stdout), (0, b"a,b\n1,2\n"))
        self.assertEqual(done.stderr, b"to_csv: the standard input (semicolons, UTF-8): 1 row of 2 columns, read back as written\n")
        if os.path.exists("/dev/full"):
            done = subprocess.run([sys.executable, TOOL, "in.txt", "/dev/full"], capture_output=True, text=True)
            self.assertEqual((done.returncode, done.stderr), (1, "to_csv: the output can't be written: No space left on device\n"))
        self.assertEqual(sorted(os.listdir(".")), ["bad\x1b.txt", "folder", "in.txt"])


class Tables(Case):
    def table(self, data, *words):
        self.write("in.txt", data)
        return to_csv.convert(to_csv.words(["in.txt", "new.db", "--table", *words]))

    def rows(self, table):
        base = sqlite3.connect("new.db")
        self.addCleanup(base.close)
        found = base.execute('SELECT * FROM "' + table.replace('"', '""') + '" ORDER BY rowid')
        return [d[0] for d in found.description], found.fetchall()

    def test_rows(self):
        name = 'a "b"; DROP TABLE x'
        zero = "\0" if sys.version_info >= (3, 11) else "0"
        told = self.table(b'a;A;;"x""y"\n1;' + zero.encode() + b';;"2\n3"\n\xc3\xa4;;4;5\n', name)
        self.assertEqual(told, "in.txt (semicolons, UTF-8): 2 rows of 4 columns, read back as written")
        self.assertEqual(self.rows(name), (["a", "A_2", "column3", 'x"y'], [("1", zero, "", "2\n3"), ("\u00e4", "", "4", "5")]))

    def test_limits_of_files_are_none(self):
        with mock.patch.object(to_csv, "MOST_ROWS", 10), mock.patch.object(to_csv, "MOST_BYTES", 10):
            self.table(b"a\n" + b"1\n" * 5000, "t")
        self.assertEqual(len(self.rows("t")[1]), 5000)

    def test_nothing_is_left(self):
        with self.assertRaises(Unfit):
            self.table(b"a,b\n1,2\n3\n", "t")
        self.assertEqual(os.listdir("."), ["in.txt"])
        self.table(b"a\n1\n", "t")
        done = subprocess.run([sys.executable, TOOL, "in.txt", "new.db", "--table", "t"], capture_output=True, text=True)
        self.assertEqual((done.returncode, done.stderr.count("\n")), (1, 1), done.stderr)
        self.assertIn("already exists", done.stderr)
        with self.assertRaises(Unfit):
            self.table(b"a\n1\n2,3\n", "u")
        self.assertEqual(self.rows("t")[1], [("1",)])
        self.write("no.db", b"x" * 5000)
        done = subprocess.run([sys.executable, TOOL, "in.txt", "no.db", "--table", "t"], capture_output=True, text=True)
        self.assertEqual((done.returncode, done.stderr.count("\n")), (1, 1), done.stderr)


if __name__ == "__main__":
    unittest.main()
