#!/usr/bin/env python3
"""Tests of csv_records.py: the rules one by one, and hostile files beside what the program makes of them.

  test_csv_records.py PROGRAM [TESTS..]
"""
import csv
import io
import os
import random
import subprocess
import sys
import tempfile
import unittest

import csv_records

PROGRAM = os.path.abspath(sys.argv.pop(1)) if len(sys.argv) > 1 else ""


def records(data):
    return list(csv_records.records(data))


class Rules(unittest.TestCase):
    def test_each_rule(self):
        for data, wanted in [
            (b"", []), (b"\n\r\n\r", []), (b"a", [[b"a"]]), (b"a,", [[b"a", b""]]), (b",\n", [[b"", b""]]),
            (b"a\nb", [[b"a"], [b"b"]]), (b"a\rb\r", [[b"a"], [b"b"]]), (b"a\r\nb\r\n", [[b"a"], [b"b"]]), (b"\n\na\n\n\nb\n\n", [[b"a"], [b"b"]]),
            (b'""\n', [[b""]]), (b'"a""b"', [[b'a"b']]), (b'"a,b\n\r"\n', [[b"a,b\n\r"]]), (b'"1"z,2\n', [[b"1z", b"2"]]),
            (b'"1"z"",2', [[b'1z""', b"2"]]),
            (b'a"b","c"\n', [[b'a"b"', b"c"]]), (b' "a"\n', [[b' "a"']]),
            (b'"a\nb,c\n', [[b"a\nb,c\n"]]), (b'"a"",b\n', [[b'a",b\n']]), (b'"a""', [[b'a"']]), (b'"', [[b""]]), (b'x\n"', [[b"x"], [b""]]),
            (b'x,"', [[b"x", b""]]),
            (b"\xef\xbb\xbf\xef\xbb\xbfa\n", [[b"a"]]), (b"\xef\xbb\xbf", []), (b"a\n\xef\xbb\xbfb\n", [[b"a"], [b"\xef\xbb\xbfb"]]),
            (b"\x00,\xff\n", [[b"\x00", b"\xff"]]), (b"\n\"a\"\n\n\"\"\n", [[b"a"], [b""]]), (b'"a"\r\r\n"b"', [[b"a"], [b"b"]]),
        ]:
            with self.subTest(data=data):
                self.assertEqual(records(data), wanted)

    def test_quotes_that_say_nothing(self):
        """A field reads the same in quotes as without."""
        rng = random.Random(3)
        for _ in range(3000):
            rows = [[rng.choice([b"", b"a", b"bc"]) for _ in range(rng.randint(1, 3))] for _ in range(rng.randint(0, 5))]
            ends = [rng.choice([b"\n", b"\r", b"\r\n", b"\n\n\r"]) for _ in rows]
            text = b"".join(b",".join(b'"%s"' % field if row == [b""] or rng.random() < 0.2 else field for field in row) + end for row,
                            end in zip(rows, ends))
            self.assertEqual(records(text), rows, text)


class BesideTheProgram(unittest.TestCase):
    """What the program says of hostile files: how many columns and rows, the names, and the rows, which the tables of a split join to."""

    def setUp(self):
        held = tempfile.TemporaryDirectory()
        self.addCleanup(held.cleanup)
        self.folder = held.name

    def table(self, number):
        """The names and rows of a table file, read by another reader, which knows no zero byte."""
        with open(os.path.join(self.folder, f"t{number}.csv"), newline="", encoding="latin-1") as file:
            text = file.read().replace("\0", "\ufffd")
        names, *rows = [[cell.replace("\ufffd", "\0") for cell in row] for row in csv.reader(io.StringIO(text, newline=""))]
        return names, rows

    def joined(self, tables):
        """The natural join of tables, each with its columns' numbers and rows, as rows over all columns."""
        out = [{}]
        for columns, rows in tables:
            out = [{**one, **dict(zip(columns, row))} for one in out for row in rows if all(one.get(c, v) == v for c, v in zip(columns, row))]
        return {tuple(row[c] for c in sorted(row)) for row in out}

    def check(self, data):
        """Whether the program took the file. If it did, its rows are those of the reader."""
        with open(os.path.join(self.folder, "x.csv"), "wb") as file:
            file.write(data)
        done = subprocess.run([PROGRAM, "normalize", "--out", "t", "x.csv"], cwd=self.folder, capture_output=True)
        mine = records(data)
        if done.returncode == 3:
            self.assertTrue(not mine or any(len(r) != len(mine[0]) for r in mine), data)
            return False
        self.assertEqual(done.returncode, 0, data)
        lines = [[field.decode("latin-1") for field in line] for line in records(done.stdout)]
        self.assertEqual(lines[0], ["relation", "x.csv", str(len(mine[0])), str(len(mine) - 1)], data)
        self.assertEqual([line[2].encode("latin-1") for line in lines if line[0] == "column"], mine[0], data)
        tables = [(list(map(int, line[2].split())), self.table(line[1])[1]) for line in lines if line[0] == "table"]
        self.assertEqual(self.joined(tables), {tuple(f.decode("latin-1") for f in row) for row in mine[1:]}, data)
        return True

    def test_hostile_files(self):
        rng, taken = random.Random(11), 0
        for _ in range(60):
            columns = rng.randint(1, 3)
            fields = [b"", b"a", b'"a"', b'"a"z', b'"a""b"', b'"x,y"', b'"\r"', b'a"', b"\x00", b'"1"z"q', b" ", b"\xff", b'""', b'"\n\n"',
                      b"\xef\xbb\xbf"]
            lines = [b",".join(rng.choice(fields) for _ in range(columns)) for _ in range(rng.randint(1, 7))]
            ends = [rng.choice([b"\n", b"\r", b"\r\n", b"\n\n", b"\r\n\r"]) for _ in lines]
            data = rng.choice([b"", b"\xef\xbb\xbf", b"\n", b"\r"]) + b"".join(line + end for line, end in zip(lines, ends))
            data += rng.choice([b"", b"", b'"', b'"a', b'"a""', b","])
            taken += self.check(data)
        self.assertGreater(taken, 20)

    def test_bytes_by_chance(self):
        rng = random.Random(12)
        for _ in range(60):
            self.check(bytes(rng.choice(b'a,"\r\n\x00') for _ in range(rng.randint(0, 9))))


if __name__ == "__main__":
    unittest.main()
