#!/usr/bin/env python3
"""Tests of column_types.py, and of the types that dialects.py makes of what it finds."""
import random
import unittest

from column_types import BOOLEAN, BYTES, DATE_KIND, DECIMAL, INTEGER, NOTHING, TEXT, TIMESTAMP, Facts, as_text, facts_of, merged
from dialects import DIALECTS, FREE, JOINED, KEYED


def cells(text):
    return [word.encode() for word in text.split(" ")]


class Kinds(unittest.TestCase):
    def test_kinds(self):
        for text, kind in [
            ("", NOTHING), ("1 -2 0", INTEGER), ("1 2.5", DECIMAL), ("0.0 1.50", DECIMAL), ("01", TEXT), ("+1", TEXT), ("-0", TEXT), ("-0.00", TEXT),
            ("-0.10", DECIMAL), ("1.", TEXT), (".5", TEXT), ("1e5", TEXT),
            ("1 x", TEXT), ("9" * 38, INTEGER), ("9" * 39, TEXT), ("9" * 5000, TEXT), ("1." + "0" * 37, DECIMAL), ("1." + "0" * 38, TEXT),
            ("\u0661", TEXT), ("true false", BOOLEAN), ("true 1", TEXT), ("True", TEXT),
            ("2024-02-29", DATE_KIND), ("2023-02-29", TEXT), ("0000-00-00", TEXT), ("0999-12-31", TEXT), ("2024-1-01", TEXT), ("2024-02-29 1", TEXT),
            ("20240229", INTEGER), ("é", TEXT),
        ]:
            with self.subTest(text=text[:50]):
                self.assertEqual(facts_of(cells(text)).kind, kind)
        for cell, kind in [
            (b"2024-02-29 23:59:59", TIMESTAMP), (b"2024-02-29 24:00:00", TEXT), (b"2024-02-30 10:00:00", TEXT), (b"2024-02-29 10:00", TEXT),
            (b"2024-02-29 10:00:00.5", TEXT), (b"2024-02-29T10:00:00", TEXT),
            (b" 1", TEXT), (b"1\n", TEXT), (b"\xff", BYTES), (b"a\0", BYTES), (b"\xed\xa0\x80", BYTES), (b"\xc3", BYTES),
        ]:
            with self.subTest(cell=cell):
                self.assertEqual(facts_of([cell, b""]).kind, kind)
        self.assertEqual(facts_of([b"2024-02-29", b"2024-02-29 10:00:00"]).kind, TEXT)

    def test_facts(self):
        facts = facts_of([b"12", b"", b"-3", b"100"])
        self.assertEqual((facts.empty, facts.least, facts.greatest, facts.whole, facts.places, facts.length), (True, -3, 100, 3, (0, 0), 3))
        facts = facts_of(cells("1.50 22.125 3"))
        self.assertEqual((facts.empty, facts.whole, facts.places, facts.trimmed, facts.plain), (False, 2, (0, 3), False, False))
        self.assertTrue(facts_of(cells("1.5 22.125 3")).plain)
        facts = facts_of(["é".encode(), b"ab "])
        self.assertEqual((facts.length, facts.size, facts.ends_in_space), (3, 3, True))
        self.assertEqual((facts_of(["éé".encode()]).length, facts_of(["éé".encode()]).size), (2, 4))
        self.assertEqual(facts_of([]), Facts())
        self.assertEqual(as_text(facts_of([b"1"])).kind, TEXT)
        self.assertEqual(as_text(facts_of([b"\xff"])).kind, BYTES)

    def test_facts_of_all_are_those_of_the_parts(self):
        rng = random.Random(4)
        some = [b"", b"1", b"-20", b"1.5", b"1.50", b"0.00001", b"true", b"false", b"2024-02-29", b"2024-02-29 10:00:00", b"x", b"x ", "é".encode(),
                b"\xff", b"9" * 30, b"007"]
        for _ in range(2000):
            pool = rng.sample(some, rng.randint(1, 4))
            a, b = ([rng.choice(pool) for _ in range(rng.randint(0, 3))] for _ in range(2))
            one, other = facts_of(a + b), merged(facts_of(a), facts_of(b))
            self.assertEqual((one.kind, one.empty, one.size, one.ends_in_space), (other.kind, other.empty, other.size, other.ends_in_space), (a, b))
            self.assertEqual(other, merged(facts_of(b), facts_of(a)))
            if one.kind in (INTEGER, DECIMAL):
                self.assertEqual((one.whole, one.places, one.trimmed, one.plain), (other.whole, other.places, other.trimmed, other.plain), (a, b))


class Types(unittest.TestCase):
    def types(self, text, use=FREE):
        facts = facts_of(cells(text))
        return tuple(DIALECTS[name].type_of(facts, use) for name in ("sqlite", "postgres", "mysql"))

    def test_types(self):
        for text, wanted in [
            ("1 2", ("INTEGER", "INTEGER", "INTEGER")), ("2147483647", ("INTEGER", "INTEGER", "INTEGER")),
            ("2147483648", ("INTEGER", "BIGINT", "BIGINT")), ("-2147483649", ("INTEGER", "BIGINT", "BIGINT")),
            ("9223372036854775808", ("TEXT", "NUMERIC(19)", "DECIMAL(19, 0)")), ("1.50 2.25", ("TEXT", "NUMERIC(3, 2)", "DECIMAL(3, 2)")),
            ("1.5 2.25", ("NUMERIC", "NUMERIC", "VARCHAR(4)")),
            ("1.5 2.50", ("TEXT", "VARCHAR(4)", "VARCHAR(4)")), ("1.0", ("TEXT", "NUMERIC(2, 1)", "DECIMAL(2, 1)")),
            ("0.00001", ("TEXT", "NUMERIC(6, 5)", "DECIMAL(6, 5)")), ("2024-02-29", ("TEXT", "DATE", "DATE")),
            ("true", ("TEXT", "BOOLEAN", "VARCHAR(4)")), ("", ("TEXT", "TEXT", "VARCHAR(1)")), ("x", ("TEXT", "VARCHAR(1)", "VARCHAR(1)")),
            ("x" * 101, ("TEXT", "VARCHAR(101)", "TEXT")), ("x" * 65536, ("TEXT", "VARCHAR(65536)", "MEDIUMTEXT")),
        ]:
            with self.subTest(text=text[:50]):
                self.assertEqual(self.types(text), wanted)
        self.assertEqual(self.types("x" * 101, use=KEYED)[2], "VARCHAR(101)")
        self.assertEqual(self.types("x" * 101, use=JOINED)[2], "TEXT")
        self.assertEqual(self.types("x" * 800, use=KEYED)[2], "TEXT")
        self.assertEqual(DIALECTS["mysql"].type_of(facts_of([b"x "]), JOINED), "VARBINARY(2)")
        self.assertEqual(DIALECTS["mysql"].type_of(facts_of([b"x "]), FREE), "VARCHAR(2)")
        self.assertEqual([DIALECTS[name].type_of(facts_of([b"\xff"]), FREE) for name in ("sqlite", "postgres", "mysql")],
                         ["BLOB", "BYTEA", "VARBINARY(1)"])

    def test_values(self):
        for cell, wanted in [
            (b"it's", ("'it''s'",) * 3), (b"a\\b", ("'a\\b'", "E'a\\\\b'", "_utf8mb4 x'615c62'")),
            (b"a\nb", ("CAST(x'610a62' AS TEXT)", "E'a\\nb'", "_utf8mb4 x'610a62'")),
            (b"\x01'", ("CAST(x'0127' AS TEXT)", "E'\\x01'''", "_utf8mb4 x'0127'")),
            ("\u0085\u2028".encode(), ("CAST(x'c285e280a8' AS TEXT)", "E'\\xc2\\x85\\xe2\\x80\\xa8'", "_utf8mb4 x'c285e280a8'")),
        ]:
            with self.subTest(cell=cell):
                self.assertEqual(tuple(DIALECTS[name].literal_of(facts_of([cell]), FREE)(cell) for name in ("sqlite", "postgres", "mysql")), wanted)
        self.assertEqual([DIALECTS[name].literal_of(facts_of([b"12"]), FREE)(b"12") for name in DIALECTS], ["12"] * 3)
        self.assertEqual([DIALECTS[name].literal_of(facts_of([b"\xff"]), FREE)(b"\xff") for name in ("sqlite", "postgres", "mysql")],
                         ["x'ff'", "decode('ff', 'hex')", "x'ff'"])

    def test_names(self):
        for dialect in DIALECTS.values():
            self.assertEqual(dialect.own_names(["a", "A", "", "x\ny", "a_2", "a"], "column"), ["a", "A_3", "column3", "x_y", "a_2", "a_4"])
        self.assertEqual(DIALECTS["mysql"].own_names(["e", "é", "a\\", "x ", "\U0001f600"], "column"), ["e", "é_2", "a_", "x", "_"])
        self.assertEqual(DIALECTS["postgres"].own_names(["é" * 40, "é" * 41], "column"), ["é" * 31, "é" * 30 + "_2"])
        self.assertEqual(DIALECTS["sqlite"].own_names(["sqlite_x", "pg_class"], "table"), ["table_sqlite_x", "pg_class"])
        self.assertEqual(DIALECTS["postgres"].own_names(["sqlite_x", "pg_class"], "table"), ["sqlite_x", "table_pg_class"])


if __name__ == "__main__":
    unittest.main()
