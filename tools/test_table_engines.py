#!/usr/bin/env python3
"""Tests of profile_table.py in engines that are installed: for three relations, and for a schema of them, its report is that of
`depprof profile` on the same rows. What is not installed is skipped with a line.

  test_table_engines.py PROGRAM
"""
import contextlib
import datetime
import decimal
import io
import os
import random
import subprocess
import sys
import tempfile
import time
import uuid
from unittest import mock

TOOLS = os.path.dirname(os.path.abspath(__file__))
sys.path.insert(0, TOOLS)
import engines_for_tables  # noqa: E402
import profile_table  # noqa: E402
import table_search  # noqa: E402
from table_cells import encoded, header, record, text_of  # noqa: E402

PROGRAM = os.path.abspath(sys.argv[1]) if len(sys.argv) > 1 else ""


# ---------------------------------------------------------------- relations


def keys_in_plenty():
    """Small numbers, of which many pairs and triples of columns are keys, and two that determine each other."""
    rng = random.Random(1)
    rows = [(k, rng.randrange(60), rng.randrange(50), rng.randrange(70), rng.randrange(40), rng.randrange(9)) for k in range(400)]
    columns = [(name, "integer", False) for name in ("id", "b", "c", "d", "e", "f", "g")]
    return columns, [(*row, row[1] % 7) for row in rows]


def texts_and_nulls():
    """Texts with quotes, commas, ends of lines, spaces at the end, upper and lower case, accents, and NULL beside the empty text."""
    rng = random.Random(2)
    names = ["O'Hara", 'the "Blue"', "a,b", "two\nlines", "percent %s", "back\\slash", "straße", "Strasse", "é", "e", "E", "x", "x ", "x  "]
    rows = []
    for k in range(500):
        name = rng.choice(names)
        rows.append((k // 2, name, rng.choice([None, "", "note", "NOTE"]), names.index(name) // 3, rng.choice([None, 1, 2]), None))
    rows[77] = (38, "x", "note", 0, 2, None)  # breaks that a name has one number
    kinds = [("Order No", "integer", False), ('na"me', "text", False), ("it's", "text", True), ("100%", "integer", False), ("n", "integer", True),
             ("nothing", "text", True)]
    return kinds, rows


def types(kinds):
    """A column of each type that the engine has, and dependencies among them."""
    rng = random.Random(3)
    make = {
        "integer": lambda k: k % 60, "text": lambda k: f"T{k % 12}", "decimal": lambda k: decimal.Decimal(k % 30) / 4,
        "date": lambda k: datetime.date(2024, 2, 27) + datetime.timedelta(k % 20), "boolean": lambda k: k % 60 < 30,
        "timestamp": lambda k: datetime.datetime(2024, 2, 28, 22) + datetime.timedelta(hours=k % 15), "real": lambda k: (k % 10) / 8,
        "uuid": lambda k: uuid.UUID(int=k % 6),
    }
    mine = [kind for kind in make if kind in kinds]
    numbers = [rng.randrange(10_000) for _ in range(600)]
    rows = [tuple(make[kind](k) for kind in mine) + (n,) for n, k in enumerate(numbers)]
    if "decimal" in mine:
        at = mine.index("decimal")
        rows = [row[:at] + (row[at].quantize(decimal.Decimal("0.01")),) + row[at + 1:] for row in rows]
    return [(kind.upper(), kind, False) for kind in mine] + [("row", "integer", False)], rows


def many_columns():
    """More columns than GROUPING takes, of which each but the last two determines each."""
    rows = [tuple((k % 25 + c) % 25 for c in range(34)) + (k % 25 // 6, k) for k in range(120)]
    return [(f"c{c}", "integer", False) for c in range(36)], rows


# ---------------------------------------------------------------- runs


def wanted(folder, tables):
    """What `depprof profile` writes for files of these tables, given as (name, columns, rows)."""
    for name, columns, rows in tables:
        with open(os.path.join(folder, name), "wb") as file:
            names = [n for n, _, _ in columns]
            file.write(encoded(header(names)))
            file.writelines(encoded(record([text_of(v, n) for v, n in zip(row, names)])) for row in rows)
    return subprocess.run([PROGRAM, "profile", *(name for name, _, _ in tables)], cwd=folder, capture_output=True, check=True).stdout


def run_tool(*words):
    """The status, the report and the messages of a run in this process."""
    out, told = io.TextIOWrapper(io.BytesIO()), io.StringIO()
    with tempfile.TemporaryDirectory() as room, mock.patch.object(tempfile, "tempdir", room):
        with mock.patch.object(sys, "argv", ["profile_table.py", "--program", PROGRAM, *words]):
            with contextlib.redirect_stderr(told), contextlib.redirect_stdout(out):
                status = profile_table.main()
        left = os.listdir(room)
    return status, out.buffer.getvalue(), told.getvalue() + "".join(f"left behind: {name}\n" for name in left)


def try_engine(engine):
    """What differs, as lines."""
    flaws = []
    plenty, texts, typed = keys_in_plenty(), texts_and_nulls(), types(engine.kinds)
    if engine.schema == "default":
        texts = without_last(texts)
    tables = [("plenty", *plenty), ("Texts and NULLs", *texts), ("the.types", *typed)]
    for name, columns, rows in tables:
        engine.fill(name, columns, rows)

    if engine.has_index:
        engine.run(f"CREATE UNIQUE INDEX unique_id ON plenty ({engine.quoted('id')})")

    def compare(what, words, wanted_, few_rows=150_000, left_out=()):
        with mock.patch.object(table_search.Search, "few_rows", few_rows):
            status, report, told = run_tool(*engine.reached(), *words)
        knows = "1 unique by the catalogue" in told or not engine.has_index or "plenty" not in words
        knows = knows and all(f"{name} is left out: " in told for name in left_out)
        if (status, report) != (0, wanted_) or "left behind" in told or not knows:
            flaws.append(f"{engine.name}, {what}: status {status}\n{told}--- wanted\n{wanted_.decode()}--- got\n{report.decode()}")

    with tempfile.TemporaryDirectory() as folder:
        engine.fill("many columns", *many_columns())
        compare("many columns", ["--inclusions", "--sample", "20", "many columns"], wanted(folder, [("many columns", *many_columns())]), 1)
        engine.run(f"DROP TABLE {engine.quoted('many columns')}")
        for table in tables:
            right = wanted(folder, [table])
            for few_rows, *words in ((1, "--sample", "20"), (40, "--sample", "40"), (150_000, "--sample", "30", "--connections", "3"), (0,)):
                compare(f"{table[0]} {few_rows} {' '.join(words)}", ["--inclusions", *words, table[0]], right, few_rows)
        right = wanted(folder, sorted(tables))
        of_all = sorted(name for name, _, _ in tables)
        compare("several tables", [word for name in of_all for word in ("--table", name)] + ["--sample", "20"], right, 40)
        in_order = sorted(tables, key=lambda table: of_all.index(table[0]))
        left_out = engine.unsuitable()
        compare("a schema", ["--schema", engine.schema], wanted(folder, in_order), left_out=left_out)
        compare("a schema, sampled", ["--schema", engine.schema, "--sample", "30"], wanted(folder, in_order), 40)
    return flaws


def without_last(relation):
    """ClickHouse 18.16 takes no column without any value as a text."""
    columns, rows = relation
    return columns[:-1], [row[:-1] for row in rows]


def main():
    flaws = 0
    for engine, why in engines_for_tables.started():
        if engine is None:
            print(f"skipped: {why}")
            continue
        began = time.monotonic()
        try:
            found = try_engine(engine)
        finally:
            engine.end()
        for flaw in found:
            print(flaw)
        flaws += len(found)
        print(f"{engine.name}: {'as the files' if not found else f'{len(found)} differ'}, {time.monotonic() - began:.1f} s", flush=True)
    return 1 if flaws else 0


if __name__ == "__main__":
    sys.exit(main())
