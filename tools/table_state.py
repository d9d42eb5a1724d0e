"""What is kept between runs: of each table the column sets that were asked, and rows that broke something."""
import json
import os
import tempfile

from table_cells import Refused, note, one_line

MOST_ROWS = 20_000  # of a table
VERSION = 1


class State:
    """A file of JSON. It is written anew whole, so that it is never a half."""

    def __init__(self, name):
        self.name, self.tables = name, {}
        if name is not None and os.path.exists(name):
            try:
                with open(name, encoding="utf-8") as file:
                    self.tables = checked(json.load(file))
            except OSError as error:
                raise Refused(f"{name}: {one_line(error)}")
            except (ValueError, TypeError, KeyError):
                raise Refused(f"{name} is no state of profile_table")

    def of(self, table):
        """The column sets and the rows that are kept of a table, where it still has these columns."""
        kept = self.tables.get(table.name)
        if kept is None or kept["columns"] != table.names:
            return [], []
        return [tuple(s) for s in kept["asked"]], [tuple(row) for row in kept["rows"]]

    def keep(self, sample):
        if self.name is None:
            return
        table = sample.table
        rows = [row for row in sample.evidence if row in sample.copies][-MOST_ROWS:]
        self.tables[table.name] = {"columns": table.names, "asked": sample.asked, "rows": rows}
        text = json.dumps({"version": VERSION, "tables": self.tables})
        handle, draft = tempfile.mkstemp(dir=os.path.dirname(os.path.abspath(self.name)), prefix=".profile_table_")
        try:
            with os.fdopen(handle, "w", encoding="ascii") as file:
                file.write(text)
            os.replace(draft, self.name)
        except OSError:
            os.unlink(draft)
            raise


def checked(found):
    """The tables of a state, where it is one."""
    if not isinstance(found, dict) or found.get("version") != VERSION or not isinstance(found.get("tables"), dict):
        raise ValueError
    for kept in found["tables"].values():
        width = len(kept["columns"])
        sets, rows = kept["asked"], kept["rows"]
        if not all(isinstance(n, str) for n in kept["columns"]) or not all(isinstance(c, int) and 0 <= c < width for s in sets for c in s):
            raise ValueError
        if not all(s and s == sorted(set(s)) for s in sets):
            raise ValueError
        if not all(len(row) == width and all(isinstance(cell, str) for cell in row) for row in rows):
            raise ValueError
    return found["tables"]


def begin_with(sample, asked, rows):
    """Takes rows of the table into the sample that are like the kept ones: those with the same text in the column that tells most. Only
    rows that the table has now come in, since the engine gives them."""
    table = sample.table
    if rows:
        column = max(range(len(table.names)), key=lambda c: len({row[c] for row in rows if row[c] != ""}))
        texts = list(dict.fromkeys(row[column] for row in rows if row[column] != ""))
        for at in range(0, len(texts), 1000):
            sample.add(table.rows_with(column, texts[at:at + 1000], 50_000))
        note(f"{table.name}: begins with {len(rows)} rows and {len(asked)} column sets of an earlier run")
        sample.evidence.update(dict.fromkeys(rows))
