"""A table in a database, as profile_table.py needs it: its texts, its rows, and which groups of rows break a dependency.

Statements are plain SQL but for what a dialect says. Values are compared as the engine compares them, the empty text as NULL;
cells are the texts that the driver gives.
"""
from collections import Counter, namedtuple

from table_cells import (IDENTITY, MOST_COLUMNS, Refused, Unsuitable, alike, changing, fields_of, likeness, note, shown, text_of, unlike)
from table_engine import MARK

MOST_SETS = 8  # of one statement: their groups share the engine's memory
MOST_GROUPED = 31  # columns that GROUPING takes

# Rows that agree on a left side: their values there, how many rows, and which targets they break, with two values of each.
Group = namedtuple("Group", "values size breaks")


class Table:
    """The rows that a table or a query gives, as the engine sees them."""

    groups = 64  # broken groups of rows that one statement gives
    probed = 200  # rows that are looked at first

    def __init__(self, engine, args, name):
        self.engine, self.name = engine, args.name or name or "query"
        self.schema, self.own_name, self.source = self.source_of(args, name)
        there = engine.names_of(f"SELECT * FROM {self.source} WHERE 1 = 0")
        self.names, texts = fields_of(args.columns) or there, fields_of(args.text)
        for column in self.names + texts:
            if column not in there and len(args.table) < 2:
                raise Unsuitable(f"no column {shown(column)}; there are {', '.join(map(shown, there))}")
        if len(set(self.names)) < len(self.names):
            raise Unsuitable("two columns have the same name: a query can name them apart (--query)")
        if len(self.names) > MOST_COLUMNS:
            raise Unsuitable(f"{len(self.names)} columns; a relation has {MOST_COLUMNS} at most: choose some (--columns)")
        dialect = engine.dialect
        self.cells = [dialect.as_text(engine.quoted(n)) if n in texts else engine.quoted(n) for n in self.names]
        self.is_text = [n in texts for n in self.names]
        self.texts = {}
        self.probe()

    def source_of(self, args, name):
        """The schema and the table where they are known, and how statements name the table or the query. A name with a dot is that of a
        table, where there is one, or has its schema."""
        quoted = self.engine.quoted
        if args.query is not None:
            return None, None, f"({args.query.strip().rstrip(';')}) AS source"
        if args.schema is not None:
            return args.schema, name, f"{quoted(args.schema)}.{quoted(name)}"
        if "." not in name or self.engine.takes(f"SELECT * FROM {quoted(name)} WHERE 1 = 0"):
            return None, name, quoted(name)
        parts = name.split(".")
        return (parts[0], parts[1], ".".join(map(quoted, parts))) if len(parts) == 2 else (None, None, ".".join(map(quoted, parts)))

    # ------------------------------------------------------------ what it holds

    def probe(self):
        """Finds out by the first rows and by statements on no row what the engine takes. Some engines end a transaction where they refuse."""
        engine, dialect = self.engine, self.engine.dialect
        for c, name in enumerate(self.names):
            if not engine.takes(f"SELECT MIN({self.cells[c]}) FROM {self.source} WHERE 1 = 0"):
                note(f"column {shown(name)} holds values without an order: they are compared by their texts")
                self.cells[c], self.is_text[c] = dialect.as_text(self.cells[c]), True
        self.may_be_empty = [engine.takes(f"SELECT 1 FROM {self.source} WHERE {c} = '' AND 1 = 0") for c in self.cells]
        self.has_random = engine.takes(f"SELECT 1 FROM {self.source} WHERE {dialect.random} < 0.5 AND 1 = 0")
        two = f"SELECT {self.cells[0]}, COUNT(*) FROM {self.source} WHERE 1 = 0 GROUP BY {self.cells[0]}"
        self.has_row_in = engine.takes(f"SELECT 1 FROM {self.source} WHERE ({self.cells[0]}, 1) IN ({two}) AND 1 = 0")
        rows = list(self.all_rows(f" LIMIT {self.probed}"))
        for row in rows:
            self.cells_of(row)
        self.exact = list(self.cells)
        if not engine.is_sqlite:
            for c, cell in enumerate(self.cells):
                if any(isinstance(row[c], str) for row in rows) and engine.takes(f"SELECT MIN({dialect.exact(cell)}) FROM {self.source} WHERE 1 = 0"):
                    self.exact[c] = dialect.exact(cell)
            self.look_for_folding(rows)
        self.unique, self.is_foreign = self.unique_columns(), self.is_kept_elsewhere()

    def unique_columns(self):
        """The column sets that the catalogue says no two rows agree on, NULL apart."""
        schema, asked = self.schema, self.engine.dialect.unique
        if self.own_name is None or asked("", "")[0] is None:
            return []
        try:
            statement, values = asked(schema or self.engine.run(self.engine.dialect.current_schema)[0][0], self.own_name)
            found = {}
            for index, column in self.engine.run(statement, values):
                found.setdefault(index, []).append(column)
        except Refused:
            self.engine.end_transaction()
            return []
        return [{self.names.index(n) for n in names} for names in found.values() if set(names) <= set(self.names)]

    def is_kept_elsewhere(self):
        dialect = self.engine.dialect
        if dialect.foreign is None:
            return False
        if self.own_name is None:
            return True
        schema = self.schema or self.engine.run(dialect.current_schema)[0][0]
        return bool(self.engine.run(dialect.foreign, (schema, self.own_name))[0][0])

    def look(self):
        """One pass over the table: its rows, and what each column holds."""
        engine, wanted = self.engine, ["COUNT(*)"]
        for cell, empty in zip(self.cells, self.may_be_empty):
            wanted.append(f"COUNT({cell})")
            wanted.append(f"SUM(CASE WHEN {cell if engine.is_sqlite else engine.dialect.as_text(cell)} = '' THEN 1 ELSE 0 END)" if empty else "0")
            kind = f"NULLIF(typeof({cell}), 'null')"
            wanted += [f"MIN({kind})", f"MAX({kind})"] if engine.is_sqlite else ["''", "''"]
        row = self.run(f"SELECT {', '.join(wanted)} FROM {self.source}")[0]
        self.rows = row[0]
        self.filled, self.empty, self.has_null, self.kinds = [], [], [], []
        for c, (filled, empty, first, last) in enumerate(zip(*[iter(row[1:])] * 4)):
            self.learn_kind(c, first, last)
            self.empty.append(bool(empty))
            self.filled.append(filled - (empty or 0))
            self.has_null.append(bool(empty) or filled < self.rows)
        # The empty text is the same cell as NULL. Where a column holds no such text, its values are compared as they are.
        self.values = [f"NULLIF({cell}, '')" if empty else cell for cell, empty in zip(self.exact, self.empty)]
        self.unique = [mask_of(u) for u in self.unique if not any(self.has_null[c] or self.is_text[c] for c in u)]

    def learn_kind(self, c, first, last):
        """What sqlite says of the kinds of values in a column."""
        name = self.names[c]
        if "blob" in (first, last):
            raise Unsuitable(f"column {shown(name)} holds bytes, which has no text: leave it out (--columns), or compare texts (--text)")
        if first != last:
            note(f"column {shown(name)} holds values of different kinds ({first}, {last}): they are compared by their texts")
            self.cells[c], self.is_text[c] = self.engine.dialect.as_text(self.cells[c]), True
        self.kinds.append(first if first == last else "text")
        if self.engine.is_sqlite:
            self.exact[c] = self.engine.dialect.exact(self.cells[c]) if self.kinds[c] == "text" else self.cells[c]

    def run(self, statement, values=(), scans=1):
        """The rows of a statement that reads the whole table so many times."""
        self.engine.scans += scans
        return self.engine.run(statement, values)

    def all_rows(self, rest="", values=(), streaming=False):
        """Rows, one by one, as the engine's values."""
        return self.engine.each(self.rows_statement(rest), values, streaming=streaming)

    def rows_statement(self, rest):
        return f"SELECT {', '.join(self.cells)} FROM {self.source}{rest}"

    def cells_of(self, row):
        """A row as cells. Equal cells are kept once."""
        return tuple(self.texts.setdefault(text, text) for text in map(text_of, row, self.names))

    def some_rows(self, number):
        """About so many rows: random ones where the engine can draw them, else the first."""
        if self.has_random:
            share = f"{min(1.0, 1.05 * number / self.rows):.9f}"
            rows = self.run(self.rows_statement(f" WHERE {self.engine.dialect.random} < {share} LIMIT {min(2 * number, 1_000_000)}"))
            if rows:
                return rows
        note("the sample begins with the first rows, since random ones were not drawn")
        return list(self.all_rows(f" LIMIT {number}"))

    def learn(self, rows):
        """What some rows tell: how many values a column has, one that is not NULL, and what its values are like."""
        columns = [[row[c] for row in rows] for c in range(len(self.names))]
        self.telling = [len(set(column)) for column in columns]
        self.likenesses = [next(iter({likeness(v) for v in column if v is not None}), "text") for column in columns]
        self.filler = [next((v for v in column if v is not None and v != ""), None) for column in columns]
        lacking = [c for c, filler in enumerate(self.filler) if filler is None and self.filled[c]]
        if lacking:
            found = self.run(f"SELECT {', '.join(f'MIN({self.values[c]})' for c in lacking)} FROM {self.source}")[0]
            for c, value in zip(lacking, found):
                self.filler[c], self.likenesses[c] = value, likeness(value)

    def look_for_folding(self, rows):
        """Whether the engine takes texts for equal that differ in upper and lower case, or in spaces at the end; by the first rows that hold
        such a text."""
        for c, cell in enumerate(self.exact):
            texts = {row[c] for row in rows if isinstance(row[c], str)}
            for other in (str.swapcase, lambda text: text if text.endswith(" ") else text + " "):
                text = min((text for text in texts if text and other(text) != text), default=None)
                if text is None or not self.engine.takes(f"SELECT 1 FROM {self.source} WHERE {cell} = {MARK} AND 1 = 0", (other(text),)):
                    continue
                one = f"SELECT {cell} AS v FROM {self.source} WHERE {cell} = {MARK} LIMIT 1"  # it is among the first rows
                if self.engine.run(f"SELECT 1 FROM ({one}) AS one WHERE v = {MARK}", (text, other(text))):
                    raise unlike(self.names[c], text, other(text), "compare texts (--text), or give the column another collation in a query (--query)")

    # ------------------------------------------------------------ groups, counted

    def keyed(self, c):
        """Expressions without NULL that tell the values of a column, and their parameters. NULL is no value that could be looked up, so
        an expression of its own tells it."""
        value = self.values[c]
        if not self.has_null[c]:
            return [value], []
        flag = f"CASE WHEN {value} IS NULL THEN 1 ELSE 0 END"
        if self.filler[c] is None:
            return [flag], []
        mark, filler = self.engine.parameter(self.filler[c])
        return [flag, self.engine.dialect.filled(value, mark)], [filler]

    def counts_of_groups(self, sets):
        """How many different rows the table has on each of these column sets."""
        dialect, out = self.engine.dialect, {}
        for some in self.shares(sets):
            if dialect.has_grouping_sets and not is_wide(some):
                out.update(self.counted_by_sets(some))
            elif dialect.count_distinct:
                out.update(zip(some, self.counted_at_once(some)))
            else:
                counts = [f"(SELECT COUNT(*) FROM (SELECT 1 AS one FROM {self.source} GROUP BY {self.listed(s)}) AS g{k})" for k, s in enumerate(some)]
                out.update(zip(some, self.run(f"SELECT {', '.join(counts)}", (), len(some))[0]))
        return out

    def counted_at_once(self, sets):
        """One pass with an aggregate a set."""
        wanted, values = [], []
        for columns in sets:
            keys = [self.keyed(c) for c in columns]
            wanted.append(self.engine.dialect.count_distinct.format(", ".join(e for es, _ in keys for e in es)))
            values += [v for _, vs in keys for v in vs]
        return self.run(f"SELECT {', '.join(wanted)} FROM {self.source}", values)[0]

    def counted_by_sets(self, sets):
        used, which = marks_of_sets(sets)
        inner = (f"SELECT GROUPING({names('v', used)}) AS which FROM (SELECT {', '.join(f'{self.values[c]} AS v{c}' for c in used)} FROM {self.source}) "
                 f"AS s GROUP BY GROUPING SETS ({', '.join('(' + names('v', s) + ')' for s in sets)})")
        found = dict(self.run(f"SELECT which, COUNT(*) FROM ({inner}) AS g GROUP BY which"))
        return {s: found[which[s]] for s in sets}

    def shares(self, sets):
        """The column sets, parted into lists that one statement takes."""
        share, used = [], set()
        for columns in sets:
            if share and (len(share) == MOST_SETS or is_wide([used, columns])):
                yield share
                share, used = [], set()
            share.append(columns)
            used |= set(columns)
        if share:
            yield share

    def listed(self, columns):
        """The columns that tell most come first: an engine that sorts its groups seldom looks at the others."""
        return ", ".join(self.values[c] for c in sorted(columns, key=lambda c: -self.telling[c]))

    # ------------------------------------------------------------ rows that agree with others

    def repeated(self, parts, limit):
        """The rows that agree with another row on one of these column sets, as cells: at most `limit` of them. A list a statement."""
        asked = []
        for some in self.shares(parts):
            if self.engine.dialect.has_grouping_sets and not is_wide(some):
                asked += [(self.repeated_by_sets(share, limit), share) for share in spread(some, len(self.engine.connections))]
            else:
                asked += [(self.repeated_alone(part, limit), (part,)) for part in some]
        self.engine.scans += 2 * len(asked)
        found = self.engine.together([each for each, _ in asked])
        return [(share, [self.cells_of(row) for row in rows]) for (_, share), rows in zip(asked, found)]

    def repeated_by_sets(self, parts, limit):
        """One pass finds the groups of all sets, and one their rows."""
        used = sorted(set().union(*parts))
        keys, values, inner = {}, [], []
        for c in used:
            expressions, own = self.keyed(c)
            keys[c] = [f"k{c}_{n}" for n in range(len(expressions))]
            inner += [f"{e} AS {k}" for e, k in zip(expressions, keys[c])]
            values += own
        flat = [k for c in used for k in keys[c]]
        sets = [tuple(k for c in part for k in keys[c]) for part in parts]
        _, which = marks_of_sets(sets, flat)
        source = f"(SELECT {', '.join(inner)} FROM {self.source}) AS s"
        groups = (f"SELECT GROUPING({', '.join(flat)}) AS which, {', '.join(flat)} FROM {source} "
                  f"GROUP BY GROUPING SETS ({', '.join('(' + ', '.join(s) + ')' for s in sets)}) HAVING COUNT(*) > 1 "
                  f"LIMIT {limit * len(parts)}")  # which is reached by too many rows alone
        tests, more = [], []
        for part, s in zip(parts, sets):
            expressions = []
            for c in part:
                mine, own = self.keyed(c)
                expressions += mine
                more += own
            place = f"({', '.join(expressions)})" if len(expressions) > 1 else expressions[0]
            tests.append(f"{place} IN (SELECT {', '.join(s)} FROM repeated WHERE which = {which[s]})")
        rows = self.rows_statement(f" WHERE {' OR '.join(tests)} LIMIT {limit}")
        return f"WITH repeated AS MATERIALIZED ({groups}) {rows}", values + more

    def repeated_alone(self, part, limit):
        mine, values = [], []
        for c in part:
            expressions, own = self.keyed(c)
            mine += expressions
            values += own
        own = [f"repeated_{k}" for k in range(len(mine))]
        inner = self.grouped(part, [f"{value} AS {name}" for value, name in zip(mine, own)])
        inner = f"({inner} HAVING COUNT(*) > 1 LIMIT {limit}) AS repeated"
        if self.has_row_in:
            place = f"({', '.join(mine)})" if len(mine) > 1 else mine[0]
            rest = f" WHERE {place} IN (SELECT * FROM {inner})"
        else:
            tests = " AND ".join(f"{value} = {name}" for value, name in zip(mine, own))
            rest = f" JOIN {inner} ON {tests}"
        return self.rows_statement(f"{rest} LIMIT {limit}"), values + values

    # ------------------------------------------------------------ groups that break a dependency

    def broken_keys(self, left):
        """Some groups of two rows or more that agree on these columns: their values, and how many rows."""
        inner = self.grouped(left, [f"{self.values[c]} AS x{c}" for c in left] + ["COUNT(*) AS size"])
        found = self.run(f"SELECT * FROM ({inner}) AS found WHERE size > 1 LIMIT {self.groups}")
        return [Group(row[:-1], row[-1], {IDENTITY: None}) for row in found]

    def broken_dependencies(self, left, targets):
        """Some groups of rows that agree on `left` and not on all targets: their values, how many rows, and for each target
        that they break two of its values."""
        wanted, flags = [f"{self.values[c]} AS x{c}" for c in left] + ["COUNT(*) AS size"], []
        for a in targets:
            low, high, filled, breaks = self.spread(a)
            wanted += [f"{low} AS low{a}", f"{high} AS high{a}", f"{filled} AS filled{a}"]
            wanted.append(f"CASE WHEN COUNT(*) > 1 AND ({breaks}) THEN 1 ELSE 0 END AS flag{a}")
            flags.append(f"flag{a}")
        inner, out = self.grouped(left, wanted), []
        for row in self.run(f"SELECT * FROM ({inner}) AS found WHERE size > 1 AND {' + '.join(flags)} > 0 LIMIT {self.groups}"):
            size, breaks = row[len(left)], {}
            for a, (low, high, filled, flag) in zip(targets, zip(*[iter(row[len(left) + 1:])] * 4)):
                if flag:
                    breaks[a] = (low, None if filled < size else high)
            out.append(Group(row[:len(left)], size, breaks))
        return out

    def spread(self, column):
        """Of a group of rows: the least and the greatest value of a column, how many are not NULL, and whether they differ."""
        low, high, filled = (f"{function}({self.values[column]})" for function in ("MIN", "MAX", "COUNT"))
        if not self.has_null[column]:
            return low, high, "COUNT(*)", f"{low} <> {high}"
        return low, high, filled, f"{low} <> {high} OR ({filled} > 0 AND {filled} < COUNT(*))"

    def grouped(self, left, wanted):
        groups = f" GROUP BY {self.listed(left)}" if left else ""
        return f"SELECT {', '.join(wanted)} FROM {self.source}{groups}"

    def parts_of(self, columns, values):
        """The cells of some values."""
        return tuple(text_of(value, self.names[c]) for c, value in zip(columns, values))

    def rows_of_groups(self, left, groups):
        """All rows of each of these groups. They come from one statement, so they are different rows even where their cells are
        equal."""
        found, part = {self.parts_of(left, group.values): [] for group in groups}, parts_by(left)
        if len(found) < len(groups):
            raise alike("of the columns " + ", ".join(shown(self.names[c]) for c in left))
        for row in self.fetched(left, [group.values for group in groups], 1 + sum(group.size for group in groups)):
            if part(row) not in found:
                raise differing(self, left, part(row), found)
            found[part(row)].append(row)
        out = [found[self.parts_of(left, group.values)] for group in groups]
        if any(len(rows) != group.size for rows, group in zip(out, groups)):
            raise changing()
        return out

    def two_rows(self, left, group, target):
        """Two rows of a group that break the target."""
        if target == IDENTITY:
            rows = list(self.fetched(left, [group.values], 2))
        else:
            rows = [row for end in group.breaks[target] for row in self.fetched(left + (target,), [tuple(group.values) + (end,)], 1)]
        if len(rows) != 2:
            raise changing()
        return rows

    def fetched(self, columns, searched, limit):
        """Rows that have in these columns one of these lists of values, as cells."""
        parts, values = [self.parts_of(columns, each) for each in searched], []

        def mark_of(value):
            mark, value = self.engine.parameter(value)
            values.append(value)
            return mark

        def is_equal(column, part, value):
            return f"{self.values[column]} IS NULL" if part == "" else f"{self.values[column]} = {mark_of(value)}"

        tests = []
        if len(searched) > 2:
            # First a list of the values of the column that tells most: it spares most rows the other tests.
            at = max(range(len(columns)), key=lambda k: self.telling[columns[k]])
            own = {cells[at]: each[at] for cells, each in zip(parts, searched)}
            either = [f"{self.values[columns[at]]} IS NULL"] if "" in own else []
            marks = [mark_of(value) for cell, value in own.items() if cell != ""]
            either += [f"{self.values[columns[at]]} IN ({', '.join(marks)})"] if marks else []
            tests.append(f"({' OR '.join(either)})")
        either = [" AND ".join(map(is_equal, columns, cells, each)) or "1 = 1" for cells, each in zip(parts, searched)]
        tests.append(f"({' OR '.join(f'({test})' for test in either)})")
        return map(self.cells_of, self.run(self.rows_statement(f" WHERE {' AND '.join(tests)} LIMIT {limit}"), values))

    def rows_with(self, column, texts, limit):
        """Rows whose text in a column is one of these, as cells."""
        marked = [self.engine.parameter(text) for text in texts]
        cell = self.exact[column] if self.is_text[column] or self.likenesses[column] == "text" and self.may_be_empty[column] else None
        cell = cell or self.engine.dialect.as_text(self.cells[column])
        rest = f" WHERE {cell} IN ({', '.join(m for m, _ in marked)}) LIMIT {limit}"
        return [self.cells_of(row) for row in self.run(self.rows_statement(rest), [v for _, v in marked])]


def mask_of(columns):
    return sum(1 << c for c in columns)


def names(letter, columns):
    return ", ".join(f"{letter}{c}" for c in columns)


def is_wide(sets):
    """Whether these sets have more columns than GROUPING takes, where a column may need two expressions."""
    return 2 * len(set().union(*sets)) > MOST_GROUPED


def marks_of_sets(sets, used=None):
    """The columns that sets of them use, and for each set the number that GROUPING gives for it: a bit for each column that is not in it,
    that of the last column being the lowest."""
    used = used or sorted(set().union(*sets))
    return used, {s: sum(1 << len(used) - 1 - k for k, c in enumerate(used) if c not in s) for s in sets}


def spread(some, number):
    """Lists of nearly equal length, at most so many."""
    number = max(1, min(number, len(some)))
    return [some[k::number] for k in range(number)]


def parts_by(left):
    """The cells of a row in some columns."""
    return lambda row: tuple(row[c] for c in left)


def differing(table, left, parts, others):
    """The engine takes for equal what the cells tell apart: the column where a row misses the group that it comes nearest to."""
    near = max(others, key=lambda other: sum(x == y for x, y in zip(parts, other)))
    c, x, y = next((c, x, y) for c, x, y in zip(left, parts, near) if x != y)
    return unlike(table.names[c], x, y)


def alone(table, part, rows):
    """Why a row that agrees with another one, says the engine, agrees with none by its cells: the engine takes for equal what they tell
    apart."""
    cells_by, folded = parts_by(part), {}
    for cells in Counter(map(cells_by, rows)):
        other = folded.setdefault(tuple(cell.strip().casefold() for cell in cells), cells)
        for c, x, y in zip(part, other, cells):
            if x != y:
                return unlike(table.names[c], x, y)
    among = ", ".join(shown(table.names[c]) for c in part)
    return Unsuitable(f"columns {among}: the engine takes values for equal whose texts differ, or the table changes: compare texts (--text)")
