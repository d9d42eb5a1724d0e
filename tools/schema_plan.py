"""What a schema declares: which keys, references and types the tables of a report get in an engine, and why not others."""
from collections import Counter
from dataclasses import dataclass

import column_types
from dialects import FREE, JOINED, KEYED
from report import references_of, tables_of
from score import MADE, Score, key_score, reference_score
from table_rows import Rows, use_of


@dataclass
class Key:
    columns: tuple  # places in the table
    score: Score
    flaw: str = ""  # why it is not declared


@dataclass
class Reference:
    table: int
    columns: tuple
    other: int
    key: tuple
    score: Score
    flaw: str = ""


@dataclass
class Wishes:
    """What the words of the command ask for."""
    line: int = 50  # the least score of what is declared
    keys: int = 5  # at most so many of a table


class Plan:
    """The tables, in the order of the report."""

    def __init__(self, report, prefix, dialect, wishes):
        self.dialect, self.wishes, self.is_split = dialect, wishes, bool(report.tables)
        self.tables = tables_of(report, prefix, dialect.own_names)
        self.rows = [Rows(table) for table in self.tables]
        times = Counter(name for table in self.tables for name in table.columns) if self.is_split else {}
        self.shared = [{c for c, name in enumerate(table.columns) if times and times[name] > 1} for table in self.tables]
        self.kept = self.kept_empty()
        self.own_facts = [self.facts_as_loaded(i) for i in range(len(self.tables))]
        self.keys = [self.ranked_keys(i) for i in range(len(self.tables))]
        self.references = self.ranked_references(references_of(report))
        self.choose()
        self.uses = [self.uses_of(i) for i in range(len(self.tables))]

    # -------------------------------------------------------- cells

    def kept_empty(self):
        """The columns of each table whose empty cells stay empty texts: those that tables of a split share, since they join by them,
        and NULL equals nothing in SQL. All others become NULL."""
        empty = {name for table, rows in zip(self.tables, self.rows) for name, facts in zip(table.columns, rows.facts) if facts.empty}
        return [{c for c in shared if table.columns[c] in empty} for table, shared in zip(self.tables, self.shared)]

    def facts_as_loaded(self, i):
        """The facts of a table's columns. An empty text is no number or date."""
        return [column_types.as_text(facts) if c in self.kept[i] else facts for c, facts in enumerate(self.rows[i].facts)]

    def may_be_null(self, i, c):
        return self.rows[i].facts[c].empty and c not in self.kept[i]

    def is_filled(self, i, c):
        """Whether a column has a value in each row, and there are rows."""
        return self.rows[i].count > 0 and not self.may_be_null(i, c)

    # -------------------------------------------------------- scores

    def ranked_keys(self, i):
        """The keys of a table, the best first. The one by which a split made it is the best."""
        table, rows, out = self.tables[i], self.rows[i], []
        for number, columns in enumerate(table.keys):
            if self.is_split and number == 0:
                out.append(Key(columns, MADE))
                continue
            facts, distinct = [rows.facts[c] for c in columns], [len(rows.values[c]) for c in columns]
            names = [table.columns[c] for c in columns]
            out.append(Key(columns, key_score(names, facts, distinct, rows.count, table.name, len(table.columns))))
        return sorted(out, key=lambda key: -key.score.points)

    def ranked_references(self, pairs):
        """The references, the best first."""
        scores = {(i, key.columns): key.score for i, keys in enumerate(self.keys) for key in keys}
        out = [Reference(i, columns, j, key, self.score_of_reference(i, columns, j, key, scores[j, key]))
               for (i, columns), (j, key) in pairs if key]
        return sorted(out, key=lambda reference: -reference.score.points)

    def score_of_reference(self, i, columns, j, key, score):
        table, other = self.tables[i], self.tables[j]
        use = use_of(self.rows[i], columns, self.rows[j], key)
        if self.is_split:
            return score
        facts = [self.rows[i].facts[c] for c in columns]
        return reference_score([table.columns[c] for c in columns], [other.columns[c] for c in key], other.name, i == j, facts, use, score)

    # -------------------------------------------------------- choice

    def choose(self):
        """Notes of each key and reference why it is not declared. Where two columns come to be of one type a key may become too long,
        so this begins anew until nothing does."""
        self.facts, dropped = self.own_facts, {}
        while True:
            self.choose_keys(dropped)
            self.choose_references(dropped)
            self.facts = self.unified_facts()
            found = {place: why for i in range(len(self.tables)) for place, why in self.flaws(i)}
            if not found:
                return
            dropped.update(found)

    def flaws(self, i):
        """What of the keys and references of a table the engine can't take, by their columns."""
        facts, columns = self.facts[i], set()
        for one in [key for key in self.keys[i] if not key.flaw] + self.declared_references(i):
            columns |= set(one.columns)
            taken, most = self.dialect.too_long([facts[c] for c in columns])
            why = self.dialect.key_flaw([facts[c] for c in one.columns]) or ("too long beside the others" if taken > most else None)
            if why:
                yield (i, one.columns), why
                return

    def choose_keys(self, dropped):
        for i, keys in enumerate(self.keys):
            declared = 0
            for key in keys:
                why = dropped.get((i, key.columns)) or self.dialect.key_flaw([self.facts[i][c] for c in key.columns])
                if key.score.points < self.wishes.line:
                    key.flaw = "below the line"
                elif declared == self.wishes.keys and not (self.is_split and key.score is MADE):
                    key.flaw = f"there are {declared} before it"
                else:
                    key.flaw = why or ""
                declared += not key.flaw

    def choose_references(self, dropped):
        declared = {(i, key.columns) for i, keys in enumerate(self.keys) for key in keys if not key.flaw}
        taken, pairs, times = set(), set(), Counter()
        for reference in self.references:
            here, there = (reference.table, reference.columns), (reference.other, reference.key)
            reference.flaw = dropped.get(here, "")
            if reference.flaw:
                continue
            if reference.score.points < self.wishes.line:
                reference.flaw = "below the line"
            elif there not in declared:
                reference.flaw = "the key is not declared"
            elif here in taken:
                reference.flaw = "these columns refer to a better one"
            elif (there, here) in pairs:
                reference.flaw = "the other way round is declared"
            elif times[reference.table] == self.dialect.most_references:
                reference.flaw = "too many references for the engine"
            else:
                taken.add(here)
                pairs.add((here, there))
                times[reference.table] += 1

    def declared_references(self, i=None):
        return [r for r in self.references if not r.flaw and i in (None, r.table)]

    def primary(self, i):
        """The key of a table that is its primary one: the best of those without NULL."""
        keys = [key for key in self.keys[i] if not key.flaw and key.columns and not any(self.may_be_null(i, c) for c in key.columns)]
        return keys[0] if keys else None

    def unified_facts(self):
        """The facts of all columns, where columns that refer to each other have those of all of them, and so one type."""
        groups = {(i, c): {(i, c)} for i, table in enumerate(self.tables) for c in range(len(table.columns))}
        for r in self.declared_references():
            for c, other in zip(r.columns, r.key):
                both = groups[r.table, c] | groups[r.other, other]
                groups.update(dict.fromkeys(both, both))
        return [[self.joined_facts(groups[i, c]) for c in range(len(table.columns))] for i, table in enumerate(self.tables)]

    def joined_facts(self, places):
        facts = column_types.Facts()
        for i, c in sorted(places):
            facts = column_types.merged(facts, self.own_facts[i][c])
        return facts

    def uses_of(self, i):
        """The use of each column of a table: whether it is in a key or a reference that is declared, or shared by tables of a split."""
        keyed = {c for key in self.keys[i] if not key.flaw for c in key.columns}
        keyed.update(c for r in self.declared_references() for where, cs in ((r.table, r.columns), (r.other, r.key)) if where == i for c in cs)
        return [KEYED if c in keyed else JOINED if c in self.shared[i] else FREE for c in range(len(self.tables[i].columns))]
