"""What there is to show of a report: its relations with names in place of numbers, what holds in them grouped and ranked, and how tables
join. Where the files that a report names are at hand, each thing has a score of how likely it is meant; where they are not, a remark
says why, and fewer columns come first.
"""
from dataclasses import dataclass, field, replace
from collections import Counter

import score as scores
from dialects import Dialect
from report import Unreadable, references_of, shown, tables_of
from schema_plan import Plan, Wishes
from score import Score, dependency_scores, identifies, likeness, spread_of

LINE = Wishes.line  # the score from which on something is taken for meant
UNSCORED = 0  # the points of what has no score, where points are compared


@dataclass
class Key:
    columns: tuple  # places in the relation or table, from 0
    score: Score = None


@dataclass
class Dependency:
    """Some columns, and those that they determine; all with a score at the line or above it, or all below it."""
    left: tuple
    right: tuple
    by_key: bool  # the left columns are a key, so that it says nothing more
    score: Score = None  # the least one


@dataclass
class Join:
    """Columns whose values are among those of others, which are a key or not."""
    table: int
    columns: tuple
    other: int
    others: tuple
    into_key: bool
    score: Score = None


@dataclass
class Shown:
    """A relation, or a table of a split."""
    name: str
    file: str
    columns: list  # names, each once
    rows: int  # -1 where that is not known
    keys: list = field(default_factory=list)
    dependencies: list = field(default_factory=list)
    kinds: list = None  # of each column, where the file was read
    values: list = None  # how many different ones each column has, but for the empty one, where the file was read


@dataclass
class View:
    relations: list
    joins: list
    tables: list  # of a split
    references: list  # of the tables of a split
    remarks: list


def points_of(one):
    return one.score.points if one.score else UNSCORED


def is_meant(one):
    """Whether something is taken for meant; without a score it may be."""
    return one.score is None or one.score.points >= LINE


# ---------------------------------------------------------------- relations


def view_of(report, prefix=None, with_files=True):
    """What there is to show. `prefix` is the word of `normalize --out`, by which the files of tables are found."""
    remarks = [f"{count} line{'' if count == 1 else 's'} of `{shown(kind, 30)}` passed over" for kind, count in sorted(report.passed_over.items())]
    alone = replace(report, tables=[], references=[])
    plan = planned(alone, "", remarks) if with_files else None
    relations = [relation_of(report.relations[i], drawn, plan, i) for i, drawn in enumerate(tables_of(alone, ""))]
    joins = joins_of(alone, relations, plan)
    tables, references = split_of(report, prefix, with_files, remarks) if report.tables else ([], [])
    return View(relations, joins, tables, references, remarks)


def planned(report, prefix, remarks):
    """The plan of a report, which reads the files again; None with a remark where that can't be."""
    try:
        return Plan(report, prefix, Dialect(), Wishes())
    except Unreadable as why:
        remarks.append(f"no scores: {why}")
        return None


def relation_of(relation, drawn, plan, i):
    out = Shown(drawn.name, drawn.file, drawn.columns, relation.rows)
    if plan:
        facts, values = plan.rows[i].facts, plan.rows[i].values
        out.kinds = [facts[c].kind + (", some empty" if facts[c].empty and facts[c].size else "") for c in range(relation.width)]
        out.values = [len(values[c] - {b""}) for c in range(relation.width)]
        out.keys = [Key(key.columns, key.score) for key in plan.keys[i]]
    else:
        out.keys = sorted((Key(columns) for columns in drawn.keys), key=lambda key: rank_of_key(key, drawn))
    spreads = spreads_of(plan.rows[i], relation.width) if plan and relation.dependencies else None
    out.dependencies = dependencies_of(relation, spreads)
    return out


def rank_of_key(key, drawn):
    """Fewer columns first, then those with a name of a key."""
    return len(key.columns), not any(identifies(drawn.columns[c], drawn.name) for c in key.columns), key.columns


def spreads_of(rows, width):
    counts = [Counter() for _ in range(width)]
    for chunk in rows.chunks():
        for counter, column in zip(counts, zip(*chunk)):
            counter.update(column)
    return [spread_of(counter.values(), rows.count) for counter in counts]


def dependencies_of(relation, spreads):
    """The dependencies grouped by their left columns, the best first: those with a score by it, else fewer left columns first."""
    keys, lefts = set(relation.keys), {}
    for left, right in relation.dependencies:
        lefts.setdefault(left, []).append(right)
    out = []
    for left, rights in lefts.items():
        by_key, places = left in keys, tuple(c - 1 for c in left)
        if spreads is None or by_key:
            out.append(Dependency(places, tuple(c - 1 for c in rights), by_key))
            continue
        parts = {}
        found = dependency_scores([spreads[c] for c in places], [spreads[right - 1] for right in rights], relation.rows, relation.width)
        for one, right in zip(found, rights):
            parts.setdefault(one.points >= LINE, []).append((one, right - 1))
        for found in parts.values():
            out.append(Dependency(places, tuple(right for _, right in found), False, min((one for one, _ in found), key=lambda one: one.points)))
    return sorted(out, key=lambda d: (d.by_key, -points_of(d), len(d.left), -len(d.right), d.left))


# ---------------------------------------------------------------- joins


def joins_of(report, relations, plan):
    """The inclusions, those in a key first and the best of them first. Names say which are likely where there is no score."""
    scored = {(r.table, r.columns, r.other, r.key): r.score for r in plan.references} if plan else {}
    out, into = [], set()
    for (i, columns), (j, key) in references_of(report):
        into.add((i, frozenset(zip(columns, key)), j))
        out.append(Join(i, columns, j, key, True, scored.get((i, columns, j, key))))
    for (i, columns), (j, others) in report.inclusions:
        mine, its = tuple(c - 1 for c in columns), tuple(c - 1 for c in others)
        if (i - 1, frozenset(zip(mine, its)), j - 1) not in into:
            out.append(Join(i - 1, mine, j - 1, its, False))
    return sorted(out, key=lambda join: (not join.into_key, -points_of(join), -likeness_of(join, relations)))


def likeness_of(join, relations):
    """How alike the names of the columns of a join are."""
    table, other = relations[join.table], relations[join.other]
    return min(likeness(table.columns[a], other.columns[b], other.name, join.table == join.other) for a, b in zip(join.columns, join.others))


def split_of(report, prefix, with_files, remarks):
    """The tables of a split and what refers to what among them. Without the word of --out their files are not known."""
    plan = planned(report, prefix, remarks) if with_files and prefix is not None else None
    if with_files and prefix is None:
        remarks.append("--prefix, the word that --out had, says where the tables' rows are")
    drawn = tables_of(report, prefix or "")
    tables = [Shown(one.name, one.file if prefix is not None else "", one.columns, one.rows, [Key(columns) for columns in one.keys]) for one in drawn]
    if plan:
        for table, rows, keys in zip(tables, plan.rows, plan.keys):
            table.rows, table.keys = rows.count, [Key(key.columns, key.score) for key in keys]
    return tables, [Join(i, columns, j, key, True, scores.MADE if plan else None) for (i, columns), (j, key) in references_of(report)]


def drawn_joins(view):
    """What a picture shows: the tables of a split with their references, else the relations with the joins that are taken for meant. Of
    the same columns only the best one is drawn, and of two tables whose keys are in each other one."""
    if view.tables:
        return view.tables, view.references
    out, taken, pairs = [], set(), set()
    for join in view.joins:
        here, there = (join.table, join.columns), (join.other, join.others)
        meant = join.score.points >= LINE if join.score else likeness_of(join, view.relations) >= scores.IN_PART
        if join.into_key and meant and here not in taken and (there, here) not in pairs:
            taken.add(here)
            pairs.add((here, there))
            out.append(join)
    return view.relations, out


# ---------------------------------------------------------------- choice


def chosen(view, columns, tables):
    """The view of some relations (all, where none is named) and of what has all these columns in it."""
    if tables:
        view = only_tables(view, tables)
    for name in columns:
        view = only_column(view, name)
    return view


def names_of(view):
    return {name for one in view.relations + view.tables for name in one.columns}


def only_tables(view, tables):
    kept = [i for i, one in enumerate(view.relations) if {one.name, one.file} & set(tables)]
    parts = [i for i, one in enumerate(view.tables) if {one.name, one.file} & set(tables)]
    return View(
        [view.relations[i] for i in kept] if kept else [] if parts else view.relations, moved(view.joins, kept),
        [view.tables[i] for i in parts], moved(view.references, parts), view.remarks + other_ends(view, kept))


def moved(joins, kept):
    """The joins between the tables that stay, with their new places."""
    return [replace(join, table=kept.index(join.table), other=kept.index(join.other)) for join in joins if join.table in kept and join.other in kept]


def other_ends(view, kept):
    gone = sum((join.table in kept) != (join.other in kept) for join in view.joins)
    return [f"{gone} join{'s' if gone > 1 else ''} with other tables left out"] if gone else []


def only_column(view, name):
    """What has a column of this name in it."""
    def has(one, columns):
        return any(one.columns[c] == name for c in columns)

    def part(one):
        return replace(one, keys=[key for key in one.keys if has(one, key.columns)],
                       dependencies=[d for d in one.dependencies if has(one, d.left + d.right)])

    def kept(joins, ones):
        return [j for j in joins if has(ones[j.table], j.columns) or has(ones[j.other], j.others)]

    return View([part(one) for one in view.relations], kept(view.joins, view.relations),
                [part(one) for one in view.tables], kept(view.references, view.tables), view.remarks)
