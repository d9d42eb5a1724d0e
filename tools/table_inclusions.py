"""Inclusions among the columns of tables, by their texts: one statement gives which sets of columns share a text.

Each different text of a column counts once, with a bit for its column. A text's bits together say in which columns it is; column i is
included in column j where no text has the bit of i without that of j. Only columns of like types are compared.
"""
import time

from table_cells import note, seconds
from table_scan import MOST_GROUPED, marks_of_sets, names

BITS = 50  # of one number, so that it stays exact as a number of floating point too


def inclusions(tables):
    """All pairs of different columns where each text of the first is one of the second, as ((table, column), (table, column))."""
    began, places = time.monotonic(), [(t, c) for t, table in enumerate(tables) for c in range(len(table.names))]
    filled = [place for place in places if tables[place[0]].filled[place[1]]]
    found = []
    for likeness in sorted({likeness_of(tables, place) for place in filled}):
        alike = [place for place in filled if likeness_of(tables, place) == likeness]
        if len(alike) > 1:
            found += pairs_of(alike, masks(tables, alike))
    found += [(one, other) for one in places if one not in set(filled) for other in places if one != other]
    note(f"inclusions: {len(places)} columns, {len(found)} hold, {seconds(began)}")
    return sorted(found)


def likeness_of(tables, place):
    table, column = tables[place[0]], place[1]
    if table.engine.is_sqlite and not table.is_text[column]:
        return "real" if table.kinds[column] == "real" else "text"
    return "text" if table.is_text[column] else table.likenesses[column]


def pairs_of(places, found):
    """The pairs of places, of which each set of bits that has the first has the second."""
    out = []
    for k, one in enumerate(places):
        common = (1 << len(places)) - 1
        for mask in found:
            if mask >> k & 1:
                common &= mask
        out += [(one, other) for n, other in enumerate(places) if n != k and common >> n & 1]
    return out


def masks(tables, places):
    """The sets of these places that share a text, each as bits."""
    words = range((len(places) + BITS - 1) // BITS)
    engine, parts = tables[0].engine, []
    for t, table in enumerate(tables):
        own = [(k, c) for k, (other, c) in enumerate(places) if other == t]
        if own:
            parts += by_sets(table, own, words) if engine.dialect.has_grouping_sets else one_by_one(table, own, words)
    join = "BIT_OR" if engine.dialect.has_grouping_sets else "SUM"
    bits = [f"{join}(b{w}) AS m{w}" for w in words]
    inner = f"SELECT cell, {', '.join(bits)} FROM ({' UNION ALL '.join(parts)}) AS cells GROUP BY cell"
    columns = names("m", words)
    rows = engine.run(f"SELECT {columns}, COUNT(*) FROM ({inner}) AS sets GROUP BY {columns}")
    return [sum(int(bits) << BITS * w for w, bits in zip(words, row)) for row in rows]


def text(table, c):
    """The text of a column's value, as the engine writes it."""
    if table.is_text[c]:
        return table.values[c]
    if table.engine.is_sqlite and table.kinds[c] == "real":
        return f"printf('%!.17g', {table.values[c]})"
    return table.engine.dialect.exact(table.engine.dialect.as_text(table.values[c]))


def bits_of(k, words):
    return [(1 << k - BITS * w) if k // BITS == w else 0 for w in words]


def one_by_one(table, own, words):
    """For each column its different texts, one pass each."""
    table.engine.scans += len(own)
    for k, c in own:
        bits = ", ".join(f"{bit} AS b{w}" for w, bit in enumerate(bits_of(k, words)))
        yield f"SELECT DISTINCT {text(table, c)} AS cell, {bits} FROM {table.source} WHERE {table.values[c]} IS NOT NULL"


def by_sets(table, own, words):
    """The different texts of some columns in one pass."""
    for at in range(0, len(own), MOST_GROUPED):
        table.engine.scans += 1
        some = own[at:at + MOST_GROUPED]
        columns = [c for _, c in some]
        _, which = marks_of_sets([(c,) for c in columns], columns)
        sets = ", ".join(f"(v{c})" for c in columns)
        inner = (f"SELECT GROUPING({names('v', columns)}) AS which, {names('v', columns)} "
                 f"FROM (SELECT {', '.join(f'{table.values[c]} AS v{c}' for c in columns)} FROM {table.source}) AS s GROUP BY GROUPING SETS ({sets})")
        cell = " ".join(f"WHEN {which[c,]} THEN {table.engine.dialect.as_text(f'v{c}')}" for c in columns)
        bits = []
        for w in words:
            cases = " ".join(f"WHEN {which[c,]} THEN {1 << k - BITS * w}" for k, c in some if k // BITS == w)
            bits.append(f"CAST({f'CASE which {cases} ELSE 0 END' if cases else '0'} AS BIGINT) AS b{w}")
        yield f"SELECT * FROM (SELECT CASE which {cell} END AS cell, {', '.join(bits)} FROM ({inner}) AS g) AS t WHERE cell IS NOT NULL"
