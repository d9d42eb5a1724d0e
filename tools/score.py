"""How likely a key or a reference that holds in the rows is meant, and not chance: a score from 0 to 100 with its reasons.

A score is the product of shares, so that one strong sign of chance is enough to sink it. docs/GUIDE.md has the shares in words.
"""
import math
import re
from dataclasses import dataclass

from column_types import BYTES, DATE_KIND, DECIMAL, INTEGER, TIMESTAMP

IDENTIFYING = {"id", "no", "nr", "num", "number", "key", "code", "uuid", "guid", "pk", "fk", "ref"}
COLUMNS = {1: 1.0, 2: 0.9, 3: 0.75, 4: 0.6}  # share by the number of columns; more have the last
MANY_COLUMNS = 0.4
LONG_TEXT = 60  # characters
ALIKE, IN_PART, UNLIKE_TEXT, UNLIKE = 1.0, 0.8, 0.75, 0.5


@dataclass(frozen=True)
class Score:
    points: int
    reasons: tuple

    def __str__(self):
        return f"score {self.points}: {', '.join(self.reasons)}"


MADE = Score(100, ("the split is made by it",))


class Shares:
    """Shares with a reason each."""

    def __init__(self):
        self.product, self.reasons = 1.0, []

    def take(self, share, reason):
        self.product *= share
        if reason:
            self.reasons.append(reason)

    def score(self):
        return Score(round(100 * self.product), tuple(self.reasons))


def percent(share):
    return f"{round(100 * share)} in 100"


# ---------------------------------------------------------------- names


def words_of(name):
    """The words of a name in small letters, each without the s of a plural."""
    parted = re.sub(r"([a-z])([A-Z])", r"\1 \2", name)
    words = [word.casefold() for word in re.findall(r"[^\W\d_]+", parted)]
    return [word[:-1] if len(word) > 3 and word.endswith("s") and not word.endswith("ss") else word for word in words]


def identifies(name, table):
    """Whether a column's name says that it tells the rows of its table apart."""
    words = set(words_of(name))
    return bool(words & IDENTIFYING) or bool(words) and words == set(words_of(table))


def likeness(column, key, parent, is_self):
    """How alike the name of a column is to that of the key that it would refer to, in a table."""
    words, key_words, table = set(words_of(column)), set(words_of(key)), set(words_of(parent))
    own, of_key = words - IDENTIFYING, key_words - IDENTIFYING
    if own and (words == key_words or own == table or own == of_key):
        return ALIKE
    if own & (of_key | table) or (is_self and not of_key and words & IDENTIFYING):
        return IN_PART
    return UNLIKE


# ---------------------------------------------------------------- keys


def chance_of_key(distinct, rows, width):
    """How likely values drawn by chance would have a key of this kind: that so many rows are all different in columns with so many
    values, for one of the sets of so many columns that a table of this width has. About: the number of pairs of rows that agree is taken
    for that of a rare event, and the sets for independent. A single column is not one of many, since it has a name of its own."""
    if rows < 2:
        return 1.0
    chance = math.exp(-rows * (rows - 1) / 2 / math.prod(map(float, distinct)))
    if len(distinct) == 1 or chance == 1:
        return chance
    return -math.expm1(math.comb(width, len(distinct)) * math.log1p(-chance))


def is_measure(facts):
    return facts.kind in (DECIMAL, TIMESTAMP, BYTES) or facts.length > LONG_TEXT


def key_score(names, facts, distinct, rows, table, width):
    """The score of a key of a table: names, facts and numbers of values of its columns, and how many columns the table has."""
    shares, count = Shares(), len(names)
    if rows < 2 or not count:
        return Score(0, (f"{rows} row{'' if rows == 1 else 's'}, of which any column is a key",))
    chance = chance_of_key(distinct, rows, width)
    shares.take(COLUMNS.get(count, MANY_COLUMNS), f"{count} column{'s' if count > 1 else ''}")
    shares.take(1 - chance, f"by chance {percent(chance)}")
    if any(f.empty for f in facts):
        shares.take(0.5, "with empty cells")
    if any(map(is_measure, facts)):
        shares.take(0.5, "a measure or a long text")
    if count == 1:
        named = identifies(names[0], table)
        shares.take(1.0 if named else 0.8, "named as one" if named else "")
    return shares.score()


# ---------------------------------------------------------------- dependencies


@dataclass(frozen=True)
class Spread:
    """How the cells of a column are spread."""
    values: int  # different ones
    agreement: float  # share of the pairs of rows, each row with itself too, that agree


def spread_of(counts, rows):
    """The spread of a column whose values come so often."""
    return Spread(len(counts), sum(count * count for count in counts) / (rows * rows) if rows else 1.0)


def repeats_of(left, rows):
    """How many rows repeat what an earlier row has in some columns: of one column exactly, of several as if they had nothing to do with
    each other."""
    if len(left) == 1:
        return rows - left[0].values
    different = 1 / max(math.prod(spread.agreement for spread in left), 1e-300)
    return rows + different * math.expm1(-rows / different)


def chance_of_dependency(repeats, left, right, width):
    """How likely columns drawn by chance would determine another one, in a table of so many columns: that each of the rows that repeat the
    left values of an earlier one agrees with it on the right, for one of the sets of so many columns."""
    chance = right.agreement ** repeats
    if len(left) == 1 or chance == 1:
        return chance
    return -math.expm1(math.comb(width - 1, len(left)) * math.log1p(-chance))


def dependency_scores(left, rights, rows, width):
    """The scores of dependencies with the same left columns: the spreads of these and of each right one, and how many columns the table
    has."""
    if rows < 2:
        return [Score(0, (f"{rows} row{'' if rows == 1 else 's'}, in which anything holds",))] * len(rights)
    if not left:
        return [Score(100, ("the same value in all rows",))] * len(rights)
    repeats, out = repeats_of(left, rows), []
    for right in rights:
        shares, chance = Shares(), chance_of_dependency(repeats, left, right, width)
        shares.take(COLUMNS.get(len(left), MANY_COLUMNS), f"{len(left)} column{'s' if len(left) > 1 else ''}")
        shares.take(1 - chance, f"by chance {percent(chance)}")
        out.append(shares.score())
    return out


# ---------------------------------------------------------------- references


@dataclass(frozen=True)
class Use:
    """How the columns that refer use the values of a key."""
    values: int  # different ones
    used: float  # share of the key's values that are among them
    spanned: float  # share of the key's values that lie between the least and the greatest of them


def reference_score(columns, keys, parent, is_self, facts, use, key):
    """The score of a reference: names of the columns that refer and of the key's, the table referred to and whether it is their own,
    the facts of the columns that refer, how they use the key's values, and the key's score."""
    shares = Shares()
    alike = min(likeness(a, b, parent, is_self) for a, b in zip(columns, keys))
    if alike == UNLIKE and not all(f.kind in (INTEGER, DECIMAL, DATE_KIND, TIMESTAMP) for f in facts):
        alike = UNLIKE_TEXT
    shares.take(alike, {ALIKE: "names alike", IN_PART: "names alike in part"}.get(alike, "names unlike"))
    shares.take(1 - 0.5 ** min(use.values, 60), f"{use.values} value{'' if use.values == 1 else 's'}")
    shares.take(0.4 + 0.2 * use.used + 0.4 * use.spanned, f"{percent(use.used)} of the key's used and {percent(use.spanned)} spanned")
    shares.take(key.points / 100, f"the key's score {key.points}")
    return shares.score()
