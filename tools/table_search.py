"""The search for the minimal keys and dependencies of a table, by a sample that the engine corrects.

What is minimal in the sample is asked of the whole table. Where few rows agree on a left side with another row, all of these join the
sample: then whatever holds in the sample with this left side, or a larger one, holds in the table, since two rows that broke it would
both be there. Elsewhere groups are counted: X determines Y where the table has as many different rows on X as on X and Y. Where the
counts differ, rows that break the dependency join the sample.
"""
import time
from collections import Counter

from table_cells import IDENTITY, alike, note, seconds
from table_sample import Estimates
from table_scan import alone, mask_of, parts_by

EVIDENCE = 32  # broken groups of a candidate whose rows join the sample
SMALL_GROUP = 8  # of a group up to this size all rows do, of a larger one two
MOST_PARTS = 16  # column sets of a round
KEPT_OF_PART = 200  # rows of a column set that are kept for a later run
FETCH_COST = 10  # what a row costs that is fetched, by what it costs to group it


class Held:
    """What is found to hold in the whole table, and what follows from it: if X determines Y and Y determines Z, then X determines Z."""

    def __init__(self, width):
        self.width, self.rules = width, {}

    def add(self, left, target):
        right = 1 << self.bit(target) if target != IDENTITY else (1 << self.width + 1) - 1
        self.rules[mask_of(left), right] = None

    def bit(self, target):
        return self.width if target == IDENTITY else target

    def closure(self, left):
        out, rules = mask_of(left), self.rules
        while True:
            rest = []
            for x, right in rules:
                if x & ~out == 0:
                    out |= right
                else:
                    rest.append((x, right))
            if len(rest) == len(rules):
                return out
            rules = rest

    def follows(self, left, targets):
        closed = self.closure(left)
        return {a for a in targets if closed >> self.bit(a) & 1}


def by_left(covers):
    """The targets of each left side."""
    out = {}
    for left, target in covers:
        out.setdefault(left, []).append(target)
    return out


class Search:
    """Asks the engine of candidates, and takes rows that break them into the sample."""

    few_rows = 150_000  # rows that one column set may bring into the sample

    def __init__(self, table, sample):
        self.table, self.sample = table, sample
        self.held = Held(len(table.names))
        for unique in table.unique:
            self.held.add([c for c in range(len(table.names)) if unique >> c & 1], IDENTITY)
        self.estimates = Estimates(sample.drawn, table.rows, table.telling)
        self.complete = []  # column sets such that the sample has all rows that agree on one with another row
        self.single, self.too_many = set(), set()  # those that had too many rows together with others, and alone
        self.counts = {}

    # ------------------------------------------------------------ rounds

    def covers(self, keep=lambda: None):
        """The minimal keys and dependencies of the table. What there is to keep of the work is kept after each round."""
        number = 0
        while True:
            number, began, scans, count = number + 1, time.monotonic(), self.table.engine.scans, self.sample.count
            covers = self.sample.covers()
            if self.sample.is_whole():
                note(f"round {number}: the sample is the table, {len(covers)} candidates hold, {seconds(began)}")
                return covers
            open_, known = self.open_lefts(covers), self.known()
            if open_:
                self.ask(open_)
                if self.known() == known:
                    raise alike("of rows that break a dependency")
                keep()
            note(f"round {number}: {count} rows sampled, {len(covers)} candidates, {sum(map(len, open_.values()))} of them open, "
                 f"{self.table.engine.scans - scans} passes over the table, {self.sample.count - count} rows more, {seconds(began)}")
            if not open_:
                return covers

    def known(self):
        """What grows with each answer."""
        return self.sample.count, len(self.held.rules), len(self.complete), len(self.single), len(self.too_many)

    def open_lefts(self, covers):
        """The candidates of which it is not known that they hold, as left side and targets."""
        out = {}
        for left, targets in sorted(by_left(covers).items(), key=lambda one: (len(one[0]), one[0])):
            if any(set(part) <= set(left) for part in self.complete):
                for target in targets:
                    self.held.add(left, target)
            else:
                out[left] = targets
        left_over = {left: sorted(set(targets) - self.held.follows(left, targets)) for left, targets in out.items()}
        return {left: targets for left, targets in left_over.items() if targets}

    def ask(self, open_):
        """Asks of as many candidates as a few statements take."""
        most = min(self.few_rows, self.table.rows / 8, self.sample.room() / 4)
        near = [left for left in open_ if left and left not in self.too_many and self.estimates.repeats(left) <= most]
        parts, rest = self.parts_for(near, most)
        self.fill(parts)
        if not rest:
            done = [set(part) for part in parts]
            self.count_groups({left: targets for left, targets in open_.items() if not any(part <= set(left) for part in done)})

    # ------------------------------------------------------------ column sets that few rows repeat

    def parts_for(self, lefts, most):
        """Column sets that few rows repeat and that are parts of these left sides, and the left sides that are left over."""
        out, room = [], self.sample.room() / 2
        while lefts and len(out) < MOST_PARTS:
            offers = {self.shared_part(left, lefts, most) for left in lefts[:60]}
            best = max(offers, key=lambda part: (self.gain(part, lefts), part))
            room -= self.estimates.repeats(best)
            if out and room < 0:
                break
            out.append(best)
            lefts = [left for left in lefts if not set(best) <= set(left)]
        return out, lefts

    def shared_part(self, left, lefts, most):
        """A part of a left side that is worth its rows."""
        while True:
            parts = [left[:k] + left[k + 1:] for k in range(len(left))]
            parts = [part for part in parts if part and part not in self.too_many and self.estimates.repeats(part) <= most]
            best = max(parts, key=lambda part: self.gain(part, lefts), default=left)
            if self.gain(best, lefts) <= self.gain(left, lefts):
                return left
            left = best

    def gain(self, part, lefts):
        """How many of these left sides a part decides, by what it costs."""
        return sum(set(part) <= set(left) for left in lefts) / (self.table.rows + FETCH_COST * self.estimates.repeats(part))

    def fill(self, parts):
        """Takes all rows into the sample that agree on one of these column sets with another row."""
        wary = [[part] for part in parts if part in self.single]
        for some in [[part for part in parts if part not in self.single], *wary]:
            limit = max(2, min(self.sample.room() // 2, int(2 * sum(map(self.estimates.repeats, some))) + 2 * self.few_rows))
            for share, rows in self.table.repeated(some, limit) if some else ():
                self.take_repeated(share, rows, limit)

    def take_repeated(self, share, rows, limit):
        if len(rows) < limit:
            self.check(share, rows)
            self.sample.add(rows)
            self.complete += share
            self.sample.asked += share
            for part in share:
                self.keep_some(part, rows)
        else:
            self.sample.add(rows[:limit // 8])
            self.too_many.update(share if len(share) == 1 else ())
            self.single.update(share)

    def check(self, share, rows):
        """Each row agrees with another one by its cells too."""
        alone_ = set(range(len(rows)))
        for part in share:
            cells = list(map(parts_by(part), rows))
            counts = Counter(cells)
            alone_ = {k for k in alone_ if counts[cells[k]] < 2}
            if not alone_:
                return
        raise alone(self.table, share[0], rows)

    def keep_some(self, part, rows):
        """Keeps some groups for a later run."""
        groups, of = {}, parts_by(part)
        for row in rows[:100 * KEPT_OF_PART]:
            groups.setdefault(of(row), []).append(row)
        some = [row for group in groups.values() if len(group) > 1 for row in group]
        self.sample.evidence.update(dict.fromkeys(some[:KEPT_OF_PART]))

    # ------------------------------------------------------------ groups, counted

    def count_groups(self, open_):
        """Decides by counts which of these candidates hold, and takes rows that break the others into the sample."""
        wanted, some = {}, {}
        for left, targets in open_.items():
            sets = [left] if IDENTITY in targets else [left, with_targets(left, targets)]
            wanted.update(dict.fromkeys(s for s in sets if s and s not in self.counts))
            some[left] = targets
            if len(wanted) >= MOST_PARTS:
                break  # the rows that break these may break others
        self.counts.update(self.table.counts_of_groups(list(wanted)) if wanted else {})
        failed = {}
        for left, targets in some.items():
            groups = self.counts.get(left, 1)
            if IDENTITY in targets:
                if groups == self.table.rows:
                    self.held.add(left, IDENTITY)
                else:
                    failed[left] = [IDENTITY]
            elif groups == self.counts[with_targets(left, targets)]:
                for target in targets:
                    self.held.add(left, target)
            else:
                failed[left] = targets
        self.fresh = []
        for left, targets in failed.items():
            targets = [a for a in targets if not self.is_refuted(left, a)]
            if targets:
                self.look_for_rows(left, targets)

    def is_refuted(self, left, target):
        """Whether rows that have come for another left side break this too."""
        groups, of = {}, parts_by(left)
        for row in self.fresh:
            groups.setdefault(of(row), []).append(row)
        return bool(broken([group for group in groups.values() if len(group) > 1], target))

    def look_for_rows(self, left, targets):
        """Has the engine look for groups of rows that break these targets. Where it gives all there are, the others hold."""
        table = self.table
        groups = table.broken_keys(left) if targets == [IDENTITY] else table.broken_dependencies(left, targets)
        few = sum(group.size for group in groups) <= self.few_rows / 3
        found = table.rows_of_groups(left, groups) if groups and few else [None] * len(groups)
        for target in targets:
            mine = [(group, rows) for group, rows in zip(groups, found) if target in group.breaks]
            if not mine and len(groups) < table.groups:
                self.held.add(left, target)
            rows = [rows for _, rows in mine] if few else [table.two_rows(left, group, target) for group, _ in mine[:2]]
            if len(broken(rows, target)) < len(rows):
                raise alike("of rows" if target == IDENTITY else f"of column {table.names[target]}")
            self.take_in(rows, target)

    def take_in(self, groups, target):
        """Takes rows of groups that break a target into the sample."""
        for group in groups[:EVIDENCE]:
            if len(group) > SMALL_GROUP:
                group = [group[0], next(row for row in group[1:] if target == IDENTITY or row[target] != group[0][target])]
            self.sample.add(group)
            self.fresh += group
            self.sample.evidence.update(dict.fromkeys(group))


def with_targets(left, targets):
    return tuple(sorted({*left, *targets}))


def broken(groups, target):
    """Those groups whose rows do not agree on the target."""
    return groups if target == IDENTITY else [g for g in groups if any(row[target] != g[0][target] for row in g)]
