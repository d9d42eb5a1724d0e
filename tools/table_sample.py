"""The rows of a table that `depprof` is given: a file of them, what it reports of them, and what they say of the whole table."""
import csv
import io
import os
import subprocess
from collections import Counter
from itertools import islice

from table_cells import IDENTITY, Refused, Unsuitable, check_lengths, encoded, header, one_line, record, records, shown, texts_of

MOST_SAMPLED = 1_000_000  # rows, of one file of depprof
MOST_BYTES = 268_000_000
AT_ONCE = 5000  # rows


class Full(Unsuitable):
    """A file would be larger than `depprof` takes."""


class Sample:
    """Some rows of the table, in a file of their own."""

    def __init__(self, table, program, folder, number):
        self.table, self.program = table, program
        self.file = os.path.join(folder, f"{number}.csv")
        self.copies, self.count, self.size = Counter(), 0, 0
        self.numbers = [{} for _ in table.names]
        self.asked, self.evidence = [], {}  # what a later run begins with: column sets, and rows that broke something

    def open(self, rows, is_whole=False):
        """Begins with rows that are different ones of the table, as the engine's values. Of a whole table none is kept here."""
        rows, names, texts = iter(rows), self.table.names, self.table.texts
        self.drawn = []
        with open(self.file, "wb") as file:
            self.put(file, encoded(header(names)))
            while some := list(islice(rows, AT_ONCE)):
                columns = [texts_of(column, name, known) for column, name, known in zip(zip(*some), names, self.numbers)]
                for column, name in zip(columns, names):
                    check_lengths(column, name)
                self.put(file, encoded(records(columns)))
                self.count += len(some)
                if self.count > MOST_SAMPLED:
                    raise Refused("the table has more rows than it had")
                if not is_whole:
                    self.drawn += zip(*([texts.setdefault(cell, cell) for cell in column] for column in columns))
        self.copies.update(self.drawn)

    def put(self, file, line):
        self.size += len(line)
        if self.size > MOST_BYTES:
            raise Full(f"the sample has grown to {self.size} bytes")
        file.write(line)

    def add(self, rows):
        """Takes in rows that are different rows of the table, and answers how many came. One that is there already is it again, unless
        these alone have it more often."""
        before = self.count
        with open(self.file, "ab") as file:
            for cells, number in Counter(rows).items():
                more = number - self.copies[cells]
                if more > 0:
                    for cell, name in zip(cells, self.table.names):
                        check_lengths((cell,), name)
                    self.put(file, encoded(record(list(cells))) * more)
                    self.copies[cells] = number
                    self.count += more
        if self.count > MOST_SAMPLED:
            raise Full(f"the sample has grown to {self.count} rows")
        return self.count - before

    def room(self):
        """How many rows more it takes, by the bytes of those that it has."""
        return min(MOST_SAMPLED - self.count, int((MOST_BYTES - self.size) / max(1, self.size / max(1, self.count))))

    def is_whole(self):
        return self.count == self.table.rows

    def covers(self):
        """The minimal keys and dependencies of the sample, as (left side, target), in report order."""
        return reported([self], self.program)[0][0]


def reported(samples, program):
    """What `depprof profile` reports of these files: of each the minimal keys and dependencies, as (left side, target), in report order;
    and all inclusions as ((relation, column), (relation, column)), counted from 0."""
    folder = os.path.dirname(samples[0].file)
    done = subprocess.run([program, "profile", *(os.path.basename(sample.file) for sample in samples)], cwd=folder, capture_output=True)
    lines = list(csv.reader(io.StringIO(done.stdout.decode("utf-8", "surrogateescape"), newline="")))
    if done.returncode != 0 or not lines or lines[0][0] != "relation":
        said = " ".join(lines[0]) if lines else one_line(done.stderr.decode(errors="replace"))
        kind = Unsuitable if done.returncode == 3 else Refused
        raise kind(f"{program} ended with status {done.returncode}: {shown(said)}")
    covers, pairs = [], []
    for line in lines:
        if line[0] == "relation":
            covers.append([])
        elif line[0] == "key":
            covers[-1].append((columns_of(line[1]), IDENTITY))
        elif line[0] == "fd":
            covers[-1].append((columns_of(line[1]), int(line[2]) - 1))
        elif line[0] == "ind":
            pairs.append((place_of(line[1]), place_of(line[2])))
    return covers, pairs


def columns_of(text):
    return tuple(int(word) - 1 for word in text.split())


def place_of(text):
    relation, column = text.split(".")
    return int(relation) - 1, int(column) - 1


class Estimates:
    """How many rows of the table agree on some columns with another one, as far as random rows tell."""

    def __init__(self, drawn, rows, telling):
        self.drawn, self.rows, self.telling = drawn, rows, telling
        self.scale = 2 * (rows / max(1, len(drawn))) ** 2
        self.clusters, self.known = {(): [range(len(drawn))]}, {}

    def repeats(self, columns):
        if columns not in self.known:
            pairs = sum(len(c) * (len(c) - 1) // 2 for c in self.clusters_of(columns))
            self.known[columns] = min(pairs * self.scale, self.rows)
        return self.known[columns]

    def clusters_of(self, columns):
        """The places of drawn rows that agree on these columns, two or more each: those of fewer columns split by one more."""
        if columns in self.clusters:
            return self.clusters[columns]
        parents = [(columns[:k] + columns[k + 1:], c) for k, c in enumerate(columns)]
        there = [parent for parent in parents if parent[0] in self.clusters and parent[0]]
        if there:
            parent, c = min(there, key=lambda one: sum(map(len, self.clusters[one[0]])))
        else:
            parent, c = min(parents, key=lambda one: self.telling[one[1]])
        out = parted(self.clusters_of(parent), self.drawn, c)
        if len(columns) == 1 or sum(map(len, out)) <= len(self.drawn) / 4:
            self.clusters[columns] = out
        return out


def parted(clusters, rows, c):
    """Clusters split by one more column, without single rows."""
    out = []
    for cluster in clusters:
        groups = {}
        for place in cluster:
            groups.setdefault(rows[place][c], []).append(place)
        out += [group for group in groups.values() if len(group) > 1]
    return out
