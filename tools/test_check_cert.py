#!/usr/bin/env python3
"""Tests of check_cert.py: the rules one by one, random certificates with a line changed, and the same texts beside `depprof check`.

  test_check_cert.py [PROGRAM] [TESTS..]
"""
import itertools
import os
import random
import subprocess
import sys
import tempfile
import unittest

import check_cert

PROGRAM = os.path.abspath(sys.argv.pop(1)) if len(sys.argv) > 1 and os.path.exists(sys.argv[1]) else ""
RELATION = b"id,city,zip\n1,Berlin,10115\n2,Berlin,10115\n3,Potsdam,14467\n"
CERTIFICATE = ["cert,3,3", "pair,1,2", "pair,1,3", "key,1", "fd,1,2", "fd,3,2", "fd,1,3", "fd,2,3", "end"]


def said(relation, certificate):
    """What is said of a certificate."""
    try:
        check_cert.check(relation, certificate)
    except check_cert.Flaw as flaw:
        return "no,%d,%d" % flaw.args
    return "yes"


def text(lines):
    return "".join(line + "\n" for line in lines).encode()


def changed(place, line, lines=CERTIFICATE):
    """The lines, with another one at a place."""
    return lines[:place] + ([] if line is None else [line]) + lines[place + 1:]


class Rules(unittest.TestCase):
    def test_worked_certificates(self):
        """A certificate, one with a pair too few, one that fails, and one out of shape."""
        two = b"a,b\n1,x\n1,y\n"
        for relation, lines, wanted in [
            (RELATION, CERTIFICATE, "yes"),
            (RELATION, changed(2, None), "no,4,24"),
            (two, ["cert,2,2", "key,", "fd,,1", "fd,,2", "end"], "no,2,25"),
            (RELATION, changed(1, "pair,1,4"), "no,2,23"),
            (RELATION, changed(0, "cert,3,2"), "no,1,22"),
            (RELATION, CERTIFICATE[:-1], "no,9,21"),
        ]:
            with self.subTest(lines=lines):
                self.assertEqual(said(relation, text(lines)), wanted)

    def test_form(self):
        for lines, wanted in [
            ([], "no,1,21"), (["end"], "no,1,21"), (CERTIFICATE + ["end"], "no,10,21"), (CERTIFICATE + ["pair,1,2"], "no,10,21"),
            (changed(1, "pair,01,2"), "no,2,21"), (changed(1, "pair,+1,2"), "no,2,21"), (changed(1, "pair,1,12345678901"), "no,2,21"),
            (changed(1, "pair,1,4294967296"), "no,2,21"), (changed(1, "pair,1,4294967295"), "no,2,23"), (changed(1, "pair,1,2,3"), "no,2,21"),
            (changed(3, "key,0"), "no,4,21"), (changed(3, "key,129"), "no,4,21"), (changed(3, "key,128"), "no,4,24"), (changed(3, "key,2 1"), "no,4,21"),
            (changed(3, "key,1 1"), "no,4,21"), (changed(3, "key,1  2"), "no,4,21"), (changed(3, "key"), "no,4,21"),
            (changed(4, "fd,1,0"), "no,5,21"), (changed(4, "fd,1,129"), "no,5,21"), (changed(4, "fd,1,128"), "no,5,24"),
            (CERTIFICATE[:8] + ["key,1", "end"], "no,9,21"), (CERTIFICATE[:4] + ["pair,1,2"] + CERTIFICATE[4:], "no,5,21"),
            (["pair,1,2"] + CERTIFICATE, "no,1,21"), (["cert,3,3"] + CERTIFICATE, "no,2,21"), (changed(8, "end,"), "no,9,21"),
        ]:
            with self.subTest(lines=lines):
                self.assertEqual(said(RELATION, text(lines)), wanted)

    def test_each_flaw_over_the_whole_text_first(self):
        lines = changed(1, "pair,1,1")
        self.assertEqual(said(RELATION, text(lines)), "no,2,23")
        self.assertEqual(said(RELATION, text(changed(7, "fd,2,03", lines))), "no,8,21")
        self.assertEqual(said(RELATION, text(changed(0, "cert,2,3", lines))), "no,1,22")
        self.assertEqual(said(RELATION, text(changed(3, "key,2", lines))), "no,2,23")

    def test_the_lines_are_one_sequence(self):
        swapped = CERTIFICATE[:4] + [CERTIFICATE[5], CERTIFICATE[4]] + CERTIFICATE[6:]
        for lines, wanted in [(swapped, "no,5,24"), (changed(5, "fd,1,2"), "no,6,24"), (changed(7, None), "no,8,24"), (changed(3, None), "no,4,24")]:
            with self.subTest(lines=lines):
                self.assertEqual(said(RELATION, text(lines)), wanted)

    def test_the_same_in_other_bytes(self):
        for data in [text(CERTIFICATE).replace(b"\n", b"\r\n"), b"\xef\xbb\xbf" + text(CERTIFICATE), text(CERTIFICATE).replace(b"cert,3", b'"cert","3"'),
                     text(CERTIFICATE + ["end"])[:-1].replace(b"end\nend", b"\n\nend"), text(changed(1, "pair,1,2\npair,1,2"))]:
            with self.subTest(data=data):
                self.assertEqual(said(RELATION, data), "yes")

    def test_small_relations(self):
        for relation, lines in [
            (b"a\n", ["cert,1,0", "key,", "fd,,1", "end"]),
            (b"a,b\n1,x\n", ["cert,2,1", "key,", "fd,,1", "fd,,2", "end"]),
            (b"a\n1\n1\n", ["cert,1,2", "pair,1,2", "fd,,1", "end"]),
            (b"a\n1\n2\n", ["cert,1,2", "pair,1,2", "key,1", "end"]),
        ]:
            with self.subTest(relation=relation):
                self.assertEqual(said(relation, text(lines)), "yes")


def relation_of(rng):
    """A random relation: its text and rows."""
    width, count, cells = rng.randint(1, 5), rng.randint(0, 8), rng.randint(1, 3)
    rows = [[rng.choice([b"", b"a", b"b", b"c"][:cells + 1]) for _ in range(width)] for _ in range(count)]
    records = [[b"c%d" % place for place in range(width)]] + rows
    return b"".join(b",".join(b'""' if record == [b""] else cell for cell in record) + b"\n" for record in records), rows, width


def certificate_of(rows, width, pairs):
    """The lines that list pairs of rows and what they leave."""
    agreed = {frozenset(c + 1 for c in range(width) if rows[i - 1][c] == rows[j - 1][c]) for i, j in pairs}
    lines = ["cert,%d,%d" % (width, len(rows))] + ["pair,%d,%d" % pair for pair in pairs]
    for target in [check_cert.ROW, *range(1, width + 1)]:
        for left in check_cert.least(agreed, target, width):
            columns = " ".join(map(str, sorted(left)))
            lines.append("key," + columns if target == check_cert.ROW else "fd,%s,%d" % (columns, target))
    return lines + ["end"]


def with_one_change(rng, lines):
    place = rng.randrange(len(lines))
    kind = rng.randrange(5)
    if kind == 0:
        return lines[:place] + lines[place + 1:]
    if kind == 1:
        return lines[:place] + [lines[place]] + lines[place:]
    if kind == 2:
        others = lines[:place] + lines[place + 1:]
        to = rng.randrange(len(others) + 1)
        return others[:to] + [lines[place]] + others[to:]
    fields = lines[place].split(",")
    fields[rng.randrange(len(fields))] = rng.choice(["0", "1", "2", "3", "01", "", "1 2", "2 1", "129", "key", "4294967296"])
    return changed(place, ",".join(fields), lines)


def samples(seed, count):
    """Relations with certificates: whole, of some pairs alone, and with a line changed, left out, doubled or moved."""
    rng = random.Random(seed)
    for _ in range(count):
        relation, rows, width = relation_of(rng)
        pairs = list(itertools.combinations(range(1, len(rows) + 1), 2))
        yield relation, rows, width, text(certificate_of(rows, width, pairs)), "yes"
        some = [pair for pair in pairs if rng.random() < 0.5]
        yield relation, rows, width, text(certificate_of(rows, width, some)), None
        yield relation, rows, width, text(with_one_change(rng, certificate_of(rows, width, pairs))), None


class Samples(unittest.TestCase):
    def test_certificates_of_all_pairs(self):
        """Yes is said of the certificate of all pairs, and of no other text that lists something else."""
        for relation, rows, width, certificate, wanted in samples(1, 1500):
            answer = said(relation, certificate)
            if wanted:
                self.assertEqual(answer, wanted, (relation, certificate))
            elif answer == "yes":
                listed = [line for line in certificate.decode().split("\n") if line.startswith(("key", "fd"))]
                pairs = itertools.combinations(range(1, len(rows) + 1), 2)
                whole = [line for line in certificate_of(rows, width, list(pairs)) if line.startswith(("key", "fd"))]
                self.assertEqual(listed, whole, (relation, certificate))


@unittest.skipUnless(PROGRAM, "no program is given")
class BesideTheProgram(unittest.TestCase):
    def test_the_program_says_the_same(self):
        with tempfile.TemporaryDirectory() as folder:
            for relation, _, _, certificate, _ in samples(2, 300):
                for name, data in [("r.csv", relation), ("c.csv", certificate)]:
                    with open(os.path.join(folder, name), "wb") as out:
                        out.write(data)
                done = subprocess.run([PROGRAM, "check", "r.csv", "c.csv"], cwd=folder, capture_output=True, check=False)
                self.assertEqual(done.returncode, 0, done.stderr)
                self.assertEqual(done.stdout.decode(), said(relation, certificate) + "\n", (relation, certificate))

    def test_the_program_makes_certificates_of_needed_pairs(self):
        """What `certify` writes is one and has the report's lines; without any of its pairs it is none."""
        with tempfile.TemporaryDirectory() as folder:
            for relation, rows, width, _, _ in itertools.islice(samples(3, 200), 0, None, 3):
                with open(os.path.join(folder, "r.csv"), "wb") as out:
                    out.write(relation)
                done = subprocess.run([PROGRAM, "certify", "--out", "c.csv", "r.csv"], cwd=folder, capture_output=True, check=False)
                self.assertEqual(done.returncode, 0, done.stderr)
                with open(os.path.join(folder, "c.csv"), encoding="ascii") as made:
                    lines = made.read().splitlines()
                self.assertEqual(said(relation, text(lines)), "yes", (relation, lines))
                listed = [line for line in lines if line.startswith(("key", "fd"))]
                self.assertEqual([line for line in done.stdout.decode().splitlines() if line.startswith(("key", "fd"))], listed)
                for place, line in enumerate(lines):
                    if line.startswith("pair"):
                        self.assertNotEqual(said(relation, text(changed(place, None, lines))), "yes", (relation, lines, line))


if __name__ == "__main__":
    unittest.main()
