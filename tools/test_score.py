#!/usr/bin/env python3
"""Tests of score.py: what is meant scores above the line, what is chance below it, and each sign counts."""
import unittest

from column_types import Facts
from score import (ALIKE, IN_PART, UNLIKE, Score, Spread, Use, chance_of_dependency, chance_of_key, dependency_scores, key_score,
                   likeness, reference_score, repeats_of, spread_of, words_of)

TEXT, INTEGER, DECIMAL = Facts("text", length=8), Facts("integer"), Facts("decimal")
LINE = 50


class Names(unittest.TestCase):
    def test_words(self):
        self.assertEqual(words_of("customerID"), ["customer", "id"])
        self.assertEqual(words_of("Order_Lines2"), ["order", "line"])
        self.assertEqual(words_of("address"), ["address"])
        self.assertEqual(words_of("12$"), [])

    def test_likeness(self):
        for column, key, table, is_self, wanted in [
            ("customer", "customer", "customers", False, ALIKE), ("customer_id", "id", "customers", False, ALIKE),
            ("customerId", "customer_no", "clients", False, ALIKE), ("customer", "id", "customers", False, ALIKE),
            ("ship_country", "country", "countries", False, IN_PART), ("billing_customer_id", "id", "customers", False, IN_PART),
            ("manager_id", "id", "employees", True, IN_PART),
            ("manager_id", "id", "employees", False, UNLIKE), ("id", "id", "orders", False, UNLIKE),
            ("quantity", "order_id", "orders", False, UNLIKE), ("", "", "", False, UNLIKE),
        ]:
            with self.subTest(column=column, key=key, table=table):
                self.assertEqual(likeness(column, key, table, is_self), wanted)


class Keys(unittest.TestCase):
    def test_chance(self):
        self.assertEqual(chance_of_key([5], 1, 3), 1.0)
        self.assertAlmostEqual(chance_of_key([8], 8, 4), 0.030, places=3)
        self.assertAlmostEqual(chance_of_key([6, 3], 8, 4), 0.759, places=3)
        self.assertEqual(chance_of_key([10**6, 10**6], 2, 4), 1.0)
        self.assertEqual(chance_of_key([1000] * 128, 10**6, 128), 1.0)
        self.assertLess(chance_of_key([6000, 5], 15000, 6), 1e-9)

    def key(self, names, facts, distinct, rows, table="t", width=6):
        return key_score(names, facts, distinct, rows, table, width).points

    def test_what_is_meant(self):
        self.assertGreater(self.key(["customer_id"], [INTEGER], [2000], 2000), 95)
        self.assertGreater(self.key(["email"], [TEXT], [2000], 2000), LINE)
        self.assertGreater(self.key(["order_no", "line"], [INTEGER] * 2, [6000, 5], 15000), LINE)

    def test_what_is_chance(self):
        self.assertLess(self.key(["first", "last", "postcode", "day", "note"], [TEXT] * 5, [200, 300, 500, 700, 40], 2000), 5)
        self.assertLess(self.key(["price"], [DECIMAL], [120], 120), LINE)
        self.assertLess(self.key(["a"], [TEXT], [2], 2), LINE)
        self.assertEqual(self.key([], [], [], 1), 0)
        self.assertEqual(self.key(["id"], [INTEGER], [1], 1), 0)

    def test_each_sign(self):
        plain = self.key(["id"], [TEXT], [100], 100)
        self.assertLess(self.key(["x"], [TEXT], [100], 100), plain)
        self.assertLess(self.key(["id"], [Facts("text", empty=True)], [100], 100), plain)
        self.assertLess(self.key(["id"], [Facts("text", length=500)], [100], 100), plain)
        self.assertLess(self.key(["id", "n"], [TEXT] * 2, [60, 60], 1000), plain)
        self.assertLess(self.key(["id", "n", "m"], [TEXT] * 3, [20, 20, 20], 1000), self.key(["id", "n"], [TEXT] * 2, [60, 60], 1000))
        self.assertEqual(self.key(["a", "b", "c", "d", "e"], [TEXT] * 5, [4] * 5, 900), self.key(["a", "b", "c", "d", "e", "f"], [TEXT] * 6, [3] * 6,
                                                                                                 700))


class Dependencies(unittest.TestCase):
    def test_spread(self):
        self.assertEqual(spread_of([3, 1], 4), Spread(2, 10 / 16))
        self.assertEqual(spread_of([], 0), Spread(0, 1.0))

    def test_chance(self):
        two = Spread(2, 0.5)
        # Two of four rows repeat a value, and each agrees with the row before it in one of two cases.
        self.assertEqual(self.chance([two], two, 4, 3), 0.25)
        # Two columns have four pairs of values, so four rows have 4 (1 - 1/e) different ones, and 4/e = 1.47 repeat: 0.36. There are three
        # such sets of a table of four columns.
        self.assertAlmostEqual(self.chance([two, two], two, 4, 4), 0.7386, places=4)

    def chance(self, left, right, rows, width):
        return chance_of_dependency(repeats_of(left, rows), left, right, width)

    def score(self, left, right, rows=1000, width=12):
        return dependency_scores([Spread(n, 1 / n) for n in left], [right], rows, width)[0].points

    def test_what_is_meant(self):
        self.assertGreater(self.score([80], Spread(40, 1 / 40)), 95)
        self.assertGreater(self.score([20, 10], Spread(40, 1 / 40)), 85)
        self.assertEqual(self.score([], Spread(1, 1.0)), 100)

    def test_what_is_chance(self):
        self.assertLess(self.score([200, 300, 60], Spread(40, 1 / 40)), 5)
        self.assertLess(self.score([998], Spread(2, 0.5)), 76)
        self.assertLess(self.score([900], Spread(2, 0.999)), 11)
        self.assertEqual(self.score([1000], Spread(2, 0.5)), 0)
        self.assertEqual(self.score([1], Spread(1, 1.0), rows=1), 0)


class References(unittest.TestCase):
    def reference(self, column="customer", key="customer", parent="customers", is_self=False, facts=TEXT, use=Use(50, 0.9, 1.0), points=100):
        return reference_score([column], [key], parent, is_self, [facts], use, Score(points, ())).points

    def test_what_is_meant(self):
        self.assertGreater(self.reference(), 95)
        self.assertGreater(self.reference("customer_id", "id", facts=INTEGER, use=Use(400, 0.5, 0.99)), 85)
        self.assertGreater(self.reference("partner", is_self=True, use=Use(4, 0.5, 0.9), points=97), LINE)
        self.assertGreater(self.reference("country", "country", "countries", use=Use(3, 0.012, 0.5)), LINE)

    def test_what_is_chance(self):
        self.assertLess(self.reference("quantity", "order_id", "orders", facts=INTEGER, use=Use(9, 0.0015, 0.0015)), 25)
        self.assertLess(self.reference("line", "order_id", "orders", facts=INTEGER, use=Use(7, 0.001, 0.001)), 25)
        self.assertEqual(self.reference(use=Use(0, 0.0, 0.0)), 0)

    def test_each_sign(self):
        plain = self.reference()
        for less in (self.reference("partner"), self.reference(use=Use(1, 0.9, 1.0)), self.reference(use=Use(50, 0.1, 1.0)),
                     self.reference(use=Use(50, 0.9, 0.5)), self.reference(points=50)):
            self.assertLess(less, plain)
        self.assertLess(self.reference("partner", facts=INTEGER), self.reference("partner", facts=TEXT))

    def test_the_worst_name_of_several_counts(self):
        both = reference_score(["item", "x"], ["item", "shelf"], "stock", False, [TEXT, TEXT], Use(50, 0.9, 1.0), Score(100, ()))
        self.assertEqual(both.points, self.reference("x", "shelf", "stock"))


if __name__ == "__main__":
    unittest.main()
