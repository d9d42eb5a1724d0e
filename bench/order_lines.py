#!/usr/bin/env python3
"""Makes a sqlite database with one table of order lines, the same for the same seed on each machine.

  order_lines.py [--rows N] [--seed S] [--csv FILE] DATABASE

The table `lines` has 12 columns. Its keys are (order_no, line) and (order_no, item). A postcode determines its city but for one
row in 300,000, where the city is misspelt. Names and notes have commas, quotes and line ends; most notes are NULL, some are
empty. With --csv the same rows go to a file too, header first.
"""
import argparse
import os
import random
import sqlite3
import sys

NAMES = "order_no line ordered_on customer customer_name postcode city item item_text price quantity note".split()
KINDS = "INTEGER INTEGER TEXT INTEGER TEXT TEXT TEXT INTEGER TEXT INTEGER INTEGER TEXT".split()
FIRMS = ["Miller, Sons", 'The "Blue" Anchor', "Ortega", "Lindqvist", "O'Hara", "Baker\nand Daughter", "Novak", "Costa, Ltd", "Fischer", "Sato"]
STREETS = ["Mill", "Church", "High", "Station", "Garden", "Bridge", "Market", "Park", "Harbour", "School", "Forest", "Hill"]
CITIES = [f"{first}{last}" for first in ("North", "South", "East", "West", "New", "Old", "Great", "Little") for last in
          ("ford", "ham", "bury", "mouth", "field", "wick", "stead", "bridge", "port", "haven", "wood", "dale")]
THINGS = ["pipe", "valve", "bracket", "hinge", "bolt", "washer", "cable", "switch", "lamp", "plug"]
NOTES = ["call first", "gate 2, ring twice", 'leave at "the shed"', "fragile", "morning\nonly", "", "no invoice", "repeat order"]


def scattered(number, below):
    """A number below a bound that looks random and is the same each time."""
    return (number * 2654435761 + (number >> 7) * 40503) % 4294967291 % below


def day(number):
    """A date, for days from 0."""
    year, left = 2019, number
    while left >= (366 if year % 4 == 0 else 365):
        left -= 366 if year % 4 == 0 else 365
        year += 1
    for month, days in enumerate([31, 29 if year % 4 == 0 else 28, 31, 30, 31, 30, 31, 31, 30, 31, 30, 31], 1):
        if left < days:
            return f"{year}-{month:02d}-{left + 1:02d}"
        left -= days


def order_lines(rows, seed):
    rand = random.Random(seed).random  # its `random` is the same in each version of Python
    customers, days, items = max(20, rows // 40), [day(d) for d in range(2000)], max(50, min(20000, rows // 50))
    made = order = 0
    while made < rows:
        order += 1
        date = days[min(1999, int(order * 4 * 2000 / rows))]
        customer = 1000 + int(rand() * customers)
        name = f"{FIRMS[scattered(customer, 10)]}, {STREETS[scattered(customer + 5, 12)]} Street {scattered(customer + 11, 90) + 1}"
        place = scattered(customer, 3000)
        postcode, city = f"{10000 + place * 7}", CITIES[place % len(CITIES)]
        chosen = set()
        for line in range(1, 2 + int(rand() * 7)):
            item = int(rand() * items)
            if item in chosen:
                continue
            chosen.add(item)
            thing, inch = THINGS[scattered(item, 10)], scattered(item + 3, 48)
            price = 100 + scattered(item + int(date[:4]), 20000)
            note = NOTES[int(rand() * len(NOTES))] if rand() < 0.15 else None
            made += 1
            spelt = city + "e" if made % 300000 == 150000 else city
            yield order, line, date, customer, name, postcode, spelt, item, f'{thing}, {inch}/8"', price, 1 + int(rand() * 60), note
            if made == rows:
                return


def csv_record(fields):
    texts = ["" if f is None else str(f) for f in fields]
    return ",".join('"' + t.replace('"', '""') + '"' if set(t) & set(',"\r\n') else t for t in texts) + "\n"


def main():
    parser = argparse.ArgumentParser(description="A sqlite database with a table of order lines.")
    parser.add_argument("--rows", type=int, default=1_000_000)
    parser.add_argument("--seed", type=int, default=1)
    parser.add_argument("--csv", metavar="FILE")
    parser.add_argument("database", metavar="DATABASE")
    args = parser.parse_args()
    if os.path.exists(args.database):
        sys.exit(f"order_lines.py: {args.database} is there already")
    table = ", ".join(f"{n} {k}" for n, k in zip(NAMES, KINDS))
    connection = sqlite3.connect(args.database)
    connection.execute(f"CREATE TABLE lines ({table})")
    file = open(args.csv, "w", encoding="utf-8", newline="") if args.csv else None
    if file:
        file.write(csv_record(NAMES))

    def rows():
        for row in order_lines(args.rows, args.seed):
            if file:
                file.write(csv_record(row))
            yield row

    connection.executemany(f"INSERT INTO lines VALUES ({', '.join('?' * len(NAMES))})", rows())
    connection.commit()
    connection.close()
    if file:
        file.close()


if __name__ == "__main__":
    main()
