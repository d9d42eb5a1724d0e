#!/usr/bin/env python3
"""Writes a relation to measure with, as CSV, the same for the same words on each machine.

  relations.py voters ROWS COLUMNS [SEED]          a register of voters: names, codes beside their texts, many empty cells, and
                                                   districts that hang on a place; 8 to 60 columns
  relations.py order-lines ROWS [SEED]             lines of orders, 16 columns: orders, parts, dates, prices, remarks
  relations.py random ROWS COLUMNS BELOW [SEED]    random numbers, without a pattern
  relations.py demo [ROWS [SEED]]                  the relation that `depprof demo SEED` makes; 5,000 rows

What a row holds comes from `random.Random(SEED).random()`, which is the same in each version of Python.
"""
import random
import sys

LAST = """Abbott Baker Castillo Duarte Ellis Foster Greene Hale Ibarra Jensen Keller Lowe Mercer Nash Osborne Pruitt Quinn Rowe Sutton Tate
Underwood Vance Weaver Yates Zamora Barr Cobb Dunn Eaton Fry Goss Holt Ivey Joyce Kemp Lusk Moody Noble Orr Peck""".split()
FIRST = """Alice Bruno Clara David Elena Frank Grace Henry Irene Jacob Karen Louis Maria Nora Oscar Paula Ralph Susan Tomas Ursula Victor
Wanda Xavier Yvonne Zack Amber Brett Chloe Derek Edith""".split()
TREES = "Alder Birch Cedar Dogwood Elm Fir Gum Hickory Ironwood Juniper Larch Maple Oak Pine Rowan Spruce Teak Willow Yew Ash".split()
WAYS = "ST RD AVE LN DR CT BLVD WAY".split()
STATUS = [("A", "ACTIVE"), ("I", "INACTIVE"), ("R", "REMOVED"), ("D", "DENIED")]
REASONS = [("AV", "VERIFIED"), ("AP", "PENDING"), ("IN", "NOTICE NOT RETURNED"), ("IU", "MAIL UNDELIVERABLE"), ("RM", "MOVED AWAY"), ("RD", "DECEASED")]
PARTIES = [("BLU", "BLUE"), ("RED", "RED"), ("GRN", "GREEN"), ("UNA", "UNAFFILIATED"), ("LIB", "LIBERTY")]
RACES = [("W", "WHITE"), ("B", "BLACK"), ("A", "ASIAN"), ("M", "MIXED"), ("U", "UNKNOWN"), ("O", "OTHER")]
GENDERS = [("F", "FEMALE"), ("M", "MALE"), ("U", "UNKNOWN")]
STATES = "NC SC VA GA TN FL NY OH PA TX CA".split()
REMARKS = """carefully packed boxes wait near the gate while late parcels sleep behind quiet final requests and bold express accounts among
pending deposits across regular even ideas""".split()


def weighted(draw, below, bend=2.0):
    """A number below a bound, small ones more often."""
    return int(below * draw() ** bend)


def day(number, first=1990):
    """The date so many days after the first of January of a year."""
    year, left = first, number
    while left >= (366 if year % 4 == 0 else 365):
        left -= 366 if year % 4 == 0 else 365
        year += 1
    for month, days in enumerate((31, 29 if year % 4 == 0 else 28, 31, 30, 31, 30, 31, 31, 30, 31, 30, 31), 1):
        if left < days:
            return f"{year:04d}-{month:02d}-{left + 1:02d}"
        left -= days


def voter_names(columns):
    names = """county_id county number status status_text reason reason_text last first middle suffix house street way unit city state zip area
    phone race race_text ethnic party party_text gender gender_text age birth_place registered precinct precinct_text town ward congress
    senate lower court district_school district_fire""".split()
    return (names + [f"district_{k}" for k in range(len(names), 60)])[:columns]


def voters(rows, columns, seed):
    draw = random.Random(seed).random
    dates = [day(d, 1950) for d in range(25000)]
    yield voter_names(columns)
    for number in range(1, rows + 1):
        county = 1 + weighted(draw, 100)
        corner = weighted(draw, 25)
        town, precinct = corner // 2, county * 40 + corner
        status = weighted(draw, len(STATUS), 4)
        reason = min(2 * status + (draw() < 0.2), len(REASONS) - 1)
        last, first = weighted(draw, 40), weighted(draw, 30)
        race, party, gender = weighted(draw, len(RACES)), weighted(draw, len(PARTIES), 1.3), first % 2 if draw() < 0.97 else 2
        street = weighted(draw, 800)
        age = 18 + weighted(draw, 85, 1.4)
        city = f"{TREES[(county + town * 7) % 20]}{('ton', 'ville', 'burg', 'dale')[(county + town) % 4]}"
        place = county * 12 + town
        row = [str(county), f"{LAST[county % 40].upper()}{'' if county < 40 else ' ' + TREES[county % 20].upper()}", f"{county:03d}{number:07d}",
               STATUS[status][0], STATUS[status][1], REASONS[reason][0], REASONS[reason][1],
               f"{LAST[last].upper()}{'' if draw() < 0.5 else TREES[weighted(draw, 20)].lower()}", FIRST[first].upper(),
               FIRST[weighted(draw, 12)][0] if draw() < 0.6 else "", ("JR", "SR", "III")[int(draw() * 3)] if draw() < 0.02 else "",
               str(1 + weighted(draw, 9000)), f"{TREES[street % 20].upper()} {LAST[street // 20].upper()}", WAYS[street % 8],
               f"#{1 + int(draw() * 400)}" if draw() < 0.04 else "", city.upper(), STATES[0], str(27000 + place),
               str(200 + county % 9), f"{int(draw() * 10000000):07d}" if draw() < 0.3 else "",
               RACES[race][0], RACES[race][1], ("NL", "HL")[last % 5 == 2], PARTIES[party][0], PARTIES[party][1],
               GENDERS[gender][0], GENDERS[gender][1], str(age), STATES[weighted(draw, 11, 5)],
               dates[24999 - weighted(draw, 20000)], f"P{precinct}", f"{TREES[precinct % 20].upper()} {precinct // 20}",
               city.upper() if place % 9 else "", str(place // 2) if place % 5 < 2 else "", str(1 + county // 8), str(1 + county // 2),
               str(1 + precinct // 10), f"{1 + county // 4}A", f"S{place // 3}", f"F{precinct // 5}"]
        for k in range(40, columns):
            hangs = (county, place, precinct)[k % 3]
            row.append(f"{k}-{hangs // (k - 38)}" if draw() < (1.0, 0.99, 1.0, 0.02)[k % 4] else "")
        yield row[:columns]


def order_lines(rows, seed):
    draw = random.Random(seed).random
    yield """order part supplier line quantity price discount tax returned status shipped promised received instruction mode
    remark""".split()
    dates = [day(d) for d in range(3000)]
    parts, suppliers = max(50, rows // 30), max(10, rows // 500)
    made = order = 0
    while made < rows:
        order += 1
        number, ordered = order * 4 - order % 3, int(draw() * 2600)
        for line in range(1, 2 + int(draw() * 7)):
            part = int(draw() * parts)
            quantity = 1 + int(draw() * 50)
            shipped = ordered + 1 + int(draw() * 120)
            received = shipped + 1 + int(draw() * 30)
            late = received > 1700
            yield [str(number), str(part + 1), str((part * 7 + int(draw() * 4) * (suppliers // 4 + 1)) % suppliers + 1), str(line), str(quantity),
                   f"{quantity * (90000 + part % 20000 * 10 + part % 1000) / 100:.2f}", f"0.{int(draw() * 11):02d}", f"0.{int(draw() * 9):02d}",
                   "N" if late else "RA"[int(draw() * 2)], "O" if shipped > 1700 else "F", dates[shipped], dates[ordered + 30 + int(draw() * 60)],
                   dates[received], ("COLLECT", "NONE", "RETURN", "IN PERSON")[int(draw() * 4)],
                   ("AIR", "RAIL", "ROAD", "SHIP", "POST", "TRUCK", "FOB")[int(draw() * 7)],
                   " ".join(REMARKS[int(draw() * len(REMARKS))] for _ in range(3 + int(draw() * 4)))]
            made += 1
            if made == rows:
                return


def random_numbers(rows, columns, below, seed):
    draw = random.Random(seed).random
    yield [f"c{k}" for k in range(1, columns + 1)]
    for _ in range(rows):
        yield [str(int(draw() * below)) for _ in range(columns)]


def demo(rows, seed):
    yield [f"c{k}" for k in range(1, 13)]
    state = seed
    for number in range(1, rows + 1):
        drawn = []
        for _ in range(6):
            state = (state * 1103515245 + 12345) % 2147483648
            drawn.append(state // 65536)
        c2, c3, c4, c5, c6 = drawn[0] % 10, drawn[1] % 20, drawn[2] % 50, drawn[3] % 100, drawn[4] % 1000
        cells = [number, c2, c3, c4, c5, c6, (7 * c2 + 3) % 10, (c3 + c4) % 13, 0, c6 % 25, 3 * c5, 1 if drawn[5] % 2 else ""]
        yield [str(cell) for cell in cells]


KINDS = {  # how many numbers each kind takes, before and with the seed
    "voters": (voters, 2, 3),
    "order-lines": (order_lines, 1, 2),
    "random": (random_numbers, 3, 4),
    "demo": (lambda rows=5000, seed=1: demo(rows, seed), 0, 2),
}


def write(rows, file):
    """No cell of these relations needs quotes."""
    lines = []
    for row in rows:
        lines.append(",".join(row))
        if len(lines) == 10000:
            file.write("\n".join(lines) + "\n")
            lines = []
    if lines:
        file.write("\n".join(lines) + "\n")


def relation(words):
    """The rows that words ask for, the header first, or None."""
    make, least, most = KINDS.get(words[0] if words else "", (None, 0, -1))
    numbers = words[1:]
    if make is None or not least <= len(numbers) <= most or not all(n.isdigit() for n in numbers):
        return None
    numbers = [int(n) for n in numbers]
    if words[0] != "demo" and len(numbers) == least:
        numbers.append(1)
    return make(*numbers)


def main():
    rows = relation(sys.argv[1:])
    if rows is None:
        print(__doc__.split("\n\n")[1], file=sys.stderr)
        return 2
    write(rows, sys.stdout)
    return 0


if __name__ == "__main__":
    sys.exit(main())
