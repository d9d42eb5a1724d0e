"""Draws tables and what refers to what as a picture (SVG), without any other program.

Tables that are referred to stand to the right of those that refer to them. A wide table shows its keys and the columns that join first,
and says how many others it has. Colours come from the page's style (classes), with plain ones where there is none.
"""
import unicodedata
from html import escape

from report import shown

ROW, HEAD, PAD = 20, 26, 8  # heights of a column and of a table's name, and the room beside a text
GAP_X, GAP_Y, EDGE_X, EDGE_Y = 90, 24, 40, 12  # between tables, and around all of them
CHARACTER = 7.2  # width of one, about
MOST_COLUMNS, MOST_CHARACTERS = 14, 28  # shown of a table, and of a name
STYLE = ("svg text{font:13px system-ui,sans-serif;fill:var(--ink,#222)}svg .name{font-weight:600}svg .key{text-decoration:underline}"
         "svg .faint{fill:var(--faint,#777)}svg .box{fill:var(--paper,#fff);stroke:var(--rule,#999)}"
         "svg .head{fill:var(--band,#e8ecf2);stroke:var(--rule,#999)}svg .edge{fill:none;stroke:var(--link,#2563a8);stroke-width:1.5}svg .edge:hover{stroke-width:4}"
         "svg .more{stroke-dasharray:5 3}svg .tip{fill:var(--link,#2563a8)}")


def drawn_text(text, most=MOST_CHARACTERS):
    """A name as text of a picture: without control characters, and cut where it is long."""
    return escape(clean(text, most)) or " "


def clean(text, most):
    return "".join("\ufffd" if unicodedata.category(c) == "Cf" else c for c in shown(" ".join(text.split()), most))


def width_of(text):
    """About how wide a text is; characters of some scripts are as wide as two."""
    return CHARACTER * sum(2 if unicodedata.east_asian_width(c) in "WF" else 1 for c in text)


class Box:
    """A table with its place."""

    def __init__(self, table, joined):
        key = set(table.keys[0].columns) if table.keys else set()
        order = sorted(range(len(table.columns)), key=lambda c: (c not in key, c not in joined, c))
        self.columns = sorted(order[:MOST_COLUMNS]) if len(order) > MOST_COLUMNS + 1 else sorted(order)
        self.hidden = len(order) - len(self.columns)
        self.key, self.table = key, table
        self.rows = "" if table.rows < 0 else f"{table.rows:,} rows"
        widest = max([width_of(clean(table.columns[c], MOST_CHARACTERS)) for c in self.columns] + [width_of(self.note())])
        self.width = round(max(widest, width_of(clean(table.name, MOST_CHARACTERS)) * 1.1 + width_of(self.rows) + 2 * PAD) + 2 * PAD)
        self.height = HEAD + ROW * (len(self.columns) + bool(self.hidden))
        self.x = self.y = 0

    def note(self):
        return f"and {self.hidden} more" if self.hidden else ""

    def full_name(self, column):
        return f"{drawn_text(self.table.name)}.{drawn_text(self.table.columns[column])}"

    def height_of(self, column):
        """The middle of a column; of one that is not shown the last line."""
        place = self.columns.index(column) if column in self.columns else len(self.columns)
        return self.y + HEAD + ROW * place + ROW / 2

    def text(self):
        out = f'<g><rect class="box" x="{self.x}" y="{self.y}" width="{self.width}" height="{self.height}"/>'
        out += f'<rect class="head" x="{self.x}" y="{self.y}" width="{self.width}" height="{HEAD}"/>'
        out += f'<text class="name" x="{self.x + PAD}" y="{self.y + 18}">{drawn_text(self.table.name)}</text>'
        out += f'<text class="faint" x="{self.x + self.width - PAD}" y="{self.y + 18}" text-anchor="end">{self.rows}</text>' if self.rows else ""
        for place, c in enumerate(self.columns):
            style = ' class="key"' if c in self.key else ""
            out += f'<text{style} x="{self.x + PAD}" y="{self.y + HEAD + ROW * place + 15}">{drawn_text(self.table.columns[c])}</text>'
        if self.hidden:
            out += f'<text class="faint" x="{self.x + PAD}" y="{self.y + self.height - 5}">{self.note()}</text>'
        return out + "</g>\n"


def layers_of(count, joins):
    """For each table how many references lead to it one after another; a circle is cut where it closes."""
    into = {i: {join.other for join in joins if join.table == i and join.other != i} for i in range(count)}
    layers, order = [0] * count, in_order(count, into)
    place = {i: k for k, i in enumerate(order)}
    for i in order:
        for j in into[i]:
            if place[j] > place[i]:
                layers[j] = max(layers[j], layers[i] + 1)
    return layers


def in_order(count, into):
    """The tables, each before those that it refers to, but in circles."""
    out, seen = [], set()
    for start in range(count):
        stack = [(start, iter(sorted(into[start])))] if start not in seen else []
        seen.add(start)
        while stack:
            i, left = stack[-1]
            j = next((j for j in left if j not in seen), None)
            if j is None:
                out.append(i)
                stack.pop()
            else:
                seen.add(j)
                stack.append((j, iter(sorted(into[j]))))
    return out[::-1]


def placed(boxes, joins):
    """Gives each table its place: layer by layer, in each by the middle of the tables that refer to it."""
    layers = layers_of(len(boxes), joins)
    x, tallest = EDGE_X, 0
    for layer in range(max(layers, default=0) + 1):
        here = [i for i in range(len(boxes)) if layers[i] == layer]
        here.sort(key=lambda i: (middle_of(i, boxes, joins, layers), i))
        for column in columns_of(here, boxes) if layer == 0 else [here]:
            y = EDGE_Y
            for i in column:
                boxes[i].x, boxes[i].y = x, y
                y += boxes[i].height + GAP_Y
            x += max((boxes[i].width for i in column), default=0) + GAP_X
            tallest = max(tallest, y - GAP_Y)
    return x - GAP_X + EDGE_X, tallest + EDGE_Y


def columns_of(here, boxes):
    """The tables of the first layer, in more than one column where there are many: many tables that refer to nothing would be a tower."""
    total = sum(boxes[i].height + GAP_Y for i in here)
    most, out, height = max(700, total / 4), [[]], 0
    for i in here:
        if height > most:
            out.append([])
            height = 0
        out[-1].append(i)
        height += boxes[i].height + GAP_Y
    return out


def middle_of(i, boxes, joins, layers):
    heights = [boxes[join.table].height_of(join.columns[0]) for join in joins if join.other == i and layers[join.table] < layers[i]]
    return sum(heights) / len(heights) if heights else 0


def edge(box, other, column, to, is_more):
    """A curve from a column to the column that it refers to."""
    y, end = box.height_of(column), other.height_of(to)
    begin, aim = (box.x + box.width, other.x) if other.x > box.x else (box.x, other.x + other.width)
    if other.x == box.x:
        begin, aim = box.x + box.width, other.x + other.width
    out, turn = 1 if begin > box.x else -1, -1 if other.x > box.x else 1
    far = max(40, abs(aim - begin) / 2)
    style = "edge more" if is_more else "edge"
    tip = f"{aim},{end} {aim + 7 * turn},{end - 4} {aim + 7 * turn},{end + 4}"
    told = f"{box.full_name(column)} -&gt; {other.full_name(to)}"
    return (f'<path class="{style}" d="M{begin},{y} C{begin + far * out},{y} {aim + far * turn},{end} {aim + 7 * turn},{end}"><title>{told}</title></path>'
            f'<polygon class="tip" points="{tip}"/>\n')


def picture(tables, joins):
    """The picture of tables (with name, rows, columns and keys) and joins between them."""
    joined = [{c for join in joins for where, cs in ((join.table, join.columns), (join.other, join.others)) if where == i for c in cs}
              for i in range(len(tables))]
    boxes = [Box(table, joined[i]) for i, table in enumerate(tables)]
    width, height = placed(boxes, joins)
    out = (f'<svg xmlns="http://www.w3.org/2000/svg" viewBox="0 0 {width} {height}" width="{width}" height="{height}" role="img" '
           f'aria-label="{len(tables)} tables, {len(joins)} references"><style>{STYLE}</style>\n')
    for join in joins:
        for k, (c, to) in enumerate(zip(join.columns, join.others)):
            out += edge(boxes[join.table], boxes[join.other], c, to, k > 0)
    return out + "".join(box.text() for box in boxes) + "</svg>\n"
