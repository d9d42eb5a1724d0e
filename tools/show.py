#!/usr/bin/env python3
"""Shows a report of `depprof profile` or `depprof normalize` with names in place of numbers: for a terminal, as JSON, as one HTML page, or
the schema alone as a picture.

  depprof profile customers.csv sales.csv | show.py
  depprof profile customers.csv sales.csv | show.py --html > report.html
  depprof normalize --out shop orders.csv | show.py --prefix shop --column city --most 3

The files that the report names are read again, where they are at hand, and each key, dependency and join has a score from 0 to 100: how
likely it is meant and not chance. --report-only reads no file. Dependencies with the same left columns are one line; those whose left
columns are a key say nothing more than the key, so the terminal has their number alone.
"""
import argparse
import difflib
import json
import os
import shutil
import sys
import textwrap
import unicodedata

import report as reports
import show_model
import show_page
from report import Unreadable
from schema_svg import picture

PASSED_OVER = ("afd", "akey")  # lines of commands whose lists are not shown yet
MOST_LINES = 20  # of a list in a terminal
MOST_ON_PAGE = 100_000  # of a list on a page, which a browser can hold
MOST_NAME = 200  # characters


def plain(text):
    """A name for a terminal: on one line, without what moves the cursor or turns the direction of the text."""
    return "".join(reports.told(c) if unicodedata.category(c) == "Cf" else c for c in reports.shown(text, MOST_NAME)) or "(no name)"


# ---------------------------------------------------------------- a terminal


class Text:
    """The text for a terminal."""

    def __init__(self, most, why, width):
        self.most, self.why, self.width = most, why, width

    def lines(self, view):
        """The lines, of which the last one is not empty."""
        was_empty = False
        for line in self.parts(view):
            if was_empty:
                yield ""
            was_empty = not line
            if line:
                yield line

    def parts(self, view):
        for relation in view.relations:
            yield from self.relation(relation)
        def between_relations(join):
            return self.join(join, view.relations)

        yield from self.listed("joins: columns whose values are all in a key", [j for j in view.joins if j.into_key], between_relations,
                               bool(view.joins))
        yield from self.listed("further inclusions, in no key", [j for j in view.joins if not j.into_key], between_relations, False)
        for table in view.tables:
            yield from self.table(table)
        yield from self.listed("references", view.references, lambda join: self.join(join, view.tables), False)
        yield from self.wrapped("remark: ", [plain(remark) for remark in view.remarks], "")

    def relation(self, one):
        yield f"{plain(one.name)}: {counted(one.rows, 'row')}, {counted(len(one.columns), 'column')} ({plain(one.file)})"
        yield from self.wrapped("  ", [", ".join(map(plain, one.columns))], "  ")
        yield from self.listed("keys", one.keys, lambda key: self.key(one, key))
        yield from self.listed("dependencies", [d for d in one.dependencies if not d.by_key], lambda d: self.scored(d, self.arrow(one, d)))
        by_key = sum(len(d.right) for d in one.dependencies if d.by_key)
        if by_key:
            yield f"    and {by_key} of keys, each of which determines all columns"
        yield ""

    def table(self, one):
        file = f" ({plain(one.file)})" if one.file else ""
        rows = f"{counted(one.rows, 'row')}, " if one.rows >= 0 else ""
        yield f"table {plain(one.name)}: {rows}{counted(len(one.columns), 'column')}{file}"
        yield from self.wrapped("  ", [", ".join(map(plain, one.columns))], "  ")
        yield from self.listed("keys, that of the split first", one.keys, lambda key: self.key(one, key))
        yield ""

    def names(self, one, columns):
        return ", ".join(plain(one.columns[c]) for c in columns)

    def key(self, one, key):
        return self.scored(key, self.names(one, key.columns) or "(no column: there is one row at most)")

    def arrow(self, one, d):
        return f"{self.names(one, d.left) or '(always the same)'} -> {self.names(one, d.right)}"

    def join(self, join, ones):
        there = ones[join.other]
        here = ", ".join(f"{plain(ones[join.table].name)}.{plain(ones[join.table].columns[c])}" for c in join.columns)
        return self.scored(join, f"{here} -> {', '.join(f'{plain(there.name)}.{plain(there.columns[c])}' for c in join.others)}")

    def scored(self, one, text):
        why = f"   ({', '.join(one.score.reasons)})" if self.why and one.score else ""
        return f"{one.score.points if one.score else '':>3}  {text}{why}"

    def listed(self, title, found, write, shows_none=True):
        """A list under a title, of which the last lines may be left out."""
        if not found and not shows_none:
            return
        yield f"  {title}" if found else f"  {title}: none"
        for one in found[:self.most]:
            yield from self.wrapped("    ", [write(one)], "           ")
        if len(found) > self.most:
            yield f"    and {len(found) - self.most} more (--most)"

    def wrapped(self, begin, texts, further):
        for text in texts:
            if not self.width:
                yield begin + text
            else:
                yield from textwrap.wrap(text, self.width, initial_indent=begin, subsequent_indent=further, break_long_words=False,
                                         break_on_hyphens=False)


def counted(number, what):
    return f"{number:,} {what}{'' if number == 1 else 's'}"


# ---------------------------------------------------------------- JSON


def whole(text):
    """A text as JSON can hold it: a byte that is no UTF-8 is a mark."""
    return text.encode("utf-8", "surrogateescape").decode("utf-8", "replace")


def with_score(out, one):
    if one.score:
        out.update(score=one.score.points, reasons=list(one.score.reasons))
    return out


def as_data(view, most):
    """The view as lists and names."""
    def named(one, columns):
        return [whole(one.columns[c]) for c in columns]

    def joined(join, ones):
        there = ones[join.other]
        return with_score({"from": whole(ones[join.table].name), "columns": named(ones[join.table], join.columns),
                           "to": whole(there.name), "others": named(there, join.others), "key": join.into_key}, join)

    def shown(one):
        out = {"name": whole(one.name), "file": whole(one.file), "columns": list(map(whole, one.columns))}
        out.update({"rows": one.rows} if one.rows >= 0 else {})
        out.update({"kinds": one.kinds, "values": one.values} if one.kinds else {})
        out["keys"] = [with_score({"columns": named(one, key.columns)}, key) for key in one.keys[:most]]
        return out

    relations = [dict(shown(one), dependencies=[
        with_score({"left": named(one, d.left), "right": named(one, d.right), "by_key": d.by_key}, d) for d in one.dependencies[:most]])
        for one in view.relations]
    return {"relations": relations, "joins": [joined(join, view.relations) for join in view.joins[:most]],
            "tables": [shown(one) for one in view.tables], "references": [joined(join, view.tables) for join in view.references[:most]], "remarks": list(map(whole, view.remarks))}


# ---------------------------------------------------------------- words


class Words(argparse.ArgumentParser):
    """Says what is wrong with the words in one line."""

    def error(self, message):
        print(f"show: {reports.shown(message, 300)}", file=sys.stderr)
        sys.exit(1)


def number_from_one(text):
    if not reports.NUMBER.fullmatch(text) or int(text) < 1:
        raise argparse.ArgumentTypeError(f"{reports.shown(text, 20)} is no number from 1 on")
    return int(text)


def words(given=None):
    parser = Words(prog="show.py", description="A report with names in place of numbers.")
    parser.add_argument("report", metavar="REPORT", nargs="*", default=["-"], help="a file (the standard input); of the same files several")
    form = parser.add_mutually_exclusive_group()
    form.add_argument("--json", action="store_true", help="writes JSON")
    form.add_argument("--html", action="store_true", help="writes one HTML page, which needs no network")
    form.add_argument("--svg", action="store_true", help="writes the schema as a picture")
    parser.add_argument("--column", metavar="NAME", action="append", default=[], help="only what has this column in it; given again, all of them")
    parser.add_argument("--table", metavar="NAME", action="append", default=[], help="only this relation or table; given again, these")
    parser.add_argument("--most", metavar="N", type=number_from_one, help=f"at most N of each list ({MOST_LINES}; a page {MOST_ON_PAGE}, JSON all)")
    parser.add_argument("--why", action="store_true", help="the reasons of each score, in a terminal")
    parser.add_argument("--prefix", help="the word of `normalize --out`: the rows of table n are in PREFIXn.csv")
    parser.add_argument("--report-only", action="store_true", help="reads no file that the report names, so that nothing has a score")
    return parser.parse_args(given)


def check_name(name, known, what):
    """Refuses a name that is not there, with those that are like it."""
    if name not in known:
        near = difflib.get_close_matches(name, sorted(known)[:2000], 3, 0.6)
        raise Unreadable(f"there is no {what} {plain(name)}" + (f"; there is {', '.join(map(plain, near))}" if near else ""))


def view_by(args):
    """What there is to show by the words of the command."""
    report = reports.joined([reports.read_file(name, PASSED_OVER) for name in args.report])
    view = show_model.view_of(report, args.prefix, not args.report_only)
    for name in args.table:
        check_name(name, {word for one in view.relations + view.tables for word in (one.name, one.file)} - {""}, "table")
    view = show_model.chosen(view, [], args.table)
    for name in args.column:
        check_name(name, show_model.names_of(view), "column")
    return show_model.chosen(view, args.column, [])


def pieces(view, args):
    """The text that is written, piece by piece."""
    if args.html:
        yield show_page.page(view, args.most or MOST_ON_PAGE)
    elif args.svg:
        yield picture(*show_model.drawn_joins(view))
    elif args.json:
        yield json.dumps(as_data(view, args.most), ensure_ascii=False, indent=1) + "\n"
    else:
        width = shutil.get_terminal_size().columns if sys.stdout.isatty() else 0
        for line in Text(args.most or MOST_LINES, args.why, width).lines(view):
            yield line + "\n"


def main():
    args = words()
    try:
        view = view_by(args)
    except Unreadable as why:
        print(f"show: {plain_line(why)}", file=sys.stderr)
        return 1
    try:
        for piece in pieces(view, args):
            sys.stdout.buffer.write(piece.encode("utf-8", "replace"))
        sys.stdout.buffer.flush()
    except BrokenPipeError:  # as of `show.py | head`
        os.dup2(os.open(os.devnull, os.O_WRONLY), sys.stdout.fileno())
    except OSError as error:
        print(f"show: the output can't be written: {error.strerror}", file=sys.stderr)
        return 1
    return 0


def plain_line(why):
    return reports.shown(str(why), 400)


if __name__ == "__main__":
    sys.exit(main())
