"""One HTML page of a view: nothing is fetched, and nothing of a report is read as HTML or script.

What there is to list is in the page as data, which `page/page.js` draws line by line as it is scrolled to, by texts alone. The policy of
the page lets no script or style run but these two, by their hashes, so that a name that is markup could do nothing even if it were read so.
"""
import base64
import hashlib
import json
import os
import unicodedata
from html import escape

import show_model
from schema_svg import picture

FOLDER = os.path.join(os.path.dirname(os.path.abspath(__file__)), "page")


def part(name):
    with open(os.path.join(FOLDER, name), encoding="utf-8") as file:
        return file.read()


def whole(text):
    """A text as a page can hold it: no lone surrogate, and what turns the direction of a text is a mark."""
    text = text.encode("utf-8", "surrogateescape").decode("utf-8", "replace")
    return "".join("\ufffd" if unicodedata.category(c) == "Cf" and c != "\u200d" else c for c in text)


def scored(score):
    return [score.points, ", ".join(score.reasons)] if score else []


def data_of(view, most):
    """The view as lists and numbers; places of columns count from 0."""
    def shown(one):
        out = {"name": whole(one.name), "file": whole(one.file), "rows": one.rows, "columns": list(map(whole, one.columns)),
               "kinds": one.kinds, "values": one.values, "keys": [[key.columns, *scored(key.score)] for key in one.keys[:most]],
               "deps": [[d.left, d.right, int(d.by_key), *scored(d.score)] for d in one.dependencies[:most]]}
        out["left"] = [max(0, len(one.keys) - most), max(0, len(one.dependencies) - most)]
        return out

    def joined(joins):
        return [[j.table, j.columns, j.other, j.others, int(j.into_key), *scored(j.score)] for j in joins[:most]]

    return {"relations": list(map(shown, view.relations)), "joins": joined(view.joins), "tables": list(map(shown, view.tables)),
            "references": joined(view.references), "remarks": list(map(whole, view.remarks))}


def as_script_data(data):
    """JSON that no reader of HTML takes for an end of the script, and no reader of scripts for an end of a line."""
    text = json.dumps(data, ensure_ascii=False, separators=(",", ":"))
    for mark in "<>&\u2028\u2029":
        text = text.replace(mark, f"\\u{ord(mark):04x}")
    return text


def hash_of(text):
    return f"'sha256-{base64.b64encode(hashlib.sha256(text.encode('utf-8')).digest()).decode()}'"


def page(view, most):
    """The page."""
    style, script = part("page.css"), part("page.js")
    drawn = picture(*show_model.drawn_joins(view))
    # The picture has a style of its own.
    styles = " ".join(hash_of(text) for text in (style, drawn[drawn.index("<style>") + 7:drawn.index("</style>")]))
    policy = f"default-src 'none'; script-src {hash_of(script)}; style-src {styles}; base-uri 'none'; form-action 'none'"
    names = ", ".join(one.name for one in view.relations[:5])
    return part("page.html").format(
        policy=escape(policy), title=escape(whole(names)), style=style, picture=drawn, data=as_script_data(data_of(view, most)), script=script)
