#!/usr/bin/env python3
"""Tests of show.py: what a report holds comes with names, grouped, ranked and chosen, as text, JSON and a page; hostile reports do nothing.
The page is tried in a headless browser where there is one.

  test_show.py PROGRAM [TESTS..]
"""
import json
import os
import random
import re
import subprocess
import sys
import tempfile
import unittest
import xml.etree.ElementTree

import browser_for_tests
import report as reports
import schema_svg
import show
import show_model
from test_forged import Forger

TOOLS = os.path.dirname(os.path.abspath(__file__))
PROGRAM = os.path.abspath(sys.argv.pop(1)) if len(sys.argv) > 1 else ""
FORGED = 300
# A relation that no file has: dependencies of a key, of others, and a constant.
ALONE = b"""relation,gone/places.csv,5,9
column,1,place_id
column,2,postcode
column,3,city
column,4,country
column,5,planet
key,1
key,2 3
fd,1,2
fd,1,3
fd,3,4
fd,2,4
fd,,5
"""
MARKUP = ["</script><script>window.pwned=1</script>", "<img src=x onerror='window.pwned=1'>", '"><b onmouseover=window.pwned=1>', "<!--", "]]>",
          "{title}", "&lt;i&gt;", "'", '"', "\\", "a,b", "\u202egnp.exe", "\u2028window.pwned=1", "\x1b[31mred", "\x07", "a\nb", "${window.pwned=1}", "__proto__",
          "constructor", "", " ", "\udcff", "\U0001f600", "javascript:window.pwned=1", "</style>", "</title>", "</svg>", "<a href='http://example.invalid/'>"]


def quoted(*fields):
    return ",".join('"' + field.replace('"', '""') + '"' for field in fields) + "\n"


def text_of(data, *words):
    """The text that show.py writes of a report."""
    args = show.words(list(words))
    view = show_model.chosen(show_model.view_of(reports.read(data, show.PASSED_OVER), args.prefix, not args.report_only), args.column, args.table)
    return "".join(show.pieces(view, args))


class Alone(unittest.TestCase):
    """A report without its files."""

    def test_text(self):
        text = text_of(ALONE, "--report-only").split("\n")
        self.assertEqual(text[0], "places: 9 rows, 5 columns (gone/places.csv)")
        self.assertEqual([line.strip() for line in text[1:]],
                         ["place_id, postcode, city, country, planet", "keys", "place_id", "postcode, city", "dependencies",
                          "(always the same) -> planet", "postcode -> country", "city -> country", "and 2 of keys, each of which determines all columns",
                          ""])

    def test_files_that_are_gone(self):
        self.assertIn("remark: no scores: gone/places.csv can't be read: No such file or directory\n", text_of(ALONE))

    def test_choice(self):
        text = text_of(ALONE, "--report-only", "--column", "city")
        self.assertIn("postcode, city", text)
        self.assertNotIn("postcode -> country", text)
        self.assertNotIn("planet\n", text.split("keys")[1])
        self.assertIn("and 2 more (--most)", text_of(ALONE, "--report-only", "--most", "1"))

    def test_choice_of_tables(self):
        data = (b"relation,a.csv,1,3\ncolumn,1,x\nkey,1\nrelation,b.csv,2,3\ncolumn,1,x\ncolumn,2,y\nkey,1 2\nrelation,c.csv,1,3\ncolumn,1,z\nkey,1\n"
                b"ind,2.1,1.1\nind,3.1,2.1\n")
        text = text_of(data, "--report-only", "--table", "b", "--table", "c.csv")
        self.assertEqual([line.split(":")[0] for line in text.split("\n") if " rows" in line], ["b", "c"])
        self.assertIn("c.z -> b.x\n", text)
        self.assertNotIn("a.x", text)
        self.assertIn("remark: 1 join with other tables left out\n", text)

    def test_later_lines(self):
        self.assertIn("remark: 2 lines of `afd` passed over\n", text_of(ALONE + b"afd,1,2,3\nafd,1,3,1\n", "--report-only"))
        data = b"relation,a.csv,2,3\ncolumn,1,x\ncolumn,2,y\nkey,1 2\nrelation,b.csv,2,3\ncolumn,1,x\ncolumn,2,y\nnind,2.1 2.2,1.1 1.2\n"
        self.assertIn("b.x, b.y -> a.x, a.y", text_of(data, "--report-only"))

    def test_split(self):
        data = ALONE + b"table,1,1 2 3 5,1\ntable,2,2 4,2\nalternate,1,2 3\n"
        text = text_of(data, "--report-only", "--prefix", "my")
        self.assertIn("table my1: 4 columns (my1.csv)\n", text)
        self.assertIn("my1.postcode -> my2.postcode", text)
        self.assertIn("remark: --prefix, the word that --out had, says where the tables' rows are\n", text_of(data))

    def test_json(self):
        data = json.loads(text_of(ALONE, "--report-only", "--json"))
        relation = data["relations"][0]
        self.assertEqual((relation["name"], relation["file"], relation["rows"]), ("places", "gone/places.csv", 9))
        self.assertEqual([key["columns"] for key in relation["keys"]], [["place_id"], ["postcode", "city"]])
        self.assertIn({"left": ["place_id"], "right": ["postcode", "city"], "by_key": True}, relation["dependencies"])
        self.assertEqual(sum(len(d["right"]) for d in relation["dependencies"]), 5)

    def test_names_in_a_terminal(self):
        names = [name for name in MARKUP if "\x00" not in name]
        data = (quoted("relation", "\x1b]0;x\x07.csv", str(len(names)), "2") + "".join(quoted("column", str(k), n) for k, n in enumerate(names, 1)) + "key,1\n")
        text = text_of(data.encode("utf-8", "surrogateescape"), "--report-only")
        self.assertFalse(re.search("[\x00-\x09\x0b-\x1f\x7f\u2028\u202e\udcff]", text))
        json.loads(text_of(data.encode("utf-8", "surrogateescape"), "--report-only", "--json").encode("utf-8"))

    def test_picture(self):
        """It is XML whatever the names are, and each table has a place of its own."""
        rng = random.Random(5)
        for _ in range(60):
            tables = [show_model.Shown(rng.choice(MARKUP), "", rng.choices(MARKUP, k=rng.randint(1, 30)), rng.randint(-1, 9),
                                       [show_model.Key((0,))]) for _ in range(rng.randint(1, 9))]
            joins = []
            for _ in range(rng.randint(0, 12)):
                i, j = rng.randrange(len(tables)), rng.randrange(len(tables))
                joins.append(show_model.Join(i, (rng.randrange(len(tables[i].columns)),), j, (rng.randrange(len(tables[j].columns)),), True))
            text = schema_svg.picture(tables, joins)
            drawn = xml.etree.ElementTree.fromstring(text)
            places = [(float(e.get("x")), float(e.get("y"))) for e in drawn.iter("{http://www.w3.org/2000/svg}rect") if e.get("class") == "box"]
            self.assertEqual((len(set(places)), text.count("<title>")), (len(tables), len(joins)))
            for x, y in places:
                self.assertTrue(0 <= x < float(drawn.get("width")) and 0 <= y < float(drawn.get("height")))

    def test_layers(self):
        join = [show_model.Join(i, (0,), j, (0,), True) for i, j in ((0, 1), (1, 2), (3, 2), (2, 2), (4, 5), (5, 4))]
        layers = schema_svg.layers_of(6, join)
        self.assertEqual(layers[:4], [0, 1, 2, 0])
        self.assertEqual(sorted(layers[4:]), [0, 1])


class Hostile(unittest.TestCase):
    def setUp(self):
        held = tempfile.TemporaryDirectory()
        self.addCleanup(held.cleanup)
        before = os.getcwd()
        os.chdir(held.name)
        self.addCleanup(os.chdir, before)

    def shown(self, data):
        """Whether a report is shown, in each form; else it is refused by one sentence."""
        try:
            for form in ([], ["--json"], ["--svg"], ["--html"]):
                text = text_of(data, "--prefix", "t", *form)
                if form == ["--svg"]:
                    xml.etree.ElementTree.fromstring(text)
                if form == ["--html"]:
                    self.assertEqual((text.count("<script"), text.count("</script>")), (2, 2), data)
            return True
        except reports.Unreadable as why:
            self.assertTrue(str(why) and all(map(reports.is_plain, str(why))), data)
            return False

    def test_forged(self):
        kept = 0
        for seed in range(FORGED):
            with self.subTest(seed=seed):
                kept += self.shown(Forger(seed).report())
                self.assertFalse(os.path.exists("pwned"))
        self.assertGreater(kept, FORGED / 4)

    def test_cut_anywhere(self):
        data = ALONE + b"ind,1.2,1.1\ntable,1,1 2 3 5,1\ntable,2,2 4,2\nalternate,1,2 3\n"
        self.assertTrue(self.shown(data))
        for end in range(len(data)):
            self.shown(data[:end])

    def test_the_command_itself(self):
        """One sentence and status 1, or the text."""
        for data, words, wanted in [
            (b"", [], "the report has no relation"), (b"refused,x.csv,3,3\n", [], "x.csv, record 3: wrong number of fields"),
            (b"usage: depprof profile\n", [], "it is depprof's usage line"), (ALONE, ["--column", "citi"], "there is no column citi; there is city"),
            (ALONE, ["--table", "x"], "there is no table x"), (ALONE, ["--most", "0"], "argument --most: 0 is no number from 1 on"),
            (ALONE, ["--json", "--html"], "not allowed with argument"), (ALONE, ["no such report"], "No such file"), (b"\x00\xff", [], "record 1 of the report"),
            (ALONE + b"what,1\n", [], "record 14 of the report"),
        ]:
            done = subprocess.run([sys.executable, os.path.join(TOOLS, "show.py"), *words], input=data, capture_output=True)
            error = done.stderr.decode()
            self.assertEqual((done.returncode, done.stdout, error.count("\n")), (1, b"", 1), error)
            self.assertTrue(error.startswith("show: ") and wanted in error, error)
        if os.path.exists("/dev/full"):
            with open("/dev/full", "wb") as full:
                done = subprocess.run([sys.executable, os.path.join(TOOLS, "show.py"), "--report-only"], input=ALONE, stdout=full, stderr=subprocess.PIPE)
            self.assertEqual((done.returncode, done.stderr.count(b"\n")), (1, 1), done.stderr)


@unittest.skipUnless(os.access(PROGRAM, os.X_OK), "no program")
class OfTheProgram(unittest.TestCase):
    def setUp(self):
        held = tempfile.TemporaryDirectory()
        self.addCleanup(held.cleanup)
        before = os.getcwd()
        os.chdir(held.name)
        self.addCleanup(os.chdir, before)

    def profiled(self, *names):
        return subprocess.run([PROGRAM, "profile", *names], capture_output=True, check=True).stdout

    def test_scores(self):
        """A place determines its country in 200 rows, which is hardly chance; notes that never come twice say nothing."""
        rng = random.Random(8)
        places = [(f"P{k}", f"country {k % 7}") for k in range(40)]
        with open("visits.csv", "w", encoding="utf-8") as file:
            file.write("visit_id,place,country,guests\n")
            for k in range(200):
                place, country = rng.choice(places)
                file.write(f"{k},{place},{country},{rng.randint(1, 9)}\n")
        with open("places.csv", "w", encoding="utf-8") as file:
            file.write("place,area\n" + "".join(f"{place},{rng.randint(10, 99)}\n" for place, _ in places))
        data = json.loads(text_of(self.profiled("visits.csv", "places.csv"), "--json"))
        visits = data["relations"][0]
        self.assertEqual(visits["keys"][0]["columns"], ["visit_id"])
        self.assertGreater(visits["keys"][0]["score"], 90)
        best = [d for d in visits["dependencies"] if not d["by_key"]][0]
        self.assertEqual((best["left"], best["right"], best["score"]), (["place"], ["country"], 100))
        self.assertEqual((visits["kinds"][:2], visits["values"][0]), (["integer", "text"], 200))
        join = data["joins"][0]
        self.assertEqual((join["from"], join["columns"], join["to"], join["others"], join["key"]), ("visits", ["place"], "places", ["place"], True))
        self.assertGreater(join["score"], 80)
        stale = self.profiled("visits.csv").replace(b",4,200\n", b",4,201\n")
        self.assertIn("no scores: visits.csv has 200 rows, and the report says 201", text_of(stale))


class InABrowser(unittest.TestCase):
    @classmethod
    def setUpClass(cls):
        if not browser_for_tests.found():
            print("show: no chromium, pages are not tried in a browser")
            raise unittest.SkipTest("no browser")
        cls.folder = tempfile.TemporaryDirectory()
        cls.browser = browser_for_tests.Browser()

    @classmethod
    def tearDownClass(cls):
        if hasattr(cls, "browser"):
            cls.browser.end()
            cls.folder.cleanup()

    def open(self, data, *words, **how):
        path = os.path.join(self.folder.name, "page.html")
        with open(path, "w", encoding="utf-8") as file:
            file.write(text_of(data, "--html", "--report-only", *words))
        return self.browser.open(path, **how)

    def quiet(self):
        """Nothing was fetched, no script failed, and none of the names' ran."""
        self.assertEqual((self.browser.requests(), self.browser.complaints(), self.browser.value("typeof window.pwned")), ([], [], "undefined"))

    def lines(self, title):
        """The texts of the lines of a list that are there, and how many the list says that it has."""
        return self.browser.value(f"""(() => {{ const list = [...document.querySelectorAll('h3')].find(h => h.firstChild.data === {json.dumps(title + ' ')});
            return [[...list.parentNode.querySelectorAll('.line')].map(line => [...line.children].slice(2).map(c => c.textContent).join(' ')),
                list.querySelector('.count').textContent] }})()""")

    def search(self, text):
        self.browser.value(f"""(() => {{ const box = document.getElementById('search'); box.value = {json.dumps(text)};
            box.dispatchEvent(new Event('input')); return new Promise(done => setTimeout(done, 120)) }})()""")

    def click(self, selector):
        self.browser.value(f"(document.querySelector({json.dumps(selector)}).click(), new Promise(done => setTimeout(done, 120)))")

    def test_search_sort_and_choice(self):
        self.open(ALONE)
        self.assertEqual(self.lines("Dependencies"), [["(always the same) \u2192 planet", "postcode \u2192 country", "city \u2192 country"], "3 of 4"])
        self.search("-> country")
        self.assertEqual(self.lines("Dependencies")[0], ["postcode \u2192 country", "city \u2192 country"])
        self.search("CITY")
        self.assertEqual(self.lines("Dependencies")[0], ["city \u2192 country"])
        self.assertEqual(self.lines("Keys"), [["postcode, city"], "1 of 2"])
        self.search("")
        self.click(".heads [data-head=left] button")
        self.assertEqual(self.lines("Keys")[0], ["place_id", "postcode, city"])
        self.click(".heads [data-head=left] button")
        self.assertEqual(self.lines("Keys")[0], ["postcode, city", "place_id"])
        self.click("[data-place='0.2']")
        self.assertEqual(self.lines("Keys"), [["postcode, city"], "1 of 2"])
        self.click("[data-chip='0.2']")
        self.assertEqual(self.lines("Keys")[1], "2")
        self.click("input[type=checkbox]")
        self.assertEqual(len(self.lines("Dependencies")[0]), 4)
        self.click(".line")
        self.assertEqual(self.browser.value("document.querySelector('.told').textContent"), "postcode, city")
        self.quiet()

    def test_keys_of_the_keyboard(self):
        self.open(ALONE)
        press = """(key => [...document.querySelectorAll('.list')].at(-1).dispatchEvent(new KeyboardEvent('keydown', { key, cancelable: true })))"""
        told = "[...document.querySelectorAll('.told')].at(-1).textContent"
        for key, wanted in [("ArrowDown", "(always the same) \u2192 planet"), ("End", "city \u2192 country"), ("End", "city \u2192 country"), ("ArrowUp", "postcode \u2192 country"),
                            ("PageUp", "(always the same) \u2192 planet"), ("x", "(always the same) \u2192 planet")]:
            self.browser.value(f"{press}({json.dumps(key)})")
            self.assertEqual(self.browser.value(told), wanted)

    def test_light_and_dark(self):
        colour = "getComputedStyle(document.body).backgroundColor"
        self.open(ALONE)
        light = self.browser.value(colour)
        self.click("#theme")
        turned = self.browser.value(colour)
        self.open(ALONE, dark=True)
        self.assertEqual(self.browser.value(colour), turned)
        self.assertNotEqual(light, turned)
        self.click("#theme")
        self.assertEqual(self.browser.value(colour), light)

    def test_hostile_names(self):
        data = ""
        for number in range(3):
            data += quoted("relation", MARKUP[number] + ".csv", str(len(MARKUP)), "5")
            data += "".join(quoted("column", str(k), name) for k, name in enumerate(MARKUP, 1))
            data += "".join(f"key,{k}\nfd,{k},{k % len(MARKUP) + 1}\nfd,{k} {len(MARKUP)},1\n" for k in range(2, len(MARKUP)))
        data += "".join(f"ind,{i}.{k},{j}.{k + 1}\n" for i in (1, 2, 3) for j in (1, 2, 3) for k in range(2, len(MARKUP) - 1))
        self.open(data.encode("utf-8", "surrogateescape"))
        self.quiet()
        self.assertEqual(self.browser.value("document.querySelectorAll('script, img, a, b, iframe').length"), 2)
        shown = self.browser.value("[...document.querySelectorAll('td button')].map(b => b.textContent)")[:len(MARKUP)]
        self.assertEqual(shown[:3], MARKUP[:3])
        self.click("[data-place='0.0']")
        self.search("<script>")
        self.quiet()
        # The policy stops a script that came in all the same.
        self.browser.value("(() => { const s = document.createElement('script'); s.textContent = 'window.pwned = 1'; document.body.append(s) })()")
        self.assertEqual(self.browser.value("typeof window.pwned"), "undefined")

    def test_large(self):
        """40 columns and 10,000 dependencies and more: only the lines in view are there. The seconds leave room for a machine that does much
        else."""
        rng = random.Random(9)
        data = quoted("relation", "wide.csv", "40", "1000") + "".join(quoted("column", str(k), f"column_{k:02}") for k in range(1, 41))
        lefts = {tuple(sorted(rng.sample(range(1, 40), rng.randint(2, 5)))) for _ in range(12_000)}
        data += "key,40\n" + "".join(f"fd,{' '.join(map(str, left))},{rng.choice([k for k in range(1, 40) if k not in left])}\n" for left in sorted(lefts))
        seconds = self.open(data.encode())
        self.assertLess(seconds, 20)
        self.assertLess(self.browser.value("document.querySelectorAll('*').length"), 1500)
        self.assertEqual(self.lines("Dependencies")[1], f"{len(lefts):,}")
        took = self.browser.value("""(async () => {
            const box = document.getElementById('search'), list = [...document.querySelectorAll('.list')].at(-1), times = [];
            for (const text of ['c', 'column_07', 'column_07 -> column_09', '']) {
                const began = performance.now();
                box.value = text;
                box.dispatchEvent(new Event('input'));
                await new Promise(done => setTimeout(() => requestAnimationFrame(done), 61));
                times.push(performance.now() - began);
            }
            for (const head of list.parentNode.querySelectorAll('[data-head] button')) {
                const began = performance.now();
                head.click();
                await new Promise(requestAnimationFrame);
                times.push(performance.now() - began);
            }
            list.scrollTop = list.scrollHeight;
            await new Promise(done => setTimeout(done, 100));
            return [Math.max(...times), list.querySelectorAll('.line').length, list.querySelector('.line:last-child').textContent];
        })()""")
        self.assertLess(took[0], 5000)
        self.assertTrue(0 < took[1] < 60 and took[2], took)
        self.quiet()

    def test_narrow(self):
        self.open(ALONE, width=400)
        self.assertLessEqual(self.browser.value("document.documentElement.scrollWidth"), 400)


if __name__ == "__main__":
    unittest.main()
