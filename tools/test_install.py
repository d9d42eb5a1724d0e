#!/usr/bin/env python3
"""Tests of what makes depprof an installed program: version, man page, completions and the install itself, into a temporary folder.

  test_install.py PROGRAM [TESTS..]
"""
import os
import pty
import re
import select
import shutil
import subprocess
import sys
import tempfile
import time
import unittest

import completions
import man_page
from readme_parts import sections_of, usages_of

TOP = os.path.dirname(os.path.dirname(os.path.abspath(__file__)))
PROGRAM = os.path.abspath(sys.argv.pop(1)) if len(sys.argv) > 1 else ""
TOOLS = ["depprof-profile-table", "depprof-schema-dot", "depprof-schema-sql", "depprof-show", "depprof-to-csv"]


def text_of(*path):
    with open(os.path.join(TOP, *path), encoding="utf-8") as file:
        return file.read()


class Made(unittest.TestCase):
    """What is checked in is what the scripts make of README."""

    def test_man_page(self):
        self.assertEqual(text_of("docs", "depprof.1"), man_page.page(text_of("README.md"), text_of("VERSION").strip()), "make it anew: tools/man_page.py")

    def test_completions(self):
        self.assertEqual(text_of("completions", "depprof"), completions.made("bash"), "make it anew: tools/completions.py")
        self.assertEqual(text_of("completions", "_depprof"), completions.made("zsh"), "make it anew: tools/completions.py")

    def test_usages_are_the_program_s(self):
        """The usage lines of README are those of the definition of the usage line."""
        pieces = re.findall(r'codes "([a-z]+ [^"]*(?:FILE|SEED|CERT)[^"]*)"', text_of("crates", "cli_words", "specs", "Usage.antt"))
        self.assertGreater(len(pieces), 3)
        self.assertEqual(sorted(usages_of(sections_of(text_of("README.md")))), sorted(pieces))

    def test_version(self):
        version = text_of("VERSION").strip()
        self.assertRegex(version, r"^[0-9]+\.[0-9]+\.[0-9]+$")
        self.assertIn(f"version {version}", text_of("README.md"))
        self.assertIn(f"\n## {version}\n", text_of("CHANGELOG.md"))


class OfReadme(unittest.TestCase):
    def test_page_of_hostile_text(self):
        """No line of a document becomes a request of troff."""
        sections = "".join(f"## {title}\n\n.de x\n'br `.so /etc/passwd` \\n(.z \\*[x] - ` ^ ~\n\n    .so /etc/passwd\n    \\X'x'\n\n- .item\n\n"
                           "| A | B |\n|---|---|\n| `a|b` | .TE |\n| .TS | T} |\n\n" for title in man_page.HEADS)
        page = man_page.page("depprof does this: that.\n\n" + sections, "1.2.3")
        requests = {line.split()[0] for line in page.split("\n")[2:] if line.startswith((".", "'"))}
        self.assertEqual(requests, {".TH", ".SH", ".PP", ".RS", ".RE", ".EX", ".EE", ".IP", ".TS", ".TE"})
        self.assertEqual(page.count("\n.TE\n"), len(man_page.HEADS))
        self.assertNotRegex(page.split("\n", 2)[2], r"\\[^efb(&-]")

    def test_parts(self):
        sections = sections_of("# x\n\nabout\n\n## One\n\ntext `a`\nmore\n\n    depprof one [--width W] FILE..\n\n- a\n- b\n  c\n\n| a | b |\n|---|---|\n\n"
                               "`depprof two SEED` does\n\n    depprof one\n    two\n\nend\n\n    depprof three FILE\n    depprof four SEED\n")
        self.assertEqual([(s.title, [k for k, _ in s.blocks]) for s in sections], [
            ("", []), ("x", ["paragraph"]), ("One", ["paragraph", "code", "list", "table", "paragraph", "code", "paragraph", "code"])])
        self.assertEqual(usages_of(sections), ["one [--width W] FILE..", "two SEED", "three FILE", "four SEED"])

    def test_commands(self):
        c = completions.command_of("normalize [--workers N] --out PREFIX [--nulls equal|distinct] FILE..")
        self.assertEqual((c.name, [o for o, _, _ in c.options], c.takes_files), ("normalize", ["--workers", "--out", "--nulls"], True))
        self.assertEqual(c.options[2][1:], ("equal|distinct", ["equal", "distinct"]))
        self.assertFalse(completions.command_of("demo SEED").takes_files)

    @unittest.skipUnless(shutil.which("groff"), "no groff")
    def test_the_page_is_read(self):
        done = subprocess.run(["groff", "-t", "-man", "-Tutf8", "-ww", os.path.join(TOP, "docs", "depprof.1")], capture_output=True, text=True)
        self.assertEqual((done.returncode, done.stderr), (0, ""))
        plain = re.sub(r"\x1b\[[0-9;]*m|.\x08", "", done.stdout)
        for word in ("EXIT STATUS", "depprof session", "DEPPROF_PROGRESS", "more than 128 columns"):
            self.assertIn(word, re.sub(" +", " ", plain))


@unittest.skipUnless(os.access(PROGRAM, os.X_OK), "no program")
class Installed(unittest.TestCase):
    @classmethod
    def setUpClass(cls):
        cls.held = tempfile.TemporaryDirectory()
        cls.prefix = os.path.join(cls.held.name, "a 'place' $HOME")
        cls.done = cls.install(cls.prefix, PROGRAM)

    @classmethod
    def tearDownClass(cls):
        cls.held.cleanup()

    @staticmethod
    def install(*words, **variables):
        return subprocess.run([os.path.join(TOP, "install"), *words], capture_output=True, text=True, env={**os.environ, **variables}, cwd="/")

    def run_in(self, *words, **more):
        path = os.path.join(self.prefix, "bin") + os.pathsep + os.environ["PATH"]
        return subprocess.run(words, env={**os.environ, "PATH": path}, cwd=os.path.join(TOP, "examples"), capture_output=True, text=True, **more)

    def test_files(self):
        self.assertEqual((self.done.returncode, self.done.stderr), (0, ""))
        self.assertEqual(sorted(os.listdir(os.path.join(self.prefix, "bin"))), ["depprof", *TOOLS])
        for path in ("share/man/man1/depprof.1", "share/bash-completion/completions/depprof", "share/zsh/site-functions/_depprof",
                     "share/doc/depprof/README.md", "share/depprof/VERSION"):
            self.assertTrue(os.path.isfile(os.path.join(self.prefix, path)), path)
        tools = os.listdir(os.path.join(self.prefix, "share/depprof/tools"))
        self.assertFalse([name for name in tools if "test" in name])

    def test_program_and_tools(self):
        report = self.run_in("depprof", "profile", "customers.csv", "sales.csv").stdout
        self.assertTrue(report.startswith("relation,customers.csv,4,8\n"))
        self.assertIn("sales.customer -> customers.customer", self.run_in("depprof-show", input=report).stdout)
        self.assertIn("</html>", self.run_in("depprof-show", "--html", input=report).stdout)
        self.assertIn("CREATE TABLE", self.run_in("depprof-schema-sql", input=report).stdout)
        self.assertIn("digraph", self.run_in("depprof-schema-dot", input=report).stdout)
        self.assertEqual(self.run_in("depprof-to-csv", "-", input="a;b\n1;2\n").stdout, "a,b\n1,2\n")
        self.assertEqual(self.run_in("depprof-profile-table", "--help").returncode, 0)

    def test_again_and_below_another_folder(self):
        other = os.path.join(self.held.name, "root")
        for _ in range(2):
            done = self.install("/usr", PROGRAM, DESTDIR=other)
            self.assertEqual((done.returncode, done.stderr), (0, ""))
        self.assertTrue(os.access(os.path.join(other, "usr/bin/depprof"), os.X_OK))

    def test_a_link_is_not_followed(self):
        other = os.path.join(self.held.name, "linked")
        os.makedirs(os.path.join(other, "bin"))
        kept = os.path.join(self.held.name, "kept")
        with open(kept, "w", encoding="utf-8") as file:
            file.write("as it was")
        for name in ("depprof", "depprof-show"):
            os.symlink(kept, os.path.join(other, "bin", name))
        self.assertEqual(self.install(other, PROGRAM).returncode, 0)
        with open(kept, encoding="utf-8") as file:
            self.assertEqual(file.read(), "as it was")

    def test_what_is_wrong(self):
        file = os.path.join(self.held.name, "file")
        with open(file, "w", encoding="utf-8"):
            pass
        prefix = os.path.join(self.held.name, "prefix")
        for words in ([], ["a", "b", "c"], ["-x", PROGRAM], ["here", PROGRAM], [prefix, os.path.join(prefix, "none")], [prefix, self.held.name]):
            done = self.install(*words)
            self.assertEqual((done.returncode, done.stdout, done.stderr.count("\n")), (1, "", 1), done.stderr)
            self.assertTrue(done.stderr.startswith("install: "))
        done = self.install(os.path.join(file, "below"), PROGRAM)
        self.assertEqual((done.returncode, done.stdout), (1, ""))
        self.assertIn("can't be written", done.stderr)


class Completed(unittest.TestCase):
    def bash(self, *words):
        script = (f"source '{TOP}/completions/depprof'; COMP_WORDS=({' '.join(words)} \"$LAST\"); COMP_CWORD={len(words)}; _depprof 2>/dev/null;"
                  " printf '%s\\n' \"${COMPREPLY[@]}\"")
        held = tempfile.TemporaryDirectory()
        self.addCleanup(held.cleanup)
        for name in ("one file.csv", "$(touch pwned)", "other.csv"):
            with open(os.path.join(held.name, name), "w", encoding="utf-8"):
                pass

        def told(last):
            done = subprocess.run(["bash", "-c", script], cwd=held.name, env={**os.environ, "LAST": last}, capture_output=True, text=True)
            self.assertFalse(os.path.exists(os.path.join(held.name, "pwned")))
            return sorted(done.stdout.split("\n")[:-1])
        return told

    @unittest.skipUnless(shutil.which("bash"), "no bash")
    def test_bash(self):
        self.assertEqual(self.bash("depprof")("n"), ["nary", "normalize"])
        self.assertEqual(self.bash("depprof")("s"), ["session", "synthesize"])
        self.assertEqual(self.bash("depprof")("c"), ["certify", "check"])
        self.assertEqual(self.bash("depprof", "profile")("--n"), ["--nulls"])
        self.assertEqual(self.bash("depprof", "profile", "--nulls")(""), ["distinct", "equal"])
        self.assertEqual(self.bash("depprof", "session", "--workers")("1"), ["1", "10", "11", "12", "13", "14", "15", "16"])
        self.assertEqual(self.bash("depprof", "profile")("o"), ["one file.csv", "other.csv"])
        self.assertEqual(self.bash("depprof", "normalize", "--out")("$"), ["$(touch pwned)"])
        self.assertEqual(self.bash("depprof", "demo")(""), [""])

    @unittest.skipUnless(shutil.which("zsh"), "no zsh")
    def test_zsh(self):
        """In a terminal of its own: a word that one thing completes is completed."""
        with tempfile.TemporaryDirectory() as folder:
            with open(os.path.join(folder, "trips.csv"), "w", encoding="utf-8"):
                pass
            process, terminal = pty.fork()
            if not process:
                os.chdir(folder)
                os.environ.update(HOME=folder, TERM="dumb", PS1="", LANG="C.UTF-8")
                os.execvp("zsh", ["zsh", "-f", "-i"])
            try:
                self.zsh_in(terminal, folder)
            finally:
                os.close(terminal)
                os.waitpid(process, 0)

    def zsh_in(self, terminal, folder):
        shutil.copy(os.path.join(TOP, "completions", "_depprof"), folder)

        def sent(text, until):
            os.write(terminal, text.encode())
            told, end = "", time.monotonic() + 90
            while until not in told and time.monotonic() < end:
                if select.select([terminal], [], [], 0.2)[0]:
                    told += os.read(terminal, 4096).decode(errors="replace")
            self.assertIn(until, told)
        sent("unsetopt zle_bracketed_paste; PS1='> '; fpath=($PWD $fpath); autoload -U compinit; compinit -u -d dump; depprof() { print \"<$@>\" }; print re''ady\n",
             "ready")
        sent("depprof prof\t--nul\tdist\tt\t\n", "<profile --nulls distinct trips.csv>")
        sent("exit\n", "")


if __name__ == "__main__":
    unittest.main()
