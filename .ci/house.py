#!/usr/bin/env python3
"""Checks the documents against the tree, and the length of files. It reads text alone, for some seconds.

  house.py [--counts]        with --counts it only counts words

- A document has at most so many words (`WORDS`), and a paragraph of a crate's README or of what is proved at most `PARAGRAPH`.
- Each path in backquotes, and each link to a file or a head in one, is there: as it is written, or below `crates/`; `specs/Y` and
  `src/y.rt` are those of the crate whose README it is, elsewhere of some crate; `x/specs/Y` is `crates/x/specs/Y.antt`, and names that
  follow it in a row of the map are in the same folder.
- Each name in backquotes of `NAMING` is in the code, specs or proofs of some crate, in `crates.txt` or in the tools.
- Each spec file is named in the map's table of definitions or in its crate's README.
- Each crate has a README, and the map's two lists of layers have each crate and what its code calls.
- The table of thresholds has the values of the code.
- In the table of public contracts each call, clause and law is there (a crate's code has a function with such a clause).
- No file of code or proofs has more than 600 lines, but for those below, which have no more than they have there.

A crate that `crates.txt` names and that is not there yet is passed over, with what comes with it (`WITH`).
"""
import glob
import os
import re
import sys

TOP = os.path.dirname(os.path.dirname(os.path.abspath(__file__)))
WORDS = {"README.md": 1500, "docs/DECISIONS.md": 4000, "docs/ARCHITECTURE.md": 3000}
WITH = {"cover_cert": ("docs/CERTIFICATES.md", "tools/check_cert.py")}
PARAGRAPH = 120
LINES = 600
LONG = {
    "crates/cover_core/src/book.rt": 802,
    "crates/validator/src/cache.rt": 739,
    "crates/least_sets/proofs/Branches.antt": 795,
}
MAP = "docs/ARCHITECTURE.md"
PROVED = "docs/PROVED.md"
NAMING = [MAP, PROVED, "docs/DECISIONS.md"]  # and the README of each crate
NO_NAMES = ("unsafe", "NAME_tests")
OF_A_CRATE = ("specs", "proofs", "src", "must-fail")
FOLDERS = OF_A_CRATE + ("tools", "docs", "bench", "examples", "crates", "completions", "more-edits", ".ci")
MADE = ("out",)  # folders that a build makes


def read(path):
    with open(os.path.join(TOP, path), encoding="utf-8") as file:
        return file.read()


def found(path):
    """The files and folders of this pattern, from the top."""
    return sorted(os.path.relpath(name, TOP) for name in glob.glob(os.path.join(TOP, path), recursive=True))


def crates():
    """Each crate of crates.txt, and the crates that it may name."""
    lines = [line.split(":") for line in read("crates.txt").split("\n") if ":" in line and not line.startswith("#")]
    return {head.split()[0]: names.split() for head, names in lines}


def without_blocks(text):
    """The text without fenced blocks and indented ones."""
    text = re.sub(r"^```.*?^```", "", text, flags=re.DOTALL | re.MULTILINE)
    return "\n".join("" if line.startswith("    ") else line for line in text.split("\n"))


def places(path, document):
    """Where a path may be that a document writes so. One of a crate's folders is that of the README's crate, or else of some crate."""
    own = os.path.dirname(document)
    inside = path.split("/")[0] in OF_A_CRATE
    for base in ([own if own.startswith("crates/") else "crates/*"] if inside else ["", "crates"]):
        name = os.path.normpath(os.path.join(base, path))
        yield name
        yield name + ".antt"


def is_there(path, document):
    return any(found(place) for place in places(path, document))


def is_path(word):
    """Whether what is in backquotes is meant as a path of the repository."""
    if not re.fullmatch(r"[\w./*-]+", word) or word.startswith(("/", "~", "-")) or word.endswith(".."):
        return False
    parts = word.split("/")
    if any(part in MADE for part in parts):
        return False
    return len(parts) > 1 and (parts[0] in FOLDERS or parts[1] in FOLDERS)


def named_specs(text, document):
    """The spec files that a text names: `x/specs/Y`, or `specs/Y` in a README, and single names behind them in the line."""
    for line in text.split("\n"):
        folder = None
        for word in re.findall(r"`([^`]+)`", line):
            if re.fullmatch(r"[\w/]*(specs|proofs)/\w+", word):
                folder = os.path.dirname(word)
                yield word
            elif folder and re.fullmatch(r"[A-Z]\w*", word) and is_there(f"{folder}/{word}", document):
                yield f"{folder}/{word}"


def resolved(path, document):
    return {name for place in places(path, document) for name in found(place)}


def documents():
    return ["README.md"] + found("docs/*.md") + found("crates/*/README.md")


def check_words():
    for document, most in WORDS.items():
        count = len(read(document).split())
        if count > most:
            yield f"{document}: {count} words, {most} at most"


def anchors(document):
    """What links to the heads of a document are called."""
    heads = re.findall(r"^#+ (.*)$", without_blocks(read(document)), re.MULTILINE)
    return {re.sub(r"[^\w -]", "", head.lower()).replace(" ", "-") for head in heads}


def check_paragraphs():
    for document in [PROVED] + found("crates/*/README.md"):
        for part in re.split(r"\n\n|\n(?=- )", read(document)):
            count = len(part.split())
            if count > PARAGRAPH and not part.startswith("|"):
                yield f"{document}: a paragraph of {count} words, {PARAGRAPH} at most: {' '.join(part.split()[:6])} .."


def missing_paths(document):
    text = without_blocks(read(document))
    for number, line in enumerate(text.split("\n"), 1):
        words = [words.split()[0] for words in re.findall(r"`([^`]+)`", line) if words.split()]
        links = [link.split("#") for link in re.findall(r"\]\(([^)]+)\)", line) if "://" not in link]
        for path in [word for word in words if is_path(word)]:
            if not is_there(path, document):
                yield path, f"{document}:{number}: no `{path}`"
        for path, *heads in links:
            target = os.path.normpath(os.path.join(os.path.dirname(document), path)) if path else document
            if not os.path.exists(os.path.join(TOP, target)):
                yield target, f"{document}:{number}: no {path}"
            elif heads and heads[0] not in anchors(target):
                yield target, f"{document}:{number}: no head #{heads[0]} in {target}"
        folder = None
        for word in re.findall(r"`([^`]+)`", line) if line.startswith("|") else []:
            if re.fullmatch(r"\w+/(specs|proofs)/\w+", word):
                folder = os.path.dirname(word)
            elif folder and re.fullmatch(r"[A-Z]\w*", word) and "/specs/" in line.split("|")[-2] and document == MAP:
                if not is_there(f"{folder}/{word}", document):
                    yield f"{folder}/{word}", f"{document}:{number}: no `{word}` in {folder}"


def check_names(gone):
    names = set()
    for path in found("crates/*/src/**/*.rt") + found("crates/*/[sp]*/**/*.antt") + found("tools/*.py") + ["crates.txt"]:
        names |= set(re.findall(r"\w+", read(path)))
    for document in NAMING + found("crates/*/README.md"):
        for number, line in enumerate(without_blocks(read(document)).split("\n"), 1):
            if any(name in line for name in gone):
                continue
            for word in re.findall(r"`([A-Za-z_]\w*(?:::\w+)*)`", line):
                for name in word.split("::"):
                    if name not in names and name not in NO_NAMES and not is_there(f"specs/{name}", document):
                        yield f"{document}:{number}: no {word}"


def check_specs():
    named = set()
    for document in [MAP] + found("crates/*/README.md"):
        for path in named_specs(read(document), document):
            named |= resolved(path, document)
    for path in found("crates/*/specs/*.antt"):
        if os.path.basename(path) != "Lib.antt" and path not in named:
            yield f"{path} is in no table of {MAP} and in no README of its crate"


def code_of(crate):
    """The code of a crate, without comments, clauses and tests."""
    for path in found(f"crates/{crate}/src/**/*.rt"):
        if "/tests" not in path:
            text = re.sub(r"//.*$", "", read(path), flags=re.MULTILINE)
            yield re.sub(r"^\s*(ghost|requires|ensures|invariant)\b.*$", "", text, flags=re.MULTILINE)


def called(crate, may):
    """The crates of this repository that the code of one calls."""
    names = {name for text in code_of(crate) for name in re.findall(r"\b([a-z_][a-z0-9_]*)::", text)}
    return {name for name in may if name in names}


def check_layers(all_crates, gone):
    text = read(MAP)
    blocks = re.findall(r"^    depprof\b.*?\n\n", text, re.DOTALL | re.MULTILINE)
    if len(blocks) < 2:
        yield f"{MAP}: two lists of crates are wanted, the layers and who calls whom"
        return
    layers = [line.split()[0] for line in blocks[0].rstrip("\n").split("\n")]
    calls = {line.split()[0]: set(line.split()[1:]) for line in blocks[1].rstrip("\n").split("\n")}
    ours = [name for name in all_crates if not name.endswith("_tests")]
    for name in sorted(set(ours) ^ set(layers)):
        yield f"{MAP}: {name} is in one of crates.txt and the layers"
    for name in ours:
        if name in gone or name not in layers:
            continue
        code = called(name, all_crates[name]) - {"rel_base", "col_set"}
        code = {other for other in code if other in ours} - gone
        listed = calls.get(name, set()) - gone
        if code != listed:
            yield f"{MAP}: {name} calls {' '.join(sorted(code)) or 'none'}, not {' '.join(sorted(listed)) or 'none'}"
        for other in code & set(layers):
            if layers.index(other) < layers.index(name):
                yield f"{MAP}: {name} calls {other}, which is above it"


def check_readmes(all_crates, gone):
    for name in all_crates:
        if name not in gone and not os.path.exists(os.path.join(TOP, "crates", name, "README.md")):
            yield f"crates/{name}: no README.md"


def value_of(text):
    """The value of a number as code and table write it, as `1 << 14`, `2^14`, `1_000` or `1,000`."""
    text = re.sub(r"[_,]", "", text)
    power = re.fullmatch(r"(\d+)(?: << |\^)(\d+)", text)
    if power:
        base, exponent = int(power.group(1)), int(power.group(2))
        return base << exponent if "<<" in text else base**exponent
    return int(text) if text.isdigit() else text


def check_thresholds():
    document = "docs/DECISIONS.md"
    rows = re.findall(r"^\|(`\w+`(?:, `\w+`)*)\|([^|]*)\|`([^`]*)`\|", read(document), re.MULTILINE)
    if not rows:
        yield f"{document}: no table of thresholds"
    for names, values, path in rows:
        names, values = re.findall(r"`(\w+)`", names), values.split(", ")
        if not os.path.exists(os.path.join(TOP, "crates", path)):
            continue  # a path that is not there
        code = read(f"crates/{path}")
        for name, value in zip(names, values):
            const = re.search(rf"\bconst {name}: [^=]*= (.*);", code)
            if not const or value_of(const.group(1)) != value_of(value) or len(names) != len(values):
                yield f"{document}: {name} is {const.group(1) if const else 'not'} in crates/{path}, not {value}"


def heads_of(code, name):
    """What stands before the bodies of the functions of this name."""
    for begin in re.finditer(rf"\bfn {name}\b", code):
        rest = code[begin.start():]
        end = re.search(r"^ *\{$", rest, re.MULTILINE)
        yield rest[: end.start()] if end else rest


def check_contracts(gone):
    for line in read(PROVED).split("\n"):
        cells = [cell.strip() for cell in line.split("|")]
        crate = cells[1].strip("`") if len(cells) == 5 and re.fullmatch(r"`\w+`", cells[1]) else None
        if not crate or crate in gone:
            continue
        code = "\n".join(read(path) for path in found(f"crates/{crate}/src/**/*.rt"))
        for call, clauses in re.findall(r"`([\w:]+)`(?: \(([^)]*)\))?", cells[2]):
            heads = list(heads_of(code, call.split("::")[-1]))
            if not heads:
                yield f"{PROVED}: {crate} has no {call}"
            for clause in re.findall(r"`(\w+)`", clauses):
                if not any(re.search(rf"\bensures {clause}\b", head) for head in heads):
                    yield f"{PROVED}: {call} of {crate} has no clause {clause}"
        for law in re.findall(r"`(\w+)`", cells[3]):
            if not re.search(rf"\bfn {law}\b", code):
                yield f"{PROVED}: {crate} has no law {law}"


def check_lines():
    for path in found("crates/**/*.rt") + found("crates/**/*.antt"):
        if any(part in MADE for part in path.split("/")):
            continue
        count = read(path).count("\n")
        most = LONG.get(path, LINES)
        if count > most:
            yield f"{path}: {count} lines, {most} at most"


def counts():
    for document in ["README.md"] + found("docs/*.md"):
        print(f"{document}: {len(read(document).split())} words")
    for path in found("crates/*/README.md"):
        text = read(path)
        longest = max(len(part.split()) for part in text.split("\n\n"))
        print(f"{path}: {len(text.split())} words, {longest} in one paragraph")


def main():
    if sys.argv[1:] == ["--counts"]:
        counts()
        return 0
    all_crates = crates()
    gone = {name for name in all_crates if not os.path.isdir(os.path.join(TOP, "crates", name))}
    wrong, later = [], []
    for document in documents():
        for path, message in missing_paths(document):
            is_later = any(path.startswith((f"{name}/", f"crates/{name}/")) or path in WITH.get(name, ()) for name in gone)
            (later if is_later else wrong).append(message)
    wrong += [*check_words(), *check_paragraphs(), *check_specs(), *check_layers(all_crates, gone), *check_readmes(all_crates, gone)]
    wrong += [*check_names(gone), *check_thresholds(), *check_contracts(gone), *check_lines()]
    for message in later:
        print(f"house: with {', '.join(sorted(gone))}, which is not there yet: {message}")
    for message in wrong:
        print(f"house: {message}")
    print(f"house: {len(documents())} documents, {len(wrong)} faults")
    return 1 if wrong else 0


if __name__ == "__main__":
    sys.exit(main())
