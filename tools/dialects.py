"""How sqlite, PostgreSQL and MySQL (or MariaDB) write names, types and values, so that each value comes out as it went in.

A script is lines of plain SQL in UTF-8: no control character but the end of a line stands in it, so that neither a shell's commands nor
its reading of lines take part. What an engine can't take as a value of a type is a text, and what is no text is bytes.
"""
import re
import unicodedata

from column_types import BOOLEAN, BYTES, DATE_KIND, DECIMAL, INTEGER, NOTHING, TEXT, TIMESTAMP
from report import is_plain

# The use of a column: none but its values, a column by which tables join, a part of a key or a reference.
FREE, JOINED, KEYED = "", "joined", "keyed"
# Control characters, those above ASCII too, and what else ends a line for some readers.
CONTROL = re.compile(rb"[\x00-\x1f\x7f]|\xc2[\x80-\x9f]|\xe2\x80[\xa8\xa9]")
CONTROL_OR_BACKSLASH = re.compile(CONTROL.pattern + rb"|\\")
ESCAPES = {b"\\": b"\\\\", b"\n": b"\\n", b"\r": b"\\r", b"\t": b"\\t"}


def between_quotes(cell):
    """The text of a cell between single quotes, which a quote inside doubles."""
    return "'" + cell.decode("utf-8").replace("'", "''") + "'"


def escaped(found):
    """What was found as PostgreSQL's escapes."""
    return ESCAPES.get(found.group()) or b"".join(b"\\x%02x" % byte for byte in found.group())


def is_within(facts, bits):
    return -(1 << bits - 1) <= facts.least and facts.greatest < 1 << bits - 1


class Dialect:
    """What the engines have in common."""
    name = ""
    quote = '"'
    most_references = 1000  # of a table
    longest_name = {"table": 1 << 30, "column": 1 << 30}
    head = ()  # statements that a script begins with
    needed = None  # what must hold of an engine, and the table that tells
    temporary, dropped, place = "TEMP TABLE", "TABLE", "pg_temp."  # how a table is made, dropped and named that goes with the session
    table_options = ""
    has_expression_index = True

    # -------------------------------------------------------- names

    def quoted(self, name):
        return self.quote + name.replace(self.quote, 2 * self.quote) + self.quote

    def listed(self, names):
        return ", ".join(map(self.quoted, names))

    def length(self, name):
        """The length of a name as the engine limits it."""
        return len(name)

    def folded(self, name):
        """A text that two names share where the engine may take them for one."""
        return name.casefold()

    def taken(self, name, what):
        """The name as the engine can take it, which is mostly the same."""
        name = "".join(c if is_plain(c) else "_" for c in name)
        if self.is_reserved(name, what):
            name = f"{what}_{name}"
        return self.cut(name, self.longest_name[what])

    def is_reserved(self, name, what):
        """Whether the engine keeps a name for itself, quoted or not."""
        return False

    def cut(self, name, most):
        while self.length(name) > most:
            name = name[:-1]
        return name

    def own_names(self, names, what):
        """The names, each as the engine can take it, none empty and none twice. Those that can stay do, and others go around them."""
        out, seen = [None] * len(names), set()
        for place, name in enumerate(names):
            if name and self.taken(name, what) == name and self.folded(name) not in seen:
                out[place] = name
                seen.add(self.folded(name))
        for place, name in enumerate(names):
            if out[place] is None:
                out[place] = self.fresh(self.taken(name, what) or f"{what}{place + 1}", what, seen)
                seen.add(self.folded(out[place]))
        return out

    def fresh(self, base, what, seen):
        """A name like this one that is not seen yet."""
        own, number = base, 1
        while self.folded(own) in seen:
            number += 1
            end = f"_{number}"
            own = self.cut(base, self.longest_name[what] - len(end)) + end
        return own

    # -------------------------------------------------------- values

    def stored_kind(self, facts, use):
        """As what kind the engine stores a column of some use."""
        raise NotImplementedError

    def type_of(self, facts, use):
        """The type of a column of some use."""
        raise NotImplementedError

    def text(self, cell):
        raise NotImplementedError

    def bytes(self, cell):
        return f"x'{cell.hex()}'"

    def literal_of(self, facts, use):
        """What writes a cell of a column as a value. Only integers stand without quotes."""
        kind = self.stored_kind(facts, use)
        if kind == BYTES:
            return self.bytes
        if kind == INTEGER and is_within(facts, 64):
            return lambda cell: cell.decode("ascii")
        return self.text

    # -------------------------------------------------------- keys

    def key_flaw(self, facts):
        """Why columns can't be a key of the engine, or None."""
        return None

    def too_long(self, facts):
        """How many bytes columns of keys and references take that a row has too few for, and how many there are."""
        return 0, 0

    def one_row(self, table, index):
        """The statement that lets a table have one row at most, by an index of this name where names of indexes are needed."""
        return f"CREATE UNIQUE INDEX ON {self.quoted(table)} ((1));\n"

    def add_reference(self, table, clause):
        """The statement that adds a reference to a table that has its rows, or None where it is the table's own clause."""
        return f"ALTER TABLE {self.quoted(table)} ADD {clause};\n"


class Sqlite(Dialect):
    """It has no dates and no decimal numbers, and a number that it can't show as it was is a text."""
    name = "sqlite"
    place = "temp."
    head = ("PRAGMA foreign_keys = OFF;", "BEGIN;")
    tail = ("COMMIT;",)
    needed = "encoding = 'UTF-8'", "pragma_encoding"  # of the bytes that are cast to texts

    def is_reserved(self, name, what):
        return what == "table" and name.casefold().startswith("sqlite_")

    def stored_kind(self, facts, use):
        if facts.kind == INTEGER:
            return INTEGER if is_within(facts, 64) else TEXT
        if facts.kind == DECIMAL:
            return DECIMAL if facts.plain else TEXT
        return BYTES if facts.kind == BYTES else TEXT

    def type_of(self, facts, use):
        return {INTEGER: "INTEGER", DECIMAL: "NUMERIC", TEXT: "TEXT", BYTES: "BLOB"}[self.stored_kind(facts, use)]

    def text(self, cell):
        return f"CAST(x'{cell.hex()}' AS TEXT)" if CONTROL.search(cell) else between_quotes(cell)

    def one_row(self, table, index):
        return f"CREATE UNIQUE INDEX {self.quoted(index)} ON {self.quoted(table)} ((1));\n"

    def add_reference(self, table, clause):
        return None


class Postgres(Dialect):
    """PostgreSQL. Its index takes about 2,700 bytes a row."""
    name = "postgres"
    longest_name = {"table": 63, "column": 63}
    head = ("SET client_encoding = 'UTF8';", "SET standard_conforming_strings = on;", "BEGIN;")
    tail = ("COMMIT;",)
    own_columns = {"tableoid", "xmin", "cmin", "xmax", "cmax", "ctid", "oid"}

    def length(self, name):
        return len(name.encode("utf-8"))

    def is_reserved(self, name, what):
        # A name of the engine's own tables would be theirs, even where a table of this name is made.
        return name.startswith("pg_") if what == "table" else name in self.own_columns

    def stored_kind(self, facts, use):
        if facts.kind == NOTHING:
            return TEXT
        if facts.kind == DECIMAL and facts.places[0] < facts.places[1] and not facts.trimmed:
            return TEXT  # 1.5 and 1.50 would be one value
        return facts.kind

    def type_of(self, facts, use):
        kind = self.stored_kind(facts, use)
        if kind == INTEGER:
            return "INTEGER" if is_within(facts, 32) else "BIGINT" if is_within(facts, 64) else f"NUMERIC({facts.whole})"
        if kind == DECIMAL:
            least, most = facts.places
            return f"NUMERIC({facts.whole + most}, {most})" if least == most else "NUMERIC"
        if kind == TEXT:
            return f"VARCHAR({facts.length})" if facts.length else "TEXT"
        return {BOOLEAN: "BOOLEAN", DATE_KIND: "DATE", TIMESTAMP: "TIMESTAMP", BYTES: "BYTEA"}[kind]

    def text(self, cell):
        if not CONTROL_OR_BACKSLASH.search(cell):
            return between_quotes(cell)
        return "E" + between_quotes(CONTROL_OR_BACKSLASH.sub(escaped, cell))

    def bytes(self, cell):
        return f"decode('{cell.hex()}', 'hex')"

    def key_flaw(self, facts):
        if len(facts) > 32:
            return "more than 32 columns"
        return "too long for an index" if sum(max(f.size, 12) for f in facts) > 2600 else None


class Mysql(Dialect):
    """MySQL and MariaDB. Texts are compared by their bytes, and would still be equal where one has spaces more at its end: a column
    with such texts is bytes where it tells rows apart. An index takes 3,072 bytes a row, a row 65,535 bytes and its long texts."""
    name = "mysql"
    quote = "`"
    most_references = 40  # an index each, of 64
    # A table's name is one of a file, in which a character may take five bytes.
    longest_name = {"table": 48, "column": 60}
    head = ("SET NAMES utf8mb4;", "SET SESSION sql_mode = 'STRICT_ALL_TABLES,NO_ENGINE_SUBSTITUTION', foreign_key_checks = 1;")
    tail = ()
    temporary, dropped, place = "TEMPORARY TABLE", "TEMPORARY TABLE", ""
    table_options = " ENGINE = InnoDB ROW_FORMAT = DYNAMIC DEFAULT CHARACTER SET utf8mb4 COLLATE utf8mb4_bin"
    has_expression_index = False
    longest_varchar = 100  # so that 128 of them are a row, with some longer ones that are in keys
    longest_key = 3072
    own_columns = {"db_row_id", "db_trx_id", "db_roll_ptr", "fts_doc_id", "gen_clust_index"}

    def is_reserved(self, name, what):
        return name.casefold().startswith("#mysql50#") if what == "table" else name.casefold() in self.own_columns

    def taken(self, name, what):
        # A name has characters of two bytes at most and no space at its end. To a client a backslash may be a command.
        return super().taken("".join("_" if c > "\uffff" or c == "\\" else c for c in name).rstrip(), what).rstrip()

    def folded(self, name):
        """Names are compared without accents, and each character by itself, so that the sharp s is one s."""
        bare = unicodedata.normalize("NFKD", name.replace("\u00df", "s").replace("\u0345", "\u03b9"))
        bare = "".join(c for c in bare if not unicodedata.combining(c))
        return bare.casefold().upper()

    def stored_kind(self, facts, use):
        if facts.kind in (NOTHING, BOOLEAN):
            return TEXT
        if facts.kind == DECIMAL and (facts.places[0] < facts.places[1] or facts.places[1] > 30):
            return TEXT
        return BYTES if facts.kind == TEXT and use and facts.ends_in_space else facts.kind

    def type_of(self, facts, use):
        kind = self.stored_kind(facts, use)
        if kind == INTEGER:
            return "INTEGER" if is_within(facts, 32) else "BIGINT" if is_within(facts, 64) else f"DECIMAL({facts.whole}, 0)"
        if kind == DECIMAL:
            return f"DECIMAL({facts.whole + facts.places[1]}, {facts.places[1]})"
        if kind in (DATE_KIND, TIMESTAMP):
            return "DATE" if kind == DATE_KIND else "DATETIME"
        short, long = ("VARCHAR", "TEXT") if kind == TEXT else ("VARBINARY", "BLOB")
        length = max(1, facts.length if kind == TEXT else facts.size)
        if length <= self.longest_varchar or use == KEYED and self.bytes_of(facts) <= self.longest_key:
            return f"{short}({length})"
        return long if facts.size < 65536 else f"MEDIUM{long}"

    def text(self, cell):
        return f"_utf8mb4 x'{cell.hex()}'" if CONTROL_OR_BACKSLASH.search(cell) else between_quotes(cell)

    def bytes_of(self, facts):
        """The most bytes that an index keeps of a column."""
        return max(4 * facts.length, facts.size, 8)

    def key_flaw(self, facts):
        if len(facts) > 16:
            return "more than 16 columns"
        return "too long for an index" if sum(map(self.bytes_of, facts)) > self.longest_key else None

    def too_long(self, facts):
        return sum(self.bytes_of(f) for f in facts if f.length > self.longest_varchar and self.bytes_of(f) <= self.longest_key), self.longest_key


DIALECTS = {dialect.name: dialect for dialect in (Sqlite(), Postgres(), Mysql())}
