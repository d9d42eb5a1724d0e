"""Reads delimited text as people have it: packed by gzip, in any encoding, with any delimiter and quotes, with a `sep=` line of a
spreadsheet. What can't be read for sure is refused by a sentence, and nothing is guessed that a mark in the file does not say, but the
delimiter, which must make the first lines a table.
"""
import bz2
import codecs
import csv
import gzip
import io
import lzma
import re
import zlib
from dataclasses import dataclass
from itertools import chain, islice

from report import shown

AT_ONCE = 1 << 20  # bytes
MOST_LINE, MOST_READ = 1 << 26, 1 << 24  # characters of a line and of a cell, so that a text without an end does not fill the memory
LINES_LOOKED_AT = 200
DELIMITERS = {",": "commas", ";": "semicolons", "\t": "tabs", "|": "bars"}
PACKED = {b"\x1f\x8b": ("gzip", gzip.open), b"BZh": ("bzip2", bz2.open), b"\xfd7zXZ\0": ("xz", lzma.open)}
OTHERS = {
    b"PK\x03\x04": "an archive, or a spreadsheet as such: unpack it, or save it as CSV", b"\xd0\xcf\x11\xe0": "a spreadsheet as such: save it as CSV",
    b"PAR1": "a Parquet file, which tools/profile_table.py reads through DuckDB",
    b"SQLite format 3\0": "a database, which tools/profile_table.py reads",
    b"\x28\xb5\x2f\xfd": "packed by zstd: unpack it first", b"%PDF": "a PDF document",
}
MARKS = [(codecs.BOM_UTF32_LE, "utf-32"), (codecs.BOM_UTF32_BE, "utf-32"), (codecs.BOM_UTF16_LE, "utf-16"), (codecs.BOM_UTF16_BE, "utf-16"),
         (codecs.BOM_UTF8, "utf-8")]
FAULTS = (OSError, EOFError, zlib.error, lzma.LZMAError)  # of reading
SEP = re.compile('"?sep=(.)"?', re.IGNORECASE)


class Unfit(Exception):
    """Why a text can't be taken, in one sentence."""


@dataclass
class Form:
    """How a text is written; None is to be found out."""
    delimiter: str = None
    quote: str = '"'  # empty where there are no quotes
    escape: str = None
    encoding: str = None
    skip: int = 0  # lines before the header


# ---------------------------------------------------------------- bytes


class Joined(io.RawIOBase):
    """The bytes that were looked at, and those behind them."""

    def __init__(self, head, stream):
        super().__init__()
        self.head, self.stream = head, stream

    def readable(self):
        return True

    def readinto(self, buffer):
        data = self.head[:len(buffer)] if self.head else self.stream.read(len(buffer))
        self.head = self.head[len(data):]
        buffer[:len(data)] = data
        return len(data)


def ahead(stream):
    """The first bytes of a stream, and a stream that has them again."""
    head = stream.read(1 << 16)
    return head, io.BufferedReader(Joined(head, stream), AT_ONCE)


def unpacked(stream, name):
    """The bytes of a stream behind its packing, and what it was packed by, or nothing."""
    head, stream = ahead(stream)
    for magic, what in OTHERS.items():
        if head.startswith(magic):
            raise Unfit(f"{name} is {what}")
    for magic, (packing, opened) in PACKED.items():
        if head.startswith(magic):
            return opened(stream), packing
    return stream, ""


def encoding_of(head, name):
    """The encoding that a mark at the start says; UTF-8 where there is none."""
    for mark, encoding in MARKS:
        if head.startswith(mark):
            return encoding
    for end, first in (("le", 1), ("be", 0)):
        if head[first::2].count(0) > len(head) / 4:
            raise Unfit(f"{name} has zero bytes as UTF-16 has, and no mark that says so: --encoding utf-16-{end} reads it")
    return "utf-8"


class AsUtf8(io.RawIOBase):
    """The text of a stream of some encoding, as UTF-8. A byte that is none of the encoding ends it with a sentence."""

    def __init__(self, stream, encoding, name):
        super().__init__()
        self.stream, self.encoding, self.name = stream, encoding, name
        self.decoder, self.rest, self.read_so_far, self.is_done = codecs.getincrementaldecoder(encoding)(), b"", 0, False

    def readable(self):
        return True

    def readinto(self, buffer):
        while not self.rest and not self.is_done:
            self.rest = self.more()
        part = self.rest[:len(buffer)]
        self.rest = self.rest[len(part):]
        buffer[:len(part)] = part
        return len(part)

    def more(self):
        data = self.stream.read(AT_ONCE)
        before = self.read_so_far - len(self.decoder.getstate()[0])
        self.read_so_far += len(data)
        self.is_done = not data
        try:
            return self.decoder.decode(data, self.is_done).encode("utf-8")
        except UnicodeDecodeError as error:
            byte = error.object[error.start] if error.start < len(error.object) else 0
            raise Unfit(f"{self.name} is no {self.encoding.upper()} at byte {before + error.start + 1}, which is 0x{byte:02X}: "
                        "--encoding says what it is, as cp1252") from None
        except UnicodeError as error:
            raise Unfit(f"{self.name} is no {self.encoding.upper()}: {shown(str(error), 100)}") from None


# ---------------------------------------------------------------- records


def readable_encoding(text):
    """An encoding of texts that Python knows."""
    try:
        found = codecs.lookup(text)
        codecs.getincrementaldecoder(found.name)
        if not getattr(found, "_is_text_encoding", True) or found.name in ("undefined", "idna", "punycode"):
            raise LookupError
    except (LookupError, ValueError, TypeError):
        raise ValueError(f"{shown(text, 30)} is no encoding of texts") from None
    return found.name


class Source:
    """The records of a text, as lists of texts."""

    def __init__(self, stream, name, form):
        self.name, self.form, self.first_line = name, form, 1
        try:
            stream, self.packing = unpacked(stream, name)
            head, stream = ahead(stream)
        except FAULTS as error:
            raise self.damaged(error) from None
        self.encoding = form.encoding or encoding_of(head, name)
        self.text = io.TextIOWrapper(io.BufferedReader(AsUtf8(stream, self.encoding, name), AT_ONCE), encoding="utf-8", newline="")
        self.lines = self.lines_of_text()
        self.begun = list(islice(self.lines, LINES_LOOKED_AT + form.skip))
        if self.begun:
            self.begun[0] = self.begun[0].lstrip("\ufeff")  # marks at the start are none of the text
        is_whole = len(self.begun) < LINES_LOOKED_AT + form.skip
        self.take_first_lines()
        self.delimiter = self.delimiter or form.delimiter or self.likely_delimiter(is_whole)

    def damaged(self, error):
        why = getattr(error, "strerror", None) or shown(str(error), 100)
        return Unfit(f"{self.name} can't be read to its end: {why}")

    def lines_of_text(self):
        """Each line with its end."""
        while True:
            try:
                line = self.text.readline(MOST_LINE)
            except FAULTS as error:
                raise self.damaged(error) from None
            if len(line) == MOST_LINE:
                raise Unfit(f"{self.name} has a line of more than {MOST_LINE:,} characters")
            if not line:
                return
            yield line

    def take_first_lines(self):
        """Passes over the lines before the header, of which one may say the delimiter."""
        self.begun, self.first_line = self.begun[self.form.skip:], 1 + self.form.skip
        found = SEP.fullmatch(self.begun[0].rstrip("\r\n")) if self.begun else None
        self.delimiter = None
        if found:
            self.begun, self.first_line = self.begun[1:], self.first_line + 1
            self.delimiter = self.form.delimiter or found.group(1)
            if self.delimiter in (self.form.quote, self.form.escape, "\0"):
                raise Unfit(f"{self.name} says that `{shown(self.delimiter)}` stands between its cells, which can't be (--delimiter)")

    def reader(self, lines, delimiter, strict=True):
        csv.field_size_limit(MOST_READ)
        quoting = {"quotechar": self.form.quote} if self.form.quote else {"quoting": csv.QUOTE_NONE, "quotechar": None}
        return csv.reader(lines, delimiter=delimiter, escapechar=self.form.escape, strict=strict, **quoting)

    def likely_delimiter(self, is_whole):
        """The delimiter that makes the first lines a table, else one that the header has; of several the one with most columns."""
        best = (False, 0, 0, ",")
        for place, delimiter in enumerate(DELIMITERS):
            if delimiter in (self.form.quote, self.form.escape):
                continue
            try:
                rows = [row for row in self.reader(self.begun, delimiter, strict=False) if row]
            except csv.Error:
                continue
            rows = rows if is_whole or len(rows) < 2 else rows[:-1]
            width = len(rows[0]) if rows else 1
            if width > 1:
                best = max(best, (all(len(row) == width for row in rows), width, -place, delimiter))
        return best[3]

    def records(self):
        """Each record with the line where it begins. Lines without a character are none."""
        reader = self.reader(chain(self.begun, self.lines), self.delimiter)
        while True:
            line = self.first_line + reader.line_num
            try:
                record = next(reader, None)
            except csv.Error as error:
                raise Unfit(self.what_is_wrong(str(error), line, self.first_line + reader.line_num - 1)) from None
            if record is None:
                return
            if record:
                yield line, record

    def what_is_wrong(self, error, begins, line):
        if "unexpected end of data" in error:
            return f"{self.name}, line {begins}: a quote in the record that begins here is never closed (--quote none takes quotes for text)"
        if "expected after" in error:
            return f"{self.name}, line {line}: there is text behind a closing quote (--quote none takes quotes for text)"
        if "field limit" in error:
            return (f"{self.name}, line {begins}: a cell of the record that begins here has more than {MOST_READ:,} characters, "
                    "as where a quote is never closed")
        if "NUL" in error:
            return f"{self.name}, line {line}: there is a zero byte, which Python reads from version 3.11 on"
        return f"{self.name}, line {line}: {shown(error, 100)}"

    def form_in_words(self):
        """How the text was written, for people."""
        out = [DELIMITERS.get(self.delimiter, f"`{shown(self.delimiter)}` between cells"), self.encoding.upper()]
        return ", ".join(out + [self.packing] * bool(self.packing))
