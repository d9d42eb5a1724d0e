"""Reads CSV as `depprof` does, so that a file has the same rows here and there.

Fields are bytes. Commas part fields, LF, CR or CRLF end a record, and lines without a character are no records. A quote counts where it
begins a field: up to the next single quote everything is the field's, a doubled quote is one, and what stands behind the closing quote
is the field's too. Where a quote is never closed the field goes to the end. Byte order marks at the start are skipped.
"""
import re

BYTE_ORDER_MARK = b"\xef\xbb\xbf"
ENDS = re.compile(rb"[\r\n]+")
# A field up to what ends it. In quotes every run of two is one of the text, so a quote closes where none follows.
FIELD = re.compile(rb'(?:"([^"]*(?:""[^"]*)*)"(?!")([^,\r\n]*)|"([^"]*(?:""[^"]*)*)\Z|([^,\r\n]*))(,|[\r\n]+|\Z)')


def without_marks(data):
    """The text behind the byte order marks."""
    begin = 0
    while data.startswith(BYTE_ORDER_MARK, begin):
        begin += len(BYTE_ORDER_MARK)
    return data[begin:] if begin else data


def records(data):
    """Each record of a text, a list of fields. Lines up to the next one with a quote are parted at once."""
    data, at = without_marks(data), 0
    while True:
        quote = data.find(b'"', at)
        begin = max(data.rfind(b"\n", at, quote), data.rfind(b"\r", at, quote), at - 1) + 1 if quote >= 0 else len(data)
        for line in ENDS.split(data[at:begin]):
            if line:
                yield line.split(b",")
        if quote < 0:
            return
        record, at = quoted_record(data, begin)
        yield record


def quoted_record(data, begin):
    """The record that begins at a place, and the place behind its end."""
    record = []
    for found in FIELD.finditer(data, begin):
        closed, rest, unclosed, plain, end = found.groups()
        if plain is not None:
            record.append(plain)
        elif closed is not None:
            record.append(closed.replace(b'""', b'"') + rest)
        else:
            record.append(unclosed.replace(b'""', b'"'))
        if end != b",":
            break
    return record, found.end()
