"""Splits inputs into their records, and joins records again.

An edit of one record then leaves the sizes of all records valid.
"""
import re

from support import chunked, record

CHUNK_LINE = re.compile(rb"([0-9A-Fa-f]{1,256})[^\r\n]*\r\n")


def records_of_stream(data):
    """Returns the texts of the records, or None if the bytes are no whole records."""
    found, at = [], 0
    while at < len(data):
        end = data.find(b"\n", at, at + 21)
        if end < 0 or not data[at:end].isdigit():
            return None
        at = end + 1 + int(data[at:end])
        if at > len(data):
            return None
        found.append(data[end + 1 : at])
    return found


def stream_of_body(body):
    """Returns the data of a chunked body, or None if it is not whole."""
    pieces, at = [], 0
    while line := CHUNK_LINE.match(body, at):
        size, start = int(line[1], 16), line.end()
        if size == 0:
            return b"".join(pieces)
        at = start + size + 2
        if body[start + size : at] != b"\r\n":
            return None
        pieces.append(body[start : start + size])
    return None


def stream_of(records):
    return b"".join(map(record, records))


def records_of_body(body):
    data = stream_of_body(body)
    return None if data is None else records_of_stream(data)


def body_of(records):
    """Returns the records in a body with one chunk."""
    data = stream_of(records)
    return chunked(data, max(1, len(data)))


def records_of_lines(data):
    return [text for text in (line.removesuffix(b"\r") for line in data.split(b"\n")) if text]


def lines_of(records):
    # A CR at the end of a record would be taken for a part of the end of the line.
    return b"\n".join(text + b"\r" if text.endswith(b"\r") else text for text in records)


STREAM, BODY, LINES = (records_of_stream, stream_of), (records_of_body, body_of), (records_of_lines, lines_of)
# For each kind of input the function that splits it, and the one that joins its records.
KINDS = {"stream": STREAM, "calls": STREAM, "log": STREAM, "chunked": BODY, "chunked_calls": BODY, "lines": LINES, "call_lines": LINES}


def split(kind, data):
    """Returns the records of an input, or None if it has none."""
    return (KINDS[kind][0](data) if kind in KINDS else None) or None


def join(kind, records):
    return KINDS[kind][1](records)
