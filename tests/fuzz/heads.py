"""Parses the head of a response to SUBSCRIBE, by the rules of docs/FORMAT.md ("HTTP heads") only."""
import re

MAX_HEAD, MAX_FIELDS = 16384, 64
TOKEN, VALUE = rb"[!#$%&'*+\-.^_`|~0-9A-Za-z]+", rb"[\t\x20-\x7e\x80-\xff]*"
START = re.compile(rb"HTTP/1\.[01] ([0-9]{3})(?: %s)?" % VALUE)
FIELD = re.compile(rb"(%s):(%s)" % (TOKEN, VALUE))
# The first bytes of a line: a field with the CR after it, or a part of that.
FIELD_PREFIX = re.compile(rb"\r?|%s|%s:%s\r?" % (TOKEN, TOKEN, VALUE))
STREAM_ID = re.compile(rb"[\x21-\x7e]{1,128}")
BAD_HEAD = "H3 BadHead"


def refusal(data):
    """Returns the reason to reject the head, as `subscribe` prints it, or None; and the size of the head in bytes."""
    at, start, fields = 0, None, []
    while (end := data.find(b"\n", at, MAX_HEAD)) >= 0:
        line, at = data[at : end + 1].removesuffix(b"\n").removesuffix(b"\r"), end + 1
        if start is None and line:
            start = START.fullmatch(line)
            if not start:
                return BAD_HEAD, None
        elif line:
            found = FIELD.fullmatch(line)
            if not found or len(fields) == MAX_FIELDS:
                return BAD_HEAD, None
            fields.append((found[1].lower(), found[2].strip(b" \t")))
        elif start:
            return broken_rule(int(start[1]), fields), at
    too_long = len(data) >= MAX_HEAD and may_begin(start, data[at:MAX_HEAD])
    return "H2 HeadTooLong" if too_long else BAD_HEAD, None


def may_begin(start, rest):
    """Returns whether a line can begin with these bytes."""
    if start:
        return bool(FIELD_PREFIX.fullmatch(rest))
    line = rest.removesuffix(b"\r")
    whole = line + b"HTTP/1.1 200"[len(line) :]
    return bool(START.fullmatch(whole)) and (line == rest or line in (b"", whole))


def broken_rule(status, fields):
    """Returns the first rule that a whole head breaks, or None."""

    def only(name):
        values = [value for named, value in fields if named == name]
        return values[0] if len(values) == 1 else None

    if status < 100:
        return BAD_HEAD
    if status != 200:
        return f"H4 Status {status}"
    if (only(b"transfer-encoding") or b"").lower() != b"chunked":
        return "H5 NotChunked"
    if (only(b"content-type") or b"").split(b";")[0].strip(b" \t").lower() != b"application/json":
        return "H6 NotJson"
    if not STREAM_ID.fullmatch(only(b"mesos-stream-id") or b""):
        return "H7 NoStreamId"
    return None
