"""Generates the random inputs of tests/fuzz, valid and invalid ones.

They are streams of events or calls, JSON Lines, session logs, chunked bodies, requests, and
responses to SUBSCRIBE. Each generator takes a `random.Random`, so that a seed gives the same input
again. Valid inputs follow the tables of docs/FORMAT.md.
"""
import base64
import bisect
import json
import re
from collections import namedtuple

# An input: its kind, its bytes (for requests a list of pairs: the bytes, and the type of the call), and the number
# of its events or entries. The type and the number are None if the input may be invalid.
Input = namedtuple("Input", "kind data count")


# ---- messages, by the tables of docs/FORMAT.md
# A row has its name, its kind, its mark (! required, ? optional, * repeated), and the type for which it is a row.

TABLES = """
Label: key text !, value text ?; Labels: labels Label *; Allocation: role text ?; Scalar: value thousandths !; Range: begin u64 !, end u64 !
Reservation: type text ?, role text ?, principal text ?, labels Labels ?; Ranges: range Range *; Set: item text *; TextValue: value text !
Resource: name text !, type value !, scalar Scalar ! SCALAR, ranges Ranges ! RANGES, set Set ! SET, role text ?, allocation_info Allocation ?,
 reservation Reservation ?, reservations Reservation *, disk object ?, revocable flag ?, shared flag ?, provider_id Id ?
Attribute: name text !, type attribute !, scalar Scalar ! SCALAR, ranges Ranges ! RANGES, set Set ! SET, text TextValue ! TEXT
Offer: id Id !, framework_id Id !, agent_id Id !, hostname text !, resources Resource *, attributes Attribute *, executor_ids Id *, allocation_info Allocation ?
TaskStatus: task_id Id !, state state !, message text ?, source text ?, reason text ?, data bytes ?, agent_id Id ?, executor_id Id ?, timestamp seconds ?,
 uuid bytes ?, healthy bool ?, labels Labels ?, unreachable_time TimeInfo ?; TimeInfo: nanoseconds u64 !
Command: value text ?, shell bool ?, arguments text *; Capability: type text ?; Filters: refuse_seconds seconds ?; TaskRef: task_id Id !, agent_id Id ?
TaskInfo: name text !, task_id Id !, agent_id Id !, resources Resource *, command Command ?, executor object ?; Launch: task_infos TaskInfo *
FrameworkInfo: user text !, name text !, id Id ?, failover_timeout seconds ?, checkpoint bool ?, roles text *, hostname text ?, principal text ?,
 capabilities Capability *; Operation: type launch !, launch Launch !
event SUBSCRIBED: framework_id Id !, heartbeat_interval_seconds seconds ?; event OFFERS: offers Offer *; event RESCIND: offer_id Id !
event UPDATE: status TaskStatus !; event MESSAGE: agent_id Id !, executor_id Id !, data bytes !; event ERROR: message text !
event FAILURE: agent_id Id ?, executor_id Id ?, status i32 ?; call SUBSCRIBE: framework_info FrameworkInfo !; call RECONCILE: tasks TaskRef *
call ACCEPT: offer_ids Id *, operations Operation *, filters Filters ?; call DECLINE: offer_ids Id *, filters Filters ?
call KILL: task_id Id !, agent_id Id ?; call ACKNOWLEDGE: agent_id Id !, task_id Id !, uuid bytes !
call SHUTDOWN: executor_id Id !, agent_id Id !; call MESSAGE: agent_id Id !, executor_id Id !, data bytes !
"""
TABLES = dict(table.split(": ") for table in re.split("; |\n(?! )", TABLES.replace("\n ", " ").strip()))
TABLES = {name: [row.split(" ") for row in rows.split(", ")] for name, rows in TABLES.items()}
EVENTS = [name[6:] for name in TABLES if name.startswith("event ")] + ["HEARTBEAT", "INVERSE_OFFERS", "", "ERROR "]
CALLS = [name[5:] for name in TABLES if name.startswith("call ")] + ["REVIVE", "SUPPRESS"]
# There are few names, so that calls often have the ids of earlier events.
NAMES = {
    "framework_id": ["F1"] * 9 + ["F2"], "agent_id": ["A1", "A1", "A2"], "task_id": ["T1", "T2"],
    "id": ["O1", "O2", "O3"], "offer_id": ["O1", "O9"], "offer_ids": ["O1", "O2"],
}
TEXTS = ["", "a", "*", "web", "cpus", "type", "node-0.example", 'a"b\\c/', "\b\f\n\r\t\0\x1f\x7f", "é“”\u2028", "\U0001d11e\U0010ffff", "x" * 40]
STATES = "STAGING STARTING RUNNING KILLING FINISHED FAILED KILLED ERROR LOST DROPPED UNREACHABLE GONE GONE_BY_OPERATOR UNKNOWN".split()
UUIDS = [bytes(range(16)), bytes(range(1, 17)), b"", b"\0\1\2", b"\xff" * 17]
NUMBERS = {
    "thousandths": b"0 1 0.5 0.1 10.25 1e3 15.0 0.0005 1.0005 2.4995 25E-2 -0 -0.0e+9 0e99 1e15 1000000000000000.0004 3.999999999999999999999".split(),
    "seconds": b"0 15 15.0 1763856000.25 1e12 0.0000005 1.5e-6 -0.0 999999999999.9999994 1E+3".split(),
    "u64": b"0 1 31000 32000 18446744073709551615 3.0 3e0 30e-1 -0 1e19 184467440737095516150E-1".split(),
    "i32": b"0 -1 1.0 -10e-1 2147483647 -2147483648 -0 256".split(),
}
# Texts that replace a value, valid or not.
WILD = b"""-1 1e16 1000000000000000.0005 1e400 -1e400 1e-400 1. .5 01 +1 -- - 18446744073709551616 2147483648 -2147483649
 1e99999999999999999999 true null nul NaN 'a' [] {} [null] "AAE" "AAE===" "AB==" "" "TASK_X" """.split()
WILD += [b"9" * 64, b"9" * 65, b"0." + b"0" * 62 + b"1"]
KINDS = {
    "text": lambda pick: pick.choice(TEXTS),
    "bool": lambda pick: pick.choice([b"true", b"false"]),
    "bytes": lambda pick: base64.b64encode(pick.choice(UUIDS)).decode(),
    "object": lambda pick: any_object(pick, 2),
    "flag": lambda pick: any_object(pick, 1),
    "value": lambda pick: pick.choice(["SCALAR", "RANGES", "SET"]),
    "attribute": lambda pick: pick.choice(["SCALAR", "RANGES", "SET", "TEXT"]),
    "state": lambda pick: "TASK_" + pick.choice(STATES),
    "launch": lambda pick: "LAUNCH",
}


class Members(list):
    """The members of an object, as pairs. In values, a str is a text, a list is an array, and bytes are copied."""


def named(name):
    return Members([("value", name)])


def any_object(pick, depth):
    return Members((pick.choice(TEXTS), any_json(pick, depth)) for _ in range(pick.randrange(3)))


def any_json(pick, depth=2):
    kind = pick.randrange(5 if depth else 3)
    if kind < 2:
        return pick.choice(TEXTS if kind else NUMBERS["thousandths"] + [b"1e400", b"-2.50E-07"])
    if kind == 2:
        return pick.choice([b"null", b"true", b"false"])
    return any_object(pick, depth - 1) if kind == 3 else [any_json(pick, depth - 1) for _ in range(pick.randrange(3))]


def value_of(pick, name, kind):
    if kind == "Id":
        return named(pick.choice(NAMES.get(name, TEXTS)))
    if kind in NUMBERS:
        return pick.choice(NUMBERS[kind])
    return message(pick, kind) if kind in TABLES else KINDS[kind](pick)


def message(pick, table, **given):
    """Returns a valid message with these members, and others at random."""
    members, chosen = Members(), None
    for name, kind, mark, *where in TABLES[table]:
        if where and where != [chosen]:
            continue
        if name in given:
            value = given[name]
        elif mark != "!" and pick.random() < 0.03:
            value = b"null"
        elif mark == "*":
            value = [value_of(pick, name, kind) for _ in range(pick.choice([0, 0, 1, 1, 2]))]
        elif mark == "!" or pick.random() < 0.25:
            value = value_of(pick, name, kind)
        else:
            continue
        chosen = value if name == "type" else chosen
        members.append((name, value))
    return members


def event(pick, name=None, **given):
    name = pick.choice(EVENTS) if name is None else name
    body = [(name.lower(), message(pick, "event " + name, **given))] if "event " + name in TABLES else []
    if name == "OFFERS" and pick.random() < 0.3 and isinstance(body[0][1][0][1], list):
        body = [("offers", body[0][1][0][1])]
    return Members([("type", name), *body])


def call(pick, name=None, **given):
    name = name or pick.choice(CALLS)
    framework = [("framework_id", value_of(pick, "framework_id", "Id"))] if name != "SUBSCRIBE" or pick.random() < 0.2 else []
    if "call " + name in TABLES:
        body = [(name.lower(), message(pick, "call " + name, **given))]
    else:
        body = [(name.lower(), b"null")] if pick.random() < 0.2 else []
    return Members([("type", name), *framework, *body])


def cpus(share):
    return [Members([("name", "cpus"), ("type", "SCALAR"), ("scalar", named(share))])]


def session(pick, breaks):
    """Returns the entries of a session log. Most of its calls use outstanding offers and acknowledge updates."""
    entries, offers, updates = [(b"E", event(pick, "SUBSCRIBED", framework_id=named("F1")))], [], []
    for number in range(pick.randrange(9)):
        step = pick.randrange(8)
        if step < 2:
            offers.append(dict(message(pick, "Offer", resources=cpus(b"2"))))
            entries.append((b"E", event(pick, "OFFERS", offers=[Members(offers[-1].items())])))
        elif step == 2:
            updates.append(dict(message(pick, "TaskStatus", agent_id=named("A1"), uuid=base64.b64encode(UUIDS[number % 3]).decode())))
            entries.append((b"E", event(pick, "UPDATE", status=Members(updates[-1].items()))))
        elif step == 3 and offers:
            offer = offers.pop()
            share = cpus(pick.choice([b"0.5", b"1.999", b"2", b"2.001"]))
            task = message(pick, "TaskInfo", task_id=named(f"N{number}"), agent_id=offer["agent_id"], resources=share)
            launch = Members([("type", "LAUNCH"), ("launch", Members([("task_infos", [task])]))])
            entries.append((b"C", call(pick, "ACCEPT", offer_ids=[offer["id"]], operations=[launch])))
        elif step == 4 and offers:
            entries.append((b"C", call(pick, "DECLINE", offer_ids=[offers.pop()["id"]])))
        elif step == 5 and updates:
            entries.append((b"C", call(pick, "ACKNOWLEDGE", **updates.pop())))
        elif step == 6 and breaks:
            entries += [(b"B", None), (b"E", event(pick, "SUBSCRIBED", framework_id=named("F1")))]
            offers = []
        elif step == 7:
            entries.append((b"C", call(pick, pick.choice(["REVIVE", "SUPPRESS", "KILL", "RECONCILE", "SHUTDOWN", "MESSAGE", None]))))
        else:
            entries.append((b"E", event(pick, pick.choice(["HEARTBEAT", "FAILURE", "MESSAGE", "RESCIND", "ERROR"]))))
    return entries


# ---- JSON texts, and their damage


def quoted(pick, text, loose):
    """Returns a JSON string. A character is written as an escape with the probability `loose`."""
    written = b""
    for character in text if loose else "":
        if pick.random() >= loose:
            written += json.dumps(character, ensure_ascii=False).encode()[1:-1]
        elif character == "/":
            written += rb"\/"
        else:
            units = character.encode("utf-16-be").hex()
            units = units.upper() if pick.random() < 0.5 else units
            written += b"".join(b"\\u" + units[at : at + 4].encode() for at in range(0, len(units), 4))
    return b'"' + written + b'"' if loose else json.dumps(text, ensure_ascii=False).encode()


def json_text(pick, value, loose):
    """Returns the JSON text of a value, with white space and escapes with the probability `loose`."""

    def blank():
        return pick.choice([b" ", b"\t", b"\n", b"\r\n  "]) if pick.random() < loose else b""

    if isinstance(value, bytes):
        return value
    if isinstance(value, str):
        return quoted(pick, value, loose)
    if isinstance(value, Members):
        items = [blank() + quoted(pick, name, loose) + blank() + b":" + blank() + json_text(pick, it, loose) + blank() for name, it in value]
    else:
        items = [blank() + json_text(pick, it, loose) + blank() for it in value]
    text = b",".join(items) or blank()
    return b"{" + text + b"}" if isinstance(value, Members) else b"[" + text + b"]"


def inner(value):
    """Yields a value, and each value in it that has members or items."""
    if isinstance(value, list):
        yield value
        for it in value:
            yield from inner(it[1] if isinstance(value, Members) else it)


def decorated(pick, tree):
    """Adds unknown members to the tree, and changes the order of members. Its meaning stays."""
    holder = pick.choice([it for it in inner(tree) if isinstance(it, Members)])
    for _ in range(pick.randrange(3)):
        holder.insert(pick.randrange(len(holder) + 1), (pick.choice(["x", "X", "unknown", "typ", "type "]), any_json(pick)))
    pick.shuffle(holder)
    return tree


def deepened(pick, value):
    """Returns the value inside a few others, or inside enough to reach about the greatest depth."""
    for _ in range(pick.choice([1, 2, 110, 118, 122, 124, 125, 126, 127, 128])):
        value = Members([("a", value)]) if pick.random() < 0.5 else [value]
    return value


def disturbed(pick, tree):
    """Changes, repeats or drops one member or item of the tree."""
    holder = pick.choice([it for it in inner(tree) if it])
    at = pick.randrange(len(holder))
    name, value = holder[at] if isinstance(holder, Members) else (None, holder[at])
    how = pick.choice(["twice", "drop", "rename", "null", "wild", "wild", "other", "deeper"])
    if how == "twice":
        holder.insert(pick.randrange(len(holder) + 1), holder[at])
    elif how == "drop":
        del holder[at]
    else:
        name = pick.choice(["value", "type", "x", "framework_id", f"{name} ", f"{name}".upper()]) if name and how == "rename" else name
        value = {"null": b"null", "wild": pick.choice(WILD), "other": any_json(pick), "rename": value}[how] if how != "deeper" else deepened(pick, value)
        holder[at] = value if name is None else (name, value)
    return tree


TOKENS = rb'\ud834 \udd1e \ud834\ud834 \x \u12 \u0000 " \ { } [ ] , : 0 - 1e9 null "type":"ERROR", E{} B 2 20'.split() + [
    b"\xff", b"\xc0\xaf", b"\xed\xa0\x80", b"\xf4\x90\x80\x80", b"\xe2\x80", b"\xef\xbb\xbf", b"\0", b" ", b"\n", b"\r", b"\r\n", b"[" * 129, b"0\r\n\r\n", b"20\n",
]


def damaged(pick, data):
    """Returns the bytes with one part changed."""
    at = pick.randrange(len(data) + 1)
    end = min(len(data), at + pick.choice([1, 1, 2, 8, 60]))
    other = pick.randrange(len(data) + 1)
    digits = [it.span() for it in re.finditer(rb"\d+", data)] or [(at, at)]
    first, last = pick.choice(digits)
    number = int(data[first:last][:30] or b"0")
    return pick.choice([
        lambda: data[:at] + bytes(byte ^ 1 << pick.randrange(8) for byte in data[at : at + 1]) + data[at + 1 :],
        lambda: data[:at] + data[end:],
        lambda: data[:end] + data[at:],
        lambda: data[:at],
        lambda: data[:at] + data[other : other + end - at] + data[at:],
        lambda: data[:first] + pick.choice([b"%d" % (number + 1), b"%d" % max(0, number - 1), b"00" + data[first:last], b"9" * 20]) + data[last:],
        lambda: data[:at] + pick.choice(TOKENS) + data[at:],
        lambda: data[:at] + pick.choice(TOKENS) + data[end:],
    ])()


def size_line(pick, size, wild):
    """Returns the size line of a record; leading zeros are valid."""
    if pick.random() < 0.85:
        return b"%d\n" % size
    if not wild:
        return b"%0*d\n" % (pick.randrange(1, 21), size)
    numbers = [b"%d" % it for it in (size + 1, max(0, size - 1), size + (1 << 64), -size, 0, 4194305)]
    return pick.choice(numbers + [b"%021d" % size, b" %d" % size, b"%d\r" % size, b""]) + b"\n"


def texts_of(pick, records, wild):
    """Yields the text of each tree after its letter. If `wild`, some are damaged."""
    loose = pick.choice([0, 0, 0, 0.05, 0.4])
    for letter, tree in records:
        if tree is not None and pick.random() < 0.3:
            tree = decorated(pick, tree)
        if tree is not None and wild and pick.random() < 0.4:
            tree = disturbed(pick, tree)
        text = letter + (b"" if tree is None else json_text(pick, tree, loose))
        yield damaged(pick, text) if wild and pick.random() < 0.2 else text


def framed(pick, records, wild):
    """Returns the trees as records, each text after its letter. If `wild`, some are damaged."""
    data = b"".join(size_line(pick, len(text), wild) + text for text in texts_of(pick, records, wild))
    while wild and pick.random() < 0.35:
        data = damaged(pick, data)
    return data


def lined(pick, records, wild):
    """Returns the trees as JSON Lines, with empty lines before some. If `wild`, some are damaged."""
    data = b""
    for text in texts_of(pick, records, wild):
        # A line feed in a text is white space, and replaced by other white space.
        text = text if wild and pick.random() < 0.1 else text.replace(b"\n", pick.choice([b" ", b"\r"]))
        data += pick.choice([b"", b"", b"\n", b"\r\n\n"]) + text + pick.choice([b"\n", b"\n", b"\r\n", b"\r\r\n"])
    # The last line may lack its line feed.
    data = data[:-1] if pick.random() < 0.4 else data + pick.choice([b"", b"\n", b"\r"])
    while wild and pick.random() < 0.35:
        data = damaged(pick, data)
    return data


def any_call(pick):
    return call(pick, pick.choice([*CALLS, "TEARDOWN"]))


def stream(pick, kind="stream", message=event, written=framed):
    wild = pick.random() < 0.75
    messages = [(b"", message(pick)) for _ in range(pick.choice([0, 1, 1, 2, 3, 5]))]
    return Input(kind, written(pick, messages, wild), None if wild else len(messages))


def lines(pick):
    return stream(pick, "lines", event, lined)


def calls(pick):
    return stream(pick, "calls", any_call)


def call_lines(pick):
    return stream(pick, "call_lines", any_call, lined)


def log(pick):
    wild, second = pick.random() < 0.6, pick.random() < 0.6
    entries = session(pick, second)
    header = [(b"2", None)] if second != (wild and pick.random() < 0.1) else []
    return Input("log", framed(pick, header + entries, wild), None if wild else len(entries))


# ---- chunked bodies


def chunk_line(pick, size, odd):
    """Returns a valid chunk line without its CRLF, an unusual one with the probability `odd`."""
    if pick.random() >= odd:
        return b"%x" % size
    rest = pick.choice([b"", b";", b" ", b"\t;a=b", b';a="\xff\x80~"', b"; x", b";" + b"x" * 255])
    return (b"0" * pick.choice([0, 0, 1, 20]) + pick.choice([b"%x", b"%X"]) % size + rest)[:256]


def in_chunks(pick, data):
    """Returns the parts of a valid chunked body of these bytes: the kind of each part, and its bytes."""
    parts, at = [], 0
    small = [[1], [1, 2, 3]] if len(data) < 300 else []
    sizes, odd = pick.choice([*small, [7, 30], [511, 512, 513], [1, 40, 4096], [4096]]), pick.choice([0, 0, 0.3])
    while at < len(data):
        piece = data[at : at + pick.choice(sizes)]
        parts += [("line", chunk_line(pick, len(piece), odd)), ("break", b"\r\n"), ("data", piece), ("end", b"\r\n")]
        at += len(piece)
    parts += [("line", chunk_line(pick, 0, 0.3)), ("break", b"\r\n")]
    lines = pick.choice(4 * [[]] + 2 * [[b"T: v"]] + 2 * [[b"a", b"\0\xff"]] + [[b"x" * 4094], [b"x" * 4000, b"y" * 92]])
    return parts + [("trailer", line + b"\r\n") for line in lines] + [("close", b"\r\n")]


CHUNK_FAULTS = ["F1 BadChunkLine", "F2 ChunkLineTooLong", "F3 ChunkTooLarge", "F4 BadChunkEnd", "F5 TrailersTooLong", "F6 EndsInsideChunks"]
# Bytes that replace a part, the byte of them at which the fault is detected, and the number of the fault. Of the
# trailer lines the first is replaced.
DAMAGES = {
    "line": [
        (b"g", 1, 1), (b"", 1, 1), (b"-1", 1, 1), (b"0x1", 2, 1), (b"1\n", 2, 1), (b"1;\x7f", 3, 1), (b"1 \0", 3, 1), (b"f" * 17, 17, 3),
        (b"001" + b"0" * 16, 19, 3), (b"1;" + b"x" * 255, 257, 2), (b"0" * 257, 257, 2), (b"1;" + b"x" * 254 + b"\0", 257, 2), (b"0" * 240 + b"f" * 17, 257, 2),
    ],
    "break": [(b"\rX", 2, 1), (b"\r\r\n", 2, 1)],
    "end": [(b"\n", 1, 4), (b"X", 1, 4), (b"\rX", 2, 4), (b"\r\r", 2, 4), (b"\0\r\n", 1, 4)],
    "trailer": [(b"x\n", 2, 4), (b"x\rX", 3, 4), (b"\n", 1, 4), (b"x" * 4097, 4097, 5), (b"x" * 4096 + b"\n", 4097, 5), (b"x" * 4095 + b"\r\n", 4097, 5)],
    "close": [(b"\n", 1, 4), (b"\rX", 2, 4), (b"\r\r\n", 2, 4)],
}


def body_of(parts):
    return b"".join(piece for _, piece in parts)


def places_of(parts):
    """Returns the number of bytes of the body up to each byte of data."""
    places, end = [], 0
    for what, piece in parts:
        places += range(end + 1, end + len(piece) + 1) if what == "data" else []
        end += len(piece)
    return places


def ended(pick, parts):
    """Returns the body whole, cut off, or with one part damaged.

    Also returns its fault, or None; the number of bytes used; and the number of bytes of data
    before the fault or the end.
    """
    body, how = body_of(parts), pick.choice(["whole", "whole", "cut", "damaged"])
    if how == "whole":
        return body + pick.choice([b"", b"", b"XYZ", b"0\r\n\r\n", b"\xff"]), None, len(body), len(places_of(parts))
    if how == "cut":
        cut = pick.randrange(len(body))
        return body[:cut], CHUNK_FAULTS[5], cut, bisect.bisect_right(places_of(parts), cut)
    first = next((at for at, (what, _) in enumerate(parts) if what == "trailer"), None)
    at = pick.choice([at for at, (what, _) in enumerate(parts) if what in DAMAGES and (what != "trailer" or at == first)])
    damage, byte, number = pick.choice(DAMAGES[parts[at][0]])
    before = body_of(parts[:at])
    return before + damage + body_of(parts[at + 1 :]), CHUNK_FAULTS[number - 1], len(before) + byte, len(places_of(parts[:at]))


def chunked(pick, kind="chunked", made=stream):
    """Returns a chunked body of a stream, both often valid."""
    inside = made(pick)
    parts = in_chunks(pick, inside.data)
    if pick.random() < 0.4:
        return Input(kind, body_of(parts), inside.count)
    for _ in range(pick.randrange(3)):
        at = pick.randrange(len(parts))
        parts[at] = (parts[at][0], damaged(pick, parts[at][1]))
    return Input(kind, ended(pick, parts)[0], None)


def chunked_calls(pick):
    return chunked(pick, "chunked_calls", calls)


# ---- heads, requests and responses

TARGET = b"POST /api/v1/scheduler HTTP/1.1"
SUBSCRIBE = b'{"type":"SUBSCRIBE","subscribe":{"framework_info":{"user":"root","name":"n"}}}'
GOOD_REQUEST = b"%s\r\nHost: h\r\nContent-Type: application/json\r\nContent-Length: %d\r\n\r\n%s" % (TARGET, len(SUBSCRIBE), SUBSCRIBE)
STREAMS = [b"00000000-0000-4000-8000-%012x" % number for number in (1, 1, 1, 3)]
REQUEST_LINES = [
    b"GET /api/v1/scheduler HTTP/1.1", b"post /api/v1/scheduler HTTP/1.1", b"POST /api/v1/scheduler?x HTTP/1.1", b"POST http://h/api/v1/scheduler HTTP/1.1",
    b"POST * HTTP/1.1", TARGET[:-1] + b"0", TARGET[:-3] + b"2.0", TARGET[:-9], b"POST  /api/v1/scheduler HTTP/1.1", b"HTTP/1.1 200 OK", b"", b"\x16\x03\x01",
]
OK_LINES = [b"HTTP/1.1 200 OK"] * 5 + [b"HTTP/1.0 200", b"HTTP/1.1 200 ", b"HTTP/1.1 200 \xff\t~ "]
STATUS_LINES = [
    b"HTTP/1.1 403 Forbidden", b"HTTP/1.1 202 Accepted", b"HTTP/1.1 100 Continue", b"HTTP/1.1 099 x", b"HTTP/1.1 000", b"HTTP/1.1 999", b"HTTP/1.1 20 OK",
    b"HTTP/1.1 2000 OK", b"HTTP/1.1  200 OK", b"HTTP/1.1\t200 OK", b"HTTP/1.1 200\tOK", b"HTTP/1.1 200 O\0K", b" HTTP/1.1 200 OK", b"HTTP/2 200", b"HTTP/1.2 200 OK",
    b"http/1.1 200 OK", b"\n\r\nHTTP/1.1 200 OK", b"HTTP/1.1 200 " + b"O" * 16384, b"\r\n" * 8192, TARGET, b"", b"\x15\x03\x03",
]
FIELDS = [
    b"Transfer-Encoding: chunked", b"transfer-encoding: identity", b"Transfer-Encoding:", b"Content-Length: +47", b"Content-Length: 0x2f",
    b"Content-Length: 1, 1", b"content-length: 0", b"Content-Length: 99999999999999999999", b"Content-Length: 1048577", b"Content-Length : 4",
    b"Content-Type: text/plain", b"Mesos-Stream-Id:", b"Mesos-Stream-Id: " + b"s" * 129, b"Mesos-Stream-Id: a b", b" folded", b"\tfolded", b"no colon",
    b": name on", b"A: \0", b"A: \x7f\xff", b"\xc3\xa9: v",
    b"A: b\rc", b"Expect: 100-continue", b"", b"A: " + b"a" * 16300, b"\r\n".join([b"A: b"] * 60), b"\r\n".join([b"A: b"] * 61), b"\r\n".join([b"A: b"] * 70),
]


def field(pick, name, value):
    """Returns a header field, with its name and white space in different forms."""
    name = pick.choice([name, name, name.lower(), name.upper()])
    return name + b":" + pick.choice([b" ", b" ", b"", b"\t ", b"   "]) + value + pick.choice([b"", b"", b"", b" ", b"\t"])


def head(pick, start, fields, wild):
    """Returns the bytes of a head with this first line and these fields in any order. If `wild`, other fields are
    inserted or replace some."""
    pick.shuffle(fields)
    for _ in range(pick.choice([0, 1, 1, 2]) if wild else 0):
        at = pick.randrange(len(fields) + 1)
        fields[at : at + pick.randrange(2)] = [pick.choice(FIELDS + fields)] * pick.choice([0, 1, 1, 1, 2])
    return pick.choice([b"", b"", b"", b"\r\n"]) + pick.choice([b"\r\n"] * 4 + [b"\n"]).join([start, *fields, b"", b""])


def request(pick):
    """Returns the bytes of a request, and the type of its call, or None if it may be invalid.

    SUBSCRIBE and TEARDOWN are rare, since few calls have an effect after them.
    """
    wild = pick.random() < 0.65
    name = "TEARDOWN" if pick.random() < 0.002 else "SUBSCRIBE" if pick.random() < 0.02 else pick.choice(CALLS[1:])
    tree = call(pick, name)
    tree = disturbed(pick, tree) if wild and pick.random() < 0.3 else tree
    body = json_text(pick, tree, pick.choice([0, 0, 0.1]))
    body = damaged(pick, body) if wild and pick.random() < 0.15 else body
    size = max(0, len(body) + (pick.choice([-1, 1, 1000]) if wild and pick.random() < 0.15 else 0))
    fields = [b"Host: h", field(pick, b"Content-Type", pick.choice([b"application/json", b"Application/JSON;charset=utf-8"]))]
    fields.append(field(pick, b"Content-Length", pick.choice([b"%d", b"%d", b"%020d"]) % size))
    if pick.random() < 0.7:
        fields.append(field(pick, b"Mesos-Stream-Id", pick.choice(STREAMS)))
    data = head(pick, pick.choice(REQUEST_LINES) if wild and pick.random() < 0.2 else TARGET, fields, wild) + body
    while wild and pick.random() < 0.25:
        data = damaged(pick, data)
    return data, None if wild else name


def requests(pick):
    return Input("request", [request(pick) for _ in range(40)], None)


def response(pick):
    """Returns a response to SUBSCRIBE: a head that may be invalid, and any chunked body."""
    wild = pick.random() < 0.6
    fields = [
        field(pick, b"Content-Type", pick.choice([b"application/json", b"Application/JSON ;charset=utf-8"])),
        field(pick, b"Transfer-Encoding", pick.choice([b"chunked", b"chunked", b"Chunked"])),
        field(pick, b"Mesos-Stream-Id", pick.choice([b"s1", STREAMS[0], b"!~" * 64])),
    ]
    data = head(pick, pick.choice(STATUS_LINES if wild and pick.random() < 0.25 else OK_LINES), fields, wild)
    while wild and pick.random() < 0.3:
        data = damaged(pick, data)
    return Input("response", data + chunked(pick).data, None)


MAKERS = {
    "stream": stream, "chunked": chunked, "lines": lines, "calls": calls, "chunked_calls": chunked_calls, "call_lines": call_lines,
    "log": log, "request": requests, "response": response,
}
