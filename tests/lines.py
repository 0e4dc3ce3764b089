#!/usr/bin/env python3
"""Runs the built command on rows of arguments and input, and compares both outputs and the status.

Each input comes as a file, and through a pipe a byte at a time. Short JSON Lines are also cut in two at
each byte. The messages of tests/message_rows.py are read and written by each subcommand. Outputs that are full, closed,
without a reader or too small are tried too. The name of a case contains its arguments.
"""
import json
import os
import re
import resource
import select
import signal
import subprocess
import sys
import tempfile

sys.dont_write_bytecode = True
import message_rows
from support import BEAT, Cases, chunked, parser, record

# BEAT in chunks of 7 bytes.
BY_SEVEN = '7\r\n20\n{"ty\r\n7\r\npe":"HE\r\n7\r\nARTBEAT\r\n2\r\n"}\r\n0\r\n\r\n'
# BEAT in chunks of one byte: 143 bytes.
BY_BYTES = "".join(f"1\r\n{byte}\r\n" for byte in BEAT) + "0\r\n\r\n"
# The data of BEAT, 20 bytes, and their line.
TEXT = BEAT.split("\n", 1)[1]
LINE = TEXT + "\n"
# A text of 98 bytes, whose canonical text has 100: `15.0` for `15`.
SUBSCRIBED = '98\n{"type":"SUBSCRIBED","subscribed":{"framework_id":{"value":"F1"},"heartbeat_interval_seconds":15}}'

# Entries of a session log: SUBSCRIBED (70 bytes), a disconnection, and REVIVE (51 bytes).
SESSION = '67\nE{"type":"SUBSCRIBED","subscribed":{"framework_id":{"value":"F1"}}}'
BREAK = "1\nB"
REVIVE_TEXT = '{"type":"REVIVE","framework_id":{"value":"F1"}}'
REVIVE = record("C" + REVIVE_TEXT)
# An update whose uuid has 3 bytes, for a task whose name has quotation marks.
ODD_UPDATE = r'''127
E{"type":"UPDATE","update":{"status":{"task_id":{"value":"a\"b"},"state":"TASK_LOST","agent_id":{"value":"A1"},"uuid":"AAEC"}}}'''


def nested(objects):
    """Returns the text of this many objects inside each other."""
    return '{"a":' * (objects - 1) + "{}" + "}" * (objects - 1)


def entry(letter, message):
    """Returns an entry of a session log as a record."""
    return record(letter + json.dumps(message, separators=(",", ":")))


def named(name):
    return {"value": name}


def cpus(number):
    return {"name": "cpus", "type": "SCALAR", "scalar": {"value": number}}


def offers(*ids_and_agents):
    """Returns an entry of offers that have one processor each."""
    listed = [
        {"id": named(offer), "framework_id": named("F1"), "agent_id": named(agent), "hostname": "h", "resources": [cpus(1.0)]}
        for offer, agent in ids_and_agents
    ]
    return entry("E", {"type": "OFFERS", "offers": {"offers": listed}})


def task(name, agent, share):
    return {"name": name, "task_id": named(name), "agent_id": named(agent), "resources": [cpus(share)]}


def accept(ids, *tasks):
    """Returns an entry of a call that accepts the offers and launches the tasks."""
    operations = [{"type": "LAUNCH", "launch": {"task_infos": tasks}}] if tasks else []
    body = {"offer_ids": [named(it) for it in ids], "operations": operations}
    return entry("C", {"type": "ACCEPT", "framework_id": named("F1"), "accept": body})


# Acknowledges an update that was not received.
ACKNOWLEDGE = entry("C", {
    "type": "ACKNOWLEDGE",
    "framework_id": named("F1"),
    "acknowledge": {"agent_id": named("A1"), "task_id": named("T1"), "uuid": "AAEC"},
})
# One offer of one processor, and two tasks whose sum exceeds it.
ONE_OFFER = SESSION + offers(("O1", "A1"))
TOO_LARGE = accept(["O1"], task("T1", "A1", 0.6), task("T2", "A1", 0.501))
# An event that nests 128 deep. Its canonical text nests one deeper: the list of offers is in an object there.
DEEP_OFFER = (
    '{"type":"OFFERS","offers":[{"id":{"value":"O1"},"framework_id":{"value":"F1"},"agent_id":{"value":"A1"},"hostname":"h",'
    '"resources":[{"name":"disk","type":"SCALAR","scalar":{"value":1},"disk":%s}]}]}' % nested(123)
)
# A call of 91 bytes, whose canonical text has 93: `5.0` for `5`.
LONGER_CALL = '91\n{"type":"DECLINE","framework_id":{"value":"F1"},"decline":{"filters":{"refuse_seconds":5}}}'


def noun_of(args):
    """Returns what the records are with these arguments, as the last line names it."""
    return "calls" if "--calls" in args else "events"


# Arguments, input, and the standard output with status 0.
GOOD = [
    ("check", "", "events 0 bytes 0\n"),
    ("check", BEAT, "events 1 bytes 23\n"),
    ("check", BEAT + BEAT, "events 2 bytes 46\n"),
    ("check", '00000000000000000020\n{"type":"HEARTBEAT"}', "events 1 bytes 41\n"),
    ("check", '40\n{"type":"ERROR","error":{"message":"m"}}', "events 1 bytes 43\n"),
    # The body of the event is dropped.
    ("check", '25\n{"type":"INVERSE_OFFERS"}', "events 1 bytes 28\n"),
    # Unknown members are ignored, even duplicates.
    ("check", '35\n{"x":"a","type":"HEARTBEAT","x":{}}', "events 1 bytes 38\n"),
    ("check", '26\n{"type":"HEARTBEAT","x":1}', "events 1 bytes 29\n"),
    # Escapes in a name and in a text; each kind of value in an unknown member.
    ("check", r'''60
{"x":[null,true,-0.5e+1],"t\u0079pe":"\u0048EARTBEAT","y":0}''', "events 1 bytes 63\n"),
    ("check --limit 20", BEAT, "events 1 bytes 23\n"),
    ("check --limit=67108864", BEAT, "events 1 bytes 23\n"),
    ("check --limit=4194304", BEAT, "events 1 bytes 23\n"),
    ("check --chunked", BY_SEVEN, "events 1 bytes 48\n"),
    ("check --chunked", BY_BYTES, "events 1 bytes 143\n"),
    ("check --chunked", "0\r\n\r\n", "events 0 bytes 5\n"),
    ("check --chunked", "0\r\n\r\nXYZ", "events 0 bytes 5\n"),
    ("check --lines", "", "events 0 bytes 0\n"),
    ("check --lines", LINE, "events 1 bytes 21\n"),
    # A last line without LF; lines that end with CR LF; lines that are passed over.
    ("check --lines", TEXT, "events 1 bytes 20\n"),
    ("check --lines --limit 20", f"{TEXT}\r\n{TEXT}\r", "events 2 bytes 43\n"),
    ("check --lines --limit 20", f"\n\r\n{TEXT}\n\n{TEXT}\n\r\n", "events 2 bytes 48\n"),
    ("check --lines", "\n", "events 0 bytes 1\n"),
    ("check --lines", "\r", "events 0 bytes 1\n"),
    ("check --lines --limit 1", "\r\n\n\r", "events 0 bytes 4\n"),
    # White space around the text; a CR inside a line is white space.
    ("check --lines", f" \t{TEXT} \r \n", "events 1 bytes 26\n"),
    ("check --lines", '{"type":\r"HEARTBEAT"\r}\n', "events 1 bytes 23\n"),
    ("check --lines", f"{TEXT}\r\r\n{TEXT}", "events 2 bytes 43\n"),
    # At the limit, with CR LF and without; the lines that are passed over do not count.
    ("check --lines --limit 20", 3 * "\r\n" + LINE + 3 * "\n", "events 1 bytes 30\n"),
    ("check --lines --limit=20", TEXT + "\r", "events 1 bytes 21\n"),
    # More lines than one read returns.
    ("check --lines", 1000 * LINE, "events 1000 bytes 21000\n"),
    ("check --lines", "\n" * 20000 + TEXT, "events 1 bytes 20020\n"),
    # Without --calls most calls are events of other types.
    ("check", record(REVIVE_TEXT), "events 1 bytes 50\n"),
    ("show", record(REVIVE_TEXT), '1 OTHER "REVIVE"\nevents 1 bytes 50\n'),
    ("show", "", "events 0 bytes 0\n"),
    ("show", BEAT, "1 HEARTBEAT\nevents 1 bytes 23\n"),
    (
        "show",
        '40\n{"type":"ERROR","error":{"message":"m"}}29\n{"type":"OFFERS","offers":[]}20\n{"type":"HEARTBEAT"}',
        '1 ERROR "m"\n2 OFFERS 0\n3 HEARTBEAT\nevents 3 bytes 98\n',
    ),
    # 920 bytes: more than one read returns.
    ("show", 40 * BEAT, "".join(f"{number} HEARTBEAT\n" for number in range(1, 41)) + "events 40 bytes 920\n"),
    ("show --limit 20", BEAT, "1 HEARTBEAT\nevents 1 bytes 23\n"),
    ("show --limit=20", BEAT, "1 HEARTBEAT\nevents 1 bytes 23\n"),
    ("show --lines", LINE + TEXT, "1 HEARTBEAT\n2 HEARTBEAT\nevents 2 bytes 41\n"),
    # Lines that are passed over have no number.
    ("show --lines", f"\n{LINE}\r\n\n{LINE}", "1 HEARTBEAT\n2 HEARTBEAT\nevents 2 bytes 46\n"),
    ("show --lines", "", "events 0 bytes 0\n"),
    ("check --calls", "", "calls 0 bytes 0\n"),
    ("show --calls", "", "calls 0 bytes 0\n"),
    ("convert --calls", "", ""),
    ("convert --calls --most 1", "", "0\r\n\r\n"),
    ("check --calls --lines", "\n", "calls 0 bytes 1\n"),
    ("check --calls --chunked", "0\r\n\r\nXYZ", "calls 0 bytes 5\n"),
    ("check --calls", 2 * record(REVIVE_TEXT), "calls 2 bytes 100\n"),
    ("check --calls --limit 47", record(REVIVE_TEXT), "calls 1 bytes 50\n"),
    ("check --limit=47 --lines --calls", f"{REVIVE_TEXT}\r\n{REVIVE_TEXT}", "calls 2 bytes 96\n"),
    ("check --chunked --calls", chunked(record(REVIVE_TEXT), 7), "calls 1 bytes 95\n"),
    ("show --calls", record(REVIVE_TEXT), "1 REVIVE\ncalls 1 bytes 50\n"),
    ("show --calls --chunked", chunked(record(REVIVE_TEXT), 7), "1 REVIVE\ncalls 1 bytes 95\n"),
    ("show --lines --calls", f"\n{REVIVE_TEXT}\r\n\n{REVIVE_TEXT}", "1 REVIVE\n2 REVIVE\ncalls 2 bytes 98\n"),
    ("convert --calls", record(REVIVE_TEXT), record(REVIVE_TEXT)),
    ("convert --calls --chunked", chunked(record(REVIVE_TEXT), 7), record(REVIVE_TEXT)),
    ("convert --chunked --calls --most 3", chunked(record(REVIVE_TEXT), 7), chunked(record(REVIVE_TEXT), 3)),
    ("show --chunked", BY_BYTES, "1 HEARTBEAT\nevents 1 bytes 143\n"),
    ("show --chunked --limit 20", BY_SEVEN, "1 HEARTBEAT\nevents 1 bytes 48\n"),
    ("convert", "", ""),
    ("convert", BEAT, BEAT),
    ("convert --limit=20", BEAT, BEAT),
    ("convert --most 1", BEAT, BY_BYTES),
    ("convert --most 7", BEAT, BY_SEVEN),
    ("convert --most 1", "", "0\r\n\r\n"),
    # 9,200 bytes: all chunks together, or a single one, exceed the buffer.
    ("convert --most 1", 400 * BEAT, chunked(400 * BEAT, 1)),
    ("convert --most 9000", 400 * BEAT, chunked(400 * BEAT, 9000)),
    ("convert --lines", 2 * LINE, 2 * BEAT),
    ("convert --lines", f"\r\n{TEXT}\r\n\n{TEXT}\r", 2 * BEAT),
    ("convert --lines", "\n\r\n", ""),
    ("convert --lines --most 7", TEXT, BY_SEVEN),
    ("convert --limit 20 --most=1 --lines", LINE, BY_BYTES),
    ("convert --chunked", BY_BYTES, BEAT),
    ("convert --chunked --most 1", BY_BYTES, BY_BYTES),
    ("convert --chunked --most=7", BY_SEVEN, BY_SEVEN),
    ("convert --chunked --limit 4194304 --most 7", BY_SEVEN, BY_SEVEN),
    ("convert --chunked --limit=4194304 --most=7", BY_SEVEN, BY_SEVEN),
    ("replay", "", "entries 0\nframework -\n"),
    ("replay", SESSION, 'entries 1\nframework "F1"\n'),
    ("replay", "1\n2" + SESSION, 'entries 1\nframework "F1"\n'),
    ("replay", SESSION + REVIVE, 'entries 2\nframework "F1"\n'),
    ("replay", "1\n2" + BREAK, "entries 1\nframework -\n"),
    ("replay --limit 67", SESSION, 'entries 1\nframework "F1"\n'),
    ("replay", "0001\n2", "entries 0\nframework -\n"),
    ("replay", record(r'E{"type":"SUBSCRIBED","subscribed":{"framework_id":{"value":"F\"1"}}}'), 'entries 1\nframework "F\\"1"\n'),
    ("replay", ONE_OFFER, 'entries 2\nframework "F1"\nhand "O1"\n'),
    ("replay", ONE_OFFER + accept(["O1"], task("T1", "A1", 0.6), task("T2", "A1", 0.4)), 'entries 3\nframework "F1"\n'),
    ("replay", SESSION + ODD_UPDATE, 'entries 2\nframework "F1"\nowed "A1" "a\\"b" hex:000102\n'),
    ("relog", "", "1\n2"),
    ("relog", SESSION, "1\n2" + SESSION),
    ("relog", "1\n2" + SESSION + BREAK + REVIVE, "1\n2" + SESSION + BREAK + REVIVE),
    ("relog --limit=67", SESSION, "1\n2" + SESSION),
    ("relog", "1\n2", "1\n2"),
    ("relog", REVIVE, "1\n2" + REVIVE),
    ("relog --limit=1", "1\n21\nB1\nB", "1\n21\nB1\nB"),
    ("loopback", "", '1 SUBSCRIBED "F1" 15.0\nevents 1 bytes 115\n'),
    ("loopback", BEAT, '1 SUBSCRIBED "F1" 15.0\n2 HEARTBEAT\nevents 2 bytes 138\n'),
    ("loopback --most=4096", BEAT, '1 SUBSCRIBED "F1" 15.0\n2 HEARTBEAT\nevents 2 bytes 138\n'),
    # Unknown members are dropped, and an array of offers is put into its object.
    (
        "convert",
        '26\n{"type":"HEARTBEAT","x":1}29\n{"type":"OFFERS","offers":[]}',
        '20\n{"type":"HEARTBEAT"}29\n{"type":"OFFERS","offers":{}}',
    ),
]

# Input of `check`, and the fault that it prints with status 1.
FAULTS = [
    ("x", "F7 BadSizeLine after 1"),
    ("000000000000000000020\n", "F8 SizeLineTooLong after 21"),
    ("18446744073709551636\n", "F9 RecordTooLarge after 21"),
    # The record is not JSON.
    ("0\n", "F11 Text record 1 byte 0 End after 2"),
    ('34\n{"type":"HEARTBEAT","x":"\\ud800x"}', "F11 Text record 1 byte 31 Byte after 37"),
    ('33\n{"type":"HEARTBEAT","x":"\\udc00"}', "F11 Text record 1 byte 28 Byte after 36"),
    # The record is JSON, but not an event.
    ('7\n"abcde"', "F12 Field record 1 . WrongKind after 9"),
    ("4\nnull", "F12 Field record 1 . WrongKind after 6"),
    ("2\n[]", "F12 Field record 1 . WrongKind after 4"),
    ("2\n{}", "F12 Field record 1 type Missing after 4"),
    ('13\n{"type":null}', "F12 Field record 1 type Missing after 16"),
    ('25\n{"type":null,"type":null}', "F12 Field record 1 type Twice after 28"),
    ('10\n{"type":1}', "F12 Field record 1 type WrongKind after 13"),
    ('11\n{"type":{}}', "F12 Field record 1 type WrongKind after 14"),
    ('18\n{"type":"RESCIND"}', "F12 Field record 1 rescind Missing after 21"),
    ('39\n{"type":"HEARTBEAT","type":"HEARTBEAT"}', "F12 Field record 1 type Twice after 42"),
    ('16\n{"type":"ERROR"}', "F12 Field record 1 error Missing after 19"),
    ('28\n{"type":"ERROR","error":"m"}', "F12 Field record 1 error WrongKind after 31"),
    ('64\n{"type":"ERROR","error":{"message":"m"},"error":{"message":"m"}}', "F12 Field record 1 error Twice after 67"),
    ('27\n{"type":"ERROR","error":{}}', "F12 Field record 1 error.message Missing after 30"),
    ('39\n{"type":"ERROR","error":{"message":{}}}', "F12 Field record 1 error.message WrongKind after 42"),
    ('54\n{"type":"ERROR","error":{"message":"m","message":"n"}}', "F12 Field record 1 error.message Twice after 57"),
    # The second of three records.
    (BEAT + "2\n{}" + BEAT, "F12 Field record 2 type Missing after 27"),
    # Objects, then arrays, at the greatest depth (128) and one deeper. That `{` follows 128 openings of 5 bytes.
    (record(nested(128)), "F12 Field record 1 type Missing after 768"),
    (record(nested(129)), "F11 Text record 1 byte 640 Depth after 774"),
    (record("[" * 128 + "]" * 128), "F12 Field record 1 . WrongKind after 260"),
    (record("[" * 129), "F11 Text record 1 byte 128 Depth after 133"),
    # The largest limit, and a size above it.
    ("67108865\n", "F9 RecordTooLarge after 9"),
    *((BEAT[:taken], f"F10 EndsInsideRecord after {taken}") for taken in range(1, len(BEAT))),
]

# Input of `check --lines`, and the fault that it prints with status 1.
LINE_FAULTS = [
    # A line of white space is no empty line.
    (" ", "F11 Text record 1 byte 1 End after 1"),
    (" \n", "F11 Text record 1 byte 1 End after 2"),
    ("\t\r\n", "F11 Text record 1 byte 1 End after 3"),
    ("\r\r\n", "F11 Text record 1 byte 1 End after 3"),
    ("\r\r", "F11 Text record 1 byte 1 End after 2"),
    (f"\r{TEXT[:5]}\n", "F11 Text record 1 byte 6 End after 7"),
    # A byte order mark, at the start and before a later line.
    (f"\ufeff{LINE}", "F11 Text record 1 byte 0 Byte after 24"),
    (f"\ufeff{TEXT}", "F11 Text record 1 byte 0 Byte after 23"),
    (f"{LINE}\ufeff{LINE}", "F11 Text record 2 byte 0 Byte after 45"),
    ("\ufeff", "F11 Text record 1 byte 0 Byte after 3"),
    ("\ufeff\n", "F11 Text record 1 byte 0 Byte after 4"),
    # NUL bytes: alone, before and after a text, and inside a string.
    ("\0", "F11 Text record 1 byte 0 Byte after 1"),
    ("\0\n", "F11 Text record 1 byte 0 Byte after 2"),
    (f"\0{LINE}", "F11 Text record 1 byte 0 Byte after 22"),
    (f"{TEXT}\0\n", "F11 Text record 1 byte 20 Byte after 22"),
    ('{"type":"HEART\0BEAT"}\n', "F11 Text record 1 byte 14 Byte after 22"),
    (f"{LINE}\0", "F11 Text record 2 byte 0 Byte after 22"),
    # A CR inside a string or a number. A text may not continue on the next line, and a line has one text.
    ('{"type":"HEART\rBEAT"}\n', "F11 Text record 1 byte 14 Byte after 22"),
    ('{"x":1\r2,"type":"HEARTBEAT"}\n', "F11 Text record 1 byte 7 Byte after 29"),
    ('{"type":\n"HEARTBEAT"}\n', "F11 Text record 1 byte 8 End after 9"),
    ('{"type":\r\n"HEARTBEAT"}\n', "F11 Text record 1 byte 8 End after 10"),
    (TEXT + LINE, "F11 Text record 1 byte 20 Byte after 41"),
    (f"{TEXT},\n{LINE}", "F11 Text record 1 byte 20 Byte after 22"),
    # RecordIO: its size line is a line, and no event.
    (BEAT, "F12 Field record 1 . WrongKind after 3"),
    ("{}", "F12 Field record 1 type Missing after 2"),
    ("{}\n", "F12 Field record 1 type Missing after 3"),
    ("{}\r\n", "F12 Field record 1 type Missing after 4"),
    ("null\n", "F12 Field record 1 . WrongKind after 5"),
    (f"{LINE}{{}}\n{LINE}", "F12 Field record 2 type Missing after 24"),
    # The first record with a fault, although a later one has another.
    (f"{LINE}{{}}\n\0\n", "F12 Field record 2 type Missing after 24"),
    (nested(129) + "\n", "F11 Text record 1 byte 640 Depth after 771"),
    *((TEXT[:taken], f"F11 Text record 1 byte {taken} End after {taken}") for taken in range(1, len(TEXT))),
]

# The limit, an input of `check --lines`, and the bytes used up to the one that passes the limit.
TOO_LONG = [
    (19, LINE, 20),
    (19, TEXT, 20),
    (19, f"{TEXT}\r\n", 20),
    (20, f"{TEXT} \n", 21),
    (20, f"{TEXT} ", 21),
    # The first CR can be that of a CR LF, so that the byte after it decides.
    (20, f"{TEXT}\r ", 22),
    (20, f"{TEXT}\r\r", 22),
    (20, f"{TEXT}\r\r\n", 22),
    (20, f"{LINE}\n{TEXT}\r{TEXT}\n", 44),
    (20, f" {LINE}", 21),
    # F9 precedes a fault of the text, which is reported at the line feed.
    (1, "\0\0\n", 2),
    (1, "{}", 2),
]

# Input of `check --calls`, and the fault that it prints with status 1.
CALL_FAULTS = [
    (BEAT, "F12 Field record 1 type LeftOut after 23"),
    (record('{"type":"OFFERS","offers":[]}'), "F12 Field record 1 type LeftOut after 32"),
    (record(SUBSCRIBED[3:]), "F12 Field record 1 type LeftOut after 101"),
    # Other types of calls, and names in other letters.
    *(
        (record('{"type":"%s"}' % name), f"F12 Field record 1 type LeftOut after {14 + len(name)}")
        for name in ["X", "", "accept", "REVIVE ", "SUBSCRIBED", "LAUNCH", "UPDATE_FRAMEWORK", "ACCEPT_INVERSE_OFFERS", "REQUEST"]
    ),
    ("2\n{}", "F12 Field record 1 type Missing after 4"),
    ('17\n{"type":"REVIVE"}', "F12 Field record 1 framework_id Missing after 20"),
    (record('{"type":"KILL","framework_id":{"value":"F1"}}'), "F12 Field record 1 kill Missing after 48"),
    (record('{"type":"KILL","framework_id":{"value":"F1"},"kill":{"task_id":"T1"}}'), "F12 Field record 1 kill.task_id WrongKind after 72"),
    (record('{"type":"REVIVE","framework_id":{"value":"F1"},"revive":{}}'), "F12 Field record 1 revive LeftOut after 62"),
    (record(REVIVE_TEXT) + BEAT, "F12 Field record 2 type LeftOut after 73"),
    ("0\n", "F11 Text record 1 byte 0 End after 2"),
    # The records of a session log: an event, a call after its letter, and the header.
    (SESSION, "F11 Text record 1 byte 0 Byte after 70"),
    (REVIVE, "F11 Text record 1 byte 0 Byte after 51"),
    ("1\n2" + SESSION, "F12 Field record 1 . WrongKind after 3"),
    (record(REVIVE_TEXT)[:40], "F10 EndsInsideRecord after 40"),
    ("x", "F7 BadSizeLine after 1"),
]

# Arguments, input, and the standard output with status 1.
BAD = [
    *(("check", text, f"fault {fault}\n") for text, fault in FAULTS),
    ("check --limit 19", BEAT, "fault F9 RecordTooLarge after 3\n"),
    ("check --limit=1", BEAT, "fault F9 RecordTooLarge after 3\n"),
    ("check --chunked", "", "fault F6 EndsInsideChunks after 0\n"),
    ("check --chunked", "2\r\n5\n\r\n0\r\n\r\n", "fault F10 EndsInsideRecord after 12\n"),
    ("check --chunked", "5\r\n20\n", "fault F6 EndsInsideChunks after 6\n"),
    ("check --chunked", "g", "fault F1 BadChunkLine after 1\n"),
    *(("check --lines", text, f"fault {fault}\n") for text, fault in LINE_FAULTS),
    *((f"check --lines --limit {limit}", text, f"fault F9 RecordTooLarge after {used}\n") for limit, text, used in TOO_LONG),
    ("show --lines", f"{LINE}{{}}\n{LINE}", "1 HEARTBEAT\nfault F12 Field record 2 type Missing after 24\n"),
    ("show --lines", LINE + "[", "1 HEARTBEAT\nfault F11 Text record 2 byte 1 End after 22\n"),
    ("show --lines --limit 20", f"{LINE}{TEXT} \n{LINE}", "1 HEARTBEAT\nfault F9 RecordTooLarge after 42\n"),
    *(("check --calls", text, f"fault {fault}\n") for text, fault in CALL_FAULTS),
    ("check --calls --lines", TEXT, "fault F12 Field record 1 type LeftOut after 20\n"),
    ("check --calls --chunked", BY_SEVEN, "fault F12 Field record 1 type LeftOut after 41\n"),
    ("check --calls --limit 46", record(REVIVE_TEXT), "fault F9 RecordTooLarge after 3\n"),
    ("check --calls --chunked", "", "fault F6 EndsInsideChunks after 0\n"),
    ("show --calls", record(REVIVE_TEXT) + BEAT, "1 REVIVE\nfault F12 Field record 2 type LeftOut after 73\n"),
    ("show --calls --lines", f"{REVIVE_TEXT}\n{LINE}", "1 REVIVE\nfault F12 Field record 2 type LeftOut after 69\n"),
    ("show --calls", record(REVIVE_TEXT) + "20\n{", "1 REVIVE\nfault F10 EndsInsideRecord after 54\n"),
    ("replay", "1\nX", "fault F16 BadEntry record 1 after 3\n"),
    ("replay", REVIVE, "refused S1 NotSubscribed record 1\n"),
    ("replay", "1\n2" + SESSION + BREAK + REVIVE, "refused S1 NotSubscribed record 3\n"),
    ("replay", ONE_OFFER + accept(["O1", "O1"]), "refused S2 NamedTwice record 3\n"),
    ("replay", ONE_OFFER + accept(["O1", "O9"]), "refused S3 NoSuchOffer record 3 index 1\n"),
    ("replay", SESSION + offers(("O1", "A1"), ("O2", "A2")) + accept(["O1", "O2"]), "refused S4 TwoAgents record 3\n"),
    ("replay", ONE_OFFER + accept(["O1"], task("T1", "A1", 0.5), task("T2", "A2", 0.5)), "refused S5 WrongAgent record 3 task 1\n"),
    ("replay", ONE_OFFER + TOO_LARGE, "refused S6 Exceeds record 3 task 0 resource 0\n"),
    ("replay", "1\n2" + ONE_OFFER + TOO_LARGE, "refused S6 Exceeds record 3 task 0 resource 0\n"),
    ("replay", SESSION + ACKNOWLEDGE, "refused S7 NotOwed record 2\n"),
    # A fault of the log after a rejected call is reported instead of the call.
    ("replay", REVIVE + "1\nX", "fault F16 BadEntry record 2 after 54\n"),
    ("replay", SESSION + BREAK, "fault F16 BadEntry record 2 after 73\n"),
    ("replay", "1\n21\n2", "fault F16 BadEntry record 2 after 6\n"),
    ("replay --limit 66", SESSION, "fault F9 RecordTooLarge after 3\n"),
    ("replay", "0\n", "fault F16 BadEntry record 1 after 2\n"),
    ("replay", "2\n2x", "fault F16 BadEntry record 1 after 4\n"),
    ("replay", SESSION + "1\n2", "fault F16 BadEntry record 2 after 73\n"),
    ("replay", "1\n22\nBx", "fault F16 BadEntry record 2 after 7\n"),
    ("replay", "2\nE{", "fault F11 Text record 1 byte 1 End after 4\n"),
    ("replay", "1\n23\nC{}", "fault F12 Field record 2 type Missing after 8\n"),
    *(("replay", ("1\n2" + SESSION)[:taken], f"fault F10 EndsInsideRecord after {taken}\n") for taken in (1, 2, 4, 72)),
    ("loopback", "0\n", "fault F11 Text record 1 byte 0 End after 2\n"),
    ("serve --port 1 --count 1", "0\n", "fault F11 Text record 1 byte 0 End after 2\n"),
    ("show", "x", "fault F7 BadSizeLine after 1\n"),
    ("show", record("[" * 128 + "]" * 128), "fault F12 Field record 1 . WrongKind after 260\n"),
    ("show", record("[" * 129), "fault F11 Text record 1 byte 128 Depth after 133\n"),
    ("check --limit 67108864", "67108865\n", "fault F9 RecordTooLarge after 9\n"),
    ("show", BEAT + "2\n{}" + BEAT, "1 HEARTBEAT\nfault F12 Field record 2 type Missing after 27\n"),
    ("show", BEAT + "1\n[", "1 HEARTBEAT\nfault F11 Text record 2 byte 1 End after 26\n"),
    ("show", BEAT + "20\n{", "1 HEARTBEAT\nfault F10 EndsInsideRecord after 27\n"),
    ("show --limit 19", BEAT, "fault F9 RecordTooLarge after 3\n"),
    ("show --chunked --limit 19", BY_BYTES, "fault F9 RecordTooLarge after 16\n"),
]

# Arguments, input, and the standard error with status 1. Standard output is empty.
ERRORS = [
    ("convert", "0\n", "fault F11 Text record 1 byte 0 End after 2\n"),
    ("convert", BEAT + "2\n{}", "fault F12 Field record 2 type Missing after 27\n"),
    ("convert", BEAT + "20\n{", "fault F10 EndsInsideRecord after 27\n"),
    ("convert --limit 98", SUBSCRIBED, "encode failed event 1 TooLarge\n"),
    ("convert", record(DEEP_OFFER), "encode failed event 1 TooDeep\n"),
    ("convert --lines", LINE + "{}\n", "fault F12 Field record 2 type Missing after 24\n"),
    ("convert --lines", LINE + TEXT[:9], "fault F11 Text record 2 byte 9 End after 30\n"),
    ("convert --lines --limit 19", LINE, "fault F9 RecordTooLarge after 20\n"),
    ("convert --lines --limit 98", SUBSCRIBED[3:], "encode failed event 1 TooLarge\n"),
    ("convert --lines", f"\n{LINE}\n{DEEP_OFFER}\n", "encode failed event 2 TooDeep\n"),
    ("convert --calls", BEAT, "fault F12 Field record 1 type LeftOut after 23\n"),
    ("convert --calls --most 1", record(REVIVE_TEXT) + "2\n{}", "fault F12 Field record 2 type Missing after 54\n"),
    ("convert --calls --limit 91", LONGER_CALL, "encode failed call 1 TooLarge\n"),
    ("convert --calls --limit 91 --most 9", record(REVIVE_TEXT) + LONGER_CALL, "encode failed call 2 TooLarge\n"),
    ("convert --calls --lines --limit 91", f"\n{REVIVE_TEXT}\n\n{LONGER_CALL[3:]}", "encode failed call 2 TooLarge\n"),
    ("relog", "1\nX", "fault F16 BadEntry record 1 after 3\n"),
    ("relog", SESSION + BREAK, "fault F16 BadEntry record 2 after 73\n"),
    ("relog --limit 99", record("E" + SUBSCRIBED[3:]), "encode failed event 1 TooLarge\n"),
    ("relog --limit 99", "1\n21\nB" + record("E" + SUBSCRIBED[3:]), "encode failed event 2 TooLarge\n"),
    ("relog", record("E" + DEEP_OFFER), "encode failed event 1 TooDeep\n"),
    ("relog", ("1\n2" + SESSION)[:72], "fault F10 EndsInsideRecord after 72\n"),
]

# Arguments and input of JSON Lines, both outputs and the status.
JSON_LINES = [
    *(
        (f"{command} --json{more}", text, lines, "" if command == "convert" else f"{noun_of(more)} {count} bytes {len(text)}\n", 0)
        for command in ("show", "convert")
        for more, text, lines, count in [
            ("", "", "", 0),
            ("", BEAT, LINE, 1),
            (" --limit=20", BEAT, LINE, 1),
            # More than one read returns.
            ("", 40 * BEAT, 40 * LINE, 40),
            (" --chunked", BY_BYTES, LINE, 1),
            (" --chunked --limit 20", BY_SEVEN, LINE, 1),
            # The canonical text of each event: unknown members are dropped, and an array of offers is in an object.
            ("", '26\n{"type":"HEARTBEAT","x":1}29\n{"type":"OFFERS","offers":[]}', LINE + '{"type":"OFFERS","offers":{}}\n', 2),
            # A text with a LF is written on one line.
            ("", record('{"type":"ERROR","error":\n{"message":"a\\nb\\u000a"}}'), '{"type":"ERROR","error":{"message":"a\\nb\\n"}}\n', 1),
            ("", SUBSCRIBED, SUBSCRIBED[3:].replace(":15}", ":15.0}") + "\n", 1),
            (" --lines", "", "", 0),
            (" --lines", "\n\r\n", "", 0),
            (" --lines", LINE, LINE, 1),
            (" --lines --limit=20", f"\n{TEXT}\r\n{TEXT}", 2 * LINE, 2),
            (" --lines", '{"x":1,"type":\r"HEARTBEAT"}', LINE, 1),
            (" --calls", record(REVIVE_TEXT), REVIVE_TEXT + "\n", 1),
            (" --chunked --calls", chunked(2 * record(REVIVE_TEXT), 7), 2 * (REVIVE_TEXT + "\n"), 2),
            (" --calls --lines", f"\r\n{REVIVE_TEXT}\r\n\n{REVIVE_TEXT}", 2 * (REVIVE_TEXT + "\n"), 2),
            (" --calls", LONGER_CALL, LONGER_CALL[3:].replace(":5}", ":5.0}") + "\n", 1),
        ]
    ),
    # The events before a fault are written; not so by `convert`.
    ("show --json", "x", "", "fault F7 BadSizeLine after 1\n", 1),
    ("show --json", BEAT + "2\n{}" + BEAT, LINE, "fault F12 Field record 2 type Missing after 27\n", 1),
    ("show --json", BEAT + "20\n{", LINE, "fault F10 EndsInsideRecord after 27\n", 1),
    ("show --chunked --json", "5\r\n20\n", "", "fault F6 EndsInsideChunks after 6\n", 1),
    ("convert --json", BEAT + "2\n{}" + BEAT, "", "fault F12 Field record 2 type Missing after 27\n", 1),
    # So are those before an event that has no canonical text.
    ("show --json --limit 98", BEAT + SUBSCRIBED + BEAT, LINE, "encode failed event 2 TooLarge\n", 1),
    ("show --json", 2 * BEAT + record(DEEP_OFFER) + "x", 2 * LINE, "encode failed event 3 TooDeep\n", 1),
    ("convert --json --limit 98", BEAT + SUBSCRIBED, "", "encode failed event 2 TooLarge\n", 1),
    ("convert --json", record(DEEP_OFFER), "", "encode failed event 1 TooDeep\n", 1),
    ("show --json --lines", LINE + "{}", LINE, "fault F12 Field record 2 type Missing after 23\n", 1),
    ("show --lines --json --limit 98", f"{LINE}\n{SUBSCRIBED[3:]}\n{LINE}", LINE, "encode failed event 2 TooLarge\n", 1),
    ("show --lines --json", f"{LINE}{DEEP_OFFER}\n", LINE, "encode failed event 2 TooDeep\n", 1),
    ("convert --json --lines --limit 98", LINE + SUBSCRIBED[3:], "", "encode failed event 2 TooLarge\n", 1),
    ("show --calls --json", record(REVIVE_TEXT) + BEAT, REVIVE_TEXT + "\n", "fault F12 Field record 2 type LeftOut after 73\n", 1),
    ("show --json --calls --limit 91", 2 * record(REVIVE_TEXT) + LONGER_CALL, 2 * (REVIVE_TEXT + "\n"), "encode failed call 3 TooLarge\n", 1),
    ("show --json --calls --lines --limit 91", f"\n{LONGER_CALL[3:]}\nx", "", "encode failed call 1 TooLarge\n", 1),
    ("convert --calls --json --limit 91", record(REVIVE_TEXT) + LONGER_CALL, "", "encode failed call 2 TooLarge\n", 1),
]

# Arguments, input, the lines before a fault, and the fault of JSON Lines with empty lines: it ends with the number of
# its line if that is not the number of the record. `convert` and --json print it on standard error. The names of these
# cases begin with `line number`.
LINE_NUMBERS = [
    ("check --lines", "\n{}", "", "F12 Field record 1 type Missing after 3 line 2"),
    ("check --lines", "\r\n{}\r\n", "", "F12 Field record 1 type Missing after 6 line 2"),
    ("check --lines", "\n\r\n\n{}\n", "", "F12 Field record 1 type Missing after 7 line 4"),
    ("check --lines", f"{LINE}\n{{}}", "", "F12 Field record 2 type Missing after 24 line 3"),
    ("check --lines", f"{LINE}\r\n\n[\n{LINE}", "", "F11 Text record 2 byte 1 End after 26 line 4"),
    ("check --lines", f"\n{LINE}{LINE}{{}}\n", "", "F12 Field record 3 type Missing after 46 line 4"),
    ("check --lines", '\n{"type":"RESCIND","rescind":{"offer_id":{"value":"O1"}}}\n\r\n{"type":"RESCIND","rescind":{}}', "", "F12 Field record 2 rescind.offer_id Missing after 91 line 4"),
    ("check --lines", "\n \n", "", "F11 Text record 1 byte 1 End after 3 line 2"),
    ("check --lines", "\n\ufeff{}\n", "", "F11 Text record 1 byte 0 Byte after 7 line 2"),
    ("check --lines", "\n\0", "", "F11 Text record 1 byte 0 Byte after 2 line 2"),
    # A CR alone ends no line.
    ("check --lines", "\n{\r}\r\n", "", "F12 Field record 1 type Missing after 6 line 2"),
    ("check --lines", "\r{}", "", "F12 Field record 1 type Missing after 3"),
    # More empty lines than one read returns.
    ("check --lines", "\n" * 20000 + "{}", "", "F12 Field record 1 type Missing after 20002 line 20001"),
    # No empty line precedes the fault.
    ("check --lines", "{}\n\n\n", "", "F12 Field record 1 type Missing after 3"),
    ("check --lines", f"{LINE}{{}}\n\n", "", "F12 Field record 2 type Missing after 24"),
    # F9 has no record, and so no line.
    ("check --lines --limit 19", f"\n{LINE}", "", "F9 RecordTooLarge after 21"),
    ("show --lines", f"{LINE}\n{{}}", "1 HEARTBEAT\n", "F12 Field record 2 type Missing after 24 line 3"),
    ("show --lines --json", f"{LINE}\n{{}}", LINE, "F12 Field record 2 type Missing after 24 line 3"),
    ("convert --lines", f"{LINE}\n{{}}", "", "F12 Field record 2 type Missing after 24 line 3"),
    ("convert --lines --json", f"{LINE}\n{{}}", "", "F12 Field record 2 type Missing after 24 line 3"),
    ("check --lines --calls", f"\n{LINE}", "", "F12 Field record 1 type LeftOut after 22 line 2"),
    ("show --lines --calls", f"{REVIVE_TEXT}\n\n{LINE}", "1 REVIVE\n", "F12 Field record 2 type LeftOut after 70 line 3"),
    ("show --lines --calls --json", f"{REVIVE_TEXT}\n\n{LINE}", REVIVE_TEXT + "\n", "F12 Field record 2 type LeftOut after 70 line 3"),
    ("convert --lines --calls --most 7", f"{REVIVE_TEXT}\n\n{LINE}", "", "F12 Field record 2 type LeftOut after 70 line 3"),
]

# Arguments and input of `replay --json`, and both outputs and the status.
NO_SESSION = '{"entries":%d,"framework":null,"connected":false,"offers":[],"unacknowledged":[]}\n'
SESSION_START = '{"entries":%d,"framework":"F1","connected":true,'
ONE_SESSION = SESSION_START + '"offers":[],"unacknowledged":[]}\n'
OFFER = '{"id":{"value":"O1"},"framework_id":{"value":"F1"},"agent_id":{"value":"A1"},"hostname":"h","resources":[{"name":"cpus","type":"SCALAR","scalar":{"value":1.0}}]}'
ODD_KEY = r'{"agent_id":"A1","task_id":"a\"b","uuid":"AAEC"}'
JSON_SESSIONS = [
    ("replay --json", "", NO_SESSION % 0, "", 0),
    ("replay --json", SESSION, ONE_SESSION % 1, "", 0),
    ("replay --limit 67 --json", SESSION, ONE_SESSION % 1, "", 0),
    ("replay --json", "1\n2" + BREAK, NO_SESSION % 1, "", 0),
    ("replay --json", ONE_OFFER, SESSION_START % 2 + f'"offers":[{OFFER}],"unacknowledged":[]}}\n', "", 0),
    ("replay --json", SESSION + ODD_UPDATE, SESSION_START % 2 + f'"offers":[],"unacknowledged":[{ODD_KEY}]}}\n', "", 0),
    ("replay --json", "1\nX", "", "fault F16 BadEntry record 1 after 3\n", 1),
    ("replay --json", REVIVE, "", "refused S1 NotSubscribed record 1\n", 1),
    ("replay --json", ONE_OFFER + TOO_LARGE, "", "refused S6 Exceeds record 3 task 0 resource 0\n", 1),
]

# Usage errors: status 2, and a text on standard error only.
USAGE_ERRORS = [
    "check --limit 0",
    "check --limit 67108865",
    "check --limit x",
    "check --limit",
    "check --limit 1 --limit 2",
    "",
    "chek",
    "check --chunked --chunked",
    "check --most 1",
    "show --limit 0",
    "show --most 1",
    "show --json --json",
    "show --json=1",
    "check --json",
    "check --lines --lines",
    "show --lines=1",
    "convert --lines x",
    "check --calls --calls",
    "show --calls=1",
    "convert --calls x",
    *(f"{command} --{option}" for command in ("replay", "relog", "loopback") for option in ("lines", "calls")),
    *(f"serve --port 1 --count 1 --{option}" for option in ("lines", "calls")),
    *(f"master --port 0 --seconds 1 --{option}" for option in ("lines", "calls")),
    *(f"subscribe --to h --user u --name n --{option}" for option in ("lines", "calls")),
    "relog --json",
    "loopback --json",
    "convert --most 0",
    "convert --most 16777217",
    "convert --most x",
    "replay --limit 0",
    "replay --chunked",
    "relog --limit 67108865",
    "relog --most 1",
    "serve",
    "serve --port 5050",
    "serve --count 1",
    "serve --port 0 --count 1",
    "serve --port 65536 --count 1",
    "serve --port 5050 --count 0",
    "serve --port 5050 --count 1001",
    "subscribe",
    "subscribe --to h --user u",
    "subscribe --to h --name n",
    "subscribe --user u --name n",
    "subscribe --to h --user u --name n --reads 4294967296",
    "subscribe --to h --user u --name n --reads -1",
    "loopback --most 0",
    "loopback --most 16777217",
    "loopback --limit 1",
]

LINES_OR_CHUNKED = "error: the argument '--lines' cannot be used with '--chunked'\n"
JSON_OR_MOST = "error: the argument '--json' cannot be used with '--most'\n"

# Arguments with an invalid value, or with two options that exclude each other: status 2, and this
# line on standard error only.
BAD_VALUES = [
    ("serve --port 5050 --count 1 --stream x", "bad value --stream\n"),
    ("serve --port 5050 --count 1 --stream {00000000000040008000000000000001}", "bad value --stream\n"),
    ("subscribe --to= --user u --name n", "bad value --to\n"),
    (f"subscribe --to {256 * 'a'} --user u --name n", "bad value --to\n"),
    ("convert --json --most 1", JSON_OR_MOST),
    ("convert --most=4096 --chunked --json", JSON_OR_MOST),
    ("convert --calls --json --most 1", JSON_OR_MOST),
    *(
        (f"{command} {options}", LINES_OR_CHUNKED)
        for command in ("check", "show", "convert")
        for options in ("--lines --chunked", "--chunked --lines", "--chunked --calls --limit 20 --lines")
    ),
    ("show --json --lines --chunked", LINES_OR_CHUNKED),
    ("convert --lines --json --chunked", LINES_OR_CHUNKED),
    ("convert --most 1 --lines --chunked", LINES_OR_CHUNKED),
]

# Arguments that print help or the version, and a part of that text: status 0, on standard output only.
HELP = [
    ("--help", "check"),
    ("convert --help", "--most <M>"),
    ("--version", "mesosev 0.1.0\n"),
    ("-V", "mesosev 0.1.0\n"),
    ("check --version", "mesosev-check 0.1.0\n"),
    ("show -V", "mesosev-show 0.1.0\n"),
    ("convert --version", "mesosev-convert 0.1.0\n"),
    ("check --help", "--limit <N>"),
    ("show --help", "--limit <N>"),
    ("show --help", "--json "),
    ("convert --help", "--json "),
    ("subscribe --help", "--json "),
    *((f"{command} --help", f"{option} ") for command in ("check", "show", "convert") for option in ("--chunked", "--lines", "--calls")),
    # The help of each command that reads one file says how to pass it.
    ("--help", "< FILE"),
    ("check --help", "< FILE"),
    ("show -h", "< FILE"),
    ("convert -h", "< FILE"),
    ("replay --help", "< FILE"),
    ("relog --help", "< FILE"),
    ("replay --help", "--limit <N>"),
    ("replay --help", "--json "),
    ("relog --help", "--limit <N>"),
    ("serve --help", "--stream <UUID>"),
    ("subscribe --help", "[default: 1000000]"),
    ("loopback --help", "[default: 4096]"),
    ("replay --version", "mesosev-replay 0.1.0\n"),
    ("relog --version", "mesosev-relog 0.1.0\n"),
    ("serve --version", "mesosev-serve 0.1.0\n"),
    ("subscribe --version", "mesosev-subscribe 0.1.0\n"),
    ("loopback --version", "mesosev-loopback 0.1.0\n"),
]

# Arguments that are not UTF-8: status 2, and one line on standard error only.
NOT_UTF_8 = [[b"\xff"], [b"check", b"--limit", b"1\xc3"], [b"\xed\xa0\x80", b"--help"]]

# Arguments, both outputs and the status if standard input is a folder, which cannot be read.
FOLDER = [
    ("check", ("fault F14 Read after 0\n", "", 1)),
    ("check --chunked", ("fault F14 Read after 0\n", "", 1)),
    ("show", ("fault F14 Read after 0\n", "", 1)),
    ("show --json", ("", "fault F14 Read after 0\n", 1)),
    ("check --lines", ("fault F14 Read after 0\n", "", 1)),
    ("show --lines --calls", ("fault F14 Read after 0\n", "", 1)),
    ("show --json --lines", ("", "fault F14 Read after 0\n", 1)),
    ("check --calls", ("fault F14 Read after 0\n", "", 1)),
    ("convert --lines", ("", "fault F14 Read after 0\n", 1)),
    ("convert --calls", ("", "fault F14 Read after 0\n", 1)),
    ("convert --json", ("", "fault F14 Read after 0\n", 1)),
    ("convert", ("", "fault F14 Read after 0\n", 1)),
    ("replay", ("fault F14 Read after 0\n", "", 1)),
    ("replay --json", ("", "fault F14 Read after 0\n", 1)),
    ("relog", ("", "fault F14 Read after 0\n", 1)),
    ("loopback", ("fault F14 Read after 0\n", "", 1)),
    ("serve --port 1 --count 1", ("fault F14 Read after 0\n", "", 1)),
]

# Arguments and input whose output fails before its first byte: status 1, with a line on standard error. If the
# output is a pipe that has no reader, PRINTING writes no such line.
PRINTING = [
    *((args, 400 * BEAT) for args in ("check", "check --chunked", "show", "show --json", "loopback", "--help", "show --help", "--version", "check -V")),
    *((args, 400 * LINE) for args in ("check --lines", "show --lines", "show --lines --json")),
    *((args, 400 * record(REVIVE_TEXT)) for args in ("check --calls", "show --calls", "show --calls --json")),
    ("show --calls --lines", 400 * (REVIVE_TEXT + "\n")),
    ("replay", SESSION),
]
WRITING = [
    *((args, 400 * BEAT) for args in ("convert", "convert --json", "convert --most 1", "convert --most 16777216")),
    *((args, 400 * LINE) for args in ("convert --lines", "convert --lines --json", "convert --lines --most 7")),
    *((args, 400 * record(REVIVE_TEXT)) for args in ("convert --calls", "convert --calls --json", "convert --calls --most 7")),
    ("relog", SESSION),
]

# Arguments, input, and standard output, which may fail after any of its bytes.
BEATS = "".join(f"{number} HEARTBEAT\n" for number in range(1, 10001)) + "events 10000 bytes 230000\n"
REVIVES = "".join(f"{number} REVIVE\n" for number in range(1, 10001))
LONG = [
    ("check", 10000 * BEAT, "events 10000 bytes 230000\n"),
    ("show", 10000 * BEAT, BEATS),
    # A line that exceeds the buffer.
    ("show", record('{"type":"ERROR","error":{"message":"%s"}}' % ("m" * 100000)), '1 ERROR "%s"\nevents 1 bytes 100046\n' % ("m" * 100000)),
    # Lines that fit into the buffer alone, but not together.
    ("show", record('{"type":"ERROR","error":{"message":"%s"}}' % ("m" * 65500)) + 3 * BEAT, '1 ERROR "%s"\n%sevents 4 bytes 65614\n' % ("m" * 65500, BEATS[12:48])),
    ("show --json", 10000 * BEAT, 10000 * LINE),
    ("show --json", record('{"type":"ERROR","error":{"message":"%s"}}' % ("m" * 100000)), '{"type":"ERROR","error":{"message":"%s"}}\n' % ("m" * 100000)),
    ("show --json", record('{"type":"ERROR","error":{"message":"%s"}}' % ("m" * 65490)) + 3 * BEAT, '{"type":"ERROR","error":{"message":"%s"}}\n' % ("m" * 65490) + 3 * LINE),
    ("show --lines", 10000 * LINE, BEATS.replace("230000", "210000")),
    ("show --lines --json", 10000 * LINE, 10000 * LINE),
    ("show --calls", 10000 * record(REVIVE_TEXT), REVIVES + "calls 10000 bytes 500000\n"),
    ("show --calls --json", 10000 * record(REVIVE_TEXT), 10000 * (REVIVE_TEXT + "\n")),
    ("convert --lines", 10000 * LINE, 10000 * BEAT),
    ("convert --calls", 10000 * record(REVIVE_TEXT), 10000 * record(REVIVE_TEXT)),
    ("convert", 10000 * BEAT, 10000 * BEAT),
    ("convert --json", 10000 * BEAT, 10000 * LINE),
    ("convert --most 1", 500 * BEAT, "".join(f"1\r\n{byte}\r\n" for byte in 500 * BEAT) + "0\r\n\r\n"),
    ("replay", SESSION + ODD_UPDATE, 'entries 2\nframework "F1"\nowed "A1" "a\\"b" hex:000102\n'),
    ("relog", SESSION + 2000 * REVIVE, "1\n2" + SESSION + 2000 * REVIVE),
]
# The longest input in characters that is cut in two at each byte.
SHORT = 100
# The capacity of a pipe in bytes.
PIPE = 65536
# The bytes of standard input that the command reads ahead.
READ_AHEAD = 16384


def canonical_text(value):
    """Returns the canonical text of a value, whose texts `NUMBER as it is written` are numbers."""
    text = json.dumps(value, separators=(",", ":"), ensure_ascii=False)
    return re.sub(r'"([0-9.]+) as it is written"', r"\1", text)


class Tests(Cases):
    def __init__(self, program, word):
        super().__init__(word)
        self.program = os.path.abspath(program)

    def from_file(self, args, text):
        """Returns both outputs, the status, and the bytes of the file that were read."""
        with tempfile.TemporaryFile() as file:
            file.write(text.encode())
            file.seek(0)
            ran = subprocess.run([self.program, *args.split()], stdin=file, capture_output=True, timeout=60, check=False)
            return ran.stdout.decode(), ran.stderr.decode(), ran.returncode, os.lseek(file.fileno(), 0, os.SEEK_CUR)

    def from_folder(self, args):
        """Returns both outputs and the status if the input is a folder."""
        folder = os.open(tempfile.gettempdir(), os.O_RDONLY)
        try:
            ran = subprocess.run([self.program, *args.split()], stdin=folder, capture_output=True, timeout=60, check=False)
        finally:
            os.close(folder)
        return ran.stdout.decode(), ran.stderr.decode(), ran.returncode

    def to(self, args, text, out, **more):
        """Returns standard error, the status, and the bytes of input that were read, if `out` is standard output."""
        with tempfile.TemporaryFile() as file:
            file.write(text.encode())
            file.seek(0)
            ran = subprocess.run(
                [self.program, *args.split()], stdin=file, stdout=out, stderr=subprocess.PIPE, timeout=60, check=False, **more
            )
            return ran.stderr.decode(), ran.returncode, os.lseek(file.fileno(), 0, os.SEEK_CUR)

    def to_full(self, args, text):
        """Like `to`, on a device that is always full."""
        with open("/dev/full", "wb") as full:
            return self.to(args, text, full)[:2]

    def to_closed(self, args, text):
        """Like `to`, with standard output closed."""
        return self.to(args, text, None, preexec_fn=lambda: os.close(1))[:2]

    def to_no_reader(self, args, text):
        """Like `to`, with a pipe whose other end is closed."""
        reading, writing = os.pipe()
        os.close(reading)
        with os.fdopen(writing, "wb") as out:
            return self.to(args, text, out)

    def to_slow(self, args, text):
        """Like `to`, with a pipe that is not read meanwhile. Also returns what was written."""
        reading, writing = os.pipe2(os.O_NONBLOCK)
        with os.fdopen(reading, "rb") as kept, os.fdopen(writing, "wb") as out:
            ended = self.to(args, text, out)[:2]
            return kept.read().decode(), *ended

    def to_filled(self, args, text):
        """Like `to`, with a pipe that is full already."""
        reading, writing = os.pipe2(os.O_NONBLOCK)
        with os.fdopen(reading, "rb"), os.fdopen(writing, "wb", buffering=0) as out:
            while out.write(bytes(65536)):
                pass
            return self.to(args, text, out)[:2]

    def to_short(self, args, text, size):
        """Like `to`, with a file of at most `size` bytes. Also returns what was written."""

        def limit_file():
            signal.signal(signal.SIGXFSZ, signal.SIG_IGN)
            resource.setrlimit(resource.RLIMIT_FSIZE, (size, size))

        with tempfile.TemporaryFile() as out:
            ended = self.to(args, text, out, preexec_fn=limit_file)[:2]
            out.seek(0)
            return out.read().decode(), *ended

    def at_once(self, args, text):
        """Returns what is on standard output before the input ends."""
        pipes = {"stdin": subprocess.PIPE, "stdout": subprocess.PIPE, "stderr": subprocess.DEVNULL}
        with subprocess.Popen([self.program, *args.split()], bufsize=0, **pipes) as running:
            running.stdin.write(text.encode())
            is_ready = select.select([running.stdout], [], [], 60)[0]
            lines = running.stdout.read(65536).decode() if is_ready else ""
            running.communicate(timeout=60)
            return lines

    def from_pipe(self, args, text):
        """Returns both outputs and the status if the input comes a byte at a time."""
        pipes = {"stdin": subprocess.PIPE, "stdout": subprocess.PIPE, "stderr": subprocess.PIPE}
        with subprocess.Popen([self.program, *args.split()], bufsize=0, **pipes) as running:
            try:
                for byte in text.encode():
                    running.stdin.write(bytes([byte]))
            except BrokenPipeError:
                pass
            out, err = running.communicate(timeout=60)
            return out.decode(), err.decode(), running.returncode

    def in_two(self, args, text):
        """Cuts the input in two at each byte. Returns the cuts, at most 3, after which an outcome is not that of the whole
        input, with the outcome. No read returns bytes of both parts: the pipe is one of packets."""
        data, whole, others = text.encode(), self.from_file(args, text)[:3], []
        for cut in range(1, len(data)):
            reading, writing = os.pipe2(os.O_DIRECT | os.O_CLOEXEC)
            with os.fdopen(reading, "rb") as stdin:
                with os.fdopen(writing, "wb", buffering=0) as pipe:
                    pipe.write(data[:cut])
                    pipe.write(data[cut:])
                ran = subprocess.run([self.program, *args.split()], stdin=stdin, capture_output=True, timeout=60, check=False)
            outcome = (ran.stdout.decode(), ran.stderr.decode(), ran.returncode)
            if outcome != whole:
                others.append((cut, outcome))
        return others[:3]

    def usage_error(self, args, start="error: "):
        """Like `from_file`, with only the start of standard error."""
        out, err, status, read = self.from_file(args, BEAT)
        return out, err[: len(start)], status, read

    def help(self, args, part):
        """Like `from_file`, with whether standard output has this part in its place."""
        out, *others = self.from_file(args, BEAT)
        return part in out, *others

    def not_utf_8(self, args):
        ran = subprocess.run([self.program.encode(), *args], stdin=subprocess.DEVNULL, capture_output=True, timeout=60, check=False)
        return ran.stdout, ran.stderr, ran.returncode

    def usage_error_to_full(self):
        with open("/dev/full", "wb") as full:
            ran = subprocess.run([self.program, "chek"], stdin=subprocess.DEVNULL, stdout=subprocess.PIPE, stderr=full, timeout=60, check=False)
            return ran.stdout, ran.returncode

    def stream(self, args, text, expected, label=""):
        name = f"{label}{args}, {text[:60]!r}"
        self.expect_of(name, expected, lambda: self.from_file(args, text)[:3], given=text)
        self.expect_of(f"{name} by bytes", expected, self.from_pipe, args, text, given=text)
        if "--lines" in args and len(text) <= SHORT:
            self.expect_of(f"{name} in two", [], self.in_two, args, text, given=text)

    def message(self, options, text, value, shown):
        """Reads a line with one message by each subcommand, and its record, and writes it back."""
        canonical = canonical_text(value)
        line, data, noun = text + "\n", record(text.encode()).decode(), noun_of(options)
        written = record(canonical.encode()).decode()
        end, of_record = (f"{noun} 1 bytes {len(it.encode())}\n" for it in (line, data))
        self.stream(f"check{options} --lines", line, (end, "", 0))
        self.stream(f"show{options} --lines", line, (f"1 {shown}{end}", "", 0))
        self.stream(f"show{options} --lines --json", line, (canonical + "\n", end, 0))
        self.stream(f"convert{options} --lines --json", text, (canonical + "\n", "", 0))
        self.stream(f"convert{options} --lines", text + "\r\n", (written, "", 0))
        self.stream(f"show{options}", data, (f"1 {shown}{of_record}", "", 0))
        self.stream(f"show{options} --json", data, (canonical + "\n", of_record, 0))
        self.stream(f"convert{options} --json", data, (canonical + "\n", "", 0))
        # The canonical text as a line, which is converted to the same record again.
        self.stream(f"convert{options} --lines", canonical + "\n", (written, "", 0))
        self.stream(f"convert{options} --json", written, (canonical + "\n", "", 0))

    def messages(self, options, rows):
        """Reads lines with the messages of all types, some empty ones between them, and writes them back."""
        for row in rows:
            self.message(options, *row)
        canonical = [canonical_text(value) for _, value, _ in rows]
        text = "\n\r\n".join(text for text, _, _ in rows) + "\r"
        lines = "".join(f"{it}\n" for it in canonical)
        records = "".join(record(it.encode()).decode() for it in canonical)
        end = f"{noun_of(options)} {len(rows)} bytes {len(text.encode())}\n"
        shown = "".join(f"{number} {shown}" for number, (_, _, shown) in enumerate(rows, 1))
        self.stream(f"show{options} --lines", text, (shown + end, "", 0))
        self.stream(f"show{options} --lines --json", text, (lines, end, 0))
        self.stream(f"convert{options} --lines", text, (records, "", 0))
        self.stream(f"convert{options} --lines", lines, (records, "", 0))
        self.stream(f"convert{options} --json", records, (lines, "", 0))
        name = f"each type in two: show{options} --lines"
        self.expect_of(name, [], self.in_two, f"show{options} --lines", "\n\r\n".join(text for text, _, _ in rows if len(text) < 200))

    def run(self):
        for args, text, out in GOOD:
            self.stream(args, text, (out, "", 0))
        for args, text, out in BAD:
            self.stream(args, text, (out, "", 1))
        for args, text, err in ERRORS:
            self.stream(args, text, ("", err, 1))
        for args, text, out, err, status in JSON_LINES + JSON_SESSIONS:
            self.stream(args, text, (out, err, status))
        for args, text, out, fault in LINE_NUMBERS:
            is_error = "--json" in args or args.startswith("convert")
            self.stream(args, text, (out, f"fault {fault}\n", 1) if is_error else (f"{out}fault {fault}\n", "", 1), "line number: ")
        self.messages("", message_rows.EVENTS)
        self.messages(" --calls", message_rows.CALLS)
        for args in USAGE_ERRORS:
            self.expect_of(f"usage error: {args}", ("", "error: ", 2, 0), self.usage_error, args)
        for args, line in BAD_VALUES:
            self.expect_of(f"bad value: {args[:60]}", ("", line, 2, 0), self.from_file, args, BEAT)
        for args, part in HELP:
            self.expect_of(f"help: {args} has {part!r}", (True, "", 0, 0), self.help, args, part)
        for args in NOT_UTF_8:
            self.expect_of(f"not UTF-8: {args}", (b"", b"error: a word is not UTF-8\n", 2), self.not_utf_8, args)
        for args, expected in FOLDER:
            self.expect_of(f"input is a folder: {args}", expected, self.from_folder, args)
        self.failed_outputs()
        # An event is printed once the last byte of its record was read.
        self.expect_of("events are printed at once", "1 HEARTBEAT\n2 HEARTBEAT\n", self.at_once, "show", BEAT + BEAT + "20\n{")
        self.expect_of("JSON Lines are written at once", 2 * LINE, self.at_once, "show --json", BEAT + BEAT + "20\n{")
        self.expect_of("lines are printed at once", "1 HEARTBEAT\n2 HEARTBEAT\n", self.at_once, "show --lines", 2 * LINE + "\n{")
        self.expect_of("calls are printed at once", "1 REVIVE\n2 REVIVE\n", self.at_once, "show --calls", 2 * record(REVIVE_TEXT) + "1")
        self.expect_of("calls are written at once", 2 * (REVIVE_TEXT + "\n"), self.at_once, "show --calls --lines --json", 2 * (REVIVE_TEXT + "\n") + "{")

    def failed_outputs(self):
        failed = ("write failed after 0\n", 1)
        for args, text in PRINTING + WRITING:
            self.expect_of(f"output is full: {args}", failed, self.to_full, args, text)
            self.expect_of(f"output is closed: {args}", failed, self.to_closed, args, text)
            expected = failed if (args, text) in WRITING else ("", 1)
            self.expect_of(f"output has no reader: {args}", expected, lambda: self.to_no_reader(args, text)[:2])
        self.expect_of("output is a full pipe: check", failed, self.to_filled, "check", BEAT)
        # After the write fails, nothing more is read.
        for args in ("show", "show --json"):
            self.expect_of(f"output has no reader: long input of {args}", ("", 1, READ_AHEAD), self.to_no_reader, args, 10000 * BEAT)
        for args in ("show --lines", "show --lines --json"):
            self.expect_of(f"output has no reader: long input of {args}", ("", 1, READ_AHEAD), self.to_no_reader, args, 10000 * LINE)
        for args, text, lines in LONG:
            self.cut_outputs(args, text, lines)
        self.expect_of("output is full: usage error", (b"", 1), self.usage_error_to_full)

    def cut_outputs(self, args, text, lines):
        """Lets writes fail after some bytes of the expected output."""
        for size in (1, 12, len(lines) // 2, len(lines) - 1):
            expected = (lines[:size], f"write failed after {size}\n", 1)
            if size < len(lines):
                name = f"output of {size} bytes: {args}, {text[:60]!r}"
                self.expect_of(name, expected, self.to_short, args, text, size)
        if len(lines) > PIPE and self.is_chosen(name := f"output is a pipe that fills: {args}"):
            out, *ended = self.to_slow(args, text)
            expected = (True, True, f"write failed after {len(out)}\n", 1)
            self.expect(name, expected, (out == lines[: len(out)], 0 < len(out) < len(lines), *ended))


def main():
    arguments = parser(__doc__, "tests/lines.py $(tools/built checked) -k replay", "program").parse_args()
    tests = Tests(arguments.program, arguments.word)
    tests.run()
    return tests.end()


if __name__ == "__main__":
    sys.exit(main())
