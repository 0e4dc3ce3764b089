"""Makes inputs of tests/fuzz from those of the corpus.

Most changes are those of a record's JSON, after which sizes and brackets are valid.
"""
import re

import inputs
import parts

# No input is longer, so that a corpus of many inputs fits the memory, and a run in pieces of one byte is short.
MOST = 32768
# The values that decide how a message is read.
WORDS = [*inputs.EVENTS, *inputs.CALLS, "TEARDOWN", "SCALAR", "RANGES", "SET", "TEXT", *(f"TASK_{state}" for state in inputs.STATES)]
WORDS = [f'"{word}"'.encode() for word in WORDS]
TOKEN = re.compile(rb'[{}\[\]]|"(?:[^"\\]|\\.)*"|[-0-9][-+.0-9Ee]*|true|false|null')


def values_of(text):
    """Returns the places of the JSON values and members in a text that may be damaged, and whether each is a member."""
    ends, begun = {}, []
    for found in TOKEN.finditer(text):
        if found[0] in b"{[":
            begun.append(found.start())
        elif found[0] not in b"}]":
            ends[found.start()] = found.end()
        elif begun:
            ends[begun.pop()] = found.end()
    named = [(at, end, text[end : end + 1] == b":") for at, end in ends.items()]
    return [(at, ends.get(end + 1, end) if is_member else end, is_member) for at, end, is_member in named]


def without(text, at, end):
    """Returns the text without the value or member at a place, and without one comma next to it."""
    if text[end : end + 1] == b",":
        return text[:at] + text[end + 1 :]
    return text[:at].removesuffix(b",") + text[end:]


def edited(pick, text, other):
    """Returns the JSON text with one of its values or members replaced, repeated or removed."""
    places = values_of(text)
    if not places or pick.random() < 0.2:
        return inputs.damaged(pick, text)
    at, end, is_member = pick.choice(places)
    alike = [other[first:last] for first, last, is_other in values_of(other) if is_other == is_member]
    value, taken, depth = text[at:end], pick.choice(alike or [b"1"]), pick.choice([1, 2, 60, 126, 127])
    ways = 2 * [lambda: text[:at] + taken + text[end:]]
    if not is_member:
        ways += [lambda words=words: text[:at] + pick.choice(words) + text[end:] for words in (inputs.WILD, WORDS)]
        ways += [lambda: text[:at] + b"[" * depth + value + b"]" * depth + text[end:]]
    # The value of a member cannot be repeated or removed alone.
    if is_member or text[at - 1 : at] != b":":
        ways += [lambda: text[:end] + b"," + value + text[end:], lambda: text[:end] + b"," + taken + text[end:], lambda: without(text, at, end)]
    return pick.choice(ways)()


def rearranged(pick, records, others):
    """Returns the records with one of them edited, removed, repeated, moved, or taken from the other records."""
    records = list(records)
    at, to = pick.randrange(len(records)), pick.randrange(len(records) + 1)
    how = pick.choice(["edit", "edit", "edit", "edit", "remove", "repeat", "move", "take", "take"])
    if how == "edit":
        records[at] = edited(pick, records[at], pick.choice(others))
    elif how == "repeat":
        records.insert(to, records[at])
    elif how == "take":
        records.insert(to, pick.choice(others))
    elif len(records) > 1:
        record = records.pop(at)
        if how == "move":
            records.insert(to, record)
    return records


def spliced(pick, data, other):
    """Returns the first bytes of an input with the last bytes of another."""
    return data[: pick.randrange(len(data) + 1)] + other[pick.randrange(len(other) + 1) :]


def mutated(pick, kind, data, other):
    """Returns the bytes of an input with some changes; `other` is an input of the same kind."""
    steps, records = pick.choice([1, 1, 1, 2, 2, 4, 8]), parts.split(kind, data)
    if records and pick.random() < 0.75:
        others = parts.split(kind, other) or records
        for _ in range(steps):
            records = rearranged(pick, records, others)
        data = parts.join(kind, records)
        # Other chunks, also with extensions and trailers.
        if kind.startswith("chunked") and pick.random() < 0.7:
            data = inputs.body_of(inputs.in_chunks(pick, parts.stream_of(records)))
        steps = pick.choice([0, 0, 0, 1])
    for _ in range(steps):
        data = spliced(pick, data, other) if pick.random() < 0.15 else inputs.damaged(pick, data)
    return data[:MOST]
