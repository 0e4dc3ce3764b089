"""Shrinks an input that fails: removes pieces as long as it fails in the same manner."""
import functools
import hashlib

import mutate
import parts


def shrunk(items, fails):
    """Returns the bytes, or the list, without the pieces that the failure does not need.

    Removes halves, then quarters, and so on down to single bytes or items, which are tried until
    none of them can be removed.
    """
    size = max(1, len(items) // 2)
    while items:
        at, before = 0, len(items)
        while at < len(items):
            smaller = items[:at] + items[at + size :]
            if fails(smaller):
                items = smaller
            else:
                at += size
        if size > 1:
            size //= 2
        elif len(items) == before:
            break
    return items


def once(fails):
    """Returns a function that tries each value only the first time, since passes of `shrunk` repeat values."""
    results = {}

    def tried(value):
        key = hashlib.sha256(repr(value).encode()).digest()
        if key not in results:
            results[key] = fails(value)
        return results[key]

    return tried


def shrunk_each(items, fails, shrink=shrunk):
    """Shrinks each of several byte strings in a list, with the others as they are."""
    items = list(items)

    def fails_with(at, data):
        return fails([*items[:at], data, *items[at + 1 :]])

    for at, item in enumerate(items):
        items[at] = shrink(item, functools.partial(fails_with, at))
    return items


def shrunk_values(text, fails):
    """Returns the JSON text without the values and members that the failure does not need."""
    number, places = 0, mutate.values_of(text)
    while number < len(places):
        smaller = mutate.without(text, *places[number][:2])
        if fails(smaller):
            text, places = smaller, mutate.values_of(smaller)
        else:
            number += 1
    return text


def shrunk_records(kind, data, fails):
    """Shrinks the list of records and each record, with valid sizes. Returns the data itself if it has no records."""
    records = parts.split(kind, data)

    def fails_joined(some):
        return fails(parts.join(kind, some))

    if not records or not fails_joined(records):
        return data
    records = shrunk_each(shrunk(records, fails_joined), fails_joined, shrunk_values)
    return parts.join(kind, shrunk_each(records, fails_joined))


def shrunk_requests(requests, fails):
    """Shrinks the list of requests, and the bytes of each. The type of a call is unknown after its bytes have changed."""
    # One request is left for the file that is stored.
    requests = shrunk(requests, lambda some: bool(some) and fails(some))
    known = dict(requests)

    def fails_joined(some):
        return fails([(data, known.get(data)) for data in some])

    return [(data, known.get(data)) for data in shrunk_each([data for data, _ in requests], fails_joined)]


def shrunk_input(given, fails):
    """Returns the shrunk input. `fails` returns whether an input fails in the same manner."""
    # A shorter input may be invalid. A failure that only a valid input shows is not shrunk.
    loose = given._replace(count=None)
    fails_with = once(lambda data: fails(loose._replace(data=data)))
    if not fails_with(loose.data):
        return given
    if given.kind == "request":
        return loose._replace(data=shrunk_requests(loose.data, fails_with))
    return loose._replace(data=shrunk(shrunk_records(given.kind, loose.data, fails_with), fails_with))
