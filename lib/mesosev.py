"""Decodes the event stream of the Apache Mesos v1 scheduler API with the proved library libmesosev.

    import mesosev
    for event in mesosev.events(open("stream.recordio", "rb")):
        print(event.name, event.value())

`Master` runs the live test master of the command `mesosev` in a test, `connect` subscribes to a
master, and `python3 -m mesosev FILE..` checks files.

The library is the file that the environment variable MESOSEV_LIBRARY names, else the one installed
with this module, else the system's. It is loaded when it is first needed, and ImportError is raised
if there is none. `Master` does not need it; `connect` does not with a decoder of the caller's own.

PYTEST_DONT_REWRITE: pytest need not change the assertions of this module.
"""

from __future__ import annotations

import ctypes
import errno
import functools
import io
import itertools
import json
import operator
import os
import re
import struct
import sys
from collections.abc import Mapping
from typing import TYPE_CHECKING, Any, Callable, Iterable, Iterator, NamedTuple, NoReturn, Protocol, TypeVar, Union

if TYPE_CHECKING:
    # These are imported by the functions that need them: together they take longer than this module.
    import http.client
    import subprocess

PLAIN = 0
CHUNKED = 1
LIMIT_USUAL = 4_194_304
LIMIT_MOST = 67_108_864
READ_MOST = 65_536

_GOOD, _NO_MEMORY, _MORE, _FULL, _END, _NO_TEXT, _NO_ROOM, _ABSENT = 0, 13, 32, 33, 34, 35, 36, 37
_WITHOUT_TEXTS = 1
_LINE_ROOM = 641
_REFUSALS = {
    100: "the limit is not 1 to 67108864",
    101: "the framing is neither PLAIN nor CHUNKED",
    102: "a pointer is null",
}
_NAMES = ("", "SUBSCRIBED", "OFFERS", "RESCIND", "UPDATE", "MESSAGE", "FAILURE", "ERROR", "HEARTBEAT")
_REFUSED = re.compile(r"refused S(\d) (\S+) record (\d+)(?: index (\d+))?(?: task (\d+))?(?: resource (\d+))?")
_LINE = re.compile(r"fault F(\d+) (\S+)(?: record (\d+)(?: byte (\d+) (\S+)| (\S*) (\S+))?)? after (\d+)")


# A mes_event in memory: three machine words. The first begins with the number of the type.
_EVENT = struct.Struct("@IPN")

# Returns a copy of the bytes at an address.
_bytes_at: Any = ctypes.pythonapi.PyBytes_FromStringAndSize
_bytes_at.argtypes = [ctypes.c_void_p, ctypes.c_ssize_t]
_bytes_at.restype = ctypes.py_object


# Returns the JSON text of a string.
_quoted = json.JSONEncoder().encode

_Own = TypeVar("_Own")
# The bytes of a stream or a call.
Buffer = Union[bytes, bytearray, memoryview]


class Reads(Protocol):
    """A source with the method `read` of a binary file. `read1` is used if it has that too."""

    def read(self, most: int, /) -> bytes | None:
        """Returns at most this many bytes: none at the end, and None if there are none now."""


class Receives(Protocol):
    """A source with the method `recv` of a socket."""

    def recv(self, most: int, /) -> bytes:
        """Returns at most this many bytes: none at the end."""


def _find_library() -> str | None:
    # Imported here, since this import takes half as long as the rest of the module.
    import ctypes.util

    return ctypes.util.find_library("mesosev")


def _library_path() -> str:
    here = os.path.dirname(os.path.abspath(__file__))
    # In order: next to this module, as in a wheel; next to its folder, as lib/build installs both;
    # in the sources, after lib/build without a prefix.
    built = [os.path.join(here, name, "libmesosev.so") for name in (".", "..", "out/lib")]
    path = os.environ.get("MESOSEV_LIBRARY") or next((it for it in built if os.path.exists(it)), None) or _find_library()
    if not path:
        raise ImportError("decoding needs libmesosev, which was not found: install it, or name its file in MESOSEV_LIBRARY")
    return path


@functools.lru_cache(maxsize=None)
def _library() -> Any:
    """Returns the C library. Loads it at the first call."""
    path = _library_path()
    try:
        library = ctypes.CDLL(path)
    except OSError as error:
        raise ImportError(f"decoding needs libmesosev, which cannot be loaded: {error}") from error
    number, size, address = ctypes.c_uint32, ctypes.c_size_t, ctypes.c_void_p
    parameters = {
        "mes_check": [address, size, number, number, address, address, address, size],
        "mes_call": [address, size, address, size, address],
        "mes_decoder_new": [number, number, number, address],
        "mes_decoder_many": [address, address, size, address, address, size, address],
        "mes_decoder_finish": [address, address],
    }
    for name, kinds in parameters.items():
        getattr(library, name).argtypes = kinds
        getattr(library, name).restype = number
    text = [address, size, address]
    sessions: dict[str, tuple[list[Any], Any]] = {
        "mes_session_new": ([address], number),
        **{f"mes_session_{it}": ([address, address, size, *text], number) for it in ("heard", "said", "check", "subscribe", "offer")},
        **{f"mes_session_{it}": ([address, size, *text], number) for it in ("offer_at", "owed_at", "acknowledge")},
        "mes_session_heard_lines": ([address, address, size, address, *text], number),
        **{f"mes_session_{it}": ([address, *text], number) for it in ("framework", "acknowledge_lines")},
        "mes_session_connected": ([address], number),
        "mes_session_entries": ([address], ctypes.c_uint64),
        **{f"mes_session_{it}_count": ([address], size) for it in ("offer", "owed")},
        **{f"mes_session_{it}": ([address], None) for it in ("broken", "free")},
        **{f"mes_{it}": ([address, size, *text], number) for it in ("log_event", "log_call", "write_event", "write_chunk")},
        **{f"mes_log_{it}": (text, number) for it in ("header", "broken")},
        "mes_log_replay": ([address, size, address, *text], number),
        "mes_fits": ([address, size, address, size, *text], number),
    }
    for name, (kinds, result) in sessions.items():
        getattr(library, name).argtypes = kinds
        getattr(library, name).restype = result
    library.mes_decoder_free.argtypes = [address]
    library.mes_decoder_free.restype = None
    library.mes_version.argtypes = []
    library.mes_version.restype = ctypes.c_char_p
    return library


class Fault(Exception):
    """A fault of a stream or a call.

    number: 1 to 16, as in F1 to F16. name: for example `Field`. record: the number of the record,
    from 1. place: the path of the invalid member, or the offset in the record at which its JSON is
    invalid. why: for example `Missing`. used: the number of bytes used up to the fault. line: the
    line that the command prints. An attribute that the fault does not have is None.
    """

    number: int
    line: str
    name: str | None = None
    record: int | None = None
    place: str | int | None = None
    why: str | None = None
    used: int | None = None

    def __init__(self, number: int, line: str) -> None:
        super().__init__(line or f"fault F{number}")
        self.number, self.line = number, line
        self.name = self.record = self.place = self.why = self.used = None
        found = _LINE.fullmatch(line)
        if found:
            self.name, self.used = found[2], int(found[8])
            self.record = int(found[3]) if found[3] else None
            self.place = int(found[4]) if found[4] else found[6]
            self.why = found[5] or found[7]

    def __reduce__(self) -> tuple[Any, ...]:
        return type(self), (self.number, self.line), self.__dict__


class Event(NamedTuple):
    """An event: the number of its type, and its canonical JSON text as bytes.

    The text is None if the decoder makes no texts, or if this text is too large, too deep or could
    not be allocated.
    """

    type: int
    text: bytes | None

    def value(self) -> Any:
        """Returns the text as parsed by `json`."""
        if self.text is None:
            raise ValueError("the event has no text")
        return json.loads(self.text)

    @property
    def name(self) -> str:
        """The name of the type."""
        return _NAMES[self.type] if 0 < self.type else str(self.value()["type"])


# The event of each type without a text, for a decoder that makes no texts.
_BARE = tuple(Event(kind, None) for kind in range(len(_NAMES)))


class Counts(NamedTuple):
    """The number of events of a stream, and the number of its bytes that were used."""

    events: int
    used: int


def _raise_refusal(status: int) -> NoReturn:
    if status == _NO_MEMORY:
        raise MemoryError
    raise ValueError(_REFUSALS.get(status, f"status {status}"))


def _options(limit: int, framing: int) -> tuple[int, int]:
    """Returns the two numbers if 32 bits can hold them: C would reduce them modulo 2^32."""
    for number, refusal in ((limit, 100), (framing, 101)):
        if not 0 <= number < 2**32:
            raise ValueError(_REFUSALS[refusal])
    return limit, framing


class _Bytes:
    """The bytes of an object, and their address, which is valid while this object exists."""

    def __init__(self, data: Buffer) -> None:
        self.kept = data if isinstance(data, bytes) else bytes(memoryview(data))
        self.address: int = ctypes.cast(ctypes.c_char_p(self.kept), ctypes.c_void_p).value or 0
        self.size = len(self.kept)


class _Piece(_Bytes):
    """A piece of a stream, and the state of decoding it."""

    def __init__(self, data: Buffer) -> None:
        super().__init__(data)
        # The number of bytes used, and the last status.
        self.at, self.status = 0, _MORE
        # The events of the last call of C, and the types of those that the caller has not taken yet.
        self.decoded: Iterator[Event] = iter(())
        self.kinds: Iterator[int] = iter(())

    def goes_on(self) -> bool:
        """Returns whether some bytes are still to be decoded."""
        return self.status == _FULL and self.at < self.size

    def ends(self) -> bool:
        """Returns whether the stream has ended, with or without a fault."""
        return self.status not in (_MORE, _FULL)

    def is_left(self) -> bool:
        """Returns whether there are events that the caller has not taken yet."""
        return self.goes_on() or operator.length_hint(self.kinds) > 0


def _numbers_of(room: Any) -> tuple[memoryview, memoryview, memoryview]:
    """Returns views of the types, the text addresses and the text lengths of a buffer of events."""
    numbers, sizes = (memoryview(room).cast("B").cast(kind) for kind in "IN")
    return numbers[:: _EVENT.size // numbers.itemsize], sizes[1::3], sizes[2::3]


class _Owner:
    """Owns a handle of the library, which `close` frees."""

    _handle: int | None = None
    _free: Any = None

    def close(self) -> None:
        """Frees what this object has in the library. It cannot be used afterwards."""
        handle, self._handle = self._handle, None
        if handle is not None:
            self._free(handle)

    def __enter__(self: _Own) -> _Own:
        return self

    def __exit__(self, *_: object) -> None:
        self.close()

    def __del__(self) -> None:
        self.close()

    def __reduce__(self) -> NoReturn:
        raise TypeError(f"a {type(self).__name__.lower()} can't be copied or pickled")


class Decoder(_Owner):
    """Decodes a stream in pieces of any size. One thread at a time may use a decoder."""

    # The number of events of one call of C. A piece with more events takes several calls.
    _most = 1024

    def __init__(self, framing: int = PLAIN, limit: int = LIMIT_USUAL, texts: bool = True) -> None:
        self._library = _library()
        # Stored here, since the module's names may be gone when the last decoders are freed.
        self._free = self._library.mes_decoder_free
        # The buffer for the events of a call, its views, and the numbers of bytes and of events.
        self._room = ctypes.create_string_buffer(self._most * _EVENT.size)
        self._kinds, self._places, self._sizes = _numbers_of(self._room)
        self._used, self._count = ctypes.c_size_t(), ctypes.c_size_t()
        # The arguments of mes_decoder_many that follow the piece.
        self._arguments = ctypes.byref(self._used), self._room, self._most, ctypes.byref(self._count)
        self._piece = _Piece(b"")
        self.ended = False
        made = ctypes.c_void_p()
        status = self._library.mes_decoder_new(*_options(limit, framing), 0 if texts else _WITHOUT_TEXTS, ctypes.byref(made))
        if status != _GOOD:
            _raise_refusal(status)
        self._handle = made.value

    def feed(self, data: Buffer) -> Iterator[Event]:
        """Returns an iterator over the events whose records end in these bytes.

        The bytes are copied at the call. A fault is raised after the events that precede it. Take
        all events before the next call: otherwise `feed` and `finish` raise RuntimeError.
        """
        return self._events(self._give(data))

    def finish(self) -> None:
        """Ends the input. Raises the fault if the stream may not end there."""
        self._refuse_left()
        fault = self._fault()
        self.ended = True
        if fault is not None:
            raise fault

    @property
    def unused(self) -> bytes:
        """The bytes of the last piece after the end of the stream or the fault; empty before."""
        return self._piece.kept[self._piece.at :] if self.ended else b""

    def _give(self, data: Buffer) -> _Piece:
        """Decodes the first events of a piece."""
        self._refuse_left()
        piece = _Piece(data)
        self._take(piece)
        self._piece = piece
        return piece

    def _refuse_left(self) -> None:
        if self._handle is None:
            raise ValueError("the decoder is closed")
        if self._piece.is_left():
            raise RuntimeError("not all events of the last piece were taken")

    def _take(self, piece: _Piece) -> None:
        """Decodes the next events of a piece."""
        if self._handle is None:
            raise ValueError("the decoder is closed")
        status = self._library.mes_decoder_many(self._handle, piece.address + piece.at, piece.size - piece.at, *self._arguments)
        if status >= 100:
            _raise_refusal(status)
        piece.at += self._used.value
        piece.status = status
        piece.kinds = iter(self._kinds[: self._count.value].tolist())
        piece.decoded = self._decoded(piece.kinds)

    def _events(self, piece: _Piece) -> Iterator[Event]:
        """Yields the events of a piece whose first events were decoded."""
        yield from piece.decoded
        while piece.goes_on():
            self._take(piece)
            yield from piece.decoded
        if piece.ends():
            self.finish()

    def _decoded(self, kinds: Iterator[int]) -> Iterator[Event]:
        """Returns the events of the last call of C, with copies of their concatenated texts."""
        # For speed, no line of Python runs for each event.
        count = self._count.value
        sizes = self._sizes[:count].tolist()
        if not any(sizes):
            return map(_BARE.__getitem__, kinds)
        first = next(filter(None, self._places[:count]))
        texts: Iterator[bytes | None] = map(io.BytesIO(_bytes_at(first, sum(sizes))).read, sizes)
        if 0 in sizes:
            texts = (text or None for text in texts)
        make: Any = tuple.__new__
        return map(make, itertools.repeat(Event), zip(kinds, texts))

    def _fault(self) -> Fault | None:
        """Returns the fault with which the stream ends, or None."""
        end = ctypes.create_string_buffer(_EVENT.size)
        status = self._library.mes_decoder_finish(self._handle, end)
        if status >= 100:
            _raise_refusal(status)
        _, text, length = _EVENT.unpack(end)
        return None if status == _END else Fault(status, _bytes_at(text, length).decode() if text else "")

def _waits(source: Any) -> bool:
    """Returns whether reading blocks until there are bytes, as far as the source reports it."""
    try:
        return os.get_blocking(source.fileno())
    except (AttributeError, OSError, TypeError, ValueError):
        return False


def _reader(source: Any, most: int) -> Callable[[], bytes]:
    """Returns a function that reads the next piece of a source, and b"" at the end."""
    if most < 1:
        raise ValueError("a piece has at least one byte")
    if isinstance(source, (bytes, bytearray, memoryview)):
        pieces = iter((bytes(source),))
        return lambda: next(pieces, b"")
    buffered = getattr(source, "read1", None)
    read = getattr(source, "recv", None) or buffered or source.read

    def piece() -> bytes:
        data: bytes | None = read(most)
        if data == b"" and read is buffered and not _waits(source):
            # `read1` returns b"" for the end and for no bytes now; `read` distinguishes them.
            data = source.read(1)
        if data is None:
            raise BlockingIOError(errno.EAGAIN, "the source has no bytes now")
        return data

    return piece


class Events:
    """An iterator over the events of a source. After an exception of the source it can continue."""

    def __init__(self, read: Callable[[], bytes], decoder: Decoder) -> None:
        self._read, self._decoder = read, decoder

    def __iter__(self) -> Iterator[Event]:
        # Events that are not taken yet are in the decoder's piece, so that none is lost by a break.
        decoder = self._decoder
        while True:
            decoded = decoder._piece.decoded
            yield from decoded
            if decoded is decoder._piece.decoded and not self._goes_on():
                return

    def __next__(self) -> Event:
        for event in self:
            return event
        raise StopIteration

    def _goes_on(self) -> bool:
        """Decodes more of the stream. Returns whether it has not ended."""
        decoder, piece = self._decoder, self._decoder._piece
        if decoder.ended or piece.ends():
            decoder.finish()
        elif piece.goes_on():
            decoder._take(piece)
        elif data := self._read():
            decoder._give(data)
        else:
            decoder.finish()
        return not decoder.ended

    @property
    def unused(self) -> bytes:
        """The bytes that were read after the end of the stream or the fault; empty before that."""
        return self._decoder.unused

    def close(self) -> None:
        """Frees the decoder."""
        self._decoder.close()

    def __reduce__(self) -> NoReturn:
        raise TypeError("events that are read can't be copied or pickled")


def events(
    source: Buffer | Reads | Receives,
    framing: int = PLAIN,
    limit: int = LIMIT_USUAL,
    texts: bool = True,
    most: int = READ_MOST,
) -> Events:
    """Returns an iterator over the events of a file object, a socket or bytes.

    Reads at most `most` bytes at a time. A fault is raised after the events that precede it. If the
    source has no bytes now, or a timeout, its exception is raised; the iterator can then continue.
    """
    return Events(_reader(source, most), Decoder(framing, limit, texts))


def check(data: Buffer, framing: int = PLAIN, limit: int = LIMIT_USUAL) -> Counts:
    """Returns the number of events of a whole stream, and of bytes used. Raises the first fault."""
    piece, counted, used = _Bytes(data), ctypes.c_uint64(), ctypes.c_uint64()
    line = ctypes.create_string_buffer(_LINE_ROOM)
    status = _library().mes_check(
        piece.address, piece.size, *_options(limit, framing), ctypes.byref(counted), ctypes.byref(used), line, _LINE_ROOM
    )
    if status == _GOOD:
        return Counts(counted.value, used.value)
    if not 1 <= status <= 16:
        _raise_refusal(status)
    raise Fault(status, line.value.decode())


def call(data: Buffer) -> bytes:
    """Returns the canonical text of a scheduler's call, as bytes.

    Raises the fault if the bytes are not a call; ValueError if the call has no canonical text.
    """
    piece, size = _Bytes(data), ctypes.c_size_t()
    room = 2 * piece.size + _LINE_ROOM
    while True:
        text = ctypes.create_string_buffer(room)
        status = _library().mes_call(piece.address, piece.size, text, room, ctypes.byref(size))
        if size.value < room:
            break
        room = size.value + 1
    if status == _GOOD:
        return text.raw[: size.value]
    if status == _NO_TEXT:
        raise ValueError("the call has no canonical text: it is too large or too deep, or out of memory")
    raise Fault(status, text.raw[: size.value].decode())


def version() -> str:
    """Returns the version of the library."""
    return str(_library().mes_version().decode())


class Refusal(Exception):
    """A call that a session refused, and why.

    number: 1 to 8, as in S1 to S8. name: for example `NoSuchOffer`. line: the line that the command
    prints. entry: the number of the call in the history, from 1. index: that of an offer in the call,
    from 0. task: that of a task in the call. resource: that of a resource in the task. An attribute
    that the refusal does not have is None.
    """

    number: int
    line: str
    name: str | None = None
    entry: int | None = None
    index: int | None = None
    task: int | None = None
    resource: int | None = None

    def __init__(self, number: int, line: str) -> None:
        super().__init__(line or f"refused S{number}")
        self.number, self.line = number, line
        found = _REFUSED.fullmatch(line)
        if found:
            numbers = (int(it) if it is not None else None for it in found.groups()[2:])
            self.name, (self.entry, self.index, self.task, self.resource) = found[2], numbers

    def __reduce__(self) -> tuple[Any, ...]:
        return type(self), (self.number, self.line), self.__dict__


# An event or a call: its text, or what `json` writes as its text.
Message = Union[Event, Buffer, str, "Mapping[str, Any]"]


def _text_of(message: Any) -> bytes:
    """Returns the JSON text of an event or a call."""
    if type(message) is bytes:
        return message
    if isinstance(message, Event):
        if message.text is None:
            raise ValueError("the event has no text")
        return message.text
    if isinstance(message, (bytes, bytearray, memoryview)):
        return bytes(message)
    return (message if isinstance(message, str) else json.dumps(message)).encode()


def _id_of(named: Any) -> dict[str, str]:
    """Returns the JSON form of an identifier: a string, that form, or an offer, which has it."""
    if isinstance(named, str):
        return {"value": named}
    return {"value": str(named["value"] if "value" in named else named["id"]["value"])}


class _Room:
    """A buffer for the texts that the library returns. It grows for a text that does not fit."""

    def __init__(self) -> None:
        self._size = ctypes.c_size_t()
        self._grow(4_096)

    def _grow(self, room: int) -> None:
        kept, self._most = ctypes.create_string_buffer(room), room
        self._view = memoryview(kept).cast("B")
        # The last arguments of a function that returns a text.
        self.into = ctypes.addressof(kept), room, ctypes.byref(self._size)

    def take(self, status: int) -> bytes | None:
        """Returns the text of a call with this status; None if it did not fit, so that the call is to be made again.

        Raises the fault or refusal of the call; KeyError for `MES_ABSENT`.
        """
        size = self._size.value
        if size >= self._most:
            self._grow(2 * size + 1)
            return None
        text = self._view[:size].tobytes()
        if status != _GOOD:
            _raise_reason(status, text.decode())
        return text

    def ask(self, function: Any, *arguments: Any) -> bytes:
        """Calls a function, and returns its text. Raises what `take` raises."""
        while True:
            text = self.take(function(*arguments, *self.into))
            if text is not None:
                return text


def _raise_reason(status: int, line: str) -> NoReturn:
    """Raises what a status of a session that is not MES_GOOD reports."""
    if status == _ABSENT:
        raise KeyError
    if status == _NO_TEXT:
        raise ValueError("the text is too large or too deep for a record")
    if 201 <= status <= 208:
        raise Refusal(status - 200, line)
    if 1 <= status <= 16 and status != _NO_MEMORY:
        raise Fault(status, line)
    _raise_refusal(status)


class _Held(Mapping[Any, Any]):
    """The offers or the updates of a session, as of the last event or call. It cannot be changed."""

    def __init__(self, read: Callable[[], dict[Any, Any]], count: Callable[[], int], get: Callable[[Any], Any] | None = None) -> None:
        self._read, self._count, self._get = read, count, get or (lambda key: read()[key])

    def __getitem__(self, key: Any) -> Any:
        return self._get(key)

    def __iter__(self) -> Iterator[Any]:
        return iter(self._read())

    def __len__(self) -> int:
        return self._count()

    def __repr__(self) -> str:
        return repr(self._read())


class Session(_Owner):
    """The session of a framework with its master: which offers are outstanding, which updates are not
    acknowledged, and which calls are allowed. One thread at a time may use it.

    `heard` applies an event of the master. The methods with the names of calls check a call, apply it,
    and return its canonical text, to be posted to the master. They raise Refusal (S1 to S8) for a call
    that is not allowed, Fault for what is no call, and MemoryError; the session is then unchanged. An
    offer, a task, an agent or an executor is named by its identifier, a string or `{"value": ..}`; an
    offer also by the offer itself. log: the session is the one to which this log leads.
    """

    def __init__(self, log: Buffer | None = None) -> None:
        self._library = _library()
        # Stored here, since the module's names may be gone when the last sessions are freed.
        self._free = self._library.mes_session_free
        self._room = _Room()
        self._offers: dict[str, Any] | None = None
        self._owed: dict[tuple[str, str, str], Any] | None = None
        self._handle = self._made(log)
        self._framework: str | None = None
        self.offers: Mapping[str, Any] = _Held(self._read_offers, self._count_offers, self._offer)
        self.unacknowledged: Mapping[tuple[str, str, str], Any] = _Held(self._read_owed, self._count_owed)

    @classmethod
    def replay(cls, log: Buffer) -> Session:
        """Returns the session to which a log leads. Raises Fault if the bytes are no log; Refusal if an entry is refused."""
        return cls(log)

    def heard(self, event: Message) -> None:
        """Applies an event received from the master. Raises Fault, MemoryError or Refusal (S8)."""
        text = event if type(event) is bytes else _text_of(event)
        status = self._library.mes_session_heard(self._handle or self._own(), text, len(text), *self._room.into)
        self._change(text)
        if status != _GOOD:
            # A line always fits.
            self._room.take(status)

    def heard_all(self, events: Iterable[Message]) -> None:
        """Applies events in order, as `heard` does each, in much less time. The events before the first that is not applied stay applied."""
        texts = [event if type(event) is bytes else _text_of(event) for event in events]
        lines = b"\n".join(texts)
        if b"\r" in lines or lines.count(b"\n") >= len(texts) or not all(texts):
            # A text with line breaks, which no text of a decoder has, or an empty one.
            for text in texts:
                self.heard(text)
            return
        status = self._library.mes_session_heard_lines(self._handle or self._own(), lines, len(lines), None, *self._room.into)
        self._change(lines)
        if status != _GOOD:
            self._room.take(status)

    def said(self, call: Message) -> bytes:
        """Checks a call, applies it, and returns its canonical text."""
        return self._give(self._library.mes_session_said, call)

    def check(self, call: Message) -> bytes:
        """Checks a call as `said` does, but does not apply it."""
        text = _text_of(call)
        return self._ask(self._library.mes_session_check, text, len(text))

    def broken(self) -> None:
        """Records that the stream broke: no offer is outstanding until the next SUBSCRIBED."""
        self._library.mes_session_broken(self._own())
        self._forget()

    @property
    def connected(self) -> bool:
        """Whether a SUBSCRIBED came since the stream last broke."""
        return bool(self._library.mes_session_connected(self._own()))

    @property
    def framework_id(self) -> str | None:
        """The identifier of the framework; None before the first SUBSCRIBED."""
        if self._framework is None:
            try:
                self._framework = self._ask(self._library.mes_session_framework).decode()
            except KeyError:
                return None
        return self._framework

    @property
    def entries(self) -> int:
        """The number of events, calls and breaks so far."""
        return int(self._library.mes_session_entries(self._own()))

    def subscribe(self, framework_info: Mapping[str, Any]) -> bytes:
        """The SUBSCRIBE of a framework. It names the framework of the session, if there is one."""
        return self._give(self._library.mes_session_subscribe, framework_info)

    def accept(self, offers: Iterable[Any], tasks: Iterable[Mapping[str, Any]] = (), refuse_seconds: float | None = None) -> bytes:
        """An ACCEPT of the offers that launches the tasks on them."""
        launched = list(tasks)
        body: dict[str, Any] = {"offer_ids": [_id_of(it) for it in offers]}
        if launched:
            body["operations"] = [{"type": "LAUNCH", "launch": {"task_infos": launched}}]
        return self._say("ACCEPT", {**body, **self._filters(refuse_seconds)})

    def decline(self, offers: Iterable[Any], refuse_seconds: float | None = None) -> bytes:
        """A DECLINE of the offers."""
        return self._say("DECLINE", {"offer_ids": [_id_of(it) for it in offers], **self._filters(refuse_seconds)})

    def acknowledge(self, status: Any) -> bytes:
        """The ACKNOWLEDGE of an update, given by its TaskStatus or by a key or a value of `unacknowledged`."""
        key = status if isinstance(status, tuple) else (status["agent_id"]["value"], status["task_id"]["value"], status["uuid"])
        agent, task, uuid = map(_quoted, key)
        body = '{"agent_id":{"value":%s},"task_id":{"value":%s},"uuid":%s}' % (agent, task, uuid)
        return self._say_text("ACKNOWLEDGE", body)

    def acknowledge_all(self) -> list[bytes]:
        """The ACKNOWLEDGE of each unacknowledged update, in the order of arrival. All are applied, so post all of them."""
        calls: list[bytes] = []
        texts = None
        while texts != b"":
            try:
                texts = self._ask(self._library.mes_session_acknowledge_lines)
            except (Refusal, Fault, MemoryError, ValueError):
                # The calls so far are applied, so they are returned; the next call of this method raises this again.
                if not calls:
                    raise
                break
            self._owed = None
            calls += texts.split(b"\n")[:-1]
        return calls

    def kill(self, task: Any, agent: Any = None) -> bytes:
        """A KILL of a task, with its agent if that is known."""
        named = {"agent_id": _id_of(agent)} if agent is not None else {}
        return self._say("KILL", {"task_id": _id_of(task), **named})

    def reconcile(self, tasks: Iterable[Mapping[str, Any]] = ()) -> bytes:
        """A RECONCILE of tasks, each `{"task_id": ..}` with `agent_id` if that is known; of all tasks if there are none."""
        listed = list(tasks)
        return self._say("RECONCILE", {"tasks": listed} if listed else {})

    def revive(self) -> bytes:
        """A REVIVE: offers that were declined may come again."""
        return self._say("REVIVE")

    def suppress(self) -> bytes:
        """A SUPPRESS: no more offers are wanted."""
        return self._say("SUPPRESS")

    def message(self, agent: Any, executor: Any, data: bytes) -> bytes:
        """A MESSAGE of bytes to an executor."""
        import base64

        return self._say("MESSAGE", {"agent_id": _id_of(agent), "executor_id": _id_of(executor), "data": base64.b64encode(data).decode()})

    def shutdown(self, executor: Any, agent: Any) -> bytes:
        """A SHUTDOWN of an executor."""
        return self._say("SHUTDOWN", {"executor_id": _id_of(executor), "agent_id": _id_of(agent)})

    def teardown(self) -> bytes:
        """A TEARDOWN of the framework."""
        return self._say("TEARDOWN")

    def _made(self, log: Buffer | None) -> int | None:
        """Returns the handle of a new session, or of that to which a log leads."""
        made = ctypes.c_void_p()
        if log is not None:
            read = bytes(memoryview(log))
            self._room.ask(self._library.mes_log_replay, read, len(read), ctypes.byref(made))
        elif self._library.mes_session_new(ctypes.byref(made)) != _GOOD:
            raise MemoryError
        return made.value

    def _own(self) -> int:
        if self._handle is None:
            raise ValueError("the session is closed")
        return self._handle

    def _forget(self) -> None:
        """Forgets what was read of the session, before it changes."""
        self._offers = self._owed = None

    def _change(self, texts: bytes) -> None:
        """Forgets what these texts of events may have changed."""
        self._offers = self._owed = None
        # Only a SUBSCRIBED changes the framework. Its name can be written with escapes.
        if self._framework is not None and (b"SUBSCRIBED" in texts or b"\\u" in texts):
            self._framework = None

    def _filters(self, refuse_seconds: float | None) -> dict[str, Any]:
        return {"filters": {"refuse_seconds": refuse_seconds}} if refuse_seconds is not None else {}

    def _say(self, type: str, body: Mapping[str, Any] | None = None) -> bytes:
        return self._say_text(type, json.dumps(body) if body is not None else None)

    def _say_text(self, type: str, body: str | None) -> bytes:
        rest = "" if body is None else ',"%s":%s' % (type.lower(), body)
        return self.said('{"type":"%s","framework_id":{"value":%s}%s}' % (type, _quoted(self.framework_id or ""), rest))

    def _give(self, function: Any, message: Message) -> bytes:
        """Calls a function that changes the session."""
        argument = _text_of(message)
        text = self._room.ask(function, self._own(), argument, len(argument))
        self._offers = self._owed = None
        return text

    def _ask(self, function: Any, *arguments: Any) -> bytes:
        return self._room.ask(function, self._own(), *arguments)

    def _count_offers(self) -> int:
        return int(self._library.mes_session_offer_count(self._own()))

    def _count_owed(self) -> int:
        return int(self._library.mes_session_owed_count(self._own()))

    def _offer(self, name: Any) -> Any:
        if self._offers is not None:
            return self._offers[name]
        if not isinstance(name, str):
            raise KeyError(name)
        text = name.encode()
        try:
            return json.loads(self._ask(self._library.mes_session_offer, text, len(text)))
        except KeyError:
            raise KeyError(name) from None

    def _read_offers(self) -> dict[str, Any]:
        if self._offers is None:
            at = self._library.mes_session_offer_at
            offers = (json.loads(self._ask(at, index)) for index in range(self._count_offers()))
            self._offers = {offer["id"]["value"]: offer for offer in offers}
        return self._offers

    def _read_owed(self) -> dict[tuple[str, str, str], Any]:
        if self._owed is None:
            at = self._library.mes_session_owed_at
            bodies = (json.loads(self._ask(at, index)) for index in range(self._count_owed()))
            self._owed = {(it["agent_id"]["value"], it["task_id"]["value"], it["uuid"]): it for it in bodies}
        return self._owed


class Entry(NamedTuple):
    """An entry of a session log. kind: `heard`, `said` or `broken`. text: that of the event or the call; else empty."""

    kind: str
    text: bytes


class Log:
    """Writes the log of a session, which `mesosev replay` and `Session.replay` read: each event received, each call
    sent and each break of the stream, in order. The file is open for writing bytes; several threads may write.
    header: whether the log begins here; False continues one."""

    def __init__(self, file: Any, header: bool = True) -> None:
        import threading

        self._file, self._library, self._room, self._lock = file, _library(), _Room(), threading.Lock()
        if header:
            self._write(self._library.mes_log_header)

    @staticmethod
    def read(data: Buffer) -> list[Entry]:
        """Returns the entries of a log. Raises Fault if the bytes are no log."""
        log = bytes(memoryview(data))
        try:
            Session.replay(log).close()
        except Refusal:
            # Each entry is valid, although the session refuses one.
            pass
        return [Entry(_ENTRIES[it[:1]], it[1:]) for it in _data_of(log) if it[:1] in _ENTRIES]

    @staticmethod
    def replay(data: Buffer) -> Session:
        """Returns the session to which a log leads, as `Session.replay` does."""
        return Session.replay(data)

    def heard(self, event: Message) -> None:
        """Writes an event. Raises Fault if it is none."""
        self._write(self._library.mes_log_event, event)

    def said(self, call: Message) -> None:
        """Writes a call. Raises Fault if it is none."""
        self._write(self._library.mes_log_call, call)

    def broken(self) -> None:
        """Writes that the stream broke."""
        self._write(self._library.mes_log_broken)

    def _write(self, function: Any, *messages: Message) -> None:
        texts = [_text_of(it) for it in messages]
        with self._lock:
            self._file.write(self._room.ask(function, *(it for text in texts for it in (text, len(text)))))


# The entries of a log by the letters of their records. The header has none of them.
_ENTRIES = {b"E": "heard", b"C": "said", b"B": "broken"}


def _data_of(records: bytes) -> Iterator[bytes]:
    """Yields the data of each record of valid RecordIO."""
    at = 0
    while at < len(records):
        end = records.index(b"\n", at) + 1
        at = end + int(records[at : end - 1])
        yield records[end:at]


def record(event: Message) -> bytes:
    """Returns the record of an event in a stream, for programs that send events. Raises Fault if it is none."""
    text = _text_of(event)
    return _Room().ask(_library().mes_write_event, text, len(text))


def chunk(data: Buffer) -> bytes:
    """Returns a chunk of a body of HTTP with this data. Without data it is the last chunk, which ends the body."""
    text = bytes(memoryview(data))
    return _Room().ask(_library().mes_write_chunk, text, len(text))


def _list_of(items: Any) -> bytes:
    """Returns the JSON array of a list of offers or of tasks, or of its text."""
    return _text_of(items if isinstance(items, (str, bytes, bytearray, memoryview)) else list(items))


def check_fit(offers: Buffer | str | Iterable[Any], tasks: Buffer | str | Iterable[Any]) -> None:
    """Checks without a session whether tasks fit the offers on which they would be launched.

    offers, tasks: lists of their JSON forms, or texts of JSON arrays. Raises Refusal (S6) with the first task and
    resource that do not fit, of entry 1; Fault if they are no offers (record 1) or no tasks (record 2).
    """
    first, second = _list_of(offers), _list_of(tasks)
    _Room().ask(_library().mes_fits, first, len(first), second, len(second))


# What a test gives to a master: one event, several, the bytes of RecordIO or of JSON Lines, or a file of these bytes.
Given = Union[Event, "Mapping[str, Any]", Iterable[Union[Event, "Mapping[str, Any]"]], Buffer, str, Reads]

# The path of the scheduler API in a URL.
_PATH = "/api/v1/scheduler"
_LISTENING = "listening on "


def _record(event: Any) -> bytes:
    """Returns an event as a record."""
    if not isinstance(event, Event):
        text = json.dumps(event).encode()
    elif event.text is None:
        raise ValueError("the event has no text")
    else:
        text = event.text
    return b"%d\n%s" % (len(text), text)


def _records(given: Any) -> bytes:
    """Returns the given events as RecordIO."""
    if isinstance(given, (Event, Mapping)):
        return _record(given)
    data = given.read() if hasattr(given, "read") else given
    if isinstance(data, str):
        data = data.encode()
    if not isinstance(data, (bytes, bytearray, memoryview)):
        return b"".join(map(_record, data))
    data = bytes(data)
    if not data.lstrip().startswith(b"{"):
        return data
    # JSON Lines: an event in each line that is not empty. RecordIO begins with a digit.
    lines = filter(None, (line.strip() for line in data.split(b"\n")))
    return b"".join(b"%d\n%s" % (len(line), line) for line in lines)


def _find_command(command: str | os.PathLike[str] | None) -> str:
    """Returns the path of the command `mesosev`."""
    import shutil

    origin = "command=" if command else "the environment variable MESOSEV"
    name = os.fspath(command) if command else os.environ.get("MESOSEV", "")
    if found := shutil.which(name or "mesosev"):
        return found
    if name:
        raise FileNotFoundError(f"{origin} is {name!r}, which is not a command that can be run")
    how = "name its file by command= or in the environment variable MESOSEV, or put its folder on the PATH"
    raise FileNotFoundError(f"the command mesosev was not found: {how}")


class MasterFailed(Exception):
    """The command `mesosev` has failed, or has ended although the test needs it.

    status: the exit status, or the number of a signal as a negative number. lines: what the command
    printed. errors: its standard error.
    """

    def __init__(self, status: int, lines: list[str], errors: str) -> None:
        super().__init__(status, lines, errors)
        self.status, self.lines, self.errors = status, lines, errors

    def __str__(self) -> str:
        ended = f"`mesosev` ended with status {self.status}"
        last = "\n".join(self.lines[-10:]) or "(nothing)"
        return f"{ended}\nstandard error:\n{self.errors.rstrip() or '(nothing)'}\nits last lines:\n{last}"


class Master:
    """A live test master, `mesosev master`, on a free port of 127.0.0.1.

        with mesosev.Master([{"type": "OFFERS", "offers": {"offers": [offer]}}]) as master:
            run_my_scheduler(master.url)

    events: one event or several, each a dict or an `Event`; or RecordIO or JSON Lines, as bytes, as
    a string or as an open file. command: the path of the command, else that of the environment
    variable MESOSEV, else `mesosev` of the PATH. heartbeat, resend, finish_after (seconds), chunk
    (bytes) and once are the options `--heartbeat`, `--resend`, `--finish-after`, `--most` and
    `--once`. faults: planned faults such as "lose:3", one `--fault` each; fault_rate (of 1,000) and
    seed are `--faults` and `--seed`. The master ends by itself after `seconds`, so that none is left if the test is killed.
    timeout: the seconds after which a call of this class that waits raises TimeoutError.

    A master that was started by `start` has to be ended by `stop`; `with` does both.
    """

    _grace = 10.0

    def __init__(
        self,
        events: Given = (),
        *,
        command: str | os.PathLike[str] | None = None,
        heartbeat: int | None = None,
        resend: int | None = None,
        finish_after: int | None = None,
        once: bool = False,
        chunk: int | None = None,
        faults: Iterable[str] = (),
        fault_rate: int | None = None,
        seed: int | None = None,
        seconds: int = 3600,
        timeout: float = 60.0,
    ) -> None:
        import threading

        self._given, self._command, self._timeout = events, command, timeout
        numbers = {"heartbeat": heartbeat, "resend": resend, "finish-after": finish_after, "most": chunk, "seconds": seconds}
        numbers |= {"faults": fault_rate, "seed": seed}
        self._options = [f"--{name}={number}" for name, number in numbers.items() if number is not None]
        self._options += [f"--fault={fault}" for fault in faults]
        self._options += ["--once"] if once else []
        self._process: subprocess.Popen[bytes] | None = None
        self._lines: list[str] = []
        # Is notified when a line comes, and when the last one has come.
        self._changed = threading.Condition()
        self._has_all_lines = self._is_stopped = False
        self._address = self._error_text = ""

    @property
    def address(self) -> str:
        """The address, such as `127.0.0.1:5050`."""
        self._running()
        return self._address

    @property
    def url(self) -> str:
        """The URL to which calls are posted."""
        return f"http://{self.address}{_PATH}"

    @property
    def lines(self) -> list[str]:
        """The lines that were printed so far; after the end, all of them."""
        with self._changed:
            return self._lines.copy()

    def start(self) -> Master:
        """Starts the master. Returns it once it listens, and has read the events.

        Raises ValueError if the events are invalid, FileNotFoundError if there is no command, and
        MasterFailed if the command fails.
        """
        self._start()
        return self

    def send(self, events: Given) -> None:
        """Sends events to the master. Returns once the master has read them.

        The events have one of the forms that the constructor takes. Raises ValueError, and sends
        nothing, if an event is invalid.
        """
        self._running()
        self._write(self._checked(events))

    def wait_for_line(self, text: str, timeout: float | None = None) -> str:
        """Returns the first line that contains this text, once it is printed.

        Raises MasterFailed if the master ends without such a line.
        """
        self._running()
        with self._changed:
            self._changed.wait_for(lambda: self._has_all_lines or self._line_with(text) is not None, self._limit(timeout))
            line = self._line_with(text)
        if line is not None:
            return line
        if self._has_all_lines:
            raise self._failure()
        raise TimeoutError(f"`mesosev master` has printed no line with {text!r}, but {self.lines}")

    def state(self) -> dict[str, Any]:
        """Returns the state of the master, as `GET /state` has it.

        `launched` has the ids of all tasks, `unacknowledged` the updates that are not acknowledged.
        Raises OSError if there is no response with status 200, as from a `mesosev` without a page, and
        MasterFailed if the master has ended.
        """
        import http.client

        process = self._running()
        connection = http.client.HTTPConnection(self._address, timeout=self._timeout)
        try:
            connection.request("GET", "/state")
            response = connection.getresponse()
            text = response.read()
        except OSError:
            if process.poll() is None:
                raise
            raise self._failure() from None
        finally:
            connection.close()
        if response.status != 200:
            raise OSError(f"GET /state of {self.address}: status {response.status}")
        state: dict[str, Any] = json.loads(text)
        return state

    def wait(self, timeout: float | None = None) -> None:
        """Waits until the master ends by itself, as after a TEARDOWN with `once`.

        Raises MasterFailed if its status is not 0.
        """
        import subprocess

        process = self._running()
        try:
            status = process.wait(self._limit(timeout))
        except subprocess.TimeoutExpired as error:
            raise TimeoutError(f"`mesosev master` has not ended after {error.timeout} s") from None
        self._take_rest()
        if status != 0:
            raise self._failure()

    def stop(self) -> None:
        """Ends the master, if it has not ended. A second call does nothing.

        Raises MasterFailed if the master had failed before. All its lines are in `lines` then.
        """
        import signal

        if self._process is not None and not self._is_stopped:
            has_ended = self._process.poll() is not None
            self._end(self._process)
            caused = () if has_ended else (-signal.SIGTERM, -signal.SIGKILL)
            if self._process.returncode not in (0, *caused):
                raise self._failure()

    def __enter__(self) -> Master:
        return self.start()

    def __exit__(self, kind: object, error: BaseException | None, trace: object) -> None:
        try:
            self.stop()
        except MasterFailed:
            # A failed master explains the exception of a test, but not an interrupt.
            if error is None or isinstance(error, Exception):
                raise

    def _limit(self, timeout: float | None) -> float:
        return self._timeout if timeout is None else timeout

    def _line_with(self, text: str) -> str | None:
        return next((line for line in self._lines if text in line), None)

    def _running(self) -> subprocess.Popen[bytes]:
        """Returns the process, if the master was started."""
        if self._process is None:
            raise RuntimeError("the master was not started")
        return self._process

    def _start(self) -> None:
        import subprocess
        import tempfile
        import threading

        if self._process is not None:
            raise RuntimeError("a master can be started only once")
        self._path = _find_command(self._command)
        records = self._checked(self._given)
        words = [self._path, "master", "--port=0", *self._options]
        self._errors = tempfile.TemporaryFile()
        pipes: Any = {"stdin": subprocess.PIPE, "stdout": subprocess.PIPE, "stderr": self._errors}
        # In a session of its own, so that ^C reaches only the test, which then ends the master.
        self._process = process = subprocess.Popen(words, start_new_session=True, **pipes)
        self._reader = threading.Thread(target=self._read_lines, args=(process,), daemon=True)
        self._reader.start()
        try:
            self._address = self.wait_for_line(_LISTENING)[len(_LISTENING) :]
            self._write(records)
        except BaseException:
            self._end(process)
            raise

    def _checked(self, given: Any) -> bytes:
        """Returns the given events as RecordIO. Raises ValueError if `mesosev check` reports a fault."""
        import subprocess

        records = _records(given)
        pipes: Any = {"stdout": subprocess.PIPE, "stderr": subprocess.STDOUT}
        try:
            ran = subprocess.run([self._path, "check"], input=records, timeout=self._timeout, check=False, **pipes)
        except subprocess.TimeoutExpired as error:
            raise TimeoutError(f"`mesosev check` has not ended after {error.timeout} s") from None
        printed = ran.stdout.decode(errors="backslashreplace")
        if ran.returncode == 1 and printed.startswith("fault "):
            raise ValueError(f"the events are invalid: {printed.rstrip()}")
        if ran.returncode != 0:
            raise MasterFailed(ran.returncode, [], printed)
        return records

    def _read_lines(self, process: subprocess.Popen[bytes]) -> None:
        """Reads the lines as they come, on a thread of its own."""
        assert process.stdout is not None
        for line in process.stdout:
            with self._changed:
                self._lines.append(line.decode(errors="backslashreplace").rstrip("\n"))
                self._changed.notify_all()
        with self._changed:
            self._has_all_lines = True
            self._changed.notify_all()

    def _write(self, data: bytes) -> None:
        """Writes to standard input, and waits until the master has read everything."""
        import fcntl
        import termios
        import time

        process = self._running()
        if process.stdin is None or process.stdin.closed:
            raise self._failure()
        pipe, rest = process.stdin.fileno(), memoryview(data)
        os.set_blocking(pipe, False)
        until = time.monotonic() + self._timeout
        while rest or any(fcntl.ioctl(pipe, termios.FIONREAD, bytes(4))):
            if process.poll() is not None:
                raise self._failure()
            if time.monotonic() > until:
                raise TimeoutError(f"`mesosev master` has not read its standard input: {len(rest)} bytes are left")
            try:
                rest = rest[os.write(pipe, rest) :] if rest else rest
            except (BlockingIOError, BrokenPipeError):
                pass
            # No system call waits until a pipe is empty.
            time.sleep(0.001)

    def _failure(self) -> MasterFailed:
        """Returns the exception of a master that has ended, or whose output has ended."""
        status = self._running().wait(self._timeout)
        self._take_rest()
        return MasterFailed(status, self.lines, self._error_text or self._read_errors())

    def _read_errors(self) -> str:
        # Does not move the offset, which is also that of the process.
        return os.pread(self._errors.fileno(), 65_536, 0).decode(errors="backslashreplace")

    def _take_rest(self) -> None:
        """Waits for the last lines of a process that has ended."""
        self._reader.join(self._timeout)

    def _end(self, process: subprocess.Popen[bytes]) -> None:
        """Ends the process by SIGTERM or, after `_grace` seconds, by SIGKILL."""
        import subprocess

        self._is_stopped = True
        process.terminate()
        try:
            process.wait(self._grace)
        except subprocess.TimeoutExpired:
            process.kill()
            process.wait()
        self._take_rest()
        self._error_text = self._read_errors() or "(nothing)"
        # If another process still has the pipe, the thread reads on, and the pipe cannot be closed.
        output = None if self._reader.is_alive() else process.stdout
        for file in (process.stdin, output, self._errors):
            if file is not None:
                file.close()


class CallRefused(Exception):
    """The master has refused a call.

    type: the type of the call. status: the status of the response. text: the body of the response.
    """

    def __init__(self, type: str, status: int, text: str) -> None:
        super().__init__(type, status, text)
        self.type, self.status, self.text = type, status, text

    def __str__(self) -> str:
        return f"{self.type}: status {self.status}{': ' if self.text else ''}{self.text}"


class StreamBroken(ConnectionError):
    """The connection of a stream has failed before the master ended the stream."""


class StreamDecoder(Protocol):
    """What decodes the stream of a `Connection`, as `Decoder` does."""

    def feed(self, data: bytes, /) -> Iterator[Event]:
        """Returns the events whose records end in these bytes."""

    def finish(self) -> None:
        """Ends the input. Raises an exception if the stream may not end there."""

    def close(self) -> None:
        """Frees the decoder."""


def _endpoint(url: str) -> tuple[str, str]:
    """Returns the address and the path of a URL, which may be an address alone."""
    import urllib.parse

    parts = urllib.parse.urlsplit(url if "://" in url else f"http://{url}")
    if parts.scheme != "http" or not parts.netloc:
        raise ValueError(f"the URL of a master begins with http:// {url!r}")
    return parts.netloc, parts.path if parts.path not in ("", "/") else _PATH


class Connection:
    """A framework that is subscribed to a master; `connect` makes one.

    It is an iterator over the events of the stream. The iteration ends when the master ends the
    stream. It raises StreamBroken if the connection fails before, or is silent for `timeout`
    seconds; and Fault if the stream is invalid. The exception is raised again until `reconnect`.

    One thread may take events while another one sends calls; with a session, one thread at a time uses
    the connection. framework_id: the id of the framework;
    None before the first SUBSCRIBED. stream_id: the value of `Mesos-Stream-Id`.
    """

    framework_id: str | None
    stream_id: str | None

    def __init__(
        self,
        url: str,
        framework_info: Mapping[str, Any],
        timeout: float = 60.0,
        headers: Mapping[str, str] | None = None,
        decoder: Callable[[], StreamDecoder] = Decoder,
        session: Session | None = None,
        log: Log | None = None,
    ) -> None:
        import http.client

        address, self._path = _endpoint(url)
        self._info, self._make_decoder = dict(framework_info), decoder
        self._session, self._log = session, log
        self._headers = {"Content-Type": "application/json", "Accept": "application/json", **(headers or {})}
        self.framework_id, self.stream_id = self._info.get("id", {}).get("value"), None
        self._stream, self._calls = (http.client.HTTPConnection(address, timeout=timeout) for _ in range(2))
        self._response: http.client.HTTPResponse | None = None
        self._decoder: StreamDecoder | None = None
        self._events: Iterator[Event] = iter(())
        self._failure: BaseException | None = None
        # Whether the session and the log know that there is no stream, and whether the connection was closed.
        self._is_told, self._is_closed = True, False
        self._subscribe()

    def events(self) -> Iterator[Event]:
        """Returns the iterator over the events, which is the connection itself."""
        return self

    def __iter__(self) -> Iterator[Event]:
        return self

    def __next__(self) -> Event:
        if self._failure is not None:
            raise self._failure
        try:
            event = next(self._events)
        except StopIteration:
            self._tell_break()
            raise
        except BaseException as error:
            self._fail(error)
            self._tell_break()
            raise
        try:
            self._note(event)
        except BaseException as error:
            self._fail(error)
            raise
        return event

    def send(self, type: str, /, **body: Any) -> None:
        """Sends a call of this type, whose body has these members; without members it has no body. A session
        checks it first, and raises Refusal.

        Raises CallRefused if the status of the response is not 202. After an OSError or an
        `http.client.HTTPException` it is not known whether the call has arrived.
        """
        if self.framework_id is None:
            raise ValueError("the master has not sent SUBSCRIBED")
        call: dict[str, Any] = {"type": type, "framework_id": {"value": self.framework_id}}
        if body:
            call[type.lower()] = body
        text = json.dumps(call).encode()
        self._send(type, text if self._session is None else self._session.said(text))

    def post(self, call: bytes) -> None:
        """Sends a call, given by its JSON text, which a `Session` has returned. Raises what `send` raises, but no Refusal.

        Post each call before the next event is taken: it enters the log now, and entered the session before.
        """
        self._send(json.loads(call)["type"], call)

    def reconnect(self) -> None:
        """Subscribes again with the same framework id. Events of the old stream that were not taken are lost.

        The session and the log are told that the stream broke, unless they know it: they are told when the iteration
        ends or raises an exception of the stream.

        Raises what `connect` raises. It can then be called again.
        """
        self._close_stream()
        self._failure = StreamBroken("there is no stream, since the last subscription failed")
        self._tell_break()
        self._subscribe()

    def close(self) -> None:
        """Closes both connections, and ends the iteration. To the master the framework is disconnected then. The session
        and the log are told of the break."""
        self._close_stream()
        self._failure, self._is_closed = None, True
        self._calls.close()
        self._tell_break()

    def __enter__(self: _Own) -> _Own:
        return self

    def __exit__(self, *_: object) -> None:
        self.close()

    def _subscribe(self) -> None:
        """Opens a stream, and waits for its first event."""
        call: dict[str, Any] = {"type": "SUBSCRIBE", "subscribe": {"framework_info": self._info}}
        if self.framework_id is not None:
            own = {"value": self.framework_id}
            call = {"type": "SUBSCRIBE", "framework_id": own, "subscribe": {"framework_info": {**self._info, "id": own}}}
        try:
            self._decoder = self._make_decoder()
            text = self._session.subscribe(call["subscribe"]["framework_info"]) if self._session is not None else json.dumps(call).encode()
            self._response = self._post(self._stream, "SUBSCRIBE", text, 200, {})
            self.stream_id = self._response.headers["Mesos-Stream-Id"]
            decoded = self._decoded(self._response, self._decoder)
            first = list(itertools.islice(decoded, 1))
            if first and first[0].name == "SUBSCRIBED":
                self.framework_id = first[0].value()["subscribed"]["framework_id"]["value"]
        except BaseException:
            self._close_stream()
            self._calls.close()
            raise
        self._events, self._failure = itertools.chain(first, decoded), None
        self._is_told = self._is_closed = False

    def _fail(self, error: BaseException) -> None:
        is_fault = isinstance(error, Exception)
        self._failure = error if is_fault else StreamBroken("reading the stream was interrupted")

    def _note(self, event: Event) -> None:
        """Tells the log and the session of an event."""
        for told in (self._log, self._session):
            if told is not None:
                told.heard(event)

    def _tell_break(self) -> None:
        """Tells the log and the session that the stream ended or broke, unless they know it."""
        is_told, self._is_told = self._is_told, True
        for told in (self._log, self._session):
            if told is not None and not is_told:
                told.broken()

    def _send(self, type: str, call: bytes) -> None:
        if self._is_closed:
            raise ValueError("the connection is closed")
        headers = {"Mesos-Stream-Id": self.stream_id} if self.stream_id is not None else {}
        self._post(self._calls, type, call, 202, headers).read()

    def _post(
        self, connection: http.client.HTTPConnection, type: str, call: bytes, expected: int, headers: Mapping[str, str]
    ) -> http.client.HTTPResponse:
        """Sends a call, and returns the response, which has the expected status."""
        if self._log is not None:
            self._log.said(call)
        try:
            connection.request("POST", self._path, call, {**self._headers, **headers})
            response = connection.getresponse()
            if response.status != expected:
                raise CallRefused(type, response.status, response.read().decode(errors="replace"))
        except BaseException:
            connection.close()
            raise
        return response

    def _decoded(self, response: http.client.HTTPResponse, decoder: StreamDecoder) -> Iterator[Event]:
        """Yields the events of a stream."""
        import http.client

        while True:
            try:
                data = response.read1(READ_MOST)
            except (OSError, http.client.HTTPException) as error:
                raise StreamBroken(f"the stream is broken: {error!r}") from error
            if not data:
                return decoder.finish()
            yield from decoder.feed(data)

    def _close_stream(self) -> None:
        self._events = iter(())
        for closed in (self._response, self._stream, self._decoder):
            if closed is not None:
                closed.close()
        self._response = self._decoder = None


def connect(
    url: str,
    framework_info: Mapping[str, Any],
    *,
    timeout: float = 60.0,
    headers: Mapping[str, str] | None = None,
    decoder: Callable[[], StreamDecoder] = Decoder,
    session: Session | None = None,
    log: Log | None = None,
) -> Connection:
    """Subscribes a framework to a master, and returns the connection once the first event has come.

    url: `http://HOST:PORT` or HOST:PORT; without a path it is that of the scheduler API.
    framework_info: the FrameworkInfo, such as `{"user": "root", "name": "n"}`; with an `id` the
    framework is that one again. timeout: the seconds for which each connection may be silent; a
    master sends a HEARTBEAT every 15 seconds if not configured otherwise. headers: further fields
    of each request, such as `Authorization`. decoder: makes the decoder of each stream, such as
    `functools.partial(Decoder, limit=N)`; `Decoder` needs libmesosev (ImportError). session: is told of
    each event when it is taken, and of each break by `reconnect`; its calls are sent by `post`. log:
    receives each event, each call before it is sent, and each break.

    Raises CallRefused if the status of the response is not 200, and OSError or StreamBroken if the
    connection fails.
    """
    return Connection(url, framework_info, timeout, headers, decoder, session, log)


def _start_masters() -> Iterator[Callable[..., Master]]:
    """Returns a function that starts a `Master` with its arguments. Each master ends with the test."""
    import contextlib

    with contextlib.ExitStack() as stack:
        yield lambda *arguments, **options: stack.enter_context(Master(*arguments, **options))


# The fixture of pytest, for `pytest_plugins = ["mesosev"]` or `from mesosev import mesosev_master`.
# In both cases pytest runs, and is imported already.
if _pytest := sys.modules.get("pytest"):
    mesosev_master: Any = _pytest.fixture(name="mesosev_master")(_start_masters)


class _Testing:
    """What a test needs: `mesosev.testing.Master`."""

    Master = Master
    MasterFailed = MasterFailed


testing = _Testing
# For `import mesosev.testing`.
sys.modules[f"{__name__}.testing"] = testing  # type: ignore[assignment]


def _line_of(path: str, framing: int, limit: int) -> tuple[str, bool]:
    """Returns the line that `mesosev check` prints for a file, and whether the file is a whole stream."""
    with open(path, "rb") as file:
        data = file.read()
    try:
        counts = check(data, framing, limit)
    except Fault as fault:
        return fault.line, False
    return f"events {counts.events} bytes {counts.used}", True


def main(arguments: list[str] | None = None) -> int:
    """Checks the files of the arguments, by default those of the process. Returns the exit status."""
    import argparse

    about = "Check that each record of the files is an event. Print for each file what `mesosev check` prints."
    end = """Of several files, each line begins with FILE and a colon. The status is 0 if all files are valid, 1 if one has
a fault, and 2 for a usage error, a file that cannot be read, or if libmesosev is missing."""
    parser = argparse.ArgumentParser(prog="python3 -m mesosev", description=about, epilog=end)
    parser.add_argument("files", nargs="+", metavar="FILE", help="a stream of events in RecordIO; it is read into memory")
    parser.add_argument("--chunked", action="store_true", help="the files are chunked HTTP/1.1 bodies, not plain RecordIO")
    size = "largest record in bytes, 1 to 67108864 (default: %(default)s)"
    parser.add_argument("--limit", type=int, default=LIMIT_USUAL, metavar="N", help=size)
    chosen = parser.parse_args(arguments)
    status = 0
    for path in chosen.files:
        try:
            line, is_whole = _line_of(path, CHUNKED if chosen.chunked else PLAIN, chosen.limit)
        except (ImportError, MemoryError, OSError, ValueError) as error:
            why = getattr(error, "strerror", None) or str(error) or "out of memory"
            print(f"mesosev: {path}: {why}", file=sys.stderr)
            status = 2
            continue
        print(f"{path}: {line}" if len(chosen.files) > 1 else line)
        status = max(status, 0 if is_whole else 1)
    return status


if __name__ == "__main__":
    sys.exit(main())
