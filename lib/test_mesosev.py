"""Tests of mesosev.py: python3 -m unittest test_mesosev in lib/. MESOSEV_LIBRARY names the library, MESOSEV the command.

-k WORD runs only the tests that have WORD in their name. The tests that need the library or the command are skipped
without it. tests/python_module.py runs those without the library, and tests/c_library.py all.
"""

import contextlib
import copy
import functools
import importlib.util
import inspect
import io
import json
import os
import pickle
import shutil
import signal
import socket
import stat
import subprocess
import sys
import tempfile
import threading
import unittest
from unittest import mock

import mesosev

TOP = os.path.dirname(os.path.dirname(os.path.abspath(__file__)))
sys.path.insert(0, os.path.join(TOP, "tests"))
import support
from support import chunked, record

BEAT = support.BEAT.encode()
# The seconds after which something that should happen at once has failed.
LIMIT = 60


def needed(find):
    """Returns a decorator that skips the tests if this function raises an exception, which is the reason."""
    try:
        find()
    except (ImportError, FileNotFoundError) as error:
        return unittest.skip(str(error))
    return lambda tests: tests


needs_library = needed(mesosev.version)
needs_command = needed(functools.partial(mesosev._find_command, None))


def example(name):
    with open(os.path.join(TOP, "examples", name), "rb") as file:
        return file.read()


@needs_library
class Streams(unittest.TestCase):
    def test_the_examples_are_decoded(self):
        plain = list(mesosev.events(io.BytesIO(example("stream.recordio"))))
        chunked = list(mesosev.events(io.BytesIO(example("stream.chunked")), mesosev.CHUNKED))
        self.assertEqual(len(plain), 13)
        self.assertEqual(plain, chunked)
        self.assertEqual(plain[0].name, "SUBSCRIBED")
        self.assertEqual(plain[2].type, 2)
        self.assertEqual(len(plain[2].value()["offers"]["offers"]), 2)

    def test_texts_are_canonical(self):
        unusual = record(b' { "x": [1], "type" : "HEART\\u0042EAT" } ')
        self.assertEqual([it.text for it in mesosev.events(unusual)], [b'{"type":"HEARTBEAT"}'])

    def test_an_unknown_type_has_its_name(self):
        (event,) = mesosev.events(record(b'{"type":"RESCIND_INVERSE_OFFER","a":1}'))
        self.assertEqual((event.type, event.name), (0, "RESCIND_INVERSE_OFFER"))

    def test_the_size_of_pieces_changes_nothing(self):
        whole = list(mesosev.events(example("stream.recordio")))
        for most in (1, 2, 7, 512, 100_000):
            self.assertEqual(list(mesosev.events(io.BytesIO(example("stream.recordio")), most=most)), whole)

    def test_a_socket_is_read(self):
        ours, theirs = socket.socketpair()
        sender = threading.Thread(target=lambda: (theirs.sendall(example("stream.chunked")), theirs.close()))
        sender.start()
        with ours:
            self.assertEqual(len(list(mesosev.events(ours, mesosev.CHUNKED))), 13)
        sender.join()

    def test_events_can_have_no_texts(self):
        events = list(mesosev.events(BEAT * 3, texts=False))
        self.assertEqual(events, [(8, None)] * 3)
        with self.assertRaises(ValueError):
            events[0].value()

    def test_an_empty_stream_has_no_events(self):
        self.assertEqual(list(mesosev.events(b"")), [])
        with self.assertRaises(mesosev.Fault) as raised:
            list(mesosev.events(b"", mesosev.CHUNKED))
        self.assertEqual((raised.exception.number, raised.exception.used), (6, 0))

    def test_bytes_after_the_end_are_unused(self):
        data = example("stream.chunked") + b"rest"
        for most in (1, len(data) - 2, len(data), 100_000):
            source = io.BytesIO(data)
            events = mesosev.events(source, mesosev.CHUNKED, most=most)
            self.assertEqual(events.unused, b"")
            self.assertEqual(len(list(events)), 13)
            self.assertEqual(events.unused + source.read(), b"rest")
            self.assertEqual(list(events), [])
        with mesosev.Decoder(mesosev.CHUNKED) as decoder:
            self.assertEqual(len(list(decoder.feed(data))), 13)
            self.assertEqual(decoder.unused, b"rest")
            self.assertEqual(list(decoder.feed(b"more")), [])
            self.assertEqual(decoder.unused, b"more")

    def test_other_types_than_bytes_raise_type_error(self):
        for wrong in (3, "20", [50, 48], None):
            self.assertRaises(TypeError, mesosev.check, wrong)
            self.assertRaises(TypeError, mesosev.call, wrong)
            self.assertRaises(TypeError, mesosev.Decoder().feed, wrong)


@needs_library
class Sources(unittest.TestCase):
    """Sources that block, or have no bytes now."""

    def read_in_parts(self, make):
        """Reads a source with a record, then no bytes now, then another record, then the end."""
        reader, writer = make()
        writer(BEAT)
        events = mesosev.events(reader)
        types = [next(events).type]
        for how in (next, list):
            self.assertRaises(BlockingIOError, how, events)
        writer(BEAT[:7])
        self.assertRaises(BlockingIOError, next, events)
        writer(BEAT[7:])
        types += [next(events).type]
        writer(None)
        self.assertRaises(StopIteration, next, events)
        reader.close()
        self.assertEqual(types, [8, 8])

    def pipe(self, buffering):
        reader, writer = os.pipe()
        os.set_blocking(reader, False)
        return os.fdopen(reader, "rb", buffering), lambda data: os.close(writer) if data is None else os.write(writer, data)

    def pair(self, wrap):
        ours, theirs = socket.socketpair()
        ours.setblocking(False)
        reader = wrap(ours)
        if reader is not ours:
            ours.close()
        return reader, lambda data: theirs.close() if data is None else theirs.sendall(data)

    def test_a_source_without_bytes_now_can_be_read_again(self):
        self.read_in_parts(lambda: self.pipe(0))
        self.read_in_parts(lambda: self.pipe(4096))
        self.read_in_parts(lambda: self.pair(lambda ours: ours))
        self.read_in_parts(lambda: self.pair(lambda ours: ours.makefile("rb")))
        self.read_in_parts(lambda: self.pair(lambda ours: ours.makefile("rwb")))

    def test_reading_continues_after_a_timeout(self):
        ours, theirs = socket.socketpair()
        with ours, theirs:
            ours.settimeout(0.01)
            events = mesosev.events(ours)
            for _ in range(3):
                theirs.sendall(BEAT * 2)
                self.assertEqual([next(events).type, next(events).type], [8, 8])
                self.assertRaises(TimeoutError, next, events)
            theirs.sendall(BEAT[:5])
            self.assertRaises(TimeoutError, next, events)
            theirs.close()
            for _ in range(2):
                with self.assertRaises(mesosev.Fault) as raised:
                    next(events)
                self.assertEqual(raised.exception.number, 10)

    def test_no_event_is_lost_after_a_break(self):
        for make in (bytes, io.BytesIO):
            events = mesosev.events(make(BEAT * 3000))
            for _ in events:
                break
            self.assertEqual(next(events).type, 8)
            self.assertEqual(len(list(events)), 2998)
            self.assertEqual(list(events), [])

    def test_a_piece_has_at_least_one_byte(self):
        for most in (0, -1):
            for source in (BEAT, io.BytesIO(BEAT)):
                self.assertRaises(ValueError, mesosev.events, source, most=most)

    def test_bytes_are_copied_at_the_call(self):
        data = bytearray(BEAT * 2)
        for make in (mesosev.events, lambda piece: mesosev.Decoder().feed(memoryview(piece))):
            data[:] = BEAT * 2
            events = make(data)
            data[:] = b"x" * len(data)
            self.assertEqual([event.type for event in events], [8, 8])


class Narrow(mesosev.Decoder):
    """A decoder that decodes one event with each call of C."""

    _most = 1


@needs_library
class ManyEvents(unittest.TestCase):
    def decoded(self, data, cut, make, **how):
        """Returns the events of bytes that are cut in two, then the line of the fault, if any."""
        found = []
        with make(**how) as decoder:
            try:
                for piece in (data[:cut], data[cut:]):
                    for event in decoder.feed(piece):
                        found.append(event)
                decoder.finish()
            except mesosev.Fault as fault:
                found.append(fault.line)
        return found

    def test_a_cut_changes_nothing(self):
        for name, how in (("stream.recordio", {}), ("broken.recordio", {}), ("stream.chunked", {"framing": mesosev.CHUNKED})):
            data = example(name)
            whole = self.decoded(data, 0, mesosev.Decoder, **how)
            self.assertEqual(len(whole), 6 if "broken" in name else 13)
            for cut in range(len(data)):
                self.assertEqual(self.decoded(data, cut, mesosev.Decoder, **how), whole)

    def test_one_event_a_call_changes_nothing(self):
        for name in ("stream.recordio", "broken.recordio"):
            for texts in (True, False):
                data = example(name)
                whole = self.decoded(data, 0, mesosev.Decoder, texts=texts)
                for cut in range(0, len(data), 7):
                    self.assertEqual(self.decoded(data, cut, Narrow, texts=texts), whole)

    def test_a_piece_can_have_more_events_than_the_buffer(self):
        for count in (1023, 1024, 1025, 2048, 5000):
            events = list(mesosev.events(BEAT * count, texts=False))
            self.assertEqual(events, [(8, None)] * count)
            events = list(mesosev.events(BEAT * count))
            self.assertEqual(events, [(8, b'{"type":"HEARTBEAT"}')] * count)

    def test_a_fault_follows_the_events_of_its_piece(self):
        for make in (mesosev.Decoder, Narrow):
            found = self.decoded(BEAT * 3 + b"x", 0, make)
            self.assertEqual(found, [(8, b'{"type":"HEARTBEAT"}')] * 3 + [f"fault F7 BadSizeLine after {3 * len(BEAT) + 1}"])
            with make() as decoder:
                seen = decoder.feed(BEAT * 3 + b"x")
                self.assertEqual([next(seen).type, next(seen).type, next(seen).type, decoder.ended], [8, 8, 8, False])
                self.assertRaises(mesosev.Fault, next, seen)
                self.assertTrue(decoder.ended)

    def test_one_event_among_others_can_have_no_text(self):
        # The canonical text has two more bytes, and so exceeds the limit.
        front, back = b'{"type":"SUBSCRIBED","subscribed":{"framework_id":{"value":"', b'"},"heartbeat_interval_seconds":15}}'
        large = record(front + b"a" * (mesosev.LIMIT_MOST - len(front) - len(back)) + back)
        for make in (mesosev.Decoder, Narrow):
            with make(limit=mesosev.LIMIT_MOST) as decoder:
                events = list(decoder.feed(BEAT + large + BEAT * 2))
            beat = (8, b'{"type":"HEARTBEAT"}')
            self.assertEqual(events, [beat, (1, None), beat, beat])

    def test_a_decoder_can_be_closed_before_its_events_are_taken(self):
        decoder = mesosev.Decoder()
        events = decoder.feed(BEAT * 3000)
        first = next(events)
        decoder.close()
        # The events that were decoded with it are still returned.
        found = [first]
        with self.assertRaises(ValueError):
            for event in events:
                found.append(event)
        self.assertEqual(found, [(8, b'{"type":"HEARTBEAT"}')] * 1024)

    def test_a_decoder_with_events_left_can_be_closed(self):
        for make in (mesosev.Decoder, Narrow):
            decoder = make()
            self.assertEqual(next(decoder.feed(BEAT * 3)).type, 8)
            decoder.close()

    def test_feed_raises_if_events_are_left(self):
        for make in (mesosev.Decoder, Narrow):
            with make() as decoder:
                events = decoder.feed(BEAT * 1025)
                for _ in range(1024):
                    next(events)
                    self.assertRaises(RuntimeError, decoder.feed, BEAT)
                    self.assertRaises(RuntimeError, decoder.finish)
                # The events are still there.
                self.assertEqual(next(events).type, 8)
                self.assertEqual([event.type for event in decoder.feed(BEAT)], [8])
                decoder.feed(BEAT)
                self.assertRaises(RuntimeError, decoder.feed, BEAT)

    def test_a_piece_without_an_event_needs_no_iteration(self):
        with mesosev.Decoder() as decoder:
            decoder.feed(BEAT[:9])
            self.assertEqual([event.type for event in decoder.feed(BEAT[9:])], [8])
            decoder.finish()

    def test_decoders_cannot_be_copied(self):
        with mesosev.Decoder() as decoder:
            for made in (decoder, mesosev.events(BEAT)):
                self.assertRaises(TypeError, pickle.dumps, made)
                self.assertRaises(TypeError, copy.copy, made)
                self.assertRaises(TypeError, copy.deepcopy, made)


@needs_library
class Faults(unittest.TestCase):
    def fault(self, data, **how):
        with self.assertRaises(mesosev.Fault) as raised:
            list(mesosev.events(data, **how))
        return raised.exception

    def test_an_invalid_member_is_reported(self):
        fault = self.fault(example("broken.recordio"))
        self.assertEqual((fault.number, fault.name, fault.record), (12, "Field", 6))
        self.assertEqual((fault.place, fault.why, fault.used), ("update.status.state", "UnknownName", 3295))

    def test_an_invalid_text_is_reported(self):
        fault = self.fault(BEAT + record(b"[1,]"))
        self.assertEqual((fault.number, fault.record, fault.place, fault.why), (11, 2, 3, "Byte"))

    def test_events_before_the_fault_come_first(self):
        seen = []
        with self.assertRaises(mesosev.Fault):
            for event in mesosev.events(example("broken.recordio")):
                seen.append(event)
        self.assertEqual(len(seen), 5)

    def test_faults_can_be_copied(self):
        fault = self.fault(example("broken.recordio"))
        for made in (copy.copy(fault), copy.deepcopy(fault), pickle.loads(pickle.dumps(fault))):
            self.assertEqual((type(made), made.args, vars(made)), (mesosev.Fault, fault.args, vars(fault)))

    def test_faults_of_the_framing_are_reported(self):
        self.assertEqual(self.fault(b"x").number, 7)
        self.assertEqual(self.fault(b"2\n{").number, 10)
        self.assertEqual(self.fault(b"x", framing=mesosev.CHUNKED).number, 1)
        self.assertEqual(self.fault(BEAT, limit=19).number, 9)

    def test_the_fault_is_raised_again(self):
        decoder = mesosev.Decoder()
        for _ in range(3):
            with self.assertRaises(mesosev.Fault) as raised:
                list(decoder.feed(b"x"))
            self.assertEqual(raised.exception.line, "fault F7 BadSizeLine after 1")
        with self.assertRaises(mesosev.Fault):
            decoder.finish()
        decoder.close()

    def test_invalid_options_raise_value_error(self):
        limits = (0, mesosev.LIMIT_MOST + 1, -1, 2**32 + 30, 30 - 2**32, 2**64 + 30)
        framings = (2, -1, 2**32, 2**32 + 1, 1 - 2**32)
        for how in (*({"limit": limit} for limit in limits), *({"framing": framing} for framing in framings)):
            for call in (lambda: mesosev.Decoder(**how), lambda: mesosev.events(BEAT, **how), lambda: mesosev.check(BEAT, **how)):
                self.assertRaises(ValueError, call)

    def test_a_closed_decoder_raises_value_error(self):
        decoder = mesosev.Decoder()
        decoder.close()
        decoder.close()
        for call in (lambda: decoder.feed(b"1"), decoder.finish):
            self.assertRaisesRegex(ValueError, "closed", call)


@needs_library
class Whole(unittest.TestCase):
    def test_check_counts_events_and_bytes(self):
        self.assertEqual(mesosev.check(example("stream.recordio")), (13, 4250))
        self.assertEqual(mesosev.check(example("stream.chunked"), mesosev.CHUNKED), (13, 4336))
        with self.assertRaises(mesosev.Fault) as raised:
            mesosev.check(example("broken.recordio"))
        self.assertEqual(raised.exception.line, "fault F12 Field record 6 update.status.state UnknownName after 3295")

    def test_call_returns_the_canonical_text(self):
        unusual = b' {"framework_id": {"value": "F1"}, "type": "REVIVE"} '
        self.assertEqual(json.loads(mesosev.call(unusual)), json.loads(unusual))
        self.assertEqual(mesosev.call(unusual), b'{"type":"REVIVE","framework_id":{"value":"F1"}}')
        with self.assertRaises(mesosev.Fault) as raised:
            mesosev.call(b'{"type":"REVIVE"}')
        fault = raised.exception
        self.assertEqual((fault.number, fault.place, fault.why), (12, "framework_id", "Missing"))

    def test_the_version_has_three_numbers(self):
        self.assertRegex(mesosev.version(), r"^\d+\.\d+\.\d+$")


FRAMEWORK = {"user": "root", "name": "n"}
SUBSCRIBED = {"type": "SUBSCRIBED", "subscribed": {"framework_id": {"value": "F1"}}}
UUID = "AAECAwQFBgcICQoLDA0ODw=="


def cpus(number):
    return {"name": "cpus", "type": "SCALAR", "scalar": {"value": number}}


def brought(*names, agent="A1", cpu=1):
    """Returns an OFFERS with offers of these names, each of `cpu` cpus on an agent."""
    offer = {"framework_id": {"value": "F1"}, "agent_id": {"value": agent}, "hostname": "h", "resources": [cpus(cpu)]}
    return {"type": "OFFERS", "offers": {"offers": [{"id": {"value": name}, **offer} for name in names]}}


def task(name="T1", agent="A1", cpu=1):
    return {"name": "t", "task_id": {"value": name}, "agent_id": {"value": agent}, "resources": [cpus(cpu)]}


def status(task_id="T1", uuid=UUID):
    known = {"task_id": {"value": task_id}, "state": "TASK_RUNNING", "agent_id": {"value": "A1"}}
    return {**known, "uuid": uuid} if uuid else known


def update(**how):
    return {"type": "UPDATE", "update": {"status": status(**how)}}


@needs_library
class Sessions(unittest.TestCase):
    def session(self, *events):
        session = mesosev.Session()
        for event in events:
            session.heard(event)
        return session

    def refused(self, number, call, *arguments, **options):
        """Returns the refusal of a call, which has this number."""
        with self.assertRaises(mesosev.Refusal) as caught:
            call(*arguments, **options)
        self.assertEqual(caught.exception.number, number)
        return caught.exception

    def test_nothing_is_known_at_first(self):
        session = self.session()
        self.assertEqual((session.connected, session.framework_id, session.entries), (False, None, 0))
        self.assertEqual((dict(session.offers), dict(session.unacknowledged)), ({}, {}))
        refusal = self.refused(1, session.revive)
        self.assertEqual((refusal.name, refusal.entry, refusal.line), ("NotSubscribed", 1, "refused S1 NotSubscribed record 1"))

    def test_a_launch_takes_its_offer(self):
        session = self.session(SUBSCRIBED, brought("O1", "O2"))
        self.assertEqual([*session.offers], ["O1", "O2"])
        call = json.loads(session.accept(["O1"], [task()], refuse_seconds=5))
        self.assertEqual(call["accept"]["operations"][0]["launch"]["task_infos"], [task()])
        self.assertEqual(call["accept"]["filters"], {"refuse_seconds": 5.0})
        self.assertEqual([*session.offers], ["O2"])
        self.assertEqual(json.loads(session.decline(session.offers.values()))["decline"], {"offer_ids": [{"value": "O2"}]})
        self.assertEqual((len(session.offers), session.entries), (0, 4))

    def test_a_refused_call_changes_nothing(self):
        session = self.session(SUBSCRIBED, brought("O1", "O2"), brought("O3", agent="A2"))
        refusals = [
            self.refused(2, session.accept, ["O1", "O1"]),
            self.refused(3, session.decline, ["O1", "O9"]),
            self.refused(4, session.accept, ["O1", "O3"]),
            self.refused(5, session.accept, ["O1"], [task("T1"), task("T2", agent="A2")]),
            self.refused(6, session.accept, ["O1", "O2"], [task("T1", cpu=2), task("T2", cpu=0.001)]),
            self.refused(7, session.acknowledge, status()),
        ]
        self.assertEqual([it.index for it in refusals], [None, 1, None, None, None, None])
        self.assertEqual([it.task for it in refusals], [None, None, None, 1, 0, None])
        self.assertEqual([it.resource for it in refusals], [None, None, None, None, 0, None])
        self.assertEqual(([*session.offers], session.entries), (["O1", "O2", "O3"], 3))
        self.assertEqual(refusals[4].line, "refused S6 Exceeds record 4 task 0 resource 0")

    def test_tasks_are_checked_without_a_session(self):
        offers = brought("O1", "O2")["offers"]["offers"]
        mesosev.check_fit(offers, [task("T1", cpu=1), task("T2", cpu=1)])
        mesosev.check_fit("[]", b"[]")
        refusal = self.refused(6, mesosev.check_fit, iter(offers), [task("T1", cpu=1), task("T2", cpu=1.001)])
        self.assertEqual((refusal.name, refusal.entry, refusal.task, refusal.resource), ("Exceeds", 1, 0, 0))
        for arguments, record in ((("{}", []), 1), (([], "[1]"), 2), (([{}], []), 1)):
            with self.assertRaises(mesosev.Fault) as caught:
                mesosev.check_fit(*arguments)
            self.assertEqual((caught.exception.number, caught.exception.record), (12, record))

    def test_an_update_is_acknowledged_once(self):
        session = self.session(SUBSCRIBED, update(), update(task_id="T2", uuid=None))
        self.assertEqual([*session.unacknowledged], [("A1", "T1", UUID)])
        text = session.acknowledge(status())
        self.assertEqual(json.loads(text)["acknowledge"], {name: status()[name] for name in ("agent_id", "task_id", "uuid")})
        self.assertEqual(len(session.unacknowledged), 0)
        session.heard(update())
        session.acknowledge(("A1", "T1", UUID))
        session.heard(update())
        session.acknowledge(session.unacknowledged["A1", "T1", UUID])
        self.refused(7, session.acknowledge, status())

    def test_all_updates_are_acknowledged_in_order(self):
        session, tasks = self.session(SUBSCRIBED), [f"T{it}" for it in range(100)]
        self.assertEqual(session.acknowledge_all(), [])
        session.heard_all(update(task_id=it) for it in tasks)
        self.assertEqual((len(session.unacknowledged), session.entries), (100, 101))
        calls = [json.loads(it) for it in session.acknowledge_all()]
        self.assertEqual([(it["type"], it["framework_id"], it["acknowledge"]["task_id"]["value"]) for it in calls], [("ACKNOWLEDGE", {"value": "F1"}, it) for it in tasks])
        self.assertEqual((len(session.unacknowledged), session.entries), (0, 201))
        session.heard(update())
        session.broken()
        self.refused(1, session.acknowledge_all)

    def test_events_are_heard_at_once(self):
        one, several = self.session(SUBSCRIBED), self.session(SUBSCRIBED)
        # Texts that are no line of JSON Lines, one that is none, and one with a carriage return alone.
        events = [update(), SUBSCRIBED, json.dumps(brought("O1", "O2"), indent=1), b'{"type":"HEARTBEAT"}\r', mesosev.Event(8, b'{"type":"HEARTBEAT"}')]
        for event in events:
            one.heard(event)
        several.heard_all(events[:1])
        several.heard_all(iter(events[1:]))
        several.heard_all([])
        self.assertEqual((several.entries, dict(several.offers), dict(several.unacknowledged)), (one.entries, dict(one.offers), dict(one.unacknowledged)))
        self.assertEqual((several.entries, len(several.offers), len(several.unacknowledged)), (6, 2, 1))
        for wrong in (b"", b"\r", b"{\n}", b"{", {"type": "OFFERS"}):
            with self.assertRaises(mesosev.Fault) as alone:
                one.heard(wrong)
            with self.subTest(wrong=wrong), self.assertRaises(mesosev.Fault) as caught:
                several.heard_all([update(task_id="T9"), wrong, update(task_id="T8")])
            self.assertEqual(caught.exception.line, alone.exception.line)
        self.assertEqual((several.entries, [key[1] for key in several.unacknowledged]), (11, ["T1", "T9"]))
        several.heard_all([b'{"type":"SUBSCRIBED","subscribed":{"framework_id":{"value":"F2"}}}'])
        self.assertEqual(several.framework_id, "F2")

    def test_each_call_is_made(self):
        session = self.session(SUBSCRIBED)
        made = [
            (session.kill("T1"), {"kill": {"task_id": {"value": "T1"}}}),
            (session.kill("T1", "A1"), {"kill": {"task_id": {"value": "T1"}, "agent_id": {"value": "A1"}}}),
            (session.reconcile(), {"reconcile": {}}),
            (session.reconcile([{"task_id": {"value": "T1"}}]), {"reconcile": {"tasks": [{"task_id": {"value": "T1"}}]}}),
            (session.revive(), {}),
            (session.suppress(), {}),
            (session.message("A1", "E1", b"\x00\x01"), {"message": {"agent_id": {"value": "A1"}, "executor_id": {"value": "E1"}, "data": "AAE="}}),
            (session.shutdown("E1", "A1"), {"shutdown": {"executor_id": {"value": "E1"}, "agent_id": {"value": "A1"}}}),
            (session.teardown(), {}),
        ]
        for text, body in made:
            with self.subTest(text=text):
                call = json.loads(text)
                self.assertEqual(call.pop("framework_id"), {"value": "F1"})
                call.pop("type")
                self.assertEqual(call, body)

    def test_a_break_keeps_the_framework_and_the_updates(self):
        session = self.session(SUBSCRIBED, brought("O1"), update())
        session.broken()
        self.assertEqual((session.connected, session.framework_id), (False, "F1"))
        self.assertEqual((len(session.offers), len(session.unacknowledged)), (0, 1))
        self.refused(1, session.acknowledge, status())
        call = json.loads(session.subscribe(FRAMEWORK))
        self.assertEqual(call["subscribe"]["framework_info"]["id"], {"value": "F1"})

    def test_texts_that_are_no_messages_are_faults(self):
        session = self.session()
        for call, text in ((session.heard, b"{"), (session.heard, {"type": "OFFERS"}), (session.said, SUBSCRIBED), (session.subscribe, {})):
            with self.subTest(text=text), self.assertRaises(mesosev.Fault) as caught:
                call(text)
            self.assertIn(caught.exception.number, (11, 12))
        self.assertEqual(session.entries, 0)

    def test_long_texts_are_returned_whole(self):
        session = self.session(SUBSCRIBED, brought(*(f"O{number}" for number in range(2000))))
        self.assertEqual(len(json.loads(session.decline(session.offers))["decline"]["offer_ids"]), 2000)
        self.assertEqual(len(session.offers), 0)

    def test_a_check_changes_nothing(self):
        session = self.session(SUBSCRIBED, brought("O1"))
        call = {"type": "DECLINE", "framework_id": {"value": "F1"}, "decline": {"offer_ids": [{"value": "O1"}]}}
        self.assertEqual(session.check(call), session.check(call))
        self.assertEqual(session.said(call), json.dumps(call, separators=(",", ":")).encode())
        self.refused(3, session.check, call)

    def test_a_log_leads_to_its_session(self):
        file, session = io.BytesIO(), mesosev.Session()
        log = mesosev.Log(file)
        for event in (SUBSCRIBED, brought("O1", "O2"), update()):
            session.heard(event)
            log.heard(event)
        log.said(session.decline(["O1"]))
        again = mesosev.Session.replay(file.getvalue())
        self.assertEqual((again.entries, dict(again.offers), dict(again.unacknowledged)), (4, dict(session.offers), dict(session.unacknowledged)))
        log.broken()
        self.assertFalse(mesosev.Session.replay(file.getvalue()).connected)
        log.said(session.decline(["O2"]))
        with self.assertRaises(mesosev.Refusal) as caught:
            mesosev.Session.replay(file.getvalue())
        self.assertEqual((caught.exception.number, caught.exception.entry), (1, 6))
        with self.assertRaises(mesosev.Fault) as fault:
            mesosev.Session.replay(file.getvalue()[:-1])
        self.assertEqual(fault.exception.number, 10)

    def test_a_closed_session_raises_value_error(self):
        session = self.session(SUBSCRIBED)
        session.close()
        for call in (session.revive, session.broken, lambda: session.offers["O1"]):
            with self.subTest(call=call), self.assertRaises(ValueError):
                call()

    def test_refusals_can_be_copied(self):
        refusal = self.refused(1, self.session().revive)
        for again in (copy.copy(refusal), pickle.loads(pickle.dumps(refusal))):
            self.assertEqual((again.number, again.line, again.name, again.entry), (1, refusal.line, "NotSubscribed", 1))

    def test_sessions_cannot_be_copied(self):
        for make in (copy.copy, copy.deepcopy, pickle.dumps):
            with self.subTest(make=make), self.assertRaises(TypeError):
                make(self.session())


@needs_library
class Logs(unittest.TestCase):
    def test_a_log_is_read_and_continued(self):
        file = io.BytesIO()
        log = mesosev.Log(file)
        log.heard(SUBSCRIBED)
        log.said({"type": "REVIVE", "framework_id": {"value": "F1"}})
        mesosev.Log(file, header=False).broken()
        entries = mesosev.Log.read(file.getvalue())
        self.assertEqual([it.kind for it in entries], ["heard", "said", "broken"])
        self.assertEqual((json.loads(entries[1].text)["type"], entries[2].text), ("REVIVE", b""))
        self.assertEqual(mesosev.Log.replay(file.getvalue()).entries, 3)
        # The session refuses the last call, but it is an entry.
        mesosev.Log(file, header=False).said({"type": "REVIVE", "framework_id": {"value": "F1"}})
        self.assertEqual(len(mesosev.Log.read(file.getvalue())), 4)
        self.assertRaises(mesosev.Fault, mesosev.Log.read, file.getvalue()[:-1])
        self.assertEqual(mesosev.Log.read(b""), [])

    def test_threads_may_write_one_log(self):
        file = io.BytesIO()
        log = mesosev.Log(file)
        threads = [threading.Thread(target=lambda: [log.heard(SUBSCRIBED) for _ in range(500)]) for _ in range(4)]
        for it in threads:
            it.start()
        for it in threads:
            it.join()
        self.assertEqual(len(mesosev.Log.read(file.getvalue())), 2000)

    def test_the_mappings_do_not_read_all_for_one(self):
        session = mesosev.Session()
        session.heard(SUBSCRIBED)
        session.heard(brought("O1", "O2"))
        self.assertEqual((len(session.offers), session.offers["O2"]["id"]["value"], "O3" in session.offers), (2, "O2", False))
        self.assertEqual((session.offers.get(1), session.offers.get("O3"), len(session.unacknowledged)), (None, None, 0))
        self.assertIsNone(session._offers)


@needs_library
class Written(unittest.TestCase):
    def test_an_event_is_written_as_a_record(self):
        self.assertEqual(mesosev.record({"type": "HEARTBEAT"}), b'20\n{"type":"HEARTBEAT"}')
        event = next(mesosev.events(b'21\n{"type": "HEARTBEAT"}'))
        self.assertEqual(mesosev.record(event), b'20\n{"type":"HEARTBEAT"}')
        long = {"type": "ERROR", "error": {"message": "x" * 100_000}}
        self.assertEqual([it.value() for it in mesosev.events(mesosev.record(long))], [long])
        self.assertRaises(mesosev.Fault, mesosev.record, {})

    def test_data_is_written_as_chunks(self):
        self.assertEqual(mesosev.chunk(b"0123456789abcdef"), b"10\r\n0123456789abcdef\r\n")
        self.assertEqual(mesosev.chunk(b""), b"0\r\n\r\n")
        body = mesosev.record({"type": "HEARTBEAT"})
        pieces = [mesosev.chunk(body[at : at + 7]) for at in range(0, len(body), 7)]
        self.assertEqual(mesosev.check(b"".join([*pieces, mesosev.chunk(b"")]), mesosev.CHUNKED).events, 1)


class PlainDecoder:
    """Decodes RecordIO in Python, for tests of connections without the library."""

    def __init__(self):
        self.rest = b""

    def feed(self, data):
        self.rest += data
        while b"\n" in self.rest:
            size, rest = self.rest.split(b"\n", 1)
            if len(rest) < int(size):
                return
            text, self.rest = rest[: int(size)], rest[int(size) :]
            name = json.loads(text)["type"]
            yield mesosev.Event(mesosev._NAMES.index(name) if name in mesosev._NAMES else 0, text)

    def finish(self):
        if self.rest:
            raise mesosev.Fault(10, "")

    def close(self):
        pass


INFO = {"user": "root", "name": "n"}


def offer(number):
    """Returns an offer of four cpus."""
    cpus = {"name": "cpus", "type": "SCALAR", "scalar": {"value": 4}}
    ids = {"id": {"value": f"O{number}"}, "framework_id": {"value": "F1"}, "agent_id": {"value": "S1"}}
    return {**ids, "hostname": "node-1.example", "resources": [cpus]}


def offers(*numbers):
    return {"type": "OFFERS", "offers": {"offers": [offer(number) for number in numbers]}}


def error(message):
    return {"type": "ERROR", "error": {"message": message}}


def connect(url, **options):
    return mesosev.connect(url, INFO, timeout=LIMIT, decoder=PlainDecoder, **options)


def next_of(connection, name):
    """Returns the value of the next event of this type."""
    return next(event.value() for event in connection if event.name == name)


class WithScripts(unittest.TestCase):
    """Tests with shell scripts in place of the command."""

    def script(self, text):
        """Returns the path of a script that accepts every `mesosev check`."""
        folder = tempfile.mkdtemp()
        self.addCleanup(shutil.rmtree, folder)
        path = os.path.join(folder, "mesosev")
        with open(path, "w", encoding="utf-8") as file:
            file.write('#!/bin/sh\nif [ "$1" = check ]; then exit 0; fi\n' + text)
        os.chmod(path, stat.S_IRWXU)
        return path


class Scripts(WithScripts):
    def test_the_options_are_those_of_the_command(self):
        path = self.script('echo listening on 127.0.0.1:1; echo "$*"; exec sleep 600')
        options = {"heartbeat": 1, "resend": 0, "finish_after": 2, "chunk": 3, "once": True, "seconds": 4}
        options |= {"faults": ["lose:3", "busy:1"], "fault_rate": 5, "seed": 6}
        with mesosev.Master(command=path, **options) as master:
            line = master.wait_for_line("master --port")
        self.assertEqual(line, "master --port=0 --heartbeat=1 --resend=0 --finish-after=2 --most=3 --seconds=4 --faults=5 --seed=6 --fault=lose:3 --fault=busy:1 --once")

    def test_a_master_that_ignores_sigterm_is_killed(self):
        path = self.script("trap '' TERM; echo listening on 127.0.0.1:1; while :; do read -r line; done")
        master = mesosev.Master(command=path)
        master._grace = 0
        with master:
            pass
        self.assertEqual(master._process.returncode, -signal.SIGKILL)

    def test_a_master_that_fails_at_its_start_is_reported(self):
        path = self.script("echo first; echo why >&2; exit 7")
        with self.assertRaisesRegex(mesosev.MasterFailed, "status 7\nstandard error:\nwhy\nits last lines:\nfirst$") as raised:
            mesosev.Master(command=path).start()
        self.assertEqual((raised.exception.status, raised.exception.lines), (7, ["first"]))
        self.assertEqual(raised.exception.errors, "why\n")
        copied = pickle.loads(pickle.dumps(raised.exception))
        self.assertEqual(str(copied), str(raised.exception))

    def test_a_master_that_fails_later_is_reported_at_its_end(self):
        path = self.script("echo listening on 127.0.0.1:1; echo why >&2; exit 7")
        with self.assertRaisesRegex(mesosev.MasterFailed, "why"):
            with mesosev.Master(command=path) as master:
                master._reader.join()
                master._process.wait()
        with self.assertRaisesRegex(mesosev.MasterFailed, "why"):
            with mesosev.Master(command=path) as master:
                self.assertRaises(mesosev.MasterFailed, master.wait)
                self.assertRaises(mesosev.MasterFailed, master.wait_for_line, "no such line")
                raise KeyError
        with self.assertRaises(KeyboardInterrupt):
            with mesosev.Master(command=path) as master:
                self.assertRaises(mesosev.MasterFailed, master.wait)
                raise KeyboardInterrupt

    def test_a_command_that_cannot_check_is_reported(self):
        path = self.script("exit 0").replace("mesosev", "other")
        with open(path, "w", encoding="utf-8") as file:
            file.write("#!/bin/sh\necho why; exit 126\n")
        os.chmod(path, stat.S_IRWXU)
        with self.assertRaisesRegex(mesosev.MasterFailed, "status 126\nstandard error:\nwhy"):
            mesosev.Master(command=path).start()

    def test_a_master_that_prints_nothing_is_reported(self):
        path = self.script("exec sleep 600")
        master = mesosev.Master(command=path, timeout=0.5)
        self.assertRaises(TimeoutError, master.start)
        self.assertTrue(master._process is None or master._process.returncode is not None)

    def test_input_that_is_not_read_is_reported(self):
        path = self.script("echo listening on 127.0.0.1:1; exec sleep 600")
        with mesosev.Master(command=path) as master:
            master._timeout = 0
            self.assertRaises(TimeoutError, master._write, bytes(1_000_000))

    def test_the_command_is_found(self):
        path = self.script("exit 0")
        nothing = os.path.join(os.path.dirname(path), "nothing")
        with mock.patch.dict(os.environ, {"MESOSEV": path, "PATH": nothing}):
            self.assertEqual(mesosev._find_command(None), path)
            with self.assertRaisesRegex(FileNotFoundError, "command= is .*/nothing"):
                mesosev.Master(command=nothing).start()
        with mock.patch.dict(os.environ, {"MESOSEV": nothing, "PATH": nothing}):
            self.assertEqual(mesosev._find_command(path), path)
            with self.assertRaisesRegex(FileNotFoundError, "variable MESOSEV is .*/nothing"):
                mesosev.Master().start()
        with mock.patch.dict(os.environ, {"MESOSEV": "", "PATH": os.path.dirname(path)}):
            self.assertEqual(mesosev._find_command(None), path)
        with mock.patch.dict(os.environ, {"MESOSEV": "", "PATH": nothing}):
            with self.assertRaisesRegex(FileNotFoundError, "MESOSEV, or put its folder on the PATH"):
                mesosev.Master().start()


@needs_command
class Masters(unittest.TestCase):
    def start(self, *arguments, **options):
        master = mesosev.Master(*arguments, **options).start()
        self.addCleanup(master.stop)
        return master

    def test_the_master_is_in_the_module_for_tests_too(self):
        from mesosev.testing import Master, MasterFailed

        self.assertEqual((Master, MasterFailed), (mesosev.Master, mesosev.MasterFailed))
        with mesosev.testing.Master() as master:
            self.assertRegex(master.url, r"^http://127\.0\.0\.1:\d+")

    def test_events_can_be_given_in_each_form(self):
        texts = [json.dumps(offers(number)).encode() for number in (1, 2)]
        records = b"".join(map(record, texts))
        forms = {
            "dicts": [offers(1), offers(2)],
            "a generator": (offers(number) for number in (1, 2)),
            "an event": offers(1, 2),
            "events": [mesosev.Event(2, text) for text in texts],
            "RecordIO": records,
            "a memoryview": memoryview(records),
            "a file": io.BytesIO(records),
            "JSON Lines": b"\n".join(texts),
            "JSON Lines with empty lines": b"\n" + b"\r\n\r\n".join(texts) + b"\n",
            "a string": b"\n".join(texts).decode(),
            "a text file": io.StringIO(records.decode()),
        }
        for name, form in forms.items():
            with self.subTest(name), mesosev.Master(form) as master, connect(master.url) as connection:
                found = next_of(connection, "OFFERS")["offers"]["offers"]
                self.assertEqual([it["id"]["value"] for it in found], ["O1", "O2"])

    def test_all_given_events_are_read_before_a_scheduler_can_subscribe(self):
        given = [offers(number) for number in range(1000)]
        with mesosev.Master(given) as master, connect(master.url) as connection:
            self.assertEqual(len(next_of(connection, "OFFERS")["offers"]["offers"]), 1000)

    def test_events_are_sent_while_the_master_runs(self):
        master = self.start()
        with connect(master.address) as connection:
            for number in range(20):
                master.send(error(f"{number}a"))
                master.send([error(f"{number}b"), error("x" * 100_000)])
                found = [next_of(connection, "ERROR")["error"]["message"] for _ in range(3)]
                self.assertEqual(found, [f"{number}a", f"{number}b", "x" * 100_000])

    def test_sent_events_come_before_a_later_subscription(self):
        master = self.start()
        master.send(offers(1))
        with connect(master.url) as connection:
            self.assertEqual([next(connection).name for _ in range(3)], ["SUBSCRIBED", "HEARTBEAT", "OFFERS"])

    def test_the_lines_are_there_while_it_runs_and_after_its_end(self):
        with mesosev.Master(once=True) as master:
            self.assertEqual(master.lines, [f"listening on {master.address}"])
            self.assertEqual(master.url, f"http://{master.address}/api/v1/scheduler")
            with connect(master.url) as connection:
                connection.send("TEARDOWN")
                self.assertEqual(list(connection)[0].name, "SUBSCRIBED")
                self.assertEqual(list(connection), [])
            self.assertEqual(master.wait_for_line(" ended "), f"stream {connection.stream_id} ended teardown")
            master.wait()
        kinds = [line.split()[0] for line in master.lines]
        self.assertEqual(kinds, ["listening", "200", "stream", "202", "stream"])

    def test_a_line_that_does_not_come_is_reported(self):
        master = self.start(seconds=600)
        with self.assertRaisesRegex(TimeoutError, "no line with 'nothing'"):
            master.wait_for_line("nothing", timeout=0)
        with self.assertRaisesRegex(TimeoutError, "has not ended"):
            master.wait(timeout=0)
        master.stop()
        self.assertRaises(mesosev.MasterFailed, master.wait_for_line, "nothing")
        self.assertRaises(mesosev.MasterFailed, master.send, error("x"))

    def test_invalid_events_are_reported(self):
        with self.assertRaisesRegex(ValueError, "fault F12 Field record 2 rescind Missing after"):
            self.start([offers(1), {"type": "RESCIND"}])
        with self.assertRaisesRegex(ValueError, "the event has no text"):
            self.start(mesosev.Event(8, None))
        master = self.start()
        self.assertRaisesRegex(ValueError, "fault F7 ", master.send, b"x")
        master.send(offers(1))
        with connect(master.url) as connection:
            self.assertEqual(len(next_of(connection, "OFFERS")["offers"]["offers"]), 1)

    def test_the_state_has_offers_tasks_and_calls(self):
        master = self.start(offers(1, 2))
        state = master.state()
        self.assertEqual((state["stream"], state["calls"], state["launched"]), (None, 0, []))
        with connect(master.url) as connection:
            next_of(connection, "OFFERS")
            connection.send("REVIVE")
            state = master.state()
            self.assertEqual((state["stream"], state["calls"]), (connection.stream_id, 2))
        self.assertEqual([(it["state"], it["offer"]["id"]["value"]) for it in state["offers"]], [("OUTSTANDING", "O1"), ("OUTSTANDING", "O2")])
        master.stop()
        self.assertRaises(mesosev.MasterFailed, master.state)

    def test_invalid_options_are_reported(self):
        with self.assertRaisesRegex(mesosev.MasterFailed, "status 2\n.*\nerror: invalid value '0' for '--heartbeat"):
            self.start(heartbeat=0)

    def test_a_master_that_is_killed_is_reported(self):
        master = mesosev.Master().start()
        os.kill(master._process.pid, signal.SIGKILL)
        self.assertRaisesRegex(mesosev.MasterFailed, "status -9", master.wait)
        self.assertRaisesRegex(mesosev.MasterFailed, "status -9", master.send, error("x"))
        self.assertRaisesRegex(mesosev.MasterFailed, "status -9", master.stop)
        master.stop()

    def test_a_master_ends_with_its_test(self):
        with self.assertRaises(KeyError):
            with mesosev.Master() as master:
                raise KeyError
        self.assertEqual(master._process.returncode, -signal.SIGTERM)
        self.assertRaises(RuntimeError, master.start)

    def test_a_master_that_was_not_started_is_reported(self):
        master = mesosev.Master()
        for call in (lambda: master.url, master.wait, master.state, lambda: master.send(error("x")), lambda: master.wait_for_line("x")):
            self.assertRaisesRegex(RuntimeError, "not started", call)
        master.stop()
        self.assertEqual(master.lines, [])


@needs_command
class Connections(unittest.TestCase):
    def test_a_task_runs(self):
        with mesosev.Master(offers(1), once=True, finish_after=0) as master, connect(master.url) as connection:
            states = []
            for event in connection.events():
                if event.name == "OFFERS" and not states:
                    (found,) = event.value()["offers"]["offers"]
                    task = {"name": "t", "task_id": {"value": "T1"}, "agent_id": found["agent_id"]}
                    operation = {"type": "LAUNCH", "launch": {"task_infos": [task]}}
                    connection.send("ACCEPT", offer_ids=[found["id"]], operations=[operation])
                elif event.name == "UPDATE":
                    status = event.value()["update"]["status"]
                    connection.send("ACKNOWLEDGE", **{name: status[name] for name in ("agent_id", "task_id", "uuid")})
                    states.append(status["state"])
                    if status["state"] == "TASK_FINISHED":
                        connection.send("TEARDOWN")
            self.assertEqual(states, ["TASK_STARTING", "TASK_RUNNING", "TASK_FINISHED"])
            self.assertEqual(connection.framework_id, "F1")
            master.wait()

    @needs_library
    def test_a_session_and_a_log_follow_a_connection(self):
        file, session = io.BytesIO(), mesosev.Session()
        log = mesosev.Log(file)
        with mesosev.Master(offers(1, 2)) as master, mesosev.connect(master.url, INFO, timeout=LIMIT, session=session, log=log) as connection:
            next_of(connection, "OFFERS")
            (first, second) = session.offers
            connection.send("DECLINE", offer_ids=[{"value": first}])
            self.assertEqual([*session.offers], [second])
            self.assertRaises(mesosev.Refusal, connection.send, "DECLINE", offer_ids=[{"value": first}])
            connection.post(session.revive())
            connection.reconnect()
            self.assertEqual((session.connected, len(session.offers)), (False, 0))
            next_of(connection, "SUBSCRIBED")
            self.assertTrue(session.connected)
            again = mesosev.Session.replay(file.getvalue())
            self.assertEqual((again.entries, dict(again.offers), again.connected), (session.entries, dict(session.offers), True))

    @needs_library
    def test_a_session_and_a_log_are_told_once_of_a_break(self):
        for ends in ("end", "close", "reconnect"):
            file, session = io.BytesIO(), mesosev.Session()
            with mesosev.Master(offers(1), finish_after=1) as master, self.subTest(ends):
                connection = mesosev.connect(master.url, INFO, timeout=LIMIT, session=session, log=mesosev.Log(file))
                next_of(connection, "OFFERS")
                if ends == "end":
                    master.stop()
                    self.assertRaises(mesosev.StreamBroken, list, connection)
                elif ends == "close":
                    connection.close()
                    self.assertRaises(ValueError, connection.post, session.subscribe(INFO))
                else:
                    connection.reconnect()
                self.assertEqual((session.connected, len(session.offers)), (False, 0))
                connection.close()
            kinds = [it.kind for it in mesosev.Log.read(file.getvalue())]
            self.assertEqual(kinds.count("broken"), 2 if ends == "reconnect" else 1, kinds)

    @needs_library
    def test_the_scheduler_with_a_session_runs_a_task(self):
        with mesosev.Master(example("offers.recordio"), once=True) as master:
            words = [sys.executable, "-B", f"{TOP}/examples/scheduler.py", master.address]
            pipes = {"stdout": subprocess.PIPE, "stderr": subprocess.PIPE, "env": {**os.environ, "PYTHONPATH": f"{TOP}/lib"}}
            ran = subprocess.run(words, timeout=LIMIT, check=False, **pipes)
            self.assertEqual((ran.returncode, ran.stdout.decode()), (0, "TASK_STARTING\nTASK_RUNNING\n"), ran.stderr.decode())
            master.wait()

    @needs_library
    def test_the_decoder_of_the_library_is_used(self):
        with mesosev.Master([offers(1), error("x")]) as master:
            for make in (mesosev.Decoder, functools.partial(mesosev.Decoder, limit=mesosev.LIMIT_MOST)):
                with mesosev.connect(master.url, INFO, timeout=LIMIT, decoder=make) as connection:
                    self.assertEqual([next(connection).type for _ in range(3)], [1, 8, 2])
            with mesosev.connect(master.url, INFO, timeout=LIMIT) as connection:
                self.assertEqual((connection.framework_id, next(connection).name), ("F1", "SUBSCRIBED"))

    def test_a_refused_call_is_reported(self):
        with mesosev.Master() as master, connect(master.url) as connection:
            for _ in range(2):
                with self.assertRaisesRegex(mesosev.CallRefused, "^NONE: status 400$") as raised:
                    connection.send("NONE", value=1)
            self.assertEqual((raised.exception.type, raised.exception.status, raised.exception.text), ("NONE", 400, ""))
            connection.send("RECONCILE", tasks=[])
            self.assertRaisesRegex(mesosev.CallRefused, "SUBSCRIBE: status 404", connect, f"{master.url}/other")
            with self.assertRaisesRegex(mesosev.CallRefused, "status 403"):
                mesosev.connect(master.url, {**INFO, "id": {"value": "F2"}}, decoder=PlainDecoder)

    def test_a_framework_subscribes_again(self):
        with mesosev.Master(offers(1)) as master, connect(master.url) as first, connect(master.url) as second:
            self.assertEqual([event.name for event in first][-1], "ERROR")
            self.assertRaisesRegex(mesosev.CallRefused, "status 400", first.send, "REVIVE")
            first.reconnect()
            self.assertEqual(next(first).name, "SUBSCRIBED")
            self.assertEqual(first.stream_id, "00000000-0000-4000-8000-000000000003")
            first.send("REVIVE")
            self.assertEqual(len(next_of(first, "OFFERS")["offers"]["offers"]), 1)
            self.assertEqual([event.name for event in second][-1], "ERROR")

    def test_no_event_is_lost_after_a_break(self):
        with mesosev.Master([error(str(number)) for number in range(50)]) as master, connect(master.url) as connection:
            found = [next_of(connection, "ERROR")["error"]["message"] for _ in range(50)]
            self.assertEqual(found, [str(number) for number in range(50)])

    def test_a_stream_whose_master_dies_is_broken(self):
        master = mesosev.Master().start()
        with connect(master.url) as connection:
            os.kill(master._process.pid, signal.SIGKILL)
            self.assertRaises(mesosev.MasterFailed, master.wait)
            self.assertRaises(mesosev.MasterFailed, master.stop)
            self.assertRaises(mesosev.StreamBroken, list, connection)
            self.assertRaises(mesosev.StreamBroken, list, connection)
            self.assertRaises(OSError, connection.reconnect)
            self.assertRaisesRegex(mesosev.StreamBroken, "subscription failed", list, connection)
            self.assertRaises(OSError, connection.send, "REVIVE")
        self.assertEqual(list(connection), [])

    def test_a_silent_stream_is_broken(self):
        with mesosev.Master(heartbeat=600) as master, connect(master.url) as connection:
            connection._stream.sock.settimeout(0.01)
            with self.assertRaises(mesosev.StreamBroken) as raised:
                list(connection)
            self.assertIsInstance(raised.exception.__cause__, TimeoutError if sys.version_info >= (3, 10) else OSError)
            connection.reconnect()
            self.assertEqual(next(connection).name, "SUBSCRIBED")


class Responses(unittest.TestCase):
    """Connections to a server that sends fixed bytes."""

    SUBSCRIBED = record(b'{"type":"SUBSCRIBED","subscribed":{"framework_id":{"value":"F9"}}}')
    HEAD = b"HTTP/1.1 %s\r\nMesos-Stream-Id: S9\r\nTransfer-Encoding: chunked\r\n\r\n"

    def serve(self, *responses):
        """Returns the address of a server that sends one of these responses on each connection, and then closes it."""
        listener = socket.create_server(("127.0.0.1", 0))
        listener.settimeout(LIMIT)
        self.addCleanup(listener.close)
        self.requests = []

        def respond():
            for response in responses:
                client, _ = listener.accept()
                with client, client.makefile("rb") as file:
                    client.settimeout(LIMIT)
                    head = b"".join(iter(file.readline, b"\r\n")).decode()
                    size = int(head.lower().split("content-length: ")[1].split()[0])
                    self.requests.append((head, json.loads(file.read(size))))
                    client.sendall(response)

        server = threading.Thread(target=respond, daemon=True)
        server.start()
        self.addCleanup(server.join, LIMIT)
        return "127.0.0.1:%d" % listener.getsockname()[1]

    def stream(self, body, end=b"0\r\n\r\n"):
        return self.HEAD % b"200 OK" + chunked(body, 10)[:-5] + end

    def test_a_cut_stream_is_broken(self):
        for end in (b"", b"5\r\n20", b"x", b"5\r\n20\n{\"\r"):
            address = self.serve(self.stream(self.SUBSCRIBED + BEAT, end))
            with connect(address) as connection:
                self.assertEqual([next(connection).name, next(connection).name], ["SUBSCRIBED", "HEARTBEAT"])
                for _ in range(2):
                    self.assertRaises(mesosev.StreamBroken, next, connection)

    def test_an_invalid_stream_has_a_fault(self):
        with connect(self.serve(self.stream(self.SUBSCRIBED + BEAT[:-1]))) as connection:
            self.assertEqual(next(connection).name, "SUBSCRIBED")
            for _ in range(2):
                with self.assertRaises(mesosev.Fault) as raised:
                    next(connection)
                self.assertEqual(raised.exception.number, 10)

    def test_the_framework_id_is_sent_again(self):
        address = self.serve(*[self.stream(self.SUBSCRIBED)] * 3)
        with connect(f"http://{address}/", headers={"Authorization": "Basic eA=="}) as connection:
            self.assertEqual((connection.framework_id, connection.stream_id), ("F9", "S9"))
            connection.reconnect()
            self.assertRaises(mesosev.CallRefused, connection.send, "KILL", task_id={"value": "T1"})
        first, second, kill = (body for _, body in self.requests)
        own = {"value": "F9"}
        self.assertEqual(first, {"type": "SUBSCRIBE", "subscribe": {"framework_info": INFO}})
        self.assertEqual(second, {**first, "framework_id": own, "subscribe": {"framework_info": {**INFO, "id": own}}})
        self.assertEqual(kill, {"type": "KILL", "framework_id": own, "kill": {"task_id": {"value": "T1"}}})
        for head, body in self.requests:
            self.assertIn("POST /api/v1/scheduler HTTP/1.1", head)
            self.assertIn("Authorization: Basic eA==", head)
            self.assertEqual("Mesos-Stream-Id: S9" in head, body["type"] == "KILL")

    def test_the_text_of_a_refusal_is_reported(self):
        address = self.serve(b"HTTP/1.1 307 Moved\r\nContent-Length: 2\r\n\r\nno")
        self.assertRaisesRegex(mesosev.CallRefused, "^SUBSCRIBE: status 307: no$", connect, address)

    def test_a_stream_can_begin_with_another_event(self):
        text = record(b'{"type":"ERROR","error":{"message":"removed"}}')
        with connect(self.serve(self.stream(text))) as connection:
            self.assertRaisesRegex(ValueError, "has not sent SUBSCRIBED", connection.send, "REVIVE")
            self.assertEqual([event.name for event in connection], ["ERROR"])
        with connect(self.serve(self.stream(b""))) as connection:
            self.assertEqual(list(connection), [])

    def test_a_master_that_does_not_listen_is_reported(self):
        with socket.socket() as bound:
            bound.bind(("127.0.0.1", 0))
            self.assertRaises(ConnectionRefusedError, connect, "127.0.0.1:%d" % bound.getsockname()[1])

    def test_the_url_names_a_master(self):
        self.assertEqual(mesosev._endpoint("h:1"), ("h:1", "/api/v1/scheduler"))
        self.assertEqual(mesosev._endpoint("http://h:1/x"), ("h:1", "/x"))
        for url in ("https://h:1", "ftp://h", "http://"):
            self.assertRaises(ValueError, connect, url)


class CommandLine(unittest.TestCase):
    def run_main(self, *arguments, check=None):
        """Returns the status, standard output and standard error of the command line."""
        out, err = io.StringIO(), io.StringIO()
        patched = mock.patch("mesosev.check", check) if check else contextlib.nullcontext()
        with contextlib.redirect_stdout(out), contextlib.redirect_stderr(err), patched:
            try:
                status = mesosev.main(list(arguments))
            except SystemExit as end:
                status = end.code
        return status, out.getvalue(), err.getvalue()

    def fake_check(self, data, framing, limit):
        """Is `check`, for tests without the library."""
        self.asked.append((framing, limit))
        if data == example("broken.recordio"):
            raise mesosev.Fault(12, "fault F12 Field")
        return mesosev.Counts(13, len(data))

    def test_each_file_has_its_line(self):
        self.asked = []
        good, bad = (os.path.join(TOP, "examples", name) for name in ("stream.recordio", "broken.recordio"))
        self.assertEqual(self.run_main(good, check=self.fake_check), (0, "events 13 bytes 4250\n", ""))
        self.assertEqual(self.run_main("--chunked", "--limit", "9", bad, check=self.fake_check), (1, "fault F12 Field\n", ""))
        self.assertEqual(self.asked, [(mesosev.PLAIN, mesosev.LIMIT_USUAL), (mesosev.CHUNKED, 9)])
        missing = os.path.join(TOP, "none")
        status, out, err = self.run_main(bad, missing, good, check=self.fake_check)
        self.assertEqual((status, out), (2, f"{bad}: fault F12 Field\n{good}: events 13 bytes 4250\n"))
        self.assertEqual(err, f"mesosev: {missing}: No such file or directory\n")

    @needs_library
    def test_the_lines_are_those_of_the_library(self):
        good, bad = (os.path.join(TOP, "examples", name) for name in ("stream.chunked", "broken.recordio"))
        self.assertEqual(self.run_main("--chunked", good), (0, "events 13 bytes 4336\n", ""))
        line = "fault F12 Field record 6 update.status.state UnknownName after 3295\n"
        self.assertEqual(self.run_main(bad), (1, line, ""))
        self.assertEqual(self.run_main("--limit", "0", bad)[::2], (2, f"mesosev: {bad}: the limit is not 1 to 67108864\n"))

    def test_usage_errors_have_status_2(self):
        self.assertEqual(self.run_main()[0], 2)
        self.assertEqual(self.run_main("--none", "x")[0], 2)
        status, out, err = self.run_main("--help")
        self.assertEqual((status, err), (0, ""))
        self.assertIn("--chunked", out)

    def run_python(self, *arguments, **environment):
        """Runs Python in this folder. Returns the status, and both outputs."""
        pipes = {"stdout": subprocess.PIPE, "stderr": subprocess.PIPE}
        words = [sys.executable, "-B", *arguments]
        places = {"cwd": f"{TOP}/lib", "env": {**os.environ, **environment}}
        ran = subprocess.run(words, timeout=10 * LIMIT, check=False, **places, **pipes)
        return ran.returncode, ran.stdout.decode(), ran.stderr.decode()

    def test_a_missing_library_is_reported(self):
        path = os.path.join(TOP, "examples", "stream.recordio")
        status, out, err = self.run_python("-m", "mesosev", path, MESOSEV_LIBRARY="/none.so")
        self.assertEqual((status, out), (2, ""))
        self.assertIn(f"mesosev: {path}: decoding needs libmesosev, which cannot be loaded: /none.so", err)
        for code in ("mesosev.connect('127.0.0.1:1', {})", "mesosev.Decoder()", "mesosev.events(b'')", "mesosev.version()"):
            status, _, err = self.run_python("-c", f"import mesosev; {code}", MESOSEV_LIBRARY="/none.so")
            self.assertEqual(status, 1)
            self.assertIn("ImportError: decoding needs libmesosev", err)

    def test_what_is_seldom_needed_is_not_imported(self):
        names = {"pytest", "http.client", "subprocess", "argparse"}
        code = f"import sys, mesosev; print({names} & set(sys.modules))"
        self.assertEqual(self.run_python("-S", "-c", code), (0, "set()\n", ""))


def public_items(owner):
    """Yields the public classes and functions of the module or of a class, and their members."""
    for name, item in vars(owner).items():
        if name.startswith("_") or getattr(item, "__module__", "mesosev") != "mesosev":
            continue
        if inspect.isclass(item) or inspect.isfunction(item) or isinstance(item, property):
            yield f"{owner.__name__}.{name}", item
            if inspect.isclass(item):
                yield from public_items(item)


class Descriptions(unittest.TestCase):
    def test_each_public_item_is_described(self):
        items = dict(public_items(mesosev))
        self.assertIn("Master.send", items)
        self.assertEqual([name for name, item in items.items() if not inspect.getdoc(item)], [])

    @unittest.skipUnless(shutil.which("mypy"), "mypy is not installed")
    def test_the_type_hints_are_valid(self):
        words = ["mypy", "--strict", "--cache-dir=/dev/null", f"{TOP}/lib/mesosev.py"]
        ran = subprocess.run(words, stdout=subprocess.PIPE, stderr=subprocess.STDOUT, timeout=10 * LIMIT, check=False)
        self.assertEqual((ran.returncode, ran.stdout.decode().splitlines()[1:]), (0, []), ran.stdout.decode())


@needs_command
class WithPytest(unittest.TestCase):
    TEST = """
import mesosev
{how}

def test_masters(mesosev_master):
    first, second = mesosev_master(), mesosev_master([{{"type": "HEARTBEAT"}}], once=True)
    assert first.url != second.url
    first.send({{"type": "HEARTBEAT"}})

def test_a_killed_master(mesosev_master):
    process = mesosev_master()._process
    process.kill()
    process.wait()
"""

    @unittest.skipUnless(importlib.util.find_spec("pytest"), "pytest is not installed")
    def test_the_fixture_starts_and_ends_masters(self):
        environment = {**os.environ, "PYTHONPATH": f"{TOP}/lib", "PYTEST_ADDOPTS": "", "PYTEST_DISABLE_PLUGIN_AUTOLOAD": "1"}
        for how in ('pytest_plugins = ["mesosev"]', "from mesosev import mesosev_master"):
            with tempfile.TemporaryDirectory() as folder, self.subTest(how):
                with open(os.path.join(folder, "test_it.py"), "w", encoding="utf-8") as file:
                    file.write(self.TEST.format(how=how))
                words = [sys.executable, "-B", "-m", "pytest", "-q", "-p", "no:cacheprovider", folder]
                places = {"cwd": folder, "env": environment, "stdout": subprocess.PIPE}
                ran = subprocess.run(words, timeout=10 * LIMIT, check=False, **places)
                printed = ran.stdout.decode()
                self.assertRegex(printed, "2 passed, 1 error", printed)
                self.assertIn("`mesosev` ended with status -9", printed)


class Examples(unittest.TestCase):
    def test_the_page_has_the_example(self):
        with open(f"{TOP}/docs/library/python.md", encoding="utf-8") as page:
            is_there = f"```python\n{example('test_scheduler.py').decode()}```\n" in page.read()
        self.assertTrue(is_there, "docs/library/python.md does not have examples/test_scheduler.py unchanged")

    @needs_command
    def test_the_example_runs(self):
        pipes = {"stdout": subprocess.PIPE, "stderr": subprocess.PIPE, "env": {**os.environ, "PYTHONPATH": f"{TOP}/lib"}}
        words = [sys.executable, "-B", f"{TOP}/examples/test_scheduler.py"]
        ran = subprocess.run(words, timeout=10 * LIMIT, check=False, **pipes)
        lines = ["task-O1 TASK_STARTING", "task-O1 TASK_RUNNING", *(f"{name} TASK_LOST" for name in ("T1", "T2", "T3"))]
        self.assertEqual((ran.returncode, sorted(ran.stdout.decode().splitlines())), (0, sorted(lines)), ran.stderr.decode())


if __name__ == "__main__":
    unittest.main()
