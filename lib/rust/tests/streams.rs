//! Streams of all framings and pieces, each fault, and readers that fail.

mod common;

use common::{chunked, example, offer, record, BEAT};
use mesosev::{check, BadLimit, Error, Event, EventKind, Events, Fault, Framing, Options, Place};
use mesosev::{DEFAULT_LIMIT, MAX_LIMIT};
use std::io::{self, ErrorKind, Read};
use std::thread;

/// A reader that returns at most `most` bytes at a time, and at the end this error, if any.
struct Pieces<'a> {
    bytes: &'a [u8],
    most: usize,
    error: Option<ErrorKind>,
}

impl Read for Pieces<'_> {
    fn read(&mut self, buffer: &mut [u8]) -> io::Result<usize> {
        let most = self.most.min(buffer.len());
        match self.error {
            Some(kind) if self.bytes.is_empty() => Err(kind.into()),
            _ => self.bytes.read(&mut buffer[..most]),
        }
    }
}

/// A reader whose first, third, .. reads are interrupted.
struct Interrupted<'a> {
    bytes: &'a [u8],
    is_next: bool,
}

impl Read for Interrupted<'_> {
    fn read(&mut self, buffer: &mut [u8]) -> io::Result<usize> {
        self.is_next = !self.is_next;
        if self.is_next {
            return Err(ErrorKind::Interrupted.into());
        }
        self.bytes.read(&mut buffer[..100])
    }
}

/// Returns the events of a stream, and its fault.
fn decode(bytes: &[u8], most: usize, options: Options) -> (Vec<Event>, Option<Fault>) {
    let mut found = Vec::new();
    let mut events = options.events(Pieces {
        bytes,
        most,
        error: None,
    });
    while let Some(event) = events.next() {
        match event {
            Ok(event) => found.push(event),
            Err(Error::Fault(fault)) => {
                assert!(events.next().is_none() && events.next().is_none());
                return (found, Some(fault));
            }
            Err(error) => panic!("{error}"),
        }
    }
    assert!(events.next().is_none());
    (found, None)
}

fn in_chunks() -> Options {
    Options::new().framing(Framing::Chunked)
}

#[test]
fn the_examples_have_the_same_events_in_each_framing_and_in_pieces_of_each_size() {
    let (plain, body) = (example("stream.recordio"), example("stream.chunked"));
    let (expected, fault) = decode(&plain, usize::MAX, Options::new());
    // The lines of events begin with a number and the type, those of offers with a space.
    let shown = String::from_utf8(example("stream.shown")).unwrap();
    let lines = shown
        .lines()
        .filter(|line| line.starts_with(|it: char| it.is_ascii_digit()));
    let kinds: Vec<_> = lines.filter_map(|line| line.split(' ').nth(1)).collect();
    let found: Vec<_> = expected.iter().map(|event| event.kind.name()).collect();
    assert_eq!((found.len(), found, fault), (13, kinds, None));
    for most in [1, 7, 64, 512, usize::MAX] {
        assert_eq!(
            decode(&plain, most, Options::new()),
            (expected.clone(), None)
        );
        assert_eq!(decode(&body, most, in_chunks()), (expected.clone(), None));
    }
    let counts = check(&plain, Options::new()).unwrap();
    assert_eq!((counts.events, counts.used), (13, 4_250));
    assert_eq!(check(&body, in_chunks()).unwrap().used, 4_336);
}

#[test]
fn the_texts_are_canonical() {
    for event in decode(&example("stream.recordio"), 512, Options::new()).0 {
        assert!(event.text.starts_with(r#"{"type":""#), "{}", event.text);
        assert_eq!(
            mesosev::write_event(&event.text).unwrap(),
            record(&event.text)
        );
    }
}

#[test]
fn a_stream_is_cut_at_each_byte() {
    let bytes = example("stream.chunked");
    let (expected, _) = decode(&bytes, usize::MAX, in_chunks());
    for at in 0..=bytes.len() {
        let (first, second) = bytes.split_at(at);
        let found: Result<Vec<_>, _> = in_chunks().events(first.chain(second)).collect();
        assert_eq!(found.unwrap(), expected, "cut at {at}");
    }
}

#[test]
fn a_fault_follows_the_events_before_it() {
    for most in [1, 100, usize::MAX] {
        let (events, fault) = decode(&example("broken.recordio"), most, Options::new());
        let fault = fault.unwrap();
        let path = Place::Path("update.status.state".to_owned());
        assert_eq!((events.len(), fault.number, fault.name), (5, 12, "Field"));
        assert_eq!((fault.record, fault.used), (Some(6), Some(3_295)));
        assert_eq!(
            (fault.place, fault.why),
            (Some(path), Some("UnknownName".to_owned()))
        );
    }
}

#[test]
fn each_fault_of_the_bytes_is_reported() {
    let beat = |rest: &str| format!("{BEAT}{rest}").into_bytes();
    let (plain, small) = (Options::new(), Options::new().limit(19).unwrap());
    let trailers = "0\r\n".to_owned() + &"a:b\r\n".repeat(1_000);
    // The number of the fault, the number of events before it, and the stream.
    let cases = [
        (1, 0, in_chunks(), b"x".to_vec()),
        (2, 0, in_chunks(), format!("1;{}", " ".repeat(300)).into()),
        (3, 0, in_chunks(), b"1".repeat(17)),
        (4, 0, in_chunks(), b"1\r\n2x".to_vec()),
        (5, 0, in_chunks(), trailers.into()),
        (6, 0, in_chunks(), b"1\r\n2".to_vec()),
        (6, 0, in_chunks(), Vec::new()),
        (7, 1, plain, beat("-")),
        (8, 1, plain, beat(&"0".repeat(21))),
        (9, 0, small, beat("")),
        (10, 1, plain, beat(&BEAT[..22])),
        (10, 1, in_chunks(), chunked(&BEAT.repeat(2)[..45], 7)),
        (11, 1, plain, beat(&record("{]"))),
        (12, 2, plain, beat(&format!("{BEAT}{}", record("{}")))),
    ];
    for (number, count, options, bytes) in cases {
        let checked = check(&bytes, options).unwrap_err();
        let start = format!("fault F{number} {} ", checked.name);
        assert!(checked.line().starts_with(&start), "{checked}");
        for most in [1, usize::MAX] {
            let (events, fault) = decode(&bytes, most, options);
            assert_eq!((events.len(), fault.as_ref()), (count, Some(&checked)));
        }
    }
}

#[test]
fn a_text_fault_has_an_offset() {
    let (_, fault) = decode(record("{]").as_bytes(), 1, Options::new());
    let fault = fault.unwrap();
    assert_eq!(
        (fault.place, fault.why.as_deref()),
        (Some(Place::Byte(1)), Some("Byte"))
    );
}

#[test]
fn more_events_than_one_call_decodes_are_returned_in_order() {
    let text = |number| format!(r#"{{"type":"ERROR","error":{{"message":"{number}"}}}}"#);
    // 512 is the most of one call, and these records fill several reads.
    for count in [511, 512, 513, 1_024, 5_000] {
        let stream: String = (0..count).map(|number| record(&text(number))).collect();
        let (events, fault) = decode(stream.as_bytes(), usize::MAX, Options::new());
        assert_eq!((events.len(), fault), (count, None));
        for (number, event) in events.iter().enumerate() {
            assert_eq!((event.kind, &event.text), (EventKind::Error, &text(number)));
        }
    }
}

#[test]
fn streams_without_events_end() {
    assert_eq!(decode(b"", 1, Options::new()), (Vec::new(), None));
    assert_eq!(decode(b"0\r\n\r\n", 1, in_chunks()), (Vec::new(), None));
}

#[test]
fn a_reader_that_fails_ends_the_events() {
    let bytes = example("stream.recordio");
    for (length, count) in [(0, 0), (4_000, 11), (bytes.len(), 13)] {
        let reader = Pieces {
            bytes: &bytes[..length],
            most: 1_000,
            error: Some(ErrorKind::TimedOut),
        };
        let mut events = Events::new(reader);
        assert_eq!(
            events.by_ref().take(count).filter(Result::is_ok).count(),
            count
        );
        match events.next() {
            Some(Err(Error::Io(error))) => assert_eq!(error.kind(), ErrorKind::TimedOut),
            other => panic!("{other:?}"),
        }
        assert!(events.next().is_none() && events.next().is_none());
    }
}

#[test]
fn an_interrupted_read_is_repeated() {
    let bytes = example("stream.recordio");
    let events = Events::new(Interrupted {
        bytes: &bytes,
        is_next: false,
    });
    assert_eq!(events.filter(Result::is_ok).count(), 13);
}

#[test]
fn an_event_is_returned_before_the_next_read() {
    // The reader fails after the first record: that event comes first.
    let reader = Pieces {
        bytes: BEAT.as_bytes(),
        most: 100,
        error: Some(ErrorKind::WouldBlock),
    };
    let first = Events::new(reader).next();
    assert_eq!(first.unwrap().unwrap().kind, EventKind::Heartbeat);
}

#[test]
fn bytes_after_a_chunked_body_are_not_used() {
    let body = [&chunked(BEAT, 7)[..], b"HTTP/1.1"].concat();
    let mut events = in_chunks().events(&body[..]);
    assert_eq!(events.by_ref().filter(Result::is_ok).count(), 1);
    assert_eq!(events.unused(), b"HTTP/1.1");
    assert!(events.into_inner().is_empty());
    assert_eq!(
        check(&body, in_chunks()).unwrap().used,
        body.len() as u64 - 8
    );
    // One byte was read at a time, so the rest is in the reader.
    let mut events = in_chunks().events(Pieces {
        bytes: &body,
        most: 1,
        error: None,
    });
    assert!(events.by_ref().all(|event| event.is_ok()));
    assert!(events.unused().is_empty());
    assert_eq!(events.into_inner().bytes, b"HTTP/1.1");
}

#[test]
fn limits_are_checked() {
    assert_eq!(Options::new(), Options::new().limit(DEFAULT_LIMIT).unwrap());
    assert!(Options::new().limit(1).is_ok() && Options::new().limit(MAX_LIMIT).is_ok());
    for limit in [0, MAX_LIMIT + 1, u32::MAX] {
        let error: BadLimit = Options::new().limit(limit).unwrap_err();
        assert_eq!(error.to_string(), "the limit is not 1 to 67108864");
    }
    let exact = Options::new().limit(20).unwrap();
    assert_eq!(decode(BEAT.as_bytes(), 1, exact).0.len(), 1);
}

#[test]
fn other_types_have_their_name_in_the_text() {
    let stream = record(r#"{"type":"INVERSE_OFFERS","x":1}"#);
    let (events, _) = decode(stream.as_bytes(), 1, Options::new());
    assert_eq!(
        (events[0].kind, events[0].kind.to_string()),
        (EventKind::Other, "OTHER".to_owned())
    );
    assert_eq!(events[0].text, r#"{"type":"INVERSE_OFFERS"}"#);
}

#[test]
fn an_event_whose_text_nests_too_deep_has_an_empty_text() {
    // The list of offers is an array here. In a canonical text it is in an object, so that the
    // text nests 129 deep.
    let deep = format!(r#""disk":{{"a":{}{}}}"#, "[".repeat(122), "]".repeat(122));
    let offer = offer("O1", "A1").replace(r#""scalar""#, &format!(r#"{deep},"scalar""#));
    let stream = record(&format!(r#"{{"type":"OFFERS","offers":[{offer}]}}"#)) + BEAT;
    let (events, fault) = decode(stream.as_bytes(), usize::MAX, Options::new());
    assert_eq!((events.len(), fault), (2, None));
    assert_eq!(
        (events[0].kind, events[0].text.as_str()),
        (EventKind::Offers, "")
    );
    assert_eq!(events[1].text, r#"{"type":"HEARTBEAT"}"#);
}

#[test]
fn events_are_decoded_on_several_threads() {
    let bytes = example("stream.recordio");
    let mut events = Events::new(&bytes[..]);
    assert!(events.next().unwrap().is_ok());
    thread::scope(|scope| {
        // These events move to another thread between two items.
        let moved = scope.spawn(move || events.filter(Result::is_ok).count());
        let other = scope.spawn(|| Events::new(&bytes[..]).filter(Result::is_ok).count());
        assert_eq!((moved.join().unwrap(), other.join().unwrap()), (12, 13));
    });
}

#[test]
fn a_thousand_iterators_are_open_at_once() {
    let bytes = BEAT.repeat(3);
    let mut all: Vec<_> = (0..1_000).map(|_| Events::new(bytes.as_bytes())).collect();
    for _ in 0..3 {
        assert!(all.iter_mut().all(|events| events.next().unwrap().is_ok()));
    }
    assert!(all.iter_mut().all(|events| events.next().is_none()));
}
