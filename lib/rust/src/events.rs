//! The events of a stream.

use crate::errors::{BadLimit, Error, Fault};
use crate::ffi;
use crate::library::Decoder;
use std::fmt;
use std::io::{ErrorKind, Read};
use std::iter::FusedIterator;
use std::ops::Range;

/// The record limit in bytes if none is given.
pub const DEFAULT_LIMIT: u32 = ffi::MES_LIMIT_USUAL;

/// The largest record limit in bytes.
pub const MAX_LIMIT: u32 = ffi::MES_LIMIT_MOST;

/// The most bytes of one read.
const MAX_READ: usize = 65_536;

/// The type of an event.
#[derive(Clone, Copy, Debug, PartialEq, Eq, Hash)]
#[non_exhaustive]
pub enum EventKind {
    /// A type that is not one of those below. Its name is in the text.
    Other,
    /// The framework is subscribed.
    Subscribed,
    /// Offers of resources.
    Offers,
    /// An offer is no longer valid.
    Rescind,
    /// The status of a task.
    Update,
    /// Bytes of an executor.
    Message,
    /// An agent or an executor has failed.
    Failure,
    /// The framework has failed.
    Error,
    /// A sign of life.
    Heartbeat,
}

impl EventKind {
    /// Returns the name in the member `type` of an event, for example `UPDATE`; of
    /// [`EventKind::Other`] `OTHER`.
    pub fn name(self) -> &'static str {
        match self {
            EventKind::Other => "OTHER",
            EventKind::Subscribed => "SUBSCRIBED",
            EventKind::Offers => "OFFERS",
            EventKind::Rescind => "RESCIND",
            EventKind::Update => "UPDATE",
            EventKind::Message => "MESSAGE",
            EventKind::Failure => "FAILURE",
            EventKind::Error => "ERROR",
            EventKind::Heartbeat => "HEARTBEAT",
        }
    }

    /// Returns the type with a number of mesosev.h.
    fn of(number: u32) -> EventKind {
        match number {
            1 => EventKind::Subscribed,
            2 => EventKind::Offers,
            3 => EventKind::Rescind,
            4 => EventKind::Update,
            5 => EventKind::Message,
            6 => EventKind::Failure,
            7 => EventKind::Error,
            8 => EventKind::Heartbeat,
            _ => EventKind::Other,
        }
    }
}

impl fmt::Display for EventKind {
    fn fmt(&self, formatter: &mut fmt::Formatter<'_>) -> fmt::Result {
        formatter.pad(self.name())
    }
}

/// An event of a stream.
#[derive(Clone, Debug, PartialEq, Eq)]
pub struct Event {
    /// The type.
    pub kind: EventKind,
    /// The canonical JSON text. It is empty if the text would have more than 67,108,864 bytes or
    /// nest more than 128 deep, or if an allocation failed for it.
    pub text: String,
}

/// How records are put into bytes.
#[derive(Clone, Copy, Debug, Default, PartialEq, Eq, Hash)]
pub enum Framing {
    /// Concatenated records (RecordIO), such as the body that an HTTP client returns.
    #[default]
    Plain,
    /// Records in a chunked HTTP body (RFC 9112, section 7.1), such as the bytes of a socket.
    Chunked,
}

impl Framing {
    pub(crate) fn number(self) -> u32 {
        match self {
            Framing::Plain => ffi::MES_PLAIN,
            Framing::Chunked => ffi::MES_CHUNKED,
        }
    }
}

/// The options with which a stream is decoded: the framing and the record limit.
///
/// ```
/// use mesosev::{Framing, Options};
///
/// let body = b"17\r\n20\n{\"type\":\"HEARTBEAT\"}\r\n0\r\n\r\n";
/// let options = Options::new().framing(Framing::Chunked).limit(1_000)?;
/// let events: Vec<_> = options.events(&body[..]).collect::<Result<_, _>>()?;
/// assert_eq!(events[0].text, r#"{"type":"HEARTBEAT"}"#);
/// # Ok::<(), Box<dyn std::error::Error>>(())
/// ```
#[derive(Clone, Copy, Debug, PartialEq, Eq)]
pub struct Options {
    pub(crate) framing: Framing,
    pub(crate) limit: u32,
}

impl Options {
    /// Returns the options [`Framing::Plain`] and [`DEFAULT_LIMIT`].
    pub fn new() -> Options {
        Options {
            framing: Framing::Plain,
            limit: DEFAULT_LIMIT,
        }
    }

    /// Sets the framing.
    #[must_use]
    pub fn framing(self, framing: Framing) -> Options {
        Options { framing, ..self }
    }

    /// Sets the largest size of a record in bytes. A larger record is fault F9.
    ///
    /// # Errors
    ///
    /// Returns `BadLimit` if the limit is not 1 to [`MAX_LIMIT`].
    pub fn limit(self, limit: u32) -> Result<Options, BadLimit> {
        if (1..=MAX_LIMIT).contains(&limit) {
            Ok(Options { limit, ..self })
        } else {
            Err(BadLimit)
        }
    }

    /// Returns an iterator over the events of a reader.
    pub fn events<R: Read>(self, reader: R) -> Events<R> {
        Events {
            reader,
            decoder: Decoder::new(self.limit, self.framing.number()),
            buffer: vec![0; MAX_READ].into_boxed_slice(),
            rest: 0..0,
            step: Step::Read,
        }
    }
}

impl Default for Options {
    fn default() -> Options {
        Options::new()
    }
}

/// What an iterator does once its decoded events are taken.
#[derive(Clone, Copy, Debug, PartialEq, Eq)]
enum Step {
    Read,
    Decode,
    Finish,
    End,
}

/// An iterator over the events of a reader.
///
/// It reads at most 65,536 bytes at a time, and only when the events of the bytes before are taken.
/// So an event is returned with the read that ends its record. After the end of the stream, or
/// after the first error, it returns `None` for ever. An error follows the events before it:
///
/// - [`Error::Fault`] if the stream has a fault, or ends inside a record or a chunked body.
/// - [`Error::Io`] if the reader fails. A read that was interrupted is repeated; a timeout is an
///   error like any other.
///
/// It may be sent to another thread if the reader may.
///
/// ```
/// use mesosev::{EventKind, Events};
///
/// let stream = "20\n{\"type\":\"HEARTBEAT\"}31\n{\"type\":\"RESCIND\",\"rescind\":{}}";
/// let mut events = Events::new(stream.as_bytes());
/// assert_eq!(events.next().unwrap()?.kind, EventKind::Heartbeat);
/// let fault = events.next().unwrap().unwrap_err();
/// assert_eq!(fault.to_string(), "fault F12 Field record 2 rescind.offer_id Missing after 57");
/// assert!(events.next().is_none());
/// # Ok::<(), mesosev::Error>(())
/// ```
#[must_use = "events are decoded only when they are asked for"]
pub struct Events<R> {
    reader: R,
    /// `None` if the decoder could not be allocated.
    decoder: Option<Decoder>,
    buffer: Box<[u8]>,
    /// The bytes of the buffer that are not decoded yet.
    rest: Range<usize>,
    step: Step,
}

impl<R: Read> Events<R> {
    /// Returns an iterator over the events of a reader: concatenated records of at most
    /// [`DEFAULT_LIMIT`] bytes. [`Options`] has other framings and limits.
    pub fn new(reader: R) -> Events<R> {
        Options::new().events(reader)
    }

    /// Does the next step, when all decoded events are taken.
    fn advance(&mut self) -> Result<(), Error> {
        let decoder = self.decoder.as_mut().ok_or_else(Fault::no_memory)?;
        match self.step {
            Step::Read => {
                let count = read(&mut self.reader, &mut self.buffer)?;
                self.rest = 0..count;
                self.step = if count == 0 {
                    Step::Finish
                } else {
                    Step::Decode
                };
            }
            Step::Decode => {
                let (status, used) = decoder.decode(&self.buffer[self.rest.clone()]);
                self.rest.start += used;
                self.step = match status {
                    ffi::MES_MORE => Step::Read,
                    ffi::MES_EVENT if self.rest.is_empty() => Step::Read,
                    ffi::MES_EVENT => Step::Decode,
                    _ => Step::Finish,
                };
            }
            Step::Finish => {
                self.step = Step::End;
                decoder.finish()?;
            }
            Step::End => {}
        }
        Ok(())
    }
}

impl<R> Events<R> {
    /// Returns the bytes that were read after the end of a chunked body, or after the byte of a
    /// fault. There are none before the iterator has ended.
    pub fn unused(&self) -> &[u8] {
        match self.step {
            Step::End => &self.buffer[self.rest.clone()],
            _ => &[],
        }
    }

    /// Returns the reader. Bytes that were read and not used are lost.
    pub fn into_inner(self) -> R {
        self.reader
    }
}

impl<R: Read> Iterator for Events<R> {
    type Item = Result<Event, Error>;

    fn next(&mut self) -> Option<Result<Event, Error>> {
        loop {
            if let Some((number, text)) = self.decoder.as_mut().and_then(Decoder::take) {
                let (kind, text) = (EventKind::of(number), text.to_owned());
                return Some(Ok(Event { kind, text }));
            }
            if self.step == Step::End {
                return None;
            }
            if let Err(error) = self.advance() {
                self.step = Step::End;
                return Some(Err(error));
            }
        }
    }
}

impl<R: Read> FusedIterator for Events<R> {}

impl<R: fmt::Debug> fmt::Debug for Events<R> {
    fn fmt(&self, formatter: &mut fmt::Formatter<'_>) -> fmt::Result {
        let mut shown = formatter.debug_struct("Events");
        shown
            .field("reader", &self.reader)
            .field("step", &self.step);
        shown.finish_non_exhaustive()
    }
}

/// Reads bytes, again if the read was interrupted. Returns their number.
fn read(reader: &mut impl Read, buffer: &mut [u8]) -> Result<usize, Error> {
    loop {
        match reader.read(buffer) {
            Err(error) if error.kind() == ErrorKind::Interrupted => {}
            read => return Ok(read?),
        }
    }
}
