//! Decodes the event stream of the Apache Mesos v1 scheduler HTTP API, and checks the calls of a
//! scheduler, with the proved library libmesosev.
//!
//! ```no_run
//! use std::fs::File;
//!
//! for event in mesosev::Events::new(File::open("stream.recordio")?) {
//!     let event = event?;
//!     println!("{} {}", event.kind, event.text);
//! }
//! # Ok::<(), Box<dyn std::error::Error>>(())
//! ```
//!
//! - [`Events`] decodes a reader. [`Options`] sets the framing and the record limit.
//! - [`Session`] knows the outstanding offers and the unacknowledged updates, and refuses calls
//!   that a framework may not make.
//! - [`log`] makes the records of a session log. [`write_event`] and [`write_chunk`] make a stream.
//! - [`check()`], [`call()`] and [`fits`] check a stream, a call and tasks on offers.
//!
//! The library is proved, and this crate is not. All its unsafe code is in one module, with the
//! obligation of mesosev.h that each call meets. One obligation is left to you: a call needs 64 KiB
//! of stack on its thread, far less than a thread has by default. Buffers of this crate that cannot
//! be allocated abort the program, as in the standard library.

#![deny(missing_docs)]
#![deny(unsafe_code)]
#![deny(unsafe_op_in_unsafe_fn)]
#![deny(clippy::undocumented_unsafe_blocks)]

mod errors;
mod events;
mod ffi;
#[allow(unsafe_code)]
mod library;
pub mod log;
mod session;

pub use errors::{BadLimit, Error, Fault, Place, Refusal, SessionError};
pub use events::{Event, EventKind, Events, Framing, Options, DEFAULT_LIMIT, MAX_LIMIT};
pub use session::Session;

use library::Room;

/// Returns the version of the library, such as `0.1.0`.
pub fn version() -> &'static str {
    library::version()
}

/// The size of a stream.
#[derive(Clone, Copy, Debug, PartialEq, Eq)]
pub struct Counts {
    /// The number of events.
    pub events: u64,
    /// The number of bytes that were used, up to the end of the stream.
    pub used: u64,
}

/// Decodes a whole stream, and returns its counts. Bytes after the end of a chunked body are not
/// used.
///
/// ```
/// use mesosev::{check, Options};
///
/// let counts = check(b"20\n{\"type\":\"HEARTBEAT\"}", Options::new())?;
/// assert_eq!((counts.events, counts.used), (1, 23));
/// # Ok::<(), mesosev::Fault>(())
/// ```
///
/// # Errors
///
/// Returns the first fault.
pub fn check(stream: impl AsRef<[u8]>, options: Options) -> Result<Counts, Fault> {
    let (limit, framing) = (options.limit, options.framing.number());
    let (events, used) = library::check(stream.as_ref(), limit, framing)?;
    Ok(Counts { events, used })
}

/// Decodes a scheduler's call, given by its JSON text, and returns its canonical text. A
/// [`Session`] also checks whether the call is allowed.
///
/// ```
/// let call = mesosev::call(r#" {"framework_id" : {"value":"F1"}, "type" : "REVIVE"}"#)?;
/// assert_eq!(call, r#"{"type":"REVIVE","framework_id":{"value":"F1"}}"#);
/// # Ok::<(), mesosev::SessionError>(())
/// ```
///
/// # Errors
///
/// Returns a fault if the text is no call, or `NoText`.
pub fn call(call: impl AsRef<[u8]>) -> Result<String, SessionError> {
    log::text_of(library::CALL, call.as_ref())
}

/// Checks, without a session, whether tasks fit the offers on which they would be launched. Both
/// are JSON arrays: of offers, and of TaskInfos.
///
/// ```
/// use mesosev::{fits, SessionError};
///
/// let offers = r#"[{"id":{"value":"O1"},"framework_id":{"value":"F1"},"agent_id":{"value":"A1"},
///     "hostname":"h","resources":[{"name":"cpus","type":"SCALAR","scalar":{"value":2}}]}]"#;
/// let tasks = r#"[{"name":"t","task_id":{"value":"T1"},"agent_id":{"value":"A1"},
///     "resources":[{"name":"cpus","type":"SCALAR","scalar":{"value":2}}]}]"#;
/// fits(offers, tasks)?;
/// let error = fits(offers, tasks.replace("2", "2.001")).unwrap_err();
/// assert_eq!(error.to_string(), "refused S6 Exceeds record 1 task 0 resource 0");
/// # Ok::<(), SessionError>(())
/// ```
///
/// # Errors
///
/// Returns refusal S6 if they do not fit; and a fault if a text is no such array, in record 1 for
/// the offers and record 2 for the tasks.
pub fn fits(offers: impl AsRef<[u8]>, tasks: impl AsRef<[u8]>) -> Result<(), SessionError> {
    library::fits(offers.as_ref(), tasks.as_ref())
}

/// Returns the record of an event in a stream, for programs that send events. The event is given
/// by its JSON text; the record has its canonical text.
///
/// ```
/// assert_eq!(mesosev::write_event(r#"{ "type": "HEARTBEAT" }"#)?, "20\n{\"type\":\"HEARTBEAT\"}");
/// # Ok::<(), mesosev::SessionError>(())
/// ```
///
/// # Errors
///
/// Returns a fault if the text is no event, or `NoText`.
pub fn write_event(event: impl AsRef<[u8]>) -> Result<String, SessionError> {
    log::text_of(library::WRITE_EVENT, event.as_ref())
}

/// Returns bytes as a chunk of a chunked HTTP body (RFC 9112, section 7.1). Without bytes that is
/// the last chunk, which ends the body.
///
/// ```
/// let record = mesosev::write_event(r#"{"type":"HEARTBEAT"}"#)?;
/// let body = [mesosev::write_chunk(record)?, mesosev::write_chunk("")?].concat();
/// assert_eq!(body, b"17\r\n20\n{\"type\":\"HEARTBEAT\"}\r\n0\r\n\r\n");
/// # Ok::<(), mesosev::SessionError>(())
/// ```
///
/// # Errors
///
/// Returns fault F13 if an allocation fails.
pub fn write_chunk(bytes: impl AsRef<[u8]>) -> Result<Vec<u8>, SessionError> {
    let mut room = Room::beside(bytes.as_ref());
    let chunk = library::WRITE_CHUNK.ask(bytes.as_ref(), &mut room)?;
    Ok(chunk.to_vec())
}
