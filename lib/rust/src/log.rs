//! The records of a session log of version 2, which `mesosev replay` and [`Session::replay`] read.
//!
//! A log is the header, and then a record for each event that was received, each call that was sent
//! and each break of the stream, in order. Write each record to the log as it is.
//!
//! ```
//! use mesosev::{log, Session};
//!
//! let mut file = log::header()?;
//! file += &log::event(r#"{"type":"SUBSCRIBED","subscribed":{"framework_id":{"value":"F1"}}}"#)?;
//! file += &log::call(r#"{"type":"REVIVE","framework_id":{"value":"F1"}}"#)?;
//! file += &log::broken()?;
//! let session = Session::replay(&file)?;
//! assert_eq!((session.entries(), session.connected()), (3, false));
//! # Ok::<(), mesosev::SessionError>(())
//! ```
//!
//! [`Session::replay`]: crate::Session::replay

use crate::errors::SessionError;
use crate::library::{self, str_of, OfBytes, OfNothing, Room};

/// Returns the header of a log, its first record.
///
/// # Errors
///
/// Returns fault F13 if an allocation fails.
pub fn header() -> Result<String, SessionError> {
    record(library::LOG_HEADER)
}

/// Returns the record of an event that was received, given by its JSON text.
///
/// # Errors
///
/// Returns a fault if the text is no event, or `NoText` if its canonical text fits no record.
pub fn event(event: impl AsRef<[u8]>) -> Result<String, SessionError> {
    text_of(library::LOG_EVENT, event.as_ref())
}

/// Returns the record of a call that was sent, given by its JSON text.
///
/// # Errors
///
/// Returns a fault if the text is no call, or `NoText` if its canonical text fits no record.
pub fn call(call: impl AsRef<[u8]>) -> Result<String, SessionError> {
    text_of(library::LOG_CALL, call.as_ref())
}

/// Returns the record of a break of the stream.
///
/// # Errors
///
/// Returns fault F13 if an allocation fails.
pub fn broken() -> Result<String, SessionError> {
    record(library::LOG_BROKEN)
}

fn record(function: OfNothing) -> Result<String, SessionError> {
    let mut room = Room::new();
    let text = function.ask(&mut room)?;
    Ok(str_of(text).to_owned())
}

pub(crate) fn text_of(function: OfBytes, bytes: &[u8]) -> Result<String, SessionError> {
    let mut room = Room::beside(bytes);
    let text = function.ask(bytes, &mut room)?;
    Ok(str_of(text).to_owned())
}
