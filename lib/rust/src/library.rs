//! The functions of mesosev.h as safe functions. All unsafe code of the crate is in this module.
//!
//! Three obligations of mesosev.h concern every call:
//! - "The calling thread has 64 KiB of stack left": the documentation of the crate requires it.
//! - "malloc, realloc and free belong to one allocator": they are those of the C library that `std`
//!   uses too.
//! - "No call is made from a signal handler, or in the child after a fork": a program needs unsafe
//!   code of its own for either.
//!
//! The comments at the calls name the others. A text, its room and its size are always those of
//! [`Room::ask`], whose buffer and variable are "writable, aligned and separate from all other
//! arguments", since they are borrowed mutably.

mod decoder;
mod session;

pub(crate) use decoder::Decoder;
pub(crate) use session::{
    Handle, ACKNOWLEDGE, CHECK, HEARD, OFFER, OFFER_AT, OFFER_COUNT, OWED_AT, OWED_COUNT, SAID,
    SUBSCRIBE,
};

use crate::errors::{Fault, SessionError};
use crate::ffi;
use std::ffi::CStr;
use std::os::raw::c_char;
use std::str;

/// The initial size of a buffer for texts, in bytes. Each line of a fault or a refusal fits.
const FIRST_ROOM: usize = 4_096;

const _: () = assert!(FIRST_ROOM >= ffi::MES_LINE_ROOM);

/// Returns the version of the library.
pub(crate) fn version() -> &'static str {
    // SAFETY: only the obligations of every call. The version is a constant that a NUL ends.
    let text = unsafe { CStr::from_ptr(ffi::mes_version()) };
    str_of(text.to_bytes())
}

/// Returns a text of the library. Its texts are UTF-8.
pub(crate) fn str_of(text: &[u8]) -> &str {
    str::from_utf8(text).expect("the texts of libmesosev are UTF-8")
}

/// The parameters `text`, `room` and `size` of the library: a buffer for the text or the line.
pub(crate) struct Room {
    bytes: Vec<u8>,
}

impl Room {
    pub(crate) fn new() -> Room {
        Room::of(FIRST_ROOM)
    }

    /// Returns a buffer in which a text fits that is about as long as this input.
    pub(crate) fn beside(input: &[u8]) -> Room {
        Room::of(input.len() + FIRST_ROOM)
    }

    fn of(size: usize) -> Room {
        Room {
            bytes: vec![0; size],
        }
    }

    /// Calls a function with this buffer. Calls it again with a larger one if its text does not
    /// fit: the first call has changed nothing then.
    fn ask(
        &mut self,
        mut function: impl FnMut(*mut c_char, usize, *mut usize) -> u32,
    ) -> Result<&[u8], SessionError> {
        loop {
            let (room, mut size) = (self.bytes.len(), 0);
            let status = function(self.bytes.as_mut_ptr().cast(), room, &mut size);
            if size < room {
                let text = &self.bytes[..size];
                return match status {
                    ffi::MES_GOOD => Ok(text),
                    _ => Err(SessionError::new(status, str_of(text))),
                };
            }
            self.bytes.resize(size + 1, 0);
        }
    }
}

/// Decodes a whole stream. Returns the numbers of events and of bytes used.
pub(crate) fn check(bytes: &[u8], limit: u32, framing: u32) -> Result<(u64, u64), Fault> {
    let (mut events, mut used) = (0, 0);
    let mut line = [0; ffi::MES_LINE_ROOM];
    // SAFETY: "Input is `length` readable bytes": a slice. "Each output is writable, aligned and
    // separate": three variables. `line` has `line.len()` bytes.
    let status = unsafe {
        let (input, to) = (bytes.as_ptr().cast(), line.as_mut_ptr().cast());
        ffi::mes_check(
            input,
            bytes.len(),
            limit,
            framing,
            &mut events,
            &mut used,
            to,
            line.len(),
        )
    };
    if status == ffi::MES_GOOD {
        return Ok((events, used));
    }
    let text = line.split(|byte| *byte == 0).next().unwrap_or(&[]);
    Err(Fault::new(status, str_of(text)))
}

/// A function of mesosev.h that writes a text.
pub(crate) struct OfNothing(ffi::OfNothing);

pub(crate) const LOG_HEADER: OfNothing = OfNothing(ffi::mes_log_header);
pub(crate) const LOG_BROKEN: OfNothing = OfNothing(ffi::mes_log_broken);

impl OfNothing {
    pub(crate) fn ask(self, room: &mut Room) -> Result<&[u8], SessionError> {
        // SAFETY: "Each output is writable": those of `ask`. The field is private to this module.
        room.ask(|text, room, size| unsafe { self.0(text, room, size) })
    }
}

/// A function of mesosev.h that reads bytes, and writes a text.
pub(crate) struct OfBytes(ffi::OfBytes);

pub(crate) const CALL: OfBytes = OfBytes(ffi::mes_call);
pub(crate) const LOG_EVENT: OfBytes = OfBytes(ffi::mes_log_event);
pub(crate) const LOG_CALL: OfBytes = OfBytes(ffi::mes_log_call);
pub(crate) const WRITE_EVENT: OfBytes = OfBytes(ffi::mes_write_event);
pub(crate) const WRITE_CHUNK: OfBytes = OfBytes(ffi::mes_write_chunk);

impl OfBytes {
    pub(crate) fn ask<'a>(
        self,
        bytes: &[u8],
        room: &'a mut Room,
    ) -> Result<&'a [u8], SessionError> {
        // SAFETY: "Input is `length` readable bytes": a slice. "Each output is writable": those of
        // `ask`. The field is private to this module.
        room.ask(|text, room, size| unsafe {
            self.0(bytes.as_ptr().cast(), bytes.len(), text, room, size)
        })
    }
}

/// Checks whether tasks fit offers.
pub(crate) fn fits(offers: &[u8], tasks: &[u8]) -> Result<(), SessionError> {
    let (first, second) = (offers.as_ptr().cast(), tasks.as_ptr().cast());
    let mut room = Room::new();
    // SAFETY: "Input is `length` readable bytes": two slices. "Each output is writable": those of
    // `ask`.
    let answer = room.ask(|text, room, size| unsafe {
        ffi::mes_fits(first, offers.len(), second, tasks.len(), text, room, size)
    });
    answer.map(|_| ())
}
