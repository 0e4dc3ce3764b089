//! The session of the library.

use super::Room;
use crate::errors::SessionError;
use crate::ffi;
use std::ptr::{null_mut, NonNull};

/// A session of the library.
pub(crate) struct Handle(NonNull<ffi::Session>);

// SAFETY: "One call at a time uses it, on any thread": a handle that is sent to another thread is
// used there alone. It is not `Sync`, since two threads could then make calls at the same time:
// the functions that only read a session may not overlap either.
unsafe impl Send for Handle {}

/// A function of mesosev.h that reads a session and bytes, and writes a text.
pub(crate) struct OfSessionAndBytes(ffi::OfSessionAndBytes);

pub(crate) const HEARD: OfSessionAndBytes = OfSessionAndBytes(ffi::mes_session_heard);
pub(crate) const SAID: OfSessionAndBytes = OfSessionAndBytes(ffi::mes_session_said);
pub(crate) const CHECK: OfSessionAndBytes = OfSessionAndBytes(ffi::mes_session_check);
pub(crate) const SUBSCRIBE: OfSessionAndBytes = OfSessionAndBytes(ffi::mes_session_subscribe);
pub(crate) const OFFER: OfSessionAndBytes = OfSessionAndBytes(ffi::mes_session_offer);

/// A function of mesosev.h that reads a session and an index, and writes a text.
pub(crate) struct OfSessionAndIndex(ffi::OfSessionAndIndex);

pub(crate) const OFFER_AT: OfSessionAndIndex = OfSessionAndIndex(ffi::mes_session_offer_at);
pub(crate) const ACKNOWLEDGE: OfSessionAndIndex = OfSessionAndIndex(ffi::mes_session_acknowledge);
pub(crate) const OWED_AT: OfSessionAndIndex = OfSessionAndIndex(ffi::mes_session_owed_at);

/// A function of mesosev.h that returns the length of a list of a session.
pub(crate) struct OfSession(ffi::OfSession);

pub(crate) const OFFER_COUNT: OfSession = OfSession(ffi::mes_session_offer_count);
pub(crate) const OWED_COUNT: OfSession = OfSession(ffi::mes_session_owed_count);

// "A session was created with MES_GOOD": `of` accepts no other pointer than one that the library
// stored. "One call at a time uses it": a handle is not `Sync`, and the library calls no function
// of this crate. The comments below say "the session of `self`" for both.
impl Handle {
    /// Creates a session without a history.
    pub(crate) fn new() -> Result<Handle, SessionError> {
        let mut session = null_mut();
        // SAFETY: "Each output is writable, aligned and separate": a variable.
        let status = unsafe { ffi::mes_session_new(&mut session) };
        Handle::of(session).ok_or_else(|| SessionError::new(status, ""))
    }

    /// Creates the session to which a log leads.
    pub(crate) fn replay(log: &[u8], room: &mut Room) -> Result<Handle, SessionError> {
        let mut session = null_mut();
        // SAFETY: "Input is `length` readable bytes": a slice. "Each output is writable, aligned
        // and separate": a variable, and those of `ask`. Each line fits, so `ask` calls once.
        room.ask(|text, room, size| unsafe {
            ffi::mes_log_replay(
                log.as_ptr().cast(),
                log.len(),
                &mut session,
                text,
                room,
                size,
            )
        })?;
        Handle::of(session).ok_or(SessionError::Unknown(ffi::MES_GOOD))
    }

    fn of(session: *mut ffi::Session) -> Option<Handle> {
        NonNull::new(session).map(Handle)
    }

    pub(crate) fn ask_bytes<'a>(
        &self,
        function: OfSessionAndBytes,
        bytes: &[u8],
        room: &'a mut Room,
    ) -> Result<&'a [u8], SessionError> {
        // SAFETY: "Input is `length` readable bytes": a slice. "Each output is writable": those of
        // `ask`. The session of `self`. The field of `function` is private to this file.
        room.ask(|text, room, size| unsafe {
            function.0(
                self.0.as_ptr(),
                bytes.as_ptr().cast(),
                bytes.len(),
                text,
                room,
                size,
            )
        })
    }

    pub(crate) fn ask_index<'a>(
        &self,
        function: OfSessionAndIndex,
        index: usize,
        room: &'a mut Room,
    ) -> Result<&'a [u8], SessionError> {
        // SAFETY: "Each output is writable": those of `ask`. The session of `self`.
        room.ask(|text, room, size| unsafe { function.0(self.0.as_ptr(), index, text, room, size) })
    }

    pub(crate) fn framework<'a>(&self, room: &'a mut Room) -> Result<&'a [u8], SessionError> {
        // SAFETY: "Each output is writable": those of `ask`. The session of `self`.
        room.ask(|text, room, size| unsafe {
            ffi::mes_session_framework(self.0.as_ptr(), text, room, size)
        })
    }

    pub(crate) fn count(&self, function: OfSession) -> usize {
        // SAFETY: the session of `self`.
        unsafe { function.0(self.0.as_ptr()) }
    }

    pub(crate) fn entries(&self) -> u64 {
        // SAFETY: the session of `self`.
        unsafe { ffi::mes_session_entries(self.0.as_ptr()) }
    }

    pub(crate) fn connected(&self) -> bool {
        // SAFETY: the session of `self`.
        unsafe { ffi::mes_session_connected(self.0.as_ptr()) != 0 }
    }

    pub(crate) fn broken(&mut self) {
        // SAFETY: the session of `self`.
        unsafe { ffi::mes_session_broken(self.0.as_ptr()) }
    }
}

impl Drop for Handle {
    fn drop(&mut self) {
        // SAFETY: "Is freed once": the handle is the only one of its session, and ends here.
        unsafe { ffi::mes_session_free(self.0.as_ptr()) }
    }
}
