//! The decoder of the library.

use super::str_of;
use crate::errors::Fault;
use crate::ffi;
use std::ptr::{null, null_mut, NonNull};
use std::slice;

/// The number of events that one call decodes at most.
const MAX_EVENTS: usize = 512;

const NO_EVENT: ffi::Event = ffi::Event {
    kind: 0,
    text: null(),
    length: 0,
};

/// A decoder of the library, and the events of the last call.
pub(crate) struct Decoder {
    decoder: NonNull<ffi::Decoder>,
    events: Box<[ffi::Event]>,
    /// The number of events of the last call, and how many of them were taken.
    count: usize,
    taken: usize,
}

// SAFETY: "One call at a time uses it, on any thread": a decoder that is sent to another thread is
// used there alone. The pointers in `events` are into its own memory.
unsafe impl Send for Decoder {}

// "A decoder was created with MES_GOOD": `new` accepts no other pointer than one that the library
// stored. "One call at a time uses it": each call takes `&mut self`, and the library calls no
// function of this crate. The comments below say "the decoder of `self`" for both.
impl Decoder {
    /// Creates a decoder before the first byte of a stream.
    pub(crate) fn new(limit: u32, framing: u32) -> Option<Decoder> {
        let mut decoder = null_mut();
        // SAFETY: "Each output is writable, aligned and separate": a variable.
        let _status = unsafe { ffi::mes_decoder_new(limit, framing, 0, &mut decoder) };
        let events = vec![NO_EVENT; MAX_EVENTS].into_boxed_slice();
        NonNull::new(decoder).map(|decoder| Decoder {
            decoder,
            events,
            count: 0,
            taken: 0,
        })
    }

    /// Decodes bytes up to a full `events`, the end or a fault. Drops events that were not taken.
    /// Returns the status, and the number of bytes used.
    pub(crate) fn decode(&mut self, bytes: &[u8]) -> (u32, usize) {
        let mut used = 0;
        (self.count, self.taken) = (0, 0);
        // SAFETY: "Input is `length` readable bytes": a slice. "Each output is writable, aligned
        // and separate": a variable and two fields. "`events`: space for `most` events": the length
        // of the field. The decoder of `self`.
        let status = unsafe {
            ffi::mes_decoder_many(
                self.decoder.as_ptr(),
                bytes.as_ptr().cast(),
                bytes.len(),
                &mut used,
                self.events.as_mut_ptr(),
                self.events.len(),
                &mut self.count,
            )
        };
        (status, used)
    }

    /// Returns the number of the type and the text of the next event of the last call. The text of
    /// an event that has none is empty.
    pub(crate) fn take(&mut self) -> Option<(u32, &str)> {
        let event = *self.events[..self.count].get(self.taken)?;
        self.taken += 1;
        // SAFETY: the first `count` events are those of the last call.
        Some((event.kind, unsafe { self.text_of(event) }))
    }

    /// Ends the input.
    pub(crate) fn finish(&mut self) -> Result<(), Fault> {
        let mut end = NO_EVENT;
        // The call invalidates the texts.
        self.count = 0;
        // SAFETY: "Each output is writable, aligned and separate": a variable. The decoder of
        // `self`.
        let status = unsafe { ffi::mes_decoder_finish(self.decoder.as_ptr(), &mut end) };
        if status == ffi::MES_END {
            return Ok(());
        }
        // SAFETY: the event is that of the last call.
        let line = unsafe { self.text_of(end) };
        Err(Fault::new(status, line))
    }

    /// Returns the text of an event, empty if the event has none.
    ///
    /// # Safety
    ///
    /// The event is one of the last call on the decoder.
    unsafe fn text_of(&self, event: ffi::Event) -> &str {
        if event.text.is_null() {
            return "";
        }
        // SAFETY: "Texts are valid until the next call on that decoder", which the borrow of `self`
        // excludes.
        str_of(unsafe { slice::from_raw_parts(event.text.cast(), event.length) })
    }
}

impl Drop for Decoder {
    fn drop(&mut self) {
        // SAFETY: "Is freed once": this is the only pointer to the decoder, and it ends here.
        unsafe { ffi::mes_decoder_free(self.decoder.as_ptr()) }
    }
}
