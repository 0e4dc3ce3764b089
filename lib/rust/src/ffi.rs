//! The declarations of mesosev.h, with its names.

use std::os::raw::{c_char, c_void};

pub(crate) const MES_GOOD: u32 = 0;
pub(crate) const MES_NO_MEMORY: u32 = 13;
pub(crate) const MES_MORE: u32 = 32;
pub(crate) const MES_EVENT: u32 = 33;
pub(crate) const MES_END: u32 = 34;
pub(crate) const MES_NO_TEXT: u32 = 35;
pub(crate) const MES_ABSENT: u32 = 37;
pub(crate) const MES_NOT_SUBSCRIBED: u32 = 201;
pub(crate) const MES_REFUSED_NO_MEMORY: u32 = 208;

pub(crate) const MES_PLAIN: u32 = 0;
pub(crate) const MES_CHUNKED: u32 = 1;

pub(crate) const MES_LIMIT_USUAL: u32 = 4_194_304;
pub(crate) const MES_LIMIT_MOST: u32 = 67_108_864;
pub(crate) const MES_LINE_ROOM: usize = 641;

/// The type `mes_decoder`.
#[repr(C)]
pub(crate) struct Decoder {
    _opaque: [u8; 0],
}

/// The type `mes_session`.
#[repr(C)]
pub(crate) struct Session {
    _opaque: [u8; 0],
}

/// The type `mes_event`. The member `kind` is `type` in C.
#[repr(C)]
#[derive(Clone, Copy)]
pub(crate) struct Event {
    pub(crate) kind: u32,
    pub(crate) text: *const c_char,
    pub(crate) length: usize,
}

/// A function that writes a text: its parameters are `text`, `room` and `size`.
pub(crate) type OfNothing = unsafe extern "C" fn(*mut c_char, usize, *mut usize) -> u32;

/// A function that reads bytes, and writes a text.
pub(crate) type OfBytes =
    unsafe extern "C" fn(*const c_void, usize, *mut c_char, usize, *mut usize) -> u32;

/// A function that reads bytes, and writes a text of a session.
pub(crate) type OfSessionAndBytes =
    unsafe extern "C" fn(*mut Session, *const c_void, usize, *mut c_char, usize, *mut usize) -> u32;

/// A function that writes a text of a session for an index.
pub(crate) type OfSessionAndIndex =
    unsafe extern "C" fn(*mut Session, usize, *mut c_char, usize, *mut usize) -> u32;

/// A function that returns a number of a session.
pub(crate) type OfSession = unsafe extern "C" fn(*mut Session) -> usize;

#[rustfmt::skip]
extern "C" {
    pub(crate) fn mes_version() -> *const c_char;
    pub(crate) fn mes_check(bytes: *const c_void, length: usize, limit: u32, framing: u32,
        events: *mut u64, used: *mut u64, line: *mut c_char, room: usize) -> u32;
    pub(crate) fn mes_call(bytes: *const c_void, length: usize, text: *mut c_char, room: usize,
        size: *mut usize) -> u32;
    pub(crate) fn mes_fits(offers: *const c_void, offers_length: usize, tasks: *const c_void,
        tasks_length: usize, text: *mut c_char, room: usize, size: *mut usize) -> u32;

    pub(crate) fn mes_decoder_new(limit: u32, framing: u32, flags: u32,
        decoder: *mut *mut Decoder) -> u32;
    pub(crate) fn mes_decoder_many(decoder: *mut Decoder, bytes: *const c_void, length: usize,
        used: *mut usize, events: *mut Event, most: usize, count: *mut usize) -> u32;
    pub(crate) fn mes_decoder_finish(decoder: *mut Decoder, event: *mut Event) -> u32;
    pub(crate) fn mes_decoder_free(decoder: *mut Decoder);

    pub(crate) fn mes_session_new(session: *mut *mut Session) -> u32;
    pub(crate) fn mes_session_heard(session: *mut Session, event: *const c_void, length: usize,
        text: *mut c_char, room: usize, size: *mut usize) -> u32;
    pub(crate) fn mes_session_said(session: *mut Session, call: *const c_void, length: usize,
        text: *mut c_char, room: usize, size: *mut usize) -> u32;
    pub(crate) fn mes_session_check(session: *mut Session, call: *const c_void, length: usize,
        text: *mut c_char, room: usize, size: *mut usize) -> u32;
    pub(crate) fn mes_session_subscribe(session: *mut Session, info: *const c_void, length: usize,
        text: *mut c_char, room: usize, size: *mut usize) -> u32;
    pub(crate) fn mes_session_broken(session: *mut Session);
    pub(crate) fn mes_session_connected(session: *mut Session) -> u32;
    pub(crate) fn mes_session_entries(session: *mut Session) -> u64;
    pub(crate) fn mes_session_framework(session: *mut Session, text: *mut c_char, room: usize,
        size: *mut usize) -> u32;
    pub(crate) fn mes_session_offer_count(session: *mut Session) -> usize;
    pub(crate) fn mes_session_offer_at(session: *mut Session, index: usize, text: *mut c_char,
        room: usize, size: *mut usize) -> u32;
    pub(crate) fn mes_session_offer(session: *mut Session, id: *const c_void, length: usize,
        text: *mut c_char, room: usize, size: *mut usize) -> u32;
    pub(crate) fn mes_session_owed_count(session: *mut Session) -> usize;
    pub(crate) fn mes_session_owed_at(session: *mut Session, index: usize, text: *mut c_char,
        room: usize, size: *mut usize) -> u32;
    pub(crate) fn mes_session_acknowledge(session: *mut Session, index: usize, text: *mut c_char,
        room: usize, size: *mut usize) -> u32;
    pub(crate) fn mes_session_free(session: *mut Session);

    pub(crate) fn mes_log_header(text: *mut c_char, room: usize, size: *mut usize) -> u32;
    pub(crate) fn mes_log_event(event: *const c_void, length: usize, text: *mut c_char, room: usize,
        size: *mut usize) -> u32;
    pub(crate) fn mes_log_call(call: *const c_void, length: usize, text: *mut c_char, room: usize,
        size: *mut usize) -> u32;
    pub(crate) fn mes_log_broken(text: *mut c_char, room: usize, size: *mut usize) -> u32;
    pub(crate) fn mes_log_replay(bytes: *const c_void, length: usize, session: *mut *mut Session,
        text: *mut c_char, room: usize, size: *mut usize) -> u32;

    pub(crate) fn mes_write_event(event: *const c_void, length: usize, text: *mut c_char,
        room: usize, size: *mut usize) -> u32;
    pub(crate) fn mes_write_chunk(bytes: *const c_void, length: usize, text: *mut c_char,
        room: usize, size: *mut usize) -> u32;
}
