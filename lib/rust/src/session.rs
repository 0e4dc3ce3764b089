//! The session of a framework with its master.

use crate::errors::SessionError;
use crate::library::{self, str_of, Handle, Room};
use std::cell::RefCell;
use std::fmt;

/// The session of a framework with its master: which offers are outstanding, which updates are not
/// acknowledged, and which calls are allowed.
///
/// Apply each event with [`heard`](Session::heard), and check each call with
/// [`said`](Session::said), which returns the text to post. Events, calls and results are JSON
/// texts. The texts that are returned are canonical (docs/FORMAT.md): their members have a fixed
/// order. After an error the session is unchanged.
///
/// ```
/// use mesosev::{Session, SessionError};
///
/// let mut session = Session::new()?;
/// session.heard(r#"{"type":"SUBSCRIBED","subscribed":{"framework_id":{"value":"F1"}}}"#)?;
/// session.heard(
///     r#"{"type":"OFFERS","offers":{"offers":[{"id":{"value":"O1"},"framework_id":{"value":"F1"},
///     "agent_id":{"value":"A1"},"hostname":"h"}]}}"#,
/// )?;
/// let decline = r#"{"type":"DECLINE","framework_id":{"value":"F1"},
///     "decline":{"offer_ids":[{"value":"O1"}]}}"#;
/// assert_eq!(session.offer_count(), 1);
/// println!("post {}", session.said(decline)?);
/// assert_eq!(session.offer_count(), 0);
/// match session.said(decline) {
///     Err(SessionError::Refusal(refusal)) => {
///         assert_eq!((refusal.number, refusal.index), (3, Some(0)));
///         assert_eq!(refusal.to_string(), "refused S3 NoSuchOffer record 4 index 0");
///     }
///     other => panic!("{other:?}"),
/// }
/// # Ok::<(), SessionError>(())
/// ```
///
/// A session may be sent to another thread. It may not be shared by threads, since one call at a
/// time may use it; put it into a `Mutex` for that:
///
/// ```compile_fail,E0277
/// fn share<T: Sync>(_: T) {}
/// share(mesosev::Session::new().unwrap());
/// ```
pub struct Session {
    handle: Handle,
    /// The buffer for the texts of the library.
    room: RefCell<Room>,
}

impl Session {
    /// Creates a session without a history.
    ///
    /// # Errors
    ///
    /// Returns fault F13 if an allocation fails.
    pub fn new() -> Result<Session, SessionError> {
        Ok(Session {
            handle: Handle::new()?,
            room: RefCell::new(Room::new()),
        })
    }

    /// Creates the session to which a log leads: the bytes that [`log`](crate::log) makes.
    ///
    /// # Errors
    ///
    /// Returns the first fault of the log, or else the refusal of an entry.
    pub fn replay(log: impl AsRef<[u8]>) -> Result<Session, SessionError> {
        let mut room = Room::new();
        Ok(Session {
            handle: Handle::replay(log.as_ref(), &mut room)?,
            room: RefCell::new(room),
        })
    }

    /// Applies an event that was received from the master.
    ///
    /// # Errors
    ///
    /// Returns a fault if the text is no event, and refusal S8 if an allocation fails.
    pub fn heard(&mut self, event: impl AsRef<[u8]>) -> Result<(), SessionError> {
        let room = self.room.get_mut();
        self.handle
            .ask_bytes(library::HEARD, event.as_ref(), room)?;
        Ok(())
    }

    /// Checks a call, and applies it if it is allowed. Returns the text to post to the master.
    ///
    /// # Errors
    ///
    /// Returns a fault if the text is no call, and the refusal if the call is not allowed (S1 to
    /// S7). Then it may not be posted.
    pub fn said(&mut self, call: impl AsRef<[u8]>) -> Result<String, SessionError> {
        let room = self.room.get_mut();
        self.handle
            .ask_bytes(library::SAID, call.as_ref(), room)
            .map(owned)
    }

    /// Checks a call like [`said`](Session::said), but does not apply it.
    ///
    /// # Errors
    ///
    /// Returns those of [`said`](Session::said).
    pub fn check(&self, call: impl AsRef<[u8]>) -> Result<String, SessionError> {
        let mut room = self.room.borrow_mut();
        self.handle
            .ask_bytes(library::CHECK, call.as_ref(), &mut room)
            .map(owned)
    }

    /// Makes and applies the SUBSCRIBE of a framework, given by the JSON text of its FrameworkInfo.
    /// It names the framework of the session, if there is one, whatever the member `id` is. Returns
    /// the text to post.
    ///
    /// # Errors
    ///
    /// Returns a fault if the text is no FrameworkInfo.
    pub fn subscribe(&mut self, info: impl AsRef<[u8]>) -> Result<String, SessionError> {
        let room = self.room.get_mut();
        self.handle
            .ask_bytes(library::SUBSCRIBE, info.as_ref(), room)
            .map(owned)
    }

    /// Makes and applies the ACKNOWLEDGE of the unacknowledged update at an index, from 0 in the order of
    /// arrival. Returns the text to post.
    ///
    /// # Errors
    ///
    /// Returns `Absent` if the index is not below [`owed_count`](Session::owed_count), and refusal S1
    /// if the session is not subscribed.
    pub fn acknowledge(&mut self, index: usize) -> Result<String, SessionError> {
        let room = self.room.get_mut();
        self.handle
            .ask_index(library::ACKNOWLEDGE, index, room)
            .map(owned)
    }

    /// Records that the stream of events broke: no offer is outstanding until the next SUBSCRIBED.
    pub fn broken(&mut self) {
        self.handle.broken();
    }

    /// Returns whether a SUBSCRIBED was received since the stream last broke.
    pub fn connected(&self) -> bool {
        self.handle.connected()
    }

    /// Returns the number of events, calls and breaks so far.
    pub fn entries(&self) -> u64 {
        self.handle.entries()
    }

    /// Returns the identifier of the framework, which the first SUBSCRIBED names. It is the value
    /// of a JSON string, without its quotes and escapes.
    pub fn framework(&self) -> Option<String> {
        let mut room = self.room.borrow_mut();
        self.handle.framework(&mut room).map(owned).ok()
    }

    /// Returns an iterator over the canonical texts of the outstanding offers, in the order of
    /// arrival.
    ///
    /// An item is an error if its text is too large or too deep, or could not be allocated.
    pub fn offers(&self) -> impl ExactSizeIterator<Item = Result<String, SessionError>> + '_ {
        (0..self.offer_count()).map(|index| self.offer_at(index))
    }

    /// Returns the number of outstanding offers.
    pub fn offer_count(&self) -> usize {
        self.handle.count(library::OFFER_COUNT)
    }

    /// Returns the canonical text of the outstanding offer at an index, from 0 in the order of
    /// arrival.
    ///
    /// # Errors
    ///
    /// Returns `Absent` if the index is not below [`offer_count`](Session::offer_count).
    pub fn offer_at(&self, index: usize) -> Result<String, SessionError> {
        let mut room = self.room.borrow_mut();
        self.handle
            .ask_index(library::OFFER_AT, index, &mut room)
            .map(owned)
    }

    /// Returns the canonical text of the outstanding offer with an identifier.
    ///
    /// # Errors
    ///
    /// Returns `Absent` if no such offer is outstanding.
    pub fn offer(&self, id: &str) -> Result<String, SessionError> {
        let mut room = self.room.borrow_mut();
        self.handle
            .ask_bytes(library::OFFER, id.as_bytes(), &mut room)
            .map(owned)
    }

    /// Returns an iterator over the unacknowledged updates, in the order of arrival. An item is the
    /// member `acknowledge` of the ACKNOWLEDGE for an update: a JSON object with `agent_id`,
    /// `task_id` and `uuid`.
    ///
    /// An item is an error if its text could not be allocated.
    pub fn unacknowledged(
        &self,
    ) -> impl ExactSizeIterator<Item = Result<String, SessionError>> + '_ {
        (0..self.owed_count()).map(|index| self.owed_at(index))
    }

    /// Returns the number of unacknowledged updates.
    pub fn owed_count(&self) -> usize {
        self.handle.count(library::OWED_COUNT)
    }

    /// Returns the item of [`unacknowledged`](Session::unacknowledged) at an index, from 0.
    ///
    /// # Errors
    ///
    /// Returns `Absent` if the index is not below [`owed_count`](Session::owed_count).
    pub fn owed_at(&self, index: usize) -> Result<String, SessionError> {
        let mut room = self.room.borrow_mut();
        self.handle
            .ask_index(library::OWED_AT, index, &mut room)
            .map(owned)
    }
}

impl fmt::Debug for Session {
    fn fmt(&self, formatter: &mut fmt::Formatter<'_>) -> fmt::Result {
        let mut shown = formatter.debug_struct("Session");
        shown.field("entries", &self.entries());
        shown.field("framework", &self.framework());
        shown.field("connected", &self.connected());
        shown.field("offers", &self.offer_count());
        shown.field("unacknowledged", &self.owed_count());
        shown.finish()
    }
}

fn owned(text: &[u8]) -> String {
    str_of(text).to_owned()
}
