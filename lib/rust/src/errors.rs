//! The faults and the refusals of the library, and the errors of this crate.

use crate::ffi;
use std::error;
use std::fmt;
use std::io;

/// The names of the faults F1 to F16.
const FAULTS: [&str; 16] = [
    "BadChunkLine",
    "ChunkLineTooLong",
    "ChunkTooLarge",
    "BadChunkEnd",
    "TrailersTooLong",
    "EndsInsideChunks",
    "BadSizeLine",
    "SizeLineTooLong",
    "RecordTooLarge",
    "EndsInsideRecord",
    "Text",
    "Field",
    "NoMemory",
    "Read",
    "ReadsSpent",
    "BadEntry",
];

/// The names of the refusals S1 to S8.
const REFUSALS: [&str; 8] = [
    "NotSubscribed",
    "NamedTwice",
    "NoSuchOffer",
    "TwoAgents",
    "WrongAgent",
    "Exceeds",
    "NotOwed",
    "NoMemory",
];

/// A fault of a stream, a log, an event or a call: F1 to F16 of docs/FORMAT.md.
///
/// It displays as its line. A member that the fault does not have is `None`.
#[derive(Clone, Debug, PartialEq, Eq)]
#[non_exhaustive]
pub struct Fault {
    /// The number, 1 to 16.
    pub number: u32,
    /// The name, for example `Field`.
    pub name: &'static str,
    /// The number of the record, from 1.
    pub record: Option<u64>,
    /// The position of the error in the record.
    pub place: Option<Place>,
    /// The reason, for example `Missing`.
    pub why: Option<String>,
    /// The number of bytes that were used, up to the fault. `None` if an allocation failed for the
    /// line of the fault.
    pub used: Option<u64>,
    line: Box<str>,
}

/// The position of a fault in a record.
#[derive(Clone, Debug, PartialEq, Eq)]
pub enum Place {
    /// The offset in bytes at which the record is no JSON text (F11).
    Byte(u64),
    /// The path of the invalid member (F12), for example `update.status.state`.
    Path(String),
}

impl Fault {
    /// Reads the line of a fault. Of an empty line only the number and the name are known.
    pub(crate) fn new(number: u32, line: &str) -> Fault {
        let words: Vec<&str> = line.split(' ').collect();
        let (record, place, why) = match words[..] {
            ["fault", _, _, "record", record, "byte", offset, why, "after", _] => (
                Some(record),
                offset.parse().ok().map(Place::Byte),
                Some(why),
            ),
            ["fault", _, _, "record", record, path, why, "after", _] => {
                (Some(record), Some(Place::Path(path.to_owned())), Some(why))
            }
            ["fault", _, _, "record", record, "after", _] => (Some(record), None, None),
            _ => (None, None, None),
        };
        let name = name_of(&FAULTS, number);
        Fault {
            number,
            name,
            record: record.and_then(|record| record.parse().ok()),
            place,
            why: why.map(str::to_owned),
            used: words.last().and_then(|used| used.parse().ok()),
            line: match line {
                "" => format!("fault F{number} {name}").into(),
                _ => line.into(),
            },
        }
    }

    /// Returns the fault of an allocation that failed before the first byte.
    pub(crate) fn no_memory() -> Fault {
        Fault::new(ffi::MES_NO_MEMORY, "fault F13 NoMemory after 0")
    }

    /// Returns the line that the command `mesosev` prints.
    pub fn line(&self) -> &str {
        &self.line
    }
}

impl fmt::Display for Fault {
    fn fmt(&self, formatter: &mut fmt::Formatter<'_>) -> fmt::Result {
        formatter.write_str(&self.line)
    }
}

impl error::Error for Fault {}

/// A call that a session refused, and the reason: S1 to S8 of docs/FORMAT.md.
///
/// It displays as its line. A member that the refusal does not have is `None`.
#[derive(Clone, Debug, PartialEq, Eq)]
#[non_exhaustive]
pub struct Refusal {
    /// The number, 1 to 8.
    pub number: u32,
    /// The name, for example `NoSuchOffer`.
    pub name: &'static str,
    /// The number of the call in the history of the session, from 1.
    pub entry: u64,
    /// The index of an offer in the call, from 0 (S3).
    pub index: Option<usize>,
    /// The index of a task, from 0 over all operations of the call (S5, S6).
    pub task: Option<usize>,
    /// The index of a resource in that task, from 0 (S6).
    pub resource: Option<usize>,
    line: Box<str>,
}

impl Refusal {
    /// Reads the line of a refusal.
    fn new(number: u32, line: &str) -> Refusal {
        let words: Vec<&str> = line.split(' ').collect();
        // After the number and the name: a word, and the number that belongs to it.
        let pairs = words.get(3..).unwrap_or(&[]).chunks_exact(2);
        let number_after = |word: &str| pairs.clone().find(|pair| pair[0] == word)?[1].parse().ok();
        Refusal {
            number,
            name: name_of(&REFUSALS, number),
            entry: number_after("record").map_or(0, |entry| entry as u64),
            index: number_after("index"),
            task: number_after("task"),
            resource: number_after("resource"),
            line: line.into(),
        }
    }

    /// Returns the line that the command `mesosev replay` prints.
    pub fn line(&self) -> &str {
        &self.line
    }
}

impl fmt::Display for Refusal {
    fn fmt(&self, formatter: &mut fmt::Formatter<'_>) -> fmt::Result {
        formatter.write_str(&self.line)
    }
}

impl error::Error for Refusal {}

/// Returns the name at a number, from 1; empty if there is none.
fn name_of(names: &[&'static str], number: u32) -> &'static str {
    let index = (number as usize).wrapping_sub(1);
    names.get(index).copied().unwrap_or("")
}

/// The error of [`Events`](crate::Events), after which they end.
#[derive(Debug)]
#[non_exhaustive]
pub enum Error {
    /// The reader failed.
    Io(io::Error),
    /// The stream has a fault, or an allocation failed (F13).
    Fault(Fault),
}

impl fmt::Display for Error {
    fn fmt(&self, formatter: &mut fmt::Formatter<'_>) -> fmt::Result {
        match self {
            Error::Io(error) => error.fmt(formatter),
            Error::Fault(fault) => fault.fmt(formatter),
        }
    }
}

impl error::Error for Error {
    fn source(&self) -> Option<&(dyn error::Error + 'static)> {
        match self {
            Error::Io(error) => error.source(),
            Error::Fault(_) => None,
        }
    }
}

impl From<io::Error> for Error {
    fn from(error: io::Error) -> Error {
        Error::Io(error)
    }
}

impl From<Fault> for Error {
    fn from(fault: Fault) -> Error {
        Error::Fault(fault)
    }
}

/// The error of a [`Session`](crate::Session), of the records of its log, and of texts. A session
/// is unchanged by a function that returned one.
#[derive(Clone, Debug, PartialEq, Eq)]
#[non_exhaustive]
pub enum SessionError {
    /// The bytes are no event, call or log (F7 to F12, F16), or an allocation failed (F13). The
    /// place is that in record 1, of a log that in the log.
    Fault(Fault),
    /// The call is not allowed (S1 to S7), or an allocation failed for an event (S8).
    Refusal(Refusal),
    /// The canonical text has more than 67,108,864 bytes or nests more than 128 deep. From
    /// [`call`](crate::call) also: it could not be allocated.
    NoText,
    /// The session has no such offer or update.
    Absent,
    /// The library returned a status that this version of the crate does not know.
    Unknown(u32),
}

impl SessionError {
    /// Returns the error of a status other than `MES_GOOD`, with its line.
    pub(crate) fn new(status: u32, line: &str) -> SessionError {
        match status {
            ffi::MES_NO_TEXT => SessionError::NoText,
            ffi::MES_ABSENT => SessionError::Absent,
            ffi::MES_NO_MEMORY if line.is_empty() => SessionError::Fault(Fault::no_memory()),
            1..=16 => SessionError::Fault(Fault::new(status, line)),
            ffi::MES_NOT_SUBSCRIBED..=ffi::MES_REFUSED_NO_MEMORY => {
                SessionError::Refusal(Refusal::new(status - 200, line))
            }
            _ => SessionError::Unknown(status),
        }
    }
}

impl fmt::Display for SessionError {
    fn fmt(&self, formatter: &mut fmt::Formatter<'_>) -> fmt::Result {
        match self {
            SessionError::Fault(fault) => fault.fmt(formatter),
            SessionError::Refusal(refusal) => refusal.fmt(formatter),
            SessionError::NoText => formatter.write_str("the text is too large or nests too deep"),
            SessionError::Absent => formatter.write_str("the session has no such offer or update"),
            SessionError::Unknown(status) => write!(formatter, "status {status} of libmesosev"),
        }
    }
}

impl error::Error for SessionError {}

impl From<Fault> for SessionError {
    fn from(fault: Fault) -> SessionError {
        SessionError::Fault(fault)
    }
}

impl From<Refusal> for SessionError {
    fn from(refusal: Refusal) -> SessionError {
        SessionError::Refusal(refusal)
    }
}

/// The error of a record limit that is not 1 to [`MAX_LIMIT`](crate::MAX_LIMIT) bytes.
#[derive(Clone, Copy, Debug, PartialEq, Eq)]
#[non_exhaustive]
pub struct BadLimit;

impl fmt::Display for BadLimit {
    fn fmt(&self, formatter: &mut fmt::Formatter<'_>) -> fmt::Result {
        write!(formatter, "the limit is not 1 to {}", ffi::MES_LIMIT_MOST)
    }
}

impl error::Error for BadLimit {}

#[cfg(test)]
mod tests {
    use super::*;

    #[test]
    fn lines_of_faults_are_read() {
        let line = "fault F12 Field record 6 update.status.state UnknownName after 3295";
        let fault = Fault::new(12, line);
        let path = "update.status.state".to_owned();
        assert_eq!(
            (fault.name, fault.record, fault.used),
            ("Field", Some(6), Some(3295))
        );
        assert_eq!(
            (&fault.place, fault.why.as_deref()),
            (&Some(Place::Path(path)), Some("UnknownName"))
        );
        assert_eq!((fault.line(), fault.to_string().as_str()), (line, line));
        let fault = Fault::new(11, "fault F11 Text record 2 byte 7 End after 30");
        assert_eq!(
            (fault.place, fault.why.as_deref()),
            (Some(Place::Byte(7)), Some("End"))
        );
        let fault = Fault::new(16, "fault F16 BadEntry record 3 after 9");
        assert_eq!(
            (fault.name, fault.record, fault.used),
            ("BadEntry", Some(3), Some(9))
        );
        assert_eq!((fault.place, fault.why), (None, None));
        let fault = Fault::new(1, "fault F1 BadChunkLine after 1");
        assert_eq!(
            (fault.name, fault.record, fault.used),
            ("BadChunkLine", None, Some(1))
        );
    }

    #[test]
    fn faults_without_a_line_have_a_number_and_a_name() {
        let fault = Fault::new(12, "");
        assert_eq!(
            (fault.line(), fault.record, fault.used),
            ("fault F12 Field", None, None)
        );
        let lost = SessionError::new(13, "");
        assert_eq!(lost.to_string(), "fault F13 NoMemory after 0");
    }

    #[test]
    fn other_statuses_are_read() {
        let line = "refused S8 NoMemory record 5";
        assert_eq!(SessionError::new(208, line).to_string(), line);
        assert_eq!(SessionError::new(102, ""), SessionError::Unknown(102));
        assert_eq!(name_of(&FAULTS, 0), "");
        assert_eq!(name_of(&FAULTS, 17), "");
    }

    #[test]
    fn errors_are_small() {
        // The threshold of clippy's lint `result_large_err`.
        assert!(std::mem::size_of::<SessionError>() < 128);
    }
}
