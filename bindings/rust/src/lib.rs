//! IMAP: what a server sent is read, and commands are written, by a library that is proved.
//!
//! [`parse`] tells what stands at the front of some bytes, and [`Stream`] holds bytes that come in pieces and gives what
//! stands in them one by one. [`command`] has texts of commands.
//!
//! ```
//! use proved_imap::{Kind, Stream};
//!
//! let mut stream = Stream::new();
//! stream.push(b"* 18 EXISTS\r\n* OK do");
//! let event = stream.next_event()?.unwrap();
//! assert_eq!((event.answer.kind, event.answer.number), (Kind::MailboxData, 18));
//! assert!(stream.next_event()?.is_none());
//! # Ok::<(), proved_imap::Error>(())
//! ```
#![deny(unsafe_code)]
#![warn(missing_docs)]

mod answers;
pub mod command;
mod ffi;
mod stream;

pub use answers::{Answer, Error, Kind, Status};
pub use stream::{Event, Events, Stream};

/// The response at the front of the bytes, and how many bytes it has.
///
/// ```
/// use proved_imap::{parse, Error, Kind, Status};
///
/// let (consumed, answer) = parse(b"a1 OK done\r\n* 3 EXISTS\r\n")?;
/// assert_eq!((consumed, answer.kind, answer.status), (12, Kind::Done, Some(Status::Ok)));
/// assert_eq!(parse(b"* 3 EX"), Err(Error::Incomplete { missing: None }));
/// # Ok::<(), Error>(())
/// ```
pub fn parse(bytes: &[u8]) -> Result<(usize, Answer), Error> {
    Answer::told(ffi::parse(bytes))
}

/// The response at the front of the bytes as a line of JSON, without a line end, in the form that `docs/JSON.md` of the
/// repository says. The bytes may go on behind the response.
///
/// ```
/// let line = proved_imap::json(b"* 3 EXPUNGE\r\n* ")?;
/// assert_eq!(line, r#"{"kind":"expunge","number":3}"#);
/// # Ok::<(), proved_imap::Error>(())
/// ```
pub fn json(bytes: &[u8]) -> Result<String, Error> {
    match ffi::text(256, |out| ffi::json(bytes, out)) {
        Ok(text) => Ok(ffi::utf8(text)),
        Err(ffi::WAITS) => Err(Error::told(ffi::WAITS, ffi::parse(bytes).missing)),
        Err(outcome) => Err(Error::told(outcome, 0)),
    }
}

/// How many bytes the logical line at the front has, with its CRLF: any literals and any other bytes, up to the first
/// CRLF that belongs to no literal (RFC 3501, sections 2.2 and 4.3). `None` where it isn't whole.
pub fn logical_line(bytes: &[u8]) -> Option<usize> {
    match ffi::logical_line(bytes).consumed {
        0 => None,
        consumed => Some(consumed),
    }
}
