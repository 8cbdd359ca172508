//! Texts of commands, without tag and line end: send a tag, a space, the text and CRLF.
//!
//! Arguments go out in quotes with a backslash before each `\` and `"`, and with no other change: a mailbox name beyond
//! ASCII has to be in modified UTF-7 already (RFC 3501, section 5.1.3).
//!
//! ```
//! use proved_imap::command::{fetch, select, Attribute, Messages, Refusal};
//!
//! assert_eq!(select("a \"b\""), Ok(r#"SELECT "a \"b\"""#.to_string()));
//! assert_eq!(select("a\r\nb"), Err(Refusal::CarriageReturn));
//! let asked = [Attribute::Uid, Attribute::Flags];
//! assert_eq!(fetch(Messages::from(3), &asked), Ok("FETCH 3:* (UID FLAGS)".to_string()));
//! # Ok::<(), Refusal>(())
//! ```

use crate::ffi;
use std::fmt;
use std::num::NonZeroU32;

/// Why a command isn't written.
#[derive(Clone, Copy, Debug, PartialEq, Eq)]
pub enum Refusal {
    /// An argument has a CR, which a quoted string can't have. Of several such bytes the first one is told.
    CarriageReturn,
    /// An argument has an LF.
    LineFeed,
    /// An argument has a zero byte.
    Nul,
    /// A FETCH asks for nothing.
    NoAttribute,
    /// Memory ran out.
    OutOfMemory,
}

impl fmt::Display for Refusal {
    fn fmt(&self, out: &mut fmt::Formatter<'_>) -> fmt::Result {
        out.write_str(match self {
            Refusal::CarriageReturn => "carriage return in an argument",
            Refusal::LineFeed => "line feed in an argument",
            Refusal::Nul => "zero byte in an argument",
            Refusal::NoAttribute => "no attribute is asked for",
            Refusal::OutOfMemory => "out of memory",
        })
    }
}

impl std::error::Error for Refusal {}

/// What a FETCH asks for (RFC 3501, section 6.4.5; `ModSeq` of RFC 4551; the last three are Gmail's).
#[derive(Clone, Copy, Debug, PartialEq, Eq)]
#[repr(u32)]
pub enum Attribute {
    /// The structure of the body without its extensions. Most answers to it are denied.
    Body = 1,
    /// The parsed header.
    Envelope = 2,
    /// The flags.
    Flags = 3,
    /// When the server received the message.
    InternalDate = 4,
    /// The message's mod-sequence.
    ModSeq = 5,
    /// The whole message. The server marks it as seen.
    Rfc822 = 6,
    /// Its size in bytes.
    Rfc822Size = 7,
    /// Its text, without the header. The server marks it as seen.
    Rfc822Text = 8,
    /// Its unique identifier.
    Uid = 9,
    /// Its labels.
    GmailLabels = 10,
    /// Gmail's number of the message.
    GmailMsgId = 11,
    /// Gmail's number of its thread.
    GmailThrId = 12,
}

/// The messages that a FETCH is of.
#[derive(Clone, Copy, Debug, PartialEq, Eq)]
pub struct Messages {
    /// The first one.
    pub first: u32,
    /// The last one; `None`: all from the first one on.
    pub last: Option<NonZeroU32>,
    /// Whether these are unique identifiers, and not the messages' numbers.
    pub by_uid: bool,
}

impl Messages {
    /// All from a message's number on.
    pub fn from(first: u32) -> Messages {
        Messages { first, last: None, by_uid: false }
    }

    /// From one message's number to another.
    pub fn range(first: u32, last: NonZeroU32) -> Messages {
        Messages { first, last: Some(last), by_uid: false }
    }

    /// The same by unique identifiers.
    pub fn by_uid(self) -> Messages {
        Messages { by_uid: true, ..self }
    }
}

// The outcomes that only a command has.
fn refusal(outcome: u32) -> Refusal {
    match outcome {
        ffi::OUT_OF_MEMORY => Refusal::OutOfMemory,
        5 => Refusal::CarriageReturn,
        6 => Refusal::LineFeed,
        7 => Refusal::Nul,
        11 => Refusal::NoAttribute,
        other => unreachable!("outcome {other} of a command"),
    }
}

fn told(room: usize, call: impl Fn(&mut [u8]) -> ffi::TextAnswer) -> Result<String, Refusal> {
    ffi::text(room, call).map(ffi::utf8).map_err(refusal)
}

/// An argument as a quoted string (RFC 3501, section 9: quoted).
pub fn quote(argument: &str) -> Result<String, Refusal> {
    told(argument.len() + 64, |out| ffi::quote(argument, out))
}

/// SELECT of a mailbox (RFC 3501, section 6.3.1).
pub fn select(mailbox: &str) -> Result<String, Refusal> {
    told(mailbox.len() + 64, |out| ffi::select(mailbox, out))
}

/// LOGIN (RFC 3501, section 6.2.3). The text has the password in clear.
pub fn login(user_name: &str, password: &str) -> Result<String, Refusal> {
    told(user_name.len() + password.len() + 64, |out| ffi::login(user_name, password, out))
}

/// LIST of the mailboxes that a pattern fits (RFC 3501, section 6.3.8).
pub fn list(reference: &str, pattern: &str) -> Result<String, Refusal> {
    told(reference.len() + pattern.len() + 64, |out| ffi::list(reference, pattern, out))
}

/// FETCH, or UID FETCH, of some messages that asks for these attributes in this order (RFC 3501, sections 6.4.5 and
/// 6.4.8).
pub fn fetch(messages: Messages, attributes: &[Attribute]) -> Result<String, Refusal> {
    let asked: Vec<u32> = attributes.iter().map(|attribute| *attribute as u32).collect();
    let last = messages.last.map_or(0, NonZeroU32::get);
    told(256, |out| ffi::fetch(messages.by_uid, messages.first, last, &asked, out))
}
