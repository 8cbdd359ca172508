//! What the library's numbers mean.

use crate::ffi;
use std::fmt;
use std::num::NonZeroUsize;

/// What a response is.
#[derive(Clone, Copy, Debug, PartialEq, Eq)]
pub struct Answer {
    /// Its kind.
    pub kind: Kind,
    /// The status of a status line: of [`Kind::Done`] and [`Kind::Data`], and of no other.
    pub status: Option<Status>,
    /// Of FETCH and EXPUNGE the message's number, of EXISTS and RECENT how many messages; 0 of any other.
    pub number: u32,
}

/// The kind of a response (RFC 3501, section 7, if not said otherwise).
#[derive(Clone, Copy, Debug, PartialEq, Eq, Hash)]
#[non_exhaustive]
pub enum Kind {
    /// CAPABILITY, and ENABLED (RFC 5161).
    Capabilities,
    /// `+`: the server waits for the rest of a command.
    Continue,
    /// A tagged line: a command is done.
    Done,
    /// An untagged status line.
    Data,
    /// EXPUNGE.
    Expunge,
    /// VANISHED (RFC 7162).
    Vanished,
    /// FETCH.
    Fetch,
    /// FLAGS, LIST, LSUB, SEARCH, SORT, STATUS, EXISTS, RECENT, METADATA and Gmail's items.
    MailboxData,
    /// QUOTA (RFC 2087).
    Quota,
    /// QUOTAROOT (RFC 2087).
    QuotaRoot,
    /// ID (RFC 2971).
    Id,
    /// ACL (RFC 4314).
    Acl,
    /// LISTRIGHTS (RFC 4314).
    ListRights,
    /// MYRIGHTS (RFC 4314).
    MyRights,
}

impl Kind {
    const ALL: [Kind; 14] = [
        Kind::Capabilities,
        Kind::Continue,
        Kind::Done,
        Kind::Data,
        Kind::Expunge,
        Kind::Vanished,
        Kind::Fetch,
        Kind::MailboxData,
        Kind::Quota,
        Kind::QuotaRoot,
        Kind::Id,
        Kind::Acl,
        Kind::ListRights,
        Kind::MyRights,
    ];

    /// Its name in lower case, as in the reports of `imap_cat`.
    pub fn name(self) -> &'static str {
        match self {
            Kind::Capabilities => "capabilities",
            Kind::Continue => "continue",
            Kind::Done => "done",
            Kind::Data => "data",
            Kind::Expunge => "expunge",
            Kind::Vanished => "vanished",
            Kind::Fetch => "fetch",
            Kind::MailboxData => "mailboxdata",
            Kind::Quota => "quota",
            Kind::QuotaRoot => "quotaroot",
            Kind::Id => "id",
            Kind::Acl => "acl",
            Kind::ListRights => "listrights",
            Kind::MyRights => "myrights",
        }
    }
}

/// The status of a status line (RFC 3501, section 7.1).
#[derive(Clone, Copy, Debug, PartialEq, Eq, Hash)]
pub enum Status {
    /// OK.
    Ok,
    /// NO.
    No,
    /// BAD.
    Bad,
    /// PREAUTH.
    PreAuth,
    /// BYE.
    Bye,
}

impl Status {
    const ALL: [Status; 5] = [Status::Ok, Status::No, Status::Bad, Status::PreAuth, Status::Bye];
}

/// Why there is no response.
#[derive(Clone, Copy, Debug, PartialEq, Eq)]
pub enum Error {
    /// More bytes are needed to tell.
    Incomplete {
        /// How many bytes a literal lacks, where that is known.
        missing: Option<NonZeroUsize>,
    },
    /// No response begins so, whatever bytes follow.
    Denied,
    /// Memory ran out. The same call may be made again.
    OutOfMemory,
}

impl fmt::Display for Error {
    fn fmt(&self, out: &mut fmt::Formatter<'_>) -> fmt::Result {
        out.write_str(match self {
            Error::Incomplete { .. } => "more bytes are needed",
            Error::Denied => "denied",
            Error::OutOfMemory => "out of memory",
        })
    }
}

impl std::error::Error for Error {}

// The k-th of a table that is counted from 1 on.
fn counted<T: Copy>(table: &[T], k: u32) -> Option<T> {
    table.get((k as usize).checked_sub(1)?).copied()
}

impl Error {
    pub(crate) fn told(outcome: u32, missing: usize) -> Error {
        match outcome {
            ffi::WAITS => Error::Incomplete { missing: NonZeroUsize::new(missing) },
            ffi::DENIED => Error::Denied,
            ffi::OUT_OF_MEMORY => Error::OutOfMemory,
            other => unreachable!("outcome {other} of a response"),
        }
    }
}

impl Answer {
    pub(crate) fn told(answer: ffi::Answer) -> Result<(usize, Answer), Error> {
        if answer.outcome != ffi::FOUND {
            return Err(Error::told(answer.outcome, answer.missing));
        }
        let kind = counted(&Kind::ALL, answer.kind).expect("a response has a kind");
        let status = counted(&Status::ALL, answer.status);
        Ok((answer.consumed, Answer { kind, status, number: answer.number }))
    }
}
