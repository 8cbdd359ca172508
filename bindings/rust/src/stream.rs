//! Streams: bytes that come in pieces, and what stands in them.

use crate::{ffi, json, logical_line, Answer, Error};

/// A response of a stream.
#[derive(Clone, Debug, PartialEq, Eq)]
pub struct Event {
    /// Its kind, its status and its number.
    pub answer: Answer,
    /// How many bytes it had.
    pub consumed: usize,
    /// All that it says, as a line of JSON without a line end, in the form that `docs/JSON.md` of the repository says.
    pub json: String,
}

/// Bytes of a server that come in pieces, and that give their responses one by one.
///
/// While a literal lacks bytes, nothing is read again. A stream has no limit of its own: stop pushing where
/// [`held`](Stream::held) grows too long.
#[derive(Clone, Debug, Default)]
pub struct Stream {
    bytes: Vec<u8>,
    cursor: ffi::Cursor,
}

impl Stream {
    /// A stream that holds nothing.
    pub fn new() -> Stream {
        Stream::default()
    }

    /// Puts a piece behind what it holds.
    pub fn push(&mut self, piece: &[u8]) {
        let start = self.cursor.start;
        // So no more bytes are moved than were pushed.
        if start > self.bytes.len() / 2 {
            self.bytes.drain(..start);
            self.cursor.start = 0;
        }
        self.bytes.extend_from_slice(piece);
    }

    /// What was pushed and is not yet given.
    pub fn held(&self) -> &[u8] {
        &self.bytes[self.cursor.start..]
    }

    /// The response at the front of what it holds; its bytes are held no longer. `None` where more bytes are needed, or
    /// nothing is held. They are read twice, once for the JSON.
    ///
    /// [`Error::Denied`]: no response begins so, and each later call says that again, until
    /// [`skip_line`](Stream::skip_line) has dropped the line. Behind [`Error::OutOfMemory`] it is as it was.
    pub fn next_event(&mut self) -> Result<Option<Event>, Error> {
        let Some((cursor, consumed, answer)) = self.told()? else {
            return Ok(None);
        };
        let json = json(self.held())?;
        self.cursor = cursor;
        Ok(Some(Event { answer, consumed, json }))
    }

    /// The same without JSON: how many bytes the response had, and what it is.
    pub fn next_answer(&mut self) -> Result<Option<(usize, Answer)>, Error> {
        let Some((cursor, consumed, answer)) = self.told()? else {
            return Ok(None);
        };
        self.cursor = cursor;
        Ok(Some((consumed, answer)))
    }

    // The response at the front, and the cursor behind it.
    fn told(&mut self) -> Result<Option<(ffi::Cursor, usize, Answer)>, Error> {
        let mut cursor = self.cursor;
        match Answer::told(ffi::next(&self.bytes, &mut cursor)) {
            Ok((consumed, answer)) => Ok(Some((cursor, consumed, answer))),
            Err(Error::Incomplete { .. }) => {
                self.cursor = cursor;
                Ok(None)
            }
            Err(error) => Err(error),
        }
    }

    /// The responses that it has by now, one by one; behind a fault it ends.
    pub fn events(&mut self) -> Events<'_> {
        Events { stream: self, is_over: false }
    }

    /// Drops the logical line at the front of what it holds, and tells how many bytes it had. `None` where the line isn't
    /// whole. It is for a line that was [denied](Error::Denied).
    pub fn skip_line(&mut self) -> Option<usize> {
        let skipped = logical_line(self.held())?;
        self.cursor = ffi::Cursor { start: self.cursor.start + skipped, wanted: 0 };
        Some(skipped)
    }
}

/// The responses that a stream has.
#[derive(Debug)]
pub struct Events<'a> {
    stream: &'a mut Stream,
    is_over: bool,
}

impl Iterator for Events<'_> {
    type Item = Result<Event, Error>;

    fn next(&mut self) -> Option<Self::Item> {
        if self.is_over {
            return None;
        }
        let event = self.stream.next_event().transpose();
        self.is_over = !matches!(event, Some(Ok(_)));
        event
    }
}
