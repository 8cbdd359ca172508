//! The library's calls, over slices. What they mean is said in `bindings/c/imap.h`.
#![allow(unsafe_code)]

/// There is a response, or a text.
pub(crate) const FOUND: u32 = 0;
/// More bytes are needed.
pub(crate) const WAITS: u32 = 1;
/// No response begins so.
pub(crate) const DENIED: u32 = 2;
/// Memory ran out.
pub(crate) const OUT_OF_MEMORY: u32 = 3;

/// `struct imap_answer`.
#[repr(C)]
#[derive(Clone, Copy)]
pub(crate) struct Answer {
    pub(crate) outcome: u32,
    pub(crate) kind: u32,
    pub(crate) status: u32,
    pub(crate) number: u32,
    pub(crate) consumed: usize,
    pub(crate) missing: usize,
}

/// `struct imap_cursor`.
#[repr(C)]
#[derive(Clone, Copy, Debug, Default)]
pub(crate) struct Cursor {
    pub(crate) start: usize,
    pub(crate) wanted: usize,
}

/// `struct imap_line_answer`.
#[repr(C)]
#[derive(Clone, Copy)]
pub(crate) struct LineAnswer {
    pub(crate) consumed: usize,
    pub(crate) missing: usize,
}

/// `struct imap_text_answer`.
#[repr(C)]
#[derive(Clone, Copy)]
pub(crate) struct TextAnswer {
    pub(crate) outcome: u32,
    pub(crate) size: usize,
}

mod c {
    use super::{Answer, Cursor, LineAnswer, TextAnswer};

    extern "C" {
        pub(super) fn imap_parse(bytes: *const u8, length: usize) -> Answer;
        pub(super) fn imap_next(bytes: *const u8, length: usize, cursor: *mut Cursor) -> Answer;
        pub(super) fn imap_logical_line(bytes: *const u8, length: usize) -> LineAnswer;
        pub(super) fn imap_json(bytes: *const u8, length: usize, out: *mut u8, room: usize) -> TextAnswer;
        pub(super) fn imap_quote(bytes: *const u8, length: usize, out: *mut u8, room: usize) -> TextAnswer;
        pub(super) fn imap_select(bytes: *const u8, length: usize, out: *mut u8, room: usize) -> TextAnswer;
        pub(super) fn imap_login(
            user_name: *const u8,
            user_name_length: usize,
            password: *const u8,
            password_length: usize,
            out: *mut u8,
            room: usize,
        ) -> TextAnswer;
        pub(super) fn imap_list(
            reference: *const u8,
            reference_length: usize,
            pattern: *const u8,
            pattern_length: usize,
            out: *mut u8,
            room: usize,
        ) -> TextAnswer;
        pub(super) fn imap_fetch(
            by_uid: bool,
            first: u32,
            last: u32,
            attributes: *const u32,
            count: usize,
            out: *mut u8,
            room: usize,
        ) -> TextAnswer;
    }
}

// SAFETY, of each call below: a slice's pointer is to as many values as it has, the library writes no more into `out` than
// it has room for, a `&mut` overlaps nothing else, and the library keeps none of them.

pub(crate) fn parse(bytes: &[u8]) -> Answer {
    unsafe { c::imap_parse(bytes.as_ptr(), bytes.len()) }
}

pub(crate) fn next(bytes: &[u8], cursor: &mut Cursor) -> Answer {
    unsafe { c::imap_next(bytes.as_ptr(), bytes.len(), cursor) }
}

pub(crate) fn logical_line(bytes: &[u8]) -> LineAnswer {
    unsafe { c::imap_logical_line(bytes.as_ptr(), bytes.len()) }
}

pub(crate) fn json(bytes: &[u8], out: &mut [u8]) -> TextAnswer {
    unsafe { c::imap_json(bytes.as_ptr(), bytes.len(), out.as_mut_ptr(), out.len()) }
}

pub(crate) fn quote(argument: &str, out: &mut [u8]) -> TextAnswer {
    unsafe { c::imap_quote(argument.as_ptr(), argument.len(), out.as_mut_ptr(), out.len()) }
}

pub(crate) fn select(mailbox: &str, out: &mut [u8]) -> TextAnswer {
    unsafe { c::imap_select(mailbox.as_ptr(), mailbox.len(), out.as_mut_ptr(), out.len()) }
}

pub(crate) fn login(user_name: &str, password: &str, out: &mut [u8]) -> TextAnswer {
    let (user, user_length) = (user_name.as_ptr(), user_name.len());
    let (word, word_length) = (password.as_ptr(), password.len());
    unsafe { c::imap_login(user, user_length, word, word_length, out.as_mut_ptr(), out.len()) }
}

pub(crate) fn list(reference: &str, pattern: &str, out: &mut [u8]) -> TextAnswer {
    let (at, at_length) = (reference.as_ptr(), reference.len());
    let (like, like_length) = (pattern.as_ptr(), pattern.len());
    unsafe { c::imap_list(at, at_length, like, like_length, out.as_mut_ptr(), out.len()) }
}

pub(crate) fn fetch(by_uid: bool, first: u32, last: u32, attributes: &[u32], out: &mut [u8]) -> TextAnswer {
    let (asked, count) = (attributes.as_ptr(), attributes.len());
    unsafe { c::imap_fetch(by_uid, first, last, asked, count, out.as_mut_ptr(), out.len()) }
}

/// The text that a call puts out, with so much room at first; or its outcome where there is none.
pub(crate) fn text(room: usize, call: impl Fn(&mut [u8]) -> TextAnswer) -> Result<Vec<u8>, u32> {
    let mut out = vec![0; room];
    let mut answer = call(&mut out);
    if answer.outcome == FOUND && answer.size > out.len() {
        out.resize(answer.size, 0);
        answer = call(&mut out);
    }
    if answer.outcome != FOUND {
        return Err(answer.outcome);
    }
    out.truncate(answer.size);
    Ok(out)
}

/// A text of the library's, which is UTF-8.
pub(crate) fn utf8(text: Vec<u8>) -> String {
    String::from_utf8(text).expect("the library's texts are UTF-8")
}
