//! Each call once, with what it has to answer.

use proved_imap::command::{self, Attribute, Messages, Refusal};
use proved_imap::{json, logical_line, parse, Error, Kind, Status, Stream};
use std::num::{NonZeroU32, NonZeroUsize};

#[test]
fn tells_the_kinds() {
    let lines: [(&str, Kind, Option<Status>, u32); 15] = [
        ("* CAPABILITY IMAP4rev1 IDLE\r\n", Kind::Capabilities, None, 0),
        ("+ go on\r\n", Kind::Continue, None, 0),
        ("a1 NO no\r\n", Kind::Done, Some(Status::No), 0),
        ("* BYE bye\r\n", Kind::Data, Some(Status::Bye), 0),
        ("* 7 EXPUNGE\r\n", Kind::Expunge, None, 7),
        ("* VANISHED 3:5\r\n", Kind::Vanished, None, 0),
        ("* 12 FETCH (UID 4827)\r\n", Kind::Fetch, None, 12),
        ("* 18 EXISTS\r\n", Kind::MailboxData, None, 18),
        ("* 4 RECENT\r\n", Kind::MailboxData, None, 4),
        ("* QUOTA \"\" (STORAGE 10 512)\r\n", Kind::Quota, None, 0),
        ("* QUOTAROOT INBOX \"\"\r\n", Kind::QuotaRoot, None, 0),
        ("* ID NIL\r\n", Kind::Id, None, 0),
        ("* ACL INBOX fred rwipslda\r\n", Kind::Acl, None, 0),
        ("* LISTRIGHTS INBOX smith la r\r\n", Kind::ListRights, None, 0),
        ("* MYRIGHTS INBOX rwiptsldaex\r\n", Kind::MyRights, None, 0),
    ];
    for (line, kind, status, number) in lines {
        let (consumed, answer) = parse(line.as_bytes()).unwrap();
        assert_eq!((consumed, answer.kind, answer.status, answer.number), (line.len(), kind, status, number), "{line}");
    }
}

#[test]
fn tells_why_there_is_none() {
    let lacks = |n| Error::Incomplete { missing: NonZeroUsize::new(n) };
    assert_eq!(parse(b""), Err(lacks(0)));
    assert_eq!(parse(b"* 1 FETCH (BODY[] {5}\r\nab"), Err(lacks(3)));
    assert_eq!(parse(b"* NAMESPACE"), Err(Error::Denied));
}

#[test]
fn streams_byte_by_byte() {
    let sent = b"* 1 FETCH (BODY[] {5}\r\na\r\nbc)\r\n* NAMESPACE {2}\r\nab\r\na1 OK done\r\n";
    let mut stream = Stream::new();
    let mut told = Vec::new();
    for byte in sent.chunks(1) {
        stream.push(byte);
        loop {
            match stream.next_event() {
                Ok(Some(event)) => told.push(format!("{} {}", event.answer.kind.name(), event.consumed)),
                Ok(None) => break,
                Err(error) => {
                    assert_eq!(error, Error::Denied);
                    match stream.skip_line() {
                        Some(n) => told.push(format!("skipped {n}")),
                        None => break,
                    }
                }
            }
        }
    }
    assert_eq!(told, ["fetch 31", "skipped 21", "done 12"]);
    assert!(stream.held().is_empty());
}

#[test]
fn tells_json() {
    assert_eq!(json(b"* 3 EXPUNGE\r\n* ").unwrap(), r#"{"kind":"expunge","number":3}"#);
    assert_eq!(json(b"* 1 FETCH (BODY[] {5}\r\nab"), Err(Error::Incomplete { missing: NonZeroUsize::new(3) }));
    assert_eq!(json(b"* NAMESPACE"), Err(Error::Denied));
    let long = "x".repeat(10_000);
    let line = json(format!("* OK {long}\r\n").as_bytes()).unwrap();
    let want = format!(r#"{{"kind":"data","status":"Ok","outcome":{{"code":null,"information":"{long}"}}}}"#);
    assert_eq!(line, want);
}

#[test]
fn events_have_json() {
    let mut stream = Stream::new();
    stream.push(b"* 18 EXISTS\r\n* 3 EXPUNGE\r\n* 4");
    let lines: Vec<String> = stream.events().map(|event| event.unwrap().json).collect();
    assert_eq!(lines, [r#"{"kind":"mailboxdata","datum":{"Exists":18}}"#, r#"{"kind":"expunge","number":3}"#]);
    stream.push(b" EXISTS\r\n");
    let (consumed, answer) = stream.next_answer().unwrap().unwrap();
    assert_eq!((consumed, answer.kind, answer.number), (12, Kind::MailboxData, 4));
    assert_eq!(stream.next_answer(), Ok(None));
}

#[test]
fn finds_logical_lines() {
    assert_eq!(logical_line(b"* X {3}\r\n\r\na b\r\n* OK"), Some(16));
    assert_eq!(logical_line(b"* X {3}\r\n\r\n"), None);
}

#[test]
fn writes_commands() {
    assert_eq!(command::quote(r#"a\b"c"#).unwrap(), r#""a\\b\"c""#);
    assert_eq!(command::select("INBOX").unwrap(), r#"SELECT "INBOX""#);
    assert_eq!(command::login("fred", "wombat").unwrap(), r#"LOGIN "fred" "wombat""#);
    assert_eq!(command::list("", "*").unwrap(), r#"LIST "" "*""#);
    let messages = Messages::range(1, NonZeroU32::new(5).unwrap());
    assert_eq!(command::fetch(messages, &[Attribute::Flags]).unwrap(), "FETCH 1:5 (FLAGS)");
    let asked = [Attribute::Uid, Attribute::Rfc822Size, Attribute::GmailThrId];
    assert_eq!(command::fetch(messages.by_uid(), &asked).unwrap(), "UID FETCH 1:5 (UID RFC822.SIZE X-GM-THRID)");
    let long = "x".repeat(100_000);
    assert_eq!(command::select(&format!("\"{long}")).unwrap().len(), "SELECT ".len() + long.len() + 4);
}

#[test]
fn refuses_arguments() {
    assert_eq!(command::quote("a\nb\r"), Err(Refusal::LineFeed));
    assert_eq!(command::select("\r"), Err(Refusal::CarriageReturn));
    assert_eq!(command::login("a", "b\0"), Err(Refusal::Nul));
    assert_eq!(command::list("a", "b\n"), Err(Refusal::LineFeed));
    assert_eq!(command::fetch(Messages::from(1), &[]), Err(Refusal::NoAttribute));
}
