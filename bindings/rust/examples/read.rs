//! Reads what a server sent from standard input, by pieces, and prints a line for each response as soon as it is there: its
//! kind and how many bytes it has, as imap_cat does, or with the word `json` all that it says, as imap_jsonl does. The last
//! line tells what is left: `end`, `waiting N` or `denied N`, or the same in JSON. The exit status is 0, 2 or 3 by that, and 1
//! after a fault. A number as an argument says how many bytes a piece has (4096).

use proved_imap::{Error, Stream};
use std::io::{self, Read, Write};
use std::process::ExitCode;

// Why no more is told.
enum End {
    End,
    Waits(usize),
    Denied(u64),
}

impl End {
    fn status(&self) -> u8 {
        match self {
            End::End => 0,
            End::Waits(_) => 2,
            End::Denied(_) => 3,
        }
    }

    fn line(&self, as_json: bool) -> String {
        match self {
            End::End if as_json => r#"{"end":"end","left":0}"#.to_string(),
            End::Waits(left) if as_json => format!(r#"{{"end":"waits","left":{left}}}"#),
            End::Denied(left) if as_json => format!(r#"{{"end":"denied","left":{left}}}"#),
            End::End => "end".to_string(),
            End::Waits(left) => format!("waiting {left}"),
            End::Denied(left) => format!("denied {left}"),
        }
    }
}

// Prints all responses that the stream has, and tells whether it was denied.
fn tell(stream: &mut Stream, as_json: bool, output: &mut impl Write) -> io::Result<bool> {
    loop {
        let line = if as_json {
            stream.next_event().map(|event| event.map(|event| event.json))
        } else {
            stream.next_answer().map(|next| next.map(|(consumed, answer)| format!("{} {consumed}", answer.kind.name())))
        };
        match line {
            Ok(Some(line)) => writeln!(output, "{line}")?,
            Ok(None) => return Ok(false),
            Err(Error::Denied) => return Ok(true),
            Err(error) => return Err(io::Error::new(io::ErrorKind::Other, error)),
        }
    }
}

fn run(piece: usize, as_json: bool, mut input: impl Read, output: &mut impl Write) -> io::Result<End> {
    let mut stream = Stream::new();
    let mut piece = vec![0; piece];
    loop {
        let n = input.read(&mut piece)?;
        if n == 0 {
            break;
        }
        stream.push(&piece[..n]);
        if tell(&mut stream, as_json, output)? {
            let left = stream.held().len() as u64 + io::copy(&mut input, &mut io::sink())?;
            return Ok(End::Denied(left));
        }
        output.flush()?;
    }
    Ok(match stream.held().len() {
        0 => End::End,
        left => End::Waits(left),
    })
}

fn main() -> ExitCode {
    let words: Vec<String> = std::env::args().skip(1).collect();
    let as_json = words.iter().any(|word| word == "json");
    let number = words.iter().find(|word| *word != "json");
    let Ok(piece @ 1..) = number.map_or(Ok(4096), |word| word.parse::<usize>()) else {
        eprintln!("usage: read [json] [BYTES OF A PIECE]");
        return ExitCode::FAILURE;
    };
    let mut output = io::stdout().lock();
    let ended = run(piece, as_json, io::stdin().lock(), &mut output)
        .and_then(|end| writeln!(output, "{}", end.line(as_json)).map(|()| end.status()));
    match ended {
        Ok(status) => ExitCode::from(status),
        Err(_) => {
            eprintln!("fault");
            ExitCode::FAILURE
        }
    }
}
