//! Fetching sessions from a stream and printing their lines.
//!
//! `one` is the outer half of "The session program": it reads a session from
//! its input, and no byte beyond those that show it to be too long. `many` and
//! `typed` are for comparing programs and are not in the rule book.

use crate::cases::answers;
use crate::number::LONGEST_INPUT;
use crate::session::session;
use std::io::{self, Read, Write};

/// So many bytes tell that a session is too long.
const ENOUGH: u64 = LONGEST_INPUT as u64 + 1;

/// Plays the one session that the input is.
pub fn one(input: &mut impl Read, out: &mut impl Write) -> io::Result<()> {
    let bytes = up_to(input, ENOUGH)?;
    out.write_all(session(&bytes).as_bytes())
}

/// Plays sessions to the end of the input. Each is a length of four bytes,
/// lowest first, and so many bytes; its lines are followed by a line `.`.
pub fn many(input: &mut impl Read, out: &mut impl Write) -> io::Result<()> {
    while let Some(length) = next_length(input)? {
        let bytes = next_session(input, length)?;
        out.write_all(session(&bytes).as_bytes())?;
        out.write_all(b".\n")?;
    }
    Ok(())
}

/// Answers typed cases to the end of the input; if one is malformed, none.
pub fn typed(input: &mut impl Read, out: &mut impl Write) -> io::Result<()> {
    let mut text = String::new();
    input.read_to_string(&mut text)?;
    let Some(lines) = answers(&text) else {
        let kind = io::ErrorKind::InvalidData;
        return Err(io::Error::new(kind, "a case is malformed"));
    };
    out.write_all(lines.as_bytes())
}

/// The length of the next session; none at the end of the stream.
fn next_length(input: &mut impl Read) -> io::Result<Option<u64>> {
    let bytes = up_to(input, 4)?;
    if bytes.is_empty() {
        return Ok(None);
    }
    let Ok(four) = <[u8; 4]>::try_from(bytes) else {
        return Err(cut_short());
    };
    Ok(Some(u64::from(u32::from_le_bytes(four))))
}

/// The bytes of a session of this length. Of one that is too long only as many
/// are kept as show this; the others are passed over.
fn next_session(input: &mut impl Read, length: u64) -> io::Result<Vec<u8>> {
    let kept = length.min(ENOUGH);
    let bytes = up_to(input, kept)?;
    let passed = io::copy(&mut input.take(length - kept), &mut io::sink())?;
    if bytes.len() as u64 + passed < length {
        return Err(cut_short());
    }
    Ok(bytes)
}

fn up_to(input: &mut impl Read, most: u64) -> io::Result<Vec<u8>> {
    let mut bytes = Vec::new();
    input.take(most).read_to_end(&mut bytes)?;
    Ok(bytes)
}

fn cut_short() -> io::Error {
    let kind = io::ErrorKind::UnexpectedEof;
    io::Error::new(kind, "the stream ends inside a session")
}

#[cfg(test)]
mod tests {
    use super::*;

    fn framed(sessions: &[&[u8]]) -> Vec<u8> {
        let mut stream = Vec::new();
        for session in sessions {
            stream.extend((session.len() as u32).to_le_bytes());
            stream.extend(*session);
        }
        stream
    }

    fn play_many(stream: &[u8]) -> (String, bool) {
        let mut out = Vec::new();
        let done = many(&mut &stream[..], &mut out);
        (String::from_utf8(out).unwrap(), done.is_ok())
    }

    #[test]
    fn each_session_is_followed_by_a_dot() {
        let stream = framed(&[&[2, 0, 0, 0, 9], &[], &[0; 65_537], &[0; 99_999], &[3]]);
        let lines = "0 idle 0 0\n.\nrefused 1 0\n.\nrefused 10 0\n.\nrefused 10 0\n.\n";
        let expected = format!("{lines}refused 1 1\n.\n");
        assert_eq!(play_many(&stream), (expected, true));
        assert_eq!(play_many(&[]), (String::new(), true));
    }

    #[test]
    fn a_stream_that_ends_inside_a_session_is_an_error() {
        let stream = framed(&[&[3], &[2, 0]]);
        for length in 6..stream.len() {
            let (lines, is_whole) = play_many(&stream[..length]);
            assert_eq!((&lines[..], is_whole), ("refused 1 1\n.\n", false));
        }
        let long = framed(&[&[0; 70_000]]);
        assert_eq!(play_many(&long[..long.len() - 1]), (String::new(), false));
    }

    #[test]
    fn one_reads_no_more_than_it_needs() {
        let input = [0; 70_000];
        let mut rest = &input[..];
        let mut out = Vec::new();
        one(&mut rest, &mut out).unwrap();
        assert_eq!(out, b"refused 10 0\n");
        assert_eq!(rest.len(), 70_000 - 65_537);
    }
}
