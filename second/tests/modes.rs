//! The program as a process: its three modes, its usage and its exit status.

use std::fs::File;
use std::io::{Seek, Write};
use std::path::PathBuf;
use std::process::{Command, Output, Stdio};

const H2: &[u8] = &[3, 1, 1, 3, 3, 0, 2, 0, 1, 0, 2, 0, 4, 2, 1, 0, 100, 1, 0];
const H2_LINES: &str = "0 idle 0 0\n1 idle 1 1\n2 idle 0 1\n";

fn program() -> Command {
    Command::new(env!("CARGO_BIN_EXE_second"))
}

fn play(arguments: &[&str], input: &[u8]) -> Output {
    let mut command = program();
    command.args(arguments).stdin(Stdio::piped());
    command.stdout(Stdio::piped()).stderr(Stdio::piped());
    let mut child = command.spawn().unwrap();
    child.stdin.take().unwrap().write_all(input).unwrap();
    child.wait_with_output().unwrap()
}

fn lines(output: &Output) -> &str {
    std::str::from_utf8(&output.stdout).unwrap()
}

#[test]
fn one_session() {
    let output = play(&[], H2);
    assert_eq!(output.status.code(), Some(0));
    assert_eq!(lines(&output), H2_LINES);
    assert!(output.stderr.is_empty());
}

#[test]
fn sessions_and_cases_with_the_greatest_allowance() {
    let most = [0xff, 0xff, 0xff, 0xff, 0x0f];
    let (board, events) = (&H2[..16], &H2[17..]);
    let output = play(&[], &[board, &most, events].concat());
    assert_eq!(output.status.code(), Some(0));
    assert_eq!(lines(&output), H2_LINES);
    let text = b"03 01 01 02  03 00 02 00  04 02 01 00  00 01 00 00 ff ff ff ff 0f @\n";
    let output = play(&["--cases"], text);
    assert_eq!(output.status.code(), Some(0));
    assert_eq!(lines(&output), "judged live 3 3: 0 2 1\n");
}

#[test]
fn sessions_and_cases_with_a_mark() {
    let marked = [&[3, 1, 1, 4, 7, 0], &H2[4..]].concat();
    let output = play(&[], &marked);
    assert_eq!(output.status.code(), Some(0));
    assert_eq!(lines(&output), "0 idle 0 1\n1 idle 0 1\n2 idle 0 1\n");
    let text = b"000001 000000 000002  02 01 00 02 00  01 00 00 00 00
                 04 00 01 00  07 ff ff 00 =\n";
    let output = play(&["--cases"], text);
    assert_eq!(output.status.code(), Some(0));
    assert_eq!(lines(&output), "ran idle 0 1 0 255 0 0:\n");
}

#[test]
fn many_sessions_and_a_stream_cut_short() {
    let stream = [&[19, 0, 0, 0], H2, &[0; 4], &[1, 0, 0, 0, 65]].concat();
    let whole = format!("{H2_LINES}.\nrefused 1 0\n.\n");
    let output = play(&["--many"], &stream);
    assert_eq!(output.status.code(), Some(0));
    assert_eq!(lines(&output), format!("{whole}refused 3 0\n.\n"));
    let output = play(&["--many"], &stream[..stream.len() - 1]);
    assert_eq!(output.status.code(), Some(1));
    assert_eq!(lines(&output), whole);
    assert!(!output.stderr.is_empty());
}

#[test]
fn typed_cases_and_one_that_is_malformed() {
    let text = b"03 01 01 02  03 00 02 00  04 02 01 00  00 01 00 00 64 @\n";
    let output = play(&["--cases"], text);
    assert_eq!(output.status.code(), Some(0));
    assert_eq!(lines(&output), "judged live 3 3: 0 2 1\n");
    assert!(output.stderr.is_empty());
    for malformed in [&text[1..], &[text, &b"0"[..]].concat(), b"\xff"] {
        let output = play(&["--cases"], malformed);
        assert_eq!(output.status.code(), Some(1));
        assert!(output.stdout.is_empty());
        assert!(!output.stderr.is_empty());
    }
}

#[test]
fn typed_cases_of_request_a6() {
    let h1 = "03 01 01 02  03 00 02 00  04 02 01 00";
    let text = format!("{h1} 00 00 00 00 !\n{h1} 00 01 00 00 !\n{h1} 00 00 00 00 01 ?\n");
    let output = play(&["--cases"], text.as_bytes());
    assert_eq!(output.status.code(), Some(0));
    assert_eq!(lines(&output), "told dead 1\ntold live\nchecked divides\n");
    let malformed = format!("{text} {h1} 00 00 00 00 00 !");
    let output = play(&["--cases"], malformed.as_bytes());
    assert_eq!(output.status.code(), Some(1));
    assert!(output.stdout.is_empty());
}

#[test]
fn sessions_and_cases_of_request_a8() {
    // H3 with a push of a button that has no part
    let session = [3, 1, 1, 2, 2, 0, 2, 0, 4, 2, 1, 0, 100, 1];
    let output = play(&[], &session);
    assert_eq!(output.status.code(), Some(0));
    assert_eq!(lines(&output), "0 buzz 2 0\n1 buzz 2 0\n");
    let h3 = "03 01 00 02 00  00 00 00 00 00  02 00 02 00  04 02 01 00";
    let text = format!("000000 000000 000005 {h3} = 000000 000000 000001 {h3} =\n");
    let output = play(&["--cases"], text.as_bytes());
    assert_eq!(output.status.code(), Some(0));
    let answers = "ran buzz 2 0 0 255 0 2: 128 0\nran spent 1 1 0 0 0 0: 128\n";
    assert_eq!(lines(&output), answers);
}

#[test]
fn typed_cases_of_request_a10() {
    let h5 = |buttons: &str| {
        let parts = "03 00 02 00  03 00 03 01  05 02 01 00  06 03 01 00";
        format!("04 01 {buttons} 04 00  00 00 00 00 00  {parts}")
    };
    let (two, thirteen) = (h5("02"), h5("0d"));
    let text = format!("000000 000000 000001 {two} % 000001 000003 000000 {two} %\n");
    let output = play(&["--cases"], text.as_bytes());
    assert_eq!(output.status.code(), Some(0));
    let answers = "reported 4 3 0 1 0 1 1 1\nreported 4 2 0 1 1 0 0 0\n";
    assert_eq!(lines(&output), answers);
    let text = format!("000000 000000 010000 {thirteen} % 000000 000000 010001 {thirteen} %");
    let output = play(&["--cases"], text.as_bytes());
    assert_eq!(output.status.code(), Some(0));
    let zeros = "0 0 0 0 0 0 0 0";
    let answers = format!("reported refused 20 {zeros}\nreported refused 13 {zeros}\n");
    assert_eq!(lines(&output), answers);
}

#[test]
fn other_arguments_get_the_usage() {
    for arguments in [
        &["--few"][..],
        &["--many", "--many"],
        &["--many", "--cases"],
        &[""],
    ] {
        let output = program().args(arguments).output().unwrap();
        assert_eq!(output.status.code(), Some(2));
        assert!(output.stdout.is_empty());
        assert!(output.stderr.starts_with(b"usage: "));
    }
}

#[test]
fn an_input_that_cannot_be_read_is_no_empty_input() {
    let directory = File::open(env!("CARGO_MANIFEST_DIR")).unwrap();
    let path = PathBuf::from(env!("CARGO_TARGET_TMPDIR")).join("write-only");
    let write_only = File::create(path).unwrap();
    for input in [directory, write_only] {
        let output = program().stdin(input).output().unwrap();
        assert_eq!(output.status.code(), Some(1));
        assert!(output.stdout.is_empty());
        assert!(!output.stderr.is_empty());
    }
}

#[test]
fn no_more_is_read_than_is_needed() {
    let path = PathBuf::from(env!("CARGO_TARGET_TMPDIR")).join("too-long");
    std::fs::write(&path, [0; 70_000]).unwrap();
    let mut input = File::open(path).unwrap();
    let shared = input.try_clone().unwrap();
    let output = program().stdin(shared).output().unwrap();
    assert_eq!(lines(&output), "refused 10 0\n");
    assert_eq!(output.status.code(), Some(0));
    assert_eq!(input.stream_position().unwrap(), 65_537);
}
