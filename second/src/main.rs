//! The program: its arguments, standard input and output, and exit status.
//!
//! Without an argument it is "The session program" of the rule book; with
//! `--many` it plays a stream of sessions, with `--cases` it answers typed
//! cases.
#![forbid(unsafe_code)]

use second::streams::{many, one, typed};
use std::env;
use std::ffi::OsString;
use std::fs::File;
use std::io::{self, BufReader, BufWriter, StdoutLock, Write};
use std::os::fd::AsFd;
use std::process::ExitCode;

/// Standard output, written in pieces of some size.
type Out = BufWriter<StdoutLock<'static>>;

fn main() -> ExitCode {
    let arguments: Vec<OsString> = env::args_os().skip(1).collect();
    let done = match &arguments[..] {
        [] => answer(one),
        [only] if only == "--many" => answer(|input, out| many(&mut BufReader::new(input), out)),
        [only] if only == "--cases" => answer(typed),
        _ => {
            eprintln!("usage: second [--many | --cases] < input");
            return ExitCode::from(2);
        }
    };
    if let Err(error) = done {
        eprintln!("second: {error}");
        return ExitCode::from(1);
    }
    ExitCode::SUCCESS
}

/// Goes through standard input in this way; the lines before an error are
/// still printed.
fn answer(way: fn(&mut File, &mut Out) -> io::Result<()>) -> io::Result<()> {
    let mut input = standard_input()?;
    let mut out = BufWriter::new(io::stdout().lock());
    let done = way(&mut input, &mut out);
    out.flush()?;
    done
}

/// Standard input as a plain file: the library's own handle reads ahead, and
/// takes an input that cannot be read for an empty one.
fn standard_input() -> io::Result<File> {
    Ok(File::from(io::stdin().as_fd().try_clone_to_owned()?))
}
