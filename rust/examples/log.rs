//! Adds up the requests of a web server's access log, which it reads from standard input. Skips the
//! lines that have no status and size, and says why.

use std::env;
use std::io::{self, BufWriter, Read, Write};
use std::process::ExitCode;
use torkettle::column::LineReader;
use torkettle::{AtoiSimdError, Parse, parse_prefix};

const HELP: &str = "\
Adds up the requests of a web server's access log, which it reads from standard input. Prints
the lines that have no status and size, and why, and how many requests there are, how many of
them failed, and how many bytes they took.

    cargo run --release --example log < FILE
";

fn reason(error: AtoiSimdError<'_>) -> &'static str {
    match error {
        AtoiSimdError::Empty => "no digit",
        _ => "number out of range",
    }
}

// Returns the number at the start of `text`, and the bytes after a space, if any.
fn number_and_rest<T: Parse>(text: &[u8]) -> Result<(T, &[u8]), &'static str> {
    let (number, len) = parse_prefix::<T, true, false>(text).map_err(reason)?;
    match &text[len..] {
        [] => Ok((number, &[])),
        [b' ', rest @ ..] => Ok((number, rest)),
        _ => Err("no space after the number"),
    }
}

// Returns what follows the next quote that no backslash escapes.
fn after_quote(text: &[u8]) -> Option<&[u8]> {
    let mut bytes = text.iter();
    while let Some(byte) = bytes.next() {
        match byte {
            b'"' => return Some(bytes.as_slice()),
            b'\\' => _ = bytes.next(),
            _ => {}
        }
    }
    None
}

// Returns the status and the size, which follow the request: `.. "GET / HTTP/1.1" 200 5316 ..`. A server
// writes a quote of the request as `\"` or `\x22`, and `-` for a size of 0.
fn status_and_size(line: &[u8]) -> Result<(u16, u64), &'static str> {
    let request = after_quote(line.trim_ascii_end()).ok_or("no request")?;
    let rest = after_quote(request).ok_or("no end of the request")?;
    let numbers = rest.strip_prefix(b" ").ok_or("no space after the request")?;
    let (status, rest) = number_and_rest::<u16>(numbers)?;
    match rest {
        [b'-'] | [b'-', b' ', ..] => Ok((status, 0)),
        _ => Ok((status, number_and_rest::<u64>(rest)?.0)),
    }
}

// Reads a log, and prints the skipped lines and the sums.
fn print_sums(input: impl Read, mut out: impl Write) -> io::Result<()> {
    let (mut requests, mut failed, mut bytes, mut skipped) = (0_u64, 0_u64, 0_u64, 0_u64);
    let mut reader = LineReader::new(input);
    while let Some(item) = reader.next_line()? {
        let (line, found) = match item {
            Ok(line) => (line.line(), status_and_size(line.text)),
            Err(error) => (error.line(), Err("too long")),
        };
        match found {
            Ok((status, size)) => {
                requests += 1;
                failed += u64::from(status >= 400);
                bytes = bytes.saturating_add(size);
            }
            Err(reason) => {
                writeln!(out, "line {line} is skipped: {reason}")?;
                skipped += 1;
            }
        }
    }
    writeln!(out, "requests {requests:10}")?;
    writeln!(out, "failed   {failed:10}")?;
    writeln!(out, "bytes    {bytes:10}")?;
    writeln!(out, "skipped  {skipped:10}")?;
    out.flush()
}

fn main() -> ExitCode {
    let ended = match env::args_os().nth(1) {
        None => print_sums(io::stdin().lock(), BufWriter::new(io::stdout().lock())),
        Some(argument) if argument == "--help" => io::stdout().write_all(HELP.as_bytes()),
        Some(_) => Err(io::Error::other("it takes no arguments but --help")),
    };
    match ended {
        // After `head`, nothing reads the rest.
        Err(error) if error.kind() != io::ErrorKind::BrokenPipe => {
            eprintln!("log: {error}");
            ExitCode::FAILURE
        }
        _ => ExitCode::SUCCESS,
    }
}
