//! Adds up the numbers of its standard input, one on each line, and prints the lines that are not a
//! number. An input of any length needs little memory.

use std::env;
use std::io::{self, BufWriter, Read, Write};
use std::process::ExitCode;
use torkettle::column::{LineError, LineReader};

const HELP: &str = "\
Adds up the numbers of its standard input, one on each line. Prints the lines that are not
a number, how many others there are, and their sum.

    cargo run --release --example sum < FILE
";

/// Prints the lines of `input` that are not a number, how many others there are, and their sum.
pub fn print_sum(input: impl Read, mut out: impl Write) -> io::Result<()> {
    let (mut reader, mut numbers, mut sum) = (LineReader::new(input), 0_u64, Some(0_i64));
    while let Some(lines) = reader.next_numbers::<i64>()? {
        for item in lines {
            match item {
                Ok(number) => {
                    numbers += 1;
                    sum = sum.and_then(|sum| sum.checked_add(number));
                }
                Err(error) => print_skipped(error, &mut out)?,
            }
        }
    }
    writeln!(out, "{numbers} numbers")?;
    match sum {
        Some(sum) => writeln!(out, "sum {sum}")?,
        None => writeln!(out, "sum out of range")?,
    }
    out.flush()
}

fn print_skipped(error: LineError<'_>, mut out: impl Write) -> io::Result<()> {
    let line = error.line();
    match error {
        LineError::Field(error) => {
            writeln!(out, "line {line} is skipped: \"{}\"", error.text.escape_ascii())
        }
        LineError::TooLong { longest_line, .. } => {
            writeln!(out, "line {line} is skipped: more than {longest_line} bytes")
        }
    }
}

fn main() -> ExitCode {
    let ended = match env::args_os().nth(1) {
        None => print_sum(io::stdin().lock(), BufWriter::new(io::stdout().lock())),
        Some(argument) if argument == "--help" => io::stdout().write_all(HELP.as_bytes()),
        Some(_) => Err(io::Error::other("it takes no arguments but --help")),
    };
    match ended {
        // After `head`, nothing reads the rest.
        Err(error) if error.kind() != io::ErrorKind::BrokenPipe => {
            eprintln!("sum: {error}");
            ExitCode::FAILURE
        }
        _ => ExitCode::SUCCESS,
    }
}
