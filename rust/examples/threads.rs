//! Adds up the numbers of a file, one on each line, on several threads. Each reads a piece of the file.

use std::fs::File;
use std::io::{self, BufRead, BufReader, BufWriter, Read, Seek, SeekFrom, Write};
use std::process::ExitCode;
use std::{env, thread};
use torkettle::column::{LineError, LineReader};

const HELP: &str = "\
Adds up the numbers of a file, one on each line, on several threads. Prints the lines that are
not a number, how many others there are, and their sum. Without THREADS, it takes as many as
the machine has.

    cargo run --release --example threads -- FILE [THREADS]
";

/// What a thread finds in its piece. The indices of the skipped lines count from the start of the piece.
#[derive(Default)]
pub struct Found {
    pub lines: usize,
    pub numbers: u64,
    pub sum: i128,
    pub skipped: Vec<(usize, String)>,
}

/// Returns the offsets at which `pieces` pieces of `file` begin, and the offset at which the last ends. A piece
/// begins at the start of a line.
pub fn cuts(file: impl Read + Seek, pieces: u64) -> io::Result<Vec<u64>> {
    let mut file = BufReader::new(file);
    let length = file.seek(SeekFrom::End(0))?;
    let mut cuts = vec![0];
    for piece in 1..pieces {
        // One byte earlier, so that a line feed right before the cut counts.
        let place = (length / pieces * piece).saturating_sub(1);
        file.seek(SeekFrom::Start(place))?;
        cuts.push(place + file.skip_until(b'\n')? as u64);
    }
    cuts.push(length);
    Ok(cuts)
}

/// Reads the lines of a piece.
pub fn read_piece(piece: impl Read) -> io::Result<Found> {
    let (mut found, mut reader) = (Found::default(), LineReader::new(piece));
    while let Some(numbers) = reader.next_numbers::<i64>()? {
        for item in numbers {
            match item {
                Ok(number) => {
                    found.numbers += 1;
                    found.sum += i128::from(number);
                }
                Err(LineError::Field(error)) => {
                    found.skipped.push((error.index, format!("\"{}\"", error.text.escape_ascii())));
                }
                Err(LineError::TooLong { index, longest_line, .. }) => {
                    found.skipped.push((index, format!("more than {longest_line} bytes")));
                }
            }
        }
    }
    found.lines = reader.position().0;
    Ok(found)
}

// Opens the file once more for each thread, so that each has an offset of its own.
fn read_on_threads(path: &str, threads: u64) -> io::Result<Vec<Found>> {
    let cuts = cuts(File::open(path)?, threads)?;
    let read = |piece: &[u64]| {
        let mut file = File::open(path)?;
        file.seek(SeekFrom::Start(piece[0]))?;
        read_piece(file.take(piece[1].saturating_sub(piece[0])))
    };
    thread::scope(|scope| {
        let readers: Vec<_> =
            cuts.windows(2).map(|piece| scope.spawn(move || read(piece))).collect();
        readers.into_iter().map(|reader| reader.join().expect("no thread panics")).collect()
    })
}

/// Prints the lines that are not a number, how many others there are, and their sum.
pub fn print_sum(pieces: Vec<Found>, mut out: impl Write) -> io::Result<()> {
    let (mut lines, mut numbers, mut sum) = (0, 0, 0);
    for found in pieces {
        for (index, text) in found.skipped {
            writeln!(out, "line {} is skipped: {text}", lines + index + 1)?;
        }
        lines += found.lines;
        numbers += found.numbers;
        sum += found.sum;
    }
    writeln!(out, "{numbers} numbers\nsum {sum}")?;
    out.flush()
}

// Does what the arguments ask for.
fn run(arguments: &[String]) -> io::Result<()> {
    let (file, threads) = match arguments {
        [option] if option == "--help" => return io::stdout().write_all(HELP.as_bytes()),
        [file] => (file, thread::available_parallelism()?.get() as u64),
        [file, threads] => (file, threads.parse().map_err(io::Error::other)?),
        _ => return Err(io::Error::other("it takes FILE [THREADS], or --help")),
    };
    print_sum(read_on_threads(file, threads.max(1))?, BufWriter::new(io::stdout().lock()))
}

fn main() -> ExitCode {
    match run(&env::args().skip(1).collect::<Vec<_>>()) {
        // After `head`, nothing reads the rest.
        Err(error) if error.kind() != io::ErrorKind::BrokenPipe => {
            eprintln!("threads: {error}");
            ExitCode::FAILURE
        }
        _ => ExitCode::SUCCESS,
    }
}
