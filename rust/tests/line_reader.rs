//! Compares what `LineReader` and the examples find with `Fields` over the whole text, whatever each read gives.

#[path = "../examples/sum.rs"]
#[allow(dead_code)]
mod sum;
#[path = "../examples/threads.rs"]
#[allow(dead_code)]
mod threads;

use std::io::{self, Cursor, ErrorKind, Read};
use std::panic::{AssertUnwindSafe, catch_unwind};
use torkettle::column::{Fields, LineError, LineReader};
use torkettle_common::random::Random;

// Line ends of every kind, lines that are empty, longer than most pieces or no number, and a last line
// without a line feed.
const TEXTS: [&[u8]; 14] = [
    b"",
    b"\n",
    b"\r\n",
    b"7",
    b"-7\n+8\r\n",
    b"1\n\n\n2\r\r\n\r3\r",
    b"1\r\nx\r\n3\r\n4\r",
    b"\n\n\n\r\n\r\n\n1",
    b"9223372036854775807\r\n9223372036854775808\r\n-9223372036854775808\n-9223372036854775809",
    b"00000000000000000000000000000000000000000000000000000000000000001\n1\n",
    b"12345678901234567890123456789012345678901234567890\n\xff\xfe\n\0\n 1\n1 \n",
    b"1\r\n12\r\n1234567\r\n12345678\r\n123456789\r\n12345678\r",
    b"1234567\r8\n12345678\r\r\n12345678\rx\n12345678\r\n\r\n123456789",
    b"1\n22\n333\n4444\n55555\n666666\n7777777\n88888888\n999999999\n-1000000000\nx\n",
];

fn each_text(mut check: impl FnMut(&[u8])) {
    TEXTS.into_iter().for_each(&mut check);
    let mut random = Random::new(1);
    for _ in 0..80 {
        let length = random.below(120);
        let text: Vec<u8> =
            (0..length).map(|_| random.pick(b"0123456789012345\n\n\n\r-+x")).collect();
        check(&text);
    }
}

// Gives 1 to `most` bytes per call, and sometimes an error before them.
struct Slow<'a> {
    text: &'a [u8],
    most: usize,
    random: Random,
    errors: &'a [ErrorKind],
}

impl Read for Slow<'_> {
    fn read(&mut self, room: &mut [u8]) -> io::Result<usize> {
        let error = self.random.below(2 + 2 * self.errors.len());
        if let Some(kind) = self.errors.get(error) {
            return Err((*kind).into());
        }
        let count = (1 + self.random.below(self.most)).min(self.text.len()).min(room.len());
        let (given, rest) = self.text.split_at(count);
        room[..count].copy_from_slice(given);
        self.text = rest;
        Ok(count)
    }
}

fn slow<'a>(text: &'a [u8], most: usize, errors: &'a [ErrorKind]) -> Slow<'a> {
    Slow { text, most, random: Random::new(most as u64), errors }
}

// Calls again after each error, which must be one that the input may give.
fn retried<T>(mut call: impl FnMut() -> io::Result<T>) -> T {
    loop {
        match call() {
            Ok(value) => return value,
            Err(error) => assert_eq!(error.kind(), ErrorKind::WouldBlock),
        }
    }
}

fn in_words(item: Result<i64, LineError<'_>>) -> String {
    match item {
        Ok(number) => number.to_string(),
        Err(LineError::Field(error)) => format!("{error:?}"),
        Err(LineError::TooLong { index, place, .. }) => format!("{index} at {place} is too long"),
    }
}

fn numbers<R: Read>(mut reader: LineReader<R>) -> (Vec<String>, (usize, usize)) {
    let mut words = Vec::new();
    loop {
        // This lends the reader for one call only.
        let found = retried(|| {
            let numbers = reader.next_numbers::<i64>()?;
            Ok(numbers.map(|numbers| numbers.map(in_words).collect::<Vec<_>>()))
        });
        match found {
            Some(found) => words.extend(found),
            None => return (words, reader.position()),
        }
    }
}

fn lines<R: Read>(mut reader: LineReader<R>) -> (Vec<String>, (usize, usize)) {
    let mut words = Vec::new();
    loop {
        let found = retried(|| {
            let line = reader.next_line()?;
            Ok(line.map(|line| match line {
                Ok(line) => {
                    match Fields::lines(line.text).starting_at(line.index, line.place).next() {
                        Some(item) => in_words(item.map_err(LineError::Field)),
                        None => format!("{} at {} is empty", line.index, line.place),
                    }
                }
                Err(error) => in_words(Err(error)),
            }))
        });
        match found {
            Some(found) => words.push(found),
            None => return (words, reader.position()),
        }
    }
}

// The items of the lines of a text, of which those of more than `longest` bytes, without `\n` or `\r\n`, are too long.
fn expected(text: &[u8], longest: usize) -> (Vec<String>, (usize, usize)) {
    let (mut words, mut place) = (Vec::new(), 0);
    for (index, line) in text.split_inclusive(|byte| *byte == b'\n').enumerate() {
        let without_feed =
            line.strip_suffix(b"\n").map(|line| line.strip_suffix(b"\r").unwrap_or(line));
        if without_feed.unwrap_or(line).len() > longest {
            words.push(format!("{index} at {place} is too long"));
        } else {
            let fields = Fields::lines(line).starting_at(index, place);
            words.extend(fields.map(|item| in_words(item.map_err(LineError::Field))));
        }
        place += line.len();
    }
    let count = words.len();
    (words, (count, place))
}

const ERRORS: [&[ErrorKind]; 3] = [
    &[],
    &[ErrorKind::Interrupted],
    &[ErrorKind::Interrupted, ErrorKind::WouldBlock, ErrorKind::WouldBlock],
];

#[test]
fn whatever_a_read_gives_the_items_are_the_same() {
    each_text(|text| {
        // A debug build takes milliseconds for the room of a reader of long lines. No text has 1000 bytes.
        for (longest, step) in
            [(0, 13), (1, 13), (2, 13), (8, 13), (20, 13), (1000, 1), (1 << 20, 39)]
        {
            let expected = expected(text, longest);
            assert_eq!(numbers(LineReader::with_longest_line(longest, text)), expected);
            for most in (1..=40).step_by(step) {
                for errors in ERRORS {
                    let input = slow(text, most, errors);
                    let found = numbers(LineReader::with_longest_line(longest, input));
                    assert_eq!(found, expected, "1 to {most} bytes a read: {text:?}");
                }
            }
        }
    });
}

#[test]
fn the_lines_are_those_of_the_items() {
    each_text(|text| {
        for (longest, most) in [(1000, 1), (1 << 20, 7), (1000, 200), (5, 3), (8, 1), (8, 99)] {
            let (mut words, position) = expected(text, longest);
            let found = lines(LineReader::with_longest_line(longest, slow(text, most, ERRORS[2])));
            let empty = |word: &String| word.contains("text: []");
            for (word, line) in words.iter_mut().zip(&found.0) {
                if empty(word) && line.ends_with("is empty") {
                    *word = line.clone();
                }
            }
            assert_eq!(found, (words, position), "1 to {most} bytes a read: {text:?}");
        }
    });
}

#[test]
fn a_dropped_iterator_skips_its_lines() {
    for taken in 0..6 {
        let mut reader = LineReader::new(&b"1\n2x\n3\n4\n5"[..]).starting_at(10, 100);
        if let Some(numbers) = reader.next_numbers::<u8>().expect("a slice can be read") {
            numbers.take(taken).for_each(drop);
        }
        assert_eq!(reader.position(), (14, 109), "{taken} taken");
    }
}

#[test]
fn the_lines_of_a_leaked_iterator_are_not_counted() {
    // A read of the input returns one line.
    let input = Cursor::new(b"1\n").chain(Cursor::new(b"2x\n"));
    let mut reader = LineReader::new(input).starting_at(10, 100);
    std::mem::forget(reader.next_numbers::<u8>());
    assert_eq!(reader.position(), (10, 100));
    let line =
        reader.next_line().expect("it can be read").expect("it is there").expect("it is short");
    assert_eq!((line.index, line.place, line.text), (10, 100, &b"2x"[..]));
}

// The message of the panic of a call, if it panics.
fn panic_of(call: impl FnOnce()) -> Option<String> {
    let panic = catch_unwind(AssertUnwindSafe(call)).err()?;
    let message = panic.downcast_ref::<&str>().map(ToString::to_string);
    message.or_else(|| panic.downcast_ref::<String>().cloned())
}

#[test]
fn positions_above_the_greatest_panic_with_a_sentence() {
    const INPUT: &[u8] = b"1\n22\n";
    let starts = [
        (usize::MAX, 0, "exceeds usize::MAX", "too many indices"),
        (0, usize::MAX, "exceeds usize::MAX", "end above usize::MAX"),
        (0, usize::MAX - 4, "exceeds usize::MAX", "end above usize::MAX"),
    ];
    for (index, place, of_lines, of_numbers) in starts {
        let panics = |longest, call: fn(&mut LineReader<&[u8]>)| {
            let reader = LineReader::with_longest_line(longest, INPUT);
            panic_of(|| call(&mut reader.starting_at(index, place))).unwrap_or_default()
        };
        let by_lines = panics(9, |reader| while reader.next_line().unwrap().is_some() {});
        let by_long_lines = panics(0, |reader| while reader.next_line().unwrap().is_some() {});
        let by_numbers = panics(9, |reader| drop(reader.next_numbers::<u8>()));
        assert!(by_lines.contains(of_lines), "{by_lines:?} from {index} at {place}");
        assert!(by_long_lines.contains(of_lines), "{by_long_lines:?} from {index} at {place}");
        assert!(by_numbers.contains(of_numbers), "{by_numbers:?} from {index} at {place}");
    }
    let mut last = LineReader::new(INPUT).starting_at(usize::MAX - 5, usize::MAX - 5);
    while last.next_line().expect("a slice can be read").is_some() {}
    assert_eq!(last.position(), (usize::MAX - 3, usize::MAX));
}

#[test]
fn a_read_that_fails_or_lies_is_reported() {
    struct Given(fn(&[u8]) -> io::Result<usize>);
    impl Read for Given {
        fn read(&mut self, room: &mut [u8]) -> io::Result<usize> {
            self.0(room)
        }
    }
    let kind = |read| LineReader::new(Given(read)).next_line().unwrap_err().kind();
    assert_eq!(kind(|_| Err(ErrorKind::PermissionDenied.into())), ErrorKind::PermissionDenied);
    assert_eq!(kind(|room| Ok(room.len() + 1)), ErrorKind::InvalidData);
}

fn printed(text: &[u8]) -> String {
    let mut out = Vec::new();
    sum::print_sum(text, &mut out).expect("a slice can be read, and a vector written");
    String::from_utf8(out).expect("all bytes are escaped")
}

// The pieces of a text for so many threads: whole lines, and together the text.
fn pieces(text: &[u8], count: u64) -> Vec<&[u8]> {
    let cuts = threads::cuts(Cursor::new(text), count).expect("a slice can be read");
    assert_eq!(cuts.len() as u64, count + 1);
    for cut in &cuts {
        let before = &text[..*cut as usize];
        let begins_line = before == text || before.is_empty() || before.ends_with(b"\n");
        assert!(begins_line, "{count} pieces of {text:?}: {cuts:?}");
    }
    let piece = |cuts: &[u64]| &text[cuts[0] as usize..cuts[1] as usize];
    let pieces: Vec<_> = cuts.windows(2).map(piece).collect();
    assert_eq!(pieces.concat(), text, "{count} pieces: {cuts:?}");
    pieces
}

#[test]
fn threads_print_what_the_sum_prints() {
    each_text(|text| {
        let sum = printed(text);
        for count in 1..=9 {
            let pieces = pieces(text, count);
            // A debug build takes milliseconds for each piece.
            if [1, 2, 9].contains(&count) {
                let read = |piece| threads::read_piece(piece).expect("a slice can be read");
                let (found, mut out) = (pieces.into_iter().map(read).collect(), Vec::new());
                threads::print_sum(found, &mut out).expect("a vector can be written");
                assert_eq!(String::from_utf8(out).as_ref(), Ok(&sum), "{count} threads: {text:?}");
            }
        }
    });
}

#[test]
fn the_example_prints_each_bad_line_and_the_sum() {
    assert_eq!(printed(b""), "0 numbers\nsum 0\n");
    assert_eq!(
        printed(b"200\r\n40x\r\n\n\xff\"\\\'\t\r\r\n+3\n-5"),
        "line 2 is skipped: \"40x\"\nline 3 is skipped: \"\"\n\
         line 4 is skipped: \"\\xff\\\"\\\\\\'\\t\\r\"\n3 numbers\nsum 198\n"
    );
    assert_eq!(printed(b"9223372036854775807\n1\n-1\n"), "3 numbers\nsum out of range\n");
    let mut long = vec![b'0'; (1 << 20) + 1];
    assert_eq!(printed(&long), "line 1 is skipped: more than 1048576 bytes\n0 numbers\nsum 0\n");
    long[1] = b'\n';
    assert_eq!(printed(&long), "2 numbers\nsum 0\n");
}
