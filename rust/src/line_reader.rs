//! The lines of an input that need not fit into memory. No proof covers this file.

use crate::Parse;
use crate::column::{FieldError, Fields};
use core::error::Error;
use core::fmt;
use core::iter::FusedIterator;
use std::io::{self, BufRead, ErrorKind, Read};
use std::vec::Vec;

const FIRST_ROOM: usize = 1 << 18;
const LONGEST_LINE: usize = 1 << 20;

/// Reads the lines of a file, a pipe or another [`Read`], in constant memory.
///
/// [`next_numbers`](LineReader::next_numbers) gives the items of [`Fields::lines`] for the whole input, however
/// many bytes each read returns. [`next_line`](LineReader::next_line) gives a line's bytes, for lines that are
/// not one number. A line of more than 1 MiB, not counting its end, is an error and is skipped.
///
/// ```
/// use torkettle::column::LineReader;
///
/// # fn main() -> std::io::Result<()> {
/// let input = &b"80\r\n44x\r\n8080"[..]; // or a `File`, or `stdin().lock()`
/// let mut reader = LineReader::new(input);
/// let mut total = 0;
/// while let Some(numbers) = reader.next_numbers::<u64>()? {
///     for item in numbers {
///         match item {
///             Ok(number) => total += number,
///             Err(error) => {
///                 assert_eq!(error.to_string(), "line 2 at byte 4 has an unexpected byte");
///             }
///         }
///     }
/// }
/// assert_eq!(total, 8160);
/// # Ok(())
/// # }
/// ```
///
/// It asks for up to 256 KiB at a time, so it needs no `BufReader`, and gives a line as soon as its line feed has
/// been read. If a read fails, nothing is lost: the next call reads on. See the [guide](crate::guide#read-files).
pub struct LineReader<R> {
    input: R,
    longest_line: usize,
    has_ended: bool,
    // What was read is `text[start..read]`. Of this, `start..end` are whole lines, and no line feed follows.
    text: Vec<u8>,
    start: usize,
    end: usize,
    read: usize,
    // The index and the offset of the line that begins at `start`.
    position: (usize, usize),
    // The number of bytes before `start` that belong to the same line, which is too long.
    forgotten: Option<usize>,
}

/// The numbers of some lines of a [`LineReader`]. If you drop it before the end, the other lines are skipped. If you
/// leak it, as by [`mem::forget`](core::mem::forget), the positions of later lines do not count these lines.
///
/// ```
/// use torkettle::column::LineReader;
///
/// # fn main() -> std::io::Result<()> {
/// let mut reader = LineReader::new(&b"80\n443"[..]);
/// assert_eq!(reader.next_numbers::<u16>()?.unwrap().next(), Some(Ok(80)));
/// # Ok(())
/// # }
/// ```
pub struct Numbers<'a, T: Parse> {
    fields: Fields<'a, T>,
    // The item after those of `fields`.
    too_long: Option<LineError<'a>>,
    text: &'a [u8],
    // The offset at which `text` ends.
    end: usize,
    position: &'a mut (usize, usize),
}

/// A line of a [`LineReader`] without its end, which is `\n` or `\r\n`.
///
/// ```
/// use torkettle::column::{Line, LineReader};
///
/// # fn main() -> std::io::Result<()> {
/// let mut reader = LineReader::new(&b"tea,250\r\n"[..]);
/// assert_eq!(reader.next_line()?, Some(Ok(Line { index: 0, place: 0, text: b"tea,250" })));
/// # Ok(())
/// # }
/// ```
#[derive(Debug, Clone, Copy, PartialEq, Eq)]
pub struct Line<'a> {
    /// How many lines precede it.
    pub index: usize,
    /// The offset of its first byte in the input.
    pub place: usize,
    /// Its bytes.
    pub text: &'a [u8],
}

/// Why a line of a [`LineReader`] has no number, or no bytes.
///
/// ```
/// use torkettle::column::{LineError, LineReader};
///
/// # fn main() -> std::io::Result<()> {
/// let mut reader = LineReader::with_longest_line(4, &b"12345\n6"[..]);
/// let error = reader.next_line()?.unwrap().unwrap_err();
/// assert_eq!(error, LineError::TooLong { index: 0, place: 0, longest_line: 4 });
/// assert_eq!(error.to_string(), "line 1 at byte 0 has more than 4 bytes");
/// assert_eq!(reader.next_line()?.unwrap().unwrap().text, b"6");
/// # Ok(())
/// # }
/// ```
#[derive(Debug, Clone, Copy, PartialEq, Eq)]
pub enum LineError<'a> {
    /// It is not a number of the type.
    Field(FieldError<'a>),
    /// It has more bytes than the limit, not counting its end, which is `\n` or `\r\n`.
    TooLong {
        /// How many lines precede it.
        index: usize,
        /// The offset of its first byte in the input.
        place: usize,
        /// The limit.
        longest_line: usize,
    },
}

impl<R: Read> LineReader<R> {
    /// Makes a reader of lines of at most 1 MiB.
    ///
    /// ```
    /// use torkettle::column::LineReader;
    ///
    /// let mut reader = LineReader::new(std::io::stdin().lock());
    /// # let _ = reader.position();
    /// ```
    pub fn new(input: R) -> LineReader<R> {
        LineReader::with_longest_line(LONGEST_LINE, input)
    }

    /// Makes a reader of lines of at most `longest_line` bytes, not counting the `\n` or `\r\n` at their ends. It
    /// needs as much memory if there is a line of this length, and otherwise at most 256 KiB, or twice the length of
    /// the longest line if this is more.
    ///
    /// ```
    /// use torkettle::column::LineReader;
    ///
    /// let mut reader = LineReader::with_longest_line(4, &b"1234\r\n12345\n"[..]);
    /// assert!(reader.next_line().unwrap().unwrap().is_ok());
    /// assert!(reader.next_line().unwrap().unwrap().is_err());
    /// ```
    pub fn with_longest_line(longest_line: usize, input: R) -> LineReader<R> {
        LineReader {
            input,
            longest_line,
            has_ended: false,
            text: Vec::new(),
            start: 0,
            end: 0,
            read: 0,
            position: (0, 0),
            forgotten: None,
        }
    }

    /// Returns the same reader, but its next line has the index `index` and begins at offset `place`, as for
    /// [`Fields::starting_at`].
    ///
    /// ```
    /// use torkettle::column::LineReader;
    ///
    /// let mut reader = LineReader::new(&b"4x"[..]).starting_at(2, 9);
    /// let line = reader.next_line().unwrap().unwrap().unwrap();
    /// assert_eq!((line.index, line.place), (2, 9));
    /// ```
    ///
    /// # Panics
    ///
    /// Later calls of `next_numbers` and `next_line` may panic if `index` or `place`, plus the length of the input,
    /// exceeds `usize::MAX`.
    #[must_use]
    pub fn starting_at(mut self, index: usize, place: usize) -> LineReader<R> {
        self.position = (index, place);
        self
    }

    /// Returns the index of the next line, and the offset at which it begins. At the end, these are the number
    /// of all lines, and the offset at which the input ends.
    ///
    /// ```
    /// use torkettle::column::LineReader;
    ///
    /// let mut reader = LineReader::new(&b"80\n443"[..]);
    /// while reader.next_line().unwrap().is_some() {}
    /// assert_eq!(reader.position(), (2, 6));
    /// ```
    pub fn position(&self) -> (usize, usize) {
        self.position
    }

    /// Returns an iterator over the numbers of the next lines: usually of all those that were read at once. At
    /// the end of the input, returns `None`.
    ///
    /// ```
    /// use torkettle::column::LineReader;
    ///
    /// # fn main() -> std::io::Result<()> {
    /// let mut reader = LineReader::new(&b"port\n80\n44x\n443"[..]);
    /// reader.next_line()?; // the header
    /// let mut ports = Vec::new();
    /// while let Some(numbers) = reader.next_numbers::<u16>()? {
    ///     ports.extend(numbers.flatten());
    /// }
    /// assert_eq!(ports, [80, 443]);
    /// # Ok(())
    /// # }
    /// ```
    ///
    /// # Errors
    ///
    /// What the input returns, except [`ErrorKind::Interrupted`], after which it is read again.
    #[inline]
    pub fn next_numbers<T: Parse>(&mut self) -> io::Result<Option<Numbers<'_, T>>> {
        let (lines, too_long) = match self.fill()? {
            Filled::Lines => (self.start..self.end, None),
            Filled::TooLong(error) => (0..0, Some(error)),
            Filled::End => return Ok(None),
        };
        let (text, (index, place)) = (&self.text[lines], self.position);
        let fields = Fields::lines(text).starting_at(index, place);
        self.start += text.len();
        let end = place + text.len();
        Ok(Some(Numbers { fields, too_long, text, end, position: &mut self.position }))
    }

    /// Returns the next line. At the end of the input, which is the first read of no bytes, returns `None`, and does
    /// not read again. What precedes it is a line even without a line feed.
    ///
    /// ```
    /// use torkettle::column::LineReader;
    /// use torkettle::parse;
    ///
    /// # fn main() -> std::io::Result<()> {
    /// let mut reader = LineReader::new(&b"tea,250\nbroken\nrice,40"[..]);
    /// let mut total = 0;
    /// while let Some(Ok(line)) = reader.next_line()? {
    ///     let price = line.text.split(|byte| *byte == b',').nth(1);
    ///     match price.map(parse::<u32, true, true>) {
    ///         Some(Ok(price)) => total += price,
    ///         _ => assert_eq!(line.line(), 2),
    ///     }
    /// }
    /// assert_eq!(total, 290);
    /// # Ok(())
    /// # }
    /// ```
    ///
    /// # Errors
    ///
    /// As for [`next_numbers`](LineReader::next_numbers).
    pub fn next_line(&mut self) -> io::Result<Option<Result<Line<'_>, LineError<'_>>>> {
        match self.fill()? {
            Filled::Lines => {}
            Filled::TooLong(error) => return Ok(Some(Err(error))),
            Filled::End => return Ok(None),
        }
        let (start, (index, place)) = (self.start, self.position);
        self.step_over_line();
        Ok(Some(Ok(Line { index, place, text: without_end(&self.text[start..self.start]) })))
    }

    // Reads until there are whole lines, unless there are some. At the end, the last needs no line feed.
    fn fill(&mut self) -> io::Result<Filled> {
        while self.start == self.end && !self.has_ended {
            self.make_room();
            let new = self.read;
            self.read += self.read_once()?;
            self.has_ended = self.read == new;
            let line_feed = self.text[new..self.read].iter().rposition(|byte| *byte == b'\n');
            match line_feed {
                Some(offset) => self.end = new + offset + 1,
                None if self.has_ended => self.end = self.read,
                None => {}
            }
            if self.begins_with_too_long_a_line() {
                self.forgotten.get_or_insert(0);
            }
        }
        let (longest_line, (index, place)) = (self.longest_line, self.position);
        if let Some(forgotten) = self.forgotten.take() {
            self.advance(0, forgotten);
            self.step_over_line();
            return Ok(Filled::TooLong(LineError::TooLong { index, place, longest_line }));
        }
        Ok(if self.start == self.end { Filled::End } else { Filled::Lines })
    }

    // Makes room for the next read. Forgets a line that is too long.
    fn make_room(&mut self) {
        let kept = self.read - self.start;
        if kept <= self.start || self.read == self.text.len() {
            self.text.copy_within(self.start..self.read, 0);
            (self.start, self.end, self.read) = (0, 0, kept);
        }
        if self.forgotten.is_some() || self.read > self.longest_line.saturating_add(1) {
            *self.forgotten.get_or_insert(0) += self.read;
            self.read = 0;
        } else if self.read == self.text.len() {
            // The end of a line takes up to two bytes.
            let room = FIRST_ROOM.max(2 * self.read).min(self.longest_line.saturating_add(2));
            // `resize` alone might reserve twice as much.
            self.text.reserve_exact(room - self.text.len());
            self.text.resize(room, 0);
        }
    }

    // Only the first of the lines that were read can be too long: it then takes all of the room, or has no line feed.
    fn begins_with_too_long_a_line(&self) -> bool {
        let lines = &self.text[self.start..self.end];
        lines.len() > self.longest_line
            && lines
                .split_inclusive(|byte| *byte == b'\n')
                .next()
                .is_some_and(|line| without_end(line).len() > self.longest_line)
    }

    // Appends what one read returns to the text. Returns how many bytes this is: none at the end.
    fn read_once(&mut self) -> io::Result<usize> {
        let room = &mut self.text[self.read..];
        loop {
            match self.input.read(room) {
                Err(error) if error.kind() == ErrorKind::Interrupted => {}
                Ok(count) if count > room.len() => return Err(ErrorKind::InvalidData.into()),
                ended => return ended,
            }
        }
    }

    // Steps over the rest of a line, which is empty at the end of the input.
    fn step_over_line(&mut self) {
        // This searches faster than an iterator. A slice can be read.
        let length = (&self.text[self.start..self.end]).skip_until(b'\n').unwrap_or(0);
        self.advance(1, length);
        self.start += length;
    }

    fn advance(&mut self, lines: usize, bytes: usize) {
        let (index, place) = self.position;
        self.position = match (index.checked_add(lines), place.checked_add(bytes)) {
            (Some(index), Some(place)) => (index, place),
            _ => panic!("the position after a line exceeds usize::MAX"),
        };
    }
}

// The line without `\n` or `\r\n`.
fn without_end(line: &[u8]) -> &[u8] {
    match line {
        [text @ .., b'\r', b'\n'] | [text @ .., b'\n'] => text,
        text => text,
    }
}

// What `fill` found. A line that is too long is stepped over.
enum Filled {
    Lines,
    TooLong(LineError<'static>),
    End,
}

impl<'a, T: Parse> Iterator for Numbers<'a, T> {
    type Item = Result<T, LineError<'a>>;

    #[inline(always)]
    fn next(&mut self) -> Option<Result<T, LineError<'a>>> {
        match self.fields.next() {
            Some(Ok(number)) => Some(Ok(number)),
            Some(Err(error)) => Some(Err(LineError::Field(error))),
            None => self.too_long.take().map(Err),
        }
    }
}

impl<T: Parse> FusedIterator for Numbers<'_, T> {}

// Nothing here takes a reference to `fields`, which would keep it in memory.
impl<T: Parse> Drop for Numbers<'_, T> {
    #[inline(always)]
    fn drop(&mut self) {
        let (index, place) = self.fields.position();
        *self.position = match self.end - place {
            0 => (index, place),
            left => (index + lines_in(&self.text[self.text.len() - left..]), self.end),
        };
    }
}

#[cold]
fn lines_in(text: &[u8]) -> usize {
    text.split_inclusive(|byte| *byte == b'\n').count()
}

impl Line<'_> {
    /// Returns the number of the line, from 1.
    ///
    /// ```
    /// let line = torkettle::column::Line { index: 2, place: 9, text: b"80" };
    /// assert_eq!(line.line(), 3);
    /// ```
    pub fn line(&self) -> usize {
        self.index.saturating_add(1)
    }
}

impl LineError<'_> {
    /// Returns the number of the line, from 1.
    ///
    /// ```
    /// use torkettle::column::LineError;
    ///
    /// assert_eq!(LineError::TooLong { index: 2, place: 9, longest_line: 4 }.line(), 3);
    /// ```
    pub fn line(&self) -> usize {
        match self {
            LineError::Field(error) => error.line(),
            LineError::TooLong { index, .. } => index.saturating_add(1),
        }
    }

    /// Returns the offset in the input at which the line begins.
    ///
    /// ```
    /// use torkettle::column::LineError;
    ///
    /// assert_eq!(LineError::TooLong { index: 2, place: 9, longest_line: 4 }.place(), 9);
    /// ```
    pub fn place(&self) -> usize {
        match self {
            LineError::Field(error) => error.place,
            LineError::TooLong { place, .. } => *place,
        }
    }
}

impl fmt::Display for LineError<'_> {
    fn fmt(&self, f: &mut fmt::Formatter<'_>) -> fmt::Result {
        write!(f, "line {} at byte {} ", self.line(), self.place())?;
        match self {
            LineError::Field(error) => f.write_str(error.fault()),
            LineError::TooLong { longest_line, .. } => {
                write!(f, "has more than {longest_line} bytes")
            }
        }
    }
}

impl Error for LineError<'_> {}

// Shows where it is, but not what it has read.
impl<R> fmt::Debug for LineReader<R> {
    fn fmt(&self, f: &mut fmt::Formatter<'_>) -> fmt::Result {
        f.debug_struct("LineReader").field("position", &self.position).finish_non_exhaustive()
    }
}

impl<T: Parse> fmt::Debug for Numbers<'_, T> {
    fn fmt(&self, f: &mut fmt::Formatter<'_>) -> fmt::Result {
        f.debug_struct("Numbers").field("position", &self.fields.position()).finish_non_exhaustive()
    }
}
