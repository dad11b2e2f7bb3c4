//! Compares the items of columns with what `str::parse` gives, and what `read` writes with the items. Shows
//! which separators are refused.
//!
//! `TORKETTLE_TEXTS` sets how many fields are generated.

use std::fmt::Debug;
use std::panic::catch_unwind;
use std::str::FromStr;
use torkettle::column::{Column, ColumnError, FieldError, Fields, is_separator};
use torkettle::{AtoiSimdError, Parse};
use torkettle_common::random::Random;
use torkettle_common::texts;

// How many fields are generated, at least. Each is read as the twelve types, with its separator and in lines.
const FIELDS: usize = 80_000;

// How many values there is room for in a read.
const ROOMS: [usize; 5] = [0, 1, 7, 64, 1000];

// Columns with good fields, and fields that are refused: empty, with other bytes, out of range.
const COLUMNS: [&str; 13] = [
    "",
    "1",
    "1,",
    "1,2,3",
    "-128,127,+7,0",
    "1,,2",
    ",",
    "1,x,3,-129,4",
    "007,00000000000000000000000000000128,5",
    "1 ,2",
    "1,2\r",
    "--1,+-2,-,+,9",
    "+12x3,-7.,-128-,1271,",
];

// The error of a column for a bad field: it is about the input from the field on.
fn column_error<'a>(input: &'a str, bad: &FieldError<'_>) -> ColumnError<'a> {
    let FieldError { index, place, .. } = *bad;
    match torkettle::parse_prefix::<i8, true, true>(&input.as_bytes()[place..]) {
        Ok((_, length)) => ColumnError::Trailing { index, place: place + length },
        Err(cause) => ColumnError::Field { index, place, cause },
    }
}

#[test]
fn a_column_ends_with_its_first_error() {
    for text in COLUMNS {
        let fields = Fields::<i8>::new(text.as_bytes(), b',');
        let mut expected: Vec<_> =
            fields.map(|item| item.map_err(|bad| column_error(text, &bad))).collect();
        let good = expected.iter().take_while(|item| item.is_ok()).count();
        expected.truncate(good + 1);
        let items: Vec<_> = Column::<i8>::new(text.as_bytes(), b',').collect();
        assert_eq!(items, expected, "items of {text:?}");
    }
}

#[test]
fn a_separator_is_no_part_of_a_number() {
    for byte in 0..=255 {
        let expected = !(byte == b'+' || byte == b'-' || byte.is_ascii_digit());
        assert_eq!(is_separator(byte), expected, "{byte}");
        let column = catch_unwind(|| Column::<u8>::new(b"1", byte).count());
        assert_eq!(column.is_ok(), expected, "a column with separator {byte}");
        let fields = catch_unwind(|| Fields::<u8>::new(b"1", byte).count());
        assert_eq!(fields.is_ok(), expected, "fields with separator {byte}");
    }
}

#[test]
fn a_start_leaves_room_for_the_fields() {
    let starts =
        |index, place| catch_unwind(|| Fields::<u8>::new(b"1,x", b',').starting_at(index, place));
    for (index, place, expected) in [
        (usize::MAX - 3, usize::MAX - 3, true),
        (usize::MAX - 2, 0, false),
        (0, usize::MAX - 2, false),
        (usize::MAX, usize::MAX, false),
    ] {
        assert_eq!(starts(index, place).is_ok(), expected, "from {index} at {place}");
    }
    let error =
        Fields::<u8>::new(b"1,x", b',').starting_at(usize::MAX - 3, 7).find_map(Result::err);
    assert_eq!(error.map(|error| (error.index, error.place)), Some((usize::MAX - 2, 9)));
}

// A column of fields that mostly have equally many digits, or at most as many. Some are refused.
fn column(random: &mut Random, separator: u8) -> Vec<u8> {
    let mut text = Vec::new();
    let (mut most, has_one_width) = (1 + random.below(20), random.one_in(2));
    let (other, has_signs) = (random.pick(&[4, 60, 600]), random.one_in(3));
    let end: &[u8] = if random.one_in(3) { b"\r" } else { b"" };
    let count = random.pick(&[3, 20, 200, 2000]);
    for _ in 0..1 + random.below(count) {
        most = if random.one_in(80) { 1 + random.below(20) } else { most };
        if random.one_in(other) {
            texts::push_text(random, &mut text);
        } else {
            let sign: &[u8] = if has_signs { random.pick(&[b"-", b"", b"", b"+"]) } else { b"" };
            text.extend_from_slice(sign);
            let digits = if has_one_width { most } else { 1 + random.below(most) };
            text.extend((0..digits).map(|_| random.digit()));
        }
        text.extend_from_slice(end);
        text.push(separator);
    }
    text.truncate(text.len() - random.below(2));
    text
}

// Compares each item with what std parses. `cut` removes what ends a field.
fn check_items<T: Parse + FromStr + PartialEq + Debug>(
    text: &[u8],
    separator: u8,
    mut fields: Fields<'_, T>,
    cut: impl Fn(&[u8]) -> &[u8],
) {
    let (mut index, mut place, shown) = (0, 0, text.escape_ascii());
    for part in text.split_inclusive(|byte| *byte == separator) {
        assert_eq!(fields.position(), (index, place), "in \"{shown}\"");
        let (item, field) = (fields.next().expect("one more item"), cut(part));
        let expected = std::str::from_utf8(field).ok().and_then(|field| field.parse().ok());
        assert_eq!(item.as_ref().ok(), expected.as_ref(), "at {place} of \"{shown}\"");
        if let Err(error) = item {
            assert_eq!((error.index, error.place), (index, place));
            assert_eq!(error.text.as_ptr_range(), field.as_ptr_range(), "the text is borrowed");
            assert_eq!(torkettle::parse::<T, true, true>(field), Err(error.cause));
        }
        (index, place) = (index + 1, place + part.len());
    }
    for _ in 0..2 {
        assert_eq!(fields.next(), None, "after the fields of \"{shown}\"");
        assert_eq!(fields.position(), (index, text.len()));
    }
}

// Reads all fields, `room` at once, and compares them with the items of the same fields.
fn check_reads<T: Parse + PartialEq + Debug + Default + Copy>(
    fields: Fields<'_, T>,
    items: Fields<'_, T>,
    room: usize,
) {
    let (mut fields, mut items) = (fields, items);
    let mut values = vec![T::default(); room];
    loop {
        let before = values.clone();
        let read = fields.read(&mut values);
        for value in &values[..read] {
            assert_eq!(items.next(), Some(Ok(*value)), "from {:?}", items.position());
        }
        assert_eq!(values[read..], before[read..], "the other values");
        assert_eq!(fields.position(), items.position());
        if read == room && room > 0 {
            continue;
        }
        let item = fields.next();
        assert_eq!(item, items.next());
        match item {
            None => return,
            Some(item) => assert!(room == 0 || item.is_err(), "a read stops before {item:?}"),
        }
    }
}

fn check_column<T: Parse + FromStr + PartialEq + Debug + Default + Copy>(
    text: &[u8],
    separator: u8,
    room: usize,
) {
    let fields = || Fields::<T>::new(text, separator);
    let lines = || Fields::<T>::lines(text);
    check_items(text, separator, fields(), |part| part.strip_suffix(&[separator]).unwrap_or(part));
    // As `str::lines` does.
    check_items(text, b'\n', lines(), |part| match part {
        [line @ .., b'\r', b'\n'] | [line @ .., b'\n'] => line,
        _ => part,
    });
    check_reads(fields(), fields(), room);
    check_reads(lines(), lines(), room);
}

#[test]
fn items_are_those_of_std_and_a_read_gives_their_numbers() {
    for text in COLUMNS {
        for ending in [",", "\n", "\r\n"] {
            let text = text.replace(',', ending);
            check_column::<i8>(text.as_bytes(), ending.as_bytes()[ending.len() - 1], 7);
        }
    }
    let (mut random, mut fields) = (Random::new(90), 0);
    while fields < texts::wanted(FIELDS) {
        let separator = random.pick(b",,\n\n;\xFF\0:/ \r");
        let text = column(&mut random, separator);
        fields += text.split(|byte| *byte == separator).count();
        macro_rules! check {
            ($($integer:ty)*) => {
                $(check_column::<$integer>(&text, separator, random.pick(&ROOMS));)*
            };
        }
        check!(i8 u8 i16 u16 i32 u32 i64 u64 i128 u128 isize usize);
    }
}

// At each step, a clone gives the items that are left. The hint is one, if there are some, and the bytes of their
// fields.
fn check_hints<I: Iterator + Clone>(mut items: I, text: &str, separator: char)
where
    I::Item: PartialEq + Debug,
{
    for index in 0.. {
        let left: Vec<_> = items.clone().collect();
        let bytes = text.splitn(index + 1, separator).nth(index).map_or(0, str::len);
        let hint = if left.is_empty() { (0, Some(0)) } else { (1, Some(bytes)) };
        assert_eq!(items.size_hint(), hint, "before item {index} of {text:?}");
        match items.next() {
            Some(item) => assert_eq!(left.first(), Some(&item)),
            None => return,
        }
    }
}

#[test]
fn hints_and_clones_are_true() {
    for text in COLUMNS {
        check_hints(Column::<i8>::new(text.as_bytes(), b','), text, ',');
        check_hints(Fields::<i8>::new(text.as_bytes(), b','), text, ',');
        let lines = text.replace(',', "\n");
        check_hints(Fields::<i8>::lines(lines.as_bytes()), &lines, '\n');
    }
}

// A number of each length.
fn each_length() -> impl Iterator<Item = usize> {
    std::iter::successors(Some(usize::MAX), |number| (*number >= 10).then_some(number / 10))
}

// An error ignores the width, the fill and the rest of the format.
fn check_message(error: impl std::fmt::Display, message: &str) {
    assert_eq!(error.to_string(), message);
    assert_eq!(format!("{error:é^150.5}"), message);
}

#[test]
fn each_error_prints_its_message_in_every_format() {
    let text = &b"-12x"[..];
    let causes = [
        (AtoiSimdError::Empty, "has no digit at its start", None),
        (AtoiSimdError::Size(17, &text[1..]), "is out of range", None),
        (AtoiSimdError::Overflow(&text[1..]), "is out of range", None),
        (AtoiSimdError::Invalid64(12, 2, &text[1..]), "has an unexpected byte", Some(3)),
        (AtoiSimdError::Invalid128(12, 2, &text[1..]), "has an unexpected byte", Some(3)),
    ];
    for index in each_length() {
        for place in each_length() {
            let trailing = format!("field {index} has an unexpected byte at byte {place}");
            check_message(ColumnError::Trailing { index, place }, &trailing);
            for (cause, fault, offset) in causes {
                let message = format!("field {index} at byte {place} {fault}");
                check_message(ColumnError::Field { index, place, cause }, &message);
                let byte =
                    offset.map(|offset: u128| format!(" at byte {}", place as u128 + offset));
                let error = FieldError { index, place, text, cause };
                check_message(error, &(message + &byte.unwrap_or_default()));
            }
        }
    }
}

#[test]
fn iterators_show_where_they_are() {
    #[derive(Debug, Clone)]
    struct Both<'a>(Fields<'a, u8>, Column<'a, u8>);
    let mut both = Both(Fields::new(b"1,2,3", b','), Column::new(b"1,2,3", b','));
    both.0.next();
    both.1.next();
    let shown = "Both(Fields { position: (1, 2), .. }, Column { bytes_left: 3, .. })";
    assert_eq!(format!("{both:?}"), shown);
}
