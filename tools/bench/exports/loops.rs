//! Loops that add up numbers, and jobs that read texts by prefixes, as tokenizers do. `None` stands for a text that is no number.

use crate::readers::{Number, Reader};
use crate::texts::Texts;

/// The sum of what is read of items.
#[macro_export]
macro_rules! sum {
    ($item:ident in $items:expr => $bits:expr) => {{
        let mut sum = 0_u64;
        for $item in $items {
            sum = sum.wrapping_add($bits);
        }
        Some(sum)
    }};
}

/// Slices of a text.
#[inline(always)]
pub fn slices<R: Reader, T: Number, const Z: bool, const P: bool>(texts: &Texts) -> Option<u64> {
    sum!(text in texts.slices() => R::whole::<T, Z, P>(text)?.bits())
}

/// The numbers at the starts of slices, and their lengths.
#[inline(always)]
pub fn starts<R: Reader, T: Number, const Z: bool, const P: bool>(texts: &Texts) -> Option<u64> {
    sum!(text in texts.slices() => {
        let (number, length) = R::prefix::<T, Z, P>(text)?;
        number.bits().wrapping_add(length as u64)
    })
}

/// Prefixes in a loop over one text, with commas between them.
#[inline(always)]
pub fn prefixes<R: Reader, T: Number, const Z: bool, const P: bool>(texts: &Texts) -> Option<u64> {
    let (mut text, mut sum) = (texts.text(), 0_u64);
    loop {
        let (number, length) = R::prefix::<T, Z, P>(text)?;
        sum = sum.wrapping_add(number.bits());
        match &text[length..] {
            [] => return Some(sum),
            [b',', rest @ ..] => text = rest,
            _ => return None,
        }
    }
}

/// A text that is split at commas.
#[inline(always)]
pub fn split<R: Reader, T: Number>(texts: &Texts) -> Option<u64> {
    let fields = texts.text().split(|byte| *byte == b',');
    sum!(text in fields => R::whole::<T, true, true>(text)?.bits())
}

/// Reads records until a text ends, and returns the sum to which their code adds.
#[macro_export]
macro_rules! records {
    ($texts:ident as $text:ident, $sum:ident: $record:block) => {{
        let (mut $text, mut $sum) = ($texts.text(), 0_u64);
        while !$text.is_empty() {
            $record
        }
        Some($sum)
    }};
}

// Reads numbers, each of a type, and the bytes after it.
macro_rules! read {
    ($text:ident, $sum:ident: $($type:ident then $bytes:literal),*) => {
        $($text = take::<R, $type>($text, &mut $sum)?.1.strip_prefix($bytes)?;)*
    };
}

// A job whose records are such numbers.
macro_rules! jobs {
    ($($name:ident: $($type:ident then $bytes:literal),*;)*) => {
        $(#[inline(always)]
        pub fn $name<R: Reader>(texts: &Texts) -> Option<u64> {
            records!(texts as text, sum: { read!(text, sum: $($type then $bytes),*); })
        })*
    };
}

// `2026-11-30T12:34:56Z`, `192.0.2.1` and `1.22.333`
jobs! {
    iso_dates: u16 then b"-", u8 then b"-", u8 then b"T", u8 then b":", u8 then b":", u8 then b"Z\n";
    ipv4: u8 then b".", u8 then b".", u8 then b".", u8 then b"\n";
    semver: u64 then b".", u64 then b".", u64 then b"\n";
}

// Reads a number and adds it to a sum, and returns it with what follows.
#[inline(always)]
fn take<'a, R: Reader, T: Number>(text: &'a [u8], sum: &mut u64) -> Option<(T, &'a [u8])> {
    let (number, length) = R::prefix::<T, false, false>(text)?;
    *sum = sum.wrapping_add(number.bits());
    Some((number, &text[length..]))
}

/// `192.0.2.1 - - [30/Nov/2026:12:34:56 +0000] "GET / HTTP/1.1" 200 1234`
#[inline(always)]
pub fn access_log<R: Reader>(texts: &Texts) -> Option<u64> {
    records!(texts as text, sum: {
        read!(text, sum: u8 then b".", u8 then b".", u8 then b".", u8 then b" - - [", u8 then b"/");
        text = text.get(4..)?;
        read!(text, sum: u16 then b":", u8 then b":", u8 then b":", u8 then b" +0000] \"");
        let request = text.iter().position(|byte| *byte == b'"')?;
        text = text[request..].strip_prefix(b"\" ")?;
        read!(text, sum: u16 then b" ", u64 then b"\n");
    })
}

/// `[1, -2, 3]`
#[inline(always)]
pub fn json_arrays<R: Reader>(texts: &Texts) -> Option<u64> {
    records!(texts as text, sum: {
        text = text.strip_prefix(b"[")?;
        loop {
            match take::<R, i64>(text, &mut sum)?.1 {
                [b',', b' ', rest @ ..] => text = rest,
                [b']', b'\n', rest @ ..] => {
                    text = rest;
                    break;
                }
                _ => return None,
            }
        }
    })
}

/// Arrays of bulk strings of Redis: `*1`, `$4` and `PING`, each with `\r\n`.
#[inline(always)]
pub fn resp<R: Reader>(texts: &Texts) -> Option<u64> {
    records!(texts as text, sum: {
        let (count, rest) = take::<R, i64>(text.strip_prefix(b"*")?, &mut sum)?;
        text = rest.strip_prefix(b"\r\n")?;
        for _ in 0..count {
            let (length, rest) = take::<R, i64>(text.strip_prefix(b"$")?, &mut sum)?;
            let string = rest.strip_prefix(b"\r\n")?;
            text = string.get(usize::try_from(length).ok()?..)?.strip_prefix(b"\r\n")?;
        }
    })
}

/// `HTTP/1.1 200 OK` and `Content-Length: 1234`
#[inline(always)]
pub fn http<R: Reader>(texts: &Texts) -> Option<u64> {
    records!(texts as text, sum: {
        text = text.strip_prefix(b"HTTP/1.")?;
        read!(text, sum: u8 then b" ", u16 then b" OK\r\nContent-Length: ", u64 then b"\r\n\r\n");
    })
}
