//! The peer: a judge by hand to measure the proved one beside, in one pass and without a table.
//!
//! Each structure is tested as a whole. Where the test fails, the scan dies in this structure, and a
//! walk over its bytes finds the fatal one.

use crate::{
    ACCEPTED, CHARACTER, CHECK, DAY, IDENTIFIER, NESTED, REPEAT, SHORT, TIME, TRAILING, VALUE,
};

#[derive(Clone, Copy, Debug, PartialEq, Eq)]
pub struct Verdict {
    pub number: u8,
    pub place: usize,
    /// Structures of an accepted scan, 0 of a refused one.
    pub count: usize,
}

// Total bytes; no other kind has as many.
const DONATION: usize = 16;
const PRODUCT: usize = 10;

/// What a scan of the current edition comes to.
pub fn judge(scan: &[u8]) -> Verdict {
    if let [b'=', b'+', content @ ..] = scan {
        return compound(scan, content);
    }
    match whole(scan) {
        Some([]) => accepted(scan, 1),
        Some(rest) => pair(scan, rest),
        None => fatal(scan, 0, false),
    }
}

/// The verdict where more bytes stand behind a first structure.
fn pair(scan: &[u8], rest: &[u8]) -> Verdict {
    let at = scan.len() - rest.len();
    let second = match (at, rest) {
        (DONATION, [b'=', b'%', content @ ..]) => tested(content, groups),
        (PRODUCT, [b'&', b'>', content @ ..]) => tested(content, date_time),
        (DONATION, [b'=']) | (PRODUCT, [b'&']) => return refused(SHORT, at + 1),
        (DONATION, [b'=', ..]) | (PRODUCT, [b'&', ..]) => return refused(TRAILING, at + 1),
        _ => return refused(TRAILING, at),
    };
    match second {
        Some([]) => accepted(scan, 2),
        Some(more) => refused(TRAILING, scan.len() - more.len()),
        None => fatal(scan, at, false),
    }
}

// By itself, so that a single has no registers to save.
#[inline(never)]
fn compound(scan: &[u8], content: &[u8]) -> Verdict {
    let Some(mut rest) = tested(content, head) else { return fatal(scan, 0, false) };
    let count = usize::from(two(scan[2], scan[3]));
    let mut donated = false;
    for _ in 0..count {
        match whole(rest) {
            Some(after) if rest.len() - after.len() != DONATION => rest = after,
            Some(after) if !donated => (rest, donated) = (after, true),
            _ => return fatal(scan, scan.len() - rest.len(), donated),
        }
    }
    match rest {
        [] => accepted(scan, count),
        _ => refused(TRAILING, scan.len() - rest.len()),
    }
}

fn accepted(scan: &[u8], count: usize) -> Verdict {
    Verdict { number: ACCEPTED, place: scan.len(), count }
}

fn refused(number: u8, place: usize) -> Verdict {
    Verdict { number, place, count: 0 }
}

/// What is behind the lawful structure that the bytes begin with, if they do.
#[inline(always)]
fn whole(bytes: &[u8]) -> Option<&[u8]> {
    let (&[first, second], content) = bytes.split_first_chunk()?;
    match (first, second) {
        (b'=', b'A'..=b'N' | b'P'..=b'Z' | b'1'..=b'9') => tested(&bytes[1..], donation),
        (b'=', b'%') => tested(content, groups),
        (b'=', b'<') => tested(content, product),
        (b'=', b'>' | b'*' | b'}') => tested(content, |d| all(d, u8::is_ascii_digit) && day(d)),
        (b'&', b'>' | b'*' | b'}') => tested(content, date_time),
        (b'&', b'(') => tested(content, |five: &[u8; 5]| all(five, upper_digit)),
        (b'=', b'\\') => tested(content, |digits: &[u8; 18]| all(digits, u8::is_ascii_digit)),
        (b'&', b')') => tested(content, |lot: &[u8; 10]| all(lot, u8::is_ascii_alphanumeric)),
        (b'=', b'(') => tested(content, flexible),
        _ => None,
    }
}

/// What is behind the first bytes, as many as the test takes, if it holds for them.
#[inline(always)]
fn tested<const N: usize>(bytes: &[u8], test: impl Fn(&[u8; N]) -> bool) -> Option<&[u8]> {
    let (content, rest) = bytes.split_first_chunk()?;
    test(content).then_some(rest)
}

/// Are all in this set? No byte is branched on, so that the compiler may test many at once.
#[inline(always)]
fn all<const N: usize>(bytes: &[u8; N], set: impl Fn(&u8) -> bool) -> bool {
    bytes.iter().fold(true, |all, byte| all & set(byte))
}

fn upper_digit(byte: &u8) -> bool {
    byte.is_ascii_uppercase() | byte.is_ascii_digit()
}

fn lower_digit(byte: &u8) -> bool {
    byte.is_ascii_lowercase() | byte.is_ascii_digit()
}

/// Number of two digits.
fn two(tens: u8, ones: u8) -> u8 {
    10 * (tens & 15) + (ones & 15)
}

fn head(content: &[u8; 5]) -> bool {
    all(content, u8::is_ascii_digit) & (1..=16).contains(&two(content[0], content[1]))
}

#[inline(always)]
fn donation(content: &[u8; 15]) -> bool {
    let ([_, digits @ ..], [number @ .., f, g]) = (content, content);
    all(digits, u8::is_ascii_digit) && (*f < b'6' || two(*f, *g) == 60 + check(number))
}

/// Worth of a donation number's check.
#[inline(always)]
fn check([first, digits @ ..]: &[u8; 13]) -> u8 {
    let first = if *first < b'A' { first - b'0' } else { first - b'A' + 10 };
    // No remainder is taken before the last: a worth is doubled once for each place from its own on.
    let sum: u32 = (1..).zip(digits.iter().rev()).map(|(by, d)| u32::from(d & 15) << by).sum();
    // 37 * 16000 is more than any sum.
    ((38 + 37 * 16000 - (u32::from(first) << 13) - sum) % 37) as u8
}

#[inline(always)]
fn groups([ggr @ .., e]: &[u8; 4]) -> bool {
    all(ggr, u8::is_ascii_alphanumeric) & (*e == b'0')
}

#[inline(always)]
fn product(content: &[u8; 8]) -> bool {
    let [letter, oooo @ .., _, d, s] = content;
    let row = all(content, u8::is_ascii_alphanumeric)
        & letter.is_ascii_uppercase()
        & all(oooo, |byte| *byte < b'a');
    row & (*d < b'a') & lower_digit(s) && (*letter != b'E' || division(*d, *s))
}

/// Is this a division of a blood product? Both are in their sets.
fn division(d: u8, s: u8) -> bool {
    (s == b'0') & (d == b'0') | (d >= b'A') & ((s == b'0') | (s >= b'a'))
}

/// Is this a day of its year? Only day 366 asks for the year.
#[inline(always)]
fn day(&[c, y, z, i, j, k]: &[u8; 6]) -> bool {
    let day = 100 * u16::from(i & 15) + u16::from(two(j, k));
    day.wrapping_sub(1) < 365 || (day == 366 && leap(c, two(y, z)))
}

/// Is it a leap year? By four, a century and the byte that is its c both leave 0, or neither does.
fn leap(century: u8, year: u8) -> bool {
    (if year == 0 { century } else { year }) % 4 == 0
}

#[inline(always)]
fn date_time(content: &[u8; 10]) -> bool {
    let [date @ .., h, i, m, _] = content;
    all(content, u8::is_ascii_digit) & (two(*h, *i) < 24) & (*m < b'6') && day(date)
}

#[inline(always)]
fn flexible(content: &[u8; 16]) -> bool {
    let &[first, zero, t, u, c, d, y, z, m, n, e, f, h, i, minute, _] = content;
    let (century, year, month, day) = (two(c, d), two(y, z), two(m, n), two(e, f));
    let kind =
        (first.wrapping_sub(b'1') < 2) & (zero == b'0') & (t == b'0') & (u.wrapping_sub(b'1') < 5);
    let row = kind & (century.wrapping_sub(19) < 10) & (month.wrapping_sub(1) < 12);
    let row = row & (two(h, i) < 24) & (minute < b'6') & (day > 0);
    (all(content, u8::is_ascii_digit) & row) && (day < 29 || day <= days(century, year, month))
}

fn days(century: u8, year: u8, month: u8) -> u8 {
    match month {
        4 | 6 | 9 | 11 => 30,
        2 => 28 + u8::from(leap(century, year)),
        _ => 31,
    }
}

/// The refusal where at this place no structure is whole and lawful.
#[cold]
#[inline(never)]
fn fatal(scan: &[u8], at: usize, donated: bool) -> Verdict {
    match scan[at..] {
        [] | [b'=' | b'&'] => refused(SHORT, scan.len()),
        [b'=', b'+', ..] if at > 0 => refused(NESTED, at + 1),
        [b'=', b'+', ..] => walk(23, scan, at),
        [b'=', b'A'..=b'N' | b'P'..=b'Z' | b'1'..=b'9', ..] if donated => refused(REPEAT, at + 1),
        [b'=', b'A'..=b'N' | b'P'..=b'Z' | b'1'..=b'9', ..] => walk(1, scan, at),
        [b'=', b'%', ..] => walk(2, scan, at),
        [b'=', b'<', ..] => walk(3, scan, at),
        // A date by itself dies before its time would begin.
        [b'=' | b'&', b'>' | b'*' | b'}', ..] => walk(5, scan, at),
        [b'&', b'(', ..] => walk(10, scan, at),
        [b'=', b'\\', ..] => walk(12, scan, at),
        [b'&', b')', ..] => walk(18, scan, at),
        [b'=', b'(', ..] => walk(31, scan, at),
        [b'=' | b'&', ..] => refused(IDENTIFIER, at + 1),
        _ => refused(IDENTIFIER, at),
    }
}

/// The refusal within a structure of this number; inlined, so that each has a walk of its own.
#[inline(always)]
fn walk(structure: u8, scan: &[u8], at: usize) -> Verdict {
    for place in at + 2..scan.len() {
        let (before, byte) = (&scan[at..place], scan[place]);
        if !in_set(structure, before.len(), &byte) {
            return refused(CHARACTER, place);
        }
        let (number, lawful) = position(structure, before, byte);
        if !lawful {
            return refused(number, place);
        }
    }
    refused(SHORT, scan.len())
}

#[inline(always)]
fn in_set(structure: u8, at: usize, byte: &u8) -> bool {
    match (structure, at) {
        (2 | 18, _) | (3, 7) => byte.is_ascii_alphanumeric(),
        (3, 2) => byte.is_ascii_uppercase(),
        (3, 9) => lower_digit(byte),
        (3 | 10, _) => upper_digit(byte),
        _ => byte.is_ascii_digit(),
    }
}

/// Does a lawful value go on with the byte, behind these of its structure? The number is for if not.
#[inline(always)]
fn position(structure: u8, before: &[u8], byte: u8) -> (u8, bool) {
    let last = before[before.len() - 1];
    let own = || 60 + check(before[1..].first_chunk().unwrap());
    let pair = |at: usize| two(before[at], before[at + 1]);
    let days = || days(pair(6), pair(8), pair(10));
    match (structure, before.len()) {
        (1, 14) => (CHECK, byte < b'6' || byte == b'0' + own() / 10),
        (1, 15) => (CHECK, last < b'6' || two(last, byte) == own()),
        (2, 5) => (VALUE, byte == b'0'),
        (3, 8) => (VALUE, before[2] != b'E' || byte == b'0' || byte >= b'A'),
        (3, 9) => (VALUE, before[2] != b'E' || division(last, byte)),
        (5, 5) => (DAY, byte < b'4'),
        (5, 6) => (DAY, last < b'3' || byte < b'7'),
        (5, 7) => (DAY, day(&[before[2], before[3], before[4], before[5], last, byte])),
        (5, 8) | (31, 14) => (TIME, byte < b'3'),
        (5, 9) | (31, 15) => (TIME, two(last, byte) < 24),
        (5, 10) | (31, 16) => (TIME, byte < b'6'),
        (23, 2) => (VALUE, byte < b'2'),
        (23, 3) => (VALUE, (1..=16).contains(&two(last, byte))),
        (31, 2 | 6) => (VALUE, byte == b'1' || byte == b'2'),
        (31, 3 | 4) => (VALUE, byte == b'0'),
        (31, 5) => (VALUE, (b'1'..=b'5').contains(&byte)),
        (31, 7) => (VALUE, (19..=28).contains(&two(last, byte))),
        (31, 10) => (DAY, byte < b'2'),
        (31, 11) => (DAY, (1..=12).contains(&two(last, byte))),
        (31, 12) => (DAY, byte <= b'0' + days() / 10),
        (31, 13) => (DAY, (1..=days()).contains(&two(last, byte))),
        _ => (CHARACTER, true),
    }
}
