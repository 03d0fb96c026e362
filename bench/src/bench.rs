//! Line by line, or record by record, over standard input.

use crate::message::Edition;
use std::io::{BufRead, ErrorKind, Read, Result, Write};

/// How many bytes of a line are judged.
pub const JUDGED: usize = 512;

/// Fills `line` with up to `most` first bytes of the next line; false where no line is left.
pub(crate) fn next_line(input: &mut impl BufRead, line: &mut Vec<u8>, most: usize) -> Result<bool> {
    line.clear();
    loop {
        let part = input.fill_buf()?;
        if part.is_empty() {
            return Ok(!line.is_empty());
        }
        let end = part.iter().position(|&byte| byte == b'\n');
        let length = end.unwrap_or(part.len());
        let room = most - line.len();
        line.extend_from_slice(&part[..length.min(room)]);
        input.consume(length + usize::from(end.is_some()));
        if end.is_some() {
            return Ok(true);
        }
    }
}

/// Prints each line's number and the answer to its first `most` bytes.
pub fn each_line<A: std::fmt::Display>(
    mut input: impl BufRead,
    mut output: impl Write,
    most: usize,
    answer: impl Fn(&[u8]) -> A,
) -> Result<()> {
    let mut line = Vec::with_capacity(JUDGED);
    let mut count = 0u64;
    while next_line(&mut input, &mut line, most)? {
        count += 1;
        writeln!(output, "{count} {}", answer(&line))?;
    }
    output.flush()
}

/// Prints the answer to each record of `N` bytes; a last one that is not whole has none.
pub fn each_record<const N: usize, W: Write>(
    mut input: impl Read,
    mut output: W,
    mut answer: impl FnMut(&[u8; N], &mut W) -> Result<()>,
) -> Result<()> {
    let mut record = [0; N];
    loop {
        match input.read_exact(&mut record) {
            Err(error) if error.kind() == ErrorKind::UnexpectedEof => return output.flush(),
            read => read?,
        }
        answer(&record, &mut output)?;
    }
}

/// Refusal number, then number of structures or place.
pub struct Answer(pub u8, pub usize);

impl std::fmt::Display for Answer {
    fn fmt(&self, f: &mut std::fmt::Formatter) -> std::fmt::Result {
        write!(f, "{} {}", self.0, self.1)
    }
}

pub fn label(line: &[u8]) -> Answer {
    let reading = crate::read(Edition::Current, line);
    match reading.number {
        crate::ACCEPTED => Answer(0, reading.message.number),
        number => Answer(number, reading.place),
    }
}

pub fn keyboard(line: &[u8]) -> Answer {
    let (number, place, _) = crate::keyboard(line);
    Answer(number, place)
}

pub fn check(line: &[u8]) -> String {
    match crate::check_character(line) {
        0 => "none".into(),
        byte => char::from(byte).into(),
    }
}

/// What the three C functions answer to a scan in hexadecimal digits: its number and place, then
/// the check character of all its bytes, and of those after its first where a donation label has
/// its donation number.
pub fn answers(digits: &[u8]) -> String {
    let scan: Vec<u8> = digits.chunks(2).map(|pair| 16 * worth(pair[0]) + worth(pair[1])).collect();
    let (number, place) = crate::judge(Edition::Current, &scan);
    let within = scan.get(1..14).unwrap_or(&[]);
    format!("{number} {place} {} {}", crate::check_character(&scan), crate::check_character(within))
}

fn worth(digit: u8) -> u8 {
    char::from(digit).to_digit(16).expect("a hexadecimal digit") as u8
}
