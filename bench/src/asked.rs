//! Answers to records, one line each: what reader, writer, keyboard, blood groups, calendar, minutes
//! left, the research extract and the host's import and export are asked.
//!
//! A record has 384 bytes, and numbers in it begin with their highest byte. Its first byte asks:
//! - `R` for a scan read: length at 1 in two bytes (368 at most), edition at 3 (1 that of 2001, any
//!   other the current one), bytes from 16 on. Told: number, place, form (0 single, 1 pair, 2
//!   compound), bbb, number of structures, and of each of the sixteen entries the number of its kind,
//!   the place of its first byte and its length, all three 0 for the empty one, and its values as in a
//!   `W` record.
//! - `W` for a message written: form at 1 (0 single, 1 pair, any other compound), bbb at 2 in two
//!   bytes, room at 4 in two (340 at most), edition at 6 as in an `R` record, number of structures at
//!   8 in eight, and from 16 on sixteen entries of eleven bytes. Told: number, place, and the whole
//!   buffer of that room, which is filled with points beforehand.
//! - `K` for a keyboard entry: length at 1 (176 at most), bytes from 16 on. Told: number, place,
//!   first character, facility, year, sequence number.
//! - `G` for what the gg at 1 and 2 means. Told: row and column, or a dash.
//! - `C` for the code in the row at 8 and the column at 16, eight bytes each. Told: it, or a dash.
//! - `O` for the number in its year of a day: year at 1 in two bytes, month at 3, day at 4. Told: it,
//!   or a dash.
//! - `Q` for the day with a number in its year: year at 1 and number at 3, two bytes each. Told: month
//!   and day, or a dash.
//! - `M` for the minutes left: 1 at 1 if the expiry has a time, now from 8 on and the expiry from 16
//!   on: year and day in two bytes each, then hour and minute. Told: number, place, minutes.
//! - `T` for a scan's line in the extract: length at 1 in two bytes (368 at most), room at 4 in two (400
//!   at most), bytes from 16 on. Told: number, place, and the whole buffer of that room, which is filled
//!   with points beforehand, in hexadecimal digits.
//! - `X` for a message exported to the host: as in a `W` record, but for the room (368 at most) and
//!   the edition, which is the current one. Told: as for `T`.
//! - `I` for a host's record imported: as in an `R` record, but for the edition, which is the
//!   current one. Told: the same.
//!
//! A number that is over its most counts as that.
//!
//! Any other record is answered by a question mark, and a last one that is not whole by nothing.
//!
//! An entry begins with the number of its kind, any other standing for the empty one. Then follow
//! an 001's first character, facility in two bytes, year, sequence number in four, and flags; a
//! date's year and day in two bytes each, then hour and minute; an 012's number in eight bytes; an
//! 031's first character, type, year in two bytes, month, day, hour and minute; the sixteen digits of
//! 2001's antigens, whose number is 200 here, as one number in eight bytes, and their two in one byte;
//! and of any other kind its characters.

use crate::message::{Day, Edition, Entry, Form, Message, Structure, Time};
use crate::{extract, groups, host, keyboard, minutes, Reading};
use std::fmt::Display;
use std::io::{Result, Write};

pub const RECORD: usize = 384;
pub const HEAD: usize = 16;
pub const ENTRY: usize = 11;
pub const MOST_ROOM: usize = 340;
pub const MOST_SCAN: usize = RECORD - HEAD;
/// Room for a line of the extract.
pub const MOST_LINE: usize = 400;
/// Room for a record of the host.
pub const MOST_EXPORT: usize = 368;
const MOST_TYPED: usize = 176;

pub(crate) fn bytes<const N: usize>(part: &[u8], at: usize) -> [u8; N] {
    std::array::from_fn(|i| part[at + i])
}

pub(crate) fn short(part: &[u8], at: usize) -> u16 {
    u16::from_be_bytes(bytes(part, at))
}

fn long(part: &[u8], at: usize) -> u64 {
    u64::from_be_bytes(bytes(part, at))
}

fn day(part: &[u8], at: usize) -> Day {
    Day { year: short(part, at), day: short(part, at + 2) }
}

fn time(part: &[u8], at: usize) -> Time {
    Time { hour: part[at], minute: part[at + 1] }
}

/// Of any value at all, lawful or not.
fn structure(entry: &[u8]) -> Structure {
    let (day, hhmm) = (day(entry, 1), time(entry, 5));
    match entry[0] {
        1 => Structure::Donation {
            first: entry[1],
            facility: short(entry, 2),
            year: entry[4],
            sequence: u32::from_be_bytes(bytes(entry, 5)),
            flag: entry[9],
        },
        2 => Structure::Groups { gg: bytes(entry, 1), r: entry[3] },
        3 => Structure::Product(bytes(entry, 1)),
        4 => Structure::Expiry(day),
        5 => Structure::ExpiryTime(day, hhmm),
        6 => Structure::Collection(day),
        7 => Structure::CollectionTime(day, hhmm),
        8 => Structure::Production(day),
        9 => Structure::ProductionTime(day, hhmm),
        10 => Structure::Testing(bytes(entry, 1)),
        12 => Structure::Antigens(long(entry, 1)),
        18 => Structure::Lot(bytes(entry, 1)),
        31 => Structure::Flexible {
            z: entry[1],
            tt: entry[2],
            year: short(entry, 3),
            month: entry[5],
            day: entry[6],
            time: time(entry, 7),
        },
        200 => Structure::OldAntigens { sixteen: long(entry, 1), two: entry[9] },
        _ => Structure::Empty,
    }
}

fn edition(byte: u8) -> Edition {
    match byte {
        1 => Edition::Of2001,
        _ => Edition::Current,
    }
}

fn message(record: &[u8]) -> Message {
    let mut entries = record[HEAD..].chunks_exact(ENTRY).map(structure);
    Message {
        form: match record[1] {
            0 => Form::Single,
            1 => Form::Pair,
            _ => Form::Compound,
        },
        bbb: short(record, 2),
        number: long(record, 8) as usize,
        entries: std::array::from_fn(|_| entries.next().map_or(Entry::EMPTY, Entry::from)),
    }
}

/// The values of a structure as numbers.
fn values(structure: &Structure) -> Vec<u64> {
    let day = |d: &Day| vec![d.year.into(), d.day.into()];
    let moment = |d, t: &Time| [day(d), vec![t.hour.into(), t.minute.into()]].concat();
    let text = |bytes: &[u8]| bytes.iter().map(|&byte| byte.into()).collect();
    match structure {
        Structure::Empty => Vec::new(),
        Structure::Donation { first, facility, year, sequence, flag } => {
            vec![
                (*first).into(),
                (*facility).into(),
                (*year).into(),
                (*sequence).into(),
                (*flag).into(),
            ]
        }
        Structure::Groups { gg, r } => text(&[gg[0], gg[1], *r]),
        Structure::Product(code) => text(code),
        Structure::Expiry(d) | Structure::Collection(d) | Structure::Production(d) => day(d),
        Structure::ExpiryTime(d, t)
        | Structure::CollectionTime(d, t)
        | Structure::ProductionTime(d, t) => moment(d, t),
        Structure::Testing(code) => text(code),
        Structure::Antigens(digits) => vec![*digits],
        Structure::Lot(lot) => text(lot),
        Structure::Flexible { z, tt, year, month, day, time } => {
            let parts = [*month, *day, time.hour, time.minute].map(u64::from);
            [&[(*z).into(), (*tt).into(), (*year).into()], &parts[..]].concat()
        }
        Structure::OldAntigens { sixteen, two } => vec![*sixteen, (*two).into()],
    }
}

fn tell_reading(asked: char, reading: &Reading, output: &mut impl Write) -> Result<()> {
    let Reading { number, place, message } = reading;
    let form = match message.form {
        Form::Single => 0,
        Form::Pair => 1,
        Form::Compound => 2,
    };
    write!(output, "{asked} {number} {place} {form} {} {}", message.bbb, message.number)?;
    for Entry { structure, place, length } in &message.entries {
        write!(output, " {} {place} {length}", structure.kind())?;
        values(structure).iter().try_for_each(|value| write!(output, " {value}"))?;
    }
    writeln!(output)
}

/// Number and place, and the bytes of a buffer in hexadecimal digits.
fn tell_filled(
    asked: char,
    (number, place): (u8, usize),
    buffer: &[u8],
    output: &mut impl Write,
) -> Result<()> {
    write!(output, "{asked} {number} {place} ")?;
    buffer.iter().try_for_each(|byte| write!(output, "{byte:02x}"))?;
    writeln!(output)
}

/// The scan, or the record, that is asked about.
fn scan(record: &[u8; RECORD]) -> &[u8] {
    &record[HEAD..HEAD + MOST_SCAN.min(short(record, 1).into())]
}

/// What was asked and its answer, a dash where there is none.
fn tell(asked: char, answer: Option<impl Display>, output: &mut impl Write) -> Result<()> {
    match answer {
        Some(answer) => writeln!(output, "{asked} {answer}"),
        None => writeln!(output, "{asked} -"),
    }
}

/// Tells what a record asks for.
pub fn answer(record: &[u8; RECORD], output: &mut impl Write) -> Result<()> {
    match record[0] {
        b'R' => tell_reading('R', &crate::read(edition(record[3]), scan(record)), output),
        b'W' => {
            let mut buffer = [b'.'; MOST_ROOM];
            let room = &mut buffer[..MOST_ROOM.min(short(record, 4).into())];
            let (number, place) = crate::write(edition(record[6]), &message(record), room);
            write!(output, "W {number} {place} ")?;
            output.write_all(room)?;
            writeln!(output)
        }
        b'K' => {
            let length = MOST_TYPED.min(record[1].into());
            let (number, place, d) = keyboard(&record[HEAD..HEAD + length]);
            let parts = format!("{} {} {} {}", d.first, d.facility, d.year, d.sequence);
            writeln!(output, "K {number} {place} {parts}")
        }
        b'G' => {
            let place = groups::interpretation([record[1], record[2]]);
            tell('G', place.map(|(row, column)| format!("{row} {column}")), output)
        }
        b'C' => {
            let code = groups::code(long(record, 8) as usize, long(record, 16) as usize);
            tell('C', code.map(|[tens, ones]| 10 * (tens - b'0') + (ones - b'0')), output)
        }
        b'O' => tell('O', crate::ordinal(short(record, 1), record[3], record[4]), output),
        b'Q' => {
            let day = crate::month_and_day(short(record, 1), short(record, 3));
            tell('Q', day.map(|(month, day)| format!("{month} {day}")), output)
        }
        b'M' => {
            let expires = (record[1] == 1).then(|| time(record, 20));
            let now = (day(record, 8), time(record, 12));
            let (number, place, minutes) = minutes::left(now, (day(record, 16), expires));
            writeln!(output, "M {number} {place} {minutes}")
        }
        b'T' => {
            let mut buffer = [b'.'; MOST_LINE];
            let room = &mut buffer[..MOST_LINE.min(short(record, 4).into())];
            tell_filled('T', extract::extract(scan(record), room), room, output)
        }
        b'X' => {
            let mut buffer = [b'.'; MOST_EXPORT];
            let room = &mut buffer[..MOST_EXPORT.min(short(record, 4).into())];
            tell_filled('X', host::export(&message(record), room), room, output)
        }
        b'I' => tell_reading('I', &host::import(scan(record)), output),
        _ => writeln!(output, "?"),
    }
}

#[cfg(test)]
mod tests {
    use super::*;
    use crate::bench::each_record;

    /// What is printed for a record that has these bytes at these places and else zeros.
    fn told(parts: &[(usize, &[u8])]) -> String {
        let mut record = [0; RECORD];
        for (at, part) in parts {
            record[*at..at + part.len()].copy_from_slice(part);
        }
        let mut printed = Vec::new();
        each_record(&[&record[..], b"W"].concat()[..], &mut printed, answer).unwrap();
        String::from_utf8(printed).unwrap()
    }

    #[test]
    fn messages() {
        let groups = (16, &b"\x02510"[..]);
        assert_eq!(told(&[(0, b"W\0\0\0\0\x08"), (15, &[1]), groups]), "W 0 6 =%5100..\n");
        assert_eq!(told(&[(0, b"W\0\0\0\0\x05"), (15, &[1]), groups]), "W 9 6 .....\n");
        let flexible = (16, &b"\x1f2\x05\x0b\x53\x0c\x1f\x17\x3b"[..]);
        let text = "W 0 18 =(2005289912312359\n";
        assert_eq!(told(&[(0, b"W\0\0\0\0\x12"), (15, &[1]), flexible]), text);
        assert_eq!(told(&[(0, b"W\0\0\0\0\x02"), (15, &[2]), groups]), "W 7 0 ..\n");
        let compound = (0, &b"W\x02\x03\xe7\0\x22"[..]);
        let day = (27, &b"\x05\x07\xe4\x01\x6e\x0d\x1e"[..]);
        let text = "=+02999=%5100&>0203661330";
        assert_eq!(
            told(&[compound, (15, &[2]), groups, day]),
            format!("W 0 25 {text}{}\n", ".".repeat(9))
        );
        assert_eq!(
            told(&[compound, (15, &[3]), groups, day]),
            format!("W 8 2 {}\n", ".".repeat(34))
        );
    }

    #[test]
    fn readings() {
        let empty = " 0 0 0".repeat(14);
        let pair = "R 0 22 1 0 2 1 0 16 87 0 21 123456 70 2 16 6 53 49 48";
        let scan = (16, &b"=W00002112345670=%5100"[..]);
        assert_eq!(told(&[(0, b"R\0\x16"), scan]), format!("{pair}{empty}\n"));
        let refused = format!("R 1 21 0 0 0 0 0 0 0 0 0{empty}\n");
        assert_eq!(told(&[(0, b"R\0\x15"), scan]), refused);
        let refused = format!("R 10 15 0 0 0 0 0 0 0 0 0{empty}\n");
        assert_eq!(told(&[(0, b"R\0\x16"), scan, (31, b"1")]), refused);
        let compound = (16, &b"=+02999=\\000000000000000001&>0203661330"[..]);
        let told_of_it = "R 0 39 2 999 2 12 7 20 1 5 27 12 2020 366 13 30";
        assert_eq!(told(&[(0, b"R\0\x27"), compound]), format!("{told_of_it}{empty}\n"));
        let flexible = "R 0 18 0 0 1 31 0 18 49 2 2024 2 29 9 5 0 0 0";
        let scan = (16, &b"=(1002202402290905"[..]);
        assert_eq!(told(&[(0, b"R\0\x12"), scan]), format!("{flexible}{empty}\n"));
    }

    #[test]
    fn editions() {
        let empty = " 0 0 0".repeat(15);
        let scan = (16, &b"={880000000087000099C"[..]);
        let told_of_it = "R 0 21 0 0 1 200 0 21 8800000000870000 99";
        assert_eq!(told(&[(0, b"R\0\x15\x01"), scan]), format!("{told_of_it}{empty}\n"));
        for current in [0, 2, 48, 255] {
            let refused = format!("R 2 1 0 0 0 0 0 0{empty}\n");
            assert_eq!(told(&[(0, b"R\0\x15"), (3, &[current]), scan]), refused);
        }
        let antigens = (16, &b"\xc8\0\x1f\x43\x8d\xaa\x13\x46\x70\x63"[..]);
        let writes = (0, &b"W\0\0\0\0\x16"[..]);
        let text = "W 0 21 ={880000000087000099C.\n";
        assert_eq!(told(&[writes, (6, &[1]), (15, &[1]), antigens]), text);
        for current in [0, 2, 255] {
            let refused = format!("W 7 0 {}\n", ".".repeat(22));
            assert_eq!(told(&[writes, (6, &[current]), (15, &[1]), antigens]), refused);
        }
        let refused = format!("W 8 0 {}\n", ".".repeat(22));
        assert_eq!(told(&[writes, (6, &[1]), (15, &[1]), antigens, (25, &[100])]), refused);
    }

    #[test]
    fn others() {
        assert_eq!(told(&[(0, b"K\x0e"), (16, b"W000021123456A")]), "K 0 14 87 0 21 123456\n");
        assert_eq!(told(&[(0, b"K\x0d"), (16, b"W000021123456A")]), "K 1 13 0 0 0 0\n");
        assert_eq!(told(&[(0, b"G06")]), "G 2 0\n");
        assert_eq!(told(&[(0, b"G55")]), "G -\n");
        assert_eq!(told(&[(0, b"C"), (15, &[2])]), "C 6\n");
        assert_eq!(told(&[(0, b"C"), (8, &[1])]), "C -\n");
        assert_eq!(told(&[(0, b"O\x07\xe8\x0c\x1f")]), "O 366\n");
        assert_eq!(told(&[(0, b"O\x07\xe9\x02\x1d")]), "O -\n");
        assert_eq!(told(&[(0, b"Q\x07\xe8\0\x3c")]), "Q 2 29\n");
        assert_eq!(told(&[(0, b"Q\x07\xe9\x01\x6e")]), "Q -\n");
        let now = (8, &b"\x07\xe8\0\x3c\x17\x3b"[..]);
        let expiry = (16, &b"\x07\xe8\0\x3d\0\0"[..]);
        assert_eq!(told(&[(0, b"M\x01"), now, expiry]), "M 0 0 1\n");
        assert_eq!(told(&[(0, b"M\x02"), now, expiry]), "M 0 0 1440\n");
        assert_eq!(told(&[(0, b"M\x01"), now, expiry, (19, b"\x3b")]), "M 0 0 -2879\n");
        assert_eq!(told(&[(0, b"M\x01"), now, expiry, (21, b"\x3c")]), "M 12 1 0\n");
        assert_eq!(told(&[(0, b"M")]), "M 5 0 0\n");
        assert_eq!(told(&[]), "?\n");
    }

    #[test]
    fn extracts() {
        let groups = (16, &b"=%5100"[..]);
        let line = "53303030203030322035313030"; // S000 002 5100
        assert_eq!(told(&[(0, b"T\0\x06\0\0\x0e"), groups]), format!("T 0 14 {line}0a\n"));
        assert_eq!(told(&[(0, b"T\0\x06\x01\0\x10"), groups]), format!("T 0 14 {line}0a2e2e\n"));
        assert_eq!(
            told(&[(0, b"T\0\x06\0\0\x0d"), groups]),
            format!("T 9 14 {}\n", "2e".repeat(13))
        );
        assert_eq!(told(&[(0, b"T\0\x06"), groups]), "T 9 14 \n");
        assert_eq!(told(&[(0, b"T\0\x05"), groups]), "T 1 5 \n");
        assert_eq!(told(&[(0, b"T\0\x07\0\0\x02"), groups]), "T 6 6 2e2e\n");
        // More than the most of a scan and of the room.
        let most = "2e".repeat(400);
        for asked in [b"T\x01\x71\0\x01\x91", b"T\xff\xff\0\xff\xff"] {
            assert_eq!(told(&[(0, asked), groups]), format!("T 6 6 {most}\n"));
        }
        let points = "2e".repeat(400 - 14);
        let all = told(&[(0, b"T\0\x06\0\xff\xff"), groups]);
        assert_eq!(all, format!("T 0 14 {line}0a{points}\n"));
    }
    fn hex(bytes: &[u8]) -> String {
        bytes.iter().map(|byte| format!("{byte:02x}")).collect()
    }

    #[test]
    fn exports() {
        let groups = (16, &b"\x02510"[..]);
        let record = hex(b"\x02\0\x045100");
        assert_eq!(told(&[(0, b"X\0\0\0\0\x07"), (15, &[1]), groups]), format!("X 0 7 {record}\n"));
        // An edition is not looked at.
        for edition in [1, 2, 255] {
            let asked = [(0, &b"X\0\0\0\0\x09"[..]), (6, &[edition]), (15, &[1]), groups];
            assert_eq!(told(&asked), format!("X 0 7 {record}2e2e\n"));
            let antigens = (16, &b"\xc8\0\x1f\x43\x8d\xaa\x13\x46\x70\x63"[..]);
            let asked = [(0, &b"X\0\0\0\0\x01"[..]), (6, &[edition]), (15, &[1]), antigens];
            assert_eq!(told(&asked), "X 7 0 2e\n");
        }
        assert_eq!(
            told(&[(0, b"X\0\0\0\0\x06"), (15, &[1]), groups]),
            format!("X 9 7 {}\n", "2e".repeat(6))
        );
        assert_eq!(told(&[(0, b"X"), (15, &[1]), groups]), "X 9 7 \n");
        assert_eq!(told(&[(0, b"X\0\0\0\0\x02"), (15, &[2]), groups]), "X 7 0 2e2e\n");
        let donation = (16, &b"\x01W\0\0\x15\0\x01\xe2\x40\x46"[..]);
        let pair = (27, groups.1);
        let record = hex(b"\x01\0\x0fW00002112345670\x02\0\x045100");
        assert_eq!(
            told(&[(0, b"X\x01\0\0\0\x19"), (15, &[2]), donation, pair]),
            format!("X 0 25 {record}\n")
        );
        // A flag that no reading gives.
        let asked = [(0, &b"X\x01\0\0\0\x01"[..]), (15, &[2]), donation, (25, &[71]), pair];
        assert_eq!(told(&asked), "X 8 0 2e\n");
        let compound = (0, &b"X\x02\x03\xe7\xff\xff"[..]);
        let day = (27, &b"\x05\x07\xe4\x01\x6e\x0d\x1e"[..]);
        let record = hex(b"\x17\0\x0502999\x02\0\x045100\x05\0\x0a0203661330");
        assert_eq!(
            told(&[compound, (15, &[2]), groups, day]),
            format!("X 0 28 {record}{}\n", "2e".repeat(MOST_EXPORT - 28))
        );
    }

    /// What is told for a record to be imported.
    fn imported(record: &[u8]) -> String {
        told(&[(0, b"I\0"), (2, &[record.len() as u8]), (3, &[1]), (HEAD, record)])
    }

    #[test]
    fn imports() {
        let empty = " 0 0 0".repeat(14);
        let single = format!("I 0 7 0 0 1 2 0 6 53 49 48 0 0 0{empty}\n");
        assert_eq!(imported(b"\x02\0\x045100"), single);
        let pair = "I 0 25 1 0 2 1 0 16 87 0 21 123456 70 2 16 6 53 49 48";
        let record = b"\x01\0\x0fW00002112345670\x02\0\x045100";
        assert_eq!(imported(record), format!("{pair}{empty}\n"));
        let compound = "I 0 42 2 999 2 12 7 20 1 5 27 12 2020 366 13 30";
        let fields = b"\x17\0\x0502999\x0c\0\x12000000000000000001\x05\0\x0a0203661330";
        assert_eq!(imported(fields), format!("{compound}{empty}\n"));
        // More than the most of a record.
        let groups = (16, &b"\x02\0\x045100"[..]);
        for asked in [b"I\x01\x71", b"I\xff\xff"] {
            let refused = format!("I 6 7 0 0 0 0 0 0 0 0 0{empty}\n");
            assert_eq!(told(&[(0, asked), groups]), refused);
        }
    }

    #[test]
    fn refused_imports() {
        let empty = " 0 0 0".repeat(16);
        let refused: [(&[u8], u8, usize); 20] = [
            (b"", 1, 0),
            (b"\x02\0\x04510", 1, 6),
            (b"\x01\0\x0fW00002112345670\x02", 1, 19),
            (b"\x01\0\x0fW00002112345670\x02\x01", 18, 19),
            (b"\x01\0\x0fW00002112345670\x03", 6, 18),
            (b"\x02\0\x05", 18, 2),
            (b"\x02\x01\x04", 18, 1),
            (b"\x01\0\x0f*00002112345670", 4, 3),
            (b"\x01\0\x0fW00002112345671", 10, 17),
            (b"\x02\0\x045101", 5, 6),
            (b"\x04\0\x06021366", 11, 8),
            (b"\x05\0\x0a0213652400", 12, 10),
            (b"\xc8\0\x13880000000087000099C", 17, 0),
            (b"\x17\0\x0517000", 5, 4),
            (b"\x17\0\x0502000\x17", 3, 8),
            (b"\x17\0\x0502000\x0b", 17, 8),
            (b"\x17\0\x0502000\x01\0\x0fW00002112345670\x01", 13, 26),
            (b"\x17\0\x0501000\x01\0\x0fW00002112345670\x01", 6, 26),
            (b"\x17\0\x0502000\x01\0\x0fO00002112345670\x01", 4, 11),
            (b"\x17\0\x0501000\x02\0\x045100\x17", 6, 15),
        ];
        for (record, number, place) in refused {
            assert_eq!(
                imported(record),
                format!("I {number} {place} 0 0 0{empty}\n"),
                "{record:?}"
            );
        }
    }
}
