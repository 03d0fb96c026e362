//! Records of what the reader, the writer, the keyboard, the blood groups and the calendar are asked:
//! `second::asked` has their layout.

use super::{check, damage, donation, edition, every_byte, extract, host, minutes, sequence_for};
use super::{Chance, Out, ANY, CHECKS, FIRST, LOWER, UPPER, UPPER_DIGIT};
use second::asked::{ENTRY, HEAD, MOST_ROOM, MOST_SCAN, RECORD};
use std::io::{Result, Write};

pub type Entry = [u8; ENTRY];

pub const SINGLE: u8 = 0;
pub const PAIR: u8 = 1;
pub const COMPOUND: u8 = 2;
pub const EMPTY: Entry = [0; ENTRY];
pub const KINDS: [u8; 13] = [1, 2, 3, 4, 5, 6, 7, 8, 9, 10, 12, 18, 31];

/// Numbers beside which a field, or a count, changes from lawful to not, or to more bytes.
pub const BBBS: [u64; 8] = [0, 1, 99, 100, 999, 1000, 1999, 65535];
const FACILITIES: [u64; 7] = [0, 1, 999, 9999, 10000, 19999, 65535];
const TWO_DIGITS: [u64; 6] = [0, 9, 10, 99, 100, 255];
const FLAGS: [u64; 9] = [0, 9, 10, 59, 60, 96, 99, 100, 255];
const SEQUENCES: [u64; 7] = [0, 99999, 999999, 1000000, 1999999, 10000000, u32::MAX as u64];
pub const YEARS: [u64; 15] =
    [0, 99, 900, 1000, 1899, 1900, 1999, 2000, 2100, 2899, 2900, 2999, 3000, 12000, 65535];
pub const DAYS: [u64; 10] = [0, 1, 99, 100, 365, 366, 367, 999, 1000, 65535];
pub const HOURS: [u64; 6] = [0, 9, 23, 24, 99, 255];
pub const MINUTES: [u64; 6] = [0, 9, 59, 60, 99, 255];
const TYPES: [u64; 6] = [0, 1, 5, 6, 100, 255];
const MONTHS: [u64; 7] = [0, 1, 9, 10, 12, 100, 255];
const MONTH_DAYS: [u64; 8] = [0, 1, 28, 29, 30, 31, 100, 255];
const ANTIGENS: [u64; 6] =
    [0, 9, 99_999_999_999_999_999, 999_999_999_999_999_999, 1_000_000_000_000_000_000, u64::MAX];
const SIXTEEN: [u64; 7] = [
    0,
    9,
    999_999_999_999_999,
    9_999_999_999_999_999,
    99_999_999_999_999_999,
    1_000_000_000_000_000_000,
    u64::MAX,
];
pub const NUMBERS: [u64; 8] = [0, 1, 2, 15, 16, 17, 1 << 32, u64::MAX];
const PLACES: [u64; 9] = [0, 3, 4, 7, 8, 255, 256, 1 << 32, u64::MAX];

/// Where a field of an entry begins, in how many bytes, and its numbers: none for a character.
pub type Field = (usize, usize, &'static [u64]);

pub fn fields(kind: u8) -> Vec<Field> {
    let characters = |count| (1..=count).map(|at| (at, 1, &[][..])).collect();
    let mut day: Vec<Field> = vec![(1, 2, &YEARS), (3, 2, &DAYS)];
    match kind {
        1 => vec![
            (1, 1, &[]),
            (2, 2, &FACILITIES),
            (4, 1, &TWO_DIGITS),
            (5, 4, &SEQUENCES),
            (9, 1, &FLAGS),
        ],
        2 => characters(3),
        3 => characters(8),
        4 | 6 | 8 => day,
        5 | 7 | 9 => {
            day.extend::<[Field; 2]>([(5, 1, &HOURS), (6, 1, &MINUTES)]);
            day
        }
        10 => characters(5),
        12 => vec![(1, 8, &ANTIGENS)],
        18 => characters(10),
        200 => vec![(1, 8, &SIXTEEN), (9, 1, &TWO_DIGITS)],
        _ => vec![
            (1, 1, &[]),
            (2, 1, &TYPES),
            (3, 2, &YEARS),
            (5, 1, &MONTHS),
            (6, 1, &MONTH_DAYS),
            (7, 1, &HOURS),
            (8, 1, &MINUTES),
        ],
    }
}

/// Bytes that a structure of this kind is written in.
pub fn length(kind: u8) -> usize {
    match kind {
        1 => 16,
        2 => 6,
        3 => 10,
        4 | 6 | 8 => 8,
        5 | 7 | 9 | 18 => 12,
        10 => 7,
        12 => 20,
        31 => 18,
        200 => 21,
        _ => 0,
    }
}

pub fn set(entry: &mut Entry, (at, width, _): Field, number: u64) {
    entry[at..at + width].copy_from_slice(&number.to_be_bytes()[8 - width..]);
}

fn characters(kind: u8, text: &[u8]) -> Entry {
    let mut entry = EMPTY;
    entry[0] = kind;
    entry[1..=text.len()].copy_from_slice(text);
    entry
}

pub fn numbers(kind: u8, values: &[u64]) -> Entry {
    let mut entry = characters(kind, &[]);
    fields(kind).into_iter().zip(values).for_each(|(field, &value)| set(&mut entry, field, value));
    entry
}

/// A lawful structure of each kind.
pub fn sample(kind: u8) -> Entry {
    match kind {
        1 => flagged(123456, 0),
        2 => characters(kind, b"641"),
        3 => characters(kind, b"E0178VBb"),
        4..=9 => numbers(kind, &[2020, 366, 13, 30]),
        10 => characters(kind, b"N0008"),
        12 => numbers(kind, &[979_999_999_999_924_799]),
        18 => characters(kind, b"00aZ901xyQ"),
        200 => numbers(kind, &[8_800_000_000_870_000, 99]),
        _ => flexible(2024, 2, 29),
    }
}

/// A lawful 031 of this day, if there is such a day.
fn flexible(year: u64, month: u64, day: u64) -> Entry {
    numbers(31, &[b'2'.into(), 5, year, month, day, 13, 30])
}

fn is_leap(year: u64) -> bool {
    matches!((year % 4, year % 100, year % 400), (0, 1.., _) | (_, _, 0))
}

fn last_day(year: u64, month: u64) -> u64 {
    match month {
        2 if is_leap(year) => 29,
        2 => 28,
        4 | 6 | 9 | 11 => 30,
        _ => 31,
    }
}

pub fn year(chance: &mut Chance) -> u64 {
    chance.number(1900, 2899, &[1900, 1999, 2000, 2400, 2899])
}

pub fn days_in(year: u64) -> u64 {
    if is_leap(year) {
        366
    } else {
        365
    }
}

/// A day of a year by chance, its last one at times.
pub fn ordinal(chance: &mut Chance, year: u64) -> u64 {
    chance.number(1, 365, &[1, 365, days_in(year)])
}

/// A month of a year and a day in it by chance, its last one at times.
fn month_and_day(chance: &mut Chance, year: u64) -> [u64; 2] {
    let month = chance.number(1, 12, &[2]);
    let last = last_day(year, month);
    [month, chance.number(1, last, &[last])]
}

/// A lawful structure with values by chance.
pub fn lawful(chance: &mut Chance, kind: u8) -> Entry {
    let mut text = Vec::new();
    match kind {
        1 => {
            let first = chance.pick(FIRST);
            let [facility, year, sequence, flags] = [10_000, 100, 1_000_000, 60].map(|limit| {
                let edges = [0, limit - 1];
                chance.number(0, limit - 1, &edges)
            });
            let text = format!("{}{facility:04}{year:02}{sequence:06}", char::from(first));
            let own = 60 + check(text.as_bytes()) as u64;
            let flags = if chance.one_in(2) { own } else { flags };
            return numbers(kind, &[first.into(), facility, year, sequence, flags]);
        }
        2 => chance.bytes(ANY, 3, &mut text),
        3 => product(chance, &mut text),
        4..=9 => {
            let year = year(chance);
            let day = ordinal(chance, year);
            let [hour, minute] = [24, 60].map(|limit| chance.below(limit));
            return numbers(kind, &[year, day, hour, minute]);
        }
        10 => chance.bytes(UPPER_DIGIT, 5, &mut text),
        12 => return numbers(kind, &[chance.below(1_000_000_000_000_000_000)]),
        18 => chance.bytes(ANY, 10, &mut text),
        200 => {
            let digits = [10_000_000_000_000_000, 100].map(|limit| chance.below(limit));
            return numbers(kind, &digits);
        }
        _ => {
            let year = year(chance);
            let [month, day] = month_and_day(chance, year);
            let [tt, hour, minute] = [5, 24, 60].map(|limit| chance.below(limit));
            let z = chance.pick(b"12").into();
            return numbers(kind, &[z, 1 + tt, year, month, day, hour, minute]);
        }
    }
    characters(kind, &text)
}

fn product(chance: &mut Chance, text: &mut Vec<u8>) {
    let blood = chance.one_in(2);
    text.push(if blood { b'E' } else { chance.pick(b"ABCDFGHIJKLMNOPQRSTUVWXYZ") });
    chance.bytes(UPPER_DIGIT, 4, text);
    chance.bytes(ANY, 1, text);
    match chance.below(3) {
        _ if !blood => text.extend([chance.pick(UPPER_DIGIT), chance.pick(b"abz0123456789")]),
        0 => text.extend(b"00"),
        1 => text.extend([chance.pick(UPPER), b'0']),
        _ => text.extend([chance.pick(UPPER), chance.pick(LOWER)]),
    }
}

/// What the writer is given.
#[derive(Clone)]
pub struct Given {
    pub edition: u8,
    pub form: u8,
    pub bbb: u64,
    pub number: u64,
    pub entries: [Entry; 16],
}

impl Given {
    /// A message of these structures, with no kind in the entries past them, of the current edition.
    pub fn new(form: u8, bbb: u64, structures: &[Entry]) -> Given {
        let mut entries = [[0xff; ENTRY]; 16];
        entries[..structures.len()].copy_from_slice(structures);
        Given { edition: 0, form, bbb, number: structures.len() as u64, entries }
    }

    pub fn needed(&self) -> usize {
        let head = if self.form < COMPOUND { 0 } else { 7 };
        let within = self.number.min(16) as usize;
        head + self.entries[..within].iter().map(|entry| length(entry[0])).sum::<usize>()
    }

    pub fn ask(&self, room: usize, out: &mut Out) -> Result<()> {
        self.ask_for(b'W', room, out)
    }

    /// To have it written, or what else has a record of this layout.
    pub fn ask_for(&self, asked: u8, room: usize, out: &mut Out) -> Result<()> {
        let mut record = [0; RECORD];
        record[..2].copy_from_slice(&[asked, self.form]);
        record[2..4].copy_from_slice(&self.bbb.to_be_bytes()[6..]);
        record[4..6].copy_from_slice(&room.to_be_bytes()[6..]);
        record[6] = self.edition;
        record[8..HEAD].copy_from_slice(&self.number.to_be_bytes());
        record[HEAD..HEAD + 16 * ENTRY].copy_from_slice(&self.entries.concat());
        out.to.write_all(&record)
    }

    /// In a buffer that is just long enough, and in one a byte too short.
    fn ask_twice(&self, out: &mut Out) -> Result<()> {
        let needed = self.needed();
        self.ask(needed, out)?;
        self.ask(needed.saturating_sub(1), out)
    }
}

fn typed(entry: &[u8], out: &mut Out) -> Result<()> {
    let mut record = [0xff; RECORD];
    record[..2].copy_from_slice(&[b'K', entry.len() as u8]);
    record[HEAD..HEAD + entry.len()].copy_from_slice(entry);
    out.to.write_all(&record)
}

/// A scan to be read by the current edition, which any byte but 1 asks for.
pub fn scanned(scan: &[u8], to: &mut impl Write) -> Result<()> {
    scanned_by(b'0', scan, to)
}

/// A scan to be read, if a record has room for it; what stands behind it is no part of it.
pub fn scanned_by(edition: u8, scan: &[u8], to: &mut impl Write) -> Result<()> {
    if MOST_SCAN < scan.len() {
        return Ok(());
    }
    let mut record = [b'0'; RECORD];
    record[0] = b'R';
    record[1..3].copy_from_slice(&(scan.len() as u16).to_be_bytes());
    record[3] = edition;
    record[HEAD..HEAD + scan.len()].copy_from_slice(scan);
    to.write_all(&record)
}

fn gg(gg: [u8; 2], out: &mut Out) -> Result<()> {
    let mut record = [0; RECORD];
    record[..3].copy_from_slice(&[b'G', gg[0], gg[1]]);
    out.to.write_all(&record)
}

fn code(row: u64, column: u64, out: &mut Out) -> Result<()> {
    let mut record = [0; RECORD];
    record[0] = b'C';
    record[8..16].copy_from_slice(&row.to_be_bytes());
    record[16..24].copy_from_slice(&column.to_be_bytes());
    out.to.write_all(&record)
}

/// Which number in its year a day has.
fn number_of([year, month, day]: [u64; 3], out: &mut Out) -> Result<()> {
    let mut record = [0; RECORD];
    record[0] = b'O';
    record[1..3].copy_from_slice(&year.to_be_bytes()[6..]);
    record[3..5].copy_from_slice(&[month as u8, day as u8]);
    out.to.write_all(&record)
}

/// Which day of its year has a number.
fn day_with([year, ordinal]: [u64; 2], out: &mut Out) -> Result<()> {
    let mut record = [0; RECORD];
    record[0] = b'Q';
    record[1..3].copy_from_slice(&year.to_be_bytes()[6..]);
    record[3..5].copy_from_slice(&ordinal.to_be_bytes()[6..]);
    out.to.write_all(&record)
}

/// A donation number with its check.
fn with_check(number: &[u8]) -> Vec<u8> {
    [number, &[CHECKS[check(number)]]].concat()
}

/// The donation number `W000021` and this sequence number, with these flags.
pub fn flagged(sequence: u64, flags: u64) -> Entry {
    numbers(1, &[b'W'.into(), 0, 21, sequence, flags])
}

/// Each kind and form accepted, each number, both answers of the groups and of each way of the calendar,
/// all sorts of minutes left, both editions, the extract, and the host: first in the set, so that its
/// front has them all.
fn few(out: &mut Out) -> Result<()> {
    let samples = KINDS.map(sample);
    for structure in samples {
        let given = Given::new(SINGLE, 0, &[structure]);
        given.ask(given.needed() + 2, out)?;
    }
    Given::new(PAIR, 0, &[sample(1), sample(2)]).ask(22, out)?;
    Given::new(PAIR, 0, &[sample(3), sample(5)]).ask(22, out)?;
    Given::new(COMPOUND, 999, &samples).ask(158, out)?;
    Given::new(COMPOUND, 0, &[sample(2); 16]).ask(105, out)?;
    Given::new(COMPOUND, 0, &[]).ask(20, out)?;
    Given::new(COMPOUND, 1000, &[sample(2)]).ask(20, out)?;
    Given::new(PAIR, 0, &[sample(2), sample(1)]).ask(22, out)?;
    Given::new(COMPOUND, 0, &[sample(2), EMPTY]).ask(20, out)?;
    Given::new(COMPOUND, 0, &[sample(1), EMPTY, sample(1)]).ask(40, out)?;
    Given::new(COMPOUND, 0, &[sample(1), EMPTY, sample(2)]).ask(40, out)?;
    Given::new(SINGLE, 0, &[numbers(4, &[2100, 366])]).ask(8, out)?;
    Given::new(PAIR, 0, &[flagged(123456, 70), sample(2)]).ask(22, out)?;
    Given::new(SINGLE, 0, &[flagged(123456, 71)]).ask(16, out)?;
    Given::new(SINGLE, 0, &[flexible(2025, 2, 29)]).ask(18, out)?;
    Given::new(PAIR, 0, &[sample(1), sample(31)]).ask(34, out)?;
    Given::new(SINGLE, 0, &[sample(10)]).ask(6, out)?;
    for entry in ["W000021123456A", "W0000211234", "W00002112345A6", "W000021123456B"] {
        typed(entry.as_bytes(), out)?;
    }
    typed(b"W000021123456AA", out)?;
    gg(*b"06", out)?;
    gg(*b"87", out)?;
    gg(*b"5a", out)?;
    code(3, 6, out)?;
    code(8, 0, out)?;
    number_of([2024, 3, 1], out)?;
    number_of([2100, 2, 29], out)?;
    day_with([2024, 366], out)?;
    day_with([2899, 366], out)?;
    minutes::few(out)?;
    for label in super::samples() {
        scanned(label.as_bytes(), &mut out.to)?;
    }
    for refused in [
        "=%510",
        "=O",
        "=+02000=%5100=+",
        "=%51-0",
        "=>021366",
        "&>0213652400",
        "=%5100=",
        "=W00002112345671",
        "=W00002112345697",
        "=+02000=W00002112345600=W",
        "=(2001202515352359",
        "=(2001202512312400",
        "=(2x01202512312359",
        "=(3001202512312359",
        "=(200129",
        "=W00002112345600=(",
        "W000021123456",
    ] {
        scanned(refused.as_bytes(), &mut out.to)?;
    }
    edition::few(out)?;
    extract::few(out)?;
    host::few(out)?;
    out.to.write_all(&[b'?'; RECORD])
}

/// Each field of each kind with every byte, or with numbers near its edges and many between, and
/// every flag byte with a donation number of every check.
fn every_field(out: &mut Out) -> Result<()> {
    for kind in KINDS {
        for field in fields(kind) {
            // One kind of date has every year and every day.
            let values: Vec<u64> = match field.1 {
                1 => (0..256).collect(),
                2 if kind == 1 || kind == 5 => (0..65536).collect(),
                2 => (0..65536).step_by(61).chain(near(field.2)).collect(),
                _ => near(field.2).collect(),
            };
            for value in values {
                let mut entry = sample(kind);
                set(&mut entry, field, value);
                Given::new(SINGLE, 0, &[entry]).ask(length(kind), out)?;
            }
        }
    }
    for sequence in (0..37).map(sequence_for) {
        for flags in 0..256 {
            Given::new(SINGLE, 0, &[flagged(sequence, flags)]).ask(16, out)?;
        }
    }
    for year in 1890..2910 {
        for day in [0, 1, 60, 365, 366, 367] {
            Given::new(SINGLE, 0, &[numbers(6, &[year, day])]).ask(8, out)?;
        }
        for (month, day) in MONTH_EDGES {
            Given::new(SINGLE, 0, &[flexible(year, month, day)]).ask(18, out)?;
        }
    }
    for year in TELLING_YEARS {
        for (month, day) in months_and_days() {
            Given::new(SINGLE, 0, &[flexible(year, month, day)]).ask(18, out)?;
        }
    }
    for letter in [b'E', b'T'] {
        for d in every_byte() {
            for s in every_byte() {
                let entry = characters(3, &[letter, b'0', b'1', b'7', b'8', b'V', d, s]);
                Given::new(SINGLE, 0, &[entry]).ask(10, out)?;
            }
        }
    }
    Ok(())
}

pub fn near(edges: &'static [u64]) -> impl Iterator<Item = u64> {
    edges.iter().flat_map(|edge| [edge.wrapping_sub(1), *edge, edge.wrapping_add(1)])
}

/// Every two kinds in every form, with numbers and bbb that fit it and that do not.
fn every_shape(out: &mut Out) -> Result<()> {
    let structures: Vec<Entry> = KINDS.iter().map(|&kind| sample(kind)).chain([EMPTY]).collect();
    for form in [SINGLE, PAIR, COMPOUND, 3, 255] {
        for (first, second) in
            structures.iter().flat_map(|first| structures.iter().map(move |second| (first, second)))
        {
            for (number, bbb) in [(1, 0), (2, 0), (3, 0), (2, 1), (1, 1)] {
                let given = Given::new(form, bbb, &[*first, *second]);
                Given { number, ..given }.ask(MOST_ROOM, out)?;
            }
        }
        for number in (0..20).chain(near(&NUMBERS)) {
            for bbb in near(&BBBS) {
                Given { number, ..Given::new(form, bbb, &[sample(2); 16]) }.ask(MOST_ROOM, out)?;
            }
        }
    }
    Ok(())
}

/// Compounds of every number with an entry empty, unlawful or of no kind at each index, one or two.
fn every_index(out: &mut Out) -> Result<()> {
    let bad = [
        EMPTY,
        characters(2, b"5!0"),
        numbers(8, &[2021, 366]),
        [0xff; ENTRY],
        flagged(123456, 71),
    ];
    for number in 1..=16 {
        for at in 0..16 {
            for wrong in bad {
                let mut given = Given::new(COMPOUND, 7, &[sample(2); 16]);
                given.number = number;
                given.entries[at] = wrong;
                given.ask_twice(out)?;
                given.entries[15 - at] = bad[at % bad.len()];
                given.ask(MOST_ROOM, out)?;
            }
        }
    }
    Ok(())
}

/// An 001 at every two indexes of sixteen, lawful or not, the others lawful or empty. Each number then
/// has both, one or none within: the writer asks for SHAPE first, and not past the number.
fn every_two_donations(out: &mut Out) -> Result<()> {
    for second in 1..16 {
        for first in 0..second {
            for (donation, other) in [
                (flagged(123456, 70), sample(2)),
                (flagged(123456, 70), EMPTY),
                (flagged(123456, 71), sample(2)),
            ] {
                let mut given = Given::new(COMPOUND, 5, &[other; 16]);
                given.entries[first] = donation;
                given.entries[second] = donation;
                for number in 1..=16 {
                    given.number = number;
                    given.ask(given.needed(), out)?;
                }
            }
        }
    }
    Ok(())
}

/// Each kind alone, the pairs, and compounds of every number in every room.
fn every_room(out: &mut Out) -> Result<()> {
    let mut all: Vec<Given> =
        KINDS.iter().map(|&kind| Given::new(SINGLE, 0, &[sample(kind)])).collect();
    all.push(Given::new(PAIR, 0, &[sample(1), sample(2)]));
    all.push(Given::new(PAIR, 0, &[sample(3), sample(5)]));
    // All kinds, then others than 001 again.
    let again = KINDS.iter().chain(&KINDS[1..]);
    let mixed: Vec<Entry> = again.take(16).map(|&kind| sample(kind)).collect();
    all.extend((1..=16).map(|number| Given::new(COMPOUND, 123, &mixed[..number])));
    all.push(Given::new(COMPOUND, 0, &[sample(12); 16]));
    for given in all {
        for room in (0..=given.needed() + 3).chain([MOST_ROOM, MOST_ROOM + 1, 65535]) {
            given.ask(room, out)?;
        }
    }
    Ok(())
}

/// Entries cut, continued, and with every other byte at every place.
fn every_entry(out: &mut Out) -> Result<()> {
    for number in ["W000021123456", "A999921123458", "9000000000000", "Z999999999999"] {
        let entry = with_check(number.as_bytes());
        for at in 0..14 {
            typed(&entry[..at], out)?;
            for byte in every_byte() {
                typed(&[&entry[..at], &[byte], &entry[at + 1..]].concat(), out)?;
            }
        }
        every_byte().try_for_each(|byte| typed(&[&entry[..], &[byte]].concat(), out))?;
        (0..8).try_for_each(|more| typed(&[&entry[..], &entry[..more]].concat(), out))?;
        CHECKS
            .iter()
            .try_for_each(|&check| typed(&[&entry[..13], &[check, b'0']].concat(), out))?;
    }
    Ok(())
}

/// The same records each time: every gg, every place of the table and beside it, and what decides
/// in messages and entries.
pub fn fixed(out: &mut Out) -> Result<()> {
    few(out)?;
    every_field(out)?;
    every_shape(out)?;
    every_index(out)?;
    every_two_donations(out)?;
    every_room(out)?;
    every_entry(out)?;
    every_byte().try_for_each(|a| every_byte().try_for_each(|b| gg([a, b], out)))?;
    for row in (0..10).chain(near(&PLACES)) {
        (0..10).chain(near(&PLACES)).try_for_each(|column| code(row, column, out))?;
    }
    let others = every_byte().filter(|byte| !b"RWKGCOQMTXI".contains(byte));
    others.into_iter().try_for_each(|byte| out.to.write_all(&[byte; RECORD]))
}

/// Years by whose length one tells the rule for leap years, and the first and last.
const TELLING_YEARS: [u64; 8] = [1900, 2000, 2024, 2025, 2100, 2400, 2800, 2899];
/// Around the end of February, and the end of the year.
const MONTH_EDGES: [(u64, u64); 5] = [(2, 28), (2, 29), (2, 30), (3, 1), (12, 31)];

/// Every month and day, and those beside them.
fn months_and_days() -> impl Iterator<Item = (u64, u64)> {
    (0..14).flat_map(|month| (0..33).map(move |day| (month, day)))
}

/// Days by month and by number: all of the telling years, edges of every year, and what is no year,
/// month, day or number.
pub fn days(out: &mut Out) -> Result<()> {
    for year in TELLING_YEARS {
        months_and_days().try_for_each(|(month, day)| number_of([year, month, day], out))?;
        (0..368).chain(near(&DAYS)).try_for_each(|ordinal| day_with([year, ordinal], out))?;
    }
    for year in 1890..2910 {
        MONTH_EDGES.iter().try_for_each(|&(month, day)| number_of([year, month, day], out))?;
        for ordinal in [0, 1, 59, 60, 61, 365, 366, 367] {
            day_with([year, ordinal], out)?;
        }
    }
    for year in (0..65536).step_by(61).chain(near(&YEARS)) {
        number_of([year, 2, 29], out)?;
        day_with([year, 60], out)?;
    }
    for byte in 0..256 {
        number_of([2024, byte, 1], out)?;
        number_of([2024, 1, byte], out)?;
    }
    (0..65536).step_by(61).try_for_each(|ordinal| day_with([2024, ordinal], out))
}

/// A day by month or by number, mostly of a lawful year and mostly itself lawful.
fn any_day(chance: &mut Chance, out: &mut Out) -> Result<()> {
    let year = if chance.one_in(8) { chance.pick(&YEARS) } else { year(chance) };
    let [month, day] = month_and_day(chance, year);
    match chance.below(4) {
        0 => number_of([year, month, day], out),
        1 => number_of([year, chance.pick(&MONTHS), chance.pick(&MONTH_DAYS)], out),
        2 => day_with([year, ordinal(chance, year)], out),
        _ => day_with([year, chance.pick(&DAYS)], out),
    }
}

/// A message of the grammar by chance, and bytes by chance past its number.
pub fn message(chance: &mut Chance) -> Given {
    let kind = chance.pick(&KINDS);
    let (form, bbb, kinds) = match chance.below(4) {
        0 => (SINGLE, 0, vec![kind]),
        1 => (PAIR, 0, chance.pick(&[[1, 2], [3, 5]]).to_vec()),
        _ => {
            let mut kinds = Vec::new();
            for _ in 0..1 + chance.below(16) {
                let left = if kinds.contains(&1) { &KINDS[1..] } else { &KINDS };
                kinds.push(chance.pick(left));
            }
            (COMPOUND, chance.below(1000), kinds)
        }
    };
    given(chance, form, bbb, &kinds)
}

/// Lawful structures of these kinds, and bytes by chance past them.
pub fn given(chance: &mut Chance, form: u8, bbb: u64, kinds: &[u8]) -> Given {
    let structures: Vec<Entry> = kinds.iter().map(|&kind| lawful(chance, kind)).collect();
    let mut given = Given::new(form, bbb, &structures);
    for entry in &mut given.entries[kinds.len()..] {
        *entry = std::array::from_fn(|_| chance.byte());
        entry[0] = chance.below(33) as u8;
    }
    given
}

/// Changes one field of an entry within the number, or past it.
fn change_one(chance: &mut Chance, given: &mut Given) {
    let limit = if chance.one_in(8) { 16 } else { given.number.clamp(1, 16) };
    let index = chance.below(limit) as usize;
    change(chance, &mut given.entries[index]);
}

/// Changes one field of an entry that has a kind.
pub fn change(chance: &mut Chance, entry: &mut Entry) {
    if length(entry[0]) == 0 {
        return;
    }
    let field = chance.pick(&fields(entry[0]));
    let value = match (chance.one_in(2), field.2) {
        (true, []) => chance.byte().into(),
        (true, edges) => chance.pick(&near(edges).collect::<Vec<_>>()),
        _ => chance.next() >> chance.below(64),
    };
    set(entry, field, value);
}

/// Puts an 001 at two indexes, within the number or past it, and at times makes all between empty.
fn repeat(chance: &mut Chance, given: &mut Given) {
    let limit = if chance.one_in(4) { 16 } else { given.number.clamp(1, 16) };
    let [a, b] = [limit, limit].map(|limit| chance.below(limit) as usize);
    if chance.one_in(2) {
        given.entries[a.min(b)..a.max(b)].fill(EMPTY);
    }
    for at in [a, b] {
        given.entries[at] = lawful(chance, 1);
    }
}

/// Leaves a message as it is, or changes fields, kinds or shape.
pub fn spoil(chance: &mut Chance, given: &mut Given) {
    let index = chance.below(16) as usize;
    match chance.below(21) {
        0..=5 => {}
        6..=11 => change_one(chance, given),
        12..=14 => (0..1 + chance.below(6)).for_each(|_| change_one(chance, given)),
        15 => given.entries[index] = EMPTY,
        16 => {
            given.entries[index][0] = chance.pick(&[1, 2, 3, 4, 5, 6, 7, 8, 9, 10, 11, 12, 18, 31])
        }
        17 => given.number = chance.number(0, 18, &NUMBERS),
        18 => given.bbb = chance.number(0, 2000, &BBBS),
        19 => repeat(chance, given),
        _ => given.form = chance.below(4) as u8,
    }
}

pub fn room(chance: &mut Chance, needed: usize) -> usize {
    match chance.below(10) {
        0..=3 => needed,
        4 => needed.saturating_sub(1),
        5 => needed + 1,
        6 => MOST_ROOM,
        7 => chance.pick(&[0, 1, MOST_ROOM + 1, 65535]),
        _ => chance.below(MOST_ROOM as u64 + 1) as usize,
    }
}

fn entry(chance: &mut Chance, line: &mut Vec<u8>) {
    line.clear();
    donation(chance, line);
    *line = with_check(line);
    match chance.below(4) {
        0 => {}
        1 => line[13] = chance.pick(CHECKS),
        2 => line.extend((0..chance.below(7)).map(|_| chance.byte())),
        _ => damage(chance, line),
    }
}

pub fn generated(seed: u64, count: u64, out: &mut Out) -> Result<()> {
    let mut chance = Chance(seed);
    let mut line = Vec::new();
    for _ in 0..count {
        match chance.below(20) {
            0..=13 => {
                let mut given = message(&mut chance);
                spoil(&mut chance, &mut given);
                let room = room(&mut chance, given.needed());
                given.ask(room, out)?;
            }
            14..=17 => {
                entry(&mut chance, &mut line);
                typed(&line, out)?;
            }
            18 => match chance.below(2) {
                0 => any_day(&mut chance, out)?,
                _ => minutes::any(&mut chance, out)?,
            },
            _ => {
                let [row, column] = [9, 9].map(|most| chance.number(0, most, &PLACES));
                code(row, column, out)?;
            }
        }
    }
    Ok(())
}
