//! Scans to compare two programs with. All but `lines steps` are made without the automata, so that a
//! word they miss is still asked for.
//!
//! `lines SEED COUNT`, `lines donations SEED COUNT`, `lines all-dates`, `lines short`,
//! `lines edges`, `lines mutations`, `lines longest`, `lines steps`. A scan with LF is no line, and is left out; but after
//! `lines hex`, every scan is written in hexadecimal digits, and after `lines read`, every one of up
//! to 368 bytes is a record that asks for its reading. `lines asked` and `lines asked SEED COUNT`
//! write records of all the other questions too, `lines days` those of days by month and by number,
//! `lines minutes` those of minutes left, and `lines edition BYTE` and `lines edition BYTE SEED COUNT` those
//! of scans and messages with this byte for their edition. `lines extract` and `lines extract SEED COUNT`
//! write those of lines in the research extract; `lines extract same`, and the same with a seed and a
//! count, do so for couples of messages whose lines are equal, and `lines extract different` for couples
//! whose lines are not. `lines host` and `lines host SEED COUNT` write those of imports from the
//! hospital host and exports to it. Records are for `second asked`; what `lines shelf SEED COUNT`
//! writes, so many calls of the shelf list, is for `second shelf`.

// Beside this file they would be programs of their own.
#[path = "lines/asked.rs"]
mod asked;
#[path = "lines/edition.rs"]
mod edition;
#[path = "lines/extract.rs"]
mod extract;
#[path = "lines/host.rs"]
mod host;
#[path = "lines/minutes.rs"]
mod minutes;
#[path = "lines/shelf.rs"]
mod shelf;

use second::message::Edition;
use std::collections::HashSet;
use std::io::{stdout, BufWriter, Result, Stdout, Write};

const IDENTIFIERS: [&str; 14] =
    ["=", "=%", "=<", "=>", "&>", "=*", "&*", "=}", "&}", "&(", "=\\", "&)", "=(", "={"];
const DIGIT: &[u8] = b"0123456789";
const UPPER: &[u8] = b"ABCDEFGHIJKLMNOPQRSTUVWXYZ";
const LOWER: &[u8] = b"abcdefghijklmnopqrstuvwxyz";
const UPPER_DIGIT: &[u8] = b"ABCDEFGHIJKLMNOPQRSTUVWXYZ0123456789";
const ANY: &[u8] = b"ABCDEFGHIJKLMNOPQRSTUVWXYZabcdefghijklmnopqrstuvwxyz0123456789";
const FIRST: &[u8] = b"ABCDEFGHIJKLMNPQRSTUVWXYZ123456789";
/// Check characters in the order of their worth.
const CHECKS: &[u8; 37] = b"0123456789ABCDEFGHIJKLMNOPQRSTUVWXYZ*";
/// Bytes of the format and the neighbours of its sets.
const TELLING: &[u8] = b"=&%<>*}(\\)+0123456789AEOZaoz/:@[`{ \r\t\0\x7f\x80\xbd\xff";
const CENTURIES: [u64; 12] = [0, 100, 200, 300, 400, 500, 600, 700, 800, 900, 899, 999];
const DAYS: [u64; 16] = [0, 1, 9, 10, 59, 99, 100, 299, 300, 359, 360, 365, 366, 367, 370, 400];
const HOURS: [u64; 8] = [0, 9, 19, 20, 23, 24, 29, 30];
const MINUTES: [u64; 6] = [0, 9, 59, 60, 69, 99];
const TYPES: [u64; 6] = [0, 1, 5, 6, 10, 50];
const YEARS: [u64; 10] = [0, 999, 1899, 1900, 2000, 2024, 2100, 2899, 2900, 3000];
const MONTHS: [u64; 8] = [0, 2, 4, 9, 10, 12, 13, 20];
const MONTH_DAYS: [u64; 8] = [0, 28, 29, 30, 31, 32, 39, 40];
const COUNTS: [u64; 8] = [0, 1, 9, 10, 15, 16, 17, 20];

/// What a scan is written as.
#[derive(Clone, Copy, PartialEq)]
enum As {
    Line,
    Hex,
    Record,
}

struct Out {
    to: BufWriter<Stdout>,
    scans: As,
    digits: Vec<u8>,
}

impl Out {
    fn scan(&mut self, bytes: &[u8]) -> Result<()> {
        match self.scans {
            As::Record => return asked::scanned(bytes, &mut self.to),
            As::Line if bytes.contains(&b'\n') => return Ok(()),
            As::Line => self.to.write_all(bytes)?,
            As::Hex => {
                let pairs = bytes.iter().flat_map(|byte| [byte >> 4, byte & 15]);
                self.digits.clear();
                self.digits.extend(pairs.map(|digit| b"0123456789abcdef"[usize::from(digit)]));
                self.to.write_all(&self.digits)?;
            }
        }
        self.to.write_all(b"\n")
    }
}

/// The sequence called splitmix64.
struct Chance(u64);

impl Chance {
    fn next(&mut self) -> u64 {
        self.0 = self.0.wrapping_add(0x9e37_79b9_7f4a_7c15);
        let mut z = self.0;
        z = (z ^ (z >> 30)).wrapping_mul(0xbf58_476d_1ce4_e5b9);
        z = (z ^ (z >> 27)).wrapping_mul(0x94d0_49bb_1331_11eb);
        z ^ (z >> 31)
    }

    fn below(&mut self, limit: u64) -> u64 {
        self.next() % limit
    }

    fn one_in(&mut self, times: u64) -> bool {
        self.below(times) == 0
    }

    fn pick<T: Copy>(&mut self, list: &[T]) -> T {
        list[self.below(list.len() as u64) as usize]
    }

    /// Mostly a number of the range, at times one of the edges, which need not be lawful.
    fn number(&mut self, from: u64, to: u64, edges: &[u64]) -> u64 {
        if self.one_in(6) {
            self.pick(edges)
        } else {
            from + self.below(to - from + 1)
        }
    }

    fn byte(&mut self) -> u8 {
        if self.one_in(2) {
            self.pick(TELLING)
        } else {
            self.below(256) as u8
        }
    }

    fn bytes(&mut self, set: &[u8], count: usize, line: &mut Vec<u8>) {
        line.extend((0..count).map(|_| self.pick(set)));
    }
}

fn digits(number: u64, width: u32, line: &mut Vec<u8>) {
    line.extend((0..width).rev().map(|at| b'0' + (number / 10u64.pow(at) % 10) as u8));
}

/// Worth of a donation number's check, or of an antigen structure's, by the running sum.
fn check(number: &[u8]) -> usize {
    let worth = |byte| CHECKS.iter().position(|&other| other == byte).expect("a worth");
    let sum = number.iter().fold(0, |sum, &byte| (sum + worth(byte)) * 2 % 37);
    (38 - sum) % 37
}

/// A sequence number that gives `W000021` a check of this worth.
fn sequence_for(worth: usize) -> u64 {
    let has = |sequence: &u64| check(format!("W000021{sequence:06}").as_bytes()) == worth;
    (0..1_000_000).find(has).expect("any check")
}

/// A donation number by chance; its own flags are told.
fn donation(chance: &mut Chance, line: &mut Vec<u8>) -> u64 {
    let start = line.len();
    chance.bytes(FIRST, 1, line);
    chance.bytes(DIGIT, 12, line);
    60 + check(&line[start..]) as u64
}

/// Mostly lawful, at times right beside a number's own flags, or any.
fn flags(chance: &mut Chance, own: u64) -> u64 {
    match chance.below(6) {
        0 | 1 => chance.below(60),
        2 | 3 => own,
        4 => chance.pick(&[own - 1, own + 1]),
        _ => chance.below(100),
    }
}

fn date(chance: &mut Chance, line: &mut Vec<u8>) {
    digits(chance.number(0, 999, &CENTURIES), 3, line);
    digits(chance.number(1, 365, &DAYS), 3, line);
}

fn time(chance: &mut Chance, line: &mut Vec<u8>) {
    digits(chance.number(0, 23, &HOURS), 2, line);
    digits(chance.number(0, 59, &MINUTES), 2, line);
}

fn flexible(chance: &mut Chance, line: &mut Vec<u8>) {
    line.push(if chance.one_in(24) { chance.pick(DIGIT) } else { chance.pick(b"12") });
    line.push(if chance.one_in(24) { chance.pick(DIGIT) } else { b'0' });
    digits(chance.number(1, 5, &TYPES), 2, line);
    digits(chance.number(1900, 2899, &YEARS), 4, line);
    digits(chance.number(1, 12, &MONTHS), 2, line);
    digits(chance.number(1, 28, &MONTH_DAYS), 2, line);
    time(chance, line);
}

fn product(chance: &mut Chance, line: &mut Vec<u8>) {
    let blood = chance.one_in(2);
    line.push(if blood { b'E' } else { chance.pick(UPPER) });
    chance.bytes(UPPER_DIGIT, 4, line);
    chance.bytes(ANY, 1, line);
    match chance.below(4) {
        0 => line.extend(b"00"),
        1 => line.extend([chance.pick(UPPER), b'0']),
        2 => line.extend([chance.pick(UPPER), chance.pick(LOWER)]),
        // Free in other products, at times against the rule for blood.
        _ if blood && !chance.one_in(4) => line.extend(b"00"),
        _ => line.extend([chance.pick(UPPER_DIGIT), chance.pick(b"abz0123456789")]),
    }
}

fn structure(chance: &mut Chance, kind: usize, line: &mut Vec<u8>) {
    line.extend(IDENTIFIERS[kind].bytes());
    match kind {
        0 => {
            let own = donation(chance, line);
            digits(flags(chance, own), 2, line);
        }
        1 => {
            chance.bytes(ANY, 3, line);
            line.push(if chance.one_in(12) { chance.pick(ANY) } else { b'0' });
        }
        2 => product(chance, line),
        3 | 5 | 7 => date(chance, line),
        4 | 6 | 8 => {
            date(chance, line);
            time(chance, line);
        }
        9 => chance.bytes(UPPER_DIGIT, 5, line),
        10 => chance.bytes(DIGIT, 18, line),
        11 => chance.bytes(ANY, 10, line),
        12 => flexible(chance, line),
        _ => old_antigens(chance, line),
    }
}

/// Eighteen digits, mostly with their own K, at times with another.
fn old_antigens(chance: &mut Chance, line: &mut Vec<u8>) {
    let start = line.len();
    chance.bytes(DIGIT, 18, line);
    let own = CHECKS[check(&line[start..])];
    line.push(if chance.one_in(6) { chance.pick(CHECKS) } else { own });
}

fn any_structure(chance: &mut Chance, line: &mut Vec<u8>) {
    let kind = chance.below(13) as usize;
    structure(chance, kind, line);
}

fn compound(chance: &mut Chance, line: &mut Vec<u8>) {
    let count = if chance.one_in(2) { 1 + chance.below(3) } else { chance.number(1, 16, &COUNTS) };
    line.extend(b"=+");
    digits(count, 2, line);
    chance.bytes(DIGIT, 3, line);
    // At times a structure too few or too many, or one compound in the other.
    let written =
        (count + u64::from(chance.one_in(12))).saturating_sub(u64::from(chance.one_in(12)));
    let mut donated = false;
    for _ in 0..written {
        if chance.one_in(60) {
            line.extend(b"=+");
        }
        // Mostly one donation number at the most, at times another one.
        let donation = chance.one_in(if donated { 24 } else { 4 });
        donated |= donation;
        let kind = if donation { 0 } else { 1 + chance.below(12) as usize };
        structure(chance, kind, line);
    }
}

fn message(chance: &mut Chance, line: &mut Vec<u8>) {
    match chance.below(10) {
        0..=3 => any_structure(chance, line),
        4 | 5 => {
            let (left, right) = chance.pick(&[(0, 1), (2, 4)]);
            structure(chance, left, line);
            structure(chance, right, line);
        }
        6 => {
            // Two structures that seldom are a pair.
            any_structure(chance, line);
            any_structure(chance, line);
        }
        _ => compound(chance, line),
    }
}

fn damage(chance: &mut Chance, line: &mut Vec<u8>) {
    let at = chance.below(line.len() as u64) as usize;
    match chance.below(16) {
        0..=6 => {}
        7..=9 => line[at] = chance.byte(),
        10 | 11 => line.truncate(at),
        12 => line.push(chance.byte()),
        13 => line.insert(at, chance.byte()),
        14 => drop(line.remove(at)),
        _ => any_structure(chance, line),
    }
}

fn generated(seed: u64, count: u64, out: &mut Out) -> Result<()> {
    let mut chance = Chance(seed);
    let mut line = Vec::new();
    for _ in 0..count {
        line.clear();
        match chance.below(200) {
            0..=5 => (0..chance.below(24)).for_each(|_| line.push(chance.byte())),
            6 => {
                // Over 512 bytes, or over a block of 65536, a lawful beginning or not.
                message(&mut chance, &mut line);
                let more = if chance.one_in(200) { 140_000 } else { 120 };
                let length = 505 + chance.below(more) as usize;
                (line.len()..length).for_each(|_| line.push(chance.byte()));
            }
            _ => {
                message(&mut chance, &mut line);
                damage(&mut chance, &mut line);
            }
        }
        out.scan(&line)?;
    }
    Ok(())
}

/// Donation numbers without identifier and flags, whole and damaged.
fn donations(seed: u64, count: u64, out: &mut Out) -> Result<()> {
    let mut chance = Chance(seed);
    let mut line = Vec::new();
    for _ in 0..count {
        line.clear();
        donation(&mut chance, &mut line);
        damage(&mut chance, &mut line);
        out.scan(&line)?;
    }
    Ok(())
}

fn all_dates(out: &mut Out) -> Result<()> {
    (0..1_000_000).try_for_each(|date| out.scan(format!("=>{date:06}").as_bytes()))
}

fn every_byte() -> impl Iterator<Item = u8> {
    0..=255
}

/// All strings of up to two bytes.
fn short(out: &mut Out) -> Result<()> {
    out.scan(b"")?;
    every_byte().try_for_each(|a| out.scan(&[a]))?;
    every_byte().try_for_each(|a| every_byte().try_for_each(|b| out.scan(&[a, b])))
}

/// Every date kind at the edges of years and days, every hhmm, every count before every number of
/// structures, every two bytes as the division of a blood product and of another, every ff behind a
/// donation number of every check, every byte after the = of a structure behind each place for the
/// donation number of a compound, and the parts of an 031.
fn edges(out: &mut Out) -> Result<()> {
    for kind in ["=>", "&>", "=*", "&*", "=}", "&}"] {
        let time = if kind.starts_with('&') { "2359" } else { "" };
        for year in CENTURIES.iter().flat_map(|&century| century..century + 6) {
            for day in DAYS {
                out.scan(format!("{kind}{year:03}{day:03}{time}").as_bytes())?;
            }
        }
        if !time.is_empty() {
            (0..10_000).try_for_each(|t| out.scan(format!("{kind}020366{t:04}").as_bytes()))?;
        }
    }
    for count in 0..100 {
        for written in 0..18 {
            let groups = "=%5100".repeat(written);
            out.scan(format!("=+{count:02}000{groups}").as_bytes())?;
        }
    }
    for code in ["=<E0178V", "=<T1234V"] {
        for d in every_byte() {
            every_byte().try_for_each(|s| out.scan(&[code.as_bytes(), &[d, s]].concat()))?;
        }
    }
    for number in (0..37).map(|check| format!("W000021{:06}", sequence_for(check))) {
        for (before, after) in [
            ("", ""),
            ("", "=%5100"),
            ("=+01000", ""),
            ("=+02000", "=%5100"),
            ("=+16000&(N0008=>020366", "=%5100"),
        ] {
            (0..100).try_for_each(|ff| {
                out.scan(format!("{before}={number}{ff:02}{after}").as_bytes())
            })?;
        }
    }
    for count in [1, 2, 3, 10, 16] {
        for at in 0..count {
            // Right behind it, behind others too, and behind the whole compound.
            for behind in 0..count - at {
                let [before, after] = [at, behind].map(|others| "=%5100".repeat(others));
                let label = format!("=+{count:02}000{before}=W00002112345670{after}=");
                every_byte()
                    .try_for_each(|byte| out.scan(&[label.as_bytes(), &[byte]].concat()))?;
            }
        }
    }
    flexible_edges(out)
}

/// Every four digits as each part of an 031: behind its identifier, as a year, as month and day of a
/// common year and of a leap year, as a time.
fn flexible_edges(out: &mut Out) -> Result<()> {
    for (before, after) in [
        ("=(", "202402292359"),
        ("=(1001", "02290000"),
        ("=(2005", "03010000"),
        ("=(10022024", "2359"),
        ("=(20042025", "0000"),
        ("=(200320240229", ""),
        ("=+02000=%5100=(10012100", "2359"),
    ] {
        (0..10_000)
            .try_for_each(|part| out.scan(format!("{before}{part:04}{after}").as_bytes()))?;
    }
    Ok(())
}

/// One label of each kind and form, with values at which a digit more or less decides, and a compound
/// with a donation number too many.
fn samples() -> Vec<String> {
    let singles = [
        "=W00002112345600",
        "=W00002112345670",
        "=%6410",
        "=<E0178VBb",
        "=<E0178V00",
        "=<T1234001",
        "=>020366",
        "&>0213652359",
        "=*900365",
        "&*1003651959",
        "=}400366",
        "&}8990012030",
        "&(N0008",
        "=\\979999999999924799",
        "&)00aZ901xyQ",
        "=(1002202402292030",
        "=(2003202506301959",
    ];
    let forms = [
        "=W00002112345600=%5100",
        "=A99992112345896=%5100",
        "=<E0178VBb&>0203661330",
        "=+01000=%5100",
        "=+02999=W00002112345600=%5100",
        "=+02001=A99992112345896=W00002112345670",
        "=+03000=<E0150V00&>0213652359=W00001712345600",
        "=+03500=%6410=A99992112345896=\\979999999999924799",
        "=+04010&(N0008=W00002112345659&(N0000=>020366",
        "=+05002=>020366=>020366=*900365=W00002112345670=}400366",
        "=+01000=(2005210002280000",
        "=+03031=(1001190012312359=W00002112345670=(2004289902281010",
        "=+10000=%5100=%5100=%5100=%5100=%5100=%5100=%5100=%5100=%5100=%5100",
    ];
    let mut all: Vec<String> =
        singles.iter().chain(&forms).map(|label| label.to_string()).collect();
    all.push(format!("=+16123{}", singles[1..].concat()));
    all.push(format!("=+16000{}", "&(N0008".repeat(16)));
    all
}

/// Each sample cut, continued, and with every other byte at every place.
fn mutations(out: &mut Out) -> Result<()> {
    let numbers = ["W000021123456", "A999921123458"].map(String::from);
    for label in samples().into_iter().chain(numbers) {
        let label = label.into_bytes();
        for at in 0..label.len() {
            out.scan(&label[..at])?;
            for byte in every_byte() {
                out.scan(&[&label[..at], &[byte], &label[at + 1..]].concat())?;
            }
        }
        out.scan(&label)?;
        for byte in every_byte() {
            out.scan(&[&label[..], &[byte]].concat())?;
            out.scan(&[&label[..], &[b'=', byte]].concat())?;
            out.scan(&[&label[..], &[b'&', byte]].concat())?;
        }
        for more in samples() {
            out.scan(&[&label[..], more.as_bytes()].concat())?;
        }
    }
    Ok(())
}

/// Where the longest messages end: the one of 327 bytes and those of 323, whose one donation number is
/// at each index, cut, continued, and with every other byte at their last places. Compounds of sixteen
/// have no other length from 320 on.
fn longest(out: &mut Out) -> Result<()> {
    for other in 0..=16 {
        let mut label = b"=+16000".to_vec();
        let mut chance = Chance(other);
        for at in 0..16 {
            if at == other {
                label.push(b'=');
                let own = donation(&mut chance, &mut label);
                digits(own, 2, &mut label);
            } else {
                structure(&mut chance, 10, &mut label);
            }
        }
        for at in 316..label.len() {
            for byte in every_byte() {
                out.scan(&[&label[..at], &[byte]].concat())?;
                out.scan(&[&label[..at], &[byte], &label[at + 1..]].concat())?;
            }
        }
        every_byte().try_for_each(|byte| out.scan(&[&label[..], &[byte]].concat()))?;
    }
    Ok(())
}

/// Every state of the second program's automaton with every byte, but for most of those within a
/// donation number in a compound. There is one for each remainder that its check can have so far; a
/// single and a compound of one go through them all, larger compounds through the first at each
/// place. From the end of the number on, where the remainder decides, every state is taken, and so is
/// every one of the structures behind it, where no second number may follow.
fn steps(out: &mut Out) -> Result<()> {
    let mut seen = HashSet::new();
    let within = |word: &[u8]| {
        word.starts_with(b"=+") && (9..21).contains(&word.len()) && FIRST.contains(&word[8])
    };
    second::beginnings(Edition::Current)
        .into_iter()
        .filter(|word| {
            !within(word) || word[2..4] == *b"01" || seen.insert((word[2], word[3], word.len()))
        })
        .try_for_each(|word| {
            every_byte().try_for_each(|byte| out.scan(&[&word[..], &[byte]].concat()))
        })
}

fn main() -> Result<()> {
    let words: Vec<String> = std::env::args().skip(1).collect();
    let mut words: Vec<&str> = words.iter().map(String::as_str).collect();
    let scans = match words.first() {
        Some(&"hex") => As::Hex,
        Some(&"read") => As::Record,
        _ => As::Line,
    };
    if scans != As::Line {
        words.remove(0);
    }
    let to = BufWriter::with_capacity(1 << 16, stdout());
    let mut out = Out { to, scans, digits: Vec::new() };
    match words[..] {
        ["all-dates"] => all_dates(&mut out)?,
        ["short"] => short(&mut out)?,
        ["edges"] => edges(&mut out)?,
        ["mutations"] => mutations(&mut out)?,
        ["longest"] => longest(&mut out)?,
        ["steps"] => steps(&mut out)?,
        ["asked"] => asked::fixed(&mut out)?,
        ["days"] => asked::days(&mut out)?,
        ["minutes"] => minutes::fixed(&mut out)?,
        ["edition", byte] => edition::fixed(number(byte) as u8, &mut out)?,
        ["edition", byte, seed, count] => {
            edition::generated(number(byte) as u8, number(seed), number(count), &mut out)?
        }
        ["extract"] => extract::fixed(&mut out)?,
        ["extract", "same"] => extract::same(&mut out)?,
        ["extract", "different"] => extract::different(&mut out)?,
        ["extract", "same", seed, count] => {
            extract::same_by_chance(number(seed), number(count), &mut out)?
        }
        ["extract", "different", seed, count] => {
            extract::different_by_chance(number(seed), number(count), &mut out)?
        }
        ["extract", seed, count] => extract::generated(number(seed), number(count), &mut out)?,
        ["host"] => host::fixed(&mut out)?,
        ["host", seed, count] => host::generated(number(seed), number(count), &mut out)?,
        ["asked", seed, count] => asked::generated(number(seed), number(count), &mut out)?,
        ["shelf", seed, count] => shelf::generated(number(seed), number(count), &mut out)?,
        ["donations", seed, count] => donations(number(seed), number(count), &mut out)?,
        [seed, count] => generated(number(seed), number(count), &mut out)?,
        _ => usage(),
    }
    out.to.flush()
}

fn number(word: &str) -> u64 {
    word.parse().unwrap_or_else(|_| usage())
}

fn usage() -> ! {
    eprintln!(
        "use: lines [hex | read] SEED COUNT | donations SEED COUNT | all-dates | short | edges | mutations | longest | steps"
    );
    eprintln!("     lines asked [SEED COUNT] | days | minutes | shelf SEED COUNT");
    eprintln!("     lines edition BYTE [SEED COUNT] | extract [same | different] [SEED COUNT]");
    eprintln!("     lines host [SEED COUNT]");
    std::process::exit(2)
}
