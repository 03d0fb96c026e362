//! Records of scans and messages of both editions, which ask the same of the edition of any byte: 1 is
//! that of 2001, any other the current one. `second::asked` has their layout.

use super::asked::{fields, flagged, given, length, message, near, numbers, room, sample};
use super::asked::{scanned_by, set, spoil, Entry, Given, COMPOUND, EMPTY, PAIR, SINGLE};
use super::{check, damage, every_byte, structure, Chance, Out, CHECKS, TELLING};
use second::asked::MOST_ROOM;
use std::io::Result;
use std::ops::Range;

const CURRENT: u8 = 0;
const OF_2001: u8 = 1;
/// Antigens of 2001.
const ANTIGENS: u8 = 200;
/// Those that both editions have come first, then those of the current one, and that of 2001.
const KINDS: [u8; 14] = [1, 2, 3, 4, 5, 6, 7, 8, 9, 10, 12, 18, 31, ANTIGENS];

/// The antigens of 2001 with their K.
fn antigens(digits: &str) -> String {
    format!("={{{digits}{}", char::from(CHECKS[check(digits.as_bytes())]))
}

/// Eighteen digits whose K is of this worth.
fn digits_for(worth: usize) -> String {
    let mut all = (0..10_000u64).map(|last| format!("48628613955899{last:04}"));
    all.find(|digits| check(digits.as_bytes()) == worth).expect("any check")
}

/// A label, and the places at which it is changed.
type Changed = (String, Range<usize>);

/// Of each kind of either edition, with values at which a digit more or less decides. Source 000 prints the
/// first sixteen digits of the two antigen labels. Of 2001's kinds one has every place changed.
fn singles() -> Vec<Changed> {
    let others = [
        ("=W00002112345600", 0..16),
        ("=A99992112345896", 14..16),
        ("=%6410", 0..6),
        ("=<E0178VBb", 0..10),
        ("=<T1234001", 8..10),
        ("=>020366", 0..8),
        ("&>0213652359", 0..12),
        ("=*900365", 0..8),
        ("&*1003651959", 0..12),
        ("=}400366", 0..8),
        ("&}8990012030", 0..12),
        ("&(N0008", 0..3),
        ("=\\979999999999924799", 0..3),
        ("&)0123456789", 0..3),
    ];
    let others = others.map(|(label, places)| (label.to_string(), places));
    let later = [("=(2001202512312359".to_string(), 0..3)];
    let own = [(antigens("880000000087000099"), 0..21), (antigens("486286139558999900"), 19..21)];
    later.into_iter().chain(own).chain(others).collect()
}

/// Of each other form, and what is none.
fn forms() -> Vec<Changed> {
    let all = [
        ("=W00002112345670=%5100", 14..22),
        ("=<E0178VBb&>0203661330", 8..22),
        ("=<E0178VBb=>020366", 8..12),
        ("=+01000=%5100", 0..3),
        ("=+02000=W00002112345670=%5100", 0..0),
        ("=+01000={8800000000870000990", 7..10),
    ];
    all.map(|(label, places)| (label.to_string(), places)).to_vec()
}

fn written_by(edition: u8, given: Given, room: usize, out: &mut Out) -> Result<()> {
    Given { edition, ..given }.ask(room, out)
}

/// Each number that the 2001 edition gives, and what the current one says; other bytes ask for that.
pub fn few(out: &mut Out) -> Result<()> {
    few_messages(out)?;
    few_scans(out)
}

fn few_messages(out: &mut Out) -> Result<()> {
    let single = |structure| Given::new(SINGLE, 0, &[structure]);
    for (edition, given, room) in [
        (OF_2001, single(sample(ANTIGENS)), 23),
        (CURRENT, single(sample(ANTIGENS)), 23),
        (OF_2001, single(sample(ANTIGENS)), 20),
        (OF_2001, single(numbers(ANTIGENS, &[10_000_000_000_000_000, 99])), 21),
        (OF_2001, single(numbers(ANTIGENS, &[0, 100])), 21),
        (OF_2001, single(EMPTY), 21),
        (OF_2001, single(flagged(123456, 70)), 16),
        (OF_2001, single(flagged(123456, 71)), 16),
        (OF_2001, Given::new(PAIR, 0, &[sample(3), sample(5)]), 22),
        (OF_2001, Given::new(PAIR, 0, &[sample(3), sample(4)]), 22),
        (OF_2001, single(sample(31)), 18),
        (OF_2001, Given::new(COMPOUND, 0, &[sample(2)]), 13),
        (CURRENT, Given::new(COMPOUND, 0, &[sample(2), sample(ANTIGENS)]), 40),
        (2, single(sample(31)), 18),
        (255, single(sample(ANTIGENS)), 21),
    ] {
        written_by(edition, given, room, out)?;
    }
    Ok(())
}

fn few_scans(out: &mut Out) -> Result<()> {
    let label = antigens("880000000087000099");
    for (edition, scan) in [
        (OF_2001, &label[..]),
        (CURRENT, &label),
        (OF_2001, &label[..20]),
        (OF_2001, "={880000000087000099*"),
        (OF_2001, "={880000000087000099a"),
        (OF_2001, "={88000000008700009A"),
        (OF_2001, "=W00002112345670=%5100"),
        (OF_2001, "=<E0178VBb=>020366"),
        (OF_2001, "=W00002112345671"),
        (OF_2001, "=>021366"),
        (OF_2001, "&>0213652400"),
        (OF_2001, "=%6201"),
        (OF_2001, "=+01000=%5100"),
        (OF_2001, "=(2001202512312359"),
        (OF_2001, "&)0123456789"),
        (2, "=+01000=%5100"),
        (255, &label),
    ] {
        scanned_by(edition, scan.as_bytes(), &mut out.to)?;
    }
    Ok(())
}

/// A label cut, with every other byte at its places, and continued.
fn mutations(edition: u8, (label, places): &Changed, out: &mut Out) -> Result<()> {
    let label = label.as_bytes();
    let mut scan = |bytes: &[u8]| scanned_by(edition, bytes, &mut out.to);
    (0..=label.len()).try_for_each(|length| scan(&label[..length]))?;
    for at in places.clone() {
        for byte in every_byte() {
            scan(&[&label[..at], &[byte], &label[at + 1..]].concat())?;
        }
    }
    every_byte().try_for_each(|byte| scan(&[label, &[byte]].concat()))?;
    for &byte in TELLING {
        scan(&[label, &[b'=', byte]].concat())?;
        scan(&[label, &[b'&', byte]].concat())?;
    }
    Ok(())
}

/// Labels of either edition cut, changed and continued, each single before each other one, and every two
/// bytes that begin a label.
fn scans(edition: u8, out: &mut Out) -> Result<()> {
    let singles = singles();
    for label in singles.iter().chain(&forms()) {
        mutations(edition, label, out)?;
    }
    for (first, _) in &singles {
        for (second, _) in &singles {
            scanned_by(edition, format!("{first}{second}").as_bytes(), &mut out.to)?;
        }
    }
    for (a, b) in [b'=', b'&'].into_iter().flat_map(|a| every_byte().map(move |b| (a, b))) {
        scanned_by(edition, &[a, b], &mut out.to)?;
    }
    checks(edition, out)
}

/// Every byte as the K of labels of each, and every two digits behind sixteen, with their K and that of
/// the sixteen alone.
fn checks(edition: u8, out: &mut Out) -> Result<()> {
    for digits in (0..37).map(digits_for) {
        let label = antigens(&digits);
        for byte in every_byte() {
            scanned_by(edition, &[&label.as_bytes()[..20], &[byte]].concat(), &mut out.to)?;
        }
        scanned_by(edition, &label.as_bytes()[..20], &mut out.to)?;
    }
    for sixteen in ["8800000000870000", "4862861395589999"] {
        let alone = char::from(CHECKS[check(sixteen.as_bytes())]);
        for two in 0..100 {
            let digits = format!("{sixteen}{two:02}");
            scanned_by(edition, antigens(&digits).as_bytes(), &mut out.to)?;
            scanned_by(edition, format!("={{{digits}{alone}").as_bytes(), &mut out.to)?;
        }
    }
    Ok(())
}

/// Each field of each kind with numbers near its edges, and every byte where it has one.
fn every_field(edition: u8, out: &mut Out) -> Result<()> {
    for kind in KINDS {
        for field in fields(kind) {
            let values: Vec<u64> = match field.1 {
                1 => (0..256).collect(),
                _ => near(field.2).collect(),
            };
            for value in values {
                let mut entry = sample(kind);
                set(&mut entry, field, value);
                written_by(edition, Given::new(SINGLE, 0, &[entry]), length(kind), out)?;
            }
        }
    }
    (0..256).try_for_each(|flags| {
        written_by(edition, Given::new(SINGLE, 0, &[flagged(123456, flags)]), 16, out)
    })
}

/// Every two kinds in every form, with numbers that fit it and that do not, lawful and not.
fn every_shape(edition: u8, out: &mut Out) -> Result<()> {
    let unlawful = numbers(ANTIGENS, &[0, 100]);
    let structures: Vec<Entry> =
        KINDS.iter().map(|&kind| sample(kind)).chain([EMPTY, unlawful]).collect();
    for form in [SINGLE, PAIR, COMPOUND, 255] {
        for (first, second) in
            structures.iter().flat_map(|first| structures.iter().map(move |second| (first, second)))
        {
            for (number, bbb) in [(1, 0), (2, 0), (2, 1), (3, 0)] {
                let given = Given::new(form, bbb, &[*first, *second]);
                written_by(edition, Given { number, ..given }, MOST_ROOM, out)?;
            }
        }
    }
    Ok(())
}

/// The antigens of 2001, or an 031, at every index of compounds of every number, and past it.
fn every_index(edition: u8, out: &mut Out) -> Result<()> {
    for (at, number) in (0..16).flat_map(|at| (0..18).map(move |number| (at, number))) {
        for kind in [ANTIGENS, 31] {
            for (form, bbb) in [(SINGLE, 0), (PAIR, 0), (COMPOUND, 7)] {
                let mut given = Given::new(form, bbb, &[sample(2); 16]);
                given.entries[at] = sample(kind);
                written_by(edition, Given { number, ..given }, MOST_ROOM, out)?;
            }
        }
    }
    Ok(())
}

/// Each kind alone, the pairs, and a compound in every room.
fn every_room(edition: u8, out: &mut Out) -> Result<()> {
    let mut all: Vec<Given> =
        KINDS.iter().map(|&kind| Given::new(SINGLE, 0, &[sample(kind)])).collect();
    all.push(Given::new(PAIR, 0, &[sample(1), sample(2)]));
    all.push(Given::new(PAIR, 0, &[sample(3), sample(5)]));
    all.push(Given::new(COMPOUND, 0, &[sample(2)]));
    for given in all {
        for room in (0..=given.needed() + 3).chain([MOST_ROOM, MOST_ROOM + 1, 65535]) {
            written_by(edition, given.clone(), room, out)?;
        }
    }
    Ok(())
}

/// The same records each time, scans first.
pub fn fixed(edition: u8, out: &mut Out) -> Result<()> {
    scans(edition, out)?;
    every_field(edition, out)?;
    every_shape(edition, out)?;
    every_index(edition, out)?;
    every_room(edition, out)
}

/// The place in `IDENTIFIERS` of a kind, mostly of the 2001 edition.
fn kind(chance: &mut Chance) -> usize {
    match chance.below(12) {
        0..=8 => chance.below(9) as usize,
        9 | 10 => 13,
        _ => 9 + chance.below(4) as usize,
    }
}

/// A scan, mostly of a label of the 2001 edition.
fn scan(chance: &mut Chance, line: &mut Vec<u8>) {
    line.clear();
    match chance.below(8) {
        0 => {
            let (left, right) = chance.pick(&[(0, 1), (2, 4), (2, 3)]);
            structure(chance, left, line);
            structure(chance, right, line);
        }
        1 => super::message(chance, line),
        2 => (0..2).for_each(|_| {
            let kind = kind(chance);
            structure(chance, kind, line);
        }),
        3 | 4 => structure(chance, 13, line),
        _ => {
            let kind = kind(chance);
            structure(chance, kind, line);
        }
    }
    damage(chance, line);
}

/// A message to write, mostly of the 2001 edition.
fn written(chance: &mut Chance) -> Given {
    let mut all = match chance.below(6) {
        0 => message(chance),
        1 => given(chance, SINGLE, 0, &[ANTIGENS]),
        2 => {
            let pair = chance.pick(&[[1, 2], [3, 5]]);
            given(chance, PAIR, 0, &pair)
        }
        3 => {
            let kinds = [KINDS, KINDS].map(|kinds| chance.pick(&kinds));
            let form = chance.pick(&[SINGLE, PAIR, COMPOUND]);
            given(chance, form, 0, &kinds)
        }
        _ => {
            let kind = chance.pick(&KINDS);
            given(chance, SINGLE, 0, &[kind])
        }
    };
    spoil(chance, &mut all);
    all
}

/// So many records.
pub fn generated(edition: u8, seed: u64, count: u64, out: &mut Out) -> Result<()> {
    let mut chance = Chance(seed);
    let mut line = Vec::new();
    for _ in 0..count {
        if chance.one_in(2) {
            scan(&mut chance, &mut line);
            scanned_by(edition, &line, &mut out.to)?;
        } else {
            let given = written(&mut chance);
            let room = room(&mut chance, given.needed());
            written_by(edition, given, room, out)?;
        }
    }
    Ok(())
}
