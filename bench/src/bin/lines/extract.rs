//! Records that ask for a scan's line in the research extract: `second::asked` has their layout.

use super::asked::{COMPOUND, KINDS, PAIR, SINGLE};
use super::{check, damage, digits, samples, Chance, Out};
use super::{ANY, DIGIT, FIRST, IDENTIFIERS, TELLING, UPPER, UPPER_DIGIT};
use second::asked::{HEAD, MOST_LINE, MOST_SCAN, RECORD};
use std::io::{Result, Write};

const DONATION: u8 = 1;
/// Where an 001 has its sequence number, the flags being behind it.
const SEQUENCE: usize = 3;
/// Kinds with the same content.
const ALIKE: [[u8; 3]; 2] = [[4, 6, 8], [5, 7, 9]];

/// What a part of a content is drawn from: a set, or the numbers between two in so many digits.
enum Part {
    One(&'static [u8]),
    Number(u32, u64, u64),
}

impl Part {
    fn drawn(&self, chance: &mut Chance) -> Vec<u8> {
        let mut text = Vec::new();
        match *self {
            Part::One(set) => text.push(chance.pick(set)),
            Part::Number(width, from, to) => {
                digits(chance.number(from, to, &[from, to]), width, &mut text)
            }
        }
        text
    }

    fn is_fixed(&self) -> bool {
        matches!(self, Part::Number(_, from, to) if from == to)
    }
}

/// Parts of a content that are lawful in any combination; flags from 60 up are found apart.
fn parts(kind: u8) -> Vec<Part> {
    use Part::{Number, One};
    let ones = |set, count| (0..count).map(|_| One(set)).collect::<Vec<_>>();
    let date = [Number(3, 0, 999), Number(3, 1, 365)];
    let time = [Number(2, 0, 23), Number(2, 0, 59)];
    let donation = [Number(4, 0, 9999), Number(2, 0, 99), Number(6, 0, 999_999), Number(2, 0, 59)];
    let calendar = [Number(4, 1900, 2899), Number(2, 1, 12), Number(2, 1, 28)];
    match kind {
        DONATION => ones(FIRST, 1).into_iter().chain(donation).collect(),
        2 => ones(ANY, 3).into_iter().chain([Number(1, 0, 0)]).collect(),
        3 => {
            let division = [One(ANY), One(UPPER), One(b"0abcdefghijklmnopqrstuvwxyz")];
            ones(UPPER, 1).into_iter().chain(ones(UPPER_DIGIT, 4)).chain(division).collect()
        }
        4 | 6 | 8 => date.into(),
        5 | 7 | 9 => date.into_iter().chain(time).collect(),
        10 => ones(UPPER_DIGIT, 5),
        12 => ones(DIGIT, 18),
        18 => ones(ANY, 10),
        _ => {
            let head = [One(b"12"), Number(1, 0, 0), Number(2, 1, 5)];
            head.into_iter().chain(calendar).chain(time).collect()
        }
    }
}

#[derive(Clone, PartialEq)]
struct Structure {
    kind: u8,
    parts: Vec<Vec<u8>>,
}

impl Structure {
    fn drawn(chance: &mut Chance, kind: u8) -> Structure {
        let parts = parts(kind).iter().map(|part| part.drawn(chance)).collect();
        let mut structure = Structure { kind, parts };
        if kind == DONATION && chance.one_in(2) {
            structure.take_own_flags();
        }
        structure
    }

    /// Those that carry the check of an 001.
    fn take_own_flags(&mut self) {
        let own = 60 + check(&self.parts[..=SEQUENCE].concat()) as u64;
        self.parts[SEQUENCE + 1].clear();
        digits(own, 2, &mut self.parts[SEQUENCE + 1]);
    }

    /// Another value in this part, if it can have one.
    fn vary(&mut self, chance: &mut Chance, at: usize) {
        let part = &parts(self.kind)[at];
        let before = self.parts[at].clone();
        while !part.is_fixed() && self.parts[at] == before {
            self.parts[at] = part.drawn(chance);
        }
        if self.kind == DONATION && self.parts[SEQUENCE + 1][..] >= b"60"[..] {
            self.take_own_flags();
        }
    }

    /// Another sequence number, other flags, or both.
    fn vary_donor(&mut self, chance: &mut Chance) {
        let before = self.clone();
        while *self == before {
            if !chance.one_in(3) {
                self.vary(chance, SEQUENCE);
            }
            if !chance.one_in(3) {
                self.parts[SEQUENCE + 1] = parts(DONATION)[SEQUENCE + 1].drawn(chance);
            }
            if chance.one_in(3) {
                self.take_own_flags();
            }
        }
    }

    fn text(&self) -> Vec<u8> {
        let place = KINDS.iter().position(|&kind| kind == self.kind).expect("a kind");
        [IDENTIFIERS[place].as_bytes(), &self.parts.concat()].concat()
    }
}

#[derive(Clone, PartialEq)]
pub struct Label {
    form: u8,
    bbb: u64,
    structures: Vec<Structure>,
}

impl Label {
    fn new(form: u8, bbb: u64, structures: &[Structure]) -> Label {
        Label { form, bbb, structures: structures.to_vec() }
    }

    fn drawn(chance: &mut Chance, form: u8, kinds: &[u8]) -> Label {
        let structures = kinds.iter().map(|&kind| Structure::drawn(chance, kind)).collect();
        let bbb = if form == COMPOUND { chance.number(0, 999, &[0, 9, 99, 999]) } else { 0 };
        Label { form, bbb, structures }
    }

    /// A compound of so many, with an 001 at this index if there is such an index.
    fn compound(chance: &mut Chance, number: usize, donation: usize) -> Label {
        let others = (0..number).map(|_| chance.pick(&KINDS[1..])).enumerate();
        let kinds: Vec<u8> =
            others.map(|(at, kind)| if at == donation { DONATION } else { kind }).collect();
        Label::drawn(chance, COMPOUND, &kinds)
    }

    pub fn any(chance: &mut Chance) -> Label {
        match chance.below(6) {
            0 => {
                let kind = chance.pick(&KINDS);
                Label::drawn(chance, SINGLE, &[kind])
            }
            1 => {
                let kinds = chance.pick(&[[1, 2], [3, 5]]);
                Label::drawn(chance, PAIR, &kinds)
            }
            _ => {
                let [number, donation] = [16, 24].map(|limit| chance.below(limit) as usize);
                Label::compound(chance, 1 + number, donation)
            }
        }
    }

    /// One with an 001.
    fn with_donation(chance: &mut Chance) -> Label {
        loop {
            let label = Label::any(chance);
            if label.structures.iter().any(|structure| structure.kind == DONATION) {
                return label;
            }
        }
    }

    pub fn scan(&self) -> Vec<u8> {
        let head = format!("=+{:02}{:03}", self.structures.len(), self.bbb);
        let head = if self.form == COMPOUND { head } else { String::new() };
        let texts = self.structures.iter().flat_map(Structure::text);
        head.into_bytes().into_iter().chain(texts).collect()
    }

    /// Without sequence number and flags.
    fn nameless(&self) -> Label {
        let mut all = self.clone();
        for structure in all.structures.iter_mut().filter(|one| one.kind == DONATION) {
            structure.parts.truncate(SEQUENCE);
        }
        all
    }

    /// Bytes of its line.
    fn line(&self) -> usize {
        let contents = self.nameless().structures.into_iter().map(|one| one.parts.concat().len());
        5 + contents.map(|length| 5 + length).sum::<usize>()
    }

    fn vary_donors(&mut self, chance: &mut Chance) {
        let donations = self.structures.iter_mut().filter(|one| one.kind == DONATION);
        donations.into_iter().for_each(|donation| donation.vary_donor(chance));
    }

    /// Changes one thing that the line has to show, if the label has it.
    fn vary(&mut self, chance: &mut Chance) {
        let number = self.structures.len();
        let [at, other] = [(); 2].map(|_| chance.below(number as u64) as usize);
        let compound = self.form == COMPOUND;
        match chance.below(9) {
            0 => self.form = COMPOUND,
            1 if compound => self.bbb = chance.below(1000),
            2 if compound => self.structures.swap(at, other),
            3 if compound && 1 < number => drop(self.structures.remove(at)),
            4 if compound && number < 16 => {
                let kind = chance.pick(&KINDS[1..]);
                self.structures.insert(at, Structure::drawn(chance, kind));
            }
            5 if self.form != PAIR => {
                let kind = self.structures[at].kind;
                let alike = ALIKE.iter().find(|kinds| kinds.contains(&kind));
                self.structures[at].kind = alike.map_or(kind, |kinds| chance.pick(kinds));
            }
            _ => {
                let part = chance.below(self.structures[at].parts.len() as u64) as usize;
                self.structures[at].vary(chance, part);
            }
        }
    }
}

/// A scan's line in a buffer of this room, if a record has room for the scan.
fn ask(scan: &[u8], room: usize, out: &mut Out) -> Result<()> {
    if MOST_SCAN < scan.len() {
        return Ok(());
    }
    ask_of(scan.len(), scan, room, out)
}

/// The same of so many bytes, those behind the scan being no part of it.
fn ask_of(length: usize, scan: &[u8], room: usize, out: &mut Out) -> Result<()> {
    let mut record = [b'0'; RECORD];
    record[0] = b'T';
    record[1..3].copy_from_slice(&(length as u16).to_be_bytes());
    record[4..6].copy_from_slice(&(room as u16).to_be_bytes());
    record[HEAD..HEAD + scan.len()].copy_from_slice(scan);
    out.to.write_all(&record)
}

/// Two labels whose lines are to be compared.
fn couple(one: &Label, other: &Label, out: &mut Out) -> Result<()> {
    ask(&one.scan(), MOST_LINE, out)?;
    ask(&other.scan(), MOST_LINE, out)
}

/// A few of each answer, in small rooms.
pub fn few(out: &mut Out) -> Result<()> {
    for (scan, room) in [
        ("=W00002112345600=%5100", 28),
        ("=W00002199999959=%5100", 26),
        ("=W00002112345670=%5100", 25),
        ("=%5100", 0),
        ("=<E0178VBb", 20),
        ("=+04031=(1002202402292030=W00002112345670&)00aZ901xyQ=\\979999999999924799", 90),
        ("=%51", 4),
        ("=+02000=W00002112345600=W", 0),
        ("=W00002112345671", 3),
    ] {
        ask(scan.as_bytes(), room, out)?;
    }
    Ok(())
}

/// Each kind alone, the pairs, compounds of every number, and the longest, with values by chance.
fn labels(chance: &mut Chance) -> Vec<Label> {
    let mut all: Vec<Label> =
        KINDS.iter().map(|&kind| Label::drawn(chance, SINGLE, &[kind])).collect();
    all.extend([[1, 2], [3, 5]].map(|kinds| Label::drawn(chance, PAIR, &kinds)));
    for number in 1..=16 {
        let donation = chance.below(number as u64) as usize;
        all.push(Label::compound(chance, number, donation));
        all.push(Label::compound(chance, number, number));
    }
    all.push(Label::drawn(chance, COMPOUND, &[12; 16]));
    let mut kinds = [12; 16];
    kinds[chance.below(16) as usize] = DONATION;
    all.push(Label::drawn(chance, COMPOUND, &kinds));
    all
}

/// Many labels in rooms around what their lines need, and some in every room.
fn rooms(out: &mut Out) -> Result<()> {
    let mut chance = Chance(211);
    for label in labels(&mut chance) {
        let scan = label.scan();
        (0..=label.line() + 3).try_for_each(|room| ask(&scan, room, out))?;
    }
    for _ in 0..24 {
        for label in labels(&mut chance) {
            let (scan, line) = (label.scan(), label.line());
            let around = line - 2..=line + 2;
            for room in [0, 1].into_iter().chain(around).chain([MOST_LINE, MOST_LINE + 1, 65535]) {
                ask(&scan, room, out)?;
            }
        }
    }
    // One kind again and again: no other than 001 needs to be there once.
    for (&kind, number) in KINDS[1..].iter().flat_map(|kind| (1..=16).map(move |n| (kind, n))) {
        let label = Label::drawn(&mut chance, COMPOUND, &vec![kind; number]);
        for room in [label.line() - 1, label.line(), MOST_LINE] {
            ask(&label.scan(), room, out)?;
        }
    }
    Ok(())
}

/// Samples cut, continued, and with other bytes at every place, in rooms that need not be enough.
fn changed(out: &mut Out) -> Result<()> {
    let rooms = [MOST_LINE, 0, 24];
    for label in samples().into_iter().map(String::into_bytes) {
        for at in 0..label.len() {
            rooms[..2].iter().try_for_each(|&room| ask(&label[..at], room, out))?;
            for (turn, &byte) in TELLING.iter().enumerate() {
                let scan = [&label[..at], &[byte], &label[at + 1..]].concat();
                ask(&scan, rooms[(turn + at) % rooms.len()], out)?;
            }
        }
        for &byte in TELLING {
            for more in [&[byte][..], &[b'=', byte], &[b'&', byte]] {
                rooms[..2].iter().try_for_each(|&room| {
                    let scan = [&label[..], more].concat();
                    ask(&scan, room, out)
                })?;
            }
        }
        // Over the most that a scan has.
        for length in [MOST_SCAN, MOST_SCAN + 1, 65535] {
            ask_of(length, &label, MOST_LINE, out)?;
        }
    }
    Ok(())
}

pub fn fixed(out: &mut Out) -> Result<()> {
    few(out)?;
    rooms(out)?;
    changed(out)
}

/// So many records, of accepted messages and of others.
pub fn generated(seed: u64, count: u64, out: &mut Out) -> Result<()> {
    let mut chance = Chance(seed);
    let mut line = Vec::new();
    let mut made = 0;
    while made < count {
        let label = Label::any(&mut chance);
        line.clear();
        match chance.below(4) {
            0 | 1 => line = label.scan(),
            2 => {
                line = label.scan();
                damage(&mut chance, &mut line);
            }
            _ => {
                super::message(&mut chance, &mut line);
                damage(&mut chance, &mut line);
            }
        }
        if line.len() <= MOST_SCAN {
            let room = super::asked::room(&mut chance, label.line());
            ask(&line, room, out)?;
            made += 1;
        }
    }
    Ok(())
}

/// Couples that differ only in sequence numbers and flags: an 001 alone, in a pair, and at every index
/// of compounds of every number.
pub fn same(out: &mut Out) -> Result<()> {
    let mut chance = Chance(1211);
    for _ in 0..8 {
        let mut all = vec![
            Label::drawn(&mut chance, SINGLE, &[DONATION]),
            Label::drawn(&mut chance, PAIR, &[DONATION, 2]),
        ];
        for (number, at) in (1..=16).flat_map(|number| (0..number).map(move |at| (number, at))) {
            all.push(Label::compound(&mut chance, number, at));
        }
        all.iter().try_for_each(|label| same_line(&mut chance, label, out))?;
    }
    Ok(())
}

fn same_line(chance: &mut Chance, label: &Label, out: &mut Out) -> Result<()> {
    let mut other = label.clone();
    other.vary_donors(chance);
    assert!(other != *label && other.nameless() == label.nameless());
    couple(label, &other, out)
}

/// So many couples.
pub fn same_by_chance(seed: u64, count: u64, out: &mut Out) -> Result<()> {
    let mut chance = Chance(seed);
    for _ in 0..count {
        let label = Label::with_donation(&mut chance);
        same_line(&mut chance, &label, out)?;
    }
    Ok(())
}

/// Couples that differ in one thing that the line has to show.
pub fn different(out: &mut Out) -> Result<()> {
    let mut chance = Chance(2211);
    for _ in 0..3 {
        different_values(&mut chance, out)?;
        different_kinds(&mut chance, out)?;
        different_forms(&mut chance, out)?;
        different_compounds(&mut chance, out)?;
    }
    Ok(())
}

/// Each part of each kind, alone and at every index of a compound, and in the pairs.
fn different_values(chance: &mut Chance, out: &mut Out) -> Result<()> {
    for kind in KINDS {
        let shown = if kind == DONATION { SEQUENCE } else { usize::MAX };
        let free = |(at, part): &(usize, Part)| *at < shown && !part.is_fixed();
        for (part, _) in parts(kind).into_iter().enumerate().filter(free) {
            let mut all = vec![(Label::drawn(chance, SINGLE, &[kind]), 0)];
            for index in 0..16 {
                let mut kinds = [chance.pick(&[2, 4, 10, 18]); 16];
                kinds[index] = kind;
                all.push((Label::drawn(chance, COMPOUND, &kinds), index));
            }
            for pair in [[1, 2], [3, 5]].iter().filter(|pair| pair.contains(&kind)) {
                let index = usize::from(pair[1] == kind);
                all.push((Label::drawn(chance, PAIR, pair), index));
            }
            for (label, index) in all {
                let mut other = label.clone();
                other.structures[index].vary(chance, part);
                different_line(&label, &other, out)?;
            }
        }
    }
    Ok(())
}

/// The same date, or date and time, in another kind.
fn different_kinds(chance: &mut Chance, out: &mut Out) -> Result<()> {
    for (kinds, form) in ALIKE.iter().flat_map(|kinds| [SINGLE, COMPOUND].map(|form| (kinds, form)))
    {
        for (one, two) in [(0, 1), (1, 2), (2, 0)] {
            let label = Label::drawn(chance, form, &kinds[one..=one]);
            let mut other = label.clone();
            other.structures[0].kind = kinds[two];
            different_line(&label, &other, out)?;
        }
    }
    Ok(())
}

/// The structures of each single and pair in a compound whose bbb is 0 too.
fn different_forms(chance: &mut Chance, out: &mut Out) -> Result<()> {
    for label in KINDS.iter().map(|&kind| vec![kind]).chain([vec![1, 2], vec![3, 5]]) {
        let form = if label.len() == 1 { SINGLE } else { PAIR };
        let label = Label::drawn(chance, form, &label);
        different_line(&label, &Label { form: COMPOUND, ..label.clone() }, out)?;
        if form == PAIR {
            different_line(&label, &Label::new(SINGLE, 0, &label.structures[..1]), out)?;
        }
    }
    Ok(())
}

/// Compounds with another bbb, two structures exchanged, or one less.
fn different_compounds(chance: &mut Chance, out: &mut Out) -> Result<()> {
    for number in 1..=16 {
        for step in [1, 10, 100, 999] {
            let label = Label::compound(chance, number, 0);
            let other = Label { bbb: (label.bbb + step) % 1000, ..label.clone() };
            different_line(&label, &other, out)?;
        }
        for second in 1..number {
            for first in 0..second {
                let donation = chance.below(16) as usize;
                let label = Label::compound(chance, number, donation);
                let mut other = label.clone();
                other.structures.swap(first, second);
                // Two of the same value are no other order.
                if other != label {
                    different_line(&label, &other, out)?;
                }
            }
            let label = Label::compound(chance, number, 0);
            for left_out in [0, second] {
                let mut other = label.clone();
                other.structures.remove(left_out);
                different_line(&label, &other, out)?;
            }
        }
    }
    Ok(())
}

fn different_line(label: &Label, other: &Label, out: &mut Out) -> Result<()> {
    assert!(other.nameless() != label.nameless());
    couple(label, other, out)
}

/// So many couples, at times with other sequence numbers and flags too.
pub fn different_by_chance(seed: u64, count: u64, out: &mut Out) -> Result<()> {
    let mut chance = Chance(seed);
    for _ in 0..count {
        let label = Label::any(&mut chance);
        let mut other = label.clone();
        while other.nameless() == label.nameless() {
            other.vary(&mut chance);
        }
        if chance.one_in(4) {
            other.vary_donors(&mut chance);
        }
        different_line(&label, &other, out)?;
    }
    Ok(())
}
