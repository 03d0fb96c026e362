//! The languages: messages, their characters, records for the host, keyboard entries.
//!
//! Values are never computed with here. Days, hours, counts, divisions and flags are written out as
//! the list of all their lawful words, and the automaton finds what a beginning can still become.
//! The check alone is summed up, along the states of a donation number or of 2001's antigens.

use crate::automaton::{Builder, State, Table, EMPTY, NONE};
use crate::calendar::{Calendar, YEARS};

const DIGIT: &[u8] = b"0123456789";
const UPPER: &[u8] = b"ABCDEFGHIJKLMNOPQRSTUVWXYZ";
const LOWER: &[u8] = b"abcdefghijklmnopqrstuvwxyz";
/// First characters of a donation number: no letter O, no digit 0.
const FIRST: &[u8] = b"ABCDEFGHIJKLMNPQRSTUVWXYZ123456789";
/// Worth of a character is its place here.
const WORTH: &[u8] = b"0123456789ABCDEFGHIJKLMNOPQRSTUVWXYZ*";

/// The numbers of the kinds; 023 is none.
pub(crate) const KINDS: [u8; 13] = [1, 2, 3, 4, 5, 6, 7, 8, 9, 10, 12, 18, 31];
/// Those of the 2001 edition, 200 being its antigens.
pub(crate) const KINDS_OF_2001: [u8; 10] = [1, 2, 3, 4, 5, 6, 7, 8, 9, 200];
/// A compound's head, which is no kind.
pub(crate) const COMPOUND: u8 = 23;
/// Digits of 2001's antigens.
pub(crate) const ANTIGEN_DIGITS: usize = 18;
const MOST: usize = 16;

/// What a content is held to: its values too, and from sense to sense without the check in the flags,
/// without the hours and minutes, without the days, at last to each position's character set alone.
#[derive(Clone, Copy, PartialEq, PartialOrd)]
pub enum Sense {
    Lawful,
    Unchecked,
    Untimed,
    Undated,
    Classes,
}

/// What stands before a content.
#[derive(Clone, Copy)]
pub enum Frame {
    /// An identifier, as on a label.
    Identifier,
    /// A tag and a length, as in a record for the host, with what its high byte may be.
    Tag(&'static [u8]),
}

/// What messages an edition has, and how they are framed.
#[derive(Clone, Copy)]
pub struct Terms {
    pub frame: Frame,
    /// Its kinds, of which 001 to 009 come first.
    pub kinds: &'static [u8],
    pub compounds: bool,
    /// May a compound hold more than one donation number?
    pub repeat: bool,
    pub calendar: Calendar,
    /// Over how many of its digits the K of 2001's antigens is worked out, from the first on.
    pub summed: usize,
}

struct Grammar {
    b: Builder,
    frame: Frame,
    sense: Sense,
    calendar: Calendar,
    summed: usize,
    date: State,
    time: State,
}

/// The automaton of all messages, in any of the senses.
///
/// In the sense of classes only its beginnings matter: it is asked whether a byte that ended a
/// lawful beginning was at least in the set of its position.
pub fn messages(sense: Sense, terms: Terms) -> Table {
    let Terms { frame, kinds, compounds, repeat, calendar, summed } = terms;
    let b = Builder::default();
    let mut g = Grammar { b, frame, sense, calendar, summed, date: NONE, time: NONE };
    g.date = g.date();
    g.time = g.time();
    let kinds: Vec<State> = kinds.iter().map(|&kind| g.structure(kind)).collect();
    let others = kinds[1..].iter().fold(NONE, |all, &one| g.b.either(all, one));
    let single = g.b.either(others, kinds[0]);
    let donation_pair = g.b.then(kinds[0], kinds[1]);
    let product_pair = g.b.then(kinds[2], kinds[4]);
    let compound = match compounds {
        true => g.compound(kinds[0], if repeat { single } else { others }),
        false => NONE,
    };
    let all = [donation_pair, product_pair, compound];
    let all = all.into_iter().fold(single, |all, one| g.b.either(all, one));
    g.b.table(all)
}

impl Grammar {
    fn sequence(&mut self, parts: &[State]) -> State {
        parts.iter().rev().fold(EMPTY, |rest, &part| self.b.then(part, rest))
    }

    fn digits(&mut self, count: usize) -> State {
        self.b.run(DIGIT, count)
    }

    fn structure(&mut self, kind: u8) -> State {
        let content = self.content(kind);
        self.framed(kind, content)
    }

    /// What stands before the content of a kind, then the content.
    fn framed(&mut self, kind: u8, content: State) -> State {
        let before = match self.frame {
            Frame::Identifier => self.b.words([identifier(kind)]),
            Frame::Tag(high) => {
                self.b.words(high.iter().map(|&high| [kind, high, content_length(kind)]))
            }
        };
        self.b.then(before, content)
    }

    fn content(&mut self, kind: u8) -> State {
        match kind {
            1 => {
                let any = self.digits(2);
                let flags = std::array::from_fn(|check| match self.sense {
                    Sense::Lawful => self.b.words(flags(check)),
                    _ => any,
                });
                donation(&mut self.b, flags)
            }
            2 => {
                let any = [UPPER, LOWER, DIGIT].concat();
                let group = self.b.run(&any, 3);
                let end = self.b.run(if self.sense == Sense::Classes { &any } else { b"0" }, 1);
                self.sequence(&[group, end])
            }
            3 => self.product(),
            4 | 6 | 8 => self.date,
            5 | 7 | 9 => self.b.then(self.date, self.time),
            10 => self.b.run(&[UPPER, DIGIT].concat(), 5),
            12 => self.digits(18),
            18 => self.b.run(&[UPPER, LOWER, DIGIT].concat(), 10),
            31 => self.flexible(),
            _ => self.old_antigens(),
        }
    }

    /// Eighteen digits, then K.
    fn old_antigens(&mut self) -> State {
        let unsummed = self.digits(ANTIGEN_DIGITS - self.summed);
        let after = std::array::from_fn(|check| {
            let k = if self.sense == Sense::Lawful { &WORTH[check..=check] } else { WORTH };
            let k = self.b.run(k, 1);
            self.b.then(unsummed, k)
        });
        checked(&mut self.b, &vec![DIGIT; self.summed], after)
    }

    fn product(&mut self) -> State {
        let upper_digit = [UPPER, DIGIT].concat();
        let code = self.b.run(&upper_digit, 4);
        let collection = self.b.run(&[UPPER, LOWER, DIGIT].concat(), 1);
        let level1 = self.b.run(&upper_digit, 1);
        let level2 = self.b.run(&[LOWER, DIGIT].concat(), 1);
        let free = self.sequence(&[code, collection, level1, level2]);
        if self.sense == Sense::Classes {
            let letter = self.b.run(UPPER, 1);
            return self.b.then(letter, free);
        }
        let divisions = self.b.words(divisions());
        let blood = self.sequence(&[code, collection, divisions]);
        let ways = UPPER.iter().map(|&letter| (letter, if letter == b'E' { blood } else { free }));
        self.b.branch(ways)
    }

    /// The thousand years in two lists, each followed by the list of its days.
    fn dates(&mut self, year: fn(u16) -> String, days: [Vec<String>; 2]) -> State {
        let leap = self.calendar.leap_years();
        let any = self.digits(days[0][0].len());
        [false, true].into_iter().zip(days).fold(NONE, |all, (long, days)| {
            let years = YEARS.filter(|year| leap.contains(year) == long).map(year);
            let years = self.b.words(years);
            let days = if self.sense < Sense::Undated { self.b.words(days) } else { any };
            let dates = self.b.then(years, days);
            self.b.either(all, dates)
        })
    }

    /// Every cyyjjj.
    fn date(&mut self) -> State {
        if self.sense == Sense::Classes {
            return self.digits(6);
        }
        let days = [365, 366].map(|last| (1..=last).map(|day| format!("{day:03}")).collect());
        self.dates(cyy, days)
    }

    /// Every yyyymmdd.
    fn calendar_date(&mut self) -> State {
        let days = [false, true].map(|leap| {
            let days = self.calendar.days(leap).into_iter();
            days.map(|(month, day)| format!("{month:02}{day:02}")).collect()
        });
        self.dates(|year| format!("{year}"), days)
    }

    fn flexible(&mut self) -> State {
        if self.sense == Sense::Classes {
            return self.digits(16);
        }
        let z = self.b.run(b"12", 1);
        let u = self.b.run(b"0", 1);
        let tt = self.b.words((1..=5).map(|tt| format!("{tt:02}")));
        let date = self.calendar_date();
        self.sequence(&[z, u, tt, date, self.time])
    }

    fn time(&mut self) -> State {
        if self.sense >= Sense::Untimed {
            return self.digits(4);
        }
        let hours = self.b.words((0..24).map(|hour| format!("{hour:02}")));
        let minutes = self.b.words((0..60).map(|minute| format!("{minute:02}")));
        self.b.then(hours, minutes)
    }

    /// Before its donation number and after it a compound has the same structures, `around`.
    fn compound(&mut self, donation: State, around: State) -> State {
        let mut all = NONE;
        let mut after = EMPTY;
        let mut rest = EMPTY;
        let bbb = self.digits(3);
        for count in 1..=MOST {
            let donated = self.b.then(donation, after);
            let other = self.b.then(around, rest);
            rest = self.b.either(other, donated);
            after = self.b.then(around, after);
            let aa = self.b.words([format!("{count:02}")]);
            let whole = self.sequence(&[aa, bbb, rest]);
            all = self.b.either(all, whole);
        }
        if self.sense == Sense::Classes {
            let unlawful = self.digits(2);
            all = self.b.either(all, unlawful);
        }
        self.framed(COMPOUND, all)
    }
}

/// What a structure of this kind, or a compound, begins with on a label.
pub(crate) fn identifier(kind: u8) -> &'static str {
    match kind {
        1 => "=",
        2 => "=%",
        3 => "=<",
        4 => "=>",
        5 => "&>",
        6 => "=*",
        7 => "&*",
        8 => "=}",
        9 => "&}",
        10 => "&(",
        12 => "=\\",
        18 => "&)",
        COMPOUND => "=+",
        31 => "=(",
        _ => "={",
    }
}

/// Bytes of the content of a kind of the current edition, or of a compound's head.
fn content_length(kind: u8) -> u8 {
    match kind {
        1 => 15,
        2 => 4,
        3 => 8,
        4 | 6 | 8 => 6,
        5 | 7 | 9 | 18 => 10,
        10 | COMPOUND => 5,
        12 => 18,
        _ => 16,
    }
}

/// The digits of a year: 19yy has the century digit 9, all later ones count on from 0.
fn cyy(year: u16) -> String {
    if year < 2000 {
        format!("9{:02}", year - 1900)
    } else {
        format!("{:03}", year - 2000)
    }
}

/// ds of a blood product.
fn divisions() -> Vec<[u8; 2]> {
    let mut all = vec![*b"00"];
    for &upper in UPPER {
        all.push([upper, b'0']);
        all.extend(LOWER.iter().map(|&lower| [upper, lower]));
    }
    all
}

/// The flags that a donation number with a check of this worth may have.
fn flags(check: usize) -> impl Iterator<Item = String> {
    (0..60).chain([60 + check]).map(|ff| format!("{ff:02}"))
}

/// All donation numbers, each followed by what `after` has at its check's worth.
fn donation(b: &mut Builder, after: [State; 37]) -> State {
    checked(b, &[&[FIRST][..], &[DIGIT; 12]].concat(), after)
}

/// A byte of each set, then what `after` has at the check's worth of them all. They and the check
/// together, their worths weighted by the powers of 2 down to 1 for the check, leave 1 by 37 (the pure
/// system of ISO 7064). A layer holds a state per remainder.
fn checked(b: &mut Builder, sets: &[&[u8]], after: [State; 37]) -> State {
    let mut layer: [State; 37] = std::array::from_fn(|sum| after[(38 - sum) % 37]);
    let mut weight = 1;
    for set in sets.iter().rev() {
        weight = weight * 2 % 37;
        layer = std::array::from_fn(|sum| {
            b.branch(set.iter().map(|&byte| (byte, layer[(sum + worth(byte) * weight) % 37])))
        });
    }
    layer[0]
}

/// All keyboard entries: a donation number, then the character of its check.
pub fn keyboard() -> Table {
    let mut b = Builder::default();
    let checks = std::array::from_fn(|check| b.run(&WORTH[check..=check], 1));
    let entries = donation(&mut b, checks);
    b.table(entries)
}

fn worth(byte: u8) -> usize {
    WORTH.iter().position(|&other| other == byte).expect("a character of the set")
}

/// Could this byte begin a donation number?
pub fn is_first(byte: u8) -> bool {
    FIRST.contains(&byte)
}

/// May this byte stand as a check character?
pub fn is_check(byte: u8) -> bool {
    WORTH.contains(&byte)
}

#[cfg(test)]
mod tests {
    use super::*;
    use crate::calendar::GREGORIAN;

    const SINGULAR: Terms = Terms {
        frame: Frame::Identifier,
        kinds: &KINDS,
        compounds: true,
        repeat: false,
        calendar: GREGORIAN,
        summed: ANTIGEN_DIGITS,
    };
    const REPEATING: Terms = Terms { repeat: true, ..SINGULAR };
    const OF_2001: Terms = Terms { kinds: &KINDS_OF_2001, compounds: false, ..SINGULAR };
    const TAGGED: Terms = Terms { frame: Frame::Tag(&[0]), ..SINGULAR };

    fn lawful() -> Table {
        messages(Sense::Lawful, SINGULAR)
    }

    fn unchecked() -> Table {
        messages(Sense::Unchecked, REPEATING)
    }

    fn classes() -> Table {
        messages(Sense::Classes, REPEATING)
    }

    #[test]
    fn number_of_dates() {
        // 1000 years; 250 lie four apart, and seven centuries of those are common.
        let table = lawful();
        let dates = (0..1_000_000).filter(|date| table.accepts(format!("=>{date:06}").as_bytes()));
        assert_eq!(dates.count(), 365_000 + 243);
        let calendar_dates = (1890..2910).flat_map(|year| {
            (0..14 * 33).map(move |at| format!("=(1001{year}{:02}{:02}0000", at / 33, at % 33))
        });
        let lawful = calendar_dates.filter(|label| table.accepts(label.as_bytes()));
        assert_eq!(lawful.count(), 365_000 + 243);
    }

    /// Any beginning that the walk keeps alive goes on to a message, and is alive by classes too.
    #[test]
    fn beginnings_can_be_finished() {
        let (lawful, classes) = (lawful(), classes());
        for scan in [
            "=W0",
            "=+16",
            "=+02000=<E",
            "=>90036",
            "&>0213652",
            "=<E0178VB",
            "=\\1",
            "=(100221000",
            "",
        ] {
            let mut scan = scan.as_bytes().to_vec();
            while !lawful.accepts(&scan) {
                assert!(lawful.begins(&scan) && classes.begins(&scan));
                scan.push(*lawful.followers(&scan).last().expect("a way on"));
            }
            assert!(scan.len() <= 327);
        }
    }

    /// Each donation number has the sixty flags that every number has, and one of its own.
    #[test]
    fn number_of_flags() {
        let (lawful, unchecked) = (lawful(), unchecked());
        for sequence in (0..1_000_000).step_by(4999) {
            let labels: Vec<_> =
                (0..100).map(|ff| format!("=W000021{sequence:06}{ff:02}").into_bytes()).collect();
            let good: Vec<_> = (0..100).filter(|&ff| lawful.accepts(&labels[ff])).collect();
            assert_eq!(good[..60], (0..60).collect::<Vec<_>>());
            assert!(good.len() == 61 && good[60] < 97);
            assert!(labels.iter().all(|label| unchecked.accepts(label)));
        }
    }

    /// Any eighteen digits have one K; each of the 37 goes on where the check is left out.
    #[test]
    fn one_k() {
        let (lawful, unchecked) =
            (messages(Sense::Lawful, OF_2001), messages(Sense::Unchecked, OF_2001));
        let mut seen = std::collections::HashSet::new();
        for digits in (0..1_000_000_000_000_000_000u64).step_by(999_999_999_999_989) {
            let label = format!("={{{digits:018}").into_bytes();
            assert_eq!(lawful.followers(&label).len(), 1);
            seen.extend(lawful.followers(&label));
            let mut all = WORTH.to_vec();
            all.sort();
            assert_eq!(unchecked.followers(&label), all);
        }
        assert_eq!(seen.len(), 37);
    }

    /// A tag is followed by one length, that of every content that may stand behind it.
    #[test]
    fn lengths_are_those_of_the_contents() {
        let records = messages(Sense::Lawful, TAGGED);
        let mut tags = [&KINDS[..], &[COMPOUND]].concat();
        tags.sort();
        assert_eq!(records.followers(b""), tags);
        for kind in KINDS {
            assert_eq!(records.followers(&[kind]), [0]);
            let [length] = records.followers(&[kind, 0])[..] else { panic!("one length") };
            for last in [false, true] {
                let mut record = vec![kind, 0, length];
                for _ in 0..length {
                    assert!(!records.accepts(&record));
                    let ways = records.followers(&record);
                    record.push(if last { ways[ways.len() - 1] } else { ways[0] });
                }
                assert!(records.accepts(&record), "{kind}");
            }
        }
        assert_eq!(records.followers(&[COMPOUND, 0]), [5]);
        assert!(records.accepts(b"\x17\0\x0501000\x02\0\x045100"));
    }

    #[test]
    fn sizes_stay_small() {
        assert!(lawful().size() < 12_000);
        assert!(messages(Sense::Lawful, TAGGED).size() < 12_500);
        for sense in [Sense::Unchecked, Sense::Untimed, Sense::Undated, Sense::Classes] {
            assert!(messages(sense, REPEATING).size() < 4000);
            assert!(messages(sense, OF_2001).size() < 1000);
        }
        assert!(messages(Sense::Lawful, OF_2001).size() < 2500);
        assert!(keyboard().size() <= 14 * 37 + 1);
    }
}
