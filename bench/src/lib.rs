//! A second label program, to compare the first with.
//!
//! It is written from the scope paper alone. Acceptance and place come from automata built out of
//! enumerated words (`grammar`), values from the accepted bytes, and whether a value may be
//! written from reading back what it would be written as.

pub mod asked;
pub mod automaton;
pub mod bench;
pub mod calendar;
pub mod extract;
pub mod grammar;
pub mod groups;
pub mod host;
pub mod message;
pub mod minutes;
pub mod peer;
pub mod shelf;
pub mod tally;

use automaton::Table;
use calendar::{Calendar, GREGORIAN};
use grammar::{Frame, Sense, Terms, ANTIGEN_DIGITS, COMPOUND, KINDS, KINDS_OF_2001};
use message::{Day, Donation, Edition, Entry, Form, Message, Structure, Time};
use std::sync::OnceLock;

/// Numbers of the answers.
pub const ACCEPTED: u8 = 0;
pub const SHORT: u8 = 1;
pub const IDENTIFIER: u8 = 2;
pub const NESTED: u8 = 3;
pub const CHARACTER: u8 = 4;
pub const VALUE: u8 = 5;
pub const TRAILING: u8 = 6;
pub const SHAPE: u8 = 7;
pub const FIELD: u8 = 8;
pub const ROOM: u8 = 9;
pub const CHECK: u8 = 10;
pub const DAY: u8 = 11;
pub const TIME: u8 = 12;
pub const REPEAT: u8 = 13;
pub const ALREADY: u8 = 14;
pub const FULL: u8 = 15;
pub const ABSENT: u8 = 16;
pub const TAG: u8 = 17;
pub const LENGTH: u8 = 18;

/// The rules of which one can be wrong on purpose, to show that a comparison finds it.
pub struct Rules {
    /// The lengths of years and months.
    calendar: Calendar,
    /// Number of a compound message within a compound message.
    nested: u8,
    /// How far after the fatal byte the place is.
    after: usize,
    /// First year of the century that the digit 9 stands for.
    nine: u16,
    /// What an accepted message is held to.
    sense: Sense,
    /// Number of a byte in a content that goes on in this sense, and in none before it.
    told: &'static [(Sense, u8)],
    /// May a compound hold more than one donation number?
    repeat: bool,
    /// Kinds of the 2001 edition.
    of_2001: &'static [u8],
    /// Over how many of its digits the K of 2001's antigens is worked out.
    summed: usize,
    /// Do the places of structures count from the end of a compound's head?
    headless: bool,
    /// Time that an expiry without one counts as.
    untimed: Time,
    /// How many structures of a kind a message adds to the tally at the most.
    of_a_kind: u64,
    /// Does a free record of the shelf list hold the unit that it still has?
    free_holds: bool,
    /// Is a unit put into the highest free record?
    highest: bool,
    /// Does the extract show flags?
    flags_shown: bool,
    /// Does the extract show bbb?
    bbb_shown: bool,
    /// Are the bytes past the extract's line cleared?
    past_cleared: bool,
    /// Is the number of a byte in a record's data that of the label with the same contents?
    rebuilt: bool,
    /// What the high byte of a length in a record may be.
    high: &'static [u8],
    /// Do the places of an imported message's structures count in the record?
    in_record: bool,
}

const RIGHT: Rules = Rules {
    calendar: GREGORIAN,
    nested: NESTED,
    after: 0,
    nine: 1900,
    sense: Sense::Lawful,
    told: &[
        (Sense::Unchecked, CHECK),
        (Sense::Untimed, TIME),
        (Sense::Undated, DAY),
        (Sense::Classes, VALUE),
    ],
    repeat: false,
    of_2001: &KINDS_OF_2001,
    summed: ANTIGEN_DIGITS,
    headless: false,
    untimed: Time { hour: 23, minute: 59 },
    of_a_kind: u64::MAX,
    free_holds: false,
    highest: false,
    flags_shown: false,
    bbb_shown: true,
    past_cleared: false,
    rebuilt: false,
    high: &[0],
    in_record: false,
};

impl Rules {
    /// All are right but the one of this name.
    pub fn wrong(name: &str) -> Option<Rules> {
        match name {
            "leap" => Some(Rules { calendar: Calendar { common: &[], ..GREGORIAN }, ..RIGHT }),
            "months" => {
                let months = GREGORIAN.months.map(|days| if days == 30 { 31 } else { days });
                Some(Rules { calendar: Calendar { months, ..GREGORIAN }, ..RIGHT })
            }
            "nested" => Some(Rules { nested: TRAILING, ..RIGHT }),
            "place" => Some(Rules { after: 1, ..RIGHT }),
            "century" => Some(Rules { nine: 2900, ..RIGHT }),
            "flags" => Some(Rules { sense: Sense::Unchecked, ..RIGHT }),
            "parts" => {
                let told = &[(Sense::Unchecked, CHECK), (Sense::Classes, VALUE)];
                Some(Rules { told, ..RIGHT })
            }
            "repeat" => Some(Rules { repeat: true, ..RIGHT }),
            "later" => Some(Rules { of_2001: &[1, 2, 3, 4, 5, 6, 7, 8, 9, 31, 200], ..RIGHT }),
            "sixteen" => Some(Rules { summed: 16, ..RIGHT }),
            "headless" => Some(Rules { headless: true, ..RIGHT }),
            "midnight" => Some(Rules { untimed: Time { hour: 0, minute: 0 }, ..RIGHT }),
            "once" => Some(Rules { of_a_kind: 1, ..RIGHT }),
            "free" => Some(Rules { free_holds: true, ..RIGHT }),
            "highest" => Some(Rules { highest: true, ..RIGHT }),
            "shown" => Some(Rules { flags_shown: true, ..RIGHT }),
            "bbb" => Some(Rules { bbb_shown: false, ..RIGHT }),
            "past" => Some(Rules { past_cleared: true, ..RIGHT }),
            "label" => Some(Rules { rebuilt: true, ..RIGHT }),
            "lengths" => Some(Rules { high: &[0, 1], ..RIGHT }),
            "host-places" => Some(Rules { in_record: true, ..RIGHT }),
            _ => None,
        }
    }

    fn terms(&self, edition: Edition) -> Terms {
        let (kinds, compounds) = match edition {
            Edition::Current => (&KINDS[..], true),
            Edition::Of2001 => (self.of_2001, false),
        };
        let Rules { repeat, calendar, summed, .. } = *self;
        Terms { frame: Frame::Identifier, kinds, compounds, repeat, calendar, summed }
    }

    /// Those of records for the host.
    fn tagged(&self) -> Terms {
        Terms { frame: Frame::Tag(self.high), ..self.terms(Edition::Current) }
    }
}

/// The messages of an edition, as labels or as records.
struct Messages {
    terms: Terms,
    lawful: Table,
    /// Those beside which a refusal's number is found, in the order of `Rules::told`.
    told: Vec<(Table, u8)>,
}

impl Messages {
    fn new(rules: &Rules, terms: Terms) -> Messages {
        // Asked about a byte within a content only, so they can be small and let donation numbers repeat.
        let within = |sense| grammar::messages(sense, Terms { repeat: true, ..terms });
        Messages {
            terms,
            lawful: grammar::messages(rules.sense, terms),
            told: rules.told.iter().map(|&(sense, number)| (within(sense), number)).collect(),
        }
    }

    fn of(edition: Edition) -> &'static Messages {
        let Languages { current, of_2001, .. } = languages();
        match edition {
            Edition::Current => current,
            Edition::Of2001 => of_2001,
        }
    }

    /// Those of the current edition, as records for the host.
    fn of_host() -> &'static Messages {
        let Languages { records, rules, .. } = languages();
        records.get_or_init(|| Messages::new(rules, rules.tagged()))
    }

    /// Number and place of bytes, the number of a fatal byte at a place being told by `refusal`.
    fn judge(&self, bytes: &[u8], refusal: impl Fn(&Messages, &[u8], usize) -> u8) -> (u8, usize) {
        let place = self.lawful.longest(bytes);
        if place < bytes.len() {
            (refusal(self, bytes, place), place + languages().rules.after)
        } else if self.lawful.accepts(bytes) {
            (ACCEPTED, place)
        } else {
            (SHORT, place)
        }
    }

    /// Number for a fatal byte within a content, the last of these.
    fn in_content(&self, bytes: &[u8]) -> u8 {
        // What a sense leaves out is all that forbade a byte which first goes on in it.
        let first = self.told.iter().find(|(language, _)| language.begins(bytes));
        first.map_or(CHARACTER, |(_, number)| *number)
    }
}

struct Languages {
    current: Messages,
    of_2001: Messages,
    /// Records for the host, built once they are asked for.
    records: OnceLock<Messages>,
    keyboard: Table,
    /// All that the calendar has, in order.
    days: Vec<Day>,
    rules: Rules,
}

static BUILT: OnceLock<Languages> = OnceLock::new();

fn build(rules: Rules) -> Languages {
    Languages {
        current: Messages::new(&rules, rules.terms(Edition::Current)),
        of_2001: Messages::new(&rules, rules.terms(Edition::Of2001)),
        records: OnceLock::new(),
        keyboard: grammar::keyboard(),
        days: rules.calendar.every_day(),
        rules,
    }
}

fn languages() -> &'static Languages {
    BUILT.get_or_init(|| build(RIGHT))
}

/// Goes by other rules; none may have been gone by before.
pub fn go_by(rules: Rules) {
    assert!(BUILT.set(build(rules)).is_ok(), "rules are chosen first");
}

/// A shortest beginning that leads to each state of the automaton of all messages.
pub fn beginnings(edition: Edition) -> Vec<Vec<u8>> {
    Messages::of(edition).lawful.beginnings()
}

/// Number and place of a scan.
pub fn judge(edition: Edition, scan: &[u8]) -> (u8, usize) {
    Messages::of(edition).judge(scan, refusal)
}

/// Number for a scan whose fatal byte is at `place`.
fn refusal(messages: &Messages, scan: &[u8], place: usize) -> u8 {
    let lawful = &messages.lawful;
    let before = &scan[..place];
    let but_one = before.split_last().map(|(_, rest)| rest);
    // One more byte goes on from a whole message only where it begins the second of a pair.
    if lawful.accepts(before) || but_one.is_some_and(|rest| lawful.accepts(rest)) {
        return TRAILING;
    }
    // `=` is in no content: where it may follow, a structure is due.
    if let Some(rest) = but_one.filter(|rest| lawful.may_follow(rest, b'=')) {
        return match (scan[place - 1], scan[place]) {
            // Nothing is before it where an edition has no compound.
            (b'=', b'+') if !rest.is_empty() => languages().rules.nested,
            // Only one before it keeps a donation number from following.
            (b'=', byte) if grammar::is_first(byte) => REPEAT,
            _ => IDENTIFIER,
        };
    }
    if lawful.may_follow(before, b'=') {
        return IDENTIFIER;
    }
    messages.in_content(&scan[..=place])
}

#[derive(Clone, Debug, PartialEq, Eq)]
pub struct Reading {
    pub number: u8,
    pub place: usize,
    pub message: Message,
}

pub fn read(edition: Edition, scan: &[u8]) -> Reading {
    let (number, place) = judge(edition, scan);
    let message = match number {
        ACCEPTED => message::values(scan, &languages().rules),
        _ => Message::EMPTY,
    };
    Reading { number, place, message }
}

/// Number and place of writing; the buffer changes on success only, and there past no byte of
/// the message. Where the entries say that their structures stood is not looked at.
pub fn write(edition: Edition, message: &Message, buffer: &mut [u8]) -> (u8, usize) {
    fill(edition, message, buffer, |_, text| text)
}

/// The same with what `framed` makes of each structure's kind and text, and of a compound's head.
fn fill(
    edition: Edition,
    message: &Message,
    buffer: &mut [u8],
    framed: impl Fn(u8, Vec<u8>) -> Vec<u8>,
) -> (u8, usize) {
    if !has_shape(edition, message) {
        return (SHAPE, 0);
    }
    let used = &message.entries[..message.number];
    if let Some(index) = used.iter().position(|entry| !can_be_read(edition, &entry.structure)) {
        return (FIELD, index);
    }
    let mut bytes = match message.form {
        Form::Compound => {
            let head = format!("=+{:02}{:03}", message.number, message.bbb);
            framed(COMPOUND, head.into_bytes())
        }
        _ => Vec::new(),
    };
    for Entry { structure, .. } in used {
        bytes.extend(framed(structure.kind(), text(edition, structure)));
    }
    match buffer.get_mut(..bytes.len()) {
        None => (ROOM, bytes.len()),
        Some(room) => {
            room.copy_from_slice(&bytes);
            (ACCEPTED, bytes.len())
        }
    }
}

/// Is there a message of this form, number and bbb whose kinds agree wherever one is given?
fn has_shape(edition: Edition, message: &Message) -> bool {
    use Structure::{Donation, Empty, ExpiryTime, Groups, Product};
    let Terms { kinds, compounds, repeat, .. } = Messages::of(edition).terms;
    let structures = message.entries.map(|entry| entry.structure);
    let mut used = structures.iter().take(message.number);
    if !used.all(|structure| *structure == Empty || kinds.contains(&structure.kind())) {
        return false;
    }
    match message.form {
        Form::Single => message.number == 1 && message.bbb == 0,
        Form::Compound => {
            let used = structures.iter().take(message.number);
            let donations = used.filter(|kind| matches!(kind, Donation { .. })).count();
            let once = donations <= 1 || repeat;
            compounds && (1..=16).contains(&message.number) && message.bbb <= 999 && once
        }
        Form::Pair => {
            let kinds = matches!(
                structures[..2],
                [Donation { .. } | Empty, Groups { .. } | Empty]
                    | [Product(_) | Empty, ExpiryTime(..) | Empty]
            );
            message.number == 2 && message.bbb == 0 && kinds
        }
    }
}

/// A structure as bytes; its K is the one byte that goes on from the others.
fn text(edition: Edition, structure: &Structure) -> Vec<u8> {
    let mut bytes = message::text(structure);
    if let Structure::OldAntigens { .. } = structure {
        bytes.extend(Messages::of(edition).lawful.followers(&bytes));
    }
    bytes
}

/// Does reading give this value? If it does, it gives it for the value's own text.
fn can_be_read(edition: Edition, structure: &Structure) -> bool {
    let back = read(edition, &text(edition, structure)).message;
    back.number == 1 && back.entries[0].structure == *structure
}

/// Number of a day in its year, if there is such a day.
pub fn ordinal(year: u16, month: u8, day: u8) -> Option<u16> {
    languages().rules.calendar.ordinal(year, month, day)
}

/// Month and day of the day with this number in its year, if there is one.
pub fn month_and_day(year: u16, ordinal: u16) -> Option<(u8, u8)> {
    languages().rules.calendar.month_and_day(year, ordinal)
}

/// Number and place of a keyboard entry, and the donation number.
pub fn keyboard(entry: &[u8]) -> (u8, usize, Donation) {
    let language = &languages().keyboard;
    let place = language.longest(entry);
    let number = match entry.get(place) {
        None if language.accepts(entry) => return (ACCEPTED, place, message::donation(entry)),
        None => SHORT,
        Some(_) if place == 14 => TRAILING,
        Some(&byte) if place == 13 && grammar::is_check(byte) => CHECK,
        Some(_) => CHARACTER,
    };
    (number, place, Donation::default())
}

/// Check character of a donation number: the one byte that may follow it. Otherwise 0.
pub fn check_character(donation: &[u8]) -> u8 {
    match languages().keyboard.followers(donation)[..] {
        [check] if donation.len() == 13 => check,
        _ => 0,
    }
}
