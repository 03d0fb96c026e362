//! The shelf list as a plain list of records, and answers to what it is asked, one line each.
//!
//! What asks has 32 bytes, of which the first says what: `N`, `H`, `E`, `L`, `F` or `S`. From 8 on are
//! the 24 bytes of a record: sequence number in four bytes, facility in two, first character, year;
//! the eight characters of the product code; year and day of the expiry in two bytes each, timed,
//! hour, minute; used. Numbers begin with their highest byte.
//! - `N` for a new list of as many records as the byte at 1 says, with zeros in them all. Told: how
//!   many.
//! - `H` for the host's putting the record at the index at 1. Told: the index.
//! - `E` for a unit entered, `L` looked up, `F` removed. Told: number and place. Only in `E` does the
//!   expiry count, and in none of them does used.
//! - `S` for the list. Told: the 24 bytes of each record in hexadecimal digits, one after the other.
//!
//! Anything else, and an index past the list, is answered by a question mark. Before the first `N` the
//! list has no record.

use crate::asked::{bytes, short};
use crate::message::{Day, Donation, Edition, Structure, Time};
use crate::{can_be_read, languages, ABSENT, ACCEPTED, ALREADY, FIELD, FULL};
use std::io::{Result, Write};

/// Bytes that ask.
pub const ASKING: usize = 32;
/// Where the record begins in them.
pub const HEAD: usize = 8;

/// An expiry of any value at all: 0 in `timed` says 004, and 1 says 005.
#[derive(Clone, Copy, Debug, Default, PartialEq, Eq)]
pub struct Expiry {
    pub year: u16,
    pub day: u16,
    pub timed: u8,
    pub hour: u8,
    pub minute: u8,
}

impl Expiry {
    /// The structure that would give it; empty if there is none.
    fn structure(self) -> Structure {
        let day = Day { year: self.year, day: self.day };
        match (self.timed, self.hour, self.minute) {
            (0, 0, 0) => Structure::Expiry(day),
            (1, hour, minute) => Structure::ExpiryTime(day, Time { hour, minute }),
            _ => Structure::Empty,
        }
    }
}

/// What makes two entries one unit.
pub type Name = (Donation, [u8; 8]);

/// A record; free if `used` is 0, whatever else it has.
#[derive(Clone, Copy, Debug, Default, PartialEq, Eq)]
pub struct Record {
    pub name: Name,
    pub expiry: Expiry,
    pub used: u8,
}

impl Record {
    fn is_free(&self) -> bool {
        self.used == 0
    }

    fn holds(&self, name: Name) -> bool {
        (!self.is_free() || languages().rules.free_holds) && self.name == name
    }
}

/// Could reading labels give a unit of this name and expiry? Either edition will do, and any flags, of
/// which 00 always may be.
fn is_lawful((donation, product): Name, expiry: Expiry) -> bool {
    let Donation { first, facility, year, sequence } = donation;
    let donation = Structure::Donation { first, facility, year, sequence, flag: 0 };
    let all = [donation, Structure::Product(product), expiry.structure()];
    all.iter().all(|structure| can_be_read(Edition::Current, structure))
}

/// Number, and index of the lowest record that holds the unit.
pub fn look_up(list: &[Record], name: Name) -> (u8, usize) {
    let found = list.iter().position(|record| record.holds(name));
    found.map_or((ABSENT, 0), |index| (ACCEPTED, index))
}

/// Number and index; no number of a donor stays in the record.
pub fn remove(list: &mut [Record], name: Name) -> (u8, usize) {
    let (number, index) = look_up(list, name);
    if number == ACCEPTED {
        list[index] = Record::default();
    }
    (number, index)
}

/// Number, and index of the record that the unit was put into.
pub fn enter(list: &mut [Record], name: Name, expiry: Expiry) -> (u8, usize) {
    if !is_lawful(name, expiry) {
        return (FIELD, 0);
    }
    if look_up(list, name).0 == ACCEPTED {
        return (ALREADY, 0);
    }
    let free = match languages().rules.highest {
        false => list.iter().position(Record::is_free),
        true => list.iter().rposition(Record::is_free),
    };
    free.map_or((FULL, 0), |index| {
        list[index] = Record { name, expiry, used: 1 };
        (ACCEPTED, index)
    })
}

fn record(part: &[u8]) -> Record {
    let donation = Donation {
        sequence: u32::from_be_bytes(bytes(part, 0)),
        facility: short(part, 4),
        first: part[6],
        year: part[7],
    };
    let expiry = Expiry {
        year: short(part, 16),
        day: short(part, 18),
        timed: part[20],
        hour: part[21],
        minute: part[22],
    };
    Record { name: (donation, bytes(part, 8)), expiry, used: part[23] }
}

fn digits(Record { name: (donation, product), expiry, used }: &Record) -> String {
    let Donation { sequence, facility, first, year } = donation;
    let product = u64::from_be_bytes(*product);
    let Expiry { year: expires, day, timed, hour, minute } = expiry;
    format!("{sequence:08x}{facility:04x}{first:02x}{year:02x}{product:016x}")
        + &format!("{expires:04x}{day:04x}{timed:02x}{hour:02x}{minute:02x}{used:02x}")
}

/// Does with the list what is asked, and tells the answer.
pub fn answer(list: &mut Vec<Record>, asked: &[u8; ASKING], output: &mut impl Write) -> Result<()> {
    let given = record(&asked[HEAD..]);
    let index = usize::from(asked[1]);
    let (number, place) = match asked[0] {
        b'N' => {
            *list = vec![Record::default(); index];
            return writeln!(output, "N {index}");
        }
        b'H' if index < list.len() => {
            list[index] = given;
            return writeln!(output, "H {index}");
        }
        b'E' => enter(list, given.name, given.expiry),
        b'L' => look_up(list, given.name),
        b'F' => remove(list, given.name),
        b'S' => return writeln!(output, "S {}", list.iter().map(digits).collect::<String>()),
        _ => return writeln!(output, "?"),
    };
    writeln!(output, "{} {number} {place}", char::from(asked[0]))
}
