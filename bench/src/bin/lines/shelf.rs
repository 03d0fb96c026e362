//! What asks the shelf list: `second::shelf` has the layout.

use super::asked::{change, fields, lawful, Entry};
use super::{Chance, Out};
use second::shelf::{ASKING, HEAD};
use std::io::{Result, Write};

/// Donation number and product code.
type Name = [Entry; 2];

const DONATION: u8 = 1;
const PRODUCT: u8 = 3;
const EXPIRY: u8 = 4;
const EXPIRY_TIME: u8 = 5;
/// A host's records are free, or hold by any value but 0.
const USED: [u8; 6] = [0, 0, 1, 1, 2, 255];

fn ask(asked: u8, index: u64, record: &[u8], out: &mut Out) -> Result<()> {
    let mut all = [0; ASKING];
    all[..2].copy_from_slice(&[asked, index as u8]);
    all[HEAD..HEAD + record.len()].copy_from_slice(record);
    out.to.write_all(&all)
}

/// Every field is this byte: with 0, what a freed record has.
fn filled(byte: u8) -> Name {
    [DONATION, PRODUCT].map(|kind| {
        let mut entry = [byte; 11];
        entry[0] = kind;
        entry
    })
}

/// Gives an entry one field of another, which mostly leaves it lawful, or any value in it.
fn vary(chance: &mut Chance, entry: &mut Entry) {
    if chance.one_in(4) {
        return change(chance, entry);
    }
    let (at, width, _) = chance.pick(&fields(entry[0]));
    let other = lawful(chance, entry[0]);
    entry[at..at + width].copy_from_slice(&other[at..at + width]);
}

/// What a list is asked about: few enough to come again, and many that differ in one field alone.
fn pool(chance: &mut Chance) -> Vec<Name> {
    let mut all: Vec<Name> = Vec::new();
    for _ in 0..chance.number(1, 12, &[1, 2, 48]) {
        let mut name = [DONATION, PRODUCT].map(|kind| lawful(chance, kind));
        if chance.one_in(24) {
            name = filled(chance.pick(&[0, 255]));
        } else if !all.is_empty() && chance.one_in(2) {
            name = chance.pick(&all);
            let part = chance.below(2) as usize;
            vary(chance, &mut name[part]);
        }
        all.push(name);
    }
    all
}

/// Year, day, timed, hour and minute as a record has them, at times of no reading.
fn expiry(chance: &mut Chance) -> Vec<u8> {
    let kind = chance.pick(&[EXPIRY, EXPIRY_TIME]);
    let mut entry = lawful(chance, kind);
    if chance.one_in(16) {
        change(chance, &mut entry);
    }
    let timed = if chance.one_in(24) { chance.pick(&[0, 1, 2, 255]) } else { kind - EXPIRY };
    [&entry[1..5], &[timed], &entry[5..7]].concat()
}

/// A record of one of the names, with another expiry each time.
fn record(chance: &mut Chance, names: &[Name], used: u8) -> Vec<u8> {
    let [donation, product] = chance.pick(names);
    let [first, year] = [donation[1], donation[4]];
    let expiry = expiry(chance);
    [&donation[5..9], &donation[2..4], &[first, year], &product[1..9], &expiry, &[used]].concat()
}

/// Most hosts lend a list that has records already, free ones with a name still in them too.
fn lend(chance: &mut Chance, names: &[Name], length: u64, out: &mut Out) -> Result<()> {
    ask(b'N', length, &[], out)?;
    let (filled, among) = chance.pick(&[(0, 1), (1, 4), (1, 2), (1, 1)]);
    for index in 0..length {
        if chance.below(among) < filled {
            let used = chance.pick(&USED);
            ask(b'H', index, &record(chance, names, used), out)?;
        }
    }
    Ok(())
}

/// A list, calls about it, and what it holds at times and at the end.
fn sequence(chance: &mut Chance, calls: u64, out: &mut Out) -> Result<()> {
    let names = pool(chance);
    let length = chance.number(0, 40, &[0, 1, 2, 40]);
    lend(chance, &names, length, out)?;
    for _ in 0..calls {
        let used = chance.pick(&USED);
        ask(chance.pick(b"EEELFF"), 0, &record(chance, &names, used), out)?;
        if chance.one_in(16) {
            ask(b'S', 0, &[], out)?;
        }
    }
    ask(b'S', 0, &[], out)
}

/// So many calls.
pub fn generated(seed: u64, count: u64, out: &mut Out) -> Result<()> {
    let mut chance = Chance(seed);
    let mut left = count;
    while left > 0 {
        let calls = chance.number(1, 60, &[1, 600]).min(left);
        sequence(&mut chance, calls, out)?;
        left -= calls;
    }
    // No such question, and no such record.
    ask(b'?', 0, &[], out)?;
    ask(b'H', 255, &[], out)
}
