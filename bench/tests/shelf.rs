//! The shelf list.

use second::bench::each_record;
use second::message::Donation;
use second::shelf::{answer, enter, look_up, remove, Expiry, Name, Record, ASKING};
use second::*;
use std::collections::BTreeSet;

const BAG: Name = (Donation { first: b'W', facility: 0, year: 21, sequence: 123456 }, *b"E0178V00");
const DAY_OF_IT: Expiry = Expiry { year: 2021, day: 365, timed: 0, hour: 0, minute: 0 };
const MINUTE_OF_IT: Expiry = Expiry { timed: 1, hour: 23, minute: 59, ..DAY_OF_IT };
const FREE: Record = Record {
    name: (Donation { first: 0, facility: 0, year: 0, sequence: 0 }, [0; 8]),
    expiry: Expiry { year: 0, day: 0, timed: 0, hour: 0, minute: 0 },
    used: 0,
};

/// The bag's product with another sequence number.
fn bag(sequence: u32) -> Name {
    (Donation { sequence, ..BAG.0 }, BAG.1)
}

fn held(name: Name) -> Record {
    Record { name, expiry: MINUTE_OF_IT, used: 1 }
}

#[test]
fn enters_into_the_lowest_free_record() {
    let mut list = [held(bag(1)), FREE, held(bag(2)), FREE];
    assert_eq!(enter(&mut list, BAG, DAY_OF_IT), (ACCEPTED, 1));
    let entered = Record { name: BAG, expiry: DAY_OF_IT, used: 1 };
    assert_eq!(list, [held(bag(1)), entered, held(bag(2)), FREE]);
    assert_eq!(remove(&mut list, bag(1)), (ACCEPTED, 0));
    assert_eq!(list, [FREE, entered, held(bag(2)), FREE]);
    assert_eq!(enter(&mut list, bag(3), MINUTE_OF_IT), (ACCEPTED, 0));
    assert_eq!(enter(&mut list, bag(4), MINUTE_OF_IT), (ACCEPTED, 3));
    assert_eq!(list, [held(bag(3)), entered, held(bag(2)), held(bag(4))]);
}

#[test]
fn refusals_leave_the_list() {
    let full = [held(bag(1)), held(BAG)];
    let none = Expiry { timed: 2, ..MINUTE_OF_IT };
    for (name, expiry, number) in [
        (BAG, none, FIELD),
        (BAG, DAY_OF_IT, ALREADY),
        (BAG, MINUTE_OF_IT, ALREADY),
        (bag(2), DAY_OF_IT, FULL),
        (bag(1_000_000), DAY_OF_IT, FIELD),
    ] {
        let mut list = full;
        assert_eq!(enter(&mut list, name, expiry), (number, 0));
        assert_eq!(list, full);
    }
    let mut list = full;
    assert_eq!(look_up(&list, bag(2)), (ABSENT, 0));
    assert_eq!(remove(&mut list, bag(2)), (ABSENT, 0));
    assert_eq!(list, full);
    assert_eq!(enter(&mut [], BAG, none), (FIELD, 0));
    assert_eq!(enter(&mut [], BAG, DAY_OF_IT), (FULL, 0));
    assert_eq!(look_up(&[], BAG), (ABSENT, 0));
    assert_eq!(remove(&mut [], BAG), (ABSENT, 0));
}

/// Each part of a name tells two units apart, and the expiry does not.
#[test]
fn names() {
    let (donation, product) = BAG;
    let others = [
        Donation { first: b'A', ..donation },
        Donation { facility: 1, ..donation },
        Donation { year: 22, ..donation },
        Donation { sequence: 123457, ..donation },
    ];
    let products = (0..8).map(|at| {
        let mut code = product;
        code[at] = b"T9999A1a"[at];
        (donation, code)
    });
    let list = [held(BAG)];
    for name in others.into_iter().map(|donation| (donation, product)).chain(products) {
        assert_eq!(look_up(&list, name), (ABSENT, 0), "{name:?}");
    }
    assert_eq!(look_up(&list, BAG), (ACCEPTED, 0));
}

/// A list as lent: a unit twice, a free record that still has it, values of the host's own.
#[test]
fn compared_and_not_judged() {
    let own = (Donation { first: 255, facility: 65535, year: 255, sequence: u32::MAX }, [255; 8]);
    let left = Record { used: 0, ..held(BAG) };
    let any = Record { name: own, expiry: Expiry { timed: 255, ..DAY_OF_IT }, used: 255 };
    let mut list = [left, held(BAG), any, held(BAG)];
    assert_eq!(look_up(&list, BAG), (ACCEPTED, 1));
    assert_eq!(look_up(&list, own), (ACCEPTED, 2));
    assert_eq!(enter(&mut list, own, DAY_OF_IT), (FIELD, 0));
    assert_eq!(remove(&mut list, BAG), (ACCEPTED, 1));
    assert_eq!(list, [left, FREE, any, held(BAG)]);
    assert_eq!(enter(&mut list, BAG, DAY_OF_IT), (ALREADY, 0));
    assert_eq!(remove(&mut list, BAG), (ACCEPTED, 3));
    assert_eq!(remove(&mut list, FREE.name), (ABSENT, 0));
    assert_eq!(enter(&mut list, BAG, MINUTE_OF_IT), (ACCEPTED, 0));
    assert_eq!(list, [held(BAG), FREE, any, FREE]);
}

fn entered(name: Name, expiry: Expiry) -> u8 {
    enter(&mut [FREE], name, expiry).0
}

#[test]
fn expiries_that_no_reading_gives() {
    let expiry = |year, day, timed, hour, minute| Expiry { year, day, timed, hour, minute };
    for lawful in [
        expiry(1900, 1, 0, 0, 0),
        expiry(2899, 365, 0, 0, 0),
        expiry(2020, 366, 0, 0, 0),
        expiry(2021, 1, 1, 0, 0),
        expiry(2021, 1, 1, 23, 59),
    ] {
        assert_eq!(entered(BAG, lawful), ACCEPTED, "{lawful:?}");
    }
    for unlawful in [
        expiry(1899, 1, 0, 0, 0),
        expiry(2900, 1, 0, 0, 0),
        expiry(2100, 366, 1, 0, 0),
        expiry(2021, 0, 0, 0, 0),
        expiry(2021, 1, 0, 0, 1),
        expiry(2021, 1, 0, 1, 0),
        expiry(2021, 1, 1, 24, 0),
        expiry(2021, 1, 1, 0, 60),
        expiry(2021, 1, 2, 0, 0),
        expiry(2021, 1, 255, 0, 0),
    ] {
        assert_eq!(entered(BAG, unlawful), FIELD, "{unlawful:?}");
    }
}

#[test]
fn names_that_no_reading_gives() {
    let (donation, product) = BAG;
    for name in [
        (Donation { first: b'O', ..donation }, product),
        (Donation { facility: 10000, ..donation }, product),
        (Donation { year: 100, ..donation }, product),
        (donation, *b"E0178V0a"),
        (donation, *b"e0178V00"),
    ] {
        assert_eq!(entered(name, DAY_OF_IT), FIELD, "{name:?}");
    }
    assert_eq!(entered((donation, *b"T1234001"), DAY_OF_IT), ACCEPTED);
}

/// The sequence called xorshift.
struct Chance(u64);

impl Chance {
    fn below(&mut self, limit: u64) -> u64 {
        self.0 ^= self.0 << 13;
        self.0 ^= self.0 >> 7;
        self.0 ^= self.0 << 17;
        (self.0 >> 16) % limit
    }
}

/// The number that a set of at most so many gives, and what becomes of it.
fn of_a_set(set: &mut BTreeSet<u32>, most: usize, call: u64, sequence: u32) -> u8 {
    match call {
        0 if sequence > 999_999 => FIELD,
        0 if set.contains(&sequence) => ALREADY,
        0 if set.len() == most => FULL,
        0 => u8::from(!set.insert(sequence)),
        1 if set.contains(&sequence) => ACCEPTED,
        2 if set.remove(&sequence) => ACCEPTED,
        _ => ABSENT,
    }
}

/// From a list with no unit twice, the numbers are those of a set, and the records hold just the set.
#[test]
fn as_a_plain_set() {
    let mut chance = Chance(207);
    let mut seen = BTreeSet::new();
    for length in 0..=40 {
        let mut list = vec![FREE; length];
        let mut set = BTreeSet::new();
        for index in (0..length).step_by(3) {
            let sequence = 999_990 + index as u32;
            list[index] = held(bag(sequence));
            set.insert(sequence);
        }
        for _ in 0..1000 {
            let sequence = 999_980 + chance.below(2 * length as u64 + 4) as u32;
            let call = chance.below(3);
            let (number, place) = match call {
                0 => enter(&mut list, bag(sequence), DAY_OF_IT),
                1 => look_up(&list, bag(sequence)),
                _ => remove(&mut list, bag(sequence)),
            };
            assert_eq!(number, of_a_set(&mut set, length, call, sequence));
            assert!(number == ACCEPTED || place == 0);
            seen.insert((call, number));
        }
        let used = list.iter().filter(|record| record.used != 0);
        let mut held: Vec<u32> = used.map(|record| record.name.0.sequence).collect();
        held.sort_unstable();
        assert_eq!(held, set.into_iter().collect::<Vec<_>>());
    }
    // Entering has four numbers, each of the others two.
    assert_eq!(seen.len(), 8);
}

/// What is printed for these questions: what is asked, the index, and the record's bytes.
fn told(questions: &[(u8, u8, &[u8])]) -> String {
    let mut asking = Vec::new();
    for (asked, index, record) in questions {
        let mut all = [0; ASKING];
        all[..2].copy_from_slice(&[*asked, *index]);
        all[8..8 + record.len()].copy_from_slice(record);
        asking.extend(all);
    }
    let (mut list, mut printed) = (Vec::new(), Vec::new());
    // A last question that is not whole is not answered.
    asking.push(b'S');
    each_record(&asking[..], &mut printed, |asked, to| answer(&mut list, asked, to)).unwrap();
    String::from_utf8(printed).unwrap()
}

#[test]
fn asked() {
    let bag = b"\0\x01\xe2\x40\0\0W\x15E0178V00\x07\xe5\x01\x6d\x01\x17\x3b\0";
    let digits = "0001e24000005715453031373856303007e5016d01173b01";
    let zeros = "0".repeat(48);
    assert_eq!(told(&[(b'S', 0, &[]), (b'E', 0, bag), (b'?', 0, bag)]), "S \nE 15 0\n?\n");
    let lent = [(b'N', 2, &bag[..]), (b'H', 0, bag), (b'H', 2, bag), (b'L', 0, bag)];
    assert_eq!(told(&lent), "N 2\nH 0\n?\nL 16 0\n");
    let entered = [(b'N', 2, &[][..]), (b'H', 0, &[1; 24]), (b'E', 0, bag), (b'S', 0, &[])];
    let shown = format!("N 2\nH 0\nE 0 1\nS {}{digits}\n", "01".repeat(24));
    assert_eq!(told(&entered), shown);
    let removed = [&entered[..3], &[(b'L', 9, bag), (b'F', 9, bag), (b'S', 0, &[])]].concat();
    let shown = format!("N 2\nH 0\nE 0 1\nL 0 1\nF 0 1\nS {}{zeros}\n", "01".repeat(24));
    assert_eq!(told(&removed), shown);
}
