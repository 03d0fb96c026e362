//! Records for the hospital host.

use second::host::{export, import, LONGEST};
use second::message::{Day, Edition, Form, Message, Structure};
use second::*;
use std::collections::BTreeSet;

/// A label of each kind and its record, which is one field.
const KINDS: [(&str, &[u8]); 13] = [
    ("=W00002112345670", b"\x01\0\x0fW00002112345670"),
    ("=%6410", b"\x02\0\x046410"),
    ("=<E0178VBb", b"\x03\0\x08E0178VBb"),
    ("=>020366", b"\x04\0\x06020366"),
    ("&>0213652359", b"\x05\0\x0a0213652359"),
    ("=*900365", b"\x06\0\x06900365"),
    ("&*1003651959", b"\x07\0\x0a1003651959"),
    ("=}400366", b"\x08\0\x06400366"),
    ("&}8990012030", b"\x09\0\x0a8990012030"),
    ("&(N0008", b"\x0a\0\x05N0008"),
    ("=\\979999999999924799", b"\x0c\0\x12979999999999924799"),
    ("&)00aZ901xyQ", b"\x12\0\x0a00aZ901xyQ"),
    ("=(2003202402292030", b"\x1f\0\x102003202402292030"),
];
const DONATION: (&str, &[u8]) = KINDS[0];
const GROUPS: (&str, &[u8]) = KINDS[1];
/// The tags that may begin a structure.
const TAGS: [u8; 13] = [1, 2, 3, 4, 5, 6, 7, 8, 9, 10, 12, 18, 31];

/// Label and record of a compound of these.
fn compound(bbb: u16, kinds: &[(&str, &[u8])]) -> (String, Vec<u8>) {
    let head = format!("{:02}{bbb:03}", kinds.len());
    let label: String = kinds.iter().map(|(label, _)| *label).collect();
    let fields: Vec<u8> = kinds.iter().flat_map(|(_, field)| field.to_vec()).collect();
    (format!("=+{head}{label}"), [&[23, 0, 5], head.as_bytes(), &fields].concat())
}

/// Labels and records of each kind and form.
fn labels_and_records() -> Vec<(String, Vec<u8>)> {
    let mut all: Vec<(String, Vec<u8>)> =
        KINDS.iter().map(|(label, record)| (label.to_string(), record.to_vec())).collect();
    for (first, second) in [(0, 1), (2, 4)] {
        let (first, second) = (KINDS[first], KINDS[second]);
        all.push((first.0.to_string() + second.0, [first.1, second.1].concat()));
    }
    all.extend(KINDS.map(|kind| compound(7, &[kind])));
    all.push(compound(999, &[DONATION, GROUPS]));
    all.push(compound(42, &KINDS));
    all.push(compound(0, &[&KINDS[..], &KINDS[10..]].concat()));
    all.push(compound(0, &[KINDS[10]; 16]));
    all
}

/// Number and place of a record that is refused: its message is the empty one.
fn refused(record: &[u8]) -> (u8, usize) {
    let Reading { number, place, message } = import(record);
    assert!(number != ACCEPTED && message == Message::EMPTY, "{record:?}");
    (number, place)
}

fn with(record: &[u8], at: usize, byte: u8) -> Vec<u8> {
    let mut other = record.to_vec();
    other[at] = byte;
    other
}

fn joined(record: &[u8], more: &[u8]) -> Vec<u8> {
    [record, more].concat()
}

#[test]
fn the_examples() {
    let donation = DONATION.1;
    assert_eq!(refused(&joined(donation, b"\x02\x01")), (LENGTH, 19));
    assert_eq!(refused(&joined(donation, b"\x03")), (TRAILING, 18));
    assert_eq!(refused(b"\x02\0\x05"), (LENGTH, 2));
    // As a label it would go on.
    assert_eq!(refused(&with(donation, 3, b'*')), (CHARACTER, 3));
}

#[test]
fn both_ways() {
    for (label, record) in labels_and_records() {
        let message = read(Edition::Current, label.as_bytes()).message;
        let accepted = Reading { number: ACCEPTED, place: record.len(), message };
        assert_eq!(import(&record), accepted, "{label}");
        let mut buffer = [0xa5; LONGEST + 3];
        assert_eq!(export(&message, &mut buffer), (ACCEPTED, record.len()), "{label}");
        assert_eq!(buffer[..record.len()], record);
        assert!(buffer[record.len()..].iter().all(|&byte| byte == 0xa5));
    }
}

/// Places and lengths are those of the label.
#[test]
fn places() {
    let message = import(&compound(5, &[DONATION, GROUPS, KINDS[10]]).1).message;
    let told = message.entries[..4].iter().map(|entry| (entry.place, entry.length));
    assert_eq!(told.collect::<Vec<_>>(), [(7, 16), (23, 6), (29, 20), (0, 0)]);
    let message = import(&joined(DONATION.1, GROUPS.1)).message;
    let told = message.entries[..3].iter().map(|entry| (entry.place, entry.length));
    assert_eq!(told.collect::<Vec<_>>(), [(0, 16), (16, 6), (0, 0)]);
}

#[test]
fn the_longest() {
    let (label, record) = compound(999, &[KINDS[10]; 16]);
    assert_eq!((label.len(), record.len(), LONGEST), (327, 344, 344));
    assert_eq!(import(&record).place, 344);
    assert_eq!(refused(&joined(&record, b"\x0c")), (TRAILING, 344));
}

/// Compounds of any three kinds: taken and given back, or refused by both.
#[test]
fn compounds_of_three() {
    let mut repeated = 0;
    for i in 0..13 * 13 * 13 {
        let three = [i / 169, i / 13 % 13, i % 13].map(|kind| KINDS[kind]);
        let (label, record) = compound(42, &three);
        let second = (0..3).filter(|&at| three[at] == DONATION).nth(1);
        if let Some(index) = second {
            repeated += 1;
            let place = 8 + three[..index].iter().map(|(_, field)| field.len()).sum::<usize>();
            assert_eq!(refused(&record), (REPEAT, place), "{label}");
            continue;
        }
        let message = read(Edition::Current, label.as_bytes()).message;
        let accepted = Reading { number: ACCEPTED, place: record.len(), message };
        assert_eq!(import(&record), accepted, "{label}");
        let mut buffer = [0; 80];
        assert_eq!(export(&message, &mut buffer), (ACCEPTED, record.len()));
        assert_eq!(buffer[..record.len()], record);
    }
    assert_eq!(repeated, 3 * 12 + 1);
}

/// Any record that is taken is what its message is given as.
#[test]
fn changed_records_come_back() {
    let mut taken = 0;
    for (_, record) in labels_and_records() {
        for (at, byte) in (0..record.len()).flat_map(|at| b"0129ABb".map(|byte| (at, byte))) {
            let record = with(&record, at, byte);
            let Reading { number, place, message } = import(&record);
            if number == ACCEPTED {
                taken += 1;
                let mut buffer = vec![0; record.len()];
                assert_eq!((place, export(&message, &mut buffer)), (record.len(), (0, place)));
                assert_eq!(buffer, record);
            }
        }
    }
    assert!(taken > 1000);
}

/// Where the record of a label has each of its bytes, and its end; of an identifier its first byte
/// has the tag's place. The first character of a donation number is data.
fn record_places(label: &[u8]) -> Vec<usize> {
    let mut places = vec![0];
    for (at, byte) in label.iter().enumerate() {
        let more = match byte {
            b'=' | b'&' => 3,
            _ if at > 0 && is_identifier(label[at - 1], *byte) => 0,
            _ => 1,
        };
        places.push(places[at] + more);
    }
    places
}

fn is_identifier(first: u8, second: u8) -> bool {
    matches!(first, b'=' | b'&') && !second.is_ascii_alphanumeric()
}

/// Any byte at any place of a content has the answer that it has on the label, but for the first
/// character of a donation number, which is part of an identifier there.
#[test]
fn contents_as_in_reading() {
    let mut numbers = BTreeSet::new();
    for (label, record) in labels_and_records() {
        let label = label.as_bytes();
        let places = record_places(label);
        let many = label.len() > 40;
        let contents = (0..label.len()).filter(|&at| {
            at > 0 && !matches!(label[at], b'=' | b'&') && !is_identifier(label[at - 1], label[at])
        });
        for at in contents.step_by(if many { 5 } else { 1 }) {
            let place = places[at];
            assert_eq!(label[at], record[place]);
            for byte in (0..=255u8).step_by(if many { 7 } else { 1 }).chain(*b"0123456789AZaz") {
                let Reading { number, place: told, .. } = import(&with(&record, place, byte));
                numbers.insert(number);
                let first = matches!(byte, b'A'..=b'N' | b'P'..=b'Z' | b'1'..=b'9');
                if label[at - 1] == b'=' && !first {
                    assert_eq!((number, told), (CHARACTER, place), "{record:?} {byte}");
                    continue;
                }
                let (expected, fatal) = judge(Edition::Current, &with(label, at, byte));
                assert_eq!((number, told), (expected, places[fatal]), "{record:?} {place} {byte}");
            }
        }
    }
    let all = [ACCEPTED, SHORT, CHARACTER, VALUE, TRAILING, CHECK, DAY, TIME];
    assert_eq!(numbers, BTreeSet::from(all));
}

#[test]
fn a_tag_first() {
    assert_eq!(refused(b""), (SHORT, 0));
    for tag in 0..=255 {
        let lawful = TAGS.contains(&tag) || tag == 23;
        assert_eq!(refused(&[tag]), if lawful { (SHORT, 1) } else { (TAG, 0) }, "{tag}");
    }
    // Of the 2001 edition.
    assert_eq!(refused(b"\xc8\0\x13880000000087000099C"), (TAG, 0));
}

/// Every tag behind so many structures of a compound, the 001 at each index or at none.
#[test]
fn a_tag_in_a_compound() {
    for number in [1, 2, 3, 10, 16] {
        for (index, behind) in (0..=number).flat_map(|at| (0..=number).map(move |to| (at, to))) {
            let mut all = vec![GROUPS; number];
            all.get_mut(index).into_iter().for_each(|kind| *kind = DONATION);
            let rest = all[behind..].iter().map(|(_, field)| field.len()).sum::<usize>();
            let (_, whole) = compound(0, &all);
            let before = &whole[..whole.len() - rest];
            for tag in 0..=255 {
                let place = before.len();
                let answer = match tag {
                    _ if behind == number => (TRAILING, place),
                    1 if index < behind => (REPEAT, place),
                    23 => (NESTED, place),
                    tag if TAGS.contains(&tag) => (SHORT, place + 1),
                    _ => (TAG, place),
                };
                assert_eq!(refused(&joined(before, &[tag])), answer, "{number} {index} {behind}");
            }
        }
    }
}

#[test]
fn a_tag_behind_a_whole_message() {
    for (_, record) in labels_and_records() {
        for tag in 0..=255 {
            let second = match (record[0], record.len()) {
                (1, 18) => tag == 2,
                (3, 11) => tag == 5,
                _ => false,
            };
            let answer = if second { (SHORT, record.len() + 1) } else { (TRAILING, record.len()) };
            assert_eq!(refused(&joined(&record, &[tag])), answer, "{record:?} {tag}");
        }
    }
    // Whatever stands behind it.
    assert_eq!(refused(&[DONATION.1, KINDS[2].1].concat()), (TRAILING, 18));
    assert_eq!(refused(&[KINDS[2].1, KINDS[3].1].concat()), (TRAILING, 11));
    assert_eq!(refused(&[DONATION.1, GROUPS.1, GROUPS.1].concat()), (TRAILING, 25));
    assert_eq!(refused(&compound(0, &[]).1), (VALUE, 4));
}

/// A length is that of the kind, in both bytes and whatever data is behind it.
#[test]
fn lengths() {
    let (_, head) = compound(0, &[GROUPS]);
    let records = KINDS.iter().map(|(_, record)| record.to_vec()).chain([head]);
    for record in records {
        for before in [vec![], compound(0, &[GROUPS; 3]).1[..15].to_vec()] {
            // A compound's head is no structure of another.
            if record[0] == 23 && !before.is_empty() {
                continue;
            }
            let place = before.len();
            for byte in 0..=255 {
                let [high, low] = [1, 2].map(|at| joined(&before, &with(&record, at, byte)));
                if byte != 0 {
                    assert_eq!(refused(&high), (LENGTH, place + 1));
                    assert_eq!(refused(&high[..place + 2]), (LENGTH, place + 1));
                }
                if byte != record[2] {
                    assert_eq!(refused(&low), (LENGTH, place + 2));
                    assert_eq!(refused(&low[..place + 3]), (LENGTH, place + 2));
                }
            }
        }
    }
}

#[test]
fn every_cut_is_short_or_whole() {
    for (label, record) in labels_and_records() {
        for length in 0..record.len() {
            let Reading { number, place, message } = import(&record[..length]);
            let first = matches!((record[0], length), (1, 18) | (3, 11));
            assert_eq!((number, place), (if first { ACCEPTED } else { SHORT }, length), "{label}");
            assert_eq!(message == Message::EMPTY, !first);
        }
    }
}

/// The fatal byte decides, not one behind it.
#[test]
fn the_first_fault() {
    let answers: [(&[u8], u8, usize); 10] = [
        (b"\x02\x01\x05", LENGTH, 1),
        (b"\x0b\x01\x05", TAG, 0),
        (b"\x02\0\x04!", CHARACTER, 3),
        (b"\x02\0\x04510!\x17", CHARACTER, 6),
        (b"\x02\0\x045101\x17", VALUE, 6),
        (b"\x17\0\x0520000\x17", VALUE, 3),
        (b"\x17\0\x0502000\x17\x01", NESTED, 8),
        (b"\x17\0\x050200a\x17", CHARACTER, 7),
        (b"\x17\x01\x0502000", LENGTH, 1),
        (b"\x17\0\x0502000\x01\0\x0fW00002112345671\x01", CHECK, 25),
    ];
    for (record, number, place) in answers {
        assert_eq!(refused(record), (number, place), "{record:?}");
    }
}

/// Words of the language whose ends are tried behind a beginning.
fn words() -> Vec<Vec<u8>> {
    let more = [
        &b"\x01\0\x0fW00002112345600"[..],
        b"\x03\0\x08E0178V00",
        b"\x03\0\x08T1234001",
        b"\x04\0\x06021001",
        b"\x05\0\x0a0203661900",
        b"\x1f\0\x101001190001010000",
        b"\x1f\0\x102002202412312359",
        b"\x1f\0\x102003202402282030",
        b"\x1f\0\x102003202411302359",
    ];
    let (_, ten) = compound(0, &[KINDS[9]; 10]);
    let forms = labels_and_records().into_iter().map(|(_, record)| record);
    forms.filter(|record| record.len() < 40).chain(more.map(<[u8]>::to_vec)).chain([ten]).collect()
}

/// The place is the length of the longest beginning that some end makes a record.
#[test]
fn places_by_trying_ends() {
    let words = words();
    let mut ends: BTreeSet<Vec<u8>> = (b'0'..=b'9').map(|digit| vec![digit]).collect();
    for word in &words {
        // Behind a compound's head are fields that others end with too.
        let last = if word[0] == 23 { 8 } else { word.len() };
        ends.extend((0..=last).map(|at| word[at..].to_vec()));
    }
    let begins =
        |bytes: &[u8]| ends.iter().any(|end| import(&joined(bytes, end)).number == ACCEPTED);
    // All kinds, the pairs, and the smallest compounds.
    for word in words.iter().filter(|word| word.len() < if word[0] == 23 { 17 } else { 30 }) {
        for at in 0..word.len() {
            for &byte in [b"\0\x01\x17A9", b"\x02\x0f*01", b"\x05\x1fO37"][at % 3] {
                let record = with(word, at, byte);
                let Reading { place, .. } = import(&record);
                assert!(begins(&record[..place]), "{record:?} {place}");
                assert!(place == record.len() || !begins(&record[..=place]), "{record:?} {place}");
            }
        }
    }
}

fn message(form: Form, bbb: u16, number: usize, structures: &[Structure]) -> Message {
    let mut message = Message { form, bbb, number, ..Message::EMPTY };
    structures.iter().zip(&mut message.entries).for_each(|(&value, entry)| *entry = value.into());
    message
}

/// A value of each kind, then those that no reading of the current edition gives.
fn values() -> Vec<Structure> {
    let lawful = KINDS
        .map(|(label, _)| read(Edition::Current, label.as_bytes()).message.entries[0].structure);
    let others = [
        Structure::Empty,
        Structure::OldAntigens { sixteen: 0, two: 0 },
        Structure::Donation { first: b'W', facility: 0, year: 21, sequence: 123456, flag: 71 },
        Structure::Donation { first: b'O', facility: 0, year: 0, sequence: 0, flag: 0 },
        Structure::Donation { first: b'*', facility: 0, year: 0, sequence: 0, flag: 0 },
        Structure::Groups { gg: *b"5=", r: b'0' },
        Structure::Product(*b"E0178V0a"),
        Structure::Expiry(Day { year: 2021, day: 366 }),
        Structure::Antigens(1_000_000_000_000_000_000),
    ];
    lawful.into_iter().chain(others).collect()
}

/// Refused as the writer does, in the same order; what is written is written as fields.
#[test]
fn refused_as_by_the_writer() {
    let values = values();
    let mut numbers = BTreeSet::new();
    for (first, second) in
        values.iter().flat_map(|first| values.iter().map(move |second| (*first, *second)))
    {
        for (form, bbb) in [(Form::Single, 0), (Form::Single, 1), (Form::Pair, 0), (Form::Pair, 9)]
            .into_iter()
            .chain([0, 999, 1000].map(|bbb| (Form::Compound, bbb)))
        {
            for number in [0, 1, 2, 3, 16, 17, usize::MAX] {
                let given = message(form, bbb, number, &[first, second]);
                let (mut label, mut record) = ([b'#'; LONGEST], [b'#'; LONGEST]);
                let written = write(Edition::Current, &given, &mut label);
                let told = export(&given, &mut record);
                numbers.insert(told.0);
                if written.0 != ACCEPTED {
                    assert_eq!((told, record), (written, [b'#'; LONGEST]), "{given:?}");
                    continue;
                }
                let head = usize::from(form == Form::Compound);
                let donations = given.entries[..number].iter();
                let donations = donations.filter(|entry| entry.structure.kind() == 1).count();
                assert_eq!(told, (ACCEPTED, written.1 + head + number + donations));
                let reading = read(Edition::Current, &label[..written.1]);
                assert_eq!(import(&record[..told.1]).message, reading.message);
                for room in [0, 1, told.1 - 1] {
                    let mut little = vec![b'#'; room];
                    assert_eq!(export(&given, &mut little), (ROOM, told.1));
                    assert_eq!(little, vec![b'#'; room]);
                }
            }
        }
    }
    assert_eq!(numbers, BTreeSet::from([ACCEPTED, SHAPE, FIELD]));
    assert_eq!(export(&Message::EMPTY, &mut [0; LONGEST]), (SHAPE, 0));
}

/// In every room: what it needs, or the record and the bytes past it as they were.
#[test]
fn rooms() {
    for (label, record) in labels_and_records() {
        let message = import(&record).message;
        for room in (0..record.len() + 20).chain([512]) {
            let mut buffer = vec![0xa5; room];
            let told = export(&message, &mut buffer);
            if room < record.len() {
                assert_eq!((told, buffer), ((ROOM, record.len()), vec![0xa5; room]), "{label}");
            } else {
                assert_eq!(told, (ACCEPTED, record.len()));
                assert_eq!(buffer, joined(&record, &vec![0xa5; room - record.len()]));
            }
        }
    }
}

/// Where its structures are said to have stood does not count, nor what is past the number.
#[test]
fn places_given_are_ignored() {
    let (_, record) = compound(0, &[DONATION, GROUPS]);
    let message = import(&record).message;
    let mut given = message;
    given.entries.iter_mut().for_each(|entry| (entry.place, entry.length) = (1, usize::MAX));
    given.entries[2] = given.entries[0];
    let mut buffer = [0; 40];
    assert_eq!(export(&given, &mut buffer), (ACCEPTED, record.len()));
    assert_eq!(buffer[..record.len()], record);
    assert_eq!(import(&record).message, message);
}
