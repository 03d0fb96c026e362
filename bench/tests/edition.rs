//! Both editions: labels of that of 2001, what the other says to them, and what both accept.

use second::message::Edition::{Current, Of2001};
use second::message::{Day, Form, Message, Structure, Time};
use second::*;

const WORTHS: &[u8; 37] = b"0123456789ABCDEFGHIJKLMNOPQRSTUVWXYZ*";
/// What only one of the editions has at the beginning of a label.
const LATER: [&[u8]; 5] = [b"=+", b"&(", b"=\\", b"&)", b"=("];
const EARLIER: &[u8] = b"={";

/// The K of these digits by source 000's running sum.
fn k(digits: &str) -> u8 {
    let sum = digits.bytes().fold(0, |sum, digit| (sum + usize::from(digit - b'0')) * 2 % 37);
    WORTHS[(38 - sum) % 37]
}

/// Eighteen digits, many and spread out.
fn many() -> impl Iterator<Item = String> {
    (0..1_000_000_000_000_000_000u64).step_by(1_234_567_890_123_457).map(|n| format!("{n:018}"))
}

fn message(form: Form, structures: &[Structure]) -> Message {
    let mut message = Message { form, number: structures.len(), ..Message::EMPTY };
    structures.iter().zip(&mut message.entries).for_each(|(&value, entry)| *entry = value.into());
    message
}

const ANTIGENS: Structure = Structure::OldAntigens { sixteen: 8_800_000_000_870_000, two: 99 };

/// A value of each kind that both editions have.
fn common() -> Vec<Structure> {
    let (day, time) = (Day { year: 2020, day: 366 }, Time { hour: 13, minute: 30 });
    vec![
        Structure::Donation { first: b'W', facility: 0, year: 21, sequence: 123456, flag: 70 },
        Structure::Groups { gg: *b"51", r: b'0' },
        Structure::Product(*b"E0178VBb"),
        Structure::Expiry(day),
        Structure::ExpiryTime(day, time),
        Structure::Collection(day),
        Structure::CollectionTime(day, time),
        Structure::Production(day),
        Structure::ProductionTime(day, time),
    ]
}

/// A value of each kind that only the current edition has.
fn later() -> Vec<Structure> {
    let time = Time { hour: 13, minute: 30 };
    vec![
        Structure::Testing(*b"N0008"),
        Structure::Antigens(979_999_999_999_924_799),
        Structure::Lot(*b"0123456789"),
        Structure::Flexible { z: b'2', tt: 1, year: 2025, month: 12, day: 31, time },
    ]
}

type Answer = (u8, usize);

/// A scan, its answer in the 2001 edition and in the current one.
const ANSWERS: &[(&str, Answer, Answer)] = &[
    ("={880000000087000099C", (ACCEPTED, 21), (IDENTIFIER, 1)),
    ("={486286139558999999P", (ACCEPTED, 21), (IDENTIFIER, 1)),
    ("={880000000087000039*", (ACCEPTED, 21), (IDENTIFIER, 1)),
    ("={880000000087000099", (SHORT, 20), (IDENTIFIER, 1)),
    ("={", (SHORT, 2), (IDENTIFIER, 1)),
    // The K of the sixteen digits alone.
    ("={8800000000870000998", (CHECK, 20), (IDENTIFIER, 1)),
    ("={880000000087000099*", (CHECK, 20), (IDENTIFIER, 1)),
    ("={880000000087000099D=", (CHECK, 20), (IDENTIFIER, 1)),
    ("={880000000087000099c", (CHARACTER, 20), (IDENTIFIER, 1)),
    ("={880000000087000099=", (CHARACTER, 20), (IDENTIFIER, 1)),
    ("={88000000008700009CC", (CHARACTER, 19), (IDENTIFIER, 1)),
    ("={*", (CHARACTER, 2), (IDENTIFIER, 1)),
    ("={880000000087000099C=", (TRAILING, 21), (IDENTIFIER, 1)),
    ("&{", (IDENTIFIER, 1), (IDENTIFIER, 1)),
    ("=+01000=%5100", (IDENTIFIER, 1), (ACCEPTED, 13)),
    ("=+", (IDENTIFIER, 1), (SHORT, 2)),
    ("=(2001202512312359", (IDENTIFIER, 1), (ACCEPTED, 18)),
    ("&)0123456789", (IDENTIFIER, 1), (ACCEPTED, 12)),
    ("&(N0008", (IDENTIFIER, 1), (ACCEPTED, 7)),
    ("=\\979999999999924799", (IDENTIFIER, 1), (ACCEPTED, 20)),
    ("=+01000={", (IDENTIFIER, 1), (IDENTIFIER, 8)),
    ("=W00002112345670={", (TRAILING, 17), (TRAILING, 17)),
    ("=<E0178VBb=>020366", (TRAILING, 10), (TRAILING, 10)),
    ("=<E0178VBb&(", (TRAILING, 11), (TRAILING, 11)),
    ("=<E0178VBb&>0203661330", (ACCEPTED, 22), (ACCEPTED, 22)),
    ("=W00002112345670=%5100", (ACCEPTED, 22), (ACCEPTED, 22)),
    ("=W00002112345670=%6201", (VALUE, 21), (VALUE, 21)),
    ("=W00002112345671", (CHECK, 15), (CHECK, 15)),
    ("=W00002112345697", (CHECK, 14), (CHECK, 14)),
    ("=>021366", (DAY, 7), (DAY, 7)),
    ("&>0213652400", (TIME, 9), (TIME, 9)),
    ("=O", (IDENTIFIER, 1), (IDENTIFIER, 1)),
    ("{", (IDENTIFIER, 0), (IDENTIFIER, 0)),
    ("", (SHORT, 0), (SHORT, 0)),
];

#[test]
fn labels_in_both_editions() {
    for &(scan, of_2001, current) in ANSWERS {
        assert_eq!(judge(Of2001, scan.as_bytes()), of_2001, "{scan}");
        assert_eq!(judge(Current, scan.as_bytes()), current, "{scan}");
    }
}

/// Every byte as the K: one is right, the other 36 are wrong, and the rest are none.
#[test]
fn every_k() {
    let mut seen = std::collections::HashSet::new();
    for digits in many() {
        let own = k(&digits);
        seen.insert(own);
        let mut scan = format!("={{{digits}.").into_bytes();
        assert_eq!(judge(Of2001, &scan[..20]), (SHORT, 20));
        for byte in 0..=255 {
            scan[20] = byte;
            let answer = match byte {
                _ if byte == own => (ACCEPTED, 21),
                b'A'..=b'Z' | b'0'..=b'9' | b'*' => (CHECK, 20),
                _ => (CHARACTER, 20),
            };
            assert_eq!(judge(Of2001, &scan), answer, "{digits} {byte}");
        }
    }
    assert_eq!(seen.len(), 37);
}

/// K is not held: it comes back with the digits.
#[test]
fn antigens_both_ways() {
    for digits in many() {
        let text = format!("={{{digits}{}", char::from(k(&digits)));
        let reading = read(Of2001, text.as_bytes());
        let [sixteen, two] = [&digits[..16], &digits[16..]].map(|part| part.parse().unwrap());
        let value = Structure::OldAntigens { sixteen, two: two as u8 };
        let mut whole = message(Form::Single, &[value]);
        whole.entries[0].length = 21;
        assert_eq!(reading, Reading { number: ACCEPTED, place: 21, message: whole });
        let mut buffer = [b'#'; 23];
        assert_eq!(write(Of2001, &whole, &mut buffer), (ACCEPTED, 21));
        assert_eq!(buffer, *format!("{text}##").as_bytes());
    }
}

/// Wherever one of the automata stands, with every byte: the editions differ in what begins with an
/// identifier that one of them has alone, and in nothing else.
#[test]
fn editions_differ_at_the_identifier() {
    let mut both = 0;
    // Of the current one all but compounds, most of whose states are within donation numbers.
    let current = beginnings(Current).into_iter().filter(|word| !word.starts_with(b"=+"));
    for word in beginnings(Of2001).into_iter().chain(current) {
        for byte in 0..=255 {
            let scan = [&word[..], &[byte]].concat();
            let [of_2001, current] = [Of2001, Current].map(|edition| read(edition, &scan));
            let refused = Reading { number: IDENTIFIER, place: 1, message: Message::EMPTY };
            if LATER.iter().any(|&identifier| scan.starts_with(identifier)) {
                assert_eq!(of_2001, refused, "{scan:?}");
            } else if scan.starts_with(EARLIER) {
                assert_eq!(current, refused, "{scan:?}");
            } else {
                assert_eq!(of_2001, current, "{scan:?}");
                both += usize::from(current.number == ACCEPTED);
            }
        }
    }
    assert!(both > 200);
}

/// No scan of the 2001 edition is refused by what only compounds have.
#[test]
fn nothing_nested_or_repeated() {
    for word in beginnings(Of2001) {
        for byte in 0..=255 {
            let (number, _) = judge(Of2001, &[&word[..], &[byte]].concat());
            assert!(![NESTED, REPEAT].contains(&number), "{word:?} {byte}");
        }
    }
}

#[test]
fn flags_in_both_editions() {
    for (edition, ff) in [Of2001, Current].into_iter().flat_map(|e| (0..100).map(move |ff| (e, ff)))
    {
        let answer = match ff {
            0..60 | 70 => (ACCEPTED, 16),
            71..80 => (CHECK, 15),
            _ => (CHECK, 14),
        };
        assert_eq!(judge(edition, format!("=W000021123456{ff:02}").as_bytes()), answer, "{ff}");
        let flagged =
            Structure::Donation { first: b'W', facility: 0, year: 21, sequence: 123456, flag: ff };
        let written = write(edition, &message(Form::Single, &[flagged]), &mut [0; 16]);
        assert_eq!(written, if answer.0 == ACCEPTED { answer } else { (FIELD, 0) }, "{ff}");
    }
}

#[test]
fn writer_shape() {
    let (common, later) = (common(), later());
    let shape = |edition, form, structures: &[Structure]| {
        write(edition, &message(form, structures), &mut [0; 400])
    };
    for &one in &common {
        let [of_2001, current] = [Of2001, Current].map(|e| shape(e, Form::Single, &[one]));
        assert_eq!(of_2001, current);
        assert_eq!(of_2001.0, ACCEPTED);
        assert_eq!(shape(Of2001, Form::Compound, &[one]), (SHAPE, 0));
        assert_eq!(shape(Current, Form::Compound, &[one]), (ACCEPTED, 7 + current.1));
        assert_eq!(shape(Current, Form::Compound, &[one, ANTIGENS]), (SHAPE, 0));
    }
    for &one in &later {
        assert_eq!(shape(Of2001, Form::Single, &[one]), (SHAPE, 0));
        assert_eq!(shape(Current, Form::Single, &[one]).0, ACCEPTED);
    }
    assert_eq!(shape(Of2001, Form::Single, &[ANTIGENS]), (ACCEPTED, 21));
    assert_eq!(shape(Current, Form::Single, &[ANTIGENS]), (SHAPE, 0));
    let all = [&common[..], &later, &[ANTIGENS, Structure::Empty]].concat();
    for (i, j) in (0..all.len()).flat_map(|i| (0..all.len()).map(move |j| (i, j))) {
        let pair = [all[i], all[j]];
        let [of_2001, current] = [Of2001, Current].map(|e| shape(e, Form::Pair, &pair));
        assert_eq!(of_2001, current, "{pair:?}");
        assert_eq!(current == (ACCEPTED, 22), [(0, 1), (2, 4)].contains(&(i, j)), "{pair:?}");
        assert_eq!(shape(Of2001, Form::Single, &pair), (SHAPE, 0));
        assert_eq!(shape(Of2001, Form::Compound, &pair), (SHAPE, 0));
    }
}

/// Past the number nothing matters, and SHAPE comes before FIELD, FIELD before ROOM.
#[test]
fn writer_order() {
    let unlawful = [
        Structure::OldAntigens { sixteen: 10_000_000_000_000_000, two: 0 },
        Structure::OldAntigens { sixteen: 1_000_000_000_000_000_000, two: 0 },
        Structure::OldAntigens { sixteen: u64::MAX, two: 99 },
        Structure::OldAntigens { sixteen: 0, two: 100 },
        Structure::OldAntigens { sixteen: 9_999_999_999_999_999, two: 255 },
    ];
    for bad in unlawful {
        let single = message(Form::Single, &[bad]);
        let mut little = [b'#'; 20];
        assert_eq!(write(Of2001, &single, &mut little), (FIELD, 0), "{bad:?}");
        assert_eq!(write(Current, &single, &mut little), (SHAPE, 0), "{bad:?}");
        assert_eq!(little, [b'#'; 20]);
        let past = Message { number: 1, ..message(Form::Single, &[common()[1], bad]) };
        assert_eq!(write(Current, &past, &mut little), (ACCEPTED, 6));
        assert_eq!(write(Of2001, &past, &mut little), (ACCEPTED, 6));
    }
    let single = message(Form::Single, &[ANTIGENS]);
    for room in 0..21 {
        let mut buffer = vec![b'#'; room];
        assert_eq!(write(Of2001, &single, &mut buffer), (ROOM, 21));
        assert!(buffer.iter().all(|&byte| byte == b'#'));
    }
    assert_eq!(write(Of2001, &message(Form::Single, &[Structure::Empty]), &mut []), (FIELD, 0));
    let spoilt = Message { bbb: 1, ..single };
    assert_eq!(write(Of2001, &spoilt, &mut [0; 21]), (SHAPE, 0));
    assert_eq!(write(Of2001, &Message::EMPTY, &mut [0; 21]), (SHAPE, 0));
}
