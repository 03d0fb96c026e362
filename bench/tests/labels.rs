//! The labels that the scope paper lists, and the rules beside them.

use second::message::{Day, Donation, Edition, Entry, Form, Message, Structure, Time};
use second::*;

fn judge(scan: &[u8]) -> (u8, usize) {
    second::judge(Edition::Current, scan)
}

fn read(scan: &[u8]) -> Reading {
    second::read(Edition::Current, scan)
}

fn write(message: &Message, buffer: &mut [u8]) -> (u8, usize) {
    second::write(Edition::Current, message, buffer)
}

fn judged(scan: &str) -> (u8, usize) {
    judge(scan.as_bytes())
}

#[test]
fn labels_to_try() {
    let answers = [
        ("=W00002112345600", ACCEPTED, 16),
        ("=W00002112345600=", SHORT, 17),
        ("=W00002112345600=<", TRAILING, 17),
        ("=O00002112345600", IDENTIFIER, 1),
        ("=%6410", ACCEPTED, 6),
        ("=%51a", SHORT, 5),
        ("=<E0178VBb", ACCEPTED, 10),
        ("=<T1234001", ACCEPTED, 10),
        ("=<E0178V0a", VALUE, 9),
        ("=<E0178V10", VALUE, 8),
        ("&>0203661330", ACCEPTED, 12),
        ("&>1003660000", DAY, 7),
        ("=>900366", DAY, 7),
        ("=>000366", ACCEPTED, 8),
        ("=>021000", DAY, 7),
        ("&>0213652400", TIME, 9),
        ("&>0213651360", TIME, 10),
        ("&(No009", CHARACTER, 3),
        ("=+17000", VALUE, 3),
        ("=+02000=+", NESTED, 8),
        ("=+01000=%5100", ACCEPTED, 13),
        ("=+01000=%5100=", TRAILING, 13),
    ];
    for (scan, number, place) in answers {
        assert_eq!(judged(scan), (number, place), "{scan}");
    }
    let Structure::Groups { gg, r } = read(b"=%6410").message.entries[0].structure else {
        panic!()
    };
    assert_eq!((groups::interpretation(gg), r), (Some((3, 6)), b'1'));
}

#[test]
fn labels_beside_them() {
    let answers = [
        ("", SHORT, 0),
        ("+", IDENTIFIER, 0),
        ("&+", IDENTIFIER, 1),
        ("=+", SHORT, 2),
        ("=+00", VALUE, 3),
        ("=+2", VALUE, 2),
        ("=+a", CHARACTER, 2),
        ("=+0100a", CHARACTER, 6),
        ("=+02000=O", IDENTIFIER, 8),
        ("=+02000&+", IDENTIFIER, 8),
        ("=+02000+", IDENTIFIER, 7),
        ("=+02000=%5100=+", NESTED, 14),
        ("=+01000=W00002112345600=", TRAILING, 23),
        ("=+02000=W00002112345600=+", NESTED, 24),
        ("=W00002112345600&", TRAILING, 16),
        ("=W00002112345600=+", TRAILING, 17),
        ("=W00002112345600=%510A", VALUE, 21),
        ("=W00002112345600=%51!", CHARACTER, 20),
        ("=W00002112345600=%5100=", TRAILING, 22),
        ("=<E0178VBb&", SHORT, 11),
        ("=<E0178VBb&*", TRAILING, 11),
        ("=<E0178VBb=", TRAILING, 10),
        ("=<E0178VBb&>0203661330", ACCEPTED, 22),
        ("=<E0178VBb&>0213661330", DAY, 17),
        ("=<E0178VA1", VALUE, 9),
        ("=<E0178VAA", CHARACTER, 9),
        ("=<S0178V99", ACCEPTED, 10),
        ("=%620!", CHARACTER, 5),
        ("=>800366", ACCEPTED, 8),
        ("=>021400", DAY, 5),
        ("=>021370", DAY, 6),
        ("=>0x", CHARACTER, 3),
    ];
    for (scan, number, place) in answers {
        assert_eq!(judged(scan), (number, place), "{scan}");
    }
}

#[test]
fn flags_that_carry_the_check() {
    let answers = [
        ("=W00002112345659", ACCEPTED, 16),
        ("=W00002112345670", ACCEPTED, 16),
        ("=W00002112345671", CHECK, 15),
        ("=W00002112345679", CHECK, 15),
        ("=W00002112345660", CHECK, 14),
        ("=W00002112345697", CHECK, 14),
        ("=A99992112345663", ACCEPTED, 16),
        ("=A99992112345664", CHECK, 15),
        ("=A99992112345896", ACCEPTED, 16),
        ("=A99992112345897", CHECK, 15),
        ("=A9999211234588", CHECK, 14),
        ("=W0000211234567", SHORT, 15),
        ("=W0000211234568", CHECK, 14),
        ("=W0000211234568x", CHECK, 14),
        ("=W00002112345671=x", CHECK, 15),
        ("=W0000211234567x", CHARACTER, 15),
        ("=W000021123456x0", CHARACTER, 14),
        ("=W00002112345670=", SHORT, 17),
        ("=W00002112345670=x", TRAILING, 17),
        ("=W00002112345670&", TRAILING, 16),
        ("=W00002112345670=%5100", ACCEPTED, 22),
        ("=W00002112345671=%5100", CHECK, 15),
        ("=W00002112345697=%5100", CHECK, 14),
        ("=+01000=W00002112345670", ACCEPTED, 23),
        ("=+01000=W00002112345671", CHECK, 22),
        ("=+01000=W00002112345697", CHECK, 21),
        ("=+01000=W0000211234567x", CHARACTER, 22),
        ("=+02000=A99992112345896=W00002112345670", REPEAT, 24),
        ("=+02000=A99992112345896=W00002112345696", REPEAT, 24),
        ("=+02000=W00002112345671=A99992112345896", CHECK, 22),
        ("=+03000=%5100=W00002112345670&(N0008", ACCEPTED, 36),
        ("=+03000=%5100=W00002112345672&(N0008", CHECK, 28),
        ("=+02000=W00002112345670=+", NESTED, 24),
    ];
    for (scan, number, place) in answers {
        assert_eq!(judged(scan), (number, place), "{scan}");
    }
}

#[test]
fn one_donation_number_to_a_compound() {
    let answers = [
        ("=+02000=W00002112345600=W", REPEAT, 24),
        ("=+02000=W00002112345600=O", IDENTIFIER, 24),
        ("=+02000=W00002112345600=+", NESTED, 24),
        ("=+02000=W00002112345600=", SHORT, 24),
        ("=+01000=W00002112345600=W", TRAILING, 23),
        ("=+02000=W00002112345600=%5100", ACCEPTED, 29),
        ("=+02000=W00002112345600=W00002112345600", REPEAT, 24),
        ("=+02000=W00002112345600=W0000211234569x", REPEAT, 24),
        ("=+02000=W00002112345671=W00002112345600", CHECK, 22),
        ("=+02000=W00002112345600=0", IDENTIFIER, 24),
        ("=+02000=W00002112345600=w", IDENTIFIER, 24),
        ("=+02000=W00002112345600==", IDENTIFIER, 24),
        ("=+02000=W00002112345600&W", IDENTIFIER, 24),
        ("=+02000=W00002112345600&", SHORT, 24),
        ("=+02000=W00002112345600W", IDENTIFIER, 23),
        ("=+02000=%5100=W00002112345600", ACCEPTED, 29),
        ("=+02000=%5100=%5100", ACCEPTED, 19),
        ("=+03000=%5100=W00002112345600=", SHORT, 30),
        ("=+03000=%5100=W00002112345600=W", REPEAT, 30),
        ("=+03000=W00002112345600=%5100=W", REPEAT, 30),
        ("=+03000=W00002112345600=%5100=+", NESTED, 30),
        ("=+03000=W00002112345600=%5100=O", IDENTIFIER, 30),
        ("=+02000=W00002112345600=%5100=W", TRAILING, 29),
        ("=W00002112345600=W", TRAILING, 17),
        ("=W00002112345600=%5100=W", TRAILING, 22),
    ];
    for (scan, number, place) in answers {
        assert_eq!(judged(scan), (number, place), "{scan}");
    }
}

#[test]
fn flexible_dates_and_times() {
    let answers = [
        ("=(2001202512312359", ACCEPTED, 18),
        ("=(1005190001010000", ACCEPTED, 18),
        ("=(2001289912312359", ACCEPTED, 18),
        ("=(1002202402290900", ACCEPTED, 18),
        ("=(1002240002290900", ACCEPTED, 18),
        ("=(2001202515352359", DAY, 11),
        ("=(3001202512312359", VALUE, 2),
        ("=(0001202512312359", VALUE, 2),
        ("=(x001202512312359", CHARACTER, 2),
        ("=(2x01202512312359", CHARACTER, 3),
        ("=(2101202512312359", VALUE, 3),
        ("=(2010202512312359", VALUE, 4),
        ("=(2000202512312359", VALUE, 5),
        ("=(1006202501081927", VALUE, 5),
        ("=(1001002512312359", VALUE, 6),
        ("=(1001302512312359", VALUE, 6),
        ("=(1001182512312359", VALUE, 7),
        ("=(200129", VALUE, 7),
        ("=(2001202520312359", DAY, 10),
        ("=(2001202500312359", DAY, 11),
        ("=(2001202513312359", DAY, 11),
        ("=(20012025023", DAY, 12),
        ("=(2001202501402359", DAY, 12),
        ("=(2001202501002359", DAY, 13),
        ("=(2001202501322359", DAY, 13),
        ("=(2001202504312359", DAY, 13),
        ("=(1002202502290900", DAY, 13),
        ("=(1002190002290900", DAY, 13),
        ("=(1002210002290900", DAY, 13),
        ("=(1002202402300900", DAY, 12),
        ("=(20012025DC312359", CHARACTER, 10),
        ("=(2001202512313359", TIME, 14),
        ("=(2001202512312400", TIME, 15),
        ("=(2001202512312360", TIME, 16),
        ("=(200120251231235x", CHARACTER, 17),
        ("=(200120251231", SHORT, 14),
        ("=(", SHORT, 2),
        ("&(2001202512312359", TRAILING, 7),
        ("=(2001202512312359=", TRAILING, 18),
        ("=(2001202512312359&", TRAILING, 18),
        ("=W00002112345600=(", TRAILING, 17),
        ("=<E0178VBb=(2001202512312359", TRAILING, 10),
        ("=<E0178VBb&(", TRAILING, 11),
        ("=+01000=(2001202512312359", ACCEPTED, 25),
        ("=+02000=W00002112345600=(", SHORT, 25),
        ("=+02000=W00002112345600=(2001202512312359", ACCEPTED, 41),
        ("=+02000=(1002202402290900=(2001202515352359", DAY, 36),
        ("=+01000=(2001202512312359=", TRAILING, 25),
    ];
    for (scan, number, place) in answers {
        assert_eq!(judged(scan), (number, place), "{scan}");
    }
}

#[test]
fn parts_of_a_date() {
    let answers = [
        ("&>0213661330", DAY, 7),
        ("&>02136x1330", CHARACTER, 7),
        ("&>02136", SHORT, 7),
        ("=>x21366", CHARACTER, 2),
        ("=*0214", DAY, 5),
        ("=}02138", DAY, 6),
        ("=>021000", DAY, 7),
        ("&*0213653", TIME, 8),
        ("&}02136524", TIME, 9),
        ("&}02136523x", CHARACTER, 10),
        ("&}0213652360", TIME, 10),
        ("&}021365236x", TIME, 10),
        ("=(2001202512312359", ACCEPTED, 18),
        ("=(20012025x2312359", CHARACTER, 10),
        ("=(200120251231235x", CHARACTER, 17),
        ("=(20013", VALUE, 6),
        ("=<E0178VBb&>0213661330", DAY, 17),
        ("=<E0178VBb&>0213651360", TIME, 20),
        ("=+03000=%5100=*021366", DAY, 20),
        ("=+02000=%5100=(2001202512312400", TIME, 28),
        ("=+02000=(1002202502290900", DAY, 20),
        ("=+17000", VALUE, 3),
        ("=%6201", VALUE, 5),
    ];
    for (scan, number, place) in answers {
        assert_eq!(judged(scan), (number, place), "{scan}");
    }
}

/// Every digit at each place of a date and time: the number says which part it is in.
#[test]
fn parts_by_place() {
    for (label, day, time) in [
        ("=>020366", 5..8, 8..8),
        ("&*1003652359", 5..8, 8..12),
        ("=(1002202402292359", 10..14, 14..18),
    ] {
        let mut seen = std::collections::HashSet::new();
        for (at, byte) in (2..label.len()).flat_map(|at| (b'0'..=b'9').map(move |byte| (at, byte)))
        {
            let mut scan = label.as_bytes().to_vec();
            scan[at] = byte;
            let (number, place) = judge(&scan);
            let part = match place {
                _ if number == ACCEPTED => ACCEPTED,
                place if day.contains(&place) => DAY,
                place if time.contains(&place) => TIME,
                _ => VALUE,
            };
            assert_eq!(number, part, "{label} {at} {byte}");
            seen.insert(number);
        }
        assert_eq!(seen.contains(&TIME), !time.is_empty());
        assert!(seen.contains(&DAY));
    }
}

/// The days that an 031 takes are those that have a number, and that number gives them back.
#[test]
fn days_of_a_flexible_date() {
    for year in [1899, 1900, 1999, 2000, 2024, 2025, 2100, 2400, 2899, 2900] {
        let mut numbers = Vec::new();
        for (month, day) in (0..20).flat_map(|month| (0..40).map(move |day| (month, day))) {
            let scan = format!("=(1001{year}{month:02}{day:02}0000");
            let number = ordinal(year, month, day);
            assert_eq!(judged(&scan).0 == ACCEPTED, number.is_some(), "{scan}");
            assert_eq!(number.and_then(|n| month_and_day(year, n)), number.map(|_| (month, day)));
            numbers.extend(number);
        }
        // In order, each once: just the numbers with which a date of this year is lawful.
        let lawful = |day: &u16| {
            let day = Structure::Expiry(Day { year, day: *day });
            write(&message(Form::Single, 0, 1, &[day]), &mut [0; 8]).0 == ACCEPTED
        };
        assert_eq!(numbers, (0..=999).filter(lawful).collect::<Vec<_>>(), "{year}");
    }
}

/// Each byte after the = behind a donation number, at every index of every compound.
#[test]
fn second_donation_number() {
    for (count, at) in (1..=16).flat_map(|count| (0..count).map(move |at| (count, at))) {
        let before = "=%5100".repeat(at);
        let mut scan = format!("=+{count:02}000{before}=W00002112345670").into_bytes();
        let length = scan.len();
        scan.extend(b"=.");
        for byte in 0..=255 {
            scan[length + 1] = byte;
            let answer = match byte {
                _ if at + 1 == count => (TRAILING, length),
                b'%' | b'<' | b'>' | b'*' | b'}' | b'\\' | b'(' => (SHORT, length + 2),
                b'A'..=b'N' | b'P'..=b'Z' | b'1'..=b'9' => (REPEAT, length + 1),
                b'+' => (NESTED, length + 1),
                _ => (IDENTIFIER, length + 1),
            };
            assert_eq!(judge(&scan), answer, "{count} {at} {byte}");
        }
    }
}

#[test]
fn bench_listing() {
    let lines = "=W00002112345600=%5100\n=%6201\n&>0213661330\n=+02000=%5100\n\n";
    let mut printed = Vec::new();
    bench::each_line(lines.as_bytes(), &mut printed, bench::JUDGED, bench::label).unwrap();
    assert_eq!(String::from_utf8(printed).unwrap(), "1 0 2\n2 5 5\n3 11 7\n4 1 13\n5 1 0\n");
}

#[test]
fn bench_lines() {
    let long = "=".repeat(600);
    for (input, output) in [
        ("".to_string(), ""),
        ("\n".to_string(), "1 1 0\n"),
        ("=".to_string(), "1 1 1\n"),
        ("=\n&".to_string(), "1 1 1\n2 1 1\n"),
        (format!("{long}\n=%5100"), "1 2 1\n2 0 1\n"),
        ("=%5100\r\n".to_string(), "1 6 6\n"),
    ] {
        // A buffer of three bytes breaks every line in pieces.
        let pieces = std::io::BufReader::with_capacity(3, input.as_bytes());
        let mut printed = Vec::new();
        bench::each_line(pieces, &mut printed, bench::JUDGED, bench::label).unwrap();
        assert_eq!(String::from_utf8(printed).unwrap(), output);
    }
}

#[test]
fn only_512_bytes_are_judged() {
    let seen = std::cell::Cell::new(0);
    let input = [vec![b'x'; 513], b"\n".to_vec()].concat();
    bench::each_line(&input[..], Vec::new(), bench::JUDGED, |line| {
        seen.set(line.len());
        bench::label(line)
    })
    .unwrap();
    assert_eq!(seen.get(), 512);
}

/// All kinds in a row, each with the value it reads as.
fn all_kinds() -> Vec<(&'static str, Structure)> {
    let day = |year, day| Day { year, day };
    let time = |hour, minute| Time { hour, minute };
    vec![
        (
            "=W00002112345670",
            Structure::Donation { first: b'W', facility: 0, year: 21, sequence: 123456, flag: 70 },
        ),
        ("=%Mr00", Structure::Groups { gg: *b"Mr", r: b'0' }),
        ("=<E0178VBb", Structure::Product(*b"E0178VBb")),
        ("=>999365", Structure::Expiry(day(1999, 365))),
        ("&>0203661330", Structure::ExpiryTime(day(2020, 366), time(13, 30))),
        ("=*899001", Structure::Collection(day(2899, 1))),
        ("&*1002002359", Structure::CollectionTime(day(2100, 200), time(23, 59))),
        ("=}900059", Structure::Production(day(1900, 59))),
        ("&}4003660000", Structure::ProductionTime(day(2400, 366), time(0, 0))),
        ("&(N0008", Structure::Testing(*b"N0008")),
        ("=\\012345678901234567", Structure::Antigens(12345678901234567)),
        ("&)00aZ901xyQ", Structure::Lot(*b"00aZ901xyQ")),
        (
            "=(1003202402290905",
            Structure::Flexible { z: b'1', tt: 3, year: 2024, month: 2, day: 29, time: time(9, 5) },
        ),
    ]
}

fn compound_of_all() -> (String, Message) {
    let kinds = all_kinds();
    let text: String = kinds.iter().map(|(text, _)| *text).collect();
    (format!("=+13007{text}"), stood(Form::Compound, 7, &kinds))
}

/// What these read as, one right behind the other.
fn stood(form: Form, bbb: u16, kinds: &[(&str, Structure)]) -> Message {
    let mut message = Message { form, bbb, number: kinds.len(), ..Message::EMPTY };
    let mut place = if form == Form::Compound { 7 } else { 0 };
    for ((text, structure), entry) in kinds.iter().zip(&mut message.entries) {
        *entry = Entry { structure: *structure, place, length: text.len() };
        place += text.len();
    }
    message
}

#[test]
fn values_both_ways() {
    let mut cases = vec![compound_of_all()];
    for (text, value) in all_kinds() {
        cases.push((text.to_string(), stood(Form::Single, 0, &[(text, value)])));
    }
    for (text, message) in cases {
        assert_eq!(read(text.as_bytes()), Reading { number: 0, place: text.len(), message });
        let mut buffer = [b'#'; 400];
        assert_eq!(write(&message, &mut buffer), (ACCEPTED, text.len()));
        assert_eq!(&buffer[..text.len()], text.as_bytes());
        assert!(buffer[text.len()..].iter().all(|&byte| byte == b'#'));
    }
}

/// Compounds of any three kinds: read and written back, or refused by both.
#[test]
fn compounds_of_three() {
    let kinds = all_kinds();
    let mut repeated = 0;
    for i in 0..13 * 13 * 13 {
        let three = [i / 169, i / 13 % 13, i % 13].map(|kind| kinds[kind]);
        let text: String = three.iter().map(|(text, _)| *text).collect();
        let text = format!("=+03042{text}");
        let whole = stood(Form::Compound, 42, &three);
        let mut buffer = [b'#'; 80];
        let second = three.iter().enumerate().filter(|(_, kind)| kind.0 == kinds[0].0).nth(1);
        if let Some((index, _)) = second {
            repeated += 1;
            let place = 8 + three[..index].iter().map(|(text, _)| text.len()).sum::<usize>();
            let refused = Reading { number: REPEAT, place, message: Message::EMPTY };
            assert_eq!(read(text.as_bytes()), refused, "{text}");
            assert_eq!(write(&whole, &mut buffer), (SHAPE, 0), "{text}");
            assert_eq!(buffer, [b'#'; 80]);
            continue;
        }
        let accepted = Reading { number: ACCEPTED, place: text.len(), message: whole };
        assert_eq!(read(text.as_bytes()), accepted, "{text}");
        assert_eq!(write(&whole, &mut buffer), (ACCEPTED, text.len()), "{text}");
        assert_eq!(&buffer[..text.len()], text.as_bytes());
    }
    assert_eq!(repeated, 3 * 12 + 1);
}

/// From each place, for its length, a message has what its structure is written as; the other
/// entries have neither.
#[test]
fn where_each_structure_stood() {
    let written = |structure| {
        let mut buffer = [0; 20];
        let (number, length) = write(&message(Form::Single, 0, 1, &[structure]), &mut buffer);
        assert_eq!(number, ACCEPTED);
        buffer[..length].to_vec()
    };
    let scans = [
        "=W00002112345670=%5100".to_string(),
        "=<E0178VBb&>0203661330".to_string(),
        format!("=+16000{}", "=\\999999999999999999".repeat(16)),
        compound_of_all().0,
    ];
    for scan in scans {
        let Reading { number, message, .. } = read(scan.as_bytes());
        assert_eq!(number, ACCEPTED);
        let mut next = if message.form == Form::Compound { 7 } else { 0 };
        for Entry { structure, place, length } in &message.entries[..message.number] {
            assert_eq!(*place, next);
            assert_eq!(scan.as_bytes()[*place..place + length], written(*structure));
            next = place + length;
        }
        assert_eq!(next, scan.len());
        assert!(message.entries[message.number..].iter().all(|entry| *entry == Entry::EMPTY));
    }
    assert!(read(b"=%510").message.entries.iter().all(|entry| *entry == Entry::EMPTY));
}

/// Written alike wherever its structures are said to have stood; read again, they stand where they do.
#[test]
fn places_given_are_ignored() {
    let (text, message) = compound_of_all();
    for (place, length) in [(0, 0), (7, 16), (1, usize::MAX), (usize::MAX, 1)] {
        let mut given = message;
        given.entries.iter_mut().for_each(|entry| (entry.place, entry.length) = (place, length));
        let mut buffer = [b'#'; 400];
        assert_eq!(write(&given, &mut buffer), (ACCEPTED, text.len()));
        assert_eq!(&buffer[..text.len()], text.as_bytes());
        assert_eq!(read(&buffer[..text.len()]).message, message);
        given.entries[1].structure = Structure::Empty;
        assert_eq!(write(&given, &mut buffer), (FIELD, 1));
        given.form = Form::Pair;
        assert_eq!(write(&given, &mut buffer), (SHAPE, 0));
    }
}

#[test]
fn every_cut_is_short_or_whole() {
    let (text, _) = compound_of_all();
    for length in 0..text.len() {
        assert_eq!(judged(&text[..length]), (SHORT, length));
    }
}

#[test]
fn refused_reading_is_the_empty_message() {
    let reading = read(b"=%6201");
    assert_eq!(reading, Reading { number: VALUE, place: 5, message: Message::EMPTY });
    assert_eq!(write(&reading.message, &mut [0; 400]), (SHAPE, 0));
}

#[test]
fn longest_message() {
    let text = format!("=+16999{}", "=\\999999999999999999".repeat(16));
    assert_eq!(judged(&text), (ACCEPTED, 327));
    assert_eq!(judged(&(text + "=")), (TRAILING, 327));
}

fn message(form: Form, bbb: u16, number: usize, structures: &[Structure]) -> Message {
    let mut message = Message { form, bbb, number, ..Message::EMPTY };
    structures.iter().zip(&mut message.entries).for_each(|(&value, entry)| *entry = value.into());
    message
}

#[test]
fn writer_shape() {
    let kinds: Vec<Structure> = all_kinds().into_iter().map(|(_, value)| value).collect();
    let (w, g, p, x) = (kinds[0], kinds[1], kinds[2], kinds[4]);
    let shapeless = [
        message(Form::Single, 0, 0, &[w]),
        message(Form::Single, 0, 2, &[w, g]),
        message(Form::Single, 1, 1, &[w]),
        message(Form::Pair, 0, 1, &[w]),
        message(Form::Pair, 0, 3, &[w, g, g]),
        message(Form::Pair, 9, 2, &[w, g]),
        message(Form::Pair, 0, 2, &[g, w]),
        message(Form::Pair, 0, 2, &[w, x]),
        message(Form::Pair, 0, 2, &[p, kinds[3]]),
        message(Form::Pair, 0, 2, &[w, kinds[12]]),
        message(Form::Pair, 0, 2, &[kinds[12], g]),
        message(Form::Pair, 0, 2, &[Structure::Empty, w]),
        message(Form::Compound, 0, 0, &[]),
        message(Form::Compound, 0, 17, &kinds),
        message(Form::Compound, 1000, 1, &[w]),
    ];
    for shapeless in shapeless {
        assert_eq!(write(&shapeless, &mut [0; 400]), (SHAPE, 0), "{shapeless:?}");
    }
    for pair in [[w, g], [p, x]] {
        assert_eq!(write(&message(Form::Pair, 0, 2, &pair), &mut [0; 400]), (ACCEPTED, 22));
    }
}

#[test]
fn writer_shape_of_two_donation_numbers() {
    let (w, g, empty) = (all_kinds()[0].1, all_kinds()[1].1, Structure::Empty);
    // A flag that no reading gives: SHAPE is asked for before FIELD.
    let unlawful =
        Structure::Donation { first: b'W', facility: 0, year: 21, sequence: 123456, flag: 71 };
    let answers = [
        ([w, empty, w], 3, (SHAPE, 0)),
        ([w, empty, g], 3, (FIELD, 1)),
        ([empty, g, w], 3, (FIELD, 0)),
        ([empty, w, w], 3, (SHAPE, 0)),
        ([w, g, w], 3, (SHAPE, 0)),
        ([w, w, w], 3, (SHAPE, 0)),
        ([unlawful, g, w], 3, (SHAPE, 0)),
        ([unlawful, g, unlawful], 3, (SHAPE, 0)),
        ([g, unlawful, g], 3, (FIELD, 1)),
        ([g, g, w], 3, (ACCEPTED, 35)),
        // Past the number.
        ([w, g, w], 2, (ACCEPTED, 29)),
        ([w, w, w], 1, (ACCEPTED, 23)),
        ([w, empty, w], 2, (FIELD, 1)),
    ];
    for (structures, number, answer) in answers {
        let given = message(Form::Compound, 0, number, &structures);
        assert_eq!(write(&given, &mut [0; 40]), answer, "{given:?}");
    }
    for (first, second) in (1..16).flat_map(|second| (0..second).map(move |first| (first, second)))
    {
        let mut given = message(Form::Compound, 0, 16, &[g; 16]);
        given.entries[first] = w.into();
        assert_eq!(write(&given, &mut [0; 400]), (ACCEPTED, 7 + 15 * 6 + 16));
        given.entries[second] = w.into();
        for number in 1..=16 {
            given.number = number;
            let length = 7 + 6 * number + if first < number { 10 } else { 0 };
            let answer = if second < number { (SHAPE, 0) } else { (ACCEPTED, length) };
            assert_eq!(write(&given, &mut [0; 400]), answer, "{first} {second} {number}");
        }
    }
}

/// Each part of an 031 unlawful.
fn unlawful_moments() -> impl Iterator<Item = Structure> {
    let moments = [
        (b'0', 1, 2024, 2, 29, 23, 59),
        (1, 1, 2024, 2, 29, 23, 59),
        (b'1', 0, 2024, 2, 29, 23, 59),
        (b'1', 6, 2024, 2, 29, 23, 59),
        (b'1', 1, 1899, 2, 28, 23, 59),
        (b'1', 1, 2900, 2, 28, 23, 59),
        (b'1', 1, 2025, 2, 29, 23, 59),
        (b'1', 1, 2025, 0, 1, 23, 59),
        (b'1', 1, 2025, 13, 1, 23, 59),
        (b'1', 1, 2025, 1, 0, 23, 59),
        (b'1', 1, 2025, 4, 31, 23, 59),
        (b'1', 1, 2025, 4, 30, 24, 0),
        (b'1', 1, 2025, 4, 30, 23, 60),
    ];
    moments.into_iter().map(|(z, tt, year, month, day, hour, minute)| Structure::Flexible {
        z,
        tt,
        year,
        month,
        day,
        time: Time { hour, minute },
    })
}

#[test]
fn writer_field_and_room() {
    let good = Structure::Testing(*b"N0008");
    let unlawful = [
        Structure::Empty,
        Structure::Donation { first: b'O', facility: 0, year: 0, sequence: 0, flag: 0 },
        Structure::Donation { first: b'W', facility: 10000, year: 0, sequence: 0, flag: 0 },
        Structure::Donation { first: b'W', facility: 0, year: 100, sequence: 0, flag: 0 },
        Structure::Donation { first: b'W', facility: 0, year: 0, sequence: 1000000, flag: 0 },
        Structure::Donation { first: b'W', facility: 0, year: 0, sequence: 0, flag: 100 },
        Structure::Donation { first: b'W', facility: 0, year: 21, sequence: 123456, flag: 60 },
        Structure::Donation { first: b'W', facility: 0, year: 21, sequence: 123456, flag: 71 },
        Structure::Donation { first: b'A', facility: 9999, year: 21, sequence: 123458, flag: 97 },
        Structure::Groups { gg: *b"5=", r: b'0' },
        Structure::Product(*b"E0178V0a"),
        Structure::Expiry(Day { year: 1899, day: 1 }),
        Structure::Expiry(Day { year: 2900, day: 1 }),
        Structure::Collection(Day { year: 2021, day: 0 }),
        Structure::Production(Day { year: 2100, day: 366 }),
        Structure::ExpiryTime(Day { year: 2020, day: 1 }, Time { hour: 24, minute: 0 }),
        Structure::ExpiryTime(Day { year: 2020, day: 1 }, Time { hour: 23, minute: 60 }),
        Structure::Testing(*b"No009"),
        Structure::Antigens(1_000_000_000_000_000_000),
        Structure::Lot(*b"123456789 "),
    ];
    for bad in unlawful.into_iter().chain(unlawful_moments()) {
        let mut buffer = [b'#'; 64];
        let two_bad = message(Form::Compound, 0, 3, &[good, bad, Structure::Empty]);
        let written = write(&two_bad, &mut buffer);
        assert_eq!(written, (FIELD, 1), "{bad:?}");
        assert_eq!(buffer, [b'#'; 64]);
        // Entries past the number do not matter.
        assert_eq!(write(&message(Form::Single, 0, 1, &[good, bad]), &mut buffer), (ACCEPTED, 7));
    }
    let mut little = [b'#'; 6];
    assert_eq!(write(&message(Form::Single, 0, 1, &[good]), &mut little), (ROOM, 7));
    assert_eq!(little, [b'#'; 6]);
}

#[test]
fn check_characters() {
    let numbers = [
        ("W000021123456", b'A'),
        ("A999921123456", b'3'),
        ("A999912123456", b'K'),
        ("A999921123458", b'*'),
    ];
    for (number, check) in numbers {
        assert_eq!(check_character(number.as_bytes()), check);
    }
    for none in ["", "W00002112345", "W0000211234567", "O000021123456", "W0000211234A6"] {
        assert_eq!(check_character(none.as_bytes()), 0, "{none}");
    }
}

const WORTHS: &[u8; 37] = b"0123456789ABCDEFGHIJKLMNOPQRSTUVWXYZ*";

/// Many donation numbers, each with its check's worth by the paper's own running sum.
fn numbers_and_checks() -> impl Iterator<Item = (String, usize)> {
    (0..1_000_000u32).step_by(997).map(|sequence| {
        let first = char::from(b"ABCDEFGHIJKLMNPQRSTUVWXYZ123456789"[sequence as usize % 34]);
        let number = format!("{first}{:04}{:02}{sequence:06}", sequence / 101, sequence % 100);
        let sum = number.bytes().fold(0, |sum, byte| {
            let worth = WORTHS.iter().position(|&other| other == byte).unwrap();
            (sum + worth) * 2 % 37
        });
        (number, (38 - sum) % 37)
    })
}

/// The running sum against the automaton's weights.
#[test]
fn check_by_the_running_sum() {
    for (number, check) in numbers_and_checks() {
        assert_eq!(check_character(number.as_bytes()), WORTHS[check]);
    }
}

/// Every ff behind a number, in every form: read, refused at its digit, written back or not.
#[test]
fn flags_by_the_running_sum() {
    let forms = [("", ""), ("", "=%5100"), ("=+01000", ""), ("=+03007=%5100", "&(N0008")];
    let mut checks = std::collections::HashSet::new();
    for (number, check) in numbers_and_checks().step_by(5) {
        checks.insert(check);
        let own = 60 + check;
        for ((before, after), ff) in
            forms.into_iter().flat_map(|form| (0..100).map(move |ff| (form, ff)))
        {
            let scan = format!("{before}={number}{ff:02}{after}");
            let reading = read(scan.as_bytes());
            let mut buffer = [b'#'; 64];
            if ff < 60 || ff == own {
                assert_eq!((reading.number, reading.place), (ACCEPTED, scan.len()), "{scan}");
                assert_eq!(write(&reading.message, &mut buffer), (ACCEPTED, scan.len()));
                assert_eq!(&buffer[..scan.len()], scan.as_bytes());
                continue;
            }
            let place = before.len() + if ff / 10 == own / 10 { 15 } else { 14 };
            assert_eq!((reading.number, reading.place), (CHECK, place), "{scan}");
            // The same number with lawful flags, then with these.
            let mut message = read(format!("{before}={number}00{after}").as_bytes()).message;
            let index = usize::from(before.contains('%'));
            let Structure::Donation { flag, .. } = &mut message.entries[index].structure else {
                panic!()
            };
            *flag = ff as u8;
            assert_eq!(write(&message, &mut buffer), (FIELD, index), "{scan}");
            assert_eq!(buffer, [b'#'; 64]);
        }
    }
    assert_eq!(checks.len(), 37);
}

#[test]
fn keyboard_entries() {
    let answers = [
        ("W000021123456A", ACCEPTED, 14),
        ("W000021123456", SHORT, 13),
        ("", SHORT, 0),
        ("O000021123456A", CHARACTER, 0),
        ("0000021123456A", CHARACTER, 0),
        ("W0000A1123456A", CHARACTER, 5),
        ("W000021123456a", CHARACTER, 13),
        ("W000021123456B", CHECK, 13),
        ("W000021123456*", CHECK, 13),
        ("W000021123456BB", CHECK, 13),
        ("W000021123456A0", TRAILING, 14),
    ];
    for (entry, number, place) in answers {
        let (told, at, donation) = keyboard(entry.as_bytes());
        assert_eq!((told, at), (number, place), "{entry}");
        let whole = Donation { first: b'W', facility: 0, year: 21, sequence: 123456 };
        assert_eq!(donation, if number == ACCEPTED { whole } else { Donation::default() });
    }
}
