//! The research extract.

use second::bench::JUDGED;
use second::extract::{each_extract, extract, LONGEST};
use second::*;

/// The line of an accepted scan, without LF.
fn line(scan: &str) -> String {
    let mut buffer = [b'.'; LONGEST];
    let (number, length) = extract(scan.as_bytes(), &mut buffer);
    assert_eq!(number, ACCEPTED, "{scan}");
    let line = String::from_utf8(buffer[..length].to_vec()).unwrap();
    line.strip_suffix('\n').expect("an end").to_string()
}

/// What is written for a whole input.
fn written(input: &[u8]) -> String {
    let mut output = Vec::new();
    each_extract(input, &mut output).unwrap();
    String::from_utf8(output).unwrap()
}

/// A label of each kind, what the line has of it, and labels that differ from it in one value each.
const KINDS: [(&str, &str, &[&str]); 13] = [
    (
        "=W00002112345600",
        "001 W000021",
        &["=A00002112345600", "=W90002112345600", "=W00012112345600", "=W00002012345600"],
    ),
    ("=%5100", "002 5100", &["=%6100", "=%5a00", "=%5110"]),
    (
        "=<E0178VB0",
        "003 E0178VB0",
        &[
            "=<T0178VB0",
            "=<EA178VB0",
            "=<E0078VB0",
            "=<E0188VB0",
            "=<E017ZVB0",
            "=<E0178vB0",
            "=<E0178VC0",
            "=<E0178VBb",
        ],
    ),
    ("=>020065", "004 020065", &["=>920065", "=>030065", "=>021065", "=>020165", "=>020066"]),
    (
        "&>0200651330",
        "005 0200651330",
        &["&>9200651330", "&>0200661330", "&>0200650330", "&>0200651331"],
    ),
    ("=*020366", "006 020366", &["=*024366", "=*020365"]),
    (
        "&*0203662359",
        "007 0203662359",
        &["&*0243662359", "&*0203652359", "&*0203660059", "&*0203662300"],
    ),
    ("=}900001", "008 900001", &["=}800001", "=}900002"]),
    (
        "&}8993650000",
        "009 8993650000",
        &["&}9993650000", "&}8990010000", "&}8993652000", "&}8993650050"],
    ),
    ("&(N0008", "010 N0008", &["&(00008", "&(NN008", "&(N0808", "&(N0018", "&(N000A"]),
    (
        "=\\000000000000000000",
        "012 000000000000000000",
        &["=\\900000000000000000", "=\\000000000000000001", "=\\000000000100000000"],
    ),
    ("&)00aZ901xyQ", "018 00aZ901xyQ", &["&)10aZ901xyQ", "&)00AZ901xyQ", "&)00aZ901xyq"]),
    (
        "=(1002202402282030",
        "031 1002202402282030",
        &[
            "=(2002202402282030",
            "=(1005202402282030",
            "=(1002202502282030",
            "=(1002202403282030",
            "=(1002202402272030",
            "=(1002202402282130",
            "=(1002202402282031",
        ],
    ),
];

/// Around the structure at an index of a compound are others than 001.
fn within(structure: &str, index: usize, number: usize) -> String {
    let [before, after] = [index, number - 1 - index].map(|count| "=%5100".repeat(count));
    format!("=+{number:02}000{before}{structure}{after}")
}

#[test]
fn the_example() {
    assert_eq!(line("=W00002112345600=%5100"), "P000 001 W000021 002 5100");
    assert_eq!(written(b"=W00002112345600=%5100\n"), "P000 001 W000021 002 5100\n");
}

#[test]
fn each_kind_and_form() {
    for (label, shown, _) in KINDS {
        assert_eq!(line(label), format!("S000 {shown}"));
        assert_eq!(line(&format!("=+01007{label}")), format!("C007 {shown}"));
    }
    assert_eq!(line("=<E0178VBb&>0203661330"), "P000 003 E0178VBb 005 0203661330");
    let [labels, shown] = [KINDS.map(|kind| kind.0), KINDS.map(|kind| kind.1)];
    assert_eq!(line(&format!("=+13999{}", labels.concat())), format!("C999 {}", shown.join(" ")));
}

/// The longest line belongs to the longest message.
#[test]
fn the_longest() {
    let antigens = "=\\979999999999924799";
    let shown = " 012 979999999999924799".repeat(16);
    let line = line(&format!("=+16000{}", antigens.repeat(16)));
    assert_eq!((line.len() + 1, line), (LONGEST, format!("C000{shown}")));
}

/// Sequence numbers and flags, those with the check too.
#[test]
fn donors_are_not_told() {
    let donors = ["12345600", "12345659", "12345670", "00000000", "99999912", "12345700"];
    let donations = donors.map(|donor| format!("=W000021{donor}"));
    for donation in &donations {
        assert_eq!(line(donation), "S000 001 W000021");
        assert_eq!(line(&format!("{donation}=%6410")), "P000 001 W000021 002 6410");
        for (number, index) in (1..=16).flat_map(|number| (0..number).map(move |at| (number, at))) {
            let other = line(&within(&donations[0], index, number));
            assert_eq!(line(&within(donation, index, number)), other);
        }
    }
    // Every lawful flag of a number.
    let lawful = (0..100).map(|ff| format!("=W000021123456{ff:02}")).filter(|label| {
        let mut buffer = [0; LONGEST];
        extract(label.as_bytes(), &mut buffer).0 == ACCEPTED
    });
    let lines: Vec<String> = lawful.map(|label| line(&label)).collect();
    assert_eq!(lines, vec!["S000 001 W000021"; 61]);
}

#[test]
fn one_value_elsewhere() {
    for (label, _, others) in KINDS {
        for other in others {
            assert_ne!(line(label), line(other));
            for (index, number) in [(0, 1), (0, 2), (1, 2), (0, 16), (7, 16), (15, 16)] {
                let lines = [label, other].map(|one| line(&within(one, index, number)));
                assert_ne!(lines[0], lines[1]);
            }
        }
    }
    assert_ne!(line("=W00002112345600=%5100"), line("=W00002112345600=%5110"));
    assert_ne!(line("=<E0178VB0&>0203661330"), line("=<E0178VB0&>0203661331"));
}

#[test]
fn other_kinds_of_one_content() {
    for alike in
        [["=>020065", "=*020065", "=}020065"], ["&>0200651330", "&*0200651330", "&}0200651330"]]
    {
        let lines = alike.map(line);
        assert!(lines[0] != lines[1] && lines[1] != lines[2] && lines[2] != lines[0]);
    }
}

#[test]
fn form_bbb_order_and_number() {
    for (label, _, _) in KINDS {
        assert_ne!(line(label), line(&format!("=+01000{label}")));
        assert_ne!(line(&format!("=+01000{label}")), line(&format!("=+02000{label}=%5100")));
        assert_ne!(line(&format!("=+02000=%6410{label}")), line(&format!("=+02000{label}=%6410")));
    }
    for pair in ["=W00002112345600=%5100", "=<E0178VBb&>0203661330"] {
        assert_ne!(line(pair), line(&format!("=+02000{pair}")));
    }
    let all: std::collections::HashSet<String> =
        (0..1000).map(|bbb| line(&format!("=+01{bbb:03}=%5100"))).collect();
    assert_eq!(all.len(), 1000);
    let all: std::collections::HashSet<String> =
        (1..=16).map(|number| line(&within("=%5100", 0, number))).collect();
    assert_eq!(all.len(), 16);
}

/// In every room: what it needs, or the line and the bytes past it as they were.
#[test]
fn rooms() {
    let singles = KINDS.map(|kind| kind.0);
    let compound = format!("=+13999{}", singles.concat());
    for scan in singles.iter().copied().chain(["=W00002112345670=%5100", &compound]) {
        let line = line(scan) + "\n";
        for room in (0..=line.len() + 40).chain([512]) {
            let mut buffer = vec![0xa5; room];
            let told = extract(scan.as_bytes(), &mut buffer);
            if room < line.len() {
                assert_eq!(told, (ROOM, line.len()));
                assert_eq!(buffer, vec![0xa5; room]);
            } else {
                assert_eq!(told, (ACCEPTED, line.len()));
                let past = vec![0xa5; room - line.len()];
                assert_eq!(buffer, [line.as_bytes(), &past].concat());
            }
        }
    }
}

/// The reader's answer, whatever the room, and no byte changes.
#[test]
fn refusals_come_first() {
    let refused = [
        ("=%510", SHORT, 5),
        ("=O", IDENTIFIER, 1),
        ("=+02000=%5100=+", NESTED, 14),
        ("=%51-0", CHARACTER, 4),
        ("=%6201", VALUE, 5),
        ("=%5100=", TRAILING, 6),
        ("=W00002112345671", CHECK, 15),
        ("=>021366", DAY, 7),
        ("&>0213652400", TIME, 9),
        ("=+02000=W00002112345600=W", REPEAT, 24),
        // Of the 2001 edition.
        ("={880000000087000099C", IDENTIFIER, 1),
    ];
    for (scan, number, place) in refused {
        for room in [0, 1, 20, LONGEST] {
            let mut buffer = vec![0xa5; room];
            assert_eq!(extract(scan.as_bytes(), &mut buffer), (number, place), "{scan}");
            assert_eq!(buffer, vec![0xa5; room]);
        }
    }
}

/// Nothing for a refused line; a last line without LF counts.
#[test]
fn whole_inputs() {
    assert_eq!(written(b""), "");
    assert_eq!(written(b"\n"), "");
    assert_eq!(written(b"=%6201\n&>0213661330\n=+02000=%5100\n\n"), "");
    let two = "S000 002 5100\nC007 010 N0008\n";
    assert_eq!(written(b"=%5100\n=%51\n=+01007&(N0008\n"), two);
    assert_eq!(written(b"\n=%5100\n\n=+01007&(N0008"), two);
    assert_eq!(written(b"=%5100\r\n=%5100 \n =%5100\n"), "");
}

/// Of a line over 512 bytes the first are judged: none of them can be accepted, and the next line is.
#[test]
fn long_lines() {
    for length in [JUDGED - 1, JUDGED, JUDGED + 1, 2 * JUDGED, 140_000] {
        let mut long = b"=%5100".to_vec();
        long.resize(length, b'0');
        assert_eq!(written(&[&long[..], b"\n=%6410\n"].concat()), "S000 002 6410\n");
        // Where the skipped bytes would be a message, they are none.
        long.splice(length - 6.., *b"=%5100");
        assert_eq!(written(&[&long[..], b"\n=%6410"].concat()), "S000 002 6410\n");
        let mut scan = vec![b'='; JUDGED];
        scan.extend(b"=%5100\n=%6410\n");
        assert_eq!(written(&scan), "S000 002 6410\n");
    }
}
