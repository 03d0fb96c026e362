//! The monthly tally.

use second::bench::{each_line, label, JUDGED};
use second::tally::{tally, MOST};

const FIVE: &str = "=W00002112345600=%5100\n=%6201\n&>0213661330\n=+02000=%5100\n\n";

/// Labels of each form, and refusals.
const MIXED: &str =
    "=+03000=%5100=%5100=%6410\n=O\n=+02000=+\n&(No009\n=%5100=\n=W00002112345671\n\
    &>0213652400\n=+02000=W00002112345600=W\n=+02010=W00002112345600=<E0178VBb\n=>020366\n\
    =<E0178VBb&>0203661330\n=*900365\n&*1003651959\n=}400366\n&}8990012030\n&(N0008\n\
    =\\979999999999924799\n&)00aZ901xyQ\n";

/// The 31 rows as they are printed.
fn rows(input: &[u8], limit: u64) -> Vec<(String, u64)> {
    let mut printed = Vec::new();
    tally(input, &mut printed, limit).unwrap();
    let printed = String::from_utf8(printed).unwrap();
    assert!(printed.ends_with('\n'));
    let row = |line: &str| {
        let (name, figure) = line.split_once(' ').unwrap();
        (name.to_string(), figure.parse().unwrap())
    };
    printed.lines().map(row).collect()
}

/// The rows that are not 0.
fn told(input: &str, limit: u64) -> String {
    let all = rows(input.as_bytes(), limit).into_iter().filter(|&(_, figure)| figure != 0);
    all.map(|(name, figure)| format!("{name} {figure}")).collect::<Vec<_>>().join(", ")
}

#[test]
fn names_in_their_order() {
    let names: Vec<_> = rows(b"", MOST).into_iter().map(|(name, _)| name).collect();
    let wanted = "lines accepted refused single pair compound structures-001 structures-002 \
        structures-003 structures-004 structures-005 structures-006 structures-007 structures-008 \
        structures-009 structures-010 structures-012 structures-018 structures-031 refused-SHORT \
        refused-IDENTIFIER refused-NESTED refused-CHARACTER refused-VALUE refused-TRAILING \
        refused-CHECK refused-DAY refused-TIME refused-REPEAT stopped failed";
    assert_eq!(names, wanted.split(' ').collect::<Vec<_>>());
}

#[test]
fn five_lines_and_others() {
    let five = "pair 1, structures-001 1, structures-002 1";
    let refused = "refused-SHORT 2, refused-VALUE 1, refused-DAY 1";
    let wanted = format!("lines 5, accepted 1, refused 4, {five}, {refused}");
    assert_eq!(told(FIVE, MOST), wanted);
    let six = format!("{FIVE}=(2001202501012359");
    let wanted =
        format!("lines 6, accepted 2, refused 4, single 1, {five}, structures-031 1, {refused}");
    assert_eq!(told(&six, MOST), wanted);
    assert_eq!(told("", MOST), "");
    assert_eq!(told("\n", MOST), "lines 1, refused 1, refused-SHORT 1");
    let two = "lines 2, accepted 2, single 2, structures-002 2";
    assert_eq!(told("=%5100\n=%5100", MOST), two);
    let whole = "=+03000=%5100=%5100=%6410";
    assert_eq!(told(whole, MOST), "lines 1, accepted 1, compound 1, structures-002 3");
    assert_eq!(told(&whole[..24], MOST), "lines 1, refused 1, refused-SHORT 1");
}

/// Each kind, form and refusal is counted in its own row.
#[test]
fn every_row() {
    let all = rows(format!("{FIVE}{MIXED}=(1001202501012359").as_bytes(), MOST);
    let none = |name: &str| name == "stopped" || name == "failed";
    assert!(all.iter().all(|(name, figure)| none(name) == (*figure == 0)), "{all:?}");
    assert_eq!(all[0].1, 24);
}

/// Of a line over 512 bytes the first 512 are judged, and it is one line.
#[test]
fn long_lines() {
    for size in [511, 512, 513, 70_000] {
        let long = format!("=%5100{}\n=%5100\n", "=".repeat(size - 6));
        let wanted =
            "lines 2, accepted 1, refused 1, single 1, structures-002 1, refused-TRAILING 1";
        assert_eq!(told(&long, MOST), wanted);
    }
}

/// Cut at any line end, the parts' tallies add up to that of the whole.
#[test]
fn cut_and_added() {
    let whole = format!("{FIVE}{MIXED}=%5100");
    let all = rows(whole.as_bytes(), MOST);
    for (end, _) in whole.match_indices('\n') {
        let (left, right) = whole.as_bytes().split_at(end + 1);
        let both = rows(left, MOST).into_iter().zip(rows(right, MOST));
        let sum: Vec<_> = both.map(|((name, a), (_, b))| (name, a + b)).collect();
        assert_eq!(sum, all);
    }
}

/// Accepted and refused make all the lines, and each is what the line by itself is answered.
#[test]
fn all_the_lines() {
    let whole = format!("{FIVE}{MIXED}");
    let all = rows(whole.as_bytes(), MOST);
    let sum = |part: &[(String, u64)]| part.iter().map(|row| row.1).sum::<u64>();
    let (forms, structures, refusals) = (&all[3..6], &all[6..19], &all[19..29]);
    assert_eq!(all[1].1 + all[2].1, all[0].1);
    assert_eq!((sum(forms), sum(refusals)), (all[1].1, all[2].1));
    let mut printed = Vec::new();
    each_line(whole.as_bytes(), &mut printed, JUDGED, label).unwrap();
    let printed = String::from_utf8(printed).unwrap();
    let answers: Vec<Vec<u64>> = printed
        .lines()
        .map(|line| line.split(' ').map(|word| word.parse().unwrap()).collect())
        .collect();
    let accepted: Vec<_> = answers.iter().filter(|answer| answer[1] == 0).collect();
    assert_eq!(accepted.len() as u64, sum(forms));
    assert_eq!(accepted.iter().map(|answer| answer[2]).sum::<u64>(), sum(structures));
    for (number, row) in [1, 2, 3, 4, 5, 6, 10, 11, 12, 13].into_iter().zip(refusals) {
        let same = answers.iter().filter(|answer| answer[1] == number).count() as u64;
        assert_eq!(same, row.1, "{}", row.0);
    }
}

/// Stopped is where one more line is there, though it has no byte but LF, or no LF.
#[test]
fn stops_at_the_limit() {
    let three = "lines 3, accepted 2, refused 1, single 2, structures-002 2, refused-SHORT 1";
    for input in ["=%5100\n=\n=%5100\n", "=%5100\n=\n=%5100"] {
        assert_eq!(told(input, 3), three);
    }
    for more in ["\n", "=", "=%6410\n=O\n=O\n"] {
        let input = format!("=%5100\n=\n=%5100\n{more}");
        assert_eq!(told(&input, 3), format!("{three}, stopped 1"));
    }
    assert_eq!(told("", 0), "");
    assert_eq!(told("\n", 0), "stopped 1");
}
