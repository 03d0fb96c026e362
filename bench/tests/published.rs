//! The tables of published labels, check characters, blood group codes and days of the year.

use second::{bench, groups, month_and_day, ordinal};

fn rows(table: &'static str) -> impl Iterator<Item = Vec<&'static str>> {
    table.lines().filter(|line| !line.starts_with('#')).map(|line| line.split('\t').collect())
}

#[test]
fn labels() {
    let table = include_str!("../../tests/published/labels.tsv");
    assert!(rows(table).count() > 150);
    for row in rows(table) {
        assert_eq!(bench::label(row[2].as_bytes()).to_string(), row[4], "{row:?}");
    }
}

#[test]
fn checks() {
    let table = include_str!("../../tests/published/checks.tsv");
    assert_eq!(rows(table).count(), 16);
    for row in rows(table) {
        let own = bench::check(row[2].as_bytes());
        assert_eq!(own, row[4], "{row:?}");
        assert!(own == row[3] || row[1] == "1.8");
        let entry = format!("{}{own}", row[2]);
        assert!(own == "none" || bench::keyboard(entry.as_bytes()).to_string() == "0 14");
    }
}

#[test]
fn codes() {
    let table = include_str!("../../tests/published/groups.tsv");
    assert_eq!(rows(table).count(), 40);
    for row in rows(table) {
        let ours: Option<usize> = row[3].parse().ok();
        assert_eq!(ours.is_none(), row[3] == "-");
        for (column, code) in row[4..].iter().enumerate().filter(|(_, &code)| code != ".") {
            let gg: [u8; 2] = code.as_bytes().try_into().unwrap();
            assert_eq!(groups::interpretation(gg), ours.map(|ours| (ours, column)), "{row:?}");
            assert!(ours.is_none_or(|ours| groups::code(ours, column) == Some(gg)));
        }
    }
}

#[test]
fn ordinals() {
    let table = include_str!("../../tests/published/ordinals.tsv");
    assert_eq!(rows(table).count(), 366);
    for row in rows(table) {
        let [month, day] = [row[0], row[1]].map(|number| number.parse().unwrap());
        for (year, printed) in [(2025, row[2]), (2024, row[3]), (1900, row[2]), (2000, row[3])] {
            let printed: Option<u16> = printed.parse().ok();
            assert_eq!(ordinal(year, month, day), printed, "{year} {row:?}");
            let back = printed.and_then(|number| month_and_day(year, number));
            assert_eq!(back, printed.map(|_| (month, day)), "{year} {row:?}");
        }
    }
}
