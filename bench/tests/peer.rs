//! The peer on scans that are no lines: with LF within, or longer than what is judged of a line.

use second::message::Edition::Current;
use second::peer::{judge, Verdict};

const LABELS: [&str; 7] = [
    "=W00002112345670=%5100",
    "=<E0178VBb&>0203661330",
    "=<T1234001",
    "=*900365",
    "=(1002202402292030",
    "=+03031=(2004289902281010=A99992112345896&)00aZ901xyQ",
    "=+02000=\\979999999999924799&(N0008",
];

fn same(scan: &[u8]) {
    let reading = second::read(Current, scan);
    let (number, place, count) = (reading.number, reading.place, reading.message.number);
    assert_eq!(judge(scan), Verdict { number, place, count }, "{:?}", scan.escape_ascii());
}

#[test]
fn every_byte_at_every_place() {
    for label in LABELS.map(str::as_bytes) {
        for at in 0..=label.len() {
            same(&label[..at]);
            for byte in 0..=255 {
                same(&[&label[..at], &[byte]].concat());
                same(&[&label[..at], &[byte], label.get(at + 1..).unwrap_or(&[])].concat());
            }
        }
    }
}

#[test]
fn longer_than_a_line() {
    for label in LABELS.map(str::as_bytes) {
        for filling in [b"=", b"0", b"\n"] {
            same(&[label, &filling.repeat(100_000)].concat());
        }
    }
}
