//! `second` judges the lines of standard input as labels; `second keyboard` as keyboard entries;
//! `second check` prints the check character of each line's 13 bytes, or `none`; `second tally` prints
//! the tally of the lines, `second tally LIMIT` that of so many at the most; `second extract` writes the
//! research extract's line of each that is accepted; `second answers` prints what the C functions answer
//! to the scans that `lines hex` writes; `second asked` answers the records that `lines asked`, `lines
//! days`, `lines minutes`, `lines edition`, `lines extract`, `lines host` and `lines read` write,
//! and `second shelf` those of `lines shelf`. `second wrong leap`, `months`, `nested`, `place`,
//! `century`, `flags`, `parts`, `repeat`, `later`, `sixteen`, `headless`, `midnight`, `once`,
//! `free`, `highest`, `shown`, `bbb`, `past`, `label`, `lengths` or `host-places` goes by that one
//! rule wrong; what else it is told stands behind.

use second::bench::{answers, check, each_line, each_record, keyboard, label, JUDGED};
use second::extract::each_extract;
use second::tally::{tally, MOST};
use second::{asked, go_by, shelf, Rules};
use std::io::{stdin, stdout, BufReader, BufWriter};

fn main() -> std::io::Result<()> {
    let input = BufReader::with_capacity(1 << 16, stdin());
    let output = BufWriter::with_capacity(1 << 16, stdout());
    let words: Vec<String> = std::env::args().skip(1).collect();
    let mut words: Vec<&str> = words.iter().map(String::as_str).collect();
    if let ["wrong", rule, ..] = words[..] {
        go_by(Rules::wrong(rule).unwrap_or_else(|| usage()));
        words.drain(..2);
    }
    match words[..] {
        [] => each_line(input, output, JUDGED, label),
        ["keyboard"] => each_line(input, output, JUDGED, keyboard),
        ["check"] => each_line(input, output, JUDGED, check),
        ["tally"] => tally(input, output, MOST),
        ["tally", limit] => tally(input, output, limit.parse().unwrap_or_else(|_| usage())),
        ["extract"] => each_extract(input, output),
        ["answers"] => each_line(input, output, usize::MAX, answers),
        ["asked"] => each_record(input, output, asked::answer),
        ["shelf"] => {
            let mut list = Vec::new();
            each_record(input, output, |asked, output| shelf::answer(&mut list, asked, output))
        }
        _ => usage(),
    }
}

fn usage() -> ! {
    eprintln!(
        "use: second [wrong RULE] [keyboard | check | tally [LIMIT] | extract | answers | asked | shelf]"
    );
    eprintln!("RULE: leap|months|nested|place|century|flags|parts|repeat|headless|midnight|once");
    eprintln!("      free|highest|later|sixteen|shown|bbb|past|label|lengths|host-places");
    std::process::exit(2)
}
