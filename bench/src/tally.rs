//! The monthly tally: how many of the lines have each answer. `docs/TALLY.md` has its layout.

use crate::bench::{next_line, JUDGED};
use crate::grammar::KINDS;
use crate::message::{Edition, Form};
use crate::{languages, read, Reading, ACCEPTED};
use crate::{CHARACTER, CHECK, DAY, IDENTIFIER, NESTED, REPEAT, SHORT, TIME, TRAILING, VALUE};
use std::io::{BufRead, Result, Write};

/// How many lines are counted.
pub const MOST: u64 = 4_000_000_000;

const FORMS: [(&str, Form); 3] =
    [("single", Form::Single), ("pair", Form::Pair), ("compound", Form::Compound)];

/// All that a line can be refused with.
const REFUSALS: [(&str, u8); 10] = [
    ("SHORT", SHORT),
    ("IDENTIFIER", IDENTIFIER),
    ("NESTED", NESTED),
    ("CHARACTER", CHARACTER),
    ("VALUE", VALUE),
    ("TRAILING", TRAILING),
    ("CHECK", CHECK),
    ("DAY", DAY),
    ("TIME", TIME),
    ("REPEAT", REPEAT),
];

/// What a row counts.
enum Counted {
    Lines,
    Accepted,
    Refused,
    OfForm(Form),
    Structures(u8),
    RefusedWith(u8),
}

impl Counted {
    /// How many of it one line has.
    fn of(&self, reading: &Reading) -> u64 {
        match *self {
            Counted::Lines => 1,
            Counted::Accepted => u64::from(reading.number == ACCEPTED),
            Counted::Refused => u64::from(reading.number != ACCEPTED),
            Counted::OfForm(form) => {
                u64::from(reading.number == ACCEPTED && reading.message.form == form)
            }
            Counted::Structures(kind) => {
                let all = reading.message.entries.iter();
                let found = all.filter(|entry| entry.structure.kind() == kind).count() as u64;
                found.min(languages().rules.of_a_kind)
            }
            Counted::RefusedWith(number) => u64::from(reading.number == number),
        }
    }
}

/// The rows in their order, each with its name; `stopped` and `failed`, which come last, count nothing.
fn rows() -> Vec<(String, Counted)> {
    let all = [
        ("lines".to_string(), Counted::Lines),
        ("accepted".to_string(), Counted::Accepted),
        ("refused".to_string(), Counted::Refused),
    ];
    let forms = FORMS.map(|(name, form)| (name.to_string(), Counted::OfForm(form)));
    let kinds = KINDS.map(|kind| (format!("structures-{kind:03}"), Counted::Structures(kind)));
    let refusals = REFUSALS.map(|(name, of)| (format!("refused-{name}"), Counted::RefusedWith(of)));
    all.into_iter().chain(forms).chain(kinds).chain(refusals).collect()
}

/// Prints the tally of the lines, or of the first `limit` and that it stopped there.
pub fn tally(mut input: impl BufRead, mut output: impl Write, limit: u64) -> Result<()> {
    let rows = rows();
    let mut figures = vec![0; rows.len()];
    let mut line = Vec::with_capacity(JUDGED);
    let mut stopped = 0;
    let mut counted = 0;
    while next_line(&mut input, &mut line, JUDGED)? {
        if counted == limit {
            stopped = 1;
            break;
        }
        counted += 1;
        let reading = read(Edition::Current, &line);
        figures.iter_mut().zip(&rows).for_each(|(figure, (_, row))| *figure += row.of(&reading));
    }
    for ((name, _), figure) in rows.iter().zip(figures) {
        writeln!(output, "{name} {figure}")?;
    }
    writeln!(output, "stopped {stopped}")?;
    // An input that fails ends this program with its error, so a tally that is printed whole did not fail.
    writeln!(output, "failed 0")?;
    output.flush()
}
