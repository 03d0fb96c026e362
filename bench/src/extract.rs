//! The research extract: a line for each accepted message, with neither sequence numbers nor flags.
//!
//! A line has the form's letter (`S`, `P` or `C`) and bbb in three digits. Then for each structure
//! come a blank, the number of its kind in three digits, a blank and its content as on the label; of an
//! 001 only the first character, pppp and yy. LF ends the line.

use crate::bench::{next_line, JUDGED};
use crate::message::{self, Edition, Form, Message, Structure};
use crate::{languages, read, ACCEPTED, ROOM};
use std::io::{BufRead, Result, Write};

/// The longest line is that of sixteen 012.
pub const LONGEST: usize = 5 + 16 * (5 + 18);
/// Bytes of an identifier.
const IDENTIFIER: usize = 2;

/// The values of a structure that the extract has.
fn content(structure: &Structure) -> Vec<u8> {
    match structure {
        Structure::Donation { first, facility, year, flag, .. } => {
            let flags = languages().rules.flags_shown.then(|| format!("{flag:02}"));
            let rest = format!("{facility:04}{year:02}{}", flags.unwrap_or_default());
            [&[*first], rest.as_bytes()].concat()
        }
        other => message::text(other).split_off(IDENTIFIER),
    }
}

fn line(message: &Message) -> Vec<u8> {
    let mut line = match message.form {
        Form::Single => vec![b'S'],
        Form::Pair => vec![b'P'],
        Form::Compound => vec![b'C'],
    };
    if languages().rules.bbb_shown {
        line.extend(format!("{:03}", message.bbb).bytes());
    }
    for entry in &message.entries[..message.number] {
        line.extend(format!(" {:03} ", entry.structure.kind()).bytes());
        line.extend(content(&entry.structure));
    }
    line.push(b'\n');
    line
}

/// Number and place, which is the line's length if accepted and what it needs if there is no room. The
/// buffer changes on success only, and there past no byte of the line.
pub fn extract(scan: &[u8], buffer: &mut [u8]) -> (u8, usize) {
    let reading = read(Edition::Current, scan);
    if reading.number != ACCEPTED {
        return (reading.number, reading.place);
    }
    let line = line(&reading.message);
    if buffer.len() < line.len() {
        return (ROOM, line.len());
    }
    let (room, past) = buffer.split_at_mut(line.len());
    room.copy_from_slice(&line);
    if languages().rules.past_cleared {
        past.fill(0);
    }
    (ACCEPTED, line.len())
}

/// Writes the extract's line of each line that is accepted.
pub fn each_extract(mut input: impl BufRead, mut output: impl Write) -> Result<()> {
    let mut scan = Vec::with_capacity(JUDGED);
    let mut buffer = [0; LONGEST];
    while next_line(&mut input, &mut scan, JUDGED)? {
        let (number, length) = extract(&scan, &mut buffer);
        if number == ACCEPTED {
            output.write_all(&buffer[..length])?;
        }
    }
    output.flush()
}
