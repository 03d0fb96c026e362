//! Records for the hospital host: each structure is a field with the number of its kind as tag, the
//! length of its data in two bytes, the high one first, and its content as data. Before those of a
//! compound is a field that has the tag 23, and aa and bbb as data.
//!
//! Number and place of a record come from the automaton of all records, as those of a scan do from
//! that of all labels; its values come from the label with the same contents.

use crate::grammar::{identifier, COMPOUND};
use crate::message::{self, Edition, Message};
use crate::{fill, languages, Messages, Reading};
use crate::{ACCEPTED, LENGTH, REPEAT, TAG, TRAILING};

/// The longest record is that of sixteen 012.
pub const LONGEST: usize = HEAD + 16 * (BEFORE + 18);
/// Bytes before the data of a field.
const BEFORE: usize = 3;
/// Bytes of a compound's first field.
const HEAD: usize = BEFORE + 5;
const DONATION: u8 = 1;
const GROUPS: u8 = 2;

fn field(tag: u8, data: &[u8]) -> Vec<u8> {
    let [high, low] = (data.len() as u16).to_be_bytes();
    [&[tag, high, low], data].concat()
}

/// Number and place, which is the record's length if accepted and what it needs if room is short.
/// The buffer changes on success only, and there past no byte of the record.
pub fn export(message: &Message, buffer: &mut [u8]) -> (u8, usize) {
    let framed = |kind, text: Vec<u8>| field(kind, &text[identifier(kind).len()..]);
    fill(Edition::Current, message, buffer, framed)
}

/// The message of a record; its structures are told to stand where its label has them.
pub fn import(record: &[u8]) -> Reading {
    let (number, place) = Messages::of_host().judge(record, refusal);
    let message = if number == ACCEPTED { values(record) } else { Message::EMPTY };
    Reading { number, place, message }
}

/// Number for a record whose fatal byte is at `place`.
fn refusal(messages: &Messages, record: &[u8], place: usize) -> u8 {
    let lawful = &messages.lawful;
    let before = &record[..place];
    if lawful.accepts(before) {
        return TRAILING;
    }
    // This tag is no byte of a length or of data: where it may follow, a tag is due.
    if lawful.may_follow(before, GROUPS) {
        return match record[place] {
            // Only one before it keeps either from following.
            DONATION => REPEAT,
            COMPOUND => languages().rules.nested,
            _ => TAG,
        };
    }
    // Data begins with no byte below the digits, and goes on with none.
    if lawful.followers(before).iter().any(|&byte| byte < b'0') {
        return LENGTH;
    }
    if languages().rules.rebuilt {
        return crate::judge(Edition::Current, &label(&record[..=place])).0;
    }
    messages.in_content(&record[..=place])
}

/// Tags and data, if tags and lengths are lawful; the last data as far as it goes.
fn fields(record: &[u8]) -> Vec<(u8, &[u8])> {
    let mut all = Vec::new();
    let mut rest = record;
    // No data is longer than the low byte tells.
    while let [tag, _, low, behind @ ..] = rest {
        let (data, more) = behind.split_at(behind.len().min((*low).into()));
        all.push((*tag, data));
        rest = more;
    }
    all
}

/// The label with the same contents.
fn label(record: &[u8]) -> Vec<u8> {
    let texts = fields(record).into_iter().map(|(tag, data)| [identifier(tag).as_bytes(), data]);
    texts.flatten().flatten().copied().collect()
}

/// The message of an accepted record.
fn values(record: &[u8]) -> Message {
    let rules = &languages().rules;
    let mut message = message::values(&label(record), rules);
    if rules.in_record {
        let mut place = if record[0] == COMPOUND { HEAD } else { 0 };
        for entry in &mut message.entries[..message.number] {
            entry.length = entry.length + BEFORE - identifier(entry.structure.kind()).len();
            entry.place = place;
            place += entry.length;
        }
    }
    message
}
