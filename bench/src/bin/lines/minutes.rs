//! Records that ask how many minutes are left: `second::asked` has their layout.

use super::asked::{days_in, near, ordinal, year, DAYS, HOURS, MINUTES, YEARS};
use super::{Chance, Out};
use second::asked::RECORD;
use std::io::{Result, Write};

/// Year, day of the year, hour, minute.
type Moment = [u64; 4];

const UNTIMED: u8 = 0;
const TIMED: u8 = 1;
const FIRST: Moment = [1900, 1, 0, 0];
const LAST: Moment = [2899, 365, 23, 59];
const LAWFUL: Moment = [2024, 366, 12, 30];

fn put(room: &mut [u8], [year, day, hour, minute]: Moment) {
    room[..2].copy_from_slice(&year.to_be_bytes()[6..]);
    room[2..4].copy_from_slice(&day.to_be_bytes()[6..]);
    room[4..6].copy_from_slice(&[hour as u8, minute as u8]);
}

fn left(now: Moment, expiry: Moment, timed: u8, out: &mut Out) -> Result<()> {
    let mut record = [0; RECORD];
    record[..2].copy_from_slice(&[b'M', timed]);
    put(&mut record[8..], now);
    put(&mut record[16..], expiry);
    out.to.write_all(&record)
}

/// Minutes left, none and passed, an expiry without a time, and each refusal of both moments.
pub fn few(out: &mut Out) -> Result<()> {
    left([2024, 59, 23, 59], [2024, 60, 0, 0], TIMED, out)?;
    left(LAWFUL, LAWFUL, TIMED, out)?;
    left(LAST, FIRST, TIMED, out)?;
    left(FIRST, LAST, TIMED, out)?;
    left([2025, 365, 23, 58], [2025, 365, 24, 60], UNTIMED, out)?;
    for wrong in [[1899, 0, 24, 0], [2100, 366, 24, 0], [2025, 365, 24, 0], [2025, 365, 23, 60]] {
        left(wrong, LAWFUL, TIMED, out)?;
        left(LAWFUL, wrong, TIMED, out)?;
    }
    left([2025, 366, 0, 0], [2900, 1, 0, 0], TIMED, out)
}

/// From the last minute of every day to the first of the next one, and beyond the last year.
fn boundaries(out: &mut Out) -> Result<()> {
    for year in 1900..2900 {
        let last = days_in(year);
        for day in 1..last {
            left([year, day, 23, 59], [year, day + 1, 0, 0], TIMED, out)?;
        }
        left([year, last, 23, 59], [year + 1, 1, 0, 0], TIMED, out)?;
    }
    Ok(())
}

/// The first minute of every year from the first of all and the last of all, and every minute of a
/// day from one within it.
fn far_and_near(out: &mut Out) -> Result<()> {
    for year in 1900..2900 {
        left(FIRST, [year, 1, 0, 0], TIMED, out)?;
        left(LAST, [year, 1, 0, 0], TIMED, out)?;
        left([year, 1, 0, 0], [year, days_in(year), 99, 99], UNTIMED, out)?;
    }
    for (hour, minute) in (0..24).flat_map(|hour| (0..60).map(move |minute| (hour, minute))) {
        left(LAWFUL, [2024, 366, hour, minute], TIMED, out)?;
    }
    Ok(())
}

/// Moments with lawful parts and others in every combination.
fn mixed() -> Vec<Moment> {
    let mut all = Vec::new();
    for year in [0, 1899, 1900, 2024, 2100, 2899, 2900, 65535] {
        for day in [0, 1, 365, 366, 367, 65535] {
            for hour in [0, 23, 24, 255] {
                all.extend([0, 59, 60, 255].map(|minute| [year, day, hour, minute]));
            }
        }
    }
    all
}

/// Refused moments of every sort as now, as an expiry with a time and without one, and as both.
fn refused(out: &mut Out) -> Result<()> {
    let all = mixed();
    for (at, &moment) in all.iter().enumerate() {
        left(moment, LAWFUL, TIMED, out)?;
        left(moment, LAWFUL, UNTIMED, out)?;
        left(LAWFUL, moment, TIMED, out)?;
        left(LAWFUL, moment, UNTIMED, out)?;
        // Each with many others: the step shares no factor with their number.
        for step in [1, 37, 101, 305] {
            left(moment, all[(at * step + step) % all.len()], TIMED, out)?;
        }
    }
    for value in (0..65536).step_by(61).chain(near(&YEARS)).chain(near(&DAYS)) {
        let [of_year, of_day] = [[value, 60, 12, 30], [2024, value, 12, 30]];
        for wrong in [of_year, of_day] {
            left(wrong, LAWFUL, TIMED, out)?;
            left(LAWFUL, wrong, TIMED, out)?;
        }
    }
    for byte in 0..256 {
        for wrong in [[2024, 60, byte, 0], [2024, 60, 0, byte]] {
            left(wrong, LAWFUL, TIMED, out)?;
            left(LAWFUL, wrong, TIMED, out)?;
        }
        // Only 1 says that the expiry has a time.
        left(LAWFUL, [2024, 60, 7, 5], byte as u8, out)?;
        left(LAWFUL, [2024, 60, 24, 60], byte as u8, out)?;
    }
    Ok(())
}

fn lawful(chance: &mut Chance) -> Moment {
    let year = year(chance);
    let day = ordinal(chance, year);
    [year, day, chance.number(0, 23, &[0, 23]), chance.number(0, 59, &[0, 59])]
}

/// Two lawful moments both ways, and with an expiry that has no time.
fn pairs(count: u64, out: &mut Out) -> Result<()> {
    let mut chance = Chance(210);
    for _ in 0..count {
        let [a, b] = [0, 0].map(|_| lawful(&mut chance));
        left(a, b, TIMED, out)?;
        left(b, a, TIMED, out)?;
        left(a, b, UNTIMED, out)?;
    }
    Ok(())
}

pub fn fixed(out: &mut Out) -> Result<()> {
    few(out)?;
    boundaries(out)?;
    far_and_near(out)?;
    refused(out)?;
    pairs(5000, out)
}

/// Two moments by chance, mostly lawful, at times near each other.
pub fn any(chance: &mut Chance, out: &mut Out) -> Result<()> {
    let now = lawful(chance);
    let mut both = [now, if chance.one_in(3) { now } else { lawful(chance) }];
    for moment in &mut both {
        match chance.below(8) {
            0 => moment[0] = chance.pick(&YEARS),
            1 => moment[1] = chance.pick(&DAYS),
            2 => moment[2] = chance.pick(&HOURS),
            3 => moment[3] = chance.pick(&MINUTES),
            _ => {}
        }
    }
    let timed = if chance.one_in(2) { TIMED } else { chance.byte() };
    left(both[0], both[1], timed, out)
}
