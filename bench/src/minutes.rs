//! Minutes from now to an expiry. Days are counted as places in the list of all of them.

use crate::calendar::YEARS;
use crate::message::{Day, Time};
use crate::{languages, ACCEPTED, DAY, TIME, VALUE};

const OF_DAY: i64 = 24 * 60;

/// Number, place and the minutes left: the place tells which of the two is refused, now or the expiry.
pub fn left(now: (Day, Time), expiry: (Day, Option<Time>)) -> (u8, usize, i64) {
    let (day, time) = expiry;
    let expiry = (day, time.unwrap_or(languages().rules.untimed));
    match [now, expiry].map(|(day, time)| minute(day, time)) {
        [Err(number), _] => (number, 0, 0),
        [_, Err(number)] => (number, 1, 0),
        [Ok(now), Ok(expiry)] => (ACCEPTED, 0, expiry - now),
    }
}

/// How many minutes went before this one since the years began, or the number of what refuses it.
fn minute(day: Day, Time { hour, minute }: Time) -> Result<i64, u8> {
    if !YEARS.contains(&day.year) {
        return Err(VALUE);
    }
    let days = languages().days.binary_search(&day).map_err(|_| DAY)?;
    if 24 <= hour || 60 <= minute {
        return Err(TIME);
    }
    Ok(OF_DAY * days as i64 + 60 * i64::from(hour) + i64::from(minute))
}
