//! Days by month and days by number, each found by going through all the days of a year.

use crate::message::Day;
use std::ops::Range;

/// The years that a date can have.
pub const YEARS: Range<u16> = 1900..2900;

/// How long years and months are.
#[derive(Clone, Copy)]
pub struct Calendar {
    /// The years that lie four apart and have 365 days.
    pub common: &'static [u16],
    /// Days of each month in such a year.
    pub months: [u8; 12],
}

pub const GREGORIAN: Calendar = Calendar {
    common: &[1900, 2100, 2200, 2300, 2500, 2600, 2700],
    months: [31, 28, 31, 30, 31, 30, 31, 31, 30, 31, 30, 31],
};

impl Calendar {
    /// The years with a 29 February.
    pub fn leap_years(&self) -> Vec<u16> {
        YEARS.step_by(4).filter(|year| !self.common.contains(year)).collect()
    }

    /// Month and day of every day in order, of a leap year or of another.
    pub fn days(&self, leap: bool) -> Vec<(u8, u8)> {
        let lengths = (1..).zip(self.months).map(|(month, length)| match month {
            2 if leap => (month, length + 1),
            _ => (month, length),
        });
        lengths.flat_map(|(month, length)| (1..=length).map(move |day| (month, day))).collect()
    }

    /// Month and day of every day of this year; of none outside `YEARS`.
    fn days_of(&self, year: u16) -> Vec<(u8, u8)> {
        if YEARS.contains(&year) {
            self.days(self.leap_years().contains(&year))
        } else {
            Vec::new()
        }
    }

    /// Every day of all years, in order.
    pub fn every_day(&self) -> Vec<Day> {
        let last = |year| self.days_of(year).len() as u16;
        YEARS.flat_map(|year| (1..=last(year)).map(move |day| Day { year, day })).collect()
    }

    /// Number of a day in its year, the first being 1; none if the year has no such day.
    pub fn ordinal(&self, year: u16, month: u8, day: u8) -> Option<u16> {
        let numbered = (1..).zip(self.days_of(year));
        numbered.into_iter().find(|&(_, other)| other == (month, day)).map(|(number, _)| number)
    }

    /// Month and day of the day with this number in its year; none if the year has no such day.
    pub fn month_and_day(&self, year: u16, ordinal: u16) -> Option<(u8, u8)> {
        let numbered = (1..).zip(self.days_of(year));
        numbered.into_iter().find(|&(number, _)| number == ordinal).map(|(_, day)| day)
    }
}

#[cfg(test)]
mod tests {
    use super::*;

    /// 1000 years; 250 lie four apart, and seven centuries of those are common.
    #[test]
    fn number_of_days() {
        let days = GREGORIAN.every_day();
        assert_eq!(days.len(), 365_000 + 243);
        assert!(days.is_sorted());
    }

    #[test]
    fn every_day_both_ways() {
        for year in [1900, 2000, 2024, 2025, 2100, 2899] {
            for (ordinal, (month, day)) in (1..).zip(GREGORIAN.days_of(year)) {
                assert_eq!(GREGORIAN.ordinal(year, month, day), Some(ordinal));
                assert_eq!(GREGORIAN.month_and_day(year, ordinal), Some((month, day)));
            }
        }
    }

    #[test]
    fn no_such_day() {
        for (year, month, day) in [
            (2025, 2, 29),
            (2100, 2, 29),
            (1900, 2, 29),
            (2024, 2, 30),
            (2024, 4, 31),
            (2024, 0, 1),
            (2024, 1, 0),
            (2024, 13, 1),
            (2024, 12, 32),
            (1899, 12, 31),
            (2900, 1, 1),
        ] {
            assert_eq!(GREGORIAN.ordinal(year, month, day), None, "{year} {month} {day}");
        }
        for (year, ordinal) in
            [(2025, 0), (2025, 366), (2100, 366), (2024, 367), (1899, 1), (2900, 1), (2024, 65535)]
        {
            assert_eq!(GREGORIAN.month_and_day(year, ordinal), None, "{year} {ordinal}");
        }
    }
}
