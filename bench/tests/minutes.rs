//! Minutes from now to an expiry.

use second::message::{Day, Edition, Form, Message, Structure, Time};
use second::minutes::left;
use second::{write, ACCEPTED, DAY, TIME, VALUE};

type Moment = (Day, Time);

fn moment(year: u16, day: u16, hour: u8, minute: u8) -> Moment {
    (Day { year, day }, Time { hour, minute })
}

/// To an expiry that has a time.
fn until(now: Moment, (day, time): Moment) -> (u8, usize, i64) {
    left(now, (day, Some(time)))
}

/// Moments with lawful parts and others in every combination.
fn mixed() -> impl Iterator<Item = Moment> {
    let days = [0, 1899, 1900, 2000, 2023, 2024, 2100, 2899, 2900, 65535]
        .into_iter()
        .flat_map(|year| [0, 1, 60, 365, 366, 367, 65535].map(|day| Day { year, day }));
    let times = [0, 9, 23, 24, 255]
        .into_iter()
        .flat_map(|hour| [0, 30, 59, 60, 255].map(|minute| Time { hour, minute }));
    days.flat_map(move |day| times.clone().map(move |time| (day, time)))
}

fn lawful() -> impl Iterator<Item = Moment> {
    mixed().filter(|&moment| until(moment, moment).0 == ACCEPTED)
}

#[test]
fn from_now_to_then() {
    let answers = [
        ((2024, 60, 23, 59), (2024, 61, 0, 0), 1),
        ((2024, 60, 12, 30), (2024, 60, 12, 30), 0),
        ((2024, 60, 12, 30), (2024, 60, 12, 29), -1),
        ((2024, 60, 12, 30), (2024, 60, 13, 29), 59),
        ((2024, 1, 0, 0), (2025, 1, 0, 0), 366 * 1440),
        ((2100, 1, 0, 0), (2101, 1, 0, 0), 365 * 1440),
        ((2000, 366, 23, 59), (2001, 1, 0, 0), 1),
        ((1900, 1, 0, 0), (2899, 365, 23, 59), 365_243 * 1440 - 1),
        ((2899, 365, 23, 59), (1900, 1, 0, 0), 1 - 365_243 * 1440),
    ];
    for ((y, d, h, m), (year, day, hour, minute), minutes) in answers {
        let told = until(moment(y, d, h, m), moment(year, day, hour, minute));
        assert_eq!(told, (ACCEPTED, 0, minutes), "{y} {d} {h} {m}");
    }
}

/// The first minute of each day comes one after the last of the day before.
#[test]
fn every_boundary() {
    let is_leap = |year| year % 4 == 0 && (year % 100 != 0 || year % 400 == 0);
    let days = (1900..2900)
        .flat_map(|year| (1..=if is_leap(year) { 366 } else { 365 }).map(move |day| (year, day)));
    let next = days.clone().skip(1);
    let mut boundaries = 0;
    for ((y, d), (year, day)) in days.zip(next) {
        let told = until(moment(y, d, 23, 59), moment(year, day, 0, 0));
        assert_eq!(told, (ACCEPTED, 0, 1), "{y} {d}");
        boundaries += 1;
    }
    assert_eq!(boundaries, 365_242);
}

#[test]
fn without_a_time() {
    for now in lawful().step_by(7) {
        for (day, _) in lawful() {
            let end = Time { hour: 23, minute: 59 };
            assert_eq!(left(now, (day, None)), until(now, (day, end)));
        }
    }
    let [late, early] = [moment(2025, 365, 23, 59), moment(2025, 365, 0, 0)];
    assert_eq!(left(late, (late.0, None)), (ACCEPTED, 0, 0));
    assert_eq!(left(early, (early.0, None)), (ACCEPTED, 0, 1439));
    assert_eq!(left(moment(2026, 1, 0, 0), (late.0, None)), (ACCEPTED, 0, -1));
}

/// Swapping two moments negates the answer, and going by way of a third adds up.
#[test]
fn swapped_and_by_way_of_a_third() {
    let moments: Vec<Moment> = lawful().step_by(2).collect();
    assert!(moments.len() > 80);
    for (&a, &b) in moments.iter().flat_map(|a| moments.iter().map(move |b| (a, b))) {
        let (number, place, direct) = until(a, b);
        assert_eq!((number, place), (ACCEPTED, 0));
        assert_eq!(until(b, a), (ACCEPTED, 0, -direct));
        assert_eq!(direct == 0, a == b);
        for &c in moments.iter().step_by(5) {
            assert_eq!(until(a, c).2 + until(c, b).2, direct);
        }
    }
}

/// What the number of a moment is, if something is wrong with it.
fn refusal((Day { year, day }, Time { hour, minute }): Moment) -> u8 {
    let is_leap = year % 4 == 0 && (year % 100 != 0 || year % 400 == 0);
    match (year, day, hour, minute) {
        (..=1899 | 2900.., _, _, _) => VALUE,
        (_, 0 | 367.., _, _) => DAY,
        (_, 366, _, _) if !is_leap => DAY,
        (_, _, 24.., _) | (_, _, _, 60..) => TIME,
        _ => ACCEPTED,
    }
}

/// Year before day before time, now before the expiry.
#[test]
fn refused_moments() {
    let good = moment(2024, 366, 12, 30);
    for bad in mixed().filter(|&bad| refusal(bad) != ACCEPTED) {
        let number = refusal(bad);
        assert_eq!(until(bad, good), (number, 0, 0), "{bad:?}");
        assert_eq!(until(good, bad), (number, 1, 0), "{bad:?}");
        for worse in mixed().step_by(11) {
            assert_eq!(until(bad, worse), (number, 0, 0), "{bad:?} {worse:?}");
        }
        // Hour and minute of an expiry without a time are not there.
        let untimed = if number == TIME { ACCEPTED } else { number };
        assert_eq!(left(good, (bad.0, None)).0, untimed, "{bad:?}");
    }
}

/// Taken are just the moments that a date structure can hold.
#[test]
fn moments_that_a_structure_holds() {
    let written = |structure: Structure| {
        let mut message = Message { form: Form::Single, number: 1, ..Message::EMPTY };
        message.entries[0] = structure.into();
        write(Edition::Current, &message, &mut [0; 12]).0 == ACCEPTED
    };
    let good = moment(2024, 366, 12, 30);
    let mut taken = 0;
    for (day, time) in mixed() {
        let number = until((day, time), good).0;
        assert_eq!(number, refusal((day, time)));
        assert_eq!(number == ACCEPTED, written(Structure::ExpiryTime(day, time)));
        assert_eq!(left(good, (day, None)).0 == ACCEPTED, written(Structure::Expiry(day)));
        taken += usize::from(number == ACCEPTED);
    }
    // Nine times of three days in six years, and of a fourth in two of them.
    assert_eq!(taken, 9 * (3 * 6 + 2));
}
