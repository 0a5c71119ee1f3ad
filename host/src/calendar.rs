//! Days of the civil calendar, and moments of UTC as ISO 8601 writes them.

use std::fmt;
use std::time::{SystemTime, UNIX_EPOCH};

/// A day, by its distance from 1 January 1970.
#[derive(Clone, Copy, PartialEq, Eq, PartialOrd, Ord, Debug)]
pub struct Day(pub i64);

const DAY_SECONDS: i64 = 86_400;
/// Days of 400 years, after which the calendar begins again.
const CYCLE_DAYS: i64 = 146_097;
/// Days from 1 March of year 0 to 1 January 1970.
const BEFORE_1970: i64 = 719_468;

impl Day {
    /// The day of a date, if the calendar has it.
    pub fn of(date: (i64, i64, i64)) -> Option<Day> {
        Some(Day::counted(date)).filter(|day| day.date() == date)
    }

    /// Counts the days up to a date. Years are taken to begin in March, so that a leap day is the last of its year.
    fn counted((year, month, day): (i64, i64, i64)) -> Day {
        let year = if month < 3 { year - 1 } else { year };
        let (cycle, year) = (year.div_euclid(400), year.rem_euclid(400));
        let of_year = days_before((month + 9) % 12) + day - 1;
        Day(CYCLE_DAYS * cycle + days_of_years(year) + of_year - BEFORE_1970)
    }

    /// Its year, month and day.
    pub fn date(self) -> (i64, i64, i64) {
        let days = self.0 + BEFORE_1970;
        let (cycle, days) = (days.div_euclid(CYCLE_DAYS), days.rem_euclid(CYCLE_DAYS));
        // The last day of four years, of a hundred and of four hundred is one more than 365 a year would give.
        let year = (days - days / 1_460 + days / 36_524 - days / 146_096) / 365;
        let of_year = days - days_of_years(year);
        let month = (5 * of_year + 2) / 153;
        let day = of_year - days_before(month) + 1;
        let (month, next) = if month < 10 { (month + 3, 0) } else { (month - 9, 1) };
        (400 * cycle + year + next, month, day)
    }
}

/// Days of so many years, fewer than 400, from March on.
fn days_of_years(years: i64) -> i64 {
    365 * years + years / 4 - years / 100
}

/// Days of a year before a month, where March is 0: five months have 153.
fn days_before(month: i64) -> i64 {
    (153 * month + 2) / 5
}

impl fmt::Display for Day {
    fn fmt(&self, out: &mut fmt::Formatter<'_>) -> fmt::Result {
        let (year, month, day) = self.date();
        write!(out, "{year:04}-{month:02}-{day:02}")
    }
}

/// The seconds since 1970 began, by this machine's clock.
pub fn now() -> i64 {
    SystemTime::now().duration_since(UNIX_EPOCH).map_or(0, |past| past.as_secs() as i64)
}

/// A moment of UTC in words: 2026-11-17T20:52:12Z.
pub fn utc(seconds: i64) -> String {
    let (day, second) = (Day(seconds.div_euclid(DAY_SECONDS)), seconds.rem_euclid(DAY_SECONDS));
    format!("{day}T{:02}:{:02}:{:02}Z", second / 3600, second / 60 % 60, second % 60)
}

/// The day of a moment that is written as [`utc`] writes it.
pub fn day_of(moment: &str) -> Option<Day> {
    let number = |from: usize, to: usize| {
        let digits = moment.get(from..to)?;
        digits.bytes().all(|digit| digit.is_ascii_digit()).then(|| digits.parse::<i64>().ok())?
    };
    let day = Day::of((number(0, 4)?, number(5, 7)?, number(8, 10)?))?;
    let second = 3600 * number(11, 13)? + 60 * number(14, 16)? + number(17, 19)?;
    // Written again it must be the same: so hours, minutes and seconds are in range, and the signs are in place.
    (utc(DAY_SECONDS * day.0 + second) == moment).then_some(day)
}

#[cfg(test)]
mod tests {
    use super::*;

    #[test]
    fn known_dates_are_as_many_days_from_1970() {
        for (date, days) in [
            ((1970, 1, 1), 0),
            ((1969, 12, 31), -1),
            ((1900, 1, 1), -25_567),
            ((2000, 2, 29), 11_016),
            ((2000, 3, 1), 11_017),
            ((2024, 12, 31), 20_088),
            ((2026, 11, 17), 20_774),
            ((2038, 1, 19), 24_855),
            ((2100, 3, 1), 47_541),
            ((1, 1, 1), -719_162),
        ] {
            assert_eq!((Day::of(date), Day(days).date()), (Some(Day(days)), date));
        }
    }

    #[test]
    fn each_day_of_the_cycle_is_the_next_of_the_one_before() {
        let mut before = Day(-BEFORE_1970 - 1);
        for days in -BEFORE_1970..=CYCLE_DAYS {
            let (now, then) = (Day(days), before.date());
            assert_eq!(Day::of(now.date()), Some(now));
            let next = match (now.date(), then) {
                ((year, 1, 1), (last, 12, 31)) => year == last + 1,
                ((year, month, 1), (same, last, day)) => year == same && month == last + 1 && day >= 28,
                ((year, month, day), (same, of, last)) => (year, month) == (same, of) && day == last + 1,
            };
            assert!(next, "{before} and {now}");
            before = now;
        }
    }

    #[test]
    fn dates_that_no_calendar_has_are_none() {
        for date in [(2026, 2, 29), (1900, 2, 29), (2026, 13, 1), (2026, 0, 1), (2026, 4, 31), (2026, 1, 0)] {
            assert_eq!(Day::of(date), None, "{date:?}");
        }
    }

    #[test]
    fn moments_are_written_and_read() {
        for (seconds, words) in [
            (0, "1970-01-01T00:00:00Z"),
            (-1, "1969-12-31T23:59:59Z"),
            (951_782_399, "2000-02-28T23:59:59Z"),
            (1_000_000_000, "2001-09-09T01:46:40Z"),
            (4_000_000_000, "2096-10-02T07:06:40Z"),
        ] {
            assert_eq!(utc(seconds), words);
            assert_eq!(day_of(words), Some(Day(seconds.div_euclid(DAY_SECONDS))));
        }
        assert!(day_of(&utc(now())).is_some_and(|day| day > Day(20_000)));
        for wrong in [
            "",
            "2026-11-17",
            "2026-11-17T24:00:00Z",
            "2026-11-17T00:60:00Z",
            "2026-11-17T00:00:60Z",
            "2026-11-17 00:00:00Z",
            "2026-02-30T00:00:00Z",
            "+026-11-17T00:00:00Z",
            "2026-11-17T00:00:00Z ",
            "2026-11-1äT00:00:00Z",
        ] {
            assert_eq!(day_of(wrong), None, "{wrong:?}");
        }
    }
}
