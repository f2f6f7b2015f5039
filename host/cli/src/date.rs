//! Dates and times of day by the Gregorian calendar, carried on both ways without
//! end: the year before year 1 is year 0, and the one before that is year -1.

use std::fmt;

/// Seconds of a day. There are no leap seconds in a count.
const DAY: i64 = 86_400;
/// Days of 400 years, after which the calendar comes round.
const ROUND: i64 = 146_097;
/// Days from 1 March of year 0 to the start of 1904.
const BEFORE_1904: i64 = 695_361;

#[derive(Clone, Copy, Debug, PartialEq, Eq)]
pub struct Time {
    pub year: i64,
    pub month: i64,
    pub day: i64,
    pub hour: i64,
    pub minute: i64,
    pub second: i64,
}

/// The time so many seconds after 1904-01-01 00:00:00, or before it. A count of days
/// is so much smaller than one of seconds that nothing here overflows.
pub fn since_1904(seconds: i64) -> Time {
    let of_day = seconds.rem_euclid(DAY);
    // Years that start in March: a leap day is the last day of its year.
    let days = seconds.div_euclid(DAY) + BEFORE_1904;
    let of_round = days.rem_euclid(ROUND);
    // Each leap day that was passed is taken out, and what is left is whole years.
    let leaps = of_round / 1_460 - of_round / 36_524 + of_round / 146_096;
    let year = (of_round - leaps) / 365;
    let of_year = of_round - (365 * year + year / 4 - year / 100);
    // From March on, 31 and 30 days take turns so that five months have 153.
    let month = (5 * of_year + 2) / 153;
    let since_march = 400 * days.div_euclid(ROUND) + year;
    Time {
        year: since_march + i64::from(month >= 10),
        month: if month < 10 { month + 3 } else { month - 9 },
        day: of_year - (153 * month + 2) / 5 + 1,
        hour: of_day / 3_600,
        minute: of_day / 60 % 60,
        second: of_day % 60,
    }
}

/// `1904-01-01 00:00:00`. A year has four digits, or as many more as it takes, and a
/// minus sign before year 0.
impl fmt::Display for Time {
    fn fmt(&self, out: &mut fmt::Formatter) -> fmt::Result {
        let sign = if self.year < 0 { "-" } else { "" };
        write!(
            out,
            "{sign}{:04}-{:02}-{:02} {:02}:{:02}:{:02}",
            self.year.unsigned_abs(),
            self.month,
            self.day,
            self.hour,
            self.minute,
            self.second,
        )
    }
}

impl Time {
    /// `1904-01-01T00:00:00`, as ISO 8601 has it. A year that four digits don't hold, or
    /// before year 0, has a sign and six digits or as many more as it takes: the
    /// standard leaves their number to be agreed on, and six is ECMAScript's.
    pub fn iso(&self) -> String {
        let year = match self.year {
            year @ 0..=9_999 => format!("{year:04}"),
            year => format!("{year:+07}"),
        };
        format!(
            "{year}-{:02}-{:02}T{:02}:{:02}:{:02}",
            self.month, self.day, self.hour, self.minute, self.second,
        )
    }
}

#[cfg(test)]
mod tests {
    use super::*;

    fn text(seconds: i64) -> String {
        since_1904(seconds).to_string()
    }

    fn leap(year: i64) -> bool {
        year % 4 == 0 && (year % 100 != 0 || year % 400 == 0)
    }

    fn days_of(year: i64, month: i64) -> i64 {
        match month {
            2 => 28 + i64::from(leap(year)),
            4 | 6 | 9 | 11 => 30,
            _ => 31,
        }
    }

    /// The day after, or before, by the calendar's own words.
    fn next((year, month, day): (i64, i64, i64)) -> (i64, i64, i64) {
        match (month, day == days_of(year, month)) {
            (_, false) => (year, month, day + 1),
            (12, true) => (year + 1, 1, 1),
            (_, true) => (year, month + 1, 1),
        }
    }

    fn previous((year, month, day): (i64, i64, i64)) -> (i64, i64, i64) {
        match (month, day) {
            (1, 1) => (year - 1, 12, 31),
            (_, 1) => (year, month - 1, days_of(year, month - 1)),
            _ => (year, month, day - 1),
        }
    }

    /// Days from the start of 1904, year by year and month by month.
    fn slow_days(year: i64, month: i64, day: i64) -> i64 {
        let of_year = |year| if leap(year) { 366 } else { 365 };
        let whole: i64 = match year >= 1904 {
            true => (1904..year).map(of_year).sum(),
            false => -(year..1904).map(of_year).sum::<i64>(),
        };
        let months: i64 = (1..month).map(|month| days_of(year, month)).sum();
        whole + months + day - 1
    }

    #[test]
    fn the_start_and_the_seconds_around_it() {
        assert_eq!(text(0), "1904-01-01 00:00:00");
        assert_eq!(text(-1), "1903-12-31 23:59:59");
        assert_eq!(text(-86_400), "1903-12-31 00:00:00");
        assert_eq!(text(86_399), "1904-01-01 23:59:59");
        assert_eq!(text(3_661), "1904-01-01 01:01:01");
        // Where other counts start: 1970 and 2000.
        assert_eq!(text(2_082_844_800), "1970-01-01 00:00:00");
        assert_eq!(text(3_029_529_600), "2000-01-01 00:00:00");
    }

    #[test]
    fn leap_days() {
        let day = |year, month, day| text(DAY * slow_days(year, month, day));
        assert_eq!(day(1904, 2, 29), "1904-02-29 00:00:00");
        assert_eq!(text(DAY * 59), "1904-02-29 00:00:00");
        assert_eq!(text(DAY * 60), "1904-03-01 00:00:00");
        let after = |year, days| text(DAY * (slow_days(year, 2, 28) + days));
        assert_eq!(after(1904, 1), "1904-02-29 00:00:00");
        assert_eq!(after(2000, 1), "2000-02-29 00:00:00");
        assert_eq!(after(2000, 2), "2000-03-01 00:00:00");
        assert_eq!(after(1900, 1), "1900-03-01 00:00:00");
        assert_eq!(after(2100, 1), "2100-03-01 00:00:00");
        assert_eq!(after(0, 1), "0000-02-29 00:00:00");
        assert_eq!(after(-4, 1), "-0004-02-29 00:00:00");
        assert_eq!(after(-100, 1), "-0100-03-01 00:00:00");
        assert_eq!(after(-400, 1), "-0400-02-29 00:00:00");
        assert_eq!(after(2000, 307), "2000-12-31 00:00:00");
    }

    #[test]
    fn years_of_other_lengths() {
        let first = |year| text(DAY * slow_days(year, 1, 1));
        assert_eq!(first(1), "0001-01-01 00:00:00");
        assert_eq!(first(0), "0000-01-01 00:00:00");
        assert_eq!(first(-1), "-0001-01-01 00:00:00");
        assert_eq!(first(9_999), "9999-01-01 00:00:00");
        assert_eq!(first(10_000), "10000-01-01 00:00:00");
        assert_eq!(first(-10_000), "-10000-01-01 00:00:00");
        let before = |year| text(DAY * slow_days(year, 1, 1) - 1);
        assert_eq!(before(1), "0000-12-31 23:59:59");
        assert_eq!(before(0), "-0001-12-31 23:59:59");
        assert_eq!(before(10_000), "9999-12-31 23:59:59");
    }

    #[test]
    fn years_by_the_standard() {
        let first = |year| since_1904(DAY * slow_days(year, 1, 1)).iso();
        for (year, text) in [
            (1904, "1904-01-01T00:00:00"),
            (1, "0001-01-01T00:00:00"),
            (0, "0000-01-01T00:00:00"),
            (9_999, "9999-01-01T00:00:00"),
            (10_000, "+010000-01-01T00:00:00"),
            (-1, "-000001-01-01T00:00:00"),
            (-10_000, "-010000-01-01T00:00:00"),
        ] {
            assert_eq!(first(year), text);
        }
        assert_eq!(since_1904(i64::MAX).iso(), "+292277026530-12-04T15:30:07");
        assert_eq!(since_1904(i64::MIN).iso(), "-292277022723-01-25T08:29:52");
        assert_eq!(since_1904(-1).iso(), "1903-12-31T23:59:59");
    }

    /// The farthest counts, worked out beside it by whole rounds of 400 years.
    #[test]
    fn the_farthest_counts() {
        assert_eq!(text(i64::MAX), "292277026530-12-04 15:30:07");
        assert_eq!(text(i64::MIN), "-292277022723-01-25 08:29:52");
        for (count, rounds) in [
            (i64::MAX, 730_692_561),
            (i64::MIN, -730_692_561),
            (i64::MAX - 7, 1),
            (i64::MIN + 7, -1),
        ] {
            let near = since_1904(count - rounds * ROUND * DAY);
            let far = since_1904(count);
            let moved = near.year + 400 * rounds;
            assert_eq!(
                far,
                Time {
                    year: moved,
                    ..near
                }
            );
        }
    }

    #[test]
    fn every_day_of_some_thousand_years_follows_the_one_before() {
        let date = |day: i64| {
            let time = since_1904(DAY * day);
            (time.year, time.month, time.day)
        };
        let (mut after, mut before) = ((1904, 1, 1), (1904, 1, 1));
        for day in 0..1_200_000 {
            assert_eq!(date(day), after);
            assert_eq!(date(-day), before);
            (after, before) = (next(after), previous(before));
        }
        assert!(after.0 > 5_000 && before.0 < -1_000);
    }

    #[test]
    fn dates_lead_back_to_their_counts() {
        let mut count = 1_u64;
        for _ in 0..20_000 {
            count = count
                .wrapping_mul(6_364_136_223_846_793_005)
                .wrapping_add(99);
            // Some ten thousand years on either side.
            let seconds = count as i64 >> 25;
            let time = since_1904(seconds);
            let of_day = 3_600 * time.hour + 60 * time.minute + time.second;
            let days = slow_days(time.year, time.month, time.day);
            assert_eq!(DAY * days + of_day, seconds, "{time}");
        }
    }

    #[test]
    fn no_count_is_out_of_reach() {
        let mut count = 7_u64;
        for _ in 0..100_000 {
            count = count
                .wrapping_mul(6_364_136_223_846_793_005)
                .wrapping_add(99);
            for seconds in [count as i64, i64::MIN + (count >> 40) as i64] {
                let Time {
                    year, month, day, ..
                } = since_1904(seconds);
                assert!((1..=12).contains(&month));
                assert!((1..=days_of(year, month)).contains(&day));
            }
        }
    }
}
