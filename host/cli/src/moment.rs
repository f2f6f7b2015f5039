//! Time stamps and the time between two, in text and in JSON. A fraction is shown
//! with all its digits, so nothing is rounded.

use crate::date;
use crate::hexadecimal;
use crate::json::Json;
use kerbcanopy::Difference;
use kerbcanopy::accepted::Stamp;

/// The stamp in these bytes under a time stamp's own descriptor, its four integers
/// read by the library; none where they are no data of it.
pub fn of(descriptor: &[u8], bytes: &[u8]) -> Option<Stamp> {
    let integer = |member| {
        let read = kerbcanopy::read_value(descriptor, bytes, &[0, member]);
        (read.answer.number == 0).then_some(read.bits)
    };
    let halves = kerbcanopy::Stamp {
        seconds_high: integer(0)? as i32,
        seconds_low: integer(1)? as i32,
        fraction_high: integer(2)? as u32,
        fraction_low: integer(3)? as u32,
    };
    Some(halves.into())
}

/// Date and time in universal time, with the fraction.
pub fn text(stamp: Stamp) -> String {
    let time = date::since_1904(stamp.seconds);
    format!("{time}{} UTC", digits(stamp.fraction))
}

/// The same for scripts, by ISO 8601.
pub fn iso(stamp: Stamp) -> String {
    let time = date::since_1904(stamp.seconds).iso();
    format!("{time}{}Z", digits(stamp.fraction))
}

/// The fields of a stamp for scripts.
pub fn json(stamp: Stamp) -> [(&'static str, Json); 4] {
    let [seconds, fraction, bits] = numbers(stamp.seconds, stamp.fraction);
    [("time", Json::text(iso(stamp))), seconds, fraction, bits]
}

/// The fields of a difference for scripts.
pub fn difference_json(found: &Difference) -> [(&'static str, Json); 4] {
    let [seconds, fraction, bits] = numbers(found.seconds, found.fraction);
    [
        seconds,
        fraction,
        ("text", Json::text(decimal(found))),
        bits,
    ]
}

/// Seconds, fraction and both by their bits: many readers of JSON round a number
/// over 2^53.
fn numbers(seconds: i64, fraction: u64) -> [(&'static str, Json); 3] {
    let bits = hexadecimal::digits(&Stamp { seconds, fraction }.to_be_bytes());
    [
        ("seconds", Json::Number(seconds.to_string())),
        ("fraction", Json::number(fraction)),
        ("bits", Json::text(bits)),
    ]
}

/// A difference as one decimal number of seconds.
pub fn decimal(difference: &Difference) -> String {
    let units = i128::from(difference.seconds) << 64 | i128::from(difference.fraction);
    let sign = if units < 0 { "-" } else { "" };
    let size = units.unsigned_abs();
    format!("{sign}{}{}", size >> 64, digits(size as u64))
}

/// The seconds that a difference would have, whether 64 bits hold them or not.
pub fn whole_seconds(first: Stamp, second: Stamp) -> i128 {
    let borrowed = first.fraction < second.fraction;
    i128::from(first.seconds) - i128::from(second.seconds) - i128::from(borrowed)
}

/// The digits of a fraction of 2^64 behind their point, at most 64 of them; nothing
/// where there is none. Each digit takes away a factor of two, so they come to an
/// end.
fn digits(fraction: u64) -> String {
    let mut text = String::new();
    let mut rest = fraction;
    while rest != 0 {
        if text.is_empty() {
            text.push('.');
        }
        let ten = 10 * u128::from(rest);
        text.push_str(&(ten >> 64).to_string());
        rest = ten as u64;
    }
    text
}

#[cfg(test)]
mod tests {
    use super::*;
    use kerbcanopy::stamp_difference;

    fn stamp(seconds: i64, fraction: u64) -> Stamp {
        Stamp { seconds, fraction }
    }

    /// The first less the second, as the library has it.
    fn between(first: Stamp, second: Stamp) -> Difference {
        stamp_difference(first.into(), second.into())
    }

    #[test]
    fn a_stamp_is_read_out_of_its_data() {
        let types = b"\x00\x1C\x00\x54\x00\x06\x00\x16\x00\x50\x00\x04\
            \x00\x04\x00\x03\x00\x04\x00\x03\x00\x04\x00\x07\x00\x04\x00\x07";
        for seconds in [0, 1, -1, 0x8000_0000, -0x8000_0000, i64::MIN, i64::MAX] {
            for fraction in [0, 1, 1 << 31, 1 << 32, u64::MAX] {
                let stamp = stamp(seconds, fraction);
                assert_eq!(of(types, &stamp.to_be_bytes()), Some(stamp));
            }
        }
        assert_eq!(of(types, &[0; 15]), None);
    }

    #[test]
    fn fractions_have_all_their_digits() {
        assert_eq!(digits(0), "");
        assert_eq!(digits(1 << 63), ".5");
        assert_eq!(digits(3 << 62), ".75");
        let unit = ".0000000000000000000542101086242752217003726400434970855712890625";
        assert_eq!(digits(1), unit);
        let last = ".9999999999999999999457898913757247782996273599565029144287109375";
        assert_eq!(digits(u64::MAX), last);
        assert_eq!((unit.len(), last.len()), (65, 65));
    }

    /// Each digit with what comes behind it is ten times what it stands for, so the
    /// way back from the last digit loses nothing.
    #[test]
    fn digits_lead_back_to_their_fraction() {
        let mut fraction = 1_u64;
        for _ in 0..2_000 {
            fraction = fraction
                .wrapping_mul(6_364_136_223_846_793_005)
                .wrapping_add(99);
            for fraction in [fraction, fraction >> 50, fraction << 40] {
                let text = digits(fraction);
                assert!(text.len() <= 65 && !text.ends_with('0'));
                let mut rest = 0;
                for digit in text.bytes().skip(1).collect::<Vec<_>>().into_iter().rev() {
                    let ten = (u128::from(digit - b'0') << 64) + rest;
                    assert_eq!(ten % 10, 0);
                    rest = ten / 10;
                }
                assert_eq!(rest, u128::from(fraction));
            }
        }
    }

    #[test]
    fn stamps_are_dates_in_universal_time() {
        assert_eq!(text(stamp(0, 0)), "1904-01-01 00:00:00 UTC");
        assert_eq!(text(stamp(-1, 1 << 63)), "1903-12-31 23:59:59.5 UTC");
        assert_eq!(text(stamp(i64::MIN, 0)), "-292277022723-01-25 08:29:52 UTC");
        assert_eq!(
            text(stamp(i64::MAX, 1 << 62)),
            "292277026530-12-04 15:30:07.25 UTC"
        );
    }

    #[test]
    fn stamps_are_times_by_the_standard() {
        assert_eq!(iso(stamp(0, 0)), "1904-01-01T00:00:00Z");
        assert_eq!(iso(stamp(-1, 1 << 63)), "1903-12-31T23:59:59.5Z");
        assert_eq!(
            iso(stamp(i64::MAX, 1 << 62)),
            "+292277026530-12-04T15:30:07.25Z"
        );
    }

    #[test]
    fn numbers_for_scripts() {
        let line = Json::object(json(stamp(-2, u64::MAX))).line();
        let numbers = r#""seconds":-2,"fraction":18446744073709551615,"#;
        let bits = r#""bits":"FFFFFFFFFFFFFFFEFFFFFFFFFFFFFFFF"}"#;
        assert!(line.ends_with(&format!(",{numbers}{bits}\n")), "{line}");
        let found = between(stamp(9, 1), stamp(0, 0));
        let line = Json::object(difference_json(&found)).line();
        assert!(line.starts_with(r#"{"seconds":9,"fraction":1,"text":"9.0000"#));
        assert!(line.ends_with(",\"bits\":\"00000000000000090000000000000001\"}\n"));
    }

    #[test]
    fn differences_are_decimal_numbers() {
        let between = |first: (i64, u64), second: (i64, u64)| {
            let (first, second) = (stamp(first.0, first.1), stamp(second.0, second.1));
            let found = between(first, second);
            assert_eq!(found.answer.number, 0);
            assert_eq!(i128::from(found.seconds), whole_seconds(first, second));
            decimal(&found)
        };
        assert_eq!(between((90, 1 << 62), (0, 0)), "90.25");
        assert_eq!(between((0, 0), (0, 1 << 63)), "-0.5");
        assert_eq!(between((0, 1 << 62), (2, 1 << 63)), "-2.25");
        assert_eq!(between((7, 9), (7, 9)), "0");
        assert_eq!(between((-1, 0), (0, 0)), "-1");
        assert_eq!(between((i64::MIN, 0), (0, 0)), "-9223372036854775808");
        let unit = "0.0000000000000000000542101086242752217003726400434970855712890625";
        assert_eq!(between((0, 0), (0, 1)), format!("-{unit}"));
        assert_eq!(between((i64::MAX, 0), (i64::MAX - 1, u64::MAX)), unit);
    }

    #[test]
    fn a_difference_may_be_too_long() {
        for (first, second, seconds) in [
            (stamp(i64::MAX, 0), stamp(-1, 0), 1_i128 << 63),
            (stamp(i64::MIN, 0), stamp(0, 1), -(1_i128 << 63) - 1),
            (stamp(i64::MAX, 0), stamp(i64::MIN, 0), u64::MAX.into()),
        ] {
            let found = between(first, second);
            let answer = found.answer;
            assert_eq!((answer.number, answer.input, answer.place), (32, 4, 0));
            assert_eq!((found.seconds, found.fraction), (0, 0));
            assert_eq!(whole_seconds(first, second), seconds);
        }
    }
}
