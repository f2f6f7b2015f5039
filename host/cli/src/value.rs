//! Values as text and as JSON.

use kerbcanopy::Value;

use crate::hexadecimal;
use crate::json::Json;

/// Whole numbers in decimal, flags as words, singles and doubles so that they
/// read back as the same number; a NaN with its bits, since many have no other
/// name.
pub fn text(value: &Value) -> String {
    match value.kind {
        1 => value.bits.to_string(),
        2 => (value.bits as i64).to_string(),
        3 => {
            let bits = value.bits as u32;
            let single = f32::from_bits(bits);
            match single.is_nan() {
                true => format!("NaN {bits:08X}"),
                false => format!("{single:?}"),
            }
        }
        4 => {
            let double = f64::from_bits(value.bits);
            match double.is_nan() {
                true => format!("NaN {:016X}", value.bits),
                false => format!("{double:?}"),
            }
        }
        5 => (value.bits == 1).to_string(),
        kind => format!("kind {kind}, bits {:X}", value.bits),
    }
}

/// The fields of a value for scripts. JSON has no infinity and no NaN: there the
/// value is null, and the text and the bits say which it is.
pub fn json(value: &Value) -> [(&'static str, Json); 4] {
    let text = text(value);
    let (kind, digits, finite) = match value.kind {
        1 => ("unsigned", 16, true),
        2 => ("signed", 16, true),
        3 => ("single", 8, f32::from_bits(value.bits as u32).is_finite()),
        4 => ("double", 16, f64::from_bits(value.bits).is_finite()),
        _ => ("flag", 16, true),
    };
    let number = match (value.kind, finite) {
        (5, _) => Json::Truth(value.bits == 1),
        (_, true) => Json::Number(text.clone()),
        _ => Json::Null,
    };
    let bits = format!("{:0digits$X}", value.bits);
    [
        ("kind", Json::text(kind)),
        ("value", number),
        ("text", Json::text(text)),
        ("bits", Json::text(bits)),
    ]
}

/// What a scalar's own bytes say under its own descriptor: one number, both halves
/// of a complex one, or the bytes of a number that is wider than any read here.
pub fn scalar(descriptor: &[u8], code: u16, bytes: &[u8]) -> String {
    let read = kerbcanopy::read_value(descriptor, bytes, &[]);
    if read.answer.number == 0 {
        return text(&read);
    }
    let (first, second) = bytes.split_at(bytes.len() / 2);
    match (half(code, first), half(code, second)) {
        (Some(real), Some(imaginary)) => format!("{real} and {imaginary} i"),
        _ => format!("bytes {}", hexadecimal::line(bytes)),
    }
}

/// Half of a complex number, read as the real number of its own code.
fn half(code: u16, bytes: &[u8]) -> Option<String> {
    let real = match code {
        0x0C | 0x1C => 0x09,
        0x0D | 0x1D => 0x0A,
        _ => return None,
    };
    let read = kerbcanopy::read_value(&[0, 4, 0, real], bytes, &[]);
    (read.answer.number == 0).then(|| text(&read))
}

#[cfg(test)]
mod tests {
    use super::*;
    use kerbcanopy::Answer;

    fn value(kind: u32, bits: u64) -> Value {
        let answer = Answer {
            number: 0,
            input: 0,
            place: 0,
        };
        Value { answer, kind, bits }
    }

    fn of(kind: u32, bits: u64) -> String {
        text(&value(kind, bits))
    }

    #[test]
    fn whole_numbers_and_flags() {
        assert_eq!(of(1, u64::MAX), "18446744073709551615");
        assert_eq!(of(2, u64::MAX), "-1");
        assert_eq!(of(2, 1 << 63), "-9223372036854775808");
        assert_eq!((of(5, 0), of(5, 1)), ("false".into(), "true".into()));
    }

    #[test]
    fn singles_and_doubles() {
        assert_eq!(of(3, 0x41A4_0000), "20.5");
        assert_eq!(of(3, 0x3DCC_CCCD), "0.1");
        assert_eq!(of(3, 0xFF80_0000), "-inf");
        assert_eq!(of(3, 0x7F80_0001), "NaN 7F800001");
        assert_eq!(of(4, 0.25f64.to_bits()), "0.25");
        assert_eq!(of(4, 1e300f64.to_bits()), "1e300");
        assert_eq!(of(4, 1 << 63), "-0.0");
        assert_eq!(of(4, 0x7FF8_0000_0000_0000), "NaN 7FF8000000000000");
    }

    #[test]
    fn every_double_reads_back() {
        let mut bits = 1u64;
        for _ in 0..10_000 {
            bits = bits.wrapping_mul(6364136223846793005).wrapping_add(99);
            let double = f64::from_bits(bits);
            if !double.is_nan() {
                assert_eq!(of(4, bits).parse().map(f64::to_bits), Ok(bits));
            }
        }
    }

    #[test]
    fn values_for_scripts() {
        let line = |kind, bits| Json::object(json(&value(kind, bits))).line();
        assert_eq!(
            line(2, u64::MAX),
            "{\"kind\":\"signed\",\"value\":-1,\"text\":\"-1\",\"bits\":\"FFFFFFFFFFFFFFFF\"}\n"
        );
        assert_eq!(
            line(3, 0x7F80_0000),
            "{\"kind\":\"single\",\"value\":null,\"text\":\"inf\",\"bits\":\"7F800000\"}\n"
        );
        assert!(line(5, 1).contains("\"value\":true"));
    }

    #[test]
    fn complex_and_extended_numbers() {
        let complex = [0x3F, 0xC0, 0, 0, 0xBF, 0x80, 0, 0];
        let text = scalar(&[0, 4, 0, 0x0C], 0x0C, &complex);
        assert_eq!(text, "1.5 and -1.0 i");
        let extended = scalar(&[0, 4, 0, 0x0B], 0x0B, &[0x3F; 16]);
        assert!(extended.starts_with("bytes 3F3F 3F3F "), "{extended}");
    }
}
