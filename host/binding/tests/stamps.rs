//! Time stamps as Rust programs meet them. The differences are counted by hand.

use kerbcanopy::accepted::{Descriptor, Refusal, Stamp, Value};
use kerbcanopy::{Answer, Difference, lent, stamp_difference};

const MOST: i64 = i64::MAX;
const LEAST: i64 = i64::MIN;
const LAST: u64 = u64::MAX;
const HALF: u64 = 1 << 63;

/// A time stamp's descriptor: code 54, subtype 6, a cluster of 03, 03, 07, 07.
const STAMP: &[u8] = b"\x00\x1C\x00\x54\x00\x06\x00\x16\x00\x50\x00\x04\
    \x00\x04\x00\x03\x00\x04\x00\x03\x00\x04\x00\x07\x00\x04\x00\x07";

type Time = (i64, u64);

/// Two stamps and what the first less the second is; nothing where its seconds
/// don't fit.
const CASES: [(Time, Time, Option<Time>); 20] = [
    ((0, 0), (0, 0), Some((0, 0))),
    ((5, 7), (3, 2), Some((2, 5))),
    ((3, 2), (5, 7), Some((-3, LAST - 4))),
    ((0, 0), (0, 1), Some((-1, LAST))),
    ((1, 0), (0, LAST), Some((0, 1))),
    ((0, HALF), (1, 0), Some((-1, HALF))),
    ((1 << 32, 0), (1, 0), Some(((1 << 32) - 1, 0))),
    ((0xFFFF_FFFF, 0), (0x8000_0000, 0), Some((0x7FFF_FFFF, 0))),
    ((-1, 1 << 32), (0, 1), Some((-1, (1 << 32) - 1))),
    ((MOST, LAST), (0, 0), Some((MOST, LAST))),
    ((LEAST, 0), (0, 0), Some((LEAST, 0))),
    ((LEAST, 5), (LEAST, 5), Some((0, 0))),
    ((-1, 0), (MOST, 0), Some((LEAST, 0))),
    ((0, 0), (LEAST, 1), Some((MOST, LAST))),
    ((0, 0), (LEAST, 0), None),
    ((LEAST, 0), (0, 1), None),
    ((-1, 4), (MOST, 5), None),
    ((MOST, 0), (-1, 0), None),
    ((MOST, LAST), (LEAST, 0), None),
    ((LEAST, 0), (MOST, LAST), None),
];

fn stamp((seconds, fraction): Time) -> Stamp {
    Stamp { seconds, fraction }
}

const TOO_FAR: Refusal = Refusal {
    number: 32,
    input: 4,
    place: 0,
};

#[test]
fn differences_are_exact() {
    for (first, second, stated) in CASES {
        let given = stamp(first).difference(stamp(second));
        let given = given.map(|given| (given.seconds, given.fraction));
        assert_eq!(given, stated.ok_or(TOO_FAR), "{first:?} {second:?}");
    }
}

/// The entries themselves: a refusal has no seconds and no fraction, and the lent
/// form sets every number.
#[test]
fn both_forms_of_the_entry() {
    for (first, second, stated) in CASES {
        let (seconds, fraction) = stated.unwrap_or((0, 0));
        let (number, input) = if stated.is_some() { (0, 0) } else { (32, 4) };
        let place = 0;
        let expected = Difference {
            answer: Answer {
                number,
                input,
                place,
            },
            seconds,
            fraction,
        };
        let [first, second] = [first, second].map(|time| stamp(time).into());
        assert_eq!(stamp_difference(first, second), expected);
        let mut left = ([9; 3], 9, 9);
        lent::stamp_difference(first, second, &mut left.0, &mut left.1, &mut left.2);
        assert_eq!(left, ([number, input, place], seconds, fraction));
    }
}

#[test]
fn a_stamp_is_its_four_integers() {
    for time in [
        (0, 0),
        (-1, LAST),
        (MOST, HALF),
        (LEAST, 1),
        (0x8000_0001, 1 << 32),
    ] {
        let whole = stamp(time);
        let halves = kerbcanopy::Stamp::from(whole);
        assert_eq!(Stamp::from(halves), whole);
        assert_eq!(Stamp::from_be_bytes(whole.to_be_bytes()), whole);
    }
    let halves = kerbcanopy::Stamp {
        seconds_high: -1,
        seconds_low: i32::MIN,
        fraction_high: 1,
        fraction_low: 2,
    };
    assert_eq!(Stamp::from(halves), stamp((-0x8000_0000, (1 << 32) + 2)));
    assert!(stamp((-1, LAST)) < stamp((0, 0)));
}

#[test]
fn a_stamp_in_data() -> Result<(), Refusal> {
    let descriptor = Descriptor::new(STAMP)?;
    assert_eq!(
        (descriptor.rows().len(), descriptor.rows()[0].count),
        (6, 0)
    );
    let sent = stamp((-2, (3 << 32) + 4)).to_be_bytes();
    let data = descriptor.data(&sent)?;
    let four = [0, 1, 2, 3].map(|half| data.value(&[0, half]).unwrap());
    let low = Value::Signed(-2);
    let expected = [
        Value::Signed(-1),
        low,
        Value::Unsigned(3),
        Value::Unsigned(4),
    ];
    assert_eq!(four, expected);
    assert_eq!(data.view(&[0])?, sent);
    assert_eq!(data.value(&[]).unwrap_err().number, 31);
    assert_eq!(data.view(&[1]).unwrap_err().number, 30);
    Ok(())
}
