//! A logarithmic axis.

/// Numbers from `low` to `high` laid over a stretch of the picture.
#[derive(Clone, Copy)]
pub struct Scale {
    low: f64,
    high: f64,
    from: f64,
    to: f64,
}

impl Scale {
    /// The lowest number is drawn at `from`, the highest at `to`.
    pub fn new(numbers: (f64, f64), from: f64, to: f64) -> Scale {
        let (low, high) = numbers;
        Scale {
            low,
            high,
            from,
            to,
        }
    }

    /// Where a number is drawn.
    pub fn place(&self, number: f64) -> f64 {
        let share = (number / self.low).ln() / (self.high / self.low).ln();
        self.from + share * (self.to - self.from)
    }

    /// The powers of this base within the scale.
    pub fn powers(&self, base: f64) -> Vec<f64> {
        let exponent = |number: f64| number.ln() / base.ln();
        let first = (exponent(self.low) - 1e-9).ceil() as i32;
        let last = (exponent(self.high) + 1e-9).floor() as i32;
        (first..=last).map(|exponent| base.powi(exponent)).collect()
    }
}

/// The powers of this base that the numbers lie between.
pub fn around(numbers: impl Iterator<Item = f64>, base: f64) -> (f64, f64) {
    let ends = (f64::INFINITY, 0.0);
    let (low, high) = numbers.fold(ends, |(low, high): (f64, f64), number| {
        (low.min(number), high.max(number))
    });
    let power = |exponent: f64| base.powf(exponent);
    (
        power((low.ln() / base.ln()).floor()),
        power((high.ln() / base.ln()).ceil()),
    )
}

#[cfg(test)]
mod tests {
    use super::*;

    #[test]
    fn equal_factors_are_equal_distances() {
        let scale = Scale::new((1.0, 100.0), 200.0, 0.0);
        for (number, place) in [(1.0, 200.0), (10.0, 100.0), (100.0, 0.0)] {
            assert!((scale.place(number) - place).abs() < 1e-9);
        }
        assert_eq!(scale.powers(10.0), [1.0, 10.0, 100.0]);
    }

    #[test]
    fn the_ends_lie_around_the_numbers() {
        let (low, high) = around([30.0, 2.0, 700.0].into_iter(), 10.0);
        assert!((low - 1.0).abs() < 1e-9 && (high - 1000.0).abs() < 1e-9);
    }
}
