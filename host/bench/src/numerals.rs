//! Numbers as they are written.

/// A number with a comma between its thousands.
pub fn thousands(number: usize) -> String {
    match number {
        0..1000 => number.to_string(),
        _ => format!("{},{:03}", thousands(number / 1000), number % 1000),
    }
}

#[cfg(test)]
mod tests {
    use super::thousands;

    #[test]
    fn thousands_have_commas() {
        assert_eq!(thousands(999), "999");
        assert_eq!(thousands(60004), "60,004");
        assert_eq!(thousands(1_000_000), "1,000,000");
    }
}
