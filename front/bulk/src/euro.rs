//! Cents as an office writes them: `2.46`. Integer arithmetic only, so no cent is ever rounded.

/// Euros and cents with a point, exact, for programs.
pub fn euros(cents: u64) -> String {
    format!("{}.{:02}", cents / 100, cents % 100)
}

/// A whole number with a mark before every three digits.
pub fn grouped(number: u128, mark: &str) -> String {
    let digits = number.to_string();
    let groups = digits.as_bytes().rchunks(3).rev().map(String::from_utf8_lossy);
    groups.collect::<Vec<_>>().join(mark)
}

#[cfg(test)]
mod tests {
    use super::{euros, grouped};

    #[test]
    fn exact_to_the_cent() {
        for (cents, written) in [
            (0, "0.00"),
            (1, "0.01"),
            (10, "0.10"),
            (99, "0.99"),
            (100, "1.00"),
            (246, "2.46"),
            (530, "5.30"),
            (202490, "2024.90"),
            // A float would lose the last cent of these.
            (9007199254740993, "90071992547409.93"),
            (99999999999999999, "999999999999999.99"),
            (u64::MAX, "184467440737095516.15"),
        ] {
            assert_eq!(euros(cents), written);
        }
    }

    #[test]
    fn groups_of_three() {
        for (number, written) in [
            (0, "0"),
            (999, "999"),
            (1000, "1,000"),
            (100_000, "100,000"),
            (4_049_800, "4,049,800"),
            (999_999_999_999_999, "999,999,999,999,999"),
        ] {
            assert_eq!(grouped(number, ","), written);
        }
    }
}
