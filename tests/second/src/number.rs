//! Numbers: exact fractions whose denominator is a power of ten.

use std::cmp::Ordering;

/// The most digits before the point, and behind it.
pub const MOST_WHOLE: usize = 8;
pub const MOST_DECIMALS: usize = 9;

/// A number as written: all its digits, and how many of them stand behind the point.
#[derive(Clone, Copy, Debug, PartialEq, Eq)]
pub struct Decimal {
    pub digits: u64,
    pub decimals: u32,
}

impl Decimal {
    /// Reads 1 to 8 digits, then perhaps a point and 1 to 9 digits.
    pub fn read(text: &[u8]) -> Option<Decimal> {
        let point = text.iter().position(|&byte| byte == b'.');
        let (whole, behind) = match point {
            Some(at) => (&text[..at], &text[at + 1..]),
            None => (text, &text[..0]),
        };
        let is_short = whole.len() <= MOST_WHOLE && behind.len() <= MOST_DECIMALS;
        if whole.is_empty() || (point.is_some() && behind.is_empty()) || !is_short {
            return None;
        }
        let mut digits = 0;
        for byte in whole.iter().chain(behind) {
            if !byte.is_ascii_digit() {
                return None;
            }
            digits = 10 * digits + u64::from(byte - b'0');
        }
        let decimals = behind.len() as u32;
        Some(Decimal { digits, decimals })
    }

    /// The order of the two values.
    pub fn order(self, other: Decimal) -> Ordering {
        let left = u128::from(self.digits) * other.denominator();
        let right = u128::from(other.digits) * self.denominator();
        left.cmp(&right)
    }

    /// The ends of the range, half a unit of the last digit to either side, as numerators over twice the denominator.
    fn ends(self) -> (i128, i128) {
        let middle = 2 * i128::from(self.digits);
        (middle - 1, middle + 1)
    }

    /// This number's range lies whole in the other's.
    pub fn inside(self, other: Decimal) -> bool {
        let (low, high) = self.ends();
        let (other_low, other_high) = other.ends();
        let (here, there) = (self.denominator() as i128, other.denominator() as i128);
        other_low * here <= low * there && high * there <= other_high * here
    }

    /// The other lies from half a unit of this number's last digit below it to the same above, the upper end left out.
    pub fn range_holds(self, other: Decimal) -> bool {
        // Everything is brought to the denominator 2 * self.denominator() * other.denominator().
        let here = 2 * u128::from(self.digits) * other.denominator();
        let there = 2 * u128::from(other.digits) * self.denominator();
        let half = other.denominator();
        here <= there + half && there < here + half
    }

    fn denominator(self) -> u128 {
        10u128.pow(self.decimals)
    }
}

#[cfg(test)]
mod tests {
    use super::*;

    fn decimal(text: &str) -> Decimal {
        Decimal::read(text.as_bytes()).unwrap()
    }

    #[test]
    fn readable() {
        let good = "0 00 012 99999999 1.0 0.000000001 99999999.999999999";
        for text in good.split(' ') {
            assert!(Decimal::read(text.as_bytes()).is_some(), "{text}");
        }
        let bad = " . 1. .5 -1 +1 1e2 123456789 000000000 1.0123456789 1.2.3 1,0 / : 1\t";
        for text in bad.split(' ') {
            assert!(Decimal::read(text.as_bytes()).is_none(), "{text}");
        }
    }

    #[test]
    fn exact() {
        assert!(decimal("012").order(decimal("12")).is_eq());
        assert!(decimal("12").order(decimal("12.0")).is_eq());
        assert!(decimal("99999999.999999999").order(decimal("99999999")).is_gt());
        assert!(decimal("0.000000001").order(decimal("0")).is_gt());
    }

    #[test]
    fn ranges_inside() {
        for (card, filter, inside) in [
            ("12", "12", true),
            ("012", "12", true),
            ("12.0", "12", true),
            ("12.4", "12", true),
            ("12.49", "12", true),
            ("11.6", "12", true),
            ("11.505", "12", true),
            ("11.5", "12", false),
            ("11.50", "12", false),
            ("11.51", "12", true),
            ("12.5", "12", false),
            ("12", "12.0", false),
            ("0.0", "0", true),
            ("0", "0.0", false),
            ("0", "0", true),
            ("0.4", "0", true),
            ("0.5", "0", false),
            ("0.000000001", "0", true),
            ("99999999.499999999", "99999999", true),
            ("99999999.5", "99999999", false),
        ] {
            assert_eq!(decimal(card).inside(decimal(filter)), inside, "{card} eq {filter}");
        }
    }

    #[test]
    fn ranges() {
        for (card, filter, holds) in [
            ("12.0", "12.04", true),
            ("12.0", "12.05", false),
            ("12.0", "11.95", true),
            ("12.0", "11.949999999", false),
            ("12.0", "12.049999999", true),
            ("0", "0", true),
            ("0", "0.5", false),
            ("0.000000000", "0", true),
            ("0.000000001", "0", false),
            ("1", "0.5", true),
            ("99999999", "99999999.5", false),
        ] {
            let found = decimal(card).range_holds(decimal(filter));
            assert_eq!(found, holds, "{card} co {filter}");
        }
    }
}
