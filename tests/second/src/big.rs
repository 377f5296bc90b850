//! Whole numbers of any size, for sums of counts that have any number of digits.

use std::cmp::Ordering;

/// Digits to base 1,000,000,000, the lowest first, no zero at the top.
#[derive(Clone, Debug, Default, PartialEq, Eq)]
pub struct Big {
    digits: Vec<u32>,
}

const BASE: u32 = 1_000_000_000;

impl Big {
    /// The value of decimal digits as characters; none is 0.
    pub fn of_decimal(characters: &[u8]) -> Big {
        let value = |part: &[u8]| {
            let add = |value: u32, &digit: &u8| 10 * value + u32::from(digit - b'0');
            part.iter().fold(0, add)
        };
        let digits = characters.rchunks(9).map(value).collect();
        Big { digits }.trimmed()
    }

    fn trimmed(mut self) -> Big {
        while self.digits.last() == Some(&0) {
            self.digits.pop();
        }
        self
    }

    pub fn is_zero(&self) -> bool {
        self.digits.is_empty()
    }

    pub fn plus(&self, other: &Big) -> Big {
        let mut digits = Vec::new();
        let mut carry = 0;
        for place in 0..self.digits.len().max(other.digits.len()) {
            let digit = |number: &Big| number.digits.get(place).copied().unwrap_or(0);
            let sum = digit(self) + digit(other) + carry;
            digits.push(sum % BASE);
            carry = sum / BASE;
        }
        digits.push(carry);
        Big { digits }.trimmed()
    }

    /// Half of it, rounded down.
    pub fn half(&self) -> Big {
        let mut digits = self.digits.clone();
        let mut carry = 0;
        for digit in digits.iter_mut().rev() {
            let whole = u64::from(carry) * u64::from(BASE) + u64::from(*digit);
            *digit = (whole / 2) as u32;
            carry = (whole % 2) as u32;
        }
        Big { digits }.trimmed()
    }

    /// The number itself where it is below 1,000,000,000.
    pub fn small(&self) -> Option<u32> {
        match self.digits[..] {
            [] => Some(0),
            [digit] => Some(digit),
            _ => None,
        }
    }
}

impl From<u32> for Big {
    fn from(number: u32) -> Big {
        let digits = vec![number % BASE, number / BASE];
        Big { digits }.trimmed()
    }
}

impl PartialOrd for Big {
    fn partial_cmp(&self, other: &Big) -> Option<Ordering> {
        Some(self.cmp(other))
    }
}

impl Ord for Big {
    fn cmp(&self, other: &Big) -> Ordering {
        let by_length = self.digits.len().cmp(&other.digits.len());
        by_length.then_with(|| self.digits.iter().rev().cmp(other.digits.iter().rev()))
    }
}

#[cfg(test)]
mod tests {
    use super::*;

    #[test]
    fn sums_and_order() {
        let big = |text: &str| Big::of_decimal(text.as_bytes());
        assert_eq!(big("000"), big(""));
        assert!(big("0000000000000").is_zero());
        assert_eq!(big("00000000065535"), Big::from(65_535));
        assert_eq!(big("4294967295"), Big::from(u32::MAX));
        assert_eq!(
            big("999999999999999999").plus(&big("1")),
            big("1000000000000000000")
        );
        assert_eq!(
            big("18446744073709551616").plus(&Big::default()),
            big("18446744073709551616")
        );
        assert!(big("340282366920938463463374607431768211456") > big("65535"));
        assert!(big("1000000001") > big("999999999"));
        assert!(big("2000000000") > big("1999999999"));
        assert!(big("65535") < big("65536"));
        assert_eq!(big("999999999").small(), Some(999_999_999));
        assert_eq!(big("1000000000").small(), None);
    }

    #[test]
    fn sums_and_halves_against_machine_numbers() {
        let mut random = crate::random::Random::new(1, 1);
        for _ in 0..10_000 {
            let any = |random: &mut crate::random::Random| {
                u128::from(random.any() >> random.below(64)) << random.below(60)
            };
            let (a, b) = (any(&mut random), any(&mut random));
            let big = |number: u128| Big::of_decimal(number.to_string().as_bytes());
            assert_eq!(big(a).plus(&big(b)), big(a + b));
            assert_eq!(big(a).half(), big(a / 2));
            assert_eq!(big(a).cmp(&big(b)), a.cmp(&b));
        }
    }
}
