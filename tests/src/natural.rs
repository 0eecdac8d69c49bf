//! Whole numbers of any size, exact: all that comparing powers needs.
use std::cmp::Ordering;

/// Numbers of fewer digits are squared as any others are multiplied.
const FEW: usize = 64;

/// Digits to the base 2^64, the least first, with no 0 at the end.
#[derive(Clone, PartialEq, Eq, Debug)]
pub struct Natural(Vec<u64>);

impl Natural {
    pub fn of(x: u128) -> Natural {
        Natural::trimmed(vec![x as u64, (x >> 64) as u64])
    }

    fn trimmed(mut digits: Vec<u64>) -> Natural {
        while digits.last() == Some(&0) {
            digits.pop();
        }
        Natural(digits)
    }

    pub fn plus(&self, other: &Natural) -> Natural {
        let (long, short) = if self.0.len() < other.0.len() { (other, self) } else { (self, other) };
        let mut sum = Vec::with_capacity(long.0.len() + 1);
        let mut carry = 0;
        for (i, &digit) in long.0.iter().enumerate() {
            let s = u128::from(digit) + u128::from(short.0.get(i).copied().unwrap_or(0)) + carry;
            sum.push(s as u64);
            carry = s >> 64;
        }
        sum.push(carry as u64);
        Natural::trimmed(sum)
    }

    pub fn times(&self, other: &Natural) -> Natural {
        let mut product = vec![0u64; self.0.len() + other.0.len()];
        for (i, &a) in self.0.iter().enumerate() {
            let mut carry = 0u64;
            for (place, &b) in product[i..].iter_mut().zip(&other.0) {
                // At most (2^64 - 1)^2 + 2·(2^64 - 1) = 2^128 - 1.
                let s = u128::from(a) * u128::from(b) + u128::from(*place) + u128::from(carry);
                *place = s as u64;
                carry = (s >> 64) as u64;
            }
            product[i + other.0.len()] = carry;
        }
        Natural::trimmed(product)
    }

    /// Less another one, which is not greater.
    fn minus(mut self, other: &Natural) -> Natural {
        let mut borrow = false;
        for (i, digit) in self.0.iter_mut().enumerate() {
            let (less, under) = digit.overflowing_sub(other.0.get(i).copied().unwrap_or(0));
            let (less, under_again) = less.overflowing_sub(borrow.into());
            (*digit, borrow) = (less, under || under_again);
        }
        assert!(!borrow && other.0.len() <= self.0.len());
        Natural::trimmed(self.0)
    }

    /// With so many digits 0 below its own.
    fn shifted(&self, digits: usize) -> Natural {
        Natural::trimmed([&vec![0; digits], &self.0[..]].concat())
    }

    /// Cut in two, high·B + low, by three squares of half the length: high²·B² + ((high + low)² - high² - low²)·B + low².
    fn squared(&self) -> Natural {
        if self.0.len() < FEW {
            return self.times(self);
        }
        let cut = self.0.len() / 2;
        let [low, high] = [&self.0[..cut], &self.0[cut..]].map(|digits| Natural::trimmed(digits.to_vec()));
        let (low_square, high_square) = (low.squared(), high.squared());
        let middle = low.plus(&high).squared().minus(&low_square.plus(&high_square));
        high_square.shifted(2 * cut).plus(&middle.shifted(cut)).plus(&low_square)
    }

    /// By squaring: one bit of the exponent at a time, from the top.
    pub fn power(base: u64, exponent: u32) -> Natural {
        let base = Natural::of(base.into());
        let mut power = Natural::of(1);
        for bit in (0..u32::BITS - exponent.leading_zeros()).rev() {
            power = power.squared();
            if exponent >> bit & 1 == 1 {
                power = power.times(&base);
            }
        }
        power
    }
}

impl Ord for Natural {
    fn cmp(&self, other: &Natural) -> Ordering {
        let by_length = self.0.len().cmp(&other.0.len());
        by_length.then_with(|| self.0.iter().rev().cmp(other.0.iter().rev()))
    }
}

impl PartialOrd for Natural {
    fn partial_cmp(&self, other: &Natural) -> Option<Ordering> {
        Some(self.cmp(other))
    }
}
