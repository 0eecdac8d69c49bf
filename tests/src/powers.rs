//! The two powers of a diameter that steps 5 and 6 use, settled by comparing whole numbers.
use crate::natural::Natural;
use std::cmp::Ordering;
use std::ops::RangeInclusive;
use std::sync::OnceLock;

/// m·2^e with the top bit of m set.
#[derive(Clone, Copy, PartialEq, Eq, PartialOrd, Ord)]
struct Rounded {
    e: i64,
    m: u64,
}

#[derive(Clone, Copy)]
enum Toward {
    Less,
    Greater,
}

impl Rounded {
    fn whole(x: u64) -> Rounded {
        assert!(x > 0);
        Rounded { e: -i64::from(x.leading_zeros()), m: x << x.leading_zeros() }
    }

    fn times(self, other: Rounded, toward: Toward) -> Rounded {
        let product = u128::from(self.m) * u128::from(other.m);
        let cut = 64 - product.leading_zeros();
        let e = self.e + other.e + i64::from(cut);
        let m = (product >> cut) as u64;
        let lost = product << (128 - cut) != 0;
        match toward {
            Toward::Greater if lost && m == u64::MAX => Rounded { e: e + 1, m: 1 << 63 },
            Toward::Greater if lost => Rounded { e, m: m + 1 },
            _ => Rounded { e, m },
        }
    }

    /// The product of the powers, not above it or not below it.
    fn product(powers: &[(u64, u32)], toward: Toward) -> Rounded {
        let mut all = Rounded::whole(1);
        for &(base, exponent) in powers {
            let base = Rounded::whole(base);
            let mut power = Rounded::whole(1);
            for bit in (0..u32::BITS - exponent.leading_zeros()).rev() {
                power = power.times(power, toward);
                if exponent >> bit & 1 == 1 {
                    power = power.times(base, toward);
                }
            }
            all = all.times(power, toward);
        }
        all
    }
}

/// How one product of powers stands to another. Rounded bounds settle nearly all, whole numbers the rest.
pub fn compare(left: &[(u64, u32)], right: &[(u64, u32)]) -> Ordering {
    if Rounded::product(left, Toward::Greater) < Rounded::product(right, Toward::Less) {
        return Ordering::Less;
    }
    if Rounded::product(left, Toward::Less) > Rounded::product(right, Toward::Greater) {
        return Ordering::Greater;
    }
    compare_whole(left, right)
}

/// The same by whole numbers alone.
pub fn compare_whole(left: &[(u64, u32)], right: &[(u64, u32)]) -> Ordering {
    let product = |powers: &[(u64, u32)]| {
        powers.iter().fold(Natural::of(1), |all, &(base, exponent)| all.times(&Natural::power(base, exponent)))
    };
    product(left).cmp(&product(right))
}

/// The greatest whole number that passes a test which all lesser ones pass, from any guess.
fn greatest(guess: u64, passes: impl Fn(u64) -> bool) -> u64 {
    let mut x = guess;
    while !passes(x) {
        x -= 1;
    }
    while passes(x + 1) {
        x += 1;
    }
    x
}

/// The diameters whose crown takes the power, and those whose root does, in hundredths of a cm.
pub const CURVED_CROWN: RangeInclusive<u64> = 700..=5000;
pub const CURVED_ROOT: RangeInclusive<u64> = 700..=3000;

/// 10^466·d^24767, which is the crown power to the 10000th in units of 10^-5.
pub fn crown_limit(d: u64) -> [(u64, u32); 2] {
    [(10, 466), (d, 24767)]
}

/// w of step 5: the greatest with w^10000 ≤ 10^466·d^24767.
pub fn crown(d: u64) -> u64 {
    static W: OnceLock<Vec<u64>> = OnceLock::new();
    let all = W.get_or_init(|| {
        CURVED_CROWN
            .map(|d| {
                let guess = (d as f64 / 100.0).powf(2.4767) * 1e5;
                greatest(guess as u64, |w| compare(&[(w, 10000)], &crown_limit(d)) != Ordering::Greater)
            })
            .collect()
    });
    all[(d - CURVED_CROWN.start()) as usize]
}

/// y of step 6: the greatest with y² ≤ d^5.
pub fn root(d: u64) -> u64 {
    let limit = u128::from(d).pow(5);
    greatest((limit as f64).sqrt() as u64, |y| u128::from(y).pow(2) <= limit)
}
