//! Document 01's steps 1 to 7, document 02's small trees and the project's figures, written from their text and the
//! protocol alone.
//! Every operand is checked in its range first; Err holds the number of the refusal.
use crate::{powers, protocol};

pub type Count = Result<u64, u64>;
pub type Ends = Result<(u64, u64), u64>;

const OUTSIDE_ITS_RANGE: u64 = 6;
const TARIFF_OUTSIDE_1_TO_50: u64 = 13;

/// The greatest sum whose eleven-fold fits 64 bits.
pub const GREATEST_SUM: u64 = u64::MAX / 11;

fn within(least: u64, x: u64, most: u64) -> Result<i128, u64> {
    if least <= x && x <= most {
        Ok(i128::from(x))
    } else {
        Err(OUTSIDE_ITS_RANGE)
    }
}

/// Division that drops the remainder toward the lesser whole number.
fn div(a: i128, b: i128) -> i128 {
    assert!(b > 0);
    a / b - i128::from(a % b < 0)
}

fn figure(x: i128) -> u64 {
    u64::try_from(x).expect("a figure of 64 bits")
}

/// Step 1's sum, in units of 10^-8 of a tariff, before the half is added that rounds it.
pub fn tariff_sum(c: [i32; 4], cm: i128, tenths: i128) -> i128 {
    let [c1, c2, c3, c4] = c.map(i128::from);
    10 * c1 + c2 * tenths + 10 * c3 * cm + c4 * cm * tenths
}

/// Step 1, a height tree.
pub fn single_tariff(c: [i32; 4], [cm, tenths]: [u64; 2]) -> Count {
    let cm = within(10, cm, 100)?;
    let tenths = within(1, tenths, 600)?;
    let tariff = div(tariff_sum(c, cm, tenths) + 50_000_000, 100_000_000);
    if (1..=50).contains(&tariff) {
        Ok(figure(tariff))
    } else {
        Err(TARIFF_OUTSIDE_1_TO_50)
    }
}

/// Step 1, a line.
pub fn line_tariff([sum, number]: [u64; 2]) -> Count {
    within(1, number, 1000)?;
    within(number, sum, 50 * number)?;
    Ok(sum / number)
}

/// Step 2, in hundredths of a cm. (2d−1)² ≤ 40000·S/n says that 2d−1 is at most the whole root r of it, and 2d+1 is above
/// r: d is half of r+1.
pub fn mean([n, squares]: [u64; 2]) -> Count {
    within(1, n, 1_000_000)?;
    within(49 * n, squares, 10_000 * n)?;
    let quotient = 40_000 * squares / n;
    let mut r = (quotient as f64).sqrt() as u64;
    while r * r > quotient {
        r -= 1;
    }
    while (r + 1) * (r + 1) <= quotient {
        r += 1;
    }
    let d = r.div_ceil(2);
    assert!((2 * d - 1).pow(2) * n <= 40_000 * squares && 40_000 * squares < (2 * d + 1).pow(2) * n);
    Ok(d)
}

/// Step 3, in hundredths.
pub fn trees([n, p, q]: [u64; 3]) -> Count {
    let n = within(0, n, 1_000_000)?;
    let p = within(1, p, 100_000_000)?;
    let q = within(1, q, 100_000_000)?;
    Ok(figure(div(200 * n * p + q, 2 * q)))
}

/// Step 4.
pub fn stem([tariff, d, factor, gravity]: [u64; 4]) -> Ends {
    let t = within(1, tariff, 50)?;
    let d = within(700, d, 10_000)?;
    let f = within(100, factor, 200)?;
    let s = within(1, gravity, 100)?;
    let g = div(314159265 * d * d, 40_000_000);
    let a = div(315049301 * (1_000_000_000 * t - 138763302), 10_000_000_000);
    let z = g - 118288000;
    let b = 360541 * 10_000_000_000 * t;
    let (vl, vh) = if z >= 0 { (b + a * z, b + (a + 1) * (z + 1)) } else { (b + (a + 1) * z, b + a * (z + 1)) };
    let l = div(vl, 100_000_000);
    let h = div(vh, 100_000_000) + 1;
    Ok((figure(div(l * f * s, 10000)), figure(div(h * f * s, 10000) + 1)))
}

/// The straight part of steps 5 and 6.
fn straight(a: i128, b: i128, d: i128) -> (u64, u64) {
    let low = div(100 * a + b * d, 100);
    (figure(low), figure(low + 1))
}

/// Step 5.
pub fn crown([group, d]: [u64; 2]) -> Ends {
    within(0, group, 7)?;
    within(700, d, 10_000)?;
    let [k, a, b] = protocol::crown()[group as usize];
    if d > 5_000 {
        return Ok(straight(a, b, d.into()));
    }
    let w = i128::from(powers::crown(d));
    Ok((figure(div(k * w, 1_000_000)), figure(div(k * (w + 1), 1_000_000) + 1)))
}

/// Step 6.
pub fn root([group, d]: [u64; 2]) -> Ends {
    within(0, group, 5)?;
    within(700, d, 10_000)?;
    let [curve, a, b] = protocol::root()[group as usize];
    if d > 3_000 {
        return Ok(straight(a, b, d.into()));
    }
    let y = i128::from(powers::root(d));
    Ok((figure(div(curve * y, 100_000)), figure(div(curve * (y + 1), 100_000) + 1)))
}

/// Step 7, one tree.
pub fn tree([tariff, d, factor, gravity, crown_group, root_group]: [u64; 6]) -> Ends {
    let parts = [stem([tariff, d, factor, gravity])?, crown([crown_group, d])?, root([root_group, d])?];
    Ok((parts.iter().map(|part| part.0).sum(), parts.iter().map(|part| part.1).sum()))
}

/// Step 7, a row.
pub fn row([trees, tariff, d, factor, gravity, crown_group, root_group]: [u64; 7]) -> Ends {
    let n = within(0, trees, 100_000_000)?;
    let (low, high) = tree([tariff, d, factor, gravity, crown_group, root_group])?;
    let low = div(n * i128::from(low), 100);
    let high = if n == 0 { 0 } else { div(n * i128::from(high), 100) + 1 };
    Ok((figure(low), figure(high)))
}

/// What small trees add to a row: so many of them in hundredths, and the carbon of one in mg, half of its biomass.
pub fn small_trees([number, carbon]: [u64; 2]) -> Ends {
    let number = within(0, number, 100_000_000)?;
    let carbon = within(1, carbon, u32::MAX.into())?;
    let low = div(number * (2 * carbon), 100);
    let high = if number == 0 { low } else { low + 1 };
    Ok((figure(low), figure(high)))
}

/// The project's low and high from the sums of the rows' lows and highs and of their trees.
pub fn project([low, high, trees]: [u64; 3]) -> Ends {
    let low = within(0, low, GREATEST_SUM)?;
    let high = within(0, high, GREATEST_SUM)?;
    let low = div(11 * low, 6000);
    let high = if trees == 0 { low } else { div(11 * high, 6000) + 1 };
    Ok((figure(low), figure(high)))
}

/// The greatest root whose square is not above x, and that square, by Rust's own search for it.
pub fn square_root([x]: [u64; 1]) -> Ends {
    let root = x.isqrt();
    Ok((root, root * root))
}
