//! The protocol's tables, read from its printed decimals so that no one converts them by hand.
use std::sync::OnceLock;

/// A printed decimal as a whole number of units of 10^-places. A digit that does not fit is an error.
pub fn decimal(text: &str, places: usize) -> i128 {
    let (sign, digits) = match text.strip_prefix('-') {
        Some(rest) => (-1, rest),
        None => (1, text),
    };
    let (whole, part) = digits.split_once('.').unwrap_or((digits, ""));
    assert!(part.len() <= places, "{text} has more than {places} places");
    let scaled: i128 = format!("{whole}{part:0<places$}").parse().expect("a decimal");
    sign * scaled
}

/// How many places a printed decimal has.
pub fn places(text: &str) -> usize {
    text.split_once('.').map_or(0, |(_, part)| part.len())
}

fn rows<const N: usize>(text: &str, places: [usize; N]) -> Vec<[i128; N]> {
    text.lines()
        .filter(|line| !line.is_empty() && !line.starts_with('#'))
        .map(|line| {
            let mut words = line.split_whitespace();
            places.map(|p| decimal(words.next().expect("a number for each column"), p))
        })
        .collect()
}

/// For each crown group k in 10^-10 t, a and b in mg.
pub fn crown() -> &'static [[i128; 3]] {
    static ROWS: OnceLock<Vec<[i128; 3]>> = OnceLock::new();
    ROWS.get_or_init(|| rows(include_str!("../protocol/crown.txt"), [10, 9, 9]))
}

/// For each root group b of the curve, a and b of the line, in mg.
pub fn root() -> &'static [[i128; 3]] {
    static ROWS: OnceLock<Vec<[i128; 3]>> = OnceLock::new();
    ROWS.get_or_init(|| rows(include_str!("../protocol/root.txt"), [9, 9, 9]))
}

/// For each species the four constants of the single tariff in units of 10^-7.
pub fn tariff() -> Vec<[i32; 4]> {
    rows(include_str!("../protocol/tariff.txt"), [7; 4])
        .into_iter()
        .map(|row| row.map(|c| i32::try_from(c).expect("a constant of four bytes")))
        .collect()
}

/// The height trees of strata IV to VIII of Appendix 6: stratum, cm, tenths of a metre, and the tariff.
pub fn height_trees() -> Vec<[i128; 4]> {
    rows(include_str!("../protocol/appendix6.txt"), [0, 0, 1, 0])
}
