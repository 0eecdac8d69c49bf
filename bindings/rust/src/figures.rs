use crate::boundary;
use crate::refusal::Refusal;

/// Of oven-dry biomass.
#[derive(Clone, Copy, PartialEq, Eq, PartialOrd, Ord, Hash, Debug)]
pub struct Milligrams(pub u64);

/// Of carbon dioxide.
#[derive(Clone, Copy, PartialEq, Eq, PartialOrd, Ord, Hash, Debug)]
pub struct Grams(pub u64);

/// From the low to the high, ends included. The two units are two types, so that they cannot be added to each other.
#[derive(Clone, Copy, PartialEq, Eq, Hash, Debug)]
pub struct Range<Unit> {
    pub low: Unit,
    pub high: Unit,
}

/// How many units of a mean diameter there are to the cm: it is in HUNDREDTHS of a cm, 700 to 10000.
///
/// THE UNIT CHANGED WITH 3.0.0. Up to 2.0.0 it was tenths of a cm, 70 to 1000. Of numbers in tenths, 70 to 699 are refused
/// now, but 700 to 1000 are taken as 7 to 10 cm. Make them of centimetres, by this number. A sheet that was kept from before
/// has tenths, and nothing in it says so.
///
/// ```
/// use fieldbook::{mean, root, Milligrams, Refusal, UNITS_TO_CM};
///
/// // A tree of 7 cm; and 24 of 60 cm with one of 59.
/// assert_eq!(mean(1, 49), Ok(7 * UNITS_TO_CM));
/// assert_eq!(mean(25, 24 * 60 * 60 + 59 * 59), Ok(59 * UNITS_TO_CM + 96));
/// // The root of a red alder of 10 cm. The tenths of before are less than 7 cm.
/// assert_eq!(root(5, 10 * UNITS_TO_CM)?.low, Milligrams(7178370));
/// assert_eq!(root(5, 100), Err(Refusal::OPERAND));
/// # Ok::<(), Refusal>(())
/// ```
pub const UNITS_TO_CM: u64 = 100;

/// The tree that stands for a line's trees.
#[derive(Clone, Copy, PartialEq, Eq, Debug)]
pub struct AverageTree {
    /// 1 to 50.
    pub tariff: u64,
    /// Mean diameter in HUNDREDTHS of a cm, 700 to 10000, since 3.0.0: [`UNITS_TO_CM`].
    pub d: u64,
    /// Total over merchantable stem volume in hundredths, 100 to 200.
    pub factor: u64,
    /// Specific gravity in hundredths, 1 to 100.
    pub gravity: u64,
    /// Crown group, 0 to 7.
    pub crown: u64,
    /// Root group, 0 to 5.
    pub root: u64,
}

fn count(put: impl FnOnce(&mut u64) -> u8) -> Result<u64, Refusal> {
    let mut answer = 0;
    Refusal::unless_accepted(put(&mut answer))?;
    Ok(answer)
}

fn range<Unit>(unit: fn(u64) -> Unit, put: impl FnOnce(&mut [u64; 2]) -> u8) -> Result<Range<Unit>, Refusal> {
    let mut answer = [0; 2];
    Refusal::unless_accepted(put(&mut answer))?;
    let [low, high] = answer.map(unit);
    Ok(Range { low, high })
}

/// The tariff of a height tree, 1 to 50: constants of its species, diameter 10 to 100 cm, height 1 to 600 tenths of a
/// metre.
///
/// ```
/// use fieldbook::{single_tariff, Refusal};
///
/// let oak = [58830000, 20123000, -54780, -57397];
/// assert_eq!(single_tariff(oak, 17, 106), Ok(26));
/// assert_eq!(single_tariff(oak, 9, 106), Err(Refusal::OPERAND));
/// assert_eq!(single_tariff(oak, 17, 600), Err(Refusal::TARIFF));
/// ```
pub fn single_tariff([c1, c2, c3, c4]: [i32; 4], cm: u64, tenths: u64) -> Result<u64, Refusal> {
    count(|answer| boundary::single_tariff(c1, c2, c3, c4, cm, tenths, answer))
}

/// The tariff of a line: the sum of its single tariffs, and their number, 1 to 1,000.
pub fn line_tariff(sum: u64, number: u64) -> Result<u64, Refusal> {
    count(|answer| boundary::line_tariff(sum, number, answer))
}

/// The mean diameter in HUNDREDTHS of a cm, since 3.0.0: 1 to 1,000,000 measured trees, and the sum of their classes
/// squared. See [`UNITS_TO_CM`].
pub fn mean(n: u64, squares: u64) -> Result<u64, Refusal> {
    count(|answer| boundary::mean(n, squares, answer))
}

/// The estimated trees in hundredths: measured trees or small ones, up to 1,000,000; p and q, 1 to 100,000,000. Here q
/// may be above p, as in no line of a book.
pub fn trees(n: u64, p: u64, q: u64) -> Result<u64, Refusal> {
    count(|answer| boundary::trees(n, p, q, answer))
}

/// The stem of one tree. The ranges are those of [`AverageTree`].
pub fn stem(tariff: u64, d: u64, factor: u64, gravity: u64) -> Result<Range<Milligrams>, Refusal> {
    range(Milligrams, |answer| boundary::stem(tariff, d, factor, gravity, answer))
}

/// The crown of one tree: a group, 0 to 7, and d as in [`AverageTree`].
pub fn crown(group: u64, d: u64) -> Result<Range<Milligrams>, Refusal> {
    range(Milligrams, |answer| boundary::crown(group, d, answer))
}

/// The root of one tree: a group, 0 to 5, and d as in [`AverageTree`].
pub fn root(group: u64, d: u64) -> Result<Range<Milligrams>, Refusal> {
    range(Milligrams, |answer| boundary::root(group, d, answer))
}

/// Stem, crown and root of one tree.
pub fn tree(tree: AverageTree) -> Result<Range<Milligrams>, Refusal> {
    let AverageTree { tariff, d, factor, gravity, crown, root } = tree;
    range(Milligrams, |answer| boundary::tree(tariff, d, factor, gravity, crown, root, answer))
}

/// The measured trees of a row: estimated trees in hundredths, up to 100,000,000, and the tree that stands for them.
pub fn row(trees: u64, tree: AverageTree) -> Result<Range<Milligrams>, Refusal> {
    let AverageTree { tariff, d, factor, gravity, crown, root } = tree;
    range(Milligrams, |answer| boundary::row(trees, tariff, d, factor, gravity, crown, root, answer))
}

/// The small trees of a row: so many of them, estimated, in hundredths, up to 100,000,000, and the carbon of one in mg,
/// 1 to 4,294,967,295. Carbon is half of biomass.
///
/// ```
/// use fieldbook::{small_trees, trees, Milligrams, Refusal};
///
/// // 289 saplings in plots of 1,000 square metres, of 240,000 square metres, each of 0.0015756 t of carbon.
/// let saplings = small_trees(trees(289, 240_000, 1_000)?, 1_575_600)?;
/// assert_eq!(saplings.low, Milligrams(218_567_232_000));
/// assert_eq!(saplings.high, Milligrams(218_567_232_001));
/// assert_eq!(small_trees(100, 0), Err(Refusal::OPERAND));
/// # Ok::<(), Refusal>(())
/// ```
pub fn small_trees(number: u64, carbon: u64) -> Result<Range<Milligrams>, Refusal> {
    range(Milligrams, |answer| boundary::small_trees(number, carbon, answer))
}

/// A project: the sums of its rows' lows and highs, each up to 1,676,976,733,973,595,601, and of their trees.
pub fn project(sums: Range<Milligrams>, trees: u64) -> Result<Range<Grams>, Refusal> {
    range(Grams, |answer| boundary::project(sums.low.0, sums.high.0, trees, answer))
}

/// A root, and its square.
#[derive(Clone, Copy, PartialEq, Eq, Hash, Debug)]
pub struct SquareRoot {
    pub root: u64,
    pub square: u64,
}

/// The greatest root whose square is not above `x`, and that square: the search that a tree's root is worked with. Every
/// `x` has one.
///
/// ```
/// use fieldbook::{square_root, SquareRoot};
///
/// assert_eq!(square_root(15), SquareRoot { root: 3, square: 9 });
/// assert_eq!(square_root(u64::MAX).root, 0xffff_ffff);
/// ```
pub fn square_root(x: u64) -> SquareRoot {
    let [mut root, mut square] = [0; 2];
    boundary::square_root(x, &mut root, &mut square);
    SquareRoot { root, square }
}
