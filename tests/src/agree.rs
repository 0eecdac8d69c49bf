//! The proved library against the independent steps, over whole ranges where they can be walked.
use crate::proved::{self, Answer};
use crate::random::Random;
use crate::report::{Report, Tally};
use crate::{powers, protocol, steps};
use std::fmt::Debug;

/// Operands that the library takes and the steps take.
pub struct Pair<const N: usize, S> {
    pub ask: fn([u64; N]) -> Answer,
    pub step: fn([u64; N]) -> S,
}

impl<const N: usize, S: Into<Answer>> Pair<N, S> {
    pub fn agree(&self, tally: &mut Tally, operands: [u64; N]) {
        tally.same(operands, (self.ask)(operands), (self.step)(operands).into());
    }

    /// What both answer is this, which is worked out elsewhere.
    pub fn gives(&self, tally: &mut Tally, operands: [u64; N], expected: S)
    where
        S: Clone + PartialEq + Debug,
    {
        tally.same(operands, (self.ask)(operands), expected.clone().into());
        tally.same(operands, (self.step)(operands), expected);
    }
}

pub const LINE_TARIFF: Pair<2, steps::Count> = Pair { ask: proved::line_tariff, step: steps::line_tariff };
pub const MEAN: Pair<2, steps::Count> = Pair { ask: proved::mean, step: steps::mean };
pub const TREES: Pair<3, steps::Count> = Pair { ask: proved::trees, step: steps::trees };
pub const STEM: Pair<4, steps::Ends> = Pair { ask: proved::stem, step: steps::stem };
pub const CROWN: Pair<2, steps::Ends> = Pair { ask: proved::crown, step: steps::crown };
pub const ROOT: Pair<2, steps::Ends> = Pair { ask: proved::root, step: steps::root };
pub const TREE: Pair<6, steps::Ends> = Pair { ask: proved::tree, step: steps::tree };
pub const ROW: Pair<7, steps::Ends> = Pair { ask: proved::row, step: steps::row };
pub const SMALL_TREES: Pair<2, steps::Ends> = Pair { ask: proved::small_trees, step: steps::small_trees };
pub const PROJECT: Pair<3, steps::Ends> = Pair { ask: proved::project, step: steps::project };
pub const SQUARE_ROOT: Pair<1, steps::Ends> = Pair { ask: proved::square_root, step: steps::square_root };

pub const TARIFF: (u64, u64) = (1, 50);
pub const D: (u64, u64) = (700, 10_000);
pub const FACTOR: (u64, u64) = (100, 200);
pub const GRAVITY: (u64, u64) = (1, 100);
pub const CROWN_GROUP: (u64, u64) = (0, 7);
pub const ROOT_GROUP: (u64, u64) = (0, 5);
pub const TREE_RANGES: [(u64, u64); 6] = [TARIFF, D, FACTOR, GRAVITY, CROWN_GROUP, ROOT_GROUP];
pub const CM: (u64, u64) = (10, 100);
pub const TENTHS: (u64, u64) = (1, 600);
pub const MEASURED: (u64, u64) = (0, 1_000_000);
pub const AREA: (u64, u64) = (1, 100_000_000);
const NUMBER: (u64, u64) = (1, 1000);
pub const HUNDREDTHS: (u64, u64) = (0, 100_000_000);
pub const CARBON: (u64, u64) = (1, u32::MAX as u64);
pub const SUM: (u64, u64) = (0, steps::GREATEST_SUM);
pub const ANY: (u64, u64) = (0, u64::MAX);

fn all((least, most): (u64, u64)) -> std::ops::RangeInclusive<u64> {
    least..=most
}

/// The row's operands: its trees, then the tree's.
pub fn row_ranges() -> [(u64, u64); 7] {
    let [t, d, f, s, c, r] = TREE_RANGES;
    [HUNDREDTHS, t, d, f, s, c, r]
}

pub fn some<const N: usize>(random: &mut Random, ranges: [(u64, u64); N]) -> [u64; N] {
    ranges.map(|(least, most)| random.between(least, most))
}

pub fn run(report: &mut Report) {
    tariffs(report);
    means(report);
    estimates(report);
    less_than_a_tree(report);
    parts(report);
    borders(report);
    sums(report);
    square_roots(report);
    refusals(report);
}

fn same_tariff(tally: &mut Tally, c: [i32; 4], at: [u64; 2]) {
    tally.same((c, at), proved::single_tariff(c, at), steps::single_tariff(c, at).into());
}

fn tariffs(report: &mut Report) {
    report.check("single tariff, every printed species, cm and tenth of a metre", |tally| {
        for c in protocol::tariff() {
            for cm in all(CM) {
                for tenths in all(TENTHS) {
                    same_tariff(tally, c, [cm, tenths]);
                }
            }
        }
    });
    report.check("single tariff, constants at the ends of four bytes", |tally| {
        const ENDS: [i32; 7] = [i32::MIN, i32::MIN + 1, -1, 0, 1, i32::MAX - 1, i32::MAX];
        for i in 0..7usize.pow(4) {
            let c = [i, i / 7, i / 49, i / 343].map(|j| ENDS[j % 7]);
            for cm in [10, 11, 99, 100] {
                for tenths in [1, 2, 599, 600] {
                    same_tariff(tally, c, [cm, tenths]);
                }
            }
        }
    });
    report.check("single tariff, constants by chance", |tally| {
        let mut random = Random::new(1);
        for _ in 0..1_000_000 {
            let c = [(); 4].map(|()| random.signed(i32::MIN, i32::MAX));
            same_tariff(tally, c, some(&mut random, [CM, TENTHS]));
        }
    });
    // A sum of any sign just below, at and above a whole tariff: there a remainder dropped toward 0 shows.
    report.check("single tariff, sums around every multiple of 10^8 from -3 to 53", |tally| {
        let mut random = Random::new(2);
        let mut reached = 0;
        for target in -3i128..=53 {
            for _ in 0..5_000 {
                let [cm, tenths] = some(&mut random, [CM, TENTHS]);
                let off = random.signed(-3, 3);
                let [c2, c3, c4] = [30_000_000, 10_000_000, 200_000].map(|most| random.signed(-most, most));
                let wanted = target * 100_000_000 + i128::from(off) - 50_000_000;
                // c1 comes in steps of ten: a few tries of c2 find the last digit where it can be found.
                for c2 in c2..c2 + 10 {
                    let rest = wanted - steps::tariff_sum([0, c2, c3, c4], cm.into(), tenths.into());
                    if let (0, Ok(c1)) = (rest % 10, i32::try_from(rest / 10)) {
                        same_tariff(tally, [c1, c2, c3, c4], [cm, tenths]);
                        reached += 1;
                        break;
                    }
                }
            }
        }
        tally.holds(reached > 100_000, ("too few sums were reached", reached));
    });
    report.check("line tariff, every number and sum", |tally| {
        for number in all(NUMBER) {
            for sum in number..=50 * number {
                LINE_TARIFF.agree(tally, [sum, number]);
            }
        }
    });
}

/// Numbers of trees from 1 to a million: all small ones, then ever wider apart, and the greatest.
fn numbers() -> impl Iterator<Item = u64> {
    let mut random = Random::new(3);
    let wide = (1_000..1_000_000).step_by(999).map(move |n| n + random.between(0, 998));
    (1..=1_000).chain(wide).filter(|&n| n <= 1_000_000).chain([999_999, 1_000_000])
}

/// The least sum of squares whose mean is d.
fn least_squares(d: u64, n: u64) -> u64 {
    ((2 * d - 1).pow(2) * n).div_ceil(40_000)
}

/// The least number of trees for which (2d−1)²·n is a multiple of 40000, which is 2^6·5^4: so it is for its multiples, and
/// for no others.
fn whole_border(d: u64) -> u64 {
    (0..=4).map(|fives| 64 * 5u64.pow(fives)).find(|n| ((2 * d - 1).pow(2) * n).is_multiple_of(40_000)).expect("40000")
}

fn means(report: &mut Report) {
    report.check("mean, every sum of squares of up to 40 trees", |tally| {
        tally.each(1..=40, |tally, &n| {
            (49 * n..=10_000 * n).for_each(|squares| MEAN.agree(tally, [n, squares]));
        });
    });
    report.check("mean, around the least sum of squares of every d", |tally| {
        tally.each(numbers(), |tally, &n| {
            for d in D.0..=D.1 + 1 {
                let least = least_squares(d, n);
                (least - 1..=least + 1).for_each(|squares| MEAN.agree(tally, [n, squares]));
            }
        });
    });
    // There the sum with equality belongs to d, and the sum before it to d - 1.
    report.check("mean, every d and number of trees where (2d−1)²·n is 40000 times a sum of squares", |tally| {
        tally.each(D.0 + 1..=D.1, |tally, &d| {
            for n in (whole_border(d)..=MEASURED.1).step_by(whole_border(d) as usize) {
                let squares = (2 * d - 1).pow(2) * n / 40_000;
                MEAN.gives(tally, [n, squares], Ok(d));
                MEAN.gives(tally, [n, squares - 1], Ok(d - 1));
            }
        });
    });
    report.check("mean, every number of trees, at and around a d by chance", |tally| {
        let mut random = Random::new(4);
        for n in 1..=MEASURED.1 {
            let least = least_squares(random.between(D.0, D.1), n);
            for squares in [least - 1, least, random.between(49 * n, 10_000 * n)] {
                MEAN.agree(tally, [n, squares]);
            }
        }
    });
}

fn estimates(report: &mut Report) {
    report.check("trees, at the ends and by chance", |tally| {
        let mut random = Random::new(5);
        let ends = |(least, most): (u64, u64)| [least, least + 1, 2, 3, 7, most / 2, most - 1, most];
        for n in ends(MEASURED) {
            for p in ends(AREA) {
                for q in ends(AREA) {
                    TREES.agree(tally, [n, p, q]);
                }
            }
        }
        for _ in 0..1_000_000 {
            TREES.agree(tally, some(&mut random, [MEASURED, AREA, AREA]));
            let [n, p, q] = [MEASURED, AREA, AREA].map(|(least, most)| random.of_any_size(most).max(least));
            TREES.agree(tally, [n, p, q]);
        }
    });
}

/// Plots so far above the net area that n·p/q is about half a hundredth of a tree, where the number begins to be 1, and
/// about other halves. The greatest q of a number k has q·(2k-1) at most 200·n·p.
fn about_halves(tally: &mut Tally, random: &mut Random, n: u64, p: u64) {
    for k in [1, 2, 3, random.between(4, 100)] {
        let greatest = 200 * n * p / (2 * k - 1);
        for q in [greatest - 1, greatest, greatest + 1].into_iter().filter(|q| (p..=AREA.1).contains(q)) {
            TREES.agree(tally, [n, p, q]);
            let [trees, _] = proved::trees([n, p, q]).accepted();
            tally.holds((trees >= k) == (q <= greatest), (n, p, q, trees, k));
        }
    }
    TREES.agree(tally, [n, p, AREA.1]);
}

/// No line has plots above its net area, but the figure takes any areas.
fn less_than_a_tree(report: &mut Report) {
    report.check("trees, plots above the area: less than a tree, and about halves of a hundredth", |tally| {
        for (n, p, trees) in [(1, 1, 0), (499_999, 1, 0), (500_000, 1, 1), (1, 499_999, 0), (1, 500_000, 1)] {
            tally.same((n, p, AREA.1), proved::trees([n, p, AREA.1]).accepted(), [trees, 0]);
        }
        let mut random = Random::new(15);
        for n in 1..=500 {
            (1..=500).for_each(|p| about_halves(tally, &mut random, n, p));
        }
        for _ in 0..200_000 {
            let n = random.of_any_size(499_999) + 1;
            let p = random.between(1, 500_000 / n);
            about_halves(tally, &mut random, n, p);
        }
    });
}

/// The factors and gravities that every stem is worked with.
pub const FACTORS: [u64; 4] = [100, 101, 150, 200];
pub const GRAVITIES: [u64; 4] = [1, 56, 99, 100];

fn parts(report: &mut Report) {
    report.check("stem, every tariff and d with 4 factors and 4 gravities", |tally| {
        tally.each(all(D), |tally, &d| {
            for tariff in all(TARIFF) {
                for factor in FACTORS {
                    for gravity in GRAVITIES {
                        STEM.agree(tally, [tariff, d, factor, gravity]);
                    }
                }
            }
        });
    });
    // 3880 and 3881 are either side of 0.118288 m² of basal area.
    report.check("stem, every factor and gravity at 18 trees", |tally| {
        for tariff in [1, 26, 50] {
            for d in [700, 701, 3_880, 3_881, 9_999, 10_000] {
                for factor in all(FACTOR) {
                    for gravity in all(GRAVITY) {
                        STEM.agree(tally, [tariff, d, factor, gravity]);
                    }
                }
            }
        }
    });
    report.check("crown, every group and d", |tally| {
        for group in all(CROWN_GROUP) {
            for d in all(D) {
                CROWN.agree(tally, [group, d]);
            }
        }
    });
    report.check("root, every group and d", |tally| {
        for group in all(ROOT_GROUP) {
            for d in all(D) {
                ROOT.agree(tally, [group, d]);
            }
        }
    });
}

/// Where a range or a formula ends. The figures were worked out by decimals of 60 digits.
fn borders(report: &mut Report) {
    const OUTSIDE: u64 = 6;
    report.check("mean, at its borders by name", |tally| {
        for (operands, d) in [
            ([1, 48], Err(OUTSIDE)),
            ([1, 49], Ok(700)),
            ([1, 10_000], Ok(10_000)),
            ([1, 10_001], Err(OUTSIDE)),
            ([1_000_000, 48_999_999], Err(OUTSIDE)),
            ([1_000_000, 49_000_000], Ok(700)),
            ([1_000_000, 9_999_000_024], Ok(9_999)),
            ([1_000_000, 9_999_000_025], Ok(10_000)),
            ([1_000_000, 10_000_000_000], Ok(10_000)),
            ([1_000_000, 10_000_000_001], Err(OUTSIDE)),
            ([1_000_001, 10_000_000_000], Err(OUTSIDE)),
        ] {
            MEAN.gives(tally, operands, d);
        }
        // A tree of each class has its class, in the unit that the crate names.
        for class in 7..=100 {
            MEAN.gives(tally, [1, class * class], Ok(class * fieldbook::UNITS_TO_CM));
        }
    });
    report.check("stem, crown and root, at the borders of d by name", |tally| {
        for d in [0, 70, 699, 10_001] {
            STEM.gives(tally, [26, d, 130, 56], Err(OUTSIDE));
            CROWN.gives(tally, [7, d], Err(OUTSIDE));
            ROOT.gives(tally, [5, d], Err(OUTSIDE));
        }
        STEM.gives(tally, [26, 700, 130, 56], Ok((3_642_168, 3_642_176)));
        STEM.gives(tally, [50, 10_000, 200, 100], Ok((24_564_340_524, 24_564_340_573)));
        for (d, low) in [(700, 2_087_794), (5_000, 271_939_578), (5_001, 272_076_284), (10_000, 955_429_636)] {
            CROWN.gives(tally, [7, d], Ok((low, low + 1)));
        }
        for (d, low) in [(700, 2_942_869), (3_000, 111_899_718), (3_001, 111_995_319), (10_000, 781_057_096)] {
            ROOT.gives(tally, [5, d], Ok((low, low + 1)));
        }
    });
}

fn sums(report: &mut Report) {
    report.check("tree, every d and both groups", |tally| {
        let mut random = Random::new(6);
        for d in all(D) {
            for crown in all(CROWN_GROUP) {
                for root in all(ROOT_GROUP) {
                    let [tariff, factor, gravity] = some(&mut random, [TARIFF, FACTOR, GRAVITY]);
                    TREE.agree(tally, [tariff, d, factor, gravity, crown, root]);
                }
            }
        }
    });
    report.check("tree, by chance", |tally| {
        let mut random = Random::new(7);
        for _ in 0..500_000 {
            TREE.agree(tally, some(&mut random, TREE_RANGES));
        }
    });
    report.check("row, at the ends and by chance", |tally| {
        let mut random = Random::new(8);
        for _ in 0..200_000 {
            let [_, tree @ ..] = some(&mut random, row_ranges());
            let [t, d, f, s, c, r] = tree;
            for trees in [0, 1, 99, 100, 101, HUNDREDTHS.1 - 1, HUNDREDTHS.1] {
                ROW.agree(tally, [trees, t, d, f, s, c, r]);
            }
            ROW.agree(tally, [random.of_any_size(HUNDREDTHS.1), t, d, f, s, c, r]);
        }
    });
    report.check("small trees, at the ends and by chance", |tally| {
        let mut random = Random::new(14);
        let ends = |(least, most): (u64, u64)| (least..=least + 1_000).chain(most - 1_000..=most);
        for number in ends(HUNDREDTHS) {
            for carbon in ends(CARBON) {
                SMALL_TREES.agree(tally, [number, carbon]);
            }
        }
        for _ in 0..1_000_000 {
            SMALL_TREES.agree(tally, some(&mut random, [HUNDREDTHS, CARBON]));
            let operands = [HUNDREDTHS, CARBON].map(|(least, most)| random.of_any_size(most).max(least));
            SMALL_TREES.agree(tally, operands);
        }
    });
    report.check("project, at the ends and by chance", |tally| {
        let mut random = Random::new(9);
        // 6000 mg are 11 g: the steps of the division, and the ends of the sums.
        let mut ends: Vec<u64> = (0..=6_001).collect();
        ends.extend(SUM.1 - 6_001..=SUM.1);
        for &sum in &ends {
            for trees in [0, 1, u64::MAX] {
                PROJECT.agree(tally, [sum, sum, trees]);
                PROJECT.agree(tally, [sum, SUM.1, trees]);
                PROJECT.agree(tally, [SUM.1, sum, trees]);
            }
        }
        for _ in 0..1_000_000 {
            let [low, high] = [(); 2].map(|()| random.of_any_size(SUM.1));
            let trees = random.of_any_size(ANY.1);
            PROJECT.agree(tally, [low, high, trees]);
        }
    });
}

/// Every kind of end that the library's square root meets: the ends of 64 bits, and numbers about a power of 2.
pub fn ends_of_roots() -> Vec<u64> {
    let powers = (1..64).flat_map(|bits| [(1 << bits) - 1, 1 << bits, (1 << bits) + 1]);
    (0..=4).chain(powers).chain(u64::MAX - 4..=u64::MAX).collect()
}

/// The number before a square, the square, and the number after it.
pub fn about_square(root: u64) -> [u64; 3] {
    [root * root - 1, root * root, root * root + 1]
}

/// By the steps, and by the two inequalities in numbers of 128 bits.
fn same_root(tally: &mut Tally, x: u64) {
    SQUARE_ROOT.agree(tally, [x]);
    let [root, square] = proved::square_root([x]).accepted().map(u128::from);
    tally.holds(square == root * root && square <= x.into() && u128::from(x) < (root + 1).pow(2), (x, root, square));
}

fn square_roots(report: &mut Report) {
    const GREATEST: u64 = u32::MAX as u64;
    report.check("square root, every number up to 1,000,000 and the ends of 64 bits", |tally| {
        (0..=1_000_000).chain(ends_of_roots()).for_each(|x| same_root(tally, x));
    });
    report.check("square root, about every square of a root up to 100,000 and of the last 100,000", |tally| {
        let roots = (1..=100_000).chain(GREATEST - 99_999..=GREATEST);
        roots.flat_map(about_square).for_each(|x| same_root(tally, x));
    });
    report.check("square root, by chance and about squares by chance", |tally| {
        let mut random = Random::new(16);
        for _ in 0..500_000 {
            let roots = [random.between(1, GREATEST), random.of_any_size(GREATEST).max(1)];
            roots.into_iter().flat_map(about_square).for_each(|x| same_root(tally, x));
            [random.any(), random.of_any_size(u64::MAX)].into_iter().for_each(|x| same_root(tally, x));
        }
    });
    report.check("square root, of every number that a root is worked with", |tally| {
        powers::CURVED_ROOT.for_each(|d| same_root(tally, d.pow(5)));
    });
}

/// Numbers inside a range and out of it: its ends, one beyond each, 0, the greatest of 64 bits.
fn edges((least, most): (u64, u64)) -> Vec<u64> {
    let mut edges = vec![least.wrapping_sub(1), least, most, most.wrapping_add(1), 0, u64::MAX];
    edges.sort();
    edges.dedup();
    edges
}

/// Numbers that are inside a range only to a test that looks at fewer than 64 bits.
fn disguised((least, most): (u64, u64)) -> Vec<u64> {
    [8, 16, 31, 32, 63].into_iter().flat_map(|bits| [least, most].map(|x| x.wrapping_add(1 << bits))).collect()
}

/// Every edge of every operand with every edge of the others; then each operand alone, disguised or
/// by chance, with the others in their ranges.
fn refuse<const N: usize, S: Into<Answer>>(tally: &mut Tally, pair: &Pair<N, S>, ranges: [(u64, u64); N]) {
    let each = ranges.map(edges);
    let mut at = [0; N];
    'walk: loop {
        pair.agree(tally, std::array::from_fn(|i| each[i][at[i]]));
        for i in 0..N {
            at[i] += 1;
            if at[i] < each[i].len() {
                continue 'walk;
            }
            at[i] = 0;
        }
        break;
    }
    let mut random = Random::new(10);
    for i in 0..N {
        for _ in 0..1_000 {
            let odd = edges(ranges[i]).into_iter().chain(disguised(ranges[i]));
            for odd in odd.chain([random.any(), random.of_any_size(u64::MAX)]).collect::<Vec<_>>() {
                let mut operands = some(&mut random, ranges);
                operands[i] = odd;
                pair.agree(tally, operands);
            }
        }
    }
}

fn refusals(report: &mut Report) {
    report.check("refusals of the single tariff", |tally| {
        let mut random = Random::new(11);
        let odd = |range| [edges(range), disguised(range)].concat();
        for c in [protocol::tariff()[0], [0; 4], [i32::MAX; 4], [i32::MIN; 4]] {
            for cm in odd(CM) {
                for tenths in odd(TENTHS) {
                    same_tariff(tally, c, [cm, tenths]);
                    same_tariff(tally, c, [random.any(), tenths]);
                    same_tariff(tally, c, [cm, random.any()]);
                }
            }
        }
    });
    // These two have an operand whose range hangs on the other.
    report.check("refusals of the line tariff", |tally| {
        let mut random = Random::new(12);
        for number in edges(NUMBER).into_iter().chain(disguised(NUMBER)).chain(2..=999) {
            let sums = (number, number.wrapping_mul(50));
            for sum in edges(sums).into_iter().chain(disguised(sums)).chain([random.any()]) {
                LINE_TARIFF.agree(tally, [sum, number]);
            }
        }
    });
    report.check("refusals of the mean", |tally| {
        let mut random = Random::new(13);
        for n in edges((1, MEASURED.1)).into_iter().chain(disguised((1, MEASURED.1))).chain(numbers()) {
            let sums = (n.wrapping_mul(49), n.wrapping_mul(10_000));
            for squares in edges(sums).into_iter().chain(disguised(sums)).chain([random.any()]) {
                MEAN.agree(tally, [n, squares]);
            }
        }
    });
    report.check("refusals of the trees", |tally| refuse(tally, &TREES, [MEASURED, AREA, AREA]));
    report.check("refusals of the stem", |tally| refuse(tally, &STEM, [TARIFF, D, FACTOR, GRAVITY]));
    report.check("refusals of the crown", |tally| refuse(tally, &CROWN, [CROWN_GROUP, D]));
    report.check("refusals of the root", |tally| refuse(tally, &ROOT, [ROOT_GROUP, D]));
    report.check("refusals of the tree", |tally| refuse(tally, &TREE, TREE_RANGES));
    report.check("refusals of the row", |tally| refuse(tally, &ROW, row_ranges()));
    report.check("refusals of the small trees", |tally| refuse(tally, &SMALL_TREES, [HUNDREDTHS, CARBON]));
    report.check("refusals of the project", |tally| refuse(tally, &PROJECT, [SUM, SUM, ANY]));
}
