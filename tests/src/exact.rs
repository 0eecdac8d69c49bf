//! The proved library against the exact value: the protocol's equations unrounded, as fractions of whole
//! numbers, with the two powers held between whole numbers.
use crate::agree::{some, CARBON, CROWN_GROUP, D, FACTORS, GRAVITIES, HUNDREDTHS, ROOT_GROUP, TARIFF, TREE_RANGES};
use crate::natural::Natural;
use crate::random::Random;
use crate::report::{Report, Tally};
use crate::{cores, powers, protocol, proved};
use std::cmp::Ordering::{Equal, Greater, Less};
use std::cmp::Reverse;
use std::fmt::Debug;

/// What a tree may lie between its ends, in mg, for the project's gap to keep its limit.
const WIDEST_TREE: u64 = 54;

/// All exact figures of one tree are counted in parts of this many to the mg: 10^10 of A, 4·10^7 of z,
/// 10^8 of V, 10^4 of factor times gravity. A stem has more parts than 128 bits hold.
const PARTS: u128 = 4 * 10u128.pow(10 + 7 + 8 + 4);

/// So many units, of which there are so many to the mg.
fn parts(units: i128, to_the_mg: u128) -> Natural {
    let units = u128::try_from(units).expect("a figure is not below 0");
    Natural::of(units).times(&Natural::of(PARTS / to_the_mg))
}

/// The stem: V = B + A·z, with every div an exact division.
fn stem(tariff: u64, d: u64, factor: u64, gravity: u64) -> Natural {
    let [t, d] = [tariff, d].map(i128::from);
    let slope = 315049301 * (1_000_000_000 * t - 138763302);
    let over = 314159265 * d * d - 118288000 * 40_000_000;
    let base = 360541 * 10_000_000_000 * t * (10_000_000_000 * 40_000_000);
    parts(base + slope * over, PARTS).times(&Natural::of(u128::from(factor * gravity)))
}

/// A straight part: (100a + b·d) hundredths of a mg.
fn straight([_, a, b]: [i128; 3], d: u64) -> Natural {
    parts(100 * a + b * i128::from(d), 100)
}

/// The crown, with (w + more)·10^-5 in the place of its power.
fn crown(group: u64, d: u64, more: i128) -> Natural {
    let row = protocol::crown()[group as usize];
    if d > 5_000 {
        return straight(row, d);
    }
    parts(row[0] * (i128::from(powers::crown(d)) + more), 1_000_000)
}

/// The root, with (y + more)·10^-5 in the place of its power.
fn root(group: u64, d: u64, more: i128) -> Natural {
    let row = protocol::root()[group as usize];
    if d > 3_000 {
        return straight(row, d);
    }
    parts(row[0] * (i128::from(powers::root(d)) + more), 100_000)
}

/// The exact value of a project, held between whole numbers of parts: 600,000 times PARTS to 11 g.
pub struct Exact {
    /// The N of all lines added, both sorts.
    pub trees: u64,
    least: Natural,
    most: Natural,
}

impl Exact {
    pub fn new() -> Exact {
        Exact { trees: 0, least: Natural::of(0), most: Natural::of(0) }
    }

    /// Adds measured trees by their number and their tree. w·10^-5 is not above the power, (w+1)·10^-5 not below; the
    /// root's y the same.
    pub fn add(&mut self, n: u64, [t, d, f, s, c, r]: [u64; 6]) {
        let line = |more| {
            let tree = stem(t, d, f, s).plus(&crown(c, d, more)).plus(&root(r, d, more));
            tree.times(&Natural::of(n.into()))
        };
        self.trees += n;
        self.least = self.least.plus(&line(0));
        self.most = self.most.plus(&line(1));
    }

    /// Adds small trees by their number and the carbon of one: twice the carbon is the biomass, with nothing to round.
    pub fn add_small(&mut self, number: u64, carbon: u64) {
        let hundredths = Natural::of(u128::from(number) * 2 * u128::from(carbon));
        let line = hundredths.times(&Natural::of(PARTS));
        self.trees += number;
        self.least = self.least.plus(&line);
        self.most = self.most.plus(&line);
    }

    /// What is to hold of the project's low and high.
    pub fn holds(&self, tally: &mut Tally, operands: impl Debug, low: u64, high: u64) {
        let mut holds = |condition, what| tally.holds(condition, (&operands, self.trees, low, high, what));
        holds((low == high) == (self.trees == 0), "equal exactly without trees");
        holds(high.saturating_sub(low) <= 3 + self.trees / 1000, "the gap's limit");
        // The exact value is 11/6000 of the sum, and N counts hundredths.
        let eleven = Natural::of(11);
        let whole = Natural::of(600_000).times(&Natural::of(PARTS));
        let grams = |g: u64| whole.times(&Natural::of(g.into()));
        holds(grams(low) <= self.least.times(&eleven), "the low is above the exact value");
        holds(self.most.times(&eleven) <= grams(high), "the high is below the exact value");
    }
}

pub fn run(report: &mut Report) {
    the_powers(report);
    the_stem(report);
    the_crown(report);
    the_root(report);
    the_small_trees(report);
    the_tree(report);
    the_project(report);
}

fn the_powers(report: &mut Report) {
    report.check("comparing powers: equal products, neighbours, and products by chance", |tally| {
        let mut random = Random::new(19);
        for _ in 0..20_000 {
            let [a, b] = [(); 2].map(|()| random.of_any_size(1 << 31).max(2));
            let [m, n] = [(); 2].map(|()| random.between(1, 40) as u32);
            let same = [(a, 2 * m), (b, n)];
            tally.same((a, b, m, n), powers::compare(&same, &[(b, n), (a * a, m)]), Equal);
            tally.same((a, b, m, n), powers::compare(&same, &[(b, n), (a * a - 1, m)]), Greater);
            tally.same((a, b, m, n), powers::compare(&same, &[(b, n), (a * a + 1, m)]), Less);
            let [left, right] = [[(a, m)], [(b, n)]];
            tally.same((a, b, m, n), powers::compare(&left, &right), powers::compare_whole(&left, &right));
        }
    });
    // Powers are made by squares, which are worked in parts; here both are multiplied out too.
    report.check("squares of whole numbers of up to 1,000 digits to the base 2^64", |tally| {
        let mut random = Random::new(23);
        let powers: Vec<_> = (1..=1_000).map(|exponent| (random.any() | 1 << 63, exponent)).collect();
        tally.each(powers, |tally, &(base, exponent)| {
            let power = Natural::power(base, exponent);
            tally.holds(Natural::power(base, 2 * exponent) == power.times(&power), (base, exponent));
        });
    });
    // By whole numbers alone: 8,602 comparisons of numbers of some 95,000 digits.
    report.check("crown power, every d: w^10000 ≤ 10^466·d^24767 < (w+1)^10000", |tally| {
        tally.each(powers::CURVED_CROWN, |tally, &d| settled(tally, d));
    });
    report.check("root power, every d: y² ≤ d^5 < (y+1)²", |tally| {
        for d in powers::CURVED_ROOT {
            let (y, limit) = (u128::from(powers::root(d)), u128::from(d).pow(5));
            tally.holds(y * y <= limit && limit < (y + 1) * (y + 1), (d, y));
        }
    });
}

/// (w+1)^10000 is above w^10000·(1 + 10000/w). That is above the limit too, but where the power is all but w+1, and it
/// spares a power of such a size.
fn settled(tally: &mut Tally, d: u64) {
    let w = powers::crown(d);
    let limit = powers::crown_limit(d).map(|(base, exponent)| Natural::power(base, exponent));
    let limit = limit[0].times(&limit[1]);
    let power = Natural::power(w, 10000);
    let whole = |x: u64| Natural::of(x.into());
    tally.holds(power <= limit, (d, w, "is above the power"));
    let next_above = limit.times(&whole(w)) <= power.times(&whole(w + 10000)) || limit < Natural::power(w + 1, 10000);
    tally.holds(next_above, (d, w, "is not the greatest"));
}

/// The low is not above the exact figure, nor the high below it.
fn ends_hold(tally: &mut Tally, operands: impl Debug, ends: [u64; 2], exact: Natural) {
    let [low, high] = ends.map(|mg| parts(mg.into(), 1));
    tally.holds(low <= exact && exact <= high, (operands, ends));
}

fn the_stem(report: &mut Report) {
    report.check("stem, low ≤ exact ≤ high", |tally| {
        tally.each(D.0..=D.1, |tally, &d| {
            for tariff in TARIFF.0..=TARIFF.1 {
                for factor in FACTORS {
                    for gravity in GRAVITIES {
                        let operands = [tariff, d, factor, gravity];
                        let exact = stem(tariff, d, factor, gravity);
                        ends_hold(tally, operands, proved::stem(operands).accepted(), exact);
                    }
                }
            }
        });
    });
}

/// Document 01's own test of a fraction r/t, for the fraction that the figure makes of the power.
fn the_crown(report: &mut Report) {
    report.check("crown, low ≤ exact ≤ high", |tally| {
        for group in CROWN_GROUP.0..=CROWN_GROUP.1 {
            for d in D.0..=D.1 {
                let [low, high] = proved::crown([group, d]).accepted();
                if d > 5_000 {
                    ends_hold(tally, (group, d), [low, high], crown(group, d, 0));
                    continue;
                }
                let k = protocol::crown()[group as usize][0] as u64;
                let stands = |mg: u64| powers::compare(&[(10 * mg, 10000), (100, 24767)], &[(k, 10000), (d, 24767)]);
                tally.holds(stands(low) != Greater, (group, d, low, "is above the exact crown"));
                tally.holds(stands(high) != Less, (group, d, high, "is below the exact crown"));
            }
        }
    });
}

/// The same, by squares.
fn the_root(report: &mut Report) {
    report.check("root, low ≤ exact ≤ high", |tally| {
        for group in ROOT_GROUP.0..=ROOT_GROUP.1 {
            for d in D.0..=D.1 {
                let [low, high] = proved::root([group, d]).accepted();
                if d > 3_000 {
                    ends_hold(tally, (group, d), [low, high], root(group, d, 0));
                    continue;
                }
                let b = protocol::root()[group as usize][0] as u128;
                let exact = b.pow(2) * u128::from(d).pow(5);
                let square = |mg: u64| u128::from(mg).pow(2) * 100u128.pow(5);
                tally.holds(square(low) <= exact, (group, d, low, "is above the exact root"));
                tally.holds(square(high) >= exact, (group, d, high, "is below the exact root"));
            }
        }
    });
}

/// The exact part is number times twice the carbon, in hundredths of a mg.
fn the_small_trees(report: &mut Report) {
    report.check("small trees, low ≤ exact ≤ high, and a mg apart exactly where there are any", |tally| {
        let mut random = Random::new(22);
        let mut look = |number: u64, carbon: u64| {
            let [low, high] = proved::small_trees([number, carbon]).accepted();
            let exact = u128::from(number) * 2 * u128::from(carbon);
            let [least, most] = [low, high].map(|mg| 100 * u128::from(mg));
            tally.holds(least <= exact && exact <= most, (number, carbon, low, high));
            tally.holds(high - low == u64::from(number > 0), (number, carbon, low, high, "apart"));
        };
        // Every remainder by 100, and none: a whole mg has its one more too.
        for number in (0..=1_000).chain(HUNDREDTHS.1 - 1_000..=HUNDREDTHS.1) {
            for carbon in (1..=200).chain(CARBON.1 - 200..=CARBON.1) {
                look(number, carbon);
            }
        }
        for _ in 0..500_000 {
            let [number, carbon] = some(&mut random, [HUNDREDTHS, CARBON]);
            look(number, carbon);
        }
    });
}

/// The gaps of trees, and the widest of them.
#[derive(Default)]
struct Gaps {
    compared: Tally,
    /// The first of the widest.
    widest: (u64, Reverse<[u64; 6]>),
}

impl Gaps {
    fn look(&mut self, operands: [u64; 6]) {
        let [low, high] = proved::tree(operands).accepted();
        self.compared.holds(low < high && high - low <= WIDEST_TREE, (operands, low, high));
        self.widest = self.widest.max((high - low, Reverse(operands)));
    }
}

fn the_tree(report: &mut Report) {
    report.check("tree, the gap is at most 54 mg", |tally| {
        // The stem's gap grows with factor and gravity: those at their ends and all else, then all by chance.
        let ds: Vec<u64> = (D.0..=D.1).collect();
        let shares = cores::by_turns(&ds, Gaps::default, |gaps, (_, &d)| {
            for tariff in TARIFF.0..=TARIFF.1 {
                for crown in CROWN_GROUP.0..=CROWN_GROUP.1 {
                    for root in ROOT_GROUP.0..=ROOT_GROUP.1 {
                        gaps.look([tariff, d, 200, 100, crown, root]);
                    }
                }
            }
        });
        let mut gaps = Gaps::default();
        let mut random = Random::new(20);
        (0..1_000_000).for_each(|_| gaps.look(some(&mut random, TREE_RANGES)));
        let shares = shares.into_iter().chain([gaps]);
        let widest = shares.map(|Gaps { compared, widest }| {
            tally.add(compared);
            widest
        });
        let (gap, Reverse([tariff, d, ..])) = widest.max().expect("a gap");
        tally.remark = format!("; the widest is {gap} mg, first at tariff {tariff} and d {d}");
    });
}

/// The numbers that a round's lines have: none, the most, or any.
fn hundredths(random: &mut Random, round: u64) -> u64 {
    match round % 4 {
        0 => 0,
        1 => HUNDREDTHS.1,
        _ => random.of_any_size(HUNDREDTHS.1),
    }
}

/// Rows of up to 32 lines, of both sorts of trees: the project's ends, their gap, and the exact value between them.
fn the_project(report: &mut Report) {
    report.check("project, equal ends exactly without trees, the gap's limit, low ≤ exact ≤ high", |tally| {
        let mut random = Random::new(21);
        for round in 0..40_000 {
            let lines = random.between(1, 32);
            let [mut low, mut high] = [0; 2];
            let mut exact = Exact::new();
            for _ in 0..lines {
                let [measured, small] = [round, round / 4].map(|round| hundredths(&mut random, round));
                let tree = some(&mut random, TREE_RANGES);
                let [t, d, f, s, c, r] = tree;
                let carbon = random.between(CARBON.0, CARBON.1);
                let row = proved::row([measured, t, d, f, s, c, r]).accepted();
                let small_row = proved::small_trees([small, carbon]).accepted();
                low += row[0] + small_row[0];
                high += row[1] + small_row[1];
                exact.add(measured, tree);
                exact.add_small(small, carbon);
            }
            let project = proved::project([low, high, exact.trees]).accepted();
            exact.holds(tally, (low, high), project[0], project[1]);
        }
    });
}
