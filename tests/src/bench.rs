//! How long the library takes: beside `plain` on the same books, on ever longer books, and beside the steps of these
//! tests on single figures. What two say of the same input is compared first.
use crate::agree::{self, some, Pair};
use crate::library::{as_numbers, total};
use crate::program::Hex;
use crate::proved::{self, Answer};
use crate::random::Random;
use crate::report::Tally;
use crate::steps::{self, Count};
use crate::total::LEAST_SHEET;
use crate::worked::OAK;
use crate::{books, plain};
use fieldbook::{AverageTree, Milligrams, Range};
use std::hint::black_box;
use std::time::{Duration, Instant};

/// How many sets of operands a figure is worked with.
const SETS: usize = 1_024;

const SINGLE_TARIFF: Pair<2, Count> =
    Pair { ask: |at| proved::single_tariff(OAK, at), step: |at| steps::single_tariff(OAK, at) };

/// How often a time is taken, for how long, and whether the books have to be totalled in time.
#[derive(Clone, Copy)]
pub struct Pace {
    rounds: u32,
    sample: Duration,
    in_time: bool,
}

/// Many short times: on a loaded machine some of them are not interrupted.
pub const FULL: Pace = Pace { rounds: 60, sample: Duration::from_millis(4), in_time: true };

/// Shows that all of it runs. Its times mean little, so nothing is asked of them.
pub const QUICK: Pace = Pace { rounds: 1, sample: Duration::from_micros(100), in_time: false };

/// True where the two agree, and every book is totalled in time.
pub fn run(pace: Pace) -> bool {
    let mut tally = Tally::default();
    whole_books(pace, &mut tally);
    longer_and_longer(pace, &mut tally);
    figures(pace, &mut tally);
    tally.is_good()
}

impl Pace {
    /// Nanoseconds of a call of each, by turns: the best of all rounds.
    fn race(self, mut works: [&mut dyn FnMut(); 2]) -> [f64; 2] {
        let calls = works.each_mut().map(|work| self.calls(work));
        let mut best = [f64::INFINITY; 2];
        for _ in 0..self.rounds {
            for i in 0..2 {
                best[i] = best[i].min(nanoseconds(calls[i], works[i]) / f64::from(calls[i]));
            }
        }
        best
    }

    /// How many calls take as long as one sample.
    fn calls(self, work: &mut dyn FnMut()) -> u32 {
        let mut calls = 1;
        while nanoseconds(calls, work) < self.sample.as_nanos() as f64 {
            calls *= 2;
        }
        calls
    }

    /// The time of the library and of `plain` for a book.
    fn race_totals(self, tally: &mut Tally, book: &[u8]) -> [f64; 2] {
        let [mut ours, mut theirs] = [[0; LEAST_SHEET]; 2];
        let answers = [total(book, &mut ours), as_numbers(plain::total(book, &mut theirs))];
        tally.same(book.len(), answers[0], answers[1]);
        tally.same(book.len(), Hex(&ours), Hex(&theirs));
        tally.same("a refusal", answers[0].0, 0);
        let mut library = || keep(fieldbook::total(black_box(book), &mut ours));
        let mut plain = || keep(plain::total(black_box(book), &mut theirs));
        self.race([&mut library, &mut plain])
    }
}

/// Takes an answer, so that it has to be worked out.
fn keep<T>(answer: T) {
    black_box(answer);
}

fn nanoseconds(calls: u32, work: &mut dyn FnMut()) -> f64 {
    let start = Instant::now();
    (0..calls).for_each(|_| work());
    start.elapsed().as_nanos() as f64
}

/// A time in a unit that suits it.
fn shown(nanoseconds: f64) -> String {
    match nanoseconds {
        0.0..1e3 => format!("{nanoseconds:.1} ns"),
        1e3..1e6 => format!("{:.2} µs", nanoseconds / 1e3),
        _ => format!("{:.2} ms", nanoseconds / 1e6),
    }
}

/// Each book, with what it may take as a multiple of what `plain` takes.
fn whole_books(pace: Pace, tally: &mut Tally) {
    let largest = include_bytes!("../../examples/largest.book").to_vec();
    let all = [
        ("document 01's listing", books::listing(), 5.0),
        ("32 lines", books::of_lines(32), 4.0),
        ("1,000 height trees", books::of_height_trees(1_000), 1.0),
        ("measured trees", books::of_length(books::LONGEST), 1.0),
        ("examples/largest.book", largest, 1.0),
    ];
    println!("{:<24}{:>9}{:>12}{:>12}{:>8}{:>16}", "totalling", "bytes", "library", "plain", "ratio", "library MB/s");
    for (name, book, most) in all {
        let [library, plain] = pace.race_totals(tally, &book);
        let (bytes, ratio) = (book.len(), library / plain);
        let speed = 1e3 * bytes as f64 / library;
        println!("{name:<24}{bytes:>9}{:>12}{:>12}{ratio:>8.2}{speed:>16.0}", shown(library), shown(plain));
        tally.holds(ratio <= most || !pace.in_time, (name, "takes too long", ratio, most));
    }
}

fn longer_and_longer(pace: Pace, tally: &mut Tally) {
    println!("\n{:<24}{:>9}{:>12}{:>16}{:>16}", "growth", "bytes", "library", "ns a byte", "plain");
    for bytes in [10, 12, 14, 16, 18, 20].map(|power| 1 << power) {
        let [library, plain] = pace.race_totals(tally, &books::of_length(bytes));
        let each = [library, plain].map(|time| time / bytes as f64);
        println!("{:<24}{bytes:>9}{:>12}{:>16.3}{:>16.3}", "measured trees", shown(library), each[0], each[1]);
    }
}

/// Sets of operands by chance, the same in every run.
fn sets<const N: usize>(one: impl Fn(&mut Random) -> [u64; N]) -> [[u64; N]; SETS] {
    let mut random = Random::new(40);
    [(); SETS].map(|()| one(&mut random))
}

/// Times a figure by a function of the library and by the steps, on the same operands.
fn figure<const N: usize, S: Into<Answer>, A>(
    (pace, tally): (Pace, &mut Tally),
    name: &str,
    pair: &Pair<N, S>,
    operands: [[u64; N]; SETS],
    function: impl Fn([u64; N]) -> A,
) {
    operands.iter().for_each(|&operands| pair.agree(tally, operands));
    let mut library = || black_box(&operands).iter().for_each(|&one| keep(function(one)));
    let mut steps = || black_box(&operands).iter().for_each(|&one| keep((pair.step)(one)));
    let [library, steps] = pace.race([&mut library, &mut steps]).map(|time| shown(time / SETS as f64));
    println!("{name:<24}{library:>21}{steps:>12}");
}

fn tree_of([tariff, d, factor, gravity, crown, root]: [u64; 6]) -> AverageTree {
    AverageTree { tariff, d, factor, gravity, crown, root }
}

fn figures(pace: Pace, tally: &mut Tally) {
    println!("\n{:<24}{:>21}{:>12}", "one figure", "library", "steps");
    let operands = sets(|random| loop {
        // An oak of this height has a tariff.
        let at = some(random, [agree::CM, agree::TENTHS]);
        if steps::single_tariff(OAK, at).is_ok() {
            return at;
        }
    });
    figure((pace, tally), "single tariff", &SINGLE_TARIFF, operands, |[cm, h]| fieldbook::single_tariff(OAK, cm, h));
    let operands = sets(|random| {
        let number = random.between(1, 1_000);
        [random.between(number, 50 * number), number]
    });
    figure((pace, tally), "line tariff", &agree::LINE_TARIFF, operands, |[s, n]| fieldbook::line_tariff(s, n));
    let operands = sets(|random| {
        let n = random.between(1, 1_000_000);
        [n, random.between(49 * n, 10_000 * n)]
    });
    figure((pace, tally), "mean diameter", &agree::MEAN, operands, |[n, s]| fieldbook::mean(n, s));
    let operands = sets(|random| some(random, [agree::MEASURED, agree::AREA, agree::AREA]));
    figure((pace, tally), "estimated trees", &agree::TREES, operands, |[n, p, q]| fieldbook::trees(n, p, q));
    figures_of_biomass(pace, tally);
}

fn figures_of_biomass(pace: Pace, tally: &mut Tally) {
    let [t, d, f, s, c, r] = agree::TREE_RANGES;
    let operands = sets(|random| some(random, [t, d, f, s]));
    figure((pace, tally), "stem", &agree::STEM, operands, |[t, d, f, s]| fieldbook::stem(t, d, f, s));
    let operands = sets(|random| some(random, [c, d]));
    figure((pace, tally), "crown", &agree::CROWN, operands, |[group, d]| fieldbook::crown(group, d));
    let operands = sets(|random| some(random, [r, d]));
    figure((pace, tally), "root", &agree::ROOT, operands, |[group, d]| fieldbook::root(group, d));
    let operands = sets(|random| some(random, [agree::ANY]));
    figure((pace, tally), "square root", &agree::SQUARE_ROOT, operands, |[x]| fieldbook::square_root(x));
    let operands = sets(|random| some(random, agree::TREE_RANGES));
    figure((pace, tally), "tree", &agree::TREE, operands, |tree| fieldbook::tree(tree_of(tree)));
    let operands = sets(|random| some(random, agree::row_ranges()));
    figure((pace, tally), "row", &agree::ROW, operands, |[trees, tree @ ..]| fieldbook::row(trees, tree_of(tree)));
    let operands = sets(|random| some(random, [agree::HUNDREDTHS, agree::CARBON]));
    figure((pace, tally), "small trees", &agree::SMALL_TREES, operands, |[n, c]| fieldbook::small_trees(n, c));
    let operands = sets(|random| some(random, [agree::SUM, agree::SUM, agree::ANY]));
    figure((pace, tally), "project", &agree::PROJECT, operands, |[low, high, trees]| {
        fieldbook::project(Range { low: Milligrams(low), high: Milligrams(high) }, trees)
    });
}
