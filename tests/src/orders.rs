//! Totalling by the proved library, of books and of the same books in other orders of the crew: each pair is accepted
//! together, and then has the same answer and the same sheet.
use crate::author::Author;
use crate::library::Totalled;
use crate::program::{first_difference, Hex};
use crate::random::Random;
use crate::report::{Report, Tally};
use crate::total::LEAST_SHEET;
use crate::totals::{self, Case, LISTING};
use crate::{books, order};
use std::collections::BTreeSet;
use std::fmt::{Debug, Display, Formatter};

/// How many orders by chance are tried of a book.
const SHUFFLES: usize = 4;

/// How many full lines there are of each kind, and how many pairs they make at least: seldom an order is the one that was.
const FULL_LINES: u64 = 30;
const FULL_PAIRS: usize = 100;

/// One sheet in so many is too short.
const SHORT: Option<u64> = Some(60);

/// The refusals of more trees than a line may have, of a second command of small trees, and of a tariff.
const OVER_THE_LIMIT: u8 = 11;
const ALREADY_GIVEN: u8 = 7;
const NO_TARIFF: u8 = 13;

/// What is counted of pairs, and how often a run is to meet it at least.
const KINDS: [&str; 4] =
    ["accepted", "accepted with a declaration passed", "refused", "refused with different numbers"];
const LEAST: [u64; KINDS.len()] = [10_000, 10_000, 10_000, 200];

/// How many pairs of each kind were met. The books of a pair differ.
#[derive(Default)]
pub struct Met([u64; KINDS.len()]);

impl Met {
    /// Counts a pair, by the numbers of its refusals, 0 for none.
    pub fn count(&mut self, [one, other]: [&[u8]; 2], [number, other_number]: [u8; 2]) {
        let accepted = [number, other_number] == [0, 0];
        let passed = accepted && order::declaration_passed(one, other);
        let found = [accepted, passed, !accepted, number != other_number];
        self.add(Met(found.map(u64::from)));
    }

    /// Adds what was met elsewhere.
    pub fn add(&mut self, other: Met) {
        self.0.iter_mut().zip(other.0).for_each(|(times, more)| *times += more);
    }

    /// What was met less often than this.
    pub fn seldom(&self, least: [u64; KINDS.len()]) -> Vec<&'static str> {
        let enough = self.0.iter().zip(least).map(|(times, least)| *times >= least);
        KINDS.into_iter().zip(enough).filter(|(_, enough)| !enough).map(|(kind, _)| kind).collect()
    }

    /// What was never met.
    pub fn missing(&self) -> Vec<&'static str> {
        self.seldom([1; KINDS.len()])
    }
}

impl Display for Met {
    fn fmt(&self, f: &mut Formatter) -> std::fmt::Result {
        write!(f, "pairs in two orders")?;
        KINDS.iter().zip(self.0).try_for_each(|(kind, times)| write!(f, ", {times} {kind}"))
    }
}

/// What the library answers to two books that differ in their order alone and are lent the same bytes, with what becomes
/// of these. They are accepted together, and then all is the same. A refused one leaves what it was lent; the numbers
/// and the places of two refusals may differ.
pub fn accepted_together(tally: &mut Tally, shown: impl Debug, lent: &[u8], answers: [(Totalled, &[u8]); 2]) {
    let [(one, sheet), (other, other_sheet)] = answers;
    if one.0 == 0 {
        tally.same(&shown, other, one);
        let (at, [found, wanted]) = first_difference(other_sheet, sheet);
        tally.same((&shown, "what they were lent, from byte", at), found, wanted);
    } else {
        tally.holds(other.0 != 0, (&shown, one, other, "accepted in one order alone"));
        tally.holds([sheet, other_sheet] == [lent; 2], (&shown, one, other, "a refused book has changed its sheet"));
    }
}

/// Books that differ in their order alone, with the same sheet.
type Pair = [Case; 2];

/// Holds the library's answers to each other, and to those that these tests work out.
fn compare(tally: &mut Tally, pairs: &[Pair], met: &mut Met) {
    totals::compare(tally, pairs.as_flattened(), &mut totals::Met::default());
    for [one, other] in pairs {
        let [(answer, sheet), (other_answer, other_sheet)] = [one.library(), other.library()];
        let answers = [(answer, &sheet[..]), (other_answer, &other_sheet[..])];
        accepted_together(tally, (Hex(&one.book), Hex(&other.book), one.length), &one.noise(), answers);
        met.count([&one.book, &other.book], [answer.0, other_answer.0]);
    }
}

/// Each book that reads through, beside some orders of it by chance.
fn pairs(seed: u64, books: impl Iterator<Item = Vec<u8>>, short: Option<u64>) -> Vec<Pair> {
    let mut random = Random::new(!seed);
    let mut pairs = Vec::new();
    for case in totals::cases(seed, books, short) {
        let others = (0..SHUFFLES).filter_map(|_| order::shuffled(&mut random, &case.book));
        pairs.extend(others.map(|book| [case.clone(), Case { book, ..case }]));
    }
    pairs
}

pub fn run(report: &mut Report) {
    listing(report);
    refused_differently(report);
    every_order(report);
    shuffles(report);
    let mut met = Met::default();
    full_lines(report, &mut met);
    let mut check = |name: &str, pairs: Vec<Pair>| {
        report.check(&format!("orders, {name}"), |tally| compare(tally, &pairs, &mut met));
    };
    check("accepted books", pairs(420, (6_000_000..6_003_000).map(books::accepted), SHORT));
    check("damaged books", pairs(421, (6_100_000..6_104_000).map(books::damaged), SHORT));
    check("commands by chance", pairs(422, (6_200_000..6_202_000).map(books::by_chance), SHORT));
    check("books at the limits", pairs(423, books::edges(200..220).into_iter(), SHORT));
    check("small trees at their limits", pairs(424, books::edges_of_small_trees(200..220).into_iter(), SHORT));
    pairs_met(report, &met);
}

/// A sheet for each of two books.
fn pair([one, other]: [Vec<u8>; 2]) -> Pair {
    [one, other].map(|book| Case { length: LEAST_SHEET, seed: 42, book })
}

/// The listing of document 01: its measured and its height command are the only ones that can be exchanged.
fn listing(report: &mut Report) {
    report.check("orders, the listing of document 01", |tally| {
        let listing = books::listing();
        let orders = order::exchanged(&listing);
        let [exchanged] = &orders[..] else { return tally.holds(false, ("not one exchange", orders.len())) };
        let [before, measured, height, after] = [0..35, 35..39, 39..43, 43..57].map(|place| &listing[place]);
        tally.same("exchanged", Hex(exchanged), Hex(&[before, height, measured, after].concat()));
        let pair = pair([listing.clone(), exchanged.clone()]);
        for case in &pair {
            tally.same(Hex(&case.book), case.library().0, LISTING);
        }
        compare(tally, &[pair], &mut Met::default());
    });
}

/// Refusals may differ: the command that comes first tells its own.
fn refused_differently(report: &mut Report) {
    report.check("orders, refused with 11 in one order and with 13 in the other", |tally| {
        let [one, other] = books::refused_in_two_orders();
        tally.holds(order::exchanged(&one).contains(&other), (Hex(&one), Hex(&other), "not one exchange"));
        let pair = pair([one, other]);
        for (case, number) in pair.iter().zip([OVER_THE_LIMIT, NO_TARIFF]) {
            tally.same(Hex(&case.book), case.library().0, (number, [0, 0, 0, 0, 92]));
        }
        compare(tally, &[pair], &mut Met::default());
    });
}

/// Two lines, with what both need declared inside the first, in every order. The first has five commands of trees and three
/// declarations, so 8! / 3! orders, and the second has two.
fn every_order(report: &mut Report) {
    report.check("orders, every order of two lines with declarations inside", |tally| {
        let book = books::declared_inside();
        let mut orders = order::every_order(&book);
        tally.same("orders", orders.len(), 13_440);
        orders.remove(&book);
        let pairs: Vec<_> = orders.into_iter().map(|other| pair([book.clone(), other])).collect();
        for [_, other] in &pairs {
            tally.same(Hex(&other.book), other.library().0 .0, 0);
        }
        compare(tally, &pairs, &mut Met::default());
    });
}

/// The orders by chance of these tests are those that exchanges of neighbours lead to: all of them, and no other.
fn shuffles(report: &mut Report) {
    report.check("orders, by chance and by exchanges of neighbours", |tally| {
        let book = books::declared_inside();
        let mut random = Random::new(425);
        let mut found: BTreeSet<_> = (0..250_000).filter_map(|_| order::shuffled(&mut random, &book)).collect();
        found.insert(book.clone());
        let wanted = order::every_order(&book);
        let first = found.symmetric_difference(&wanted).next().map(|book| Hex(book));
        tally.same(Hex(&book), first, None);
    });
}

/// A full line is accepted in every order, and one with more is refused in every order.
fn full_lines(report: &mut Report, met: &mut Met) {
    let mut check = |name: &str, refusal: u8, line: &dyn Fn(u64, u64) -> Vec<u8>| {
        report.check(&format!("orders, {name}"), |tally| {
            for (over, number) in [(0, 0), (1, refusal)] {
                let pairs = pairs(426 + over, (0..FULL_LINES).map(|seed| line(seed, over)), None);
                tally.holds(pairs.len() >= FULL_PAIRS, ("pairs", number, pairs.len()));
                for case in pairs.as_flattened() {
                    tally.same(Hex(&case.book), case.library().0 .0, number);
                }
                compare(tally, &pairs, met);
            }
        });
    };
    check("1,000,000 measured trees in a line, and one more", OVER_THE_LIMIT, &|seed, over| {
        books::one_line(seed, [1, 1], 1, 1_000_000 + over)
    });
    check("1,000 height trees in a line, and one more", OVER_THE_LIMIT, &|seed, over| {
        books::one_line(seed, [1, 1], 1_000 + over as usize, 7)
    });
    check("small trees once in a line, and twice", ALREADY_GIVEN, &|seed, over| {
        let mut author = Author::new(seed);
        let small: Vec<_> = (0..=over).map(|_| author.small_operands()).collect();
        books::with_small_trees(seed, [1, 1], 1, &small)
    });
}

/// Pairs of each kind were met, and often: else the checks above would say little.
fn pairs_met(report: &mut Report, met: &Met) {
    report.check("orders, pairs of every kind were met", |tally| {
        tally.same(met.to_string(), met.seldom(LEAST), vec![]);
        tally.remark = format!("; {met}");
    });
}
