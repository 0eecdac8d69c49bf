//! Whole books, the same in every run.
use crate::author::{Author, AREA, CM};
use crate::book::{self, four_bytes, Command, CLOSE, END, FACTOR, HEIGHT, MEASURED, OPEN, SMALL, SPECIES};
use crate::library::Totalled;
use crate::random::Random;
use crate::{protocol, steps, streams};
use std::mem;
use std::ops::{Range, RangeInclusive};

/// How many bytes a book has at most.
pub const LONGEST: usize = 65_536;

/// How many lines a book has at most.
const LINES: usize = 32;

/// The refusals of opening a line of the same stratum and species again, and one more than 32; and of closing a line that
/// has no factor.
const ALREADY_OPENED: u8 = 7;
const LINES_OPENED: u8 = 11;
const NO_FACTOR: u8 = 14;

/// The book of document 01's listing.
pub fn listing() -> Vec<u8> {
    written([
        oak(),
        (FACTOR, vec![60, 101]),
        (OPEN, vec![1, 3, 6, 1]),
        (MEASURED, vec![60, 4]),
        (HEIGHT, vec![60, 120]),
        (CLOSE, vec![]),
        (OPEN, vec![2, 3, 1, 1]),
        (CLOSE, vec![]),
        (END, vec![]),
    ])
}

/// The byte and the operands of a command.
type Order = (u8, Vec<u64>);

fn written(commands: impl IntoIterator<Item = Order>) -> Vec<u8> {
    commands.into_iter().flat_map(|(byte, operands)| Command { byte, operands }.bytes()).collect()
}

/// Species 3 of document 01's listing.
fn oak() -> Order {
    (SPECIES, vec![3, 7, 5, 56, 58830000, 20123000, four_bytes(-54780), four_bytes(-57397)])
}

/// An accepted book, most of its lines with estimated trees: measured, small, or both.
pub fn accepted(seed: u64) -> Vec<u8> {
    let mut author = Author::new(seed);
    let lines = author.one_of(&[1, 1, 2, 3, 5, 8]);
    let species = author.one_of(&[1, 2, 3, 16]);
    let least = author.random.between(CM.0, CM.1);
    let most = CM.1.min(least + author.random.between(0, 12));
    Writer::new(author, species, least..=most).book(0..lines, 5)
}

/// An accepted book with bytes or commands changed, taken out, put in or exchanged.
pub fn damaged(seed: u64) -> Vec<u8> {
    let mut book = accepted(seed);
    let mut author = Author::new(!seed);
    for _ in 0..author.random.between(1, 3) {
        if author.one_in(2) {
            streams::damage(&mut author.random, &mut book);
        } else {
            book = author.disorder(&book);
        }
    }
    book
}

/// Bytes by chance, or commands by chance after a species and a factor.
pub fn by_chance(seed: u64) -> Vec<u8> {
    let mut author = Author::new(seed);
    let length = author.random.between(0, 120);
    let one_in = author.random.between(1, 4);
    if author.one_in(3) {
        return streams::noise(&mut author.random, one_in, length as usize);
    }
    let mut writer = Writer::new(author, 1, 7..=7);
    writer.give(|_| true);
    for _ in 0..length / 4 {
        writer.author.stray();
    }
    writer.author.stream
}

/// Books at the limits of document 01 and just over them, and other ends.
pub fn edges(seeds: Range<u64>) -> Vec<Vec<u8>> {
    let mut books = vec![Vec::new(), vec![END], listing(), of_length(LONGEST - 5)];
    for seed in seeds.clone() {
        let mut random = Random::new(seed);
        let n = random.between(1, 65_535);
        let k = random.between(1, 99);
        let area = random.of_any_size(AREA.1 - 2) + 1;
        for over in [0, 1] {
            books.push(any_writer(seed).book(0..LINES + over as usize, random.between(0, 2)));
            books.push(one_line(seed, [1, 1], 1, 1_000_000 + over));
            // An estimate of 1,000,000 trees, or of 1/k of a tree more.
            books.push(one_line(seed, [1_000_000 * k + over, n * k], 2, n));
            books.push(one_line(seed, [1, 1], over as usize, n));
        }
        // No tree in any line; a height tree alone; areas about equal.
        books.push(any_writer(seed).without_small_trees().book(0..random.between(1, LINES as u64) as usize, 0));
        books.push(one_line(seed, [1, 1], 1, 0));
        books.extend(about_equal(area).map(|areas| one_line(seed, areas, 1, n)));
        // The least tariff and the greatest, and one beyond each.
        books.extend([4_999_999, 5_000_000, 504_999_999, 505_000_000].map(|c1| one_tariff(seed, c1)));
        books.push(without_factor(seed));
    }
    for seed in seeds.step_by(4) {
        books.extend([1_000, 1_001].map(|height_trees| one_line(seed, [1, 1], height_trees, 7)));
        // Every species and every factor.
        books.push(Writer::new(Author::new(seed), 16, CM.0..=CM.1).book(0..20, 5));
    }
    books
}

/// Books at the limits of small trees and just over them, and other ends.
pub fn edges_of_small_trees(seeds: Range<u64>) -> Vec<Vec<u8>> {
    seeds.flat_map(small_edges).collect()
}

/// The plots as great as the net area, a square metre above it, and one below: of this area and of the greatest.
fn about_equal(area: u64) -> [[u64; 2]; 6] {
    let most = AREA.1;
    [[area, area], [area, area + 1], [area + 1, area], [most, most], [most - 1, most], [most, most - 1]]
}

/// An estimate of 1,000,000 trees, or of 1/k of a tree more; a count of 1,000,000, and one more; areas about equal; the
/// ends of the carbon; a second command. All these alone and beside a measured tree. And 32 lines without any measured
/// tree.
fn small_edges(seed: u64) -> Vec<Vec<u8>> {
    let mut author = Author::new(seed);
    let [carbon, n] = author.small_operands();
    let k = author.random.between(1, 99);
    let area = author.random.of_any_size(AREA.1 - 2) + 1;
    let mut lines = Vec::new();
    for over in [0, 1] {
        lines.push(([1_000_000 * k + over, n * k], vec![[carbon, n]]));
        lines.push(([1, 1], vec![[carbon, 1_000_000 + over]]));
    }
    lines.extend(about_equal(area).map(|areas| (areas, vec![[carbon, n]])));
    lines.extend([0, 1, u32::MAX.into()].map(|end| ([1, 1], vec![[end, n]])));
    lines.extend([[carbon, n], [0, n], [carbon, 0]].map(|second| ([1, 1], vec![[carbon, n], second])));
    let books = lines.iter().flat_map(|(areas, small)| [0, 1].map(|n| with_small_trees(seed, *areas, n, small)));
    books.chain([any_writer(seed).book(0..LINES, 0)]).collect()
}

/// A book that is worked out by hand, with what it comes to.
pub struct Named {
    pub name: String,
    pub book: Vec<u8>,
    pub answer: Totalled,
    /// T, d, N, low and high of the last row, where there is one.
    pub last_row: Option<[u64; 5]>,
}

fn refused(name: impl Into<String>, (number, at): (u8, u64), book: Vec<u8>) -> Named {
    Named { name: name.into(), book, answer: (number, [0, 0, 0, 0, at]), last_row: None }
}

fn comes_to(name: impl Into<String>, row: [u64; 5], [rows, trees, low, high]: [u64; 4], book: Vec<u8>) -> Named {
    Named { name: name.into(), book, answer: (0, [rows, trees, low, high, 0]), last_row: Some(row) }
}

/// Openings with areas of every kind, and what equal areas and others make of the same trees.
pub fn areas() -> Vec<Named> {
    let after_the_end = [(END, vec![]), opening([1, 3], [250, 5_000])];
    let mut books = vec![refused("after the end, p 250 and q 5,000", (5, 1), written(after_the_end))];
    books.extend(OPENINGS.into_iter().flat_map(by_areas));
    books.extend(areas_accepted());
    books
}

fn opening([stratum, species]: [u64; 2], [p, q]: [u64; 2]) -> Order {
    (OPEN, vec![stratum, species, p, q])
}

/// An opening: its place, its stratum and species, and the number that it gets with good areas, 0 where it is accepted.
/// Before it stand the listing's oak, so many empty lines of it, in the strata from 0 on, and one that is open or none.
struct Opening {
    name: &'static str,
    strata: u64,
    is_open: bool,
    at: u64,
    line: [u64; 2],
    number: u8,
}

const OPENINGS: [Opening; 6] = [
    Opening { name: "a new line", strata: 0, is_open: false, at: 21, line: [1, 3], number: 0 },
    Opening { name: "a line is open", strata: 0, is_open: true, at: 32, line: [1, 3], number: 9 },
    Opening { name: "species undeclared", strata: 0, is_open: false, at: 21, line: [1, 4], number: 8 },
    Opening { name: "an id above 15", strata: 0, is_open: false, at: 21, line: [1, 16], number: 8 },
    Opening { name: "already opened", strata: 1, is_open: false, at: 33, line: [0, 3], number: 7 },
    Opening { name: "a 33rd line", strata: 32, is_open: false, at: 405, line: [32, 3], number: 11 },
];

/// 6 comes first, then 17, and then all that an opening gets with its areas exchanged.
fn by_areas(Opening { name, strata, is_open, at, line, number }: Opening) -> Vec<Named> {
    let lines = (0..strata).flat_map(|stratum| [opening([stratum, 3], [1, 1]), (CLOSE, vec![])]);
    let open = is_open.then(|| opening([99, 3], [1, 1]));
    let before: Vec<Order> = [oak()].into_iter().chain(lines).chain(open).collect();
    let book = |areas| written(before.iter().cloned().chain([opening(line, areas), (CLOSE, vec![]), (END, vec![])]));
    let named = |number, [p, q]: [u64; 2]| refused(format!("{name}, p {p} and q {q}"), (number, at), book([p, q]));
    let outside = [[0, 1], [0, 100_000_000], [1, 100_000_001], [100_000_000, 100_000_001]].map(|areas| named(6, areas));
    let above = [[1, 2], [250, 5_000], [5_000, 5_001], [99_999_999, 100_000_000]].map(|areas| named(17, areas));
    let good = [[1, 1], [5_000, 250], [100_000_000, 100_000_000]].map(|areas| match number {
        0 => comes_to(format!("{name}, areas {areas:?}"), [0; 5], [1, 0, 0, 0], book(areas)),
        _ => named(number, areas),
    });
    outside.into_iter().chain(above).chain(good).collect()
}

/// 4 oaks and 289 saplings. With p = q each tree that is recorded is one; the greatest p and the q before it leave too
/// little to add a hundredth.
fn areas_accepted() -> Vec<Named> {
    let both = |areas| line_of_both(areas, 4, 1_575_600, 289);
    let as_recorded = ([26, 6_000, 29_300, 9_292_175_168, 9_292_175_206], [1, 29_300, 17_035_654, 17_035_655]);
    let as_many = [[1, 1], [250, 250], [100_000_000, 100_000_000], [100_000_000, 99_999_999]];
    let as_many = as_many.map(|areas| {
        comes_to(format!("293 trees recorded, areas {areas:?}"), as_recorded.0, as_recorded.1, both(areas))
    });
    let more = [26, 6_000, 29_306, 9_292_364_240, 9_292_364_278];
    let twentyfold = [26, 6_000, 586_000, 185_843_503_360, 185_843_504_082];
    let above = [
        comes_to("p a square metre above q", more, [1, 29_306, 17_036_001, 17_036_002], both([5_001, 5_000])),
        comes_to("p 5,000 and q 250", twentyfold, [1, 586_000, 340_713_089, 340_713_091], both([5_000, 250])),
    ];
    as_many.into_iter().chain(above).collect()
}

/// Books of small trees.
pub fn small_trees() -> Vec<Named> {
    let kinds =
        [refused_small_trees(), refused_closings(), at_the_limit(), of_small_trees(), of_both_sorts(), greatest()];
    kinds.into_iter().flatten().collect()
}

fn small(carbon: u64, count: u64) -> Order {
    (SMALL, vec![carbon, count])
}

/// Oaks of the listing, and what they need: 11 bytes. Their tariff is 26 and d is 6000, and one tree is 2,095,369,592 to
/// 2,095,369,601 mg.
fn measured_oaks(count: u64) -> [Order; 3] {
    [(FACTOR, vec![60, 101]), (MEASURED, vec![60, count]), (HEIGHT, vec![60, 120])]
}

/// The listing's oak, a line of it with these commands, the first of them at byte 32, and the end.
fn line_of_oaks([p, q]: [u64; 2], commands: impl IntoIterator<Item = Order>) -> Vec<u8> {
    let before = [oak(), (OPEN, vec![1, 3, p, q])];
    let after = [(CLOSE, vec![]), (END, vec![])];
    written(before.into_iter().chain(commands).chain(after))
}

/// Such a line with measured oaks and small trees: it is closed at byte 52.
fn line_of_both(areas: [u64; 2], oaks: u64, carbon: u64, count: u64) -> Vec<u8> {
    line_of_oaks(areas, measured_oaks(oaks).into_iter().chain([small(carbon, count)]))
}

/// Two lines. Amid the trees of the first stand the factor that it needs, and the species and the factor that the second
/// needs.
pub fn declared_inside() -> Vec<u8> {
    let (species, mut operands) = oak();
    operands[0] = 4;
    written([
        oak(),
        (OPEN, vec![1, 3, 6, 1]),
        (MEASURED, vec![60, 4]),
        (FACTOR, vec![39, 101]),
        (MEASURED, vec![20, 7]),
        (species, operands),
        (HEIGHT, vec![60, 120]),
        (FACTOR, vec![30, 150]),
        (HEIGHT, vec![20, 30]),
        small(1_575_600, 289),
        (CLOSE, vec![]),
        (OPEN, vec![2, 4, 1, 1]),
        (MEASURED, vec![30, 5]),
        (HEIGHT, vec![20, 100]),
        (CLOSE, vec![]),
        (END, vec![]),
    ])
}

/// A line of 983,025 oaks with too many more, and with a height tree whose tariff would be 120: the one before the other,
/// and the other way round. The first of the two stands at byte 92.
pub fn refused_in_two_orders() -> [Vec<u8>; 2] {
    let [oaks, tall] = [(MEASURED, vec![60, 65_535]), (HEIGHT, vec![20, 600])];
    let before = vec![oaks.clone(); 15];
    let orders = [[oaks.clone(), tall.clone()], [tall, oaks]];
    orders.map(|last| line_of_oaks([1, 1], before.iter().cloned().chain(last)))
}

/// 08 is checked for 5, for 10, for 6, and then for 7.
fn refused_small_trees() -> Vec<Named> {
    let mut books = vec![
        refused("a second 08", (7, 41), line_of_oaks([1, 1], [small(1, 1), small(1, 1)])),
        refused("no line was opened", (10, 21), written([oak(), small(1, 1)])),
        refused("the line is closed", (10, 42), line_of_oaks([1, 1], [small(1, 1), (CLOSE, vec![]), small(1, 1)])),
    ];
    for (what, carbon, count) in [("carbon 0", 0, 1), ("count 0", 1, 0), ("count 1,000,001", 1, 1_000_001)] {
        let wrong = || small(carbon, count);
        books.push(refused(what, (6, 32), line_of_oaks([1, 1], [wrong()])));
        let second = line_of_oaks([1, 1], [small(1, 1), wrong()]);
        books.push(refused(format!("a second 08 with {what}"), (6, 41), second));
        books.push(refused(format!("no line open and {what}"), (10, 21), written([oak(), wrong()])));
        books.push(refused(format!("after the end, with {what}"), (5, 1), written([(END, vec![]), wrong()])));
    }
    books
}

/// Measured trees need what they needed, and that comes first.
fn refused_closings() -> Vec<Named> {
    let mut books = Vec::new();
    for (number, areas, count) in [("1", [1, 1], 1), ("1,000,000.01", [100_000_000, 99_999_999], 1_000_000)] {
        let [factor, measured, height] = measured_oaks(1);
        let no_height_tree = line_of_oaks(areas, [factor, measured.clone(), small(1, count)]);
        books.push(refused(format!("{number} small trees, n = 1, no height tree"), (12, 48), no_height_tree));
        let no_factor = line_of_oaks(areas, [measured, height, small(1, count)]);
        books.push(refused(format!("{number} small trees, n = 1, no factor"), (14, 49), no_factor));
    }
    let too_many = line_of_both([1_000_000, 1], 2, 1, 1);
    books.push(refused("2,000,000 measured trees beside 1,000,000 small ones", (15, 52), too_many));
    books
}

/// A small number of 100,000,000 and one over, without measured trees and with one. Before it is rounded, that of 999,999
/// is 100,000,000.49, and that of 3 is 100,000,000.5.
fn at_the_limit() -> Vec<Named> {
    let mut books = Vec::new();
    for (count, areas) in [(1_000_000, [1, 1]), (999_999, [9_951_310, 9_951_300])] {
        let (row, totals) = ([0, 0, 100_000_000, 2_000_000, 2_000_001], [1, 100_000_000, 3_666, 3_667]);
        let name = |n| format!("small number 100,000,000 of {count}, n = {n}");
        books.push(comes_to(name(0), row, totals, line_of_oaks(areas, [small(1, count)])));
        let row = [26, 6_000, 100_000_100, 2_097_369_592, 2_097_369_603];
        let totals = [1, 100_000_100, 3_845_177, 3_845_178];
        books.push(comes_to(name(1), row, totals, line_of_both(areas, 1, 1, count)));
    }
    for (count, areas) in [(1_000_000, [100_000_000, 99_999_999]), (3, [66_666_667, 200])] {
        let name = |n| format!("small number 100,000,001 of {count}, n = {n}");
        books.push(refused(name(0), (15, 41), line_of_oaks(areas, [small(1, count)])));
        books.push(refused(name(1), (15, 52), line_of_both(areas, 1, 1, count)));
    }
    books
}

/// Lines without measured trees, and so without a factor: tariff and d are 0.
fn of_small_trees() -> Vec<Named> {
    const MOST: u64 = u32::MAX as u64;
    let (height_tree, saplings) = ((HEIGHT, vec![60, 120]), small(1_575_600, 289));
    let alone = line_of_oaks([240_000, 1_000], [saplings.clone()]);
    let with_height_tree = line_of_oaks([240_000, 1_000], [height_tree, saplings]);
    let row = [0, 0, 6_936_000, 218_567_232_000, 218_567_232_001];
    let totals = [1, 6_936_000, 400_706_592, 400_706_593];
    let one = |carbon| line_of_oaks([1, 1], [small(carbon, 1)]);
    let greatest = ([0, 0, 100, 8_589_934_590, 8_589_934_591], [1, 100, 15_748_213, 15_748_214]);
    let next_line = [small(3_000_000, 1), (CLOSE, vec![]), (OPEN, vec![2, 3, 1, 1])];
    vec![
        comes_to("no factor and no height tree", row, totals, alone),
        comes_to("a height tree and no measured tree", row, totals, with_height_tree),
        comes_to("less than a g", [0, 0, 100, 2, 3], [1, 100, 0, 1], one(1)),
        comes_to(
            "whole mg, nothing dropped",
            [0, 0, 100, 6_000_000, 6_000_001],
            [1, 100, 11_000, 11_001],
            one(3_000_000),
        ),
        comes_to("carbon 4,294,967,295", greatest.0, greatest.1, one(MOST)),
        comes_to("the next line has none", [0; 5], [2, 100, 11_000, 11_001], line_of_oaks([1, 1], next_line)),
    ]
}

/// Each sort is divided by itself: in the last, 0.92 mg of the oaks and 0.98 mg of the small trees are dropped.
fn of_both_sorts() -> Vec<Named> {
    let row = [26, 6_000, 175_800, 55_753_051_008, 55_753_051_226];
    let totals = [1, 175_800, 102_213_926, 102_213_928];
    let apart = ([26, 6_000, 802, 8_402_432_455, 8_402_432_494], [1, 802, 15_404_459, 15_404_460]);
    vec![
        comes_to("the listing's line with saplings", row, totals, line_of_both([6, 1], 4, 1_575_600, 289)),
        comes_to("both numbers 401", apart.0, apart.1, line_of_both([401, 400], 4, 49, 4)),
    ]
}

/// The listing's oak, so many trees of a class and one of the class below, with the factor of one cm alone. The line is
/// closed at byte 47.
fn two_classes(class: u64, trees: u64, factor: u64) -> Vec<u8> {
    let measured = [(MEASURED, vec![class, trees]), (MEASURED, vec![class - 1, 1])];
    let [factor, height] = [(FACTOR, vec![factor, 101]), (HEIGHT, vec![60, 120])];
    line_of_oaks([1, 1], [factor].into_iter().chain(measured).chain([height]))
}

/// Means of 59.96, 59.99 and 60.00 cm, each with the factor at 60 cm alone and with the one at 59 alone. Below 60.00 the
/// factor is the one at 59.
pub fn about_sixty() -> Vec<Named> {
    let means = [
        ("59.96", 24, 59, [26, 5_996, 2_500, 52_317_593_250, 52_317_593_476], [1, 2_500, 95_915_587, 95_915_589]),
        ("59.99", 99, 59, [26, 5_999, 10_000, 209_470_301_600, 209_470_302_501], [1, 10_000, 384_028_886, 384_028_888]),
        (
            "60.00",
            249,
            60,
            [26, 6_000, 25_000, 523_842_398_000, 523_842_400_251],
            [1, 25_000, 960_377_729, 960_377_734],
        ),
    ];
    let books = means.into_iter().flat_map(|(mean, trees, cm, row, totals)| {
        let name = |factor| format!("a mean of {mean} cm, the factor at {factor} alone");
        let book = |factor| two_classes(60, trees, factor);
        let other = 59 + 60 - cm;
        [comes_to(name(cm), row, totals, book(cm)), refused(name(other), (NO_FACTOR, 47), book(other))]
    });
    books.collect()
}

/// For each whole cm from 8 on a mean of 4 hundredths below it, of one below it, and at it: with the factor at this cm alone
/// and with the one a cm below alone. Each with the number that it is refused with, 0 where it is accepted.
pub fn about_each_cm() -> Vec<(u8, Vec<u8>)> {
    let mut books = Vec::new();
    for class in CM.0 + 1..=CM.1 {
        for (trees, at_class, below) in [(24, NO_FACTOR, 0), (99, NO_FACTOR, 0), (249, 0, NO_FACTOR)] {
            books.push((at_class, two_classes(class, trees, class)));
            books.push((below, two_classes(class, trees, class - 1)));
        }
    }
    books
}

/// So many lines of both sorts at their greatest, each of 1,000,000 trees of either, and then these commands. Crown of
/// beech and root of red alder, at 100 cm and with the greatest tariff, factor and gravity, make the greatest tree.
fn greatest_lines(lines: u64, last: impl IntoIterator<Item = Order>) -> Vec<u8> {
    let before = [(SPECIES, vec![0, 6, 5, 100, 500_000_000, 0, 0, 0]), (FACTOR, vec![100, 200])];
    let line = |stratum| {
        let [open, measured] = [(OPEN, vec![stratum, 0, 1_000_000, 1]), (MEASURED, vec![100, 1])];
        [open, measured, (HEIGHT, vec![100, 600]), small(u32::MAX.into(), 1), (CLOSE, vec![])]
    };
    written(before.into_iter().chain((0..lines).flat_map(line)).chain(last).chain([(END, vec![])]))
}

/// 11 times the sum of 32 such rows is above 2^63. With 21 of them, and a line of small trees, the N of all lines is just
/// under 2^32, at it, and just over.
fn greatest() -> Vec<Named> {
    let row = [50, 10_000, 200_000_000, 35_002_121_762_000_000, 35_002_121_813_000_002];
    let totals = [32, 6_400_000_000, 2_053_457_810_037_333, 2_053_457_813_029_334];
    let mut books = vec![comes_to("32 lines of both sorts at their greatest", row, totals, greatest_lines(32, []))];
    for more in [94_967_295, 94_967_296, 94_967_297] {
        let trees = 4_200_000_000 + more;
        let row = [0, 0, more, 1_899_345, 1_899_346];
        let totals = [22, trees, 1_347_581_687_840_482, 1_347_581_689_803_983];
        let last = [(OPEN, vec![99, 0, more, 100]), small(1, 1), (CLOSE, vec![])];
        books.push(comes_to(format!("the N of all lines {trees}"), row, totals, greatest_lines(21, last)));
    }
    books
}

/// Books that open a line again, each with the number that it is refused with: after 1 to 31 lines the last of them, and
/// after 32 each of them, or a new one.
pub fn opened_again() -> Vec<(u8, Vec<u8>)> {
    let mut books = Vec::new();
    for species in streams::SPECIES_OF_LINES {
        let last = (1..LINES).map(|lines| (lines, lines - 1));
        let each = (0..=LINES).map(|i| (LINES, i));
        for (lines, again) in last.chain(each) {
            let writer = Writer::new(Author::new(800 + books.len() as u64), species, 30..=30);
            let number = if again < lines { ALREADY_OPENED } else { LINES_OPENED };
            books.push((number, writer.book((0..lines).chain([again]), 1)));
        }
    }
    books
}

/// Some 1,700 books: accepted, damaged, by chance, at the limits, of small trees, with areas of every kind, with means about
/// 60 cm, and with a line that is opened again.
pub fn of_every_kind() -> Vec<Vec<u8>> {
    let seeds = 5_000_000..5_000_300;
    let books = seeds.flat_map(|seed| [accepted, damaged, by_chance].map(|book| book(seed)));
    let by_hand = small_trees().into_iter().chain(areas()).chain(about_sixty()).map(|named| named.book);
    let opened_again = opened_again().into_iter().map(|(_, book)| book);
    books.chain(edges(0..8)).chain(edges_of_small_trees(0..8)).chain(by_hand).chain(opened_again).collect()
}

/// Books of about the most bytes that a book may have, and over: accepted, refused at the last byte or at the first.
pub fn long() -> Vec<Vec<u8>> {
    let mut books: Vec<_> = [LONGEST - 1, LONGEST, LONGEST + 1, 100_000].map(of_length).into();
    for i in 0..books.len() {
        let mut open = books[i].clone();
        open.pop();
        books.push([open, vec![0]].concat());
        books.push(vec![0; books[i].len()]);
    }
    // What is over is not part of a book: the bytes up to there would be accepted.
    books.push([of_length(LONGEST), vec![0]].concat());
    books
}

/// An accepted book with each byte after its end, and with commands after it.
pub fn after_the_end(seed: u64) -> Vec<Vec<u8>> {
    let book = accepted(seed);
    let after = |bytes: &[u8]| [&book[..], bytes].concat();
    let mut author = Author::new(!seed);
    let mut books: Vec<_> = (0..=u8::MAX).map(|byte| after(&[byte])).collect();
    for _ in 0..100 {
        author.stray();
        books.push(after(&mem::take(&mut author.stream)));
    }
    books.push(after(&book));
    books
}

/// An accepted book cut short at every length.
pub fn cut_short(seed: u64) -> Vec<Vec<u8>> {
    let book = accepted(seed);
    (0..book.len()).map(|length| book[..length].to_vec()).collect()
}

/// An accepted book of so many bytes: a species, 1 to 4 factors of 3 bytes each, and a line whose measured trees take
/// 4 bytes each.
pub fn of_length(length: usize) -> Vec<u8> {
    let factors = (1..=4).find(|factors| (length - 38 - 3 * factors).is_multiple_of(4)).expect("a remainder of 4");
    let writer = Writer::new(Author::new(length as u64), 1, 20..=19 + factors as u64);
    let measured = (length - 38 - 3 * factors) / 4;
    // Six times as many trees, unless these were too many.
    let p = if measured < 100_000 { 6 } else { 1 };
    let book = writer.one_line([p, 1], 1, vec![1; measured], &[]);
    assert_eq!(book.len(), length);
    book
}

/// An accepted book of so many lines, with measured trees in most of them.
pub fn of_lines(lines: usize) -> Vec<u8> {
    any_writer(lines as u64).without_small_trees().book(0..lines, 5)
}

/// An accepted book of one line with so many height trees.
pub fn of_height_trees(height_trees: usize) -> Vec<u8> {
    one_line(0, [1, 1], height_trees, 7)
}

/// Counts that add up to so many trees.
fn counts(author: &mut Author, trees: u64) -> Vec<u64> {
    let mut counts = Vec::new();
    let mut left = trees;
    while left > 0 {
        let count = left.min(author.random.between(30_000, 65_535));
        counts.push(count);
        left -= count;
    }
    counts
}

/// A book of one line with so many height trees and measured trees, whatever document 01 says of them.
pub fn one_line(seed: u64, areas: [u64; 2], height_trees: usize, trees: u64) -> Vec<u8> {
    let mut writer = any_writer(seed);
    let counts = counts(&mut writer.author, trees);
    writer.one_line(areas, height_trees, counts, &[])
}

/// A book of one line with so many measured trees and these operands of small trees, whatever the papers say of them.
pub fn with_small_trees(seed: u64, areas: [u64; 2], trees: u64, small: &[[u64; 2]]) -> Vec<u8> {
    let mut writer = any_writer(seed);
    let counts = counts(&mut writer.author, trees);
    writer.one_line(areas, counts.len(), counts, small)
}

/// A species whose tariff is the same for every tree: c1 alone is not 0.
fn one_tariff(seed: u64, c1: i32) -> Vec<u8> {
    let mut writer = any_writer(seed);
    writer.species.truncate(1);
    let id = writer.species[0].0;
    let operands = writer.author.species_operands(id, [four_bytes(c1), 0, 0, 0]);
    writer.pending.retain(|(byte, _)| *byte == FACTOR);
    writer.pending.push((SPECIES, operands.to_vec()));
    writer.one_line([6, 1], 1, vec![5], &[])
}

/// A line with trees of a class that has no factor.
fn without_factor(seed: u64) -> Vec<u8> {
    let mut writer = any_writer(seed);
    writer.pending.retain(|(byte, _)| *byte == SPECIES);
    writer.one_line([1, 1], 1, vec![1], &[])
}

/// Some species, and trees of one class.
fn any_writer(seed: u64) -> Writer {
    let mut author = Author::new(seed);
    let [species, class] = [(1, 16), CM].map(|(least, most)| author.random.between(least, most));
    Writer::new(author, species as usize, class..=class)
}

impl Author {
    /// Constants of a printed species, or of one whose tariff is the same, 1 to 50, for every tree.
    fn usable_constants(&mut self) -> [i32; 4] {
        if self.one_in(3) {
            return [self.random.signed(5_000_000, 504_999_999), 0, 0, 0];
        }
        self.one_of(&protocol::tariff())
    }

    /// A book with a command taken out, said twice, exchanged with another or put in.
    fn disorder(&mut self, book: &[u8]) -> Vec<u8> {
        let mut commands = Vec::new();
        let mut at = 0;
        while let Ok((command, next)) = book::read(book, at) {
            commands.push(command.bytes());
            at = next;
        }
        let [i, j] = [(); 2].map(|()| self.random.between(0, commands.len().max(1) as u64 - 1) as usize);
        match self.random.between(0, 3) {
            _ if commands.is_empty() => {}
            0 => drop(commands.remove(i)),
            1 => commands.insert(j, commands[i].clone()),
            2 => commands.swap(i, j),
            _ => {
                self.stray();
                commands.insert(i, mem::take(&mut self.stream));
            }
        }
        commands.push(book[at..].to_vec());
        commands.concat()
    }
}

/// One who writes a book that is accepted, unless told otherwise.
struct Writer {
    author: Author,
    /// The ids and the constants of the species.
    species: Vec<(u64, [i32; 4])>,
    /// The classes of measured trees.
    classes: RangeInclusive<u64>,
    /// What is not yet declared of these species and of the factors for these classes.
    pending: Vec<Order>,
    /// The stratum of the first line.
    stratum: u64,
    /// The constants of the line that was opened last.
    constants: [i32; 4],
    /// Whether every other line has small trees.
    small_trees: bool,
}

impl Writer {
    fn new(mut author: Author, species: usize, classes: RangeInclusive<u64>) -> Writer {
        let mut ids: Vec<u64> = (0..16).collect();
        author.random.shuffle(&mut ids);
        let species: Vec<_> = ids[..species].iter().map(|&id| (id, author.usable_constants())).collect();
        let mut pending = Vec::new();
        for &(id, constants) in &species {
            pending.push((SPECIES, author.species_operands(id, constants.map(four_bytes)).to_vec()));
        }
        for cm in classes.clone() {
            pending.push((FACTOR, vec![cm, author.random.between(100, 200)]));
        }
        author.random.shuffle(&mut pending);
        let stratum = author.random.between(0, 255);
        Writer { author, species, classes, pending, stratum, constants: [0; 4], small_trees: true }
    }

    fn without_small_trees(mut self) -> Writer {
        self.small_trees = false;
        self
    }

    /// The lines of these numbers, and the end.
    fn book(mut self, lines: impl Iterator<Item = usize>, most_measured: u64) -> Vec<u8> {
        for i in lines {
            self.line(i, most_measured);
        }
        if self.author.one_in(2) {
            self.give(|_| true);
        }
        self.author.put(END, &[]);
        self.author.stream
    }

    /// One line with so many height trees, these counts of measured trees and these operands of small trees, and the end.
    fn one_line(mut self, areas: [u64; 2], height_trees: usize, counts: Vec<u64>, small: &[[u64; 2]]) -> Vec<u8> {
        self.open(0, areas);
        for _ in 0..height_trees {
            let operands = self.height_tree();
            self.author.put(HEIGHT, &operands);
        }
        for &count in &counts {
            let class = self.class();
            self.author.put(MEASURED, &[class, count]);
        }
        small.iter().for_each(|operands| self.author.put(SMALL, operands));
        self.close(counts.iter().sum());
        self.author.put(END, &[]);
        self.author.stream
    }

    /// A line with its trees in any order. One with measured trees has height trees too. Of those with small trees one in
    /// three has no others.
    fn line(&mut self, i: usize, most_measured: u64) {
        let small = (self.small_trees && self.author.one_in(2)).then(|| self.author.small_operands());
        let alone = small.is_some() && self.author.one_in(3);
        let commands = self.author.random.between(0, if alone { 0 } else { most_measured });
        let measured: Vec<_> = (0..commands).map(|_| self.trees()).collect();
        let n = measured.iter().map(|operands| operands[1]).sum();
        let areas = self.areas(small.map_or(n, |[_, count]| n.max(count)));
        self.open(i, areas);
        let mut orders: Vec<Order> = measured.iter().map(|operands| (MEASURED, operands.to_vec())).collect();
        orders.extend(small.map(|operands| (SMALL, operands.to_vec())));
        for _ in 0..self.author.random.between(commands.min(1), 3) {
            orders.push((HEIGHT, self.height_tree().to_vec()));
        }
        self.author.random.shuffle(&mut orders);
        for (byte, operands) in orders {
            self.maybe_give();
            self.author.put(byte, &operands);
        }
        self.close(n);
    }

    /// Declares what is wanted of that which is not yet declared.
    fn give(&mut self, wanted: impl Fn(&Order) -> bool) {
        let (wanted, others): (Vec<_>, Vec<_>) = mem::take(&mut self.pending).into_iter().partition(wanted);
        wanted.iter().for_each(|(byte, operands)| self.author.put(*byte, operands));
        self.pending = others;
    }

    fn maybe_give(&mut self) {
        if self.author.one_in(4) {
            let next = self.pending.pop();
            next.iter().for_each(|(byte, operands)| self.author.put(*byte, operands));
        }
    }

    /// Opens the line of this number: the species take turns, and the strata follow each other, 0 after 255.
    fn open(&mut self, i: usize, [p, q]: [u64; 2]) {
        let (id, constants) = self.species[i % self.species.len()];
        self.give(|(byte, operands)| *byte == SPECIES && operands[0] == id);
        let stratum = self.stratum + (i / self.species.len()) as u64;
        self.author.put(OPEN, &[stratum % 256, id, p, q]);
        self.constants = constants;
    }

    /// Closes a line of so many measured trees, which need the factors.
    fn close(&mut self, n: u64) {
        self.give(|(byte, _)| n > 0 && *byte == FACTOR);
        self.author.put(CLOSE, &[]);
    }

    fn class(&mut self) -> u64 {
        self.author.random.between(*self.classes.start(), *self.classes.end())
    }

    /// The operands of measured trees.
    fn trees(&mut self) -> [u64; 2] {
        [self.class(), self.author.random.of_any_size(65_534) + 1]
    }

    /// The operands of a height tree whose tariff is within its range.
    fn height_tree(&mut self) -> [u64; 2] {
        loop {
            let at = [self.author.random.between(10, 100), self.author.random.between(1, 600)];
            if steps::single_tariff(self.constants, at).is_ok() {
                return at;
            }
        }
    }

    /// Areas by which so many trees are not too many. Equal ones leave no remainder, so they are not always equal.
    fn areas(&mut self, n: u64) -> [u64; 2] {
        let [p, q] = self.author.areas();
        match steps::trees([n, p, q]) {
            Ok(0..=100_000_000) => [p, q],
            _ if self.author.one_in(2) => [self.author.random.between(999, AREA.1.min(999 * 1_000_000 / n)), 999],
            _ => [1, 1],
        }
    }
}
