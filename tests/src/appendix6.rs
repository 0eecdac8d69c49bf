//! Appendix 6 of the protocol, Rob's Wood, which works with mean diameters to the hundredth of a cm: its printed figures,
//! put to the proved library and to the independent steps.
use crate::agree::{LINE_TARIFF, MEAN, ROW, SMALL_TREES, TREES};
use crate::protocol::{self, decimal, places};
use crate::proved::{self, Answer};
use crate::report::{Report, Tally};
use crate::steps;
use crate::worked::{crown_and_root, tariff, tonnes, OAK};

const SITKA_SPRUCE: [i32; 4] = [82920300, 17711730, -4165090, 0];
const LODGEPOLE_PINE: [i32; 4] = [88552920, 19516430, -6896190, 0];

/// Misprints, figures that the protocol rounds midway, and equations that document 01 does not have: no test of ours.
pub const LEFT_OUT: [&str; 13] = [
    "Appendix 6, volumes: worked from a basal area rounded to three places",
    "Appendix 6, stratum II: prints 11.9 cm for the root of 143.97, which is 12.00; its form has 139.30, so 11.80",
    "Appendix 6, stratum II: prints the volume 0.632 where Equation 5 gives 0.047 of its tariff and basal area",
    "Appendix 6, stratum II: the tariff is by Equation 4, from the top height",
    "Appendix 6, stratum IV: prints 58 and 60 for trees 7 and 11, where Equation 2 gives 56.44 and 59.37",
    "Appendix 6, stratum IV: prints the volume 8.255 where Equation 5 gives 6.187 of its tariff and basal area",
    "Appendix 6, stratum VII: takes the factor 1.01 where Table 4.1.9 has 1.02 at 19 cm",
    "Appendix 6, stratum VIII: takes tariff 16, of a sum of 323, where its form has 362, so 18",
    "Appendix 6, stratum VIII: adds the volume 1732.83 where the stem biomass 675.81 belongs",
    "Appendix 6, stratum IX: takes tariff 25, of a sum of 511, where its form has 499, so 24",
    "Appendix 6, stratum IX: adds the volume 25.72 where the stem biomass 13.37 belongs",
    "Appendix 6, strata X and XI: the tariffs are by Equation 1, from measured volumes",
    "Appendix 6, stratum XI: multiplies crown and root by 483.75 trees, a misprint of its 438.75",
];

pub fn run(report: &mut Report) {
    means(report);
    heights(report);
    trees(report);
    crowns_and_roots(report);
    rows(report);
    small_trees(report);
}

/// The trees of neighbouring classes from the least on: how many they are, and the sum of their classes squared.
fn tallied(least: u64, counts: &[u64]) -> [u64; 2] {
    let squares = (least..).zip(counts).map(|(class, count)| count * class * class);
    [counts.iter().sum(), squares.sum()]
}

fn means(report: &mut Report) {
    report.check("Appendix 6: the classes of the forms of strata II, VI, VII and VIII", |tally| {
        let pines = tallied(7, &[8, 6, 18, 25, 13, 45, 20, 16, 13, 4, 1]);
        let oaks = tallied(20, &[2, 0, 15, 9, 20, 52, 38, 14, 10]);
        let spruces = tallied(16, &[10, 8, 22, 13, 13, 7, 21, 1]);
        let lodgepole_pines = tallied(7, &[2, 6, 24, 33, 21, 22, 17, 4, 7, 2]);
        let all = [pines, oaks, spruces, lodgepole_pines];
        tally.same("trees and squares", all, [[169, 23_541], [160, 100_575], [95, 35_673], [138, 17_179]]);
        MEAN.gives(tally, pines, Ok(1_180));
    });
    // Of strata VI to VIII the squares are those of the classes, of the others the printed mean square times the trees. The
    // mean of II is printed as 12 on its form; that of the text is left out.
    report.check("Appendix 6: nine mean diameters, seven of them printed to the hundredth of a cm", |tally| {
        for (n, squares, mean_square, print, d) in [
            (169, 24_331, "143.97", "12", 1_200),
            (75, 327_867, "4371.56", "66.1", 6_612),
            (194, 296_820, "1530", "39.12", 3_912),
            (160, 100_575, "628.6", "25.07", 2_507),
            (95, 35_673, "375.5", "19.38", 1_938),
            (138, 17_179, "124.5", "11.16", 1_116),
            (89, 5_785, "65", "8.06", 806),
            (80, 35_584, "444.8", "21.09", 2_109),
            (78, 95_906, "1229.56", "35.07", 3_507),
        ] {
            let unit = 10i128.pow(places(mean_square) as u32);
            let off = i128::from(squares) * unit - decimal(mean_square, places(mean_square)) * i128::from(n);
            tally.holds(2 * off.abs() <= i128::from(n), (n, squares, mean_square));
            let half = 10i128.pow(2 - places(print) as u32) / 2;
            tally.holds((i128::from(d) - decimal(print, 2)).abs() <= half, (d, print));
            MEAN.gives(tally, [n, squares], Ok(d));
        }
    });
}

/// A height tree below 10 cm is refused, and so is a tariff above 50; both stand on the forms.
fn height_tree(tally: &mut Tally, c: [i32; 4], [cm, tenths, printed]: [i128; 3]) {
    tally.same((c, cm, tenths), (steps::tariff_sum(c, cm, tenths) + 50_000_000) / 100_000_000, printed);
    let expected = match printed {
        _ if cm < 10 => Err(6),
        51.. => Err(13),
        _ => Ok(printed as u64),
    };
    tariff(tally, c, [cm as u64, tenths as u64], expected);
}

fn heights(report: &mut Report) {
    for (name, stratum, c, trees, sum) in [
        ("IV, 18 of 20 oaks", 4, OAK, 18, 1_166 - 58 - 60),
        ("V, 20 oaks", 5, OAK, 20, 984),
        ("VI, 20 oaks", 6, OAK, 20, 909),
        ("VII, 20 Sitka spruces", 7, SITKA_SPRUCE, 20, 495),
        ("VIII, 20 lodgepole pines", 8, LODGEPOLE_PINE, 20, 362),
    ] {
        report.check(&format!("Appendix 6, the tariffs of stratum {name}"), |tally| {
            let rows = protocol::height_trees().into_iter().filter(|row| row[0] == stratum);
            let rows: Vec<[i128; 3]> = rows.map(|[_, cm, tenths, tariff]| [cm, tenths, tariff]).collect();
            tally.same("trees and sum", (rows.len(), rows.iter().map(|row| row[2]).sum()), (trees, sum));
            rows.into_iter().for_each(|row| height_tree(tally, c, row));
        });
    }
    report.check("Appendix 6: stand tariffs 49, 45, 24, 18, 24, 23 and 33", |tally| {
        for (sum, number, expected) in
            [(984, 20, 49), (909, 20, 45), (495, 20, 24), (362, 20, 18), (499, 20, 24), (372, 16, 23), (529, 16, 33)]
        {
            LINE_TARIFF.gives(tally, [sum, number], Ok(expected));
        }
        // Stratum IV's is 58.
        LINE_TARIFF.gives(tally, [1_166, 20], Err(6));
    });
}

fn trees(report: &mut Report) {
    report.check("Appendix 6: the trees of nine strata", |tally| {
        for (operands, trees) in [
            ([169, 450_000, 1_000], 7_605_000),
            ([75, 260_000, 10_000], 195_000),
            ([194, 320_000, 10_000], 620_800),
            ([160, 102_000, 10_000], 163_200),
            ([95, 320_000, 2_000], 1_520_000),
            ([138, 320_000, 1_000], 4_416_000),
            ([89, 170_000, 10_000], 151_300),
            ([80, 45_000, 1_600], 225_000),
            ([78, 45_000, 8_000], 43_875),
        ] {
            TREES.gives(tally, operands, Ok(trees));
        }
    });
}

/// Of the mean diameters that the print goes on with: of strata II and IV these are 11.9 and 66.1 cm.
fn crowns_and_roots(report: &mut Report) {
    for (name, operands, crown, root) in [
        ("Scots pine of 11.9 cm", [3, 2, 1_190], "0.007443", "0.007525"),
        ("oak of 66.1 cm", [7, 5, 6_610], "0.492023", "0.456994"),
        ("oak of 39.12 cm", [7, 5, 3_912], "0.148091", "0.199081"),
        ("oak of 25.07 cm", [7, 5, 2_507], "0.049195", "0.071435"),
        ("Sitka spruce of 19.38 cm", [4, 4, 1_938], "0.022316", "0.033819"),
        ("lodgepole pine of 11.16 cm", [2, 3, 1_116], "0.006934", "0.007209"),
        ("mixed broadleaf of 8.06 cm", [7, 5, 806], "0.002960", "0.004187"),
        ("ash of 21.09 cm", [7, 5, 2_109], "0.032061", "0.046368"),
        ("Norway spruce of 35.07 cm", [4, 1, 3_507], "0.096955", "0.083948"),
    ] {
        crown_and_root(report, &format!("Appendix 6, {name}"), operands, [crown, root]);
    }
}

/// The strata as they stand in examples/WORKED.md: trees, tariff, d, factor, gravity and groups. IV has a tariff above 50.
fn rows(report: &mut Report) {
    report.check("Appendix 6: the biomass of eight strata, as examples/WORKED.md has it", |tally| {
        for (operands, low, high) in [
            ([7_605_000, 19, 1_200, 107, 42, 3, 2], 2_848_522_792_050, 2_848_523_248_351),
            ([620_800, 49, 3_912, 100, 56, 7, 5], 8_399_042_537_024, 8_399_042_611_521),
            ([163_200, 45, 2_507, 101, 56, 7, 5], 795_267_026_304, 795_267_045_889),
            ([1_520_000, 24, 1_938, 102, 33, 4, 4], 1_865_391_469_600, 1_865_391_560_801),
            ([4_416_000, 18, 1_116, 109, 39, 2, 3], 1_345_222_940_160, 1_345_223_205_121),
            ([151_300, 24, 806, 119, 52, 7, 5], 24_321_809_373, 24_321_822_991),
            ([225_000, 23, 2_109, 102, 53, 7, 5], 454_876_031_250, 454_876_051_501),
            ([43_875, 33, 3_507, 100, 33, 4, 1], 219_122_494_110, 219_122_497_182),
        ] {
            ROW.gives(tally, operands, Ok((low, high)));
        }
        ROW.gives(tally, [195_000, 58, 6_612, 100, 56, 7, 5], Err(6));
    });
}

/// The carbon of small trees, which is half of their biomass: from the high half a mg is dropped.
fn small_carbon(operands: [u64; 2]) -> Answer {
    let [low, high] = proved::small_trees(operands).accepted();
    Ok((low / 2, high / 2)).into()
}

/// The strata of small trees, each with the carbon of one tree in mg as a book has it.
fn small_trees(report: &mut Report) {
    let (sapling, thousand_seedlings) = (decimal("0.0015756", 9) as u64, decimal("0.0046951", 9) as u64);
    let seedling = (thousand_seedlings + 500) / 1_000;
    for (name, counted, trees, carbon, print) in [
        ("stratum I: 69360 saplings", [289, 240_000, 1_000], 6_936_000, sapling, "109.28"),
        ("stratum III: 103700 seedlings", [305, 340_000, 1_000], 10_370_000, seedling, "0.487"),
    ] {
        report.check(&format!("Appendix 6, {name}"), |tally| {
            TREES.gives(tally, counted, Ok(trees));
            tonnes(tally, small_carbon, [trees, carbon], print);
        });
    }
    report.check("Appendix 6: a sapling is 1,575,600 mg of carbon, and a seedling 4,695 mg", |tally| {
        tally.same("the printed tonnes in mg", [sapling, seedling], [1_575_600, 4_695]);
        let biomass = Ok((218_567_232_000, 218_567_232_001));
        SMALL_TREES.gives(tally, [6_936_000, sapling], biomass);
        let biomass = Ok((973_743_000, 973_743_001));
        SMALL_TREES.gives(tally, [10_370_000, seedling], biomass);
    });
}
