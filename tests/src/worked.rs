//! Printed figures: the protocol's worked examples, and the lines that document 01 marks. Each is put to the
//! proved library and to the independent steps.
use crate::agree::{CROWN, LINE_TARIFF, MEAN, PROJECT, ROOT, ROW, TREES};
use crate::protocol::{decimal, places};
use crate::proved::{self, Answer};
use crate::report::{Report, Tally};
use crate::{appendix6, steps};

pub const OAK: [i32; 4] = [58830000, 20123000, -54780, -57397];
const ASH: [i32; 4] = [91605000, 20256000, -668420, -44172];
const SCOTS_PINE: [i32; 4] = [98173870, 11774860, -1141740, 0];
const CORSICAN_PINE: [i32; 4] = [50708420, 17540530, -1938340, 0];

/// Figure A4.2: diameter in cm, height in tenths of a metre, printed tariff.
const SCOTS_PINES: [(u64, u64, u64); 24] = [
    (22, 135, 23),
    (27, 161, 26),
    (29, 141, 23),
    (21, 137, 24),
    (20, 137, 24),
    (25, 154, 25),
    (22, 127, 22),
    (24, 147, 24),
    (30, 146, 24),
    (28, 147, 24),
    (26, 156, 25),
    (23, 141, 24),
    (20, 150, 25),
    (30, 142, 23),
    (27, 158, 25),
    (28, 142, 23),
    (23, 154, 25),
    (26, 142, 24),
    (21, 149, 25),
    (29, 157, 25),
    (27, 151, 25),
    (25, 146, 24),
    (27, 148, 24),
    (29, 164, 26),
];

/// Figure A4.4, without its tree 9.
const CORSICAN_PINES: [(u64, u64, u64); 15] = [
    (13, 117, 23),
    (17, 123, 23),
    (16, 110, 21),
    (16, 113, 22),
    (24, 102, 18),
    (24, 117, 21),
    (14, 113, 22),
    (23, 124, 22),
    (13, 101, 20),
    (22, 113, 21),
    (17, 117, 22),
    (24, 116, 21),
    (17, 115, 22),
    (24, 117, 21),
    (17, 96, 19),
];

/// Misprints, and figures that the protocol rounds midway: they are no test of ours.
const LEFT_OUT: [&str; 7] = [
    "Appendix 4, Figure A4.4, tree 9 (17 cm, 10.2 m): prints 19 where Equation 3 gives 19.67",
    "Appendix 4, compartment 2: multiplies the root of one tree as 0.0115571, a misprint of its 0.015571",
    "Appendix 4 and 5, volumes: worked from a basal area rounded to three places",
    "Appendix 5, oak: the volume is worked with tariff 24 though its tariff is 26",
    "Appendix 5, basal areas: prints pi times 14.7 and 16.9, unsquared",
    "Section 6: prints 3.67 for 44/12; document 01 keeps 11/3",
    "Table 5.2.2, larches: prints the power 2.0291; document 01 raises every crown group to 2.4767",
];

pub fn run(report: &mut Report) {
    tariffs(report);
    means_and_trees(report);
    crowns_and_roots(report);
    appendix6::run(report);
    marked(report);
    for what in LEFT_OUT.iter().chain(&appendix6::LEFT_OUT) {
        println!("left out: {what}");
    }
}

pub fn tariff(tally: &mut Tally, c: [i32; 4], at: [u64; 2], expected: steps::Count) {
    tally.same((c, at), proved::single_tariff(c, at), expected.into());
    tally.same((c, at), steps::single_tariff(c, at), expected);
}

/// Both ends of a figure in mg must round to the printed tonnes, within half a unit of the last printed place.
pub fn tonnes(tally: &mut Tally, ask: fn([u64; 2]) -> Answer, operands: [u64; 2], print: &str) {
    let half = 10i128.pow(9 - places(print) as u32) / 2;
    let ends = ask(operands).accepted();
    for mg in ends.map(i128::from) {
        tally.holds((mg - decimal(print, 9)).abs() <= half, (operands, mg, print));
    }
    let mg = ends[0];
    tally.remark += &format!("; {}.{:09} t, printed {print}", mg / 1_000_000_000, mg % 1_000_000_000);
}

/// The crown and the root of one tree, of a crown group, a root group and a mean diameter, as the protocol prints them.
pub fn crown_and_root(report: &mut Report, name: &str, [crown, root, d]: [u64; 3], printed: [&str; 2]) {
    let [of_crown, of_root] = printed;
    report.check(&format!("{name}, crown"), |tally| tonnes(tally, proved::crown, [crown, d], of_crown));
    report.check(&format!("{name}, root"), |tally| tonnes(tally, proved::root, [root, d], of_root));
}

fn tariffs(report: &mut Report) {
    report.check("Appendix 4, Figure A4.2: 24 tariffs of Scots pine", |tally| {
        for (cm, tenths, expected) in SCOTS_PINES {
            tariff(tally, SCOTS_PINE, [cm, tenths], Ok(expected));
        }
        tally.same("their sum", SCOTS_PINES.iter().map(|tree| tree.2).sum(), 582);
    });
    report.check("Appendix 4, Figure A4.4: 15 tariffs of Corsican pine", |tally| {
        for (cm, tenths, expected) in CORSICAN_PINES {
            tariff(tally, CORSICAN_PINE, [cm, tenths], Ok(expected));
        }
    });
    // The text prints the tariff before it is rounded: 26.09 and 24.34.
    report.check("Appendix 5: the tariffs of oak 1 and ash 26", |tally| {
        tariff(tally, OAK, [17, 106], Ok(26));
        tariff(tally, ASH, [25, 88], Ok(24));
        tally.same("oak 1 to two places", (steps::tariff_sum(OAK, 17, 106) + 500_000) / 1_000_000, 2609);
        tally.same("ash 26 to two places", (steps::tariff_sum(ASH, 25, 88) + 500_000) / 1_000_000, 2434);
    });
    report.check("Appendices 4 and 5: stand tariffs 24, 21, 26 and 24", |tally| {
        for (sum, number, expected) in [(582, 24, 24), (337, 16, 21), (235, 9, 26), (221, 9, 24)] {
            LINE_TARIFF.gives(tally, [sum, number], Ok(expected));
        }
    });
}

/// The sums of squares are those of the printed forms.
fn means_and_trees(report: &mut Report) {
    report.check("Appendices 4 and 5: means 25.09, 18.39, 14.75 and 16.90 cm, printed to the tenth", |tally| {
        for (n, squares, d, print) in [
            (146, 91873, 2509, "25.1"),
            (107, 36178, 1839, "18.4"),
            (113, 24575, 1475, "14.7"),
            (104, 29686, 1690, "16.9"),
        ] {
            MEAN.gives(tally, [n, squares], Ok(d));
            tally.holds((i128::from(d) - decimal(print, 2)).abs() <= 5, (d, print));
        }
    });
    // Compartment 1 prints 3406, its 3406.67 trees cut to whole ones. The ash were counted: 630 for 104 measured.
    report.check("Appendices 4 and 5: 3406, 4815, 678 and 630 trees", |tally| {
        for (operands, trees) in [
            ([146, 56_000, 2_400], 340_667),
            ([107, 36_000, 800], 481_500),
            ([113, 6, 1], 67_800),
            ([104, 630, 104], 63_000),
        ] {
            TREES.gives(tally, operands, Ok(trees));
        }
    });
}

/// Of the mean diameters as they are printed.
fn crowns_and_roots(report: &mut Report) {
    for (name, operands, crown, root) in [
        ("Appendix 4, Scots pine of 25.1 cm", [3, 2, 2510], "0.047261", "0.04862"),
        ("Appendix 4, Corsican pine of 18.4 cm", [1, 0, 1840], "0.016643", "0.015571"),
        ("Appendix 5, oak of 14.7 cm", [7, 5, 1470], "0.013114", "0.018807"),
        ("Appendix 5, ash of 16.9 cm", [7, 5, 1690], "0.018524", "0.026653"),
    ] {
        crown_and_root(report, name, operands, [crown, root]);
    }
}

fn marked(report: &mut Report) {
    report.check("document 01, marked lines (a) to (j), with document 02's hundredths of a cm", |tally| {
        tariff(tally, OAK, [17, 106], Ok(26));
        tariff(tally, ASH, [25, 88], Ok(24));
        LINE_TARIFF.gives(tally, [235, 9], Ok(26));
        // (d) worked anew: its operands are within one hundredth now, and the others stand on either side of a border.
        MEAN.gives(tally, [400, 19880], Ok(705));
        MEAN.gives(tally, [400, 19881], Ok(705));
        MEAN.gives(tally, [40_000, 1_985_280], Ok(704));
        MEAN.gives(tally, [40_000, 1_985_281], Ok(705));
        MEAN.gives(tally, [1, 49], Ok(700));
        ROOT.gives(tally, [5, 1000], Ok((7178370, 7178371)));
        ROOT.gives(tally, [5, 3000], Ok((111899718, 111899719)));
        ROOT.gives(tally, [5, 3010], Ok((112855665, 112855666)));
        CROWN.gives(tally, [7, 5010], Ok((273306566, 273306567)));
        // The listing: 4 oaks of 60 cm stand for 24, with one height tree of 12.0 m.
        let [height_tree, _] = proved::single_tariff(OAK, [60, 120]).accepted();
        let [line, _] = proved::line_tariff([height_tree, 1]).accepted();
        let [d, _] = proved::mean([4, 4 * 60 * 60]).accepted();
        let [trees, _] = proved::trees([4, 6, 1]).accepted();
        tally.same("the listing's d and trees", (d, trees), (6000, 2400));
        let row = [trees, line, d, 101, 56, 7, 5];
        ROW.gives(tally, row, Ok((50288870208, 50288870425)));
        let sums = [50288870208, 50288870425, trees];
        PROJECT.gives(tally, sums, Ok((92196262, 92196263)));
    });
}
