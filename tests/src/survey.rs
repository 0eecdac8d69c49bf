//! The survey of documents 01 and 02 once more: what a book has given so far, and what applying a command declines.
//! Err holds the number of the refusal, and then the survey is as it was.
use crate::book::{self, Command};
use crate::steps;
use std::collections::BTreeMap;

pub const ENDED: u64 = 5;
const OUTSIDE_ITS_RANGE: u64 = 6;
const ALREADY_GIVEN: u64 = 7;
const UNDECLARED: u64 = 8;
const LINE_OPEN: u64 = 9;
const NO_LINE: u64 = 10;
const OVER_THE_LIMIT: u64 = 11;
const NO_HEIGHT_TREE: u64 = 12;
const NO_FACTOR: u64 = 14;
const TOO_MANY_TREES: u64 = 15;
const PLOTS_ABOVE_AREA: u64 = 17;

type Applied = Result<(), u64>;

/// Crown group, root group and gravity, and the four constants.
#[derive(Clone, Copy, Default)]
pub struct Species {
    pub parts: [u64; 3],
    pub constants: [i32; 4],
}

/// A line's T, d, N, low and high. N is the sum of the measured number and the small one.
pub type Row = [u64; 5];

#[derive(Default)]
pub struct Line {
    pub stratum: u64,
    pub species: u64,
    pub areas: [u64; 2],
    /// Class and count of each measured command.
    pub measured: Vec<(u64, u64)>,
    /// The single tariff of each height tree.
    pub tariffs: Vec<u64>,
    /// The carbon of one small tree in mg, and their count.
    pub small: Option<[u64; 2]>,
    /// All 0 until the line is closed.
    pub row: Row,
}

#[derive(Default)]
pub struct Survey {
    pub species: BTreeMap<u64, Species>,
    pub factors: BTreeMap<u64, u64>,
    /// Every line that was opened. Only the last can be open, so the others stand in closing order.
    pub lines: Vec<Line>,
    pub open: bool,
    pub ended: bool,
}

fn decline(condition: bool, number: u64) -> Applied {
    if condition {
        Err(number)
    } else {
        Ok(())
    }
}

fn within(least: u64, x: u64, most: u64) -> Applied {
    decline(x < least || most < x, OUTSIDE_ITS_RANGE)
}

impl Line {
    /// How many trees were measured.
    pub fn n(&self) -> u64 {
        self.measured.iter().map(|(_, count)| count).sum()
    }

    /// S, the sum of count times class squared.
    pub fn squares(&self) -> u64 {
        self.measured.iter().map(|(class, count)| count * class * class).sum()
    }

    pub fn tariff_sum(&self) -> u64 {
        self.tariffs.iter().sum()
    }

    /// Step 3's number of the measured trees, and of the small ones.
    pub fn estimates(&self) -> [u64; 2] {
        let [p, q] = self.areas;
        let small = self.small.map_or(0, |[_, count]| count);
        [self.n(), small].map(|count| figure(steps::trees([count, p, q])))
    }
}

impl Survey {
    /// The lines that are closed, in closing order.
    pub fn closed(&self) -> &[Line] {
        &self.lines[..self.lines.len() - usize::from(self.open)]
    }

    /// Whether a line is open that has no measured trees.
    pub fn unmeasured_is_open(&self) -> bool {
        self.open && self.lines.last().is_some_and(|line| line.n() == 0)
    }

    pub fn apply(&mut self, command: &Command) -> Applied {
        decline(self.ended, ENDED)?;
        match (command.byte, &command.operands[..]) {
            (book::SPECIES, &[id, crown, root, gravity, c1, c2, c3, c4]) => {
                let constants = [c1, c2, c3, c4].map(book::signed);
                self.declare(id, Species { parts: [crown, root, gravity], constants })
            }
            (book::FACTOR, &[cm, factor]) => self.give(cm, factor),
            (book::OPEN, &[stratum, species, p, q]) => self.start(stratum, species, [p, q]),
            (book::MEASURED, &[class, count]) => self.measure(class, count),
            (book::HEIGHT, &[cm, tenths]) => self.height(cm, tenths),
            (book::CLOSE, &[]) => self.close(),
            (book::END, &[]) => self.end(),
            (book::SMALL, &[carbon, count]) => self.small_trees(carbon, count),
            _ => unreachable!("reading gives no other command"),
        }
    }

    fn declare(&mut self, id: u64, species: Species) -> Applied {
        within(0, id, 15)?;
        let [crown, root, gravity] = species.parts;
        within(0, crown, 7)?;
        within(0, root, 5)?;
        within(1, gravity, 100)?;
        decline(self.species.contains_key(&id), ALREADY_GIVEN)?;
        self.species.insert(id, species);
        Ok(())
    }

    fn give(&mut self, cm: u64, factor: u64) -> Applied {
        within(7, cm, 100)?;
        within(100, factor, 200)?;
        decline(self.factors.contains_key(&cm), ALREADY_GIVEN)?;
        self.factors.insert(cm, factor);
        Ok(())
    }

    /// Whether a line may be opened now, of a book that has not ended.
    pub fn may_open(&self, stratum: u64, species: u64, [p, q]: [u64; 2]) -> Applied {
        [p, q].iter().try_for_each(|&area| within(1, area, 100_000_000))?;
        decline(q > p, PLOTS_ABOVE_AREA)?;
        decline(self.open, LINE_OPEN)?;
        decline(!self.species.contains_key(&species), UNDECLARED)?;
        let same = |line: &Line| (line.stratum, line.species) == (stratum, species);
        decline(self.lines.iter().any(same), ALREADY_GIVEN)?;
        decline(self.lines.len() >= 32, OVER_THE_LIMIT)
    }

    fn start(&mut self, stratum: u64, species: u64, areas: [u64; 2]) -> Applied {
        self.may_open(stratum, species, areas)?;
        self.lines.push(Line { stratum, species, areas, ..Line::default() });
        self.open = true;
        Ok(())
    }

    fn open_line(&mut self) -> Result<&mut Line, u64> {
        decline(!self.open, NO_LINE)?;
        self.lines.last_mut().ok_or(NO_LINE)
    }

    fn measure(&mut self, class: u64, count: u64) -> Applied {
        let line = self.open_line()?;
        within(7, class, 100)?;
        within(1, count, u64::MAX)?;
        decline(line.n() + count > 1_000_000, OVER_THE_LIMIT)?;
        line.measured.push((class, count));
        Ok(())
    }

    fn height(&mut self, cm: u64, tenths: u64) -> Applied {
        let id = self.open_line()?.species;
        let tariff = steps::single_tariff(self.species[&id].constants, [cm, tenths])?;
        let line = self.open_line()?;
        decline(line.tariffs.len() >= 1000, OVER_THE_LIMIT)?;
        line.tariffs.push(tariff);
        Ok(())
    }

    fn small_trees(&mut self, carbon: u64, count: u64) -> Applied {
        let line = self.open_line()?;
        within(1, carbon, u32::MAX.into())?;
        within(1, count, 1_000_000)?;
        decline(line.small.is_some(), ALREADY_GIVEN)?;
        line.small = Some([carbon, count]);
        Ok(())
    }

    fn close(&mut self) -> Applied {
        self.open_line()?;
        let row = self.row(self.lines.last().expect("the open line"))?;
        self.open_line()?.row = row;
        self.open = false;
        Ok(())
    }

    /// The measured part, and then the small trees: each sort is divided by itself.
    fn row(&self, line: &Line) -> Result<Row, u64> {
        let [tariff, d, measured, low, high] = self.measured_row(line)?;
        let [_, small] = line.estimates();
        decline(small > 100_000_000, TOO_MANY_TREES)?;
        let part = line.small.map(|[carbon, _]| figure(steps::small_trees([small, carbon])));
        let (small_low, small_high) = part.unwrap_or_default();
        Ok([tariff, d, measured + small, low + small_low, high + small_high])
    }

    /// The row that document 01 has, of the measured trees alone.
    fn measured_row(&self, line: &Line) -> Result<Row, u64> {
        let n = line.n();
        if n == 0 {
            return Ok(Row::default());
        }
        decline(line.tariffs.is_empty(), NO_HEIGHT_TREE)?;
        let d = figure(steps::mean([n, line.squares()]));
        let &factor = self.factors.get(&(d / 100)).ok_or(NO_FACTOR)?;
        let [trees, _] = line.estimates();
        decline(trees > 100_000_000, TOO_MANY_TREES)?;
        let tariff = figure(steps::line_tariff([line.tariff_sum(), line.tariffs.len() as u64]));
        let [crown, root, gravity] = self.species[&line.species].parts;
        let (low, high) = figure(steps::row([trees, tariff, d, factor, gravity, crown, root]));
        Ok([tariff, d, trees, low, high])
    }

    fn end(&mut self) -> Applied {
        decline(self.open, LINE_OPEN)?;
        self.ended = true;
        Ok(())
    }
}

/// A figure of a line within its limits: document 01 has no refusal for it.
fn figure<T>(answer: Result<T, u64>) -> T {
    answer.expect("a figure of operands in their ranges")
}
