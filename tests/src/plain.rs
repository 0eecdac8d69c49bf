//! Totalling as one would write it in Rust to be fast: one pass over the book, arrays, 64-bit numbers.
//! `totals` and the fuzz run hold the proved library against it, and the benchmark measures both. Its tables are those of
//! the protocol's text and of `powers`; nothing is the library's.
use crate::{powers, protocol};
use std::sync::LazyLock;

/// The number of a refusal.
type Refusal = u8;

const AT_THE_END: Refusal = 1;
const UNKNOWN_BYTE: Refusal = 2;
const CUT_SHORT: Refusal = 3;
const ENDED: Refusal = 5;
const OPERAND: Refusal = 6;
const ALREADY_GIVEN: Refusal = 7;
const UNDECLARED: Refusal = 8;
const LINE_OPEN: Refusal = 9;
const NO_LINE: Refusal = 10;
const LIMIT: Refusal = 11;
const NO_HEIGHT_TREE: Refusal = 12;
const TARIFF: Refusal = 13;
const NO_FACTOR: Refusal = 14;
const TOO_MANY_TREES: Refusal = 15;
const SHORT_SHEET: Refusal = 16;
const PLOTS_ABOVE_AREA: Refusal = 17;

const ROW: usize = 25;
const LINES: usize = 32;

/// What comes of an accepted book.
#[derive(Clone, Copy, PartialEq, Eq, Debug)]
pub struct Totals {
    pub rows: u64,
    pub trees: u64,
    pub low: u64,
    pub high: u64,
}

/// The number of a refusal and its place.
#[derive(Clone, Copy, PartialEq, Eq, Debug)]
pub struct Refused {
    pub number: Refusal,
    pub at: u64,
}

pub type Totalled = Result<Totals, Refused>;

/// Steps 5 and 6 at every diameter that takes a power, and the rows of their tables.
struct Tables {
    crown: [[i64; 3]; 8],
    root: [[i64; 3]; 6],
    w: [u64; 5_001],
}

static TABLES: LazyLock<Tables> = LazyLock::new(|| {
    let row = |row: &[i128; 3]| row.map(|x| x as i64);
    Tables {
        crown: std::array::from_fn(|i| row(&protocol::crown()[i])),
        root: std::array::from_fn(|i| row(&protocol::root()[i])),
        w: std::array::from_fn(|d| if d < 700 { 0 } else { powers::crown(d as u64) }),
    }
});

#[derive(Clone, Copy)]
struct Species {
    crown: u8,
    root: u8,
    gravity: u8,
    c: [i32; 4],
}

struct Line {
    stratum: u8,
    id: u8,
    species: Species,
    p: u32,
    q: u32,
    n: u64,
    squares: u64,
    heights: u64,
    tariffs: u64,
    /// Of small trees: the carbon of one, and how many. 0 until they are given.
    carbon: u32,
    small: u32,
}

#[derive(Clone, Copy, Default)]
struct Row {
    stratum: u8,
    species: u8,
    tariff: u8,
    d: u16,
    trees: u32,
    low: u64,
    high: u64,
}

struct Survey {
    species: [Option<Species>; 16],
    factors: [u8; 101],
    rows: [Row; LINES],
    closed: usize,
    open: Option<Line>,
    ended: bool,
}

fn within(least: u64, x: u64, most: u64) -> Result<(), Refusal> {
    decline(x < least || most < x, OPERAND)
}

fn decline(condition: bool, number: Refusal) -> Result<(), Refusal> {
    if condition {
        Err(number)
    } else {
        Ok(())
    }
}

/// The operands of the command at a place.
fn operands<const N: usize>(book: &[u8], at: usize) -> Result<&[u8; N], Refusal> {
    book[at + 1..].first_chunk().ok_or(CUT_SHORT)
}

fn stem(t: i64, d: i64, f: i64, s: i64) -> (i64, i64) {
    let g = 314159265 * d * d / 40_000_000;
    let a = (315049301 * (1_000_000_000 * t as u64 - 138763302) / 10_000_000_000) as i64;
    let z = g - 118288000;
    let b = 360541 * 10_000_000_000 * t;
    let (vl, vh) = if z >= 0 { (b + a * z, b + (a + 1) * (z + 1)) } else { (b + (a + 1) * z, b + a * (z + 1)) };
    ((vl / 100_000_000) * f * s / 10000, (vh / 100_000_000 + 1) * f * s / 10000 + 1)
}

fn straight(a: i64, b: i64, d: i64) -> (i64, i64) {
    let low = (100 * a + b * d) / 100;
    (low, low + 1)
}

fn curve(k: i64, power: i64, unit: i64) -> (i64, i64) {
    (k * power / unit, k * (power + 1) / unit + 1)
}

fn crown(group: u8, d: i64) -> (i64, i64) {
    let [k, a, b] = TABLES.crown[usize::from(group)];
    if d > 5_000 {
        return straight(a, b, d);
    }
    curve(k, TABLES.w[d as usize] as i64, 1_000_000)
}

fn root(group: u8, d: i64) -> (i64, i64) {
    let [k, a, b] = TABLES.root[usize::from(group)];
    if d > 3_000 {
        return straight(a, b, d);
    }
    curve(k, d.pow(5).isqrt(), 100_000)
}

impl Species {
    fn tree(&self, tariff: i64, d: i64, factor: i64) -> [u64; 2] {
        let stem = stem(tariff, d, factor, self.gravity.into());
        let (crown, root) = (crown(self.crown, d), root(self.root, d));
        [stem.0 + crown.0 + root.0, stem.1 + crown.1 + root.1].map(|x| x as u64)
    }
}

impl Line {
    fn measured(&mut self, class: u8, count: u16) -> Result<(), Refusal> {
        let [class, count] = [class.into(), count.into()];
        within(7, class, 100)?;
        within(1, count, u64::MAX)?;
        decline(self.n + count > 1_000_000, LIMIT)?;
        self.n += count;
        self.squares += count * class * class;
        Ok(())
    }

    fn height(&mut self, cm: u8, tenths: u16) -> Result<(), Refusal> {
        within(10, cm.into(), 100)?;
        within(1, tenths.into(), 600)?;
        let [c1, c2, c3, c4] = self.species.c.map(i64::from);
        let [cm, h]: [i64; 2] = [cm.into(), tenths.into()];
        let tariff = (10 * c1 + c2 * h + 10 * c3 * cm + c4 * cm * h + 50_000_000).div_euclid(100_000_000);
        decline(!(1..=50).contains(&tariff), TARIFF)?;
        decline(self.heights >= 1000, LIMIT)?;
        self.heights += 1;
        self.tariffs += tariff as u64;
        Ok(())
    }

    fn small(&mut self, carbon: u32, count: u32) -> Result<(), Refusal> {
        within(1, carbon.into(), u64::MAX)?;
        within(1, count.into(), 1_000_000)?;
        decline(self.small != 0, ALREADY_GIVEN)?;
        (self.carbon, self.small) = (carbon, count);
        Ok(())
    }

    /// So many trees of the plots stand for this many, in hundredths.
    fn estimated(&self, count: u64) -> Result<u64, Refusal> {
        let q = u64::from(self.q);
        let trees = (200 * count * u64::from(self.p) + q) / (2 * q);
        decline(trees > 100_000_000, TOO_MANY_TREES)?;
        Ok(trees)
    }

    fn row(&self, factors: &[u8; 101]) -> Result<Row, Refusal> {
        let mut row = Row { stratum: self.stratum, species: self.id, ..Row::default() };
        if self.n > 0 {
            self.add_measured(&mut row, factors)?;
        }
        if self.small > 0 {
            self.add_small(&mut row)?;
        }
        Ok(row)
    }

    fn add_measured(&self, row: &mut Row, factors: &[u8; 101]) -> Result<(), Refusal> {
        decline(self.heights == 0, NO_HEIGHT_TREE)?;
        let d = (40_000 * self.squares / self.n).isqrt().div_ceil(2);
        let factor = factors[(d / 100) as usize];
        decline(factor == 0, NO_FACTOR)?;
        let trees = self.estimated(self.n)?;
        let tariff = self.tariffs / self.heights;
        let [low, high] = self.species.tree(tariff as i64, d as i64, factor.into());
        (row.tariff, row.d) = (tariff as u8, d as u16);
        row.gain(trees, trees * low / 100, trees * high / 100);
        Ok(())
    }

    fn add_small(&self, row: &mut Row) -> Result<(), Refusal> {
        let trees = self.estimated(self.small.into())?;
        let biomass = trees * (2 * u64::from(self.carbon)) / 100;
        row.gain(trees, biomass, biomass);
        Ok(())
    }
}

impl Row {
    /// Trees of one sort, with their low and their high: to the high one is added where there are any.
    fn gain(&mut self, trees: u64, low: u64, high: u64) {
        self.trees += trees as u32;
        self.low += low;
        self.high += high + u64::from(trees > 0);
    }

    fn bytes(&self) -> [u8; ROW] {
        let mut bytes = [0; ROW];
        [bytes[0], bytes[1], bytes[2]] = [self.stratum, self.species, self.tariff];
        bytes[3..5].copy_from_slice(&self.d.to_be_bytes());
        bytes[5..9].copy_from_slice(&self.trees.to_be_bytes());
        bytes[9..17].copy_from_slice(&self.low.to_be_bytes());
        bytes[17..].copy_from_slice(&self.high.to_be_bytes());
        bytes
    }
}

impl Survey {
    fn new() -> Survey {
        let (species, rows) = ([None; 16], [Row::default(); LINES]);
        Survey { species, factors: [0; 101], rows, closed: 0, open: None, ended: false }
    }

    /// Reads the command at a place and applies it; the place after it. Each arm ends with its own place, which is
    /// faster than one sum after them.
    fn step(&mut self, book: &[u8], at: usize) -> Result<usize, Refusal> {
        match *book.get(at).ok_or(AT_THE_END)? {
            1 => {
                self.declare(operands(book, at)?)?;
                Ok(at + 21)
            }
            2 => {
                self.factor(operands(book, at)?)?;
                Ok(at + 3)
            }
            3 => {
                self.open_line(operands(book, at)?)?;
                Ok(at + 11)
            }
            4 => {
                self.measured(operands(book, at)?)?;
                Ok(at + 4)
            }
            5 => {
                self.height(operands(book, at)?)?;
                Ok(at + 4)
            }
            6 => {
                self.close()?;
                Ok(at + 1)
            }
            7 => {
                self.end()?;
                Ok(at + 1)
            }
            8 => {
                self.small(operands(book, at)?)?;
                Ok(at + 9)
            }
            _ => Err(UNKNOWN_BYTE),
        }
    }

    fn declare(&mut self, &[id, crown, root, gravity, ref c @ ..]: &[u8; 20]) -> Result<(), Refusal> {
        let place = self.species.get_mut(usize::from(id)).ok_or(OPERAND)?;
        within(0, crown.into(), 7)?;
        within(0, root.into(), 5)?;
        within(1, gravity.into(), 100)?;
        decline(place.is_some(), ALREADY_GIVEN)?;
        let c = std::array::from_fn(|i| i32::from_be_bytes(*c[4 * i..].first_chunk().expect("four bytes")));
        *place = Some(Species { crown, root, gravity, c });
        Ok(())
    }

    fn factor(&mut self, &[cm, factor]: &[u8; 2]) -> Result<(), Refusal> {
        within(7, cm.into(), 100)?;
        within(100, factor.into(), 200)?;
        let place = &mut self.factors[usize::from(cm)];
        decline(*place != 0, ALREADY_GIVEN)?;
        *place = factor;
        Ok(())
    }

    fn open_line(&mut self, &[stratum, id, p0, p1, p2, p3, q0, q1, q2, q3]: &[u8; 10]) -> Result<(), Refusal> {
        let [p, q] = [[p0, p1, p2, p3], [q0, q1, q2, q3]].map(u32::from_be_bytes);
        within(1, p.into(), 100_000_000)?;
        within(1, q.into(), 100_000_000)?;
        decline(p < q, PLOTS_ABOVE_AREA)?;
        decline(self.open.is_some(), LINE_OPEN)?;
        let species = self.species.get(usize::from(id)).copied().flatten().ok_or(UNDECLARED)?;
        let same = |row: &Row| (row.stratum, row.species) == (stratum, id);
        decline(self.rows[..self.closed].iter().any(same), ALREADY_GIVEN)?;
        decline(self.closed == LINES, LIMIT)?;
        let line = Line { stratum, id, species, p, q, n: 0, squares: 0, heights: 0, tariffs: 0, carbon: 0, small: 0 };
        self.open = Some(line);
        Ok(())
    }

    fn measured(&mut self, &[class, high, low]: &[u8; 3]) -> Result<(), Refusal> {
        self.open.as_mut().ok_or(NO_LINE)?.measured(class, u16::from_be_bytes([high, low]))
    }

    fn height(&mut self, &[cm, high, low]: &[u8; 3]) -> Result<(), Refusal> {
        self.open.as_mut().ok_or(NO_LINE)?.height(cm, u16::from_be_bytes([high, low]))
    }

    fn small(&mut self, &[c0, c1, c2, c3, n0, n1, n2, n3]: &[u8; 8]) -> Result<(), Refusal> {
        let [carbon, count] = [[c0, c1, c2, c3], [n0, n1, n2, n3]].map(u32::from_be_bytes);
        self.open.as_mut().ok_or(NO_LINE)?.small(carbon, count)
    }

    fn close(&mut self) -> Result<(), Refusal> {
        self.rows[self.closed] = self.open.as_ref().ok_or(NO_LINE)?.row(&self.factors)?;
        self.closed += 1;
        self.open = None;
        Ok(())
    }

    fn end(&mut self) -> Result<(), Refusal> {
        decline(self.open.is_some(), LINE_OPEN)?;
        self.ended = true;
        Ok(())
    }
}

pub fn total(book: &[u8], sheet: &mut [u8]) -> Totalled {
    let refused = |number, at: usize| Refused { number, at: at as u64 };
    if sheet.len() < ROW * LINES {
        return Err(refused(SHORT_SHEET, 0));
    }
    let mut survey = Survey::new();
    let mut at = 0;
    while !survey.ended {
        at = survey.step(book, at).map_err(|number| refused(number, at))?;
    }
    if at < book.len() {
        return Err(refused(ENDED, at));
    }
    let rows = &survey.rows[..survey.closed];
    for (place, row) in sheet.chunks_exact_mut(ROW).zip(rows) {
        place.copy_from_slice(&row.bytes());
    }
    let trees = rows.iter().map(|row| u64::from(row.trees)).sum();
    let low = 11 * rows.iter().map(|row| row.low).sum::<u64>() / 6000;
    let high = if trees == 0 { low } else { 11 * rows.iter().map(|row| row.high).sum::<u64>() / 6000 + 1 };
    Ok(Totals { rows: rows.len() as u64, trees, low, high })
}
