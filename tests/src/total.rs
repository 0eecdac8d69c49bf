//! Totalling a book into a sheet once more, on the book and the survey of these tests.
use crate::book;
use crate::steps;
use crate::survey::{Line, Survey, ENDED};
use std::fmt::{Display, Formatter};

const SHORT_SHEET: u64 = 16;

/// The bytes of the 32 rows that a sheet has room for.
pub const LEAST_SHEET: usize = 800;

/// How many bytes a row's stratum, species, T, d, N, low and high take.
const WIDTHS: [usize; 7] = [1, 1, 1, 2, 4, 8, 8];

/// How many bytes a row takes.
pub const ROW: usize = 25;

/// The number of a refusal and its place.
pub struct Refused {
    pub number: u64,
    pub at: usize,
}

impl Display for Refused {
    fn fmt(&self, f: &mut Formatter) -> std::fmt::Result {
        write!(f, "refused {} at {}", self.number, self.at)
    }
}

/// What comes of an accepted book: its survey, the N of all lines added, and the project's figures.
pub struct Totals {
    pub survey: Survey,
    pub trees: u64,
    pub low: u64,
    pub high: u64,
}

/// The survey that a whole book makes.
fn play(book: &[u8]) -> Result<Survey, Refused> {
    let mut survey = Survey::default();
    let mut at = 0;
    while !survey.ended {
        let refused = |number| Refused { number, at };
        let (command, next) = book::read(book, at).map_err(refused)?;
        survey.apply(&command).map_err(refused)?;
        at = next;
    }
    if at < book.len() {
        return Err(Refused { number: ENDED, at });
    }
    Ok(survey)
}

/// The numbers in the bytes of a row.
pub fn row_numbers(mut row: &[u8]) -> [u64; 7] {
    WIDTHS.map(|width| {
        let (number, rest) = row.split_at(width);
        row = rest;
        book::number(number)
    })
}

fn row_bytes(line: &Line) -> Vec<u8> {
    book::spelt(&WIDTHS, &[&[line.stratum, line.species], &line.row[..]].concat())
}

pub fn total(book: &[u8], sheet: &mut [u8]) -> Result<Totals, Refused> {
    if sheet.len() < LEAST_SHEET {
        return Err(Refused { number: SHORT_SHEET, at: 0 });
    }
    let survey = play(book)?;
    let sum = |i: usize| survey.lines.iter().map(|line| line.row[i]).sum();
    let [trees, row_lows, row_highs] = [2, 3, 4].map(sum);
    let (low, high) = steps::project([row_lows, row_highs, trees]).expect("sums within 64 bits");
    let rows = survey.lines.iter().flat_map(row_bytes);
    sheet.iter_mut().zip(rows).for_each(|(place, byte)| *place = byte);
    Ok(Totals { survey, trees, low, high })
}
