use crate::boundary;
use crate::figures::{Grams, Milligrams, Range};
use crate::refusal::{Refusal, Refused};

/// How many bytes a row of a sheet takes.
pub const ROW: usize = 25;

/// How many bytes a sheet has at least: room for 32 rows.
pub const SHEET: usize = 32 * ROW;

/// What comes of an accepted book.
#[derive(Clone, Copy, PartialEq, Eq, Debug)]
pub struct Totals {
    /// How many rows stand in the sheet.
    pub rows: usize,
    /// The estimated trees of all rows, measured and small, in hundredths. 0 means that the book records no measured
    /// and no small tree.
    pub trees: u64,
    /// The low and the high are equal exactly where the book records no measured and no small tree.
    pub carbon: Range<Grams>,
}

/// A row of a sheet: what a line of the book comes to.
#[derive(Clone, Copy, PartialEq, Eq, Debug)]
pub struct Row {
    pub stratum: u8,
    pub species: u8,
    /// 0 where no tree was measured; so is d.
    pub tariff: u8,
    /// The mean diameter of the measured trees, in HUNDREDTHS of a cm since 3.0.0: [`UNITS_TO_CM`](crate::UNITS_TO_CM).
    pub d: u16,
    /// The estimated trees, measured and small, in hundredths.
    pub trees: u32,
    pub biomass: Range<Milligrams>,
}

/// Totals a book into a sheet of [`SHEET`] bytes or more: the rows stand from its first byte on, and no other bytes
/// change. Where the book is refused, the sheet is as it was. The order of 04, 05 and 08 inside a line is free: it changes
/// neither whether the book is accepted nor, then, any number or byte.
///
/// ```
/// use fieldbook::{total, write, Command, Refusal, SHEET};
///
/// // Plots of 5,000 square metres in a wood of 250: the two areas are exchanged.
/// let mut book = [0; 11];
/// write(&mut book, 0, Command::Open { stratum: 1, species: 3, p: 250, q: 5_000 })?;
/// let refused = total(&book, &mut [0; SHEET]).unwrap_err();
/// assert_eq!((refused.number, refused.at), (Refusal::PLOTS_ABOVE_AREA, 0));
/// # Ok::<(), Refusal>(())
/// ```
pub fn total(book: &[u8], sheet: &mut [u8]) -> Result<Totals, Refused> {
    let mut answer = [0; 5];
    let number = boundary::total(book, sheet, &mut answer);
    let [rows, trees, low, high, at] = answer;
    match Refusal::unless_accepted(number) {
        Ok(()) => Ok(Totals { rows: rows as usize, trees, carbon: Range { low: Grams(low), high: Grams(high) } }),
        Err(number) => Err(Refused { number, at: at as usize }),
    }
}

/// The i-th row of a sheet, counted from 0. Refused where the sheet ends before the row does.
///
/// ```
/// use fieldbook::{sheet_row, total, Refusal, SHEET};
///
/// let mut sheet = [0; SHEET];
/// assert_eq!(total(b"\x07", &mut sheet)?.rows, 0);
/// // Where no row was laid, the bytes are those that stood there.
/// assert_eq!(sheet_row(&sheet, 31)?.trees, 0);
/// assert_eq!(sheet_row(&sheet, 32), Err(Refusal::AT_END));
/// # Ok::<(), Box<dyn std::error::Error>>(())
/// ```
pub fn sheet_row(sheet: &[u8], i: usize) -> Result<Row, Refusal> {
    let mut answer = [0; 7];
    Refusal::unless_accepted(boundary::sheet_row(sheet, i, &mut answer))?;
    let [stratum, species, tariff, d, trees, low, high] = answer;
    // Each number is one of the row's bytes' width, so none is cut.
    Ok(Row {
        stratum: stratum as u8,
        species: species as u8,
        tariff: tariff as u8,
        d: d as u16,
        trees: trees as u32,
        biomass: Range { low: Milligrams(low), high: Milligrams(high) },
    })
}
