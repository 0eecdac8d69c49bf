//! Totals the book in a file, and prints its rows and the project as the program `sheet` does. With -d before the book,
//! each row has its mean diameter in cm after its figures, 0.00 where no tree was measured. The exit status is 0 where it
//! is totalled, 1 where it is refused, and 2 where the file cannot be read or the text not be written. From this crate's
//! folder, after `./build fieldbook`:
//!
//!     cargo run --example total ../../examples/listing.book
use fieldbook::{sheet_row, total, Refusal, Refused, Row, SHEET, UNITS_TO_CM};
use std::io::Write;
use std::process::ExitCode;
use std::{env, fs, io};

/// Hundredths of a tree, to two places.
fn places(hundredths: u64) -> String {
    format!("{}.{:02}", hundredths / 100, hundredths % 100)
}

/// A mean diameter in cm, to two places.
fn mean(row: &Row) -> String {
    let d = u64::from(row.d);
    format!(" {}.{:02}", d / UNITS_TO_CM, d % UNITS_TO_CM)
}

fn text(book: &[u8], with_means: bool) -> Result<String, Refused> {
    let mut sheet = [0; SHEET];
    let totals = total(book, &mut sheet)?;
    let mut text = String::new();
    for row in (0..totals.rows).map_while(|i| sheet_row(&sheet, i).ok()) {
        let (low, high) = (row.biomass.low.0, row.biomass.high.0);
        let mean = if with_means { mean(&row) } else { String::new() };
        text += &format!("{} {} {} {low} {high}{mean}\n", row.stratum, row.species, places(row.trees.into()));
    }
    Ok(text + &format!("project {} {} {}\n", places(totals.trees), totals.carbon.low.0, totals.carbon.high.0))
}

fn main() -> ExitCode {
    let arguments: Vec<_> = env::args_os().skip(1).collect();
    let (file, with_means) = match &arguments[..] {
        [file] => (file, false),
        [option, file] if option == "-d" => (file, true),
        _ => {
            eprintln!("usage: total [-d] BOOK");
            return ExitCode::from(2);
        }
    };
    let book = match fs::read(file) {
        Ok(book) => book,
        Err(error) => {
            eprintln!("{}: {error}", file.display());
            return ExitCode::from(2);
        }
    };
    let (text, status) = match text(&book, with_means) {
        Ok(text) => (text, 0),
        Err(Refused { number: Refusal(number), at }) => (format!("refused {number} at {at}\n"), 1),
    };
    match io::stdout().write_all(text.as_bytes()) {
        Ok(()) => ExitCode::from(status),
        Err(error) => {
            eprintln!("standard output: {error}");
            ExitCode::from(2)
        }
    }
}
