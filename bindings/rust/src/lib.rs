//! Woodland carbon from a field book: a book of measured and small trees in, carbon dioxide out, by the proved library.
//! The repository's README says how a book is coded and what the figures mean.
//!
//! ```
//! use fieldbook::{total, write, Command, Species, SHEET};
//!
//! let oak = Species { crown: 7, root: 5, gravity: 56, constants: [58830000, 20123000, -54780, -57397] };
//! let commands = [
//!     Command::Species(3, oak),
//!     Command::Factor { cm: 60, factor: 101 },
//!     Command::Open { stratum: 1, species: 3, p: 6, q: 1 },
//!     Command::Measured { class: 60, count: 4 },
//!     Command::Height { cm: 60, tenths: 120 },
//!     Command::Close,
//!     Command::End,
//! ];
//! let mut book = [0; 100];
//! let mut length = 0;
//! for command in commands {
//!     length = write(&mut book, length, command)?;
//! }
//!
//! let totals = total(&book[..length], &mut [0; SHEET])?;
//! assert_eq!(totals.trees, 2400);
//! assert_eq!(totals.carbon.low.0, 92196262);
//! assert_eq!(totals.carbon.high.0, 92196263);
//! # Ok::<(), Box<dyn std::error::Error>>(())
//! ```
mod books;
mod boundary;
mod commands;
mod figures;
mod refusal;

pub use books::{sheet_row, total, Row, Totals, ROW, SHEET};
pub use commands::{read, write, Command, Species};
pub use figures::{
    crown, line_tariff, mean, project, root, row, single_tariff, small_trees, square_root, stem, tree, trees,
    AverageTree, Grams, Milligrams, Range, SquareRoot, UNITS_TO_CM,
};
pub use refusal::{Refusal, Refused};

/// The version of this crate, the C header and the book's format together; CHANGELOG.md has what raises it.
pub const VERSION: &str = env!("CARGO_PKG_VERSION");

/// The functions as C has them, without their unsafe calls: numbers in, numbers into a place that the caller lends, and
/// 0 or the number of a refusal back. After a refusal the lent numbers are 0, unless something else is said. `square_root`
/// refuses nothing, and so gives nothing back.
pub mod raw {
    pub use crate::boundary::{
        crown, line_tariff, mean, project, read, root, row, sheet_row, single_tariff, small_trees, square_root, stem,
        total, tree, trees, write,
    };
}
