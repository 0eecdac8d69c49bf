//! The trees that a book records, counted from its bytes alone, and what they say of an accepted book's figures (Q-4 of
//! document 02): no plots are above their net area, so no recorded tree is estimated away.
use crate::book::{self, MEASURED, OPEN, SMALL};
use crate::library::Totalled;
use crate::report::Tally;
use std::fmt::{Debug, Display, Formatter};

/// What an accepted book records.
struct Recorded {
    /// The counts of measured and of small trees, added.
    trees: u64,
    /// Whether the plots of every line are its net area.
    in_full: bool,
}

impl Recorded {
    fn of(book: &[u8]) -> Recorded {
        let mut recorded = Recorded { trees: 0, in_full: true };
        for place in book::places(book) {
            match &book[place] {
                [OPEN, _, _, areas @ ..] => recorded.in_full &= areas[..4] == areas[4..],
                [MEASURED, _, count @ ..] | [SMALL, _, _, _, _, count @ ..] => recorded.trees += book::number(count),
                _ => {}
            }
        }
        recorded
    }

    /// What is to hold of the trees, in hundredths, and of the low and the high that totalling answers.
    fn holds(&self, tally: &mut Tally, operands: impl Debug, [trees, low, high]: [u64; 3]) {
        let none = self.trees == 0;
        let mut holds = |condition, what| tally.holds(condition, (&operands, self.trees, trees, low, high, what));
        holds((trees == 0) == none, "no trees exactly where none are recorded");
        holds((low == high) == none, "equal exactly where none are recorded");
        holds(100 * self.trees <= trees, "fewer trees than are recorded");
        holds(!self.in_full || trees == 100 * self.trees, "other trees than are recorded, of a count in full");
    }
}

/// How many accepted books were met: all, those that record no tree, and those that record some and count every line in
/// full.
#[derive(Default)]
pub struct Met {
    books: u64,
    none: u64,
    in_full: u64,
}

impl Met {
    /// Holds what the library answers to a book, where it accepts it, to the trees that the book records.
    pub fn hold(&mut self, tally: &mut Tally, operands: impl Debug, book: &[u8], answer: &Totalled) {
        if let (0, [_, figures @ .., _]) = *answer {
            let recorded = Recorded::of(book);
            recorded.holds(tally, operands, figures);
            self.books += 1;
            self.none += u64::from(recorded.trees == 0);
            self.in_full += u64::from(recorded.trees > 0 && recorded.in_full);
        }
    }

    /// Adds what was met elsewhere.
    pub fn add(&mut self, other: Met) {
        self.books += other.books;
        self.none += other.none;
        self.in_full += other.in_full;
    }

    /// Whether each kind was met at least so often.
    pub fn often(&self, times: u64) -> bool {
        [self.none, self.in_full, self.books - self.none - self.in_full].iter().all(|&met| met >= times)
    }
}

impl Display for Met {
    fn fmt(&self, f: &mut Formatter) -> std::fmt::Result {
        let Met { books, none, in_full } = self;
        write!(f, "{books} accepted books, {none} record no tree, {in_full} count all trees in full")
    }
}
