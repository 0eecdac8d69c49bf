//! What totalling answers to many books: how often each refusal was met, and of which command.
use crate::book::{self, MEASURED, OPEN, SMALL, WITH_OPERANDS};
use std::collections::BTreeMap;
use std::fmt::{Display, Formatter};

/// What the closing of a line without measured trees is called, where it is told from other closings: no factor and no
/// height tree is asked of it.
pub const UNMEASURED: &str = "close without measured trees";

/// What an accepted book with small trees is counted under; one without is under "".
const WITH_SMALL: &str = "small";

/// The refusals of totalling, each with the commands that get it: all but 4, which is for writing. "" stands for no
/// command: none is there for 1 and 2, any byte gets 5, and 16 is about the sheet.
pub const NAMED: [(u8, &[&str]); 16] = [
    (1, &[""]),
    (2, &[""]),
    (3, &WITH_OPERANDS),
    (5, &["", "species", "factor", "open", "measured", "height", "close", "end", "small"]),
    (6, &WITH_OPERANDS),
    (7, &["species", "factor", "open", "small"]),
    (8, &["open"]),
    (9, &["open", "end"]),
    (10, &["measured", "height", "close", "small"]),
    (11, &["open", "measured", "height"]),
    (12, &["close"]),
    (13, &["height"]),
    (14, &["close"]),
    (15, &["close", UNMEASURED]),
    (16, &[""]),
    (17, &["open"]),
];

/// How often each answer was met, by the number of the refusal, 0 for none, and the command.
#[derive(Default)]
pub struct Met(BTreeMap<(u8, &'static str), u64>);

/// The command that an answer is counted under.
fn command(book: &[u8], number: u8, at: usize) -> &'static str {
    match number {
        0 if book::places(book).any(|place| book[place.start] == SMALL) => WITH_SMALL,
        0 | 16 => "",
        15 if is_unmeasured(book, at) => UNMEASURED,
        _ => book::name(book.get(at)),
    }
}

/// Whether the line that is open at a place has no measured trees. The commands up to there are accepted.
fn is_unmeasured(book: &[u8], at: usize) -> bool {
    let bytes = book::places(book).take_while(|place| place.start < at).map(|place| book[place.start]);
    bytes.filter(|byte| [OPEN, MEASURED].contains(byte)).last() == Some(OPEN)
}

impl Met {
    /// Counts the answer to a book: the number of the refusal, 0 for none, and its place.
    pub fn count(&mut self, book: &[u8], number: u8, at: usize) {
        *self.0.entry((number, command(book, number, at))).or_default() += 1;
    }

    /// Adds what was met elsewhere.
    pub fn add(&mut self, other: Met) {
        other.0.into_iter().for_each(|(answer, times)| *self.0.entry(answer).or_default() += times);
    }

    pub fn times(&self, number: u8, name: &'static str) -> u64 {
        self.0.get(&(number, name)).copied().unwrap_or(0)
    }

    fn times_of(&self, number: u8) -> u64 {
        self.0.range((number, "")..(number + 1, "")).map(|(_, times)| times).sum()
    }

    pub fn books(&self) -> u64 {
        self.0.values().sum()
    }

    pub fn accepted(&self) -> u64 {
        self.times_of(0)
    }

    /// Answers that were never met.
    pub fn missing(&self) -> Vec<(u8, &'static str)> {
        all_answers().filter(|&(number, name)| self.times(number, name) == 0).collect()
    }

    /// Answers that were met, though totalling has no such.
    pub fn others(&self) -> Vec<(u8, &'static str)> {
        self.0.keys().copied().filter(|answer| !all_answers().any(|named| named == *answer)).collect()
    }
}

fn all_answers() -> impl Iterator<Item = (u8, &'static str)> {
    let refusals = NAMED.into_iter().flat_map(|(number, names)| names.iter().map(move |&name| (number, name)));
    refusals.chain([(0, ""), (0, WITH_SMALL)])
}

impl Display for Met {
    fn fmt(&self, f: &mut Formatter) -> std::fmt::Result {
        write!(f, "{} books, {} accepted, refused", self.books(), self.accepted())?;
        NAMED.iter().try_for_each(|&(number, _)| write!(f, " {number}: {}", self.times_of(number)))?;
        write!(f, "; with small trees {} accepted, 08 refused", self.times(0, WITH_SMALL))?;
        [3, 5, 6, 7, 10].iter().try_for_each(|&number| write!(f, " {number}: {}", self.times(number, "small")))?;
        write!(f, ", a line of them closed 15: {}", self.times(15, UNMEASURED))
    }
}
