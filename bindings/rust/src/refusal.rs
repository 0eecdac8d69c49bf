use std::error::Error;
use std::fmt::{Display, Formatter};

/// Why something was refused: its number in documents 01 and 02, from 1 to 17.
#[derive(Clone, Copy, PartialEq, Eq, PartialOrd, Ord, Hash, Debug)]
pub struct Refusal(pub u8);

impl Refusal {
    pub const AT_END: Refusal = Refusal(1);
    pub const UNKNOWN_BYTE: Refusal = Refusal(2);
    pub const CUT_SHORT: Refusal = Refusal(3);
    pub const NO_ROOM: Refusal = Refusal(4);
    pub const ENDED: Refusal = Refusal(5);
    pub const OPERAND: Refusal = Refusal(6);
    pub const ALREADY_GIVEN: Refusal = Refusal(7);
    pub const UNDECLARED: Refusal = Refusal(8);
    pub const LINE_OPEN: Refusal = Refusal(9);
    pub const NO_LINE: Refusal = Refusal(10);
    pub const LIMIT: Refusal = Refusal(11);
    pub const NO_HEIGHT_TREE: Refusal = Refusal(12);
    pub const TARIFF: Refusal = Refusal(13);
    pub const NO_FACTOR: Refusal = Refusal(14);
    pub const TOO_MANY_TREES: Refusal = Refusal(15);
    pub const SHORT_SHEET: Refusal = Refusal(16);
    pub const PLOTS_ABOVE_AREA: Refusal = Refusal(17);

    /// What a number of the library says: 0 is no refusal.
    pub(crate) fn unless_accepted(number: u8) -> Result<(), Refusal> {
        match number {
            0 => Ok(()),
            _ => Err(Refusal(number)),
        }
    }

    fn words(self) -> &'static str {
        match self {
            Refusal::AT_END => "there are no more bytes; of a book, its end (07) is missing",
            Refusal::UNKNOWN_BYTE => "no command has this byte",
            Refusal::CUT_SHORT => "the operands are cut short",
            Refusal::NO_ROOM => "too few bytes from there",
            Refusal::ENDED => "the book has ended: bytes after 07",
            Refusal::OPERAND => "an operand is outside its range",
            Refusal::ALREADY_GIVEN => {
                "the species or factor is already given, a line of this stratum and species is already opened, or the \
                 line has its small trees already"
            }
            Refusal::UNDECLARED => "the species is not declared",
            Refusal::LINE_OPEN => "a line is open",
            Refusal::NO_LINE => "no line is open",
            Refusal::LIMIT => {
                "32 lines are opened, or the line would be over its limit of measured trees or height trees"
            }
            Refusal::NO_HEIGHT_TREE => "no height tree",
            Refusal::TARIFF => "the tariff is outside 1 to 50",
            Refusal::NO_FACTOR => "no factor at the line's mean diameter, cut to whole cm",
            Refusal::TOO_MANY_TREES => "more than 1,000,000 estimated trees of one sort, measured or small",
            Refusal::SHORT_SHEET => "the sheet has fewer than 800 bytes",
            Refusal::PLOTS_ABOVE_AREA => "the plots' area is above the net area: are the two exchanged?",
            Refusal(_) => "no refusal has this number",
        }
    }
}

impl Display for Refusal {
    fn fmt(&self, f: &mut Formatter) -> std::fmt::Result {
        f.write_str(self.words())
    }
}

impl Error for Refusal {}

/// Why a book was refused, and the place of the command, counted in bytes from 0.
#[derive(Clone, Copy, PartialEq, Eq, Hash, Debug)]
pub struct Refused {
    pub number: Refusal,
    pub at: usize,
}

impl Display for Refused {
    fn fmt(&self, f: &mut Formatter) -> std::fmt::Result {
        write!(f, "refused {} at {}: {}", self.number.0, self.at, self.number)
    }
}

impl Error for Refused {}
