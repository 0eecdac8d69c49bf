use crate::boundary;
use crate::refusal::Refusal;

/// A command of a book. Any operands that fit their bytes can be read and written: whether they are within their ranges
/// shows when the book is totalled.
///
/// A later version may have more commands. So that one more breaks no program, a match outside this crate has an arm for
/// others.
#[derive(Clone, Copy, PartialEq, Eq, Debug)]
#[non_exhaustive]
pub enum Command {
    /// Declares the species of this id.
    Species(u8, Species),
    /// Total over merchantable stem volume, in hundredths, at a diameter.
    Factor { cm: u8, factor: u8 },
    /// Opens a line. Of plots, p is the net area and q the plot area, which is at most p.
    Open { stratum: u8, species: u8, p: u32, q: u32 },
    /// So many measured trees of a class in cm.
    Measured { class: u8, count: u16 },
    /// A tree whose height was measured, in tenths of a metre.
    Height { cm: u8, tenths: u16 },
    /// Closes the line.
    Close,
    /// Ends the book.
    End,
    /// The carbon of one small tree in mg, and how many.
    Small { carbon: u32, count: u32 },
}

#[derive(Clone, Copy, PartialEq, Eq, Debug)]
pub struct Species {
    pub crown: u8,
    pub root: u8,
    /// Specific gravity, in hundredths.
    pub gravity: u8,
    /// c1 to c4 of the tariff, in units of 10^-7.
    pub constants: [i32; 4],
}

impl Command {
    /// The byte, the operands, and 0 for each that the command does not have.
    fn numbers(self) -> [u64; 9] {
        match self {
            Command::Species(id, Species { crown, root, gravity, constants }) => {
                // A negative number goes in two's complement.
                let [c1, c2, c3, c4] = constants.map(|c| c as u64);
                [1, id.into(), crown.into(), root.into(), gravity.into(), c1, c2, c3, c4]
            }
            Command::Factor { cm, factor } => with_zeros([2, cm.into(), factor.into()]),
            Command::Open { stratum, species, p, q } => {
                with_zeros([3, stratum.into(), species.into(), p.into(), q.into()])
            }
            Command::Measured { class, count } => with_zeros([4, class.into(), count.into()]),
            Command::Height { cm, tenths } => with_zeros([5, cm.into(), tenths.into()]),
            Command::Close => with_zeros([6]),
            Command::End => with_zeros([7]),
            Command::Small { carbon, count } => with_zeros([8, carbon.into(), count.into()]),
        }
    }

    /// The command of numbers that were read. Each operand has the width of its bytes, so none is cut.
    fn of_numbers([byte, a, b, c, d, c1, c2, c3, c4]: [u64; 9]) -> Command {
        match byte {
            1 => {
                let constants = [c1, c2, c3, c4].map(|c| c as i32);
                Command::Species(a as u8, Species { crown: b as u8, root: c as u8, gravity: d as u8, constants })
            }
            2 => Command::Factor { cm: a as u8, factor: b as u8 },
            3 => Command::Open { stratum: a as u8, species: b as u8, p: c as u32, q: d as u32 },
            4 => Command::Measured { class: a as u8, count: b as u16 },
            5 => Command::Height { cm: a as u8, tenths: b as u16 },
            6 => Command::Close,
            7 => Command::End,
            8 => Command::Small { carbon: a as u32, count: b as u32 },
            _ => unreachable!("reading answers no other byte"),
        }
    }
}

fn with_zeros<const N: usize>(some: [u64; N]) -> [u64; 9] {
    let mut all = [0; 9];
    all[..N].copy_from_slice(&some);
    all
}

/// The command at a place of a book, and the place after it.
///
/// ```
/// use fieldbook::{read, Command, Refusal};
///
/// let book = b"\x02\x3c\x65\x07";
/// assert_eq!(read(book, 0), Ok((Command::Factor { cm: 60, factor: 101 }, 3)));
/// assert_eq!(read(book, 3), Ok((Command::End, 4)));
/// assert_eq!(read(book, 4), Err(Refusal::AT_END));
/// ```
pub fn read(book: &[u8], at: usize) -> Result<(Command, usize), Refusal> {
    let mut answer = [0; 9];
    let mut next = 0;
    Refusal::unless_accepted(boundary::read(book, at, &mut answer, &mut next))?;
    Ok((Command::of_numbers(answer), next))
}

/// Writes a command into a buffer from a place on, and answers the place after it. Where the buffer has too few bytes
/// from there, it is as it was.
pub fn write(buffer: &mut [u8], at: usize, command: Command) -> Result<usize, Refusal> {
    let mut next = 0;
    Refusal::unless_accepted(boundary::write(buffer, at, &command.numbers(), &mut next))?;
    Ok(next)
}
