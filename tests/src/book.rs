//! The commands of documents 01 and 02 once more: reading one at a place, reading on from there, and writing one.
//! Err holds the number of the refusal.
use crate::total::Refused;
use std::iter;
use std::ops::Range;
use std::sync::LazyLock;

const AT_OR_PAST_THE_END: u64 = 1;
pub const UNKNOWN_BYTE: u64 = 2;
const OPERANDS_CUT_SHORT: u64 = 3;
const TOO_FEW_BYTES: u64 = 4;

/// What each command is called, from 01 on.
pub const NAMES: [&str; 8] = ["species", "factor", "open", "measured", "height", "close", "end", "small"];

/// The commands that have operands.
pub const WITH_OPERANDS: [&str; 6] = ["species", "factor", "open", "measured", "height", "small"];

/// How many bytes each operand takes, for the commands from 01 on.
const WIDTHS: [&[usize]; 8] = [&[1, 1, 1, 1, 4, 4, 4, 4], &[1, 1], &[1, 1, 4, 4], &[1, 2], &[1, 2], &[], &[], &[4, 4]];

/// How many bytes each command takes: its own and its operands'. Added once, for the fuzz run looks for commands often.
static LENGTHS: LazyLock<[usize; WIDTHS.len()]> =
    LazyLock::new(|| WIDTHS.map(|widths| 1 + widths.iter().sum::<usize>()));

pub const SPECIES: u8 = 1;
pub const FACTOR: u8 = 2;
pub const OPEN: u8 = 3;
pub const MEASURED: u8 = 4;
pub const HEIGHT: u8 = 5;
pub const CLOSE: u8 = 6;
pub const END: u8 = 7;
pub const SMALL: u8 = 8;

/// A command's byte and its operands, each as the whole number that its bytes spell.
pub struct Command {
    pub byte: u8,
    pub operands: Vec<u64>,
}

pub fn widths(byte: u8) -> Option<&'static [usize]> {
    WIDTHS.get(usize::from(byte).wrapping_sub(1)).copied()
}

/// What the command of a byte is called: "" where no command has it, or there is no byte.
pub fn name(byte: Option<&u8>) -> &'static str {
    byte.and_then(|&byte| NAMES.get(usize::from(byte).wrapping_sub(1))).unwrap_or(&"")
}

/// The number that bytes spell, high byte first.
pub fn number(bytes: &[u8]) -> u64 {
    bytes.iter().fold(0, |high, &byte| high << 8 | u64::from(byte))
}

/// The bytes of numbers, each in so many, high byte first. Of one that is too great for its bytes the low bytes are taken.
pub fn spelt(widths: &[usize], numbers: &[u64]) -> Vec<u8> {
    assert_eq!(widths.len(), numbers.len());
    widths.iter().zip(numbers).flat_map(|(width, number)| number.to_be_bytes()[8 - width..].to_vec()).collect()
}

/// The four bytes of a signed number, as the whole number that they spell.
pub fn four_bytes(x: i32) -> u64 {
    u64::from(x as u32)
}

/// The signed number in an operand of four bytes.
pub fn signed(operand: u64) -> i32 {
    u32::try_from(operand).expect("an operand of four bytes") as i32
}

/// The command at a place, and the place after it.
pub fn read(book: &[u8], at: usize) -> Result<(Command, usize), u64> {
    let &byte = book.get(at).ok_or(AT_OR_PAST_THE_END)?;
    let widths = widths(byte).ok_or(UNKNOWN_BYTE)?;
    let mut place = at + 1;
    let mut operands = Vec::with_capacity(widths.len());
    for width in widths {
        operands.push(number(book.get(place..place + width).ok_or(OPERANDS_CUT_SHORT)?));
        place += width;
    }
    Ok((Command { byte, operands }, place))
}

/// Where commands stand, from the first on.
pub fn places(book: &[u8]) -> impl Iterator<Item = Range<usize>> + '_ {
    let lengths: &[usize] = &*LENGTHS;
    let mut at = 0;
    iter::from_fn(move || {
        let length = lengths.get(usize::from(*book.get(at)?).wrapping_sub(1))?;
        let place = at..at + length;
        at = place.end;
        (at <= book.len()).then_some(place)
    })
}

/// The commands from a place on, each with its place, up to the first refusal.
pub fn read_through(book: &[u8], from: usize) -> (Vec<(usize, Command)>, Refused) {
    let mut commands = Vec::new();
    let mut at = from;
    loop {
        match read(book, at) {
            Ok((command, next)) => {
                commands.push((at, command));
                at = next;
            }
            Err(number) => return (commands, Refused { number, at }),
        }
    }
}

impl Command {
    pub fn bytes(&self) -> Vec<u8> {
        let widths = widths(self.byte).expect("a command's byte");
        [vec![self.byte], spelt(widths, &self.operands)].concat()
    }

    /// Writes the command from a place on, and answers the place after it.
    pub fn write(&self, buffer: &mut [u8], at: usize) -> Result<usize, u64> {
        let bytes = self.bytes();
        let next = at.checked_add(bytes.len()).ok_or(TOO_FEW_BYTES)?;
        buffer.get_mut(at..next).ok_or(TOO_FEW_BYTES)?.copy_from_slice(&bytes);
        Ok(next)
    }
}
