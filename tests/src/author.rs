//! One who writes commands, by chance and at the ends of their operands, the same in every run.
use crate::book::{Command, CLOSE, END, FACTOR, HEIGHT, MEASURED, NAMES, OPEN, SMALL, SPECIES};
use crate::random::Random;

pub const CM: (u64, u64) = (7, 100);
pub const AREA: (u64, u64) = (1, 100_000_000);
pub const FOUR_BYTES: (u64, u64) = (0, u32::MAX as u64);
const CARBON: (u64, u64) = (1, u32::MAX as u64);
const SMALL_TREES: (u64, u64) = (1, 1_000_000);

/// The range of each operand, for the commands from 01 on.
const RANGES: [&[(u64, u64)]; NAMES.len()] = [
    &[(0, 15), (0, 7), (0, 5), (1, 100), FOUR_BYTES, FOUR_BYTES, FOUR_BYTES, FOUR_BYTES],
    &[CM, (100, 200)],
    &[(0, 255), (0, 15), AREA, AREA],
    &[CM, (1, 65_535)],
    &[(10, 100), (1, 600)],
    &[],
    &[],
    &[CARBON, SMALL_TREES],
];

/// The commands after which a book goes on.
const NOT_THE_END: [u8; NAMES.len() - 1] = [SPECIES, FACTOR, OPEN, MEASURED, HEIGHT, CLOSE, SMALL];

/// For each command a book of it alone: each operand in turn at the ends of its range, one beyond each, and at the ends
/// of what its bytes can hold, with a sign and without; the others at their least.
pub fn at_the_ends() -> Vec<Vec<u8>> {
    let book = |(ranges, byte): (&&[(u64, u64)], u8)| {
        let mut author = Author::new(0);
        let leasts: Vec<u64> = ranges.iter().map(|&(least, _)| least).collect();
        author.put(byte, &leasts);
        for (i, &(least, most)) in ranges.iter().enumerate() {
            for end in [least.wrapping_sub(1), most, most + 1, 0, 0x7fff_ffff, 0x8000_0000, u64::MAX] {
                let mut operands = leasts.clone();
                operands[i] = end;
                author.put(byte, &operands);
            }
        }
        author.stream
    };
    RANGES.iter().zip(1..).map(book).collect()
}

pub struct Author {
    pub random: Random,
    /// What was written so far.
    pub stream: Vec<u8>,
}

impl Author {
    pub fn new(seed: u64) -> Author {
        Author { random: Random::new(seed), stream: Vec::new() }
    }

    pub fn one_in(&mut self, n: u64) -> bool {
        self.random.between(1, n) == 1
    }

    pub fn one_of<T: Copy>(&mut self, all: &[T]) -> T {
        all[self.random.between(0, all.len() as u64 - 1) as usize]
    }

    /// Appends a command. Of an operand that is too great for its bytes the low bytes are taken.
    pub fn put(&mut self, byte: u8, operands: &[u64]) {
        self.stream.extend(Command { byte, operands: operands.to_vec() }.bytes());
    }

    /// Any command, the end seldom, every other one with an operand at an end of its range or one beyond.
    pub fn stray(&mut self) {
        let byte = if self.one_in(40) { END } else { self.one_of(&NOT_THE_END) };
        let ranges = RANGES[usize::from(byte) - 1];
        let mut operands: Vec<u64> = ranges.iter().map(|&(least, most)| self.random.between(least, most)).collect();
        if !ranges.is_empty() && self.one_in(2) {
            self.change(byte, &mut operands, |author, (least, most)| {
                author.one_of(&[least.wrapping_sub(1), least, most, most + 1])
            });
        }
        self.put(byte, &operands);
    }

    /// Puts one of a command's operands, if it has any, to a number chosen by its range.
    pub fn change(&mut self, byte: u8, operands: &mut [u64], choose: impl FnOnce(&mut Author, (u64, u64)) -> u64) {
        if !operands.is_empty() {
            let i = self.random.between(0, operands.len() as u64 - 1) as usize;
            operands[i] = choose(self, RANGES[usize::from(byte) - 1][i]);
        }
    }

    /// The operands of a species: groups and gravity by chance.
    pub fn species_operands(&mut self, id: u64, [c1, c2, c3, c4]: [u64; 4]) -> [u64; 8] {
        let [crown, root, gravity] =
            [1, 2, 3].map(|i| RANGES[0][i]).map(|(least, most)| self.random.between(least, most));
        [id, crown, root, gravity, c1, c2, c3, c4]
    }

    /// The operands of small trees: carbon and count of many sizes.
    pub fn small_operands(&mut self) -> [u64; 2] {
        let most = self.one_of(&[10, 1_000, 50_000, SMALL_TREES.1]);
        [CARBON.0 + self.random.of_any_size(CARBON.1 - CARBON.0), self.random.between(SMALL_TREES.0, most)]
    }

    /// Two areas that a line may have, so the plots at most the net area: with quotients of many sizes, 1 and just above it
    /// among them.
    pub fn areas(&mut self) -> [u64; 2] {
        let any = self.random.of_any_size(AREA.1 - 2) + 1;
        let [p, q] = match self.random.between(0, 4) {
            0 => [6, 1],
            1 => [self.random.between(1, 20), 1],
            2 => [self.random.between(1, 100_000), self.random.between(1_000, 100_000)],
            3 => [self.random.of_any_size(AREA.1 - 1) + 1, any],
            _ => [any + self.random.between(0, 1), any],
        };
        [p.max(q), p.min(q)]
    }

    /// Two areas in their range, the plots above the net area: exchanged by mistake, or one square metre above.
    pub fn plots_above_area(&mut self) -> [u64; 2] {
        let [p, q] = self.areas();
        if p > q && self.one_in(2) {
            return [q, p];
        }
        let p = p.min(AREA.1 - 1);
        [p, p + 1]
    }
}
