//! Streams of commands by chance, the same in every run, none longer than the program `replay` reads.
use crate::author::{Author, CM, FOUR_BYTES};
use crate::book::{four_bytes, CLOSE, END, FACTOR, HEIGHT, MEASURED, NAMES, OPEN, SMALL, SPECIES};
use crate::protocol;
use crate::random::Random;

pub const LONGEST: usize = 65_536;

/// How many species the surveys have whose lines are opened again: from one, in 32 strata, to all 16, in two.
pub const SPECIES_OF_LINES: [usize; 4] = [1, 2, 5, 16];

/// Books one after the other.
pub fn books(seed: u64) -> Vec<u8> {
    let mut author = Author::new(seed);
    while author.stream.len() < LONGEST {
        author.any_book();
    }
    author.stream.truncate(LONGEST);
    author.stream
}

/// Books with bytes changed, taken out and put in.
pub fn damaged(seed: u64) -> Vec<u8> {
    let mut stream = books(seed);
    let mut random = Random::new(!seed);
    for _ in 0..LONGEST / 80 {
        damage(&mut random, &mut stream);
    }
    stream.truncate(LONGEST);
    stream
}

/// Changes a byte, takes one out or puts one in.
pub fn damage(random: &mut Random, stream: &mut Vec<u8>) {
    let at = random.between(0, stream.len() as u64 - 1) as usize;
    let byte = random.any() as u8;
    match random.between(0, 3) {
        0 => stream[at] = byte,
        1 => stream[at] ^= 1 << (byte % 8),
        2 => drop(stream.remove(at)),
        _ => stream.insert(at, byte),
    }
}

/// Bytes by chance: one in so many is the byte of a command, each other one any byte.
pub fn noise(random: &mut Random, one_in: u64, length: usize) -> Vec<u8> {
    let byte = |_| match random.between(1, one_in) {
        1 => random.between(1, NAMES.len() as u64) as u8,
        _ => random.any() as u8,
    };
    (0..length).map(byte).collect()
}

/// Surveys of 32 lines, in which every line so far is opened again after each.
pub fn opened_again() -> Vec<u8> {
    let mut author = Author::new(0);
    for species in SPECIES_OF_LINES {
        author.every_line_again(species as u64);
    }
    author.stream
}

/// Every byte with 0 to 21 bytes after it: each command whole and cut short at every length.
pub fn cut_short(random: &mut Random) -> Vec<Vec<u8>> {
    let mut streams = vec![Vec::new()];
    for first in 0..=u8::MAX {
        for after in 0..=21 {
            streams.push([vec![first], noise(random, 2, after)].concat());
        }
    }
    streams
}

impl Author {
    /// Appends a command, with some other one before it now and then.
    fn say(&mut self, byte: u8, operands: &[u64]) {
        if self.one_in(12) {
            self.stray();
        }
        self.put(byte, operands);
    }

    /// Constants of a printed species, or any.
    fn constants(&mut self) -> [u64; 4] {
        if self.one_in(5) {
            return [(); 4].map(|()| self.random.between(FOUR_BYTES.0, FOUR_BYTES.1));
        }
        self.one_of(&protocol::tariff()).map(four_bytes)
    }

    /// Declares a species, and answers its id.
    fn species(&mut self, constants: [u64; 4]) -> u64 {
        let id = self.random.between(0, 15);
        let operands = self.species_operands(id, constants);
        self.say(SPECIES, &operands);
        id
    }

    fn oak(&mut self) -> u64 {
        self.species(protocol::tariff()[0].map(four_bytes))
    }

    /// Factors at most of these diameters.
    fn factors(&mut self, (least, most): (u64, u64)) {
        for cm in least..=most {
            if !self.one_in(15) {
                let factor = self.random.between(100, 200);
                self.say(FACTOR, &[cm, factor]);
            }
        }
    }

    fn any_book(&mut self) {
        match self.random.between(1, 120) {
            1 => self.many_height_trees(),
            2..=5 => self.many_lines(),
            6..=9 => self.many_measured_trees(),
            10..=24 => self.many_estimated_trees(),
            _ => self.book(),
        }
        self.end();
    }

    /// The end, some commands after it, and the two ends after which a new survey begins.
    fn end(&mut self) {
        self.put(END, &[]);
        for _ in 0..self.random.between(1, 4) {
            self.stray();
        }
        self.put(END, &[]);
        self.put(END, &[]);
    }

    fn book(&mut self) {
        let mut species = Vec::new();
        for _ in 0..self.random.between(1, 4) {
            let constants = self.constants();
            species.push(self.species(constants));
        }
        let least = self.random.between(CM.0, CM.1);
        let classes = (least, CM.1.min(least + self.random.between(0, 20)));
        let late = self.one_in(5);
        if !late {
            self.factors(classes);
        }
        for _ in 0..self.random.between(0, 6) {
            let id = self.one_of(&species);
            self.line(id, classes);
        }
        if late {
            self.factors(classes);
            self.put(CLOSE, &[]);
        }
    }

    /// A line, which may lack what it needs to close, and may get it after the first try.
    fn line(&mut self, id: u64, classes: (u64, u64)) {
        let stratum = self.random.between(0, 4);
        self.maybe_above(stratum, id);
        let [p, q] = self.areas();
        self.say(OPEN, &[stratum, id, p, q]);
        self.maybe_above(stratum, id);
        let small = self.one_of(&[0, 0, 1, 1, 2]);
        let early = self.random.between(0, small);
        self.small_trees(early);
        for _ in 0..self.random.between(0, 5) {
            let class = self.random.between(classes.0, classes.1);
            let count = self.random.of_any_size(65_534) + 1;
            self.say(MEASURED, &[class, count]);
        }
        for _ in 0..self.random.between(0, 3) {
            self.height();
        }
        self.small_trees(small - early);
        self.say(CLOSE, &[]);
        if self.one_in(3) {
            self.height();
            self.say(CLOSE, &[]);
        }
    }

    /// The opening of a line, now and then, with plots above its net area.
    fn maybe_above(&mut self, stratum: u64, id: u64) {
        if self.one_in(6) {
            let [p, q] = self.plots_above_area();
            self.put(OPEN, &[stratum, id, p, q]);
        }
    }

    fn height(&mut self) {
        let cm = self.random.between(10, 100);
        let tenths = self.random.between(1, 250);
        self.say(HEIGHT, &[cm, tenths]);
    }

    /// So many commands of small trees. A line takes one.
    fn small_trees(&mut self, commands: u64) {
        for _ in 0..commands {
            let operands = self.small_operands();
            self.say(SMALL, &operands);
        }
    }

    /// More lines than 32, most of them without trees.
    fn many_lines(&mut self) {
        let id = self.oak();
        self.put(FACTOR, &[60, 101]);
        for stratum in 0..self.random.between(33, 37) {
            self.line_of_oaks(&[stratum, id, 1, 1]);
        }
        // A line that was there, one of no species, and a new one; then each with plots above its net area.
        for q in [1, 2] {
            self.put(OPEN, &[0, id, 1, q]);
            self.put(OPEN, &[0, 16, 1, q]);
            self.put(OPEN, &[255, id, 1, q]);
        }
    }

    /// A line without measured trees, or with four; some have small trees.
    fn line_of_oaks(&mut self, opening: &[u64]) {
        self.put(OPEN, opening);
        if self.one_in(10) {
            self.put(SMALL, &[1_575_600, 289]);
        }
        if self.one_in(10) {
            self.put(MEASURED, &[60, 4]);
            self.put(HEIGHT, &[60, 120]);
        }
        self.put(CLOSE, &[]);
    }

    /// Lines of so many species, which take turns, in one stratum after the other. After each line every line so far is
    /// opened again, also with plots above its net area. The last one, a 33rd, is refused the first time too.
    fn every_line_again(&mut self, species: u64) {
        for id in 0..species {
            let operands = self.species_operands(id, protocol::tariff()[0].map(four_bytes));
            self.put(SPECIES, &operands);
        }
        self.put(FACTOR, &[60, 101]);
        let opening = |i, q| [i / species, i % species, 1, q];
        for last in 0..=32 {
            self.line_of_oaks(&opening(last, 1));
            for i in 0..=last {
                self.put(OPEN, &opening(i, 1));
                self.put(OPEN, &opening(i, 2));
            }
        }
        self.end();
    }

    /// Trees up to 1,000,000 and over it: 15 times 65,535 leave 16,975.
    fn many_measured_trees(&mut self) {
        let id = self.oak();
        let class = self.random.between(CM.0, CM.1);
        self.put(FACTOR, &[class, 120]);
        self.put(OPEN, &[9, id, 1, 1]);
        self.put(HEIGHT, &[20, 100]);
        for _ in 0..15 {
            self.put(MEASURED, &[class, 65_535]);
        }
        for _ in 0..6 {
            let count = self.one_of(&[1, 2, 16_973, 16_974, 16_975, 16_976, 65_535]);
            self.put(MEASURED, &[class, count]);
        }
        self.put(MEASURED, &[6, 65_535]);
        self.put(CLOSE, &[]);
    }

    /// Height trees up to 1,000 and over it, some of them refused for their operands or their tariff.
    fn many_height_trees(&mut self) {
        let id = self.oak();
        self.put(OPEN, &[9, id, 1, 1]);
        for _ in 0..1_020 {
            let cm = self.random.between(10, 100);
            let tenths = self.random.between(20, 180);
            self.put(HEIGHT, &[cm, tenths]);
        }
        for _ in 0..4 {
            self.height();
            self.put(HEIGHT, &[9, 100]);
            self.put(HEIGHT, &[20, 600]);
        }
        self.put(CLOSE, &[]);
    }

    /// An estimate just under 1,000,000 trees, at it, or just over: of measured trees, of small ones, or of both.
    fn many_estimated_trees(&mut self) {
        let id = self.oak();
        let n = self.random.of_any_size(65_534) + 1;
        let q = self.random.between(1, 100 * n);
        let p = 1_000_000 * q / n + self.random.between(0, 2);
        let [measured, small] = self.one_of(&[[n, 0], [0, n], [1, n], [n, 1], [n, n]]);
        self.put(FACTOR, &[30, 150]);
        self.put(OPEN, &[9, id, p, q]);
        if measured > 0 {
            self.put(HEIGHT, &[20, 100]);
            self.put(MEASURED, &[30, measured]);
        }
        if small > 0 {
            self.put(SMALL, &[1_575_600, small]);
        }
        self.put(CLOSE, &[]);
    }
}
