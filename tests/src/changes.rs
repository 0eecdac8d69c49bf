//! Books for the fuzz run: accepted ones with changes by chance, most of them to whole commands, so that they get far.
use crate::author::Author;
use crate::book::{self, OPEN};
use crate::random::Random;
use crate::total::{total, LEAST_SHEET};
use crate::{books, order, streams};
use std::ops::Range;

/// Accepted books to begin with: of a few lines, at the limits of document 01, and at those of small trees.
pub struct Pool {
    short: Vec<Vec<u8>>,
    limits: Vec<Vec<u8>>,
    small_limits: Vec<Vec<u8>>,
}

impl Pool {
    pub fn new(seed: u64) -> Pool {
        // Room above for the seeds that follow it.
        let first = Random::new(seed).any() >> 1;
        let accepted = |mut books: Vec<Vec<u8>>| {
            books.retain(|book| total(book, &mut [0; LEAST_SHEET]).is_ok());
            books
        };
        Pool {
            short: (first..first + 2_000).map(books::accepted).collect(),
            limits: accepted(books::edges(first..first + 12)),
            small_limits: accepted(books::edges_of_small_trees(first..first + 12)),
        }
    }
}

/// One who changes books.
pub struct Changer<'a> {
    pool: &'a Pool,
    /// Its stream is the book.
    author: Author,
    /// Where the book's commands stand.
    commands: Vec<Range<usize>>,
}

fn find_commands(book: &[u8], commands: &mut Vec<Range<usize>>) {
    commands.clear();
    commands.extend(book::places(book));
}

impl<'a> Changer<'a> {
    pub fn new(pool: &'a Pool) -> Changer<'a> {
        Changer { pool, author: Author::new(0), commands: Vec::new() }
    }

    /// Writes the book of a seed.
    pub fn write(&mut self, seed: u64) {
        self.author.random = Random::new(seed);
        let first = self.any_book();
        self.author.stream.clear();
        self.author.stream.extend(first);
        for _ in 0..self.author.one_of(&[0, 1, 1, 1, 2, 3]) {
            find_commands(&self.author.stream, &mut self.commands);
            self.change();
        }
    }

    pub fn book(&self) -> &[u8] {
        &self.author.stream
    }

    /// One who goes on by the same seed.
    pub fn author(&mut self) -> &mut Author {
        &mut self.author
    }

    /// The place of a command, and any place up to one past the end.
    pub fn two_places(&mut self) -> [usize; 2] {
        find_commands(&self.author.stream, &mut self.commands);
        [self.any_place(), self.author.random.between(0, self.book().len() as u64 + 1) as usize]
    }

    /// The book in another order of the crew, where it reads through and has one.
    pub fn shuffled(&mut self) -> Option<Vec<u8>> {
        order::shuffled(&mut self.author.random, &self.author.stream)
    }

    fn any_book(&mut self) -> &'a [u8] {
        let pool = match self.author.random.between(1, 20) {
            1 => &self.pool.limits,
            2 => &self.pool.small_limits,
            _ => &self.pool.short,
        };
        &pool[self.author.random.between(0, pool.len() as u64 - 1) as usize]
    }

    /// One near the end as often as any other: there the line is that is nearest to its limits.
    fn any_command(&mut self) -> Option<Range<usize>> {
        let last = (self.commands.len() as u64).checked_sub(1)?;
        let first = if self.author.one_in(2) { last.saturating_sub(5) } else { 0 };
        Some(self.commands[self.author.random.between(first, last) as usize].clone())
    }

    /// A place between two commands, or before the first.
    fn any_place(&mut self) -> usize {
        self.any_command().map_or(0, |command| command.start)
    }

    fn change(&mut self) {
        match self.author.random.between(0, 13) {
            0..=4 => self.change_operand(),
            5 => self.repeat(),
            6 => self.remove(),
            7 => self.exchange(),
            8 => self.insert(),
            9 => self.damage(),
            10 => self.cut(),
            11 => self.splice(),
            12 => self.change_areas(),
            _ => self.append(),
        }
    }

    /// An operand at an end of its range, one beyond, or anywhere within.
    fn change_operand(&mut self) {
        let Some(place) = self.any_command() else { return };
        let (mut command, _) = book::read(self.book(), place.start).expect("a command");
        self.author.change(command.byte, &mut command.operands, |author, (least, most)| {
            let any = author.random.between(least, most);
            author.one_of(&[least.wrapping_sub(1), least, any, any, most, most + 1])
        });
        self.author.stream[place].copy_from_slice(&command.bytes());
    }

    /// The areas of an opening: others that a line may have, or such that the plots are above the net area.
    fn change_areas(&mut self) {
        let Some(command) = self.any_command() else { return };
        let book = self.book();
        let mut openings = self.commands.iter().filter(|place| book[place.start] == OPEN);
        let Some(areas) = openings.rfind(|place| place.start <= command.start).map(|place| place.end - 8..place.end)
        else {
            return;
        };
        let others = if self.author.one_in(2) { self.author.areas() } else { self.author.plots_above_area() };
        self.author.stream[areas].copy_from_slice(&book::spelt(&[4, 4], &others));
    }

    /// Moves what was appended, from a place on, to another place.
    fn bring(&mut self, appended: usize, to: usize) {
        let after = &mut self.author.stream[to..];
        let length = after.len() - (appended - to);
        after.rotate_right(length);
    }

    fn repeat(&mut self) {
        let Some(command) = self.any_command() else { return };
        let (to, end) = (self.any_place(), self.book().len());
        self.author.stream.extend_from_within(command);
        self.bring(end, to);
    }

    fn insert(&mut self) {
        let (to, end) = (self.any_place(), self.book().len());
        self.author.stray();
        self.bring(end, to);
    }

    fn remove(&mut self) {
        let Some(command) = self.any_command() else { return };
        self.author.stream.drain(command);
    }

    fn exchange(&mut self) {
        let (Some(one), Some(other)) = (self.any_command(), self.any_command()) else { return };
        let (first, second) = if one.start < other.start { (one, other) } else { (other, one) };
        if first.end <= second.start {
            let book = self.book();
            let exchanged = [&book[second.clone()], &book[first.end..second.start], &book[first.clone()]].concat();
            self.author.stream[first.start..second.end].copy_from_slice(&exchanged);
        }
    }

    /// Bytes changed, taken out or put in.
    fn damage(&mut self) {
        if !self.book().is_empty() {
            streams::damage(&mut self.author.random, &mut self.author.stream);
        }
    }

    fn cut(&mut self) {
        let length = self.author.random.between(0, self.book().len() as u64);
        self.author.stream.truncate(length as usize);
    }

    /// The commands up to a place, and then those of another book from a place on.
    fn splice(&mut self) {
        let kept = self.any_place();
        self.author.stream.truncate(kept);
        let other = self.any_book();
        find_commands(other, &mut self.commands);
        let from = self.any_place();
        self.author.stream.extend(&other[from..]);
    }

    /// A byte, a command or a whole book after the end.
    fn append(&mut self) {
        match self.author.random.between(0, 3) {
            0 => {
                let other = self.any_book();
                self.author.stream.extend(other);
            }
            1 => self.author.stray(),
            _ => {
                let byte = self.author.random.any() as u8;
                self.author.stream.push(byte);
            }
        }
    }
}
