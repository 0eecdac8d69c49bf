//! The crew's order, which is chance (Q-2 of document 02): books that differ only in the order of the measured, height and
//! small-tree commands inside each line, and in where declarations stand among these.
use crate::book::{self, CLOSE, END, FACTOR, HEIGHT, MEASURED, OPEN, SMALL, SPECIES};
use crate::random::Random;
use std::collections::BTreeSet;

/// What a command may pass.
#[derive(PartialEq)]
enum Kind {
    /// Measured, height or small trees, called out in any order: they pass each other and declarations.
    Trees,
    /// A species or a factor: trees pass it. That two of these pass each other is not asked.
    Declaration,
    /// An opening, a closing or the end: nothing passes it, so trees stay in their line.
    Border,
}

/// The kind of the command of a byte. A new command has to be put under one of them.
fn kind(byte: u8) -> Kind {
    match byte {
        MEASURED | HEIGHT | SMALL => Kind::Trees,
        SPECIES | FACTOR => Kind::Declaration,
        OPEN | CLOSE | END => Kind::Border,
        _ => unreachable!("reading gives no other command"),
    }
}

fn is(wanted: Kind) -> impl Fn(&&[u8]) -> bool {
    move |command| kind(command[0]) == wanted
}

/// The bytes of each command, of a book that reads through to its last byte.
fn commands(book: &[u8]) -> Option<Vec<&[u8]>> {
    let commands: Vec<&[u8]> = book::places(book).map(|place| &book[place]).collect();
    let length: usize = commands.iter().map(|command| command.len()).sum();
    (length == book.len()).then_some(commands)
}

/// The book in another order by chance, each that exchanges of neighbours lead to as likely as any other. None where it
/// does not read through, or stays as it was.
pub fn shuffled(random: &mut Random, book: &[u8]) -> Option<Vec<u8>> {
    let mut commands = commands(book)?;
    for stretch in commands.split_mut(is(Kind::Border)) {
        shuffle_stretch(random, stretch);
    }
    Some(commands.concat()).filter(|shuffled| shuffled != book)
}

/// Shuffles the commands between two borders, and then has the declarations stand in their own order again, at the places
/// that have come to any of them.
fn shuffle_stretch(random: &mut Random, stretch: &mut [&[u8]]) {
    let is_declaration = is(Kind::Declaration);
    let declarations: Vec<&[u8]> = stretch.iter().copied().filter(&is_declaration).collect();
    random.shuffle(stretch);
    let places = stretch.iter_mut().filter(|command| is_declaration(command));
    places.zip(declarations).for_each(|(place, declaration)| *place = declaration);
}

/// The books that come of exchanging two neighbours, of one that reads through.
pub fn exchanged(book: &[u8]) -> Vec<Vec<u8>> {
    let commands = commands(book).expect("a book that reads through");
    let exchange = |i: usize| {
        let mut commands = commands.clone();
        commands.swap(i, i + 1);
        commands.concat()
    };
    let neighbours = commands.windows(2).enumerate();
    neighbours.filter(|(_, pair)| may_pass(kind(pair[0][0]), kind(pair[1][0]))).map(|(i, _)| exchange(i)).collect()
}

fn may_pass(one: Kind, other: Kind) -> bool {
    match (one, other) {
        (Kind::Border, _) | (_, Kind::Border) | (Kind::Declaration, Kind::Declaration) => false,
        (Kind::Trees, _) | (_, Kind::Trees) => true,
    }
}

/// Every book that exchanges of neighbours lead to, one after the other, and the book itself.
pub fn every_order(book: &[u8]) -> BTreeSet<Vec<u8>> {
    let mut found = BTreeSet::from([book.to_vec()]);
    let mut pending = vec![book.to_vec()];
    while let Some(book) = pending.pop() {
        for other in exchanged(&book) {
            if found.insert(other.clone()) {
                pending.push(other);
            }
        }
    }
    found
}

/// Whether trees have passed a declaration: the kinds then follow each other differently. Two commands that have changed
/// places over a declaration between them do not show so.
pub fn declaration_passed(one: &[u8], other: &[u8]) -> bool {
    !kinds(one).eq(kinds(other))
}

fn kinds(book: &[u8]) -> impl Iterator<Item = Kind> + '_ {
    book::places(book).map(|place| kind(book[place.start]))
}
