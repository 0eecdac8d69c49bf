//! The program `replay`, which reads, writes and applies commands by the proved library, against the book and the
//! survey of these tests, line by line.
use crate::book;
use crate::met::UNMEASURED;
use crate::play::Operation::{self, Applying, Exchanging, Reading, Writing};
use crate::play::{Met, Play};
use crate::program::{self, Hex};
use crate::random::Random;
use crate::report::{Report, Tally};
use crate::survey::Line;
use crate::{books, cores, streams};
use std::fmt::{Debug, Formatter};
use std::iter;

/// How often a run is to meet each answer at least.
const OFTEN: u64 = 100;

/// What the papers have each operation answer to each command: 0 for no refusal, and the numbers of the refusals. With
/// its areas exchanged, an opening that got 17 gets what comes after, and one that got 6 gets 6 again.
const NAMED: [(Operation, &[&str], &[u64]); 13] = [
    (Reading, &[""], &[1, 2]),
    (Reading, &book::WITH_OPERANDS, &[0, 3]),
    (Reading, &["close", "end"], &[0]),
    (Writing, &book::NAMES, &[0, 4]),
    (Applying, &["species", "factor"], &[0, 5, 6, 7]),
    (Applying, &["open"], &[0, 5, 6, 17, 9, 8, 7, 11]),
    (Exchanging, &["open"], &[0, 6, 9, 8, 7, 11]),
    (Applying, &["measured"], &[0, 5, 10, 6, 11]),
    (Applying, &["height"], &[0, 5, 10, 6, 13, 11]),
    (Applying, &["close"], &[0, 5, 10, 12, 14, 15]),
    (Applying, &[UNMEASURED], &[0, 15]),
    (Applying, &["end"], &[0, 5, 9]),
    (Applying, &["small"], &[0, 5, 10, 6, 7]),
];

pub fn run(report: &mut Report) {
    listing(report);
    let mut met = Met::new();
    let mut check = |name: &str, streams: Vec<Vec<u8>>| {
        report.check(name, |tally| {
            let plays = cores::each(&streams, |stream| (stream, program(stream), Play::whole(stream)));
            for (stream, printed, play) in plays {
                compare(tally, stream, &printed, &play);
                play.met.into_iter().for_each(|(answer, times)| *met.entry(answer).or_default() += times);
            }
        });
    };
    check("replay, books one after the other", (100..148).map(streams::books).collect());
    check("replay, books with damaged bytes", (200..220).map(streams::damaged).collect());
    let mut random = Random::new(300);
    let noise = [2, 3, 10, 1000].map(|one_in| streams::noise(&mut random, one_in, streams::LONGEST));
    check("replay, bytes by chance", noise.to_vec());
    check("replay, every byte with 0 to 21 bytes after it", streams::cut_short(&mut random));
    check("replay, after each of 32 lines every line opened again", vec![streams::opened_again()]);
    // A second 07 after the end, so that each book begins a new survey.
    let about_each_cm = books::about_each_cm().into_iter().flat_map(|(_, book)| [book, vec![book::END]].concat());
    check("replay, the factor about each whole cm", vec![about_each_cm.collect()]);
    answers(report, &met);
}

fn program(stream: &[u8]) -> String {
    String::from_utf8(program::output("replay", iter::once(stream))).expect("text")
}

/// The commands that led to a line: those of its survey.
struct Commands<'a> {
    stream: &'a [u8],
    from: usize,
    to: usize,
}

impl Debug for Commands<'_> {
    fn fmt(&self, f: &mut Formatter) -> std::fmt::Result {
        write!(f, "places {} to {}, {:?}", self.from, self.to, Hex(&self.stream[self.from..self.to]))
    }
}

/// Compares line by line, up to the first line that differs: those after it may only follow from it.
fn compare(tally: &mut Tally, stream: &[u8], printed: &str, play: &Play) {
    let mut printed = printed.lines();
    for expected in &play.lines {
        let line = printed.next().unwrap_or("nothing");
        tally.same(Commands { stream, from: expected.from, to: expected.to }, line, &expected.text);
        if line != expected.text {
            return;
        }
    }
    tally.same("after the last line", printed.next(), None);
}

/// Every answer that the papers name was met often, and no other.
fn answers(report: &mut Report, met: &Met) {
    report.check("replay, every answer of documents 01 and 02 was met, and no other", |tally| {
        let mut others = met.clone();
        for (operation, names, numbers) in NAMED {
            for (name, number) in names.iter().flat_map(|name| numbers.iter().map(move |number| (name, number))) {
                let times = others.remove(&(operation, *name, *number)).unwrap_or(0);
                tally.holds(times >= OFTEN, (operation, name, number, times));
            }
        }
        tally.same("other answers", others, Met::new());
        let applied = met.iter().filter(|((operation, ..), _)| *operation == Applying);
        tally.remark = format!(", of {} commands", applied.map(|(_, times)| times).sum::<u64>());
    });
}

/// The listing of document 01: its book and what replay prints of it are stored beside the program.
fn listing(report: &mut Report) {
    report.check("replay, the listing of document 01", |tally| {
        let book = books::listing();
        let play = Play::whole(&book);
        let row = |line: &Line| [line.stratum, line.species, line.row[2], line.row[3], line.row[4]];
        let rows: Vec<_> = play.survey.closed().iter().map(row).collect();
        tally.same("rows", rows, vec![[1, 3, 2400, 50288870208, 50288870425], [2, 3, 0, 0, 0]]);
        tally.same("the stored book", &include_bytes!("../../crates/replay/stdin")[..], &book);
        compare(tally, &book, include_str!("../../crates/replay/stdout"), &play);
        compare(tally, &book, &program(&book), &play);
    });
}
