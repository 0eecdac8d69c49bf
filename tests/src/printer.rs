//! The programs that take one book and print a text, each against the text that it is to print.
use crate::program::{self, Hex};
use crate::report::{Report, Tally};
use crate::{books, cores};
use std::time::Duration;
use std::{iter, thread};

pub struct Printer {
    pub name: &'static str,
    /// What is to be printed of a book.
    pub of_book: fn(&[u8]) -> String,
}

impl Printer {
    /// What is to be printed of any input. One that is longer than a book is not looked at.
    pub fn text(&self, input: &[u8]) -> String {
        if input.len() > books::LONGEST {
            return "too long\n".to_string();
        }
        (self.of_book)(input)
    }

    pub fn printed(&self, input: &[u8]) -> String {
        self.output(iter::once(input))
    }

    /// The same of input that comes in pieces, each some time after the one before.
    fn in_pieces(&self, input: &[u8], length: usize) -> String {
        self.output(input.chunks(length).inspect(|_| thread::sleep(Duration::from_micros(200))))
    }

    fn output<'a>(&self, pieces: impl Iterator<Item = &'a [u8]> + Send) -> String {
        String::from_utf8_lossy(&program::output(self.name, pieces)).into_owned()
    }

    fn compare(&self, tally: &mut Tally, inputs: &[Vec<u8>], run: impl Fn(&[u8]) -> String + Sync) {
        for (input, printed) in cores::each(inputs, |input| (input, run(input))) {
            tally.same(Hex(input), printed, self.text(input));
        }
    }

    /// A check of these inputs, one to a run.
    pub fn check(&self, report: &mut Report, kind: &str, inputs: &[Vec<u8>]) {
        let name = format!("{}, {kind}", self.name);
        report.check(&name, |tally| self.compare(tally, inputs, |input| self.printed(input)));
    }

    /// The checks of what hangs on how long the input is and how it comes.
    pub fn check_input(&self, report: &mut Report) {
        let long = books::long();
        self.check(report, "the longest books and longer input", &long);
        report.check(&format!("{}, input in small pieces", self.name), |tally| {
            let short: Vec<_> = (5_000_000..5_000_040).map(books::accepted).collect();
            self.compare(tally, &short, |book| self.in_pieces(book, 1 + book.len() % 7));
            self.compare(tally, &long, |input| self.in_pieces(input, 997));
        });
    }
}
