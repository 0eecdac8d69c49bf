//! The program `sheet`, which reads out a book, against the text that document 01 has for it.
use crate::books;
use crate::printer::Printer;
use crate::report::Report;
use crate::total::{total, Totals, LEAST_SHEET};

const SHEET: Printer = Printer { name: "sheet", of_book };

/// What document 01 prints of its own book.
const PRINTED: &str = "\
1 3 24.00 50288870208 50288870425
2 3 0.00 0 0
project 24.00 92196262 92196263
";

pub fn run(report: &mut Report) {
    report.check("sheet, the listing of document 01", |tally| {
        tally.same("the text of these tests", &*SHEET.text(&books::listing()), PRINTED);
        tally.same("the program's text", &*SHEET.printed(&books::listing()), PRINTED);
    });
    SHEET.check(report, "books of every kind", &books::of_every_kind());
    SHEET.check_input(report);
}

fn of_book(book: &[u8]) -> String {
    match total(book, &mut [0; LEAST_SHEET]) {
        Ok(totals) => listing(&totals),
        Err(refused) => format!("{refused}\n"),
    }
}

fn listing(totals: &Totals) -> String {
    let mut text = String::new();
    for line in &totals.survey.lines {
        let [.., trees, low, high] = line.row;
        text += &format!("{} {} {} {low} {high}\n", line.stratum, line.species, places(trees));
    }
    text + &format!("project {} {} {}\n", places(totals.trees), totals.low, totals.high)
}

/// Hundredths of a tree, to two places.
fn places(hundredths: u64) -> String {
    format!("{}.{:02}", hundredths / 100, hundredths % 100)
}
