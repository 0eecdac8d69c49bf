//! Tests of the proved libraries from outside: against an implementation of documents 01 and 02 that shares
//! nothing with them, against exact arithmetic, and against the protocol's worked figures.
//!
//! `outside` runs every check. `outside figures` prints the library's crowns, roots and square roots for power_table.py,
//! `outside fuzz SEED SECONDS` totals books by chance, and `outside bench` takes times.
mod agree;
mod appendix6;
mod author;
mod bench;
mod book;
mod books;
mod changes;
mod commands;
mod cores;
mod exact;
mod fuzz;
mod library;
mod listing;
mod met;
mod natural;
mod order;
mod orders;
mod plain;
mod play;
mod powers;
mod printer;
mod program;
mod protocol;
mod proved;
mod random;
mod recorded;
mod replay;
mod report;
mod steps;
mod streams;
mod survey;
mod total;
mod totals;
mod worked;

use std::process::ExitCode;

fn main() -> ExitCode {
    let words: Vec<String> = std::env::args().skip(1).collect();
    let words: Vec<&str> = words.iter().map(String::as_str).collect();
    let good = match words[..] {
        [] => every_check(),
        ["figures"] => figures(),
        ["fuzz", seed, seconds] => match (seed.parse(), seconds.parse()) {
            (Ok(seed), Ok(seconds)) => fuzz::alone(seed, seconds),
            _ => usage(),
        },
        ["bench"] => bench::run(bench::FULL),
        ["bench", "quick"] => bench::run(bench::QUICK),
        _ => usage(),
    };
    if good {
        ExitCode::SUCCESS
    } else {
        ExitCode::FAILURE
    }
}

fn usage() -> bool {
    eprintln!("usage: outside [figures | fuzz SEED SECONDS | bench [quick]]");
    false
}

fn every_check() -> bool {
    let mut report = report::Report::default();
    worked::run(&mut report);
    agree::run(&mut report);
    exact::run(&mut report);
    library::run(&mut report);
    replay::run(&mut report);
    totals::run(&mut report);
    orders::run(&mut report);
    fuzz::run(&mut report);
    listing::run(&mut report);
    commands::run(&mut report);
    report.finish()
}

/// One line to a figure: its name, group, d, low and high; and one to a square root: its name, the number, the root and
/// the square.
fn figures() -> bool {
    for d in agree::D.0..=agree::D.1 {
        for group in agree::CROWN_GROUP.0..=agree::CROWN_GROUP.1 {
            let [low, high] = proved::crown([group, d]).accepted();
            println!("crown {group} {d} {low} {high}");
        }
        for group in agree::ROOT_GROUP.0..=agree::ROOT_GROUP.1 {
            let [low, high] = proved::root([group, d]).accepted();
            println!("root {group} {d} {low} {high}");
        }
    }
    let squares = (1..=100_000).map(|i| 42_949 * i).chain([u32::MAX.into()]).flat_map(agree::about_square);
    for x in agree::ends_of_roots().into_iter().chain(squares) {
        let [root, square] = proved::square_root([x]).accepted();
        println!("square-root {x} {root} {square}");
    }
    true
}
