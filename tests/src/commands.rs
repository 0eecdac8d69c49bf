//! The program `commands`, which prints the commands of a book, against the commands that these tests read.
use crate::book::{self, signed, Command, CLOSE, END, FACTOR, HEIGHT, MEASURED, OPEN, SMALL, SPECIES};
use crate::printer::Printer;
use crate::report::Report;
use crate::total::Refused;
use crate::{author, books};
use std::collections::BTreeMap;

const COMMANDS: Printer = Printer { name: "commands", of_book };

/// How often a run is to meet each answer of reading at least.
const OFTEN: u64 = 100;

/// Where reading may end: the number of the refusal, and the names of the commands there, "" for none.
const ANSWERS: [(u64, &[&str]); 3] = [(1, &[""]), (2, &[""]), (3, &book::WITH_OPERANDS)];

/// Texts that are worked out by hand. The second book has operands at the ends of what their bytes can hold, a command
/// after the end, and a command that is cut short.
const LISTING: &str = "\
0 species 3 crown 7 root 5 gravity 56 constants 58830000 20123000 -54780 -57397
21 factor 60 cm 101
24 open stratum 1 species 3 p 6 q 1
35 measured 60 cm 4
39 height 60 cm 120
43 close
44 open stratum 2 species 3 p 1 q 1
55 close
56 end
commands 9 bytes 57
";
const ENDS: (&[u8], &str) = (
    b"\
    \x01\xff\0\xff\0\x80\0\0\0\x7f\xff\xff\xff\xff\xff\xff\xff\0\0\0\0\
    \x07\
    \x03\0\xff\xff\xff\xff\xff\0\0\0\0\
    \x08\xff\xff\xff\xff\0\0\0\0\
    \x04\xff\xff",
    "\
0 species 255 crown 0 root 255 gravity 0 constants -2147483648 2147483647 -1 0
21 end
22 open stratum 0 species 255 p 4294967295 q 0
33 small 4294967295 mg 0
commands 4 bytes 42
refused 3 at 42
",
);

pub fn run(report: &mut Report) {
    report.check("commands, books that are worked out by hand", |tally| {
        for (book, text) in [(&books::listing()[..], LISTING), ENDS] {
            tally.same("the text of these tests", &*COMMANDS.text(book), text);
            tally.same("the program's text", &*COMMANDS.printed(book), text);
        }
    });
    let kinds = [
        ("books of every kind", books::of_every_kind()),
        ("operands at their ends and beyond", author::at_the_ends()),
        ("bytes after the end", books::after_the_end(700)),
        ("books cut short at every length", (701..704).flat_map(books::cut_short).collect()),
        ("as many commands as a book has room for", vec![vec![CLOSE; books::LONGEST]]),
    ];
    for (kind, books) in &kinds {
        COMMANDS.check(report, kind, books);
    }
    COMMANDS.check_input(report);
    answers_met(report, kinds.iter().flat_map(|(_, books)| books));
}

fn of_book(book: &[u8]) -> String {
    let (commands, refused) = book::read_through(book, 0);
    let mut text: String = commands.iter().map(|(at, command)| format!("{at} {}\n", words(command))).collect();
    text += &format!("commands {} bytes {}\n", commands.len(), refused.at);
    // That there is no command after the last byte is no refusal to print.
    if refused.at < book.len() {
        text += &format!("{refused}\n");
    }
    text
}

/// A command in the words of examples/README.md.
fn words(command: &Command) -> String {
    match (command.byte, &command.operands[..]) {
        (SPECIES, &[id, crown, root, gravity, c1, c2, c3, c4]) => {
            let [c1, c2, c3, c4] = [c1, c2, c3, c4].map(signed);
            format!("species {id} crown {crown} root {root} gravity {gravity} constants {c1} {c2} {c3} {c4}")
        }
        (FACTOR, [cm, factor]) => format!("factor {cm} cm {factor}"),
        (OPEN, [stratum, species, p, q]) => format!("open stratum {stratum} species {species} p {p} q {q}"),
        (MEASURED, [class, count]) => format!("measured {class} cm {count}"),
        (HEIGHT, [cm, tenths]) => format!("height {cm} cm {tenths}"),
        (CLOSE, []) => "close".to_string(),
        (END, []) => "end".to_string(),
        (SMALL, [carbon, count]) => format!("small {carbon} mg {count}"),
        (byte, operands) => unreachable!("{byte} with operands {operands:?}"),
    }
}

/// Each answer of reading was met often, in every command that it can be met in, and no other.
fn answers_met<'a>(report: &mut Report, books: impl Iterator<Item = &'a Vec<u8>>) {
    report.check("commands, every refusal of reading was met, and no other", |tally| {
        let mut met = BTreeMap::<_, u64>::new();
        for book in books {
            let Refused { number, at } = book::read_through(book, 0).1;
            *met.entry((number, book::name(book.get(at)))).or_default() += 1;
        }
        tally.remark = format!(", of {} books", met.values().sum::<u64>());
        for (number, names) in ANSWERS {
            let times: Vec<_> = names.iter().map(|name| met.remove(&(number, *name)).unwrap_or(0)).collect();
            tally.holds(times.iter().sum::<u64>() >= OFTEN && !times.contains(&0), (number, names, times));
        }
        tally.same("other answers", met, BTreeMap::new());
    });
}
