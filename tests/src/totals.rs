//! Totalling by the proved library, as it is called from other languages, against both totallings of these tests: every
//! answer and every byte of the sheets.
use crate::author::Author;
use crate::books::Named;
use crate::exact::Exact;
use crate::library::{self, Totalled, MARGIN};
use crate::met::{self, NAMED};
use crate::program::{first_difference, Hex};
use crate::recorded;
use crate::report::{Report, Tally};
use crate::total::{row_numbers, total, Refused, Totals, LEAST_SHEET, ROW};
use crate::{books, cores, plain};

/// How many bytes a sheet has at most.
const LONGEST_SHEET: u64 = 10_000;

/// How many books are totalled before their sheets are compared: those of all at once would take much memory.
const CHUNK: usize = 1_000;

/// How many books a run is to total at least, and how often it is to meet each refusal.
const MANY: u64 = 24_000;
const OFTEN: u64 = 100;

/// The listing's rows, trees, low and high, as document 01 prints them.
pub const LISTING: Totalled = (0, [2, 2400, 92_196_262, 92_196_263, 0]);

/// A book, and the sheet that it is totalled into: its length, and the seed of the bytes that it holds before.
#[derive(Clone)]
pub struct Case {
    pub length: usize,
    pub seed: u8,
    pub book: Vec<u8>,
}

/// The numbers, and the bytes of the sheet with those on both sides of it.
type Answer = (Totalled, Vec<u8>);

impl Case {
    /// What the sheet holds before, with more of it on both sides.
    pub fn noise(&self) -> Vec<u8> {
        let noise = |i: usize| usize::from(self.seed) + i % 256 * 7 + i / 256 * 59;
        (0..self.length + 2 * MARGIN).map(|i| noise(i) as u8).collect()
    }

    /// What a totalling into the sheet answers, and the bytes that it leaves.
    fn with_sheet<T>(&self, total: impl FnOnce(&[u8], &mut [u8]) -> T) -> (T, Vec<u8>) {
        let mut bytes = self.noise();
        let answer = total(&self.book, &mut bytes[MARGIN..MARGIN + self.length]);
        (answer, bytes)
    }

    pub fn library(&self) -> Answer {
        self.with_sheet(library::total)
    }

    /// The same by the implementation of the fuzz run.
    fn plain(&self) -> Answer {
        self.with_sheet(|book, sheet| library::as_numbers(plain::total(book, sheet)))
    }

    /// What the library is to answer, and what comes of the book.
    fn total(&self) -> (Answer, Result<Totals, Refused>) {
        let (totalled, bytes) = self.with_sheet(total);
        ((numbers(&totalled), bytes), totalled)
    }

    fn compare(&self, tally: &mut Tally, (answer, bytes): &Answer, by: &str, (expected, wanted): &Answer) {
        let book = Hex(&self.book);
        tally.same((&book, self.length, by), answer, expected);
        // The bytes beside the sheets too: the totalling of these tests cannot reach those of its own.
        let (at, [found, wanted]) = first_difference(bytes, wanted);
        tally.same((&book, expected, by, "the sheet from byte", at as i64 - MARGIN as i64), found, wanted);
    }
}

/// The numbers that the library is to answer.
fn numbers(totalled: &Result<Totals, Refused>) -> Totalled {
    match totalled {
        Ok(Totals { survey, trees, low, high }) => (0, [survey.lines.len() as u64, *trees, *low, *high, 0]),
        Err(Refused { number, at }) => (u8::try_from(*number).expect("a number of one byte"), [0, 0, 0, 0, *at as u64]),
    }
}

/// What was met: each answer; how many accepted books have estimated trees, a line of small trees alone, and a line of
/// both sorts; and what they record.
#[derive(Default)]
pub struct Met {
    answers: met::Met,
    with_trees: u64,
    small_alone: u64,
    both_sorts: u64,
    recorded: recorded::Met,
}

pub fn run(report: &mut Report) {
    listing(report);
    by_hand(report, "small trees", 407, books::small_trees());
    by_hand(report, "areas", 409, books::areas());
    by_hand(report, "means about 60 cm", 410, books::about_sixty());
    numbered(report, "the factor about each whole cm", 411, books::about_each_cm());
    numbered(report, "each line opened again, and a 33rd", 406, books::opened_again());
    let mut met = Met::default();
    let mut check = |name: &str, cases: Vec<Case>| {
        report.check(&format!("totals, {name}"), |tally| compare(tally, &cases, &mut met));
    };
    check("accepted books", cases(400, (1_000_000..1_024_000).map(books::accepted), None));
    check("damaged books", cases(401, (2_000_000..2_020_000).map(books::damaged), Some(30)));
    check("bytes and commands by chance", cases(402, (3_000_000..3_008_000).map(books::by_chance), Some(12)));
    check("books at the limits", cases(403, books::edges(0..150).into_iter(), Some(60)));
    let small_trees = books::edges_of_small_trees(0..150).into_iter();
    check("small trees at their limits", cases(408, small_trees, Some(60)));
    check("bytes after the end", cases(404, (500..504).flat_map(books::after_the_end), Some(60)));
    check("books cut short at every length", cases(405, (600..620).flat_map(books::cut_short), Some(60)));
    check("sheets of every length", sheets());
    answers_met(report, &met);
    recorded_met(report, &met.recorded);
}

/// A case for each book. One sheet in so many is too short, or none.
pub fn cases(seed: u64, books: impl Iterator<Item = Vec<u8>>, short: Option<u64>) -> Vec<Case> {
    let mut author = Author::new(seed);
    let least = LEAST_SHEET as u64;
    let case = |book| {
        let any = author.random.between(least, LONGEST_SHEET);
        let length = match short.is_some_and(|one_in| author.one_in(one_in)) {
            true => author.one_of(&[0, 1, 25, least - 1, any % least]),
            false => author.one_of(&[least, least, least, least + 1, 1_000, any, LONGEST_SHEET]),
        };
        Case { length: length as usize, seed: author.random.any() as u8, book }
    };
    books.map(case).collect()
}

/// An accepted book and a refused one, with sheets of every length up to past the shortest that is long enough.
fn sheets() -> Vec<Case> {
    let lengths = (0..=LEAST_SHEET + 100).chain([LONGEST_SHEET as usize]);
    let books = [books::listing(), vec![0]];
    lengths.flat_map(|length| books.clone().map(|book| Case { length, seed: length as u8, book })).collect()
}

/// Totals every book by the library and twice here, and holds the library's figures to the exact value and to the trees
/// that the book records.
pub fn compare(tally: &mut Tally, cases: &[Case], met: &mut Met) {
    for chunk in cases.chunks(CHUNK) {
        let all = cores::each(chunk, |case| (case, case.library(), case.plain(), case.total()));
        for (case, answer, plain, (expected, totalled)) in all {
            case.compare(tally, &answer, "total.rs", &expected);
            case.compare(tally, &answer, "plain.rs", &plain);
            met.add(&case.book, &totalled);
            met.recorded.hold(tally, Hex(&case.book), &case.book, &answer.0);
            // Where only one of the two accepts, the comparison above has said so.
            let (number, [_, _, low, high, _]) = answer.0;
            if let (0, Ok(totals)) = (number, totalled) {
                exact(&totals).holds(tally, Hex(&case.book), low, high);
            }
        }
    }
}

impl Met {
    fn add(&mut self, book: &[u8], totalled: &Result<Totals, Refused>) {
        let (number, [.., at]) = numbers(totalled);
        self.answers.count(book, number, at as usize);
        let Ok(Totals { survey, trees, .. }) = totalled else { return };
        let some_line = |sorts: [bool; 2]| survey.lines.iter().any(|line| line.estimates().map(|n| n > 0) == sorts);
        self.with_trees += u64::from(*trees > 0);
        self.small_alone += u64::from(some_line([false, true]));
        self.both_sorts += u64::from(some_line([true, true]));
    }
}

/// The exact value of an accepted book.
fn exact(Totals { survey, .. }: &Totals) -> Exact {
    let mut exact = Exact::new();
    for line in &survey.lines {
        let [measured, small] = line.estimates();
        if measured > 0 {
            let [tariff, d, ..] = line.row;
            let [crown, root, gravity] = survey.species[&line.species].parts;
            exact.add(measured, [tariff, d, survey.factors[&(d / 100)], gravity, crown, root]);
        }
        if let Some([carbon, _]) = line.small {
            exact.add_small(small, carbon);
        }
    }
    exact
}

/// Every refusal of totalling was met often, of each command that can get it, and no other. A third of all books have
/// estimated trees, and one in ten has a line of small trees alone, and one of both sorts.
fn answers_met(report: &mut Report, met: &Met) {
    report.check("totals, every refusal of documents 01 and 02 was met, and no other", |tally| {
        let Met { answers, with_trees, small_alone, both_sorts, .. } = met;
        for (number, names) in NAMED {
            let times: Vec<_> = names.iter().map(|name| answers.times(number, name)).collect();
            tally.holds(times.iter().sum::<u64>() >= OFTEN && !times.contains(&0), (number, names, times));
        }
        tally.same("other answers", answers.others(), vec![]);
        let (all, accepted) = (answers.books(), answers.accepted());
        tally.holds(all >= MANY && 3 * with_trees >= all, (all, accepted, with_trees));
        tally.holds(10 * small_alone >= all && 10 * both_sorts >= all, (all, small_alone, both_sorts));
        tally.remark = format!(
            ", of {all} books, {accepted} accepted, {with_trees} with estimated trees, {small_alone} with a line of \
             small trees alone, {both_sorts} with one of both sorts"
        );
    });
}

/// The figures of every accepted book were held to the trees that it records: of many that record none, of many that count
/// all in full, and of many others.
fn recorded_met(report: &mut Report, met: &recorded::Met) {
    report.check("totals, accepted books of every kind were held to the trees that they record", |tally| {
        tally.holds(met.often(OFTEN), met.to_string());
        tally.remark = format!(", of {met}");
    });
}

/// The listing of document 01, and a sheet that is too short for it, which stays as it was.
fn listing(report: &mut Report) {
    report.check("totals, the listing of document 01", |tally| {
        let cases = [LEAST_SHEET, 5].map(|length| Case { length, seed: 42, book: books::listing() });
        let [whole, short] = &cases;
        tally.same("the listing", whole.library().0, LISTING);
        let (answer, bytes) = short.library();
        tally.same("too short a sheet", (answer, Hex(&bytes)), ((16, [0; 5]), Hex(&short.noise())));
        compare(tally, &cases, &mut Met::default());
    });
}

/// Books that are worked out by hand, each with its name and with what it comes to.
fn by_hand(report: &mut Report, kind: &str, seed: u64, named: Vec<Named>) {
    report.check(&format!("totals, {kind} that are worked out by hand"), |tally| {
        let cases = cases(seed, named.iter().map(|named| named.book.clone()), None);
        for (case, Named { name, answer, last_row, .. }) in cases.iter().zip(&named) {
            let (answered, bytes) = case.library();
            tally.same((name, Hex(&case.book)), answered, *answer);
            tally.same((name, Hex(&case.book), "the last row"), last_row_of(&answered, &bytes), *last_row);
        }
        compare(tally, &cases, &mut Met::default());
    });
}

/// T, d, N, low and high of the last row in a sheet, which has bytes on both sides.
fn last_row_of((_, [rows, ..]): &Totalled, bytes: &[u8]) -> Option<[u64; 5]> {
    let from = MARGIN + ROW * (*rows as usize).checked_sub(1)?;
    let [_, _, figures @ ..] = row_numbers(&bytes[from..from + ROW]);
    Some(figures)
}

/// Books each with the number that it is refused with, 0 where it is accepted.
fn numbered(report: &mut Report, kind: &str, seed: u64, books: Vec<(u8, Vec<u8>)>) {
    report.check(&format!("totals, {kind}"), |tally| {
        let (numbers, books): (Vec<_>, Vec<_>) = books.into_iter().unzip();
        let cases = cases(seed, books.into_iter(), None);
        for (case, expected) in cases.iter().zip(numbers) {
            let ((number, _), _) = case.library();
            tally.same(Hex(&case.book), number, expected);
        }
        compare(tally, &cases, &mut Met::default());
    });
}
