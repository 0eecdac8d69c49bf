//! The library against `plain` over books by chance, so many or as many as there is time for: the answer and every byte
//! of the sheet. What it answers to a book and to the same book in another order of the crew is compared too. A book hangs
//! on the seed of the run and on its number alone, whatever the time and however many cores there are.
use crate::author::Author;
use crate::changes::{Changer, Pool};
use crate::library::{as_numbers, same_reading, total, Totalled};
use crate::program::{first_difference, Hex};
use crate::random::Random;
use crate::report::{Report, Tally};
use crate::total::{LEAST_SHEET, ROW};
use crate::{cores, met, orders, plain, recorded, streams};
use std::fmt::{Debug, Display, Formatter};
use std::ops::Range;
use std::panic::{catch_unwind, AssertUnwindSafe};
use std::sync::atomic::{AtomicU64, Ordering};
use std::time::{Duration, Instant};

/// What the check takes that every run of the tests makes: the same books, some twenty seconds of them on two cores.
const SEED: u64 = 1;
const BOOKS: u64 = 8_000_000;

/// In so many seconds every answer is to be met.
const LONG_ENOUGH: u64 = 10;

/// How many books a core takes before it looks at the clock.
const BATCH: u64 = 256;

const LONGEST_SHEET: usize = 1_000;

/// A sheet stands somewhere amid other bytes, with so many before it and after it at least.
const MARGIN: usize = 64;
const ROOM: usize = MARGIN + LONGEST_SHEET + 2 * MARGIN;

pub fn run(report: &mut Report) {
    report.check("fuzz, the library and a plain implementation over books by chance", |tally| {
        let (compared, met) = fuzz(SEED, BOOKS, Duration::MAX);
        tally.add(compared);
        tally.same("books", met.answers.books(), BOOKS);
        every_answer_was_met(tally, &met);
        tally.remark = format!("; {met}");
    });
}

/// Runs for so many seconds, and says on the last line what was met. True where nothing is wrong.
pub fn alone(seed: u64, seconds: u64) -> bool {
    let (mut tally, met) = fuzz(seed, u64::MAX, Duration::from_secs(seconds));
    if seconds >= LONG_ENOUGH {
        every_answer_was_met(&mut tally, &met);
    }
    println!("{met}");
    tally.is_good()
}

/// What a run has met: the answers to its books, what accepted ones record, and the books that it had in two orders.
#[derive(Default)]
struct Met {
    answers: met::Met,
    recorded: recorded::Met,
    pairs: orders::Met,
}

impl Display for Met {
    fn fmt(&self, f: &mut Formatter) -> std::fmt::Result {
        write!(f, "{}; {}; {}", self.answers, self.recorded, self.pairs)
    }
}

fn every_answer_was_met(tally: &mut Tally, Met { answers, recorded, pairs }: &Met) {
    tally.same("answers that were never met", answers.missing(), vec![]);
    tally.same("answers that totalling does not have", answers.others(), vec![]);
    tally.holds(recorded.often(1), (recorded.to_string(), "a kind of accepted book was never met"));
    tally.same("pairs that were never met", pairs.missing(), vec![]);
}

/// Every core takes the next numbers until all these books are done, the time is over or a book differs. All books with
/// lesser numbers than the one that differs are done too, so the first of such is always found.
fn fuzz(seed: u64, books: u64, time: Duration) -> (Tally, Met) {
    let pool = Pool::new(seed);
    let noise = streams::noise(&mut Random::new(!seed), 4, 4 * ROOM);
    let next = AtomicU64::new(0);
    let end = AtomicU64::new(books);
    let start = Instant::now();
    let shares = cores::all_at_once(|| {
        let mut worker = Worker::new(seed, &pool, &noise);
        loop {
            let from = next.fetch_add(BATCH, Ordering::Relaxed);
            let mut batch = from..end.load(Ordering::Relaxed).min(from + BATCH);
            if batch.is_empty() {
                return (worker.tally, worker.met);
            }
            if let Some(k) = batch.find(|&k| !worker.book(k)) {
                end.fetch_min(k, Ordering::Relaxed);
            }
            if start.elapsed() >= time {
                end.store(0, Ordering::Relaxed);
            }
        }
    });
    let mut all = (Tally::default(), Met::default());
    for (tally, met) in shares {
        all.0.add(tally);
        all.1.answers.add(met.answers);
        all.1.recorded.add(met.recorded);
        all.1.pairs.add(met.pairs);
    }
    all
}

/// What a difference is shown with: enough to make it again.
struct Case<'a> {
    seed: u64,
    k: u64,
    book: &'a [u8],
    sheet: usize,
}

impl Debug for Case<'_> {
    fn fmt(&self, f: &mut Formatter) -> std::fmt::Result {
        write!(f, "{} {} {:?} sheet of {} bytes", self.seed, self.k, Hex(self.book), self.sheet)
    }
}

struct Worker<'a> {
    seed: u64,
    changer: Changer<'a>,
    noise: &'a [u8],
    tally: Tally,
    met: Met,
}

fn sheet_length(author: &mut Author) -> usize {
    let any = author.random.between(0, LONGEST_SHEET as u64) as usize;
    match author.random.between(0, 24) {
        0 => author.one_of(&[0, 1, ROW, LEAST_SHEET - 1, any % LEAST_SHEET]),
        1 | 2 => author.one_of(&[LEAST_SHEET + 1, LONGEST_SHEET, any.max(LEAST_SHEET)]),
        _ => LEAST_SHEET,
    }
}

impl<'a> Worker<'a> {
    fn new(seed: u64, pool: &'a Pool, noise: &'a [u8]) -> Worker<'a> {
        Worker { seed, changer: Changer::new(pool), noise, tally: Tally::default(), met: Met::default() }
    }

    /// Makes the book of a number and compares all of it. A trap of `plain` is a difference too.
    fn book(&mut self, k: u64) -> bool {
        self.changer.write(Random::new(self.seed).any().wrapping_add(k));
        if catch_unwind(AssertUnwindSafe(|| self.compare(k))).is_err() {
            let case = Case { seed: self.seed, k, book: self.changer.book(), sheet: 0 };
            self.tally.holds(false, (case, "it broke off"));
        }
        self.tally.is_good()
    }

    fn compare(&mut self, k: u64) {
        let author = self.changer.author();
        let length = sheet_length(author);
        let start = MARGIN + author.random.between(0, MARGIN as u64) as usize;
        let from = author.random.between(0, (self.noise.len() - ROOM) as u64) as usize;
        let places = self.changer.two_places();
        let shuffled = self.changer.shuffled();
        let case = Case { seed: self.seed, k, book: self.changer.book(), sheet: length };
        let lent = Lent { bytes: &self.noise[from..from + ROOM], sheet: start..start + length };
        let answer = lent.with_sheet(case.book, total);
        let (number, [.., at]) = compare_totals(&mut self.tally, &case, &lent, &answer);
        self.met.answers.count(case.book, number, at as usize);
        self.met.recorded.hold(&mut self.tally, &case, case.book, &answer.0);
        for at in places {
            same_reading(&mut self.tally, &case, case.book, at);
        }
        if let Some(other) = shuffled {
            let other_answer = lent.with_sheet(&other, total);
            self.met.pairs.count([case.book, &other], [answer.0 .0, other_answer.0 .0]);
            let answers = [&answer, &other_answer].map(|(answer, bytes)| (*answer, &bytes[..]));
            orders::accepted_together(&mut self.tally, (&case, Hex(&other)), lent.bytes, answers);
        }
    }
}

/// What a totalling is lent: a sheet amid other bytes.
struct Lent<'a> {
    bytes: &'a [u8],
    sheet: Range<usize>,
}

/// The numbers, and what the bytes that were lent have become.
type Answer = (Totalled, [u8; ROOM]);

impl Lent<'_> {
    fn with_sheet(&self, book: &[u8], total: impl FnOnce(&[u8], &mut [u8]) -> Totalled) -> Answer {
        let mut bytes: [u8; ROOM] = self.bytes.try_into().expect("as many bytes");
        (total(book, &mut bytes[self.sheet.clone()]), bytes)
    }
}

/// Compares the library's answer with that of `plain`, which comes back.
fn compare_totals(tally: &mut Tally, case: &Case, lent: &Lent, (answer, ours): &Answer) -> Totalled {
    let Lent { bytes: before, sheet } = lent;
    let (expected, theirs) = lent.with_sheet(case.book, |book, sheet| as_numbers(plain::total(book, sheet)));
    tally.same(case, *answer, expected);
    // The bytes around the sheets too: `plain` cannot reach those of its own.
    let (at, [found, wanted]) = first_difference(ours, &theirs);
    tally.same((case, "from byte", at as i64 - sheet.start as i64), found, wanted);
    let (number, [rows, trees, low, high, _]) = *answer;
    let end = sheet.start + ROW * rows as usize;
    let kept = ours[..sheet.start] == before[..sheet.start] && ours[end..] == before[end..];
    tally.holds(kept, (case, rows, "bytes that are not the rows' have changed"));
    if number == 0 {
        let close = low <= high && (low < high) == (trees > 0) && high <= low + 3 + trees / 1000;
        tally.holds(close, (case, trees, low, high, "the gap"));
    }
    expected
}
