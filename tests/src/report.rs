//! Named checks: one line each, and a last line that counts them.
use crate::cores;
use std::any::Any;
use std::fmt::Debug;
use std::panic::{catch_unwind, AssertUnwindSafe};

const SHOWN: u64 = 5;

/// What one check has compared so far.
#[derive(Default)]
pub struct Tally {
    comparisons: u64,
    differences: u64,
    pub remark: String,
}

impl Tally {
    /// Compares two answers on the same operands, and shows the first few that differ.
    pub fn same<A: PartialEq + Debug>(&mut self, operands: impl Debug, answer: A, expected: A) {
        self.comparisons += 1;
        if answer != expected {
            self.differ(format_args!("{operands:?}: {answer:?}, expected {expected:?}"));
        }
    }

    /// A condition on the operands, with all that is needed to see why it does not hold.
    pub fn holds(&mut self, condition: bool, operands: impl Debug) {
        self.comparisons += 1;
        if !condition {
            self.differ(format_args!("{operands:?}"));
        }
    }

    /// What is to be looked at for each, by every core.
    pub fn each<T: Sync>(&mut self, all: impl IntoIterator<Item = T>, look: impl Fn(&mut Tally, &T) + Sync) {
        let all: Vec<T> = all.into_iter().collect();
        let shares = cores::by_turns(&all, Tally::default, |tally, (_, one)| look(tally, one));
        shares.into_iter().for_each(|tally| self.add(tally));
    }

    /// Adds what was compared elsewhere.
    pub fn add(&mut self, other: Tally) {
        self.comparisons += other.comparisons;
        self.differences += other.differences;
    }

    pub fn is_good(&self) -> bool {
        self.differences == 0
    }

    fn differ(&mut self, what: std::fmt::Arguments) {
        self.differences += 1;
        if self.differences <= SHOWN {
            println!("        {what}");
        }
    }
}

#[derive(Default)]
pub struct Report {
    passed: u64,
    failed: u64,
}

impl Report {
    pub fn check(&mut self, name: &str, body: impl FnOnce(&mut Tally)) {
        let mut tally = Tally::default();
        // A trap of the independent implementation, or a program that hangs, is a failed check and not the end of the run.
        let ended = catch_unwind(AssertUnwindSafe(|| body(&mut tally)));
        let Tally { comparisons, differences, remark } = tally;
        // A check that compares nothing has checked nothing.
        if ended.is_ok() && differences == 0 && comparisons > 0 {
            self.passed += 1;
            println!("ok      {name}: {comparisons} comparisons{remark}");
        } else {
            self.failed += 1;
            let how = ended.map_or_else(|panic| format!(", and it broke off: {}", words(&*panic)), |()| String::new());
            println!("FAILED  {name}: {differences} of {comparisons} comparisons differ{how}");
        }
    }

    /// Prints the last line; true where nothing failed.
    pub fn finish(self) -> bool {
        println!("{} passed, {} failed", self.passed, self.failed);
        self.failed == 0
    }
}

/// What a panic says.
fn words(panic: &dyn Any) -> &str {
    let words = panic.downcast_ref::<&str>().copied();
    words.or(panic.downcast_ref::<String>().map(String::as_str)).unwrap_or("without a word")
}
