//! The proved library's figures, by the crate of bindings/rust: the numbers as its C functions put them, held to what
//! the crate's own functions make of them.
use fieldbook::{raw, AverageTree, Grams, Milligrams, Range, Refusal};

/// All that the library says of one set of operands.
#[derive(Clone, Copy, PartialEq, Eq, Debug)]
pub struct Answer {
    pub refusal: u64,
    pub low: u64,
    pub high: u64,
}

impl Answer {
    /// The low and the high of operands that are not refused.
    pub fn accepted(self) -> [u64; 2] {
        assert_eq!(self.refusal, 0);
        [self.low, self.high]
    }
}

impl From<Result<u64, u64>> for Answer {
    fn from(figure: Result<u64, u64>) -> Answer {
        figure.map(|value| (value, 0)).into()
    }
}

impl From<Result<(u64, u64), u64>> for Answer {
    fn from(figure: Result<(u64, u64), u64>) -> Answer {
        match figure {
            Ok((low, high)) => Answer { refusal: 0, low, high },
            Err(refusal) => Answer { refusal, low: 0, high: 0 },
        }
    }
}

/// What stands where the answer goes, and beside it. The library has to put another number there, 0 where it refuses,
/// and to leave those beside it.
const BEFORE: u64 = 0xa5a5_a5a5_a5a5_a5a5;

/// The number of the refusal, and what the library put into so many numbers.
fn put<const N: usize>(ask: impl FnOnce(&mut [u64; N]) -> u8) -> (u64, [u64; N]) {
    let mut room = [[BEFORE; N]; 3];
    let refusal = ask(&mut room[1]).into();
    assert_eq!([room[0], room[2]], [[BEFORE; N]; 2], "the numbers beside the answer");
    (refusal, room[1])
}

fn count(ask: impl FnOnce(&mut u64) -> u8, told: Result<u64, Refusal>) -> Answer {
    let (refusal, [value]) = put(|[value]| ask(value));
    agreed(Answer { refusal, low: value, high: 0 }, told.map(|value| (value, 0)))
}

fn ends(ask: impl FnOnce(&mut [u64; 2]) -> u8, told: Result<(u64, u64), Refusal>) -> Answer {
    let (refusal, [low, high]) = put(ask);
    agreed(Answer { refusal, low, high }, told)
}

fn agreed(answer: Answer, told: Result<(u64, u64), Refusal>) -> Answer {
    assert_eq!(answer, told.map_err(|refusal| refusal.0.into()).into(), "what the crate makes of the numbers");
    answer
}

fn milligrams(Range { low, high }: Range<Milligrams>) -> (u64, u64) {
    (low.0, high.0)
}

fn grams(Range { low, high }: Range<Grams>) -> (u64, u64) {
    (low.0, high.0)
}

pub fn single_tariff(constants: [i32; 4], [cm, tenths]: [u64; 2]) -> Answer {
    let [c1, c2, c3, c4] = constants;
    let ask = |answer: &mut u64| raw::single_tariff(c1, c2, c3, c4, cm, tenths, answer);
    count(ask, fieldbook::single_tariff(constants, cm, tenths))
}

pub fn line_tariff([sum, number]: [u64; 2]) -> Answer {
    count(|answer| raw::line_tariff(sum, number, answer), fieldbook::line_tariff(sum, number))
}

pub fn mean([n, squares]: [u64; 2]) -> Answer {
    count(|answer| raw::mean(n, squares, answer), fieldbook::mean(n, squares))
}

pub fn trees([n, p, q]: [u64; 3]) -> Answer {
    count(|answer| raw::trees(n, p, q, answer), fieldbook::trees(n, p, q))
}

pub fn stem([tariff, d, factor, gravity]: [u64; 4]) -> Answer {
    let told = fieldbook::stem(tariff, d, factor, gravity).map(milligrams);
    ends(|answer| raw::stem(tariff, d, factor, gravity, answer), told)
}

pub fn crown([group, d]: [u64; 2]) -> Answer {
    ends(|answer| raw::crown(group, d, answer), fieldbook::crown(group, d).map(milligrams))
}

pub fn root([group, d]: [u64; 2]) -> Answer {
    ends(|answer| raw::root(group, d, answer), fieldbook::root(group, d).map(milligrams))
}

pub fn tree([tariff, d, factor, gravity, crown, root]: [u64; 6]) -> Answer {
    let tree = AverageTree { tariff, d, factor, gravity, crown, root };
    let ask = |answer: &mut [u64; 2]| raw::tree(tariff, d, factor, gravity, crown, root, answer);
    ends(ask, fieldbook::tree(tree).map(milligrams))
}

pub fn row([trees, tariff, d, factor, gravity, crown, root]: [u64; 7]) -> Answer {
    let tree = AverageTree { tariff, d, factor, gravity, crown, root };
    let ask = |answer: &mut [u64; 2]| raw::row(trees, tariff, d, factor, gravity, crown, root, answer);
    ends(ask, fieldbook::row(trees, tree).map(milligrams))
}

pub fn small_trees([number, carbon]: [u64; 2]) -> Answer {
    let told = fieldbook::small_trees(number, carbon).map(milligrams);
    ends(|answer| raw::small_trees(number, carbon, answer), told)
}

pub fn project([low, high, trees]: [u64; 3]) -> Answer {
    let sums = Range { low: Milligrams(low), high: Milligrams(high) };
    ends(|answer| raw::project(low, high, trees, answer), fieldbook::project(sums, trees).map(grams))
}

/// The root and its square, where the others have their low and high.
pub fn square_root([x]: [u64; 1]) -> Answer {
    let ask = |[root, square]: &mut [u64; 2]| {
        raw::square_root(x, root, square);
        0
    };
    let fieldbook::SquareRoot { root, square } = fieldbook::square_root(x);
    ends(ask, Ok((root, square)))
}
