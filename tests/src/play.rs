//! What the program `replay` is to print for a stream of commands, by the book and the survey of these tests.
use crate::book::{self, four_bytes, Command, CLOSE, END, OPEN, SPECIES};
use crate::met::UNMEASURED;
use crate::survey::{Line, Species, Survey};
use std::collections::BTreeMap;

#[derive(Clone, Copy, PartialEq, Eq, PartialOrd, Ord, Debug)]
pub enum Operation {
    Reading,
    Writing,
    Applying,
    /// Applying an opening whose plots are above its net area, with the two exchanged: what else stands in its way.
    Exchanging,
}

/// How often each answer was met: by the operation, the command's name ("" where there is no command) and the number of
/// the refusal, 0 for none. Applying tells the closing of a line without measured trees from the others.
pub type Met = BTreeMap<(Operation, &'static str, u64), u64>;

/// A line that is to be printed, and the places between which the commands stand that led to it.
pub struct Printed {
    pub text: String,
    pub from: usize,
    pub to: usize,
}

#[derive(Default)]
pub struct Play {
    pub lines: Vec<Printed>,
    pub met: Met,
    pub survey: Survey,
    at: usize,
    /// Where the survey began.
    from: usize,
    /// Whether 07 stands just before the place.
    after_end: bool,
}

impl Play {
    /// Every place from 0 to one past the end.
    pub fn whole(stream: &[u8]) -> Play {
        let mut play = Play::default();
        while play.at <= stream.len() + 1 {
            play.turn(stream);
        }
        play
    }

    fn turn(&mut self, stream: &[u8]) {
        let (at, from) = (self.at, self.from);
        let numbers = match book::read(stream, at) {
            Ok((command, next)) => self.command(&command, next),
            Err(number) => self.no_command(stream, number),
        };
        let text: Vec<String> = [at as u64].iter().chain(&numbers).map(u64::to_string).collect();
        self.lines.push(Printed { text: text.join(" "), from, to: self.at.min(stream.len()) });
    }

    /// A reader stays where it was. How far the stream reads from the next place on stands in the line too.
    fn no_command(&mut self, stream: &[u8], number: u64) -> Vec<u64> {
        let at = self.at;
        self.meets(Operation::Reading, book::name(stream.get(at)), number);
        self.after_end = false;
        self.at += 1;
        let (commands, stopped) = book::read_through(stream, self.at);
        vec![number, at as u64, commands.len() as u64, stopped.at as u64, stopped.number]
    }

    fn command(&mut self, command: &Command, next: usize) -> Vec<u64> {
        let name = book::name(Some(&command.byte));
        let mut buffer: [u8; 40] = std::array::from_fn(|i| (self.at + 7 * i) as u8);
        let written = command.write(&mut buffer, self.at % 48);
        let unmeasured = command.byte == CLOSE && self.survey.unmeasured_is_open();
        let applied = self.survey.apply(command);
        let answers = [refusal(&written), refusal(&applied)];
        self.meets(Operation::Reading, name, 0);
        self.meets(Operation::Writing, name, answers[0]);
        self.meets(Operation::Applying, if unmeasured { UNMEASURED } else { name }, answers[1]);
        self.exchange_areas(command);
        let after = written.unwrap_or(0);
        let digests = [digest(|d| d.bytes(&buffer)), digest(|d| d.survey(&self.survey))];
        self.go_on(next, command.byte == END);
        vec![next as u64, answers[0], after as u64, digests[0], answers[1], digests[1]]
    }

    /// After the second of two commands 07 in a row a new survey begins.
    fn go_on(&mut self, next: usize, is_end: bool) {
        let over = is_end && self.after_end;
        if over {
            self.survey = Survey::default();
            self.from = next;
        }
        self.after_end = is_end && !over;
        self.at = next;
    }

    /// Counts what an opening whose plots are above its net area would be answered with the two exchanged.
    fn exchange_areas(&mut self, command: &Command) {
        match (command.byte, &command.operands[..]) {
            (OPEN, &[stratum, species, p, q]) if p < q && !self.survey.ended => {
                let answer = self.survey.may_open(stratum, species, [q, p]);
                self.meets(Operation::Exchanging, book::name(Some(&OPEN)), refusal(&answer));
            }
            _ => {}
        }
    }

    fn meets(&mut self, operation: Operation, name: &'static str, number: u64) {
        *self.met.entry((operation, name, number)).or_default() += 1;
    }
}

/// The number of a refusal, 0 for none.
fn refusal<T>(answer: &Result<T, u64>) -> u64 {
    answer.as_ref().err().copied().unwrap_or(0)
}

/// Of numbers below 2^32, one after the other: 31 times the digest so far and the number, modulo 2^31 - 1.
struct Digest(u64);

fn digest(add: impl FnOnce(&mut Digest)) -> u64 {
    let mut digest = Digest(0);
    add(&mut digest);
    digest.0
}

impl Digest {
    fn numbers(&mut self, all: impl IntoIterator<Item = u64>) {
        for x in all {
            assert!(x < 1 << 32);
            self.0 = (self.0 * 31 + x) % ((1 << 31) - 1);
        }
    }

    fn bytes(&mut self, bytes: &[u8]) {
        self.numbers(bytes.iter().map(|&byte| byte.into()));
    }

    /// The high half and the low half of each number.
    fn wide(&mut self, all: impl IntoIterator<Item = u64>) {
        self.numbers(all.into_iter().flat_map(|x| [x >> 32, x % (1 << 32)]));
    }

    /// The bytes of the command that declares the species with id 0. No species has every operand 0.
    fn species(&mut self, species: Option<&Species>) {
        let Species { parts, constants } = species.copied().unwrap_or_default();
        let operands = [&[0], &parts[..], &constants.map(four_bytes)[..]].concat();
        self.bytes(&Command { byte: SPECIES, operands }.bytes());
    }

    fn row(&mut self, line: Option<&Line>) {
        let [stratum, species] = line.map_or([0; 2], |line| [line.stratum, line.species]);
        let [tariff, d, trees, low, high] = line.map_or([0; 5], |line| line.row);
        self.numbers([stratum, species, tariff, d, trees]);
        self.wide([low, high]);
    }

    /// The line that was opened last, with its species.
    fn line(&mut self, survey: &Survey) {
        let none = Line::default();
        let line = survey.lines.last().unwrap_or(&none);
        self.numbers([line.stratum, line.species]);
        self.species(survey.lines.last().map(|line| &survey.species[&line.species]));
        self.numbers(line.areas);
        self.wide([line.n(), line.squares(), line.tariffs.len() as u64, line.tariff_sum()]);
        self.wide(line.small.unwrap_or_default());
    }

    /// The species, each with two rows, then the factors and the rest.
    fn survey(&mut self, survey: &Survey) {
        let closed = survey.closed();
        for i in 0..16 {
            self.species(survey.species.get(&(i as u64)));
            self.row(closed.get(i));
            self.row(closed.get(i + 16));
        }
        self.numbers((0..=100).map(|cm| survey.factors.get(&cm).copied().unwrap_or(0)));
        self.wide([closed.len() as u64]);
        self.numbers([survey.open.into()]);
        self.line(survey);
        self.numbers([survey.ended.into()]);
    }
}
