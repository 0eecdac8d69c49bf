//! Totalling, reading, writing and the rows of a sheet by the library's C functions, against the book of these tests.
//! What a function is lent holds other numbers before, so that one which it does not put shows.
use crate::book::{self, four_bytes, signed, Command, SPECIES, UNKNOWN_BYTE};
use crate::program::Hex;
use crate::random::Random;
use crate::report::{Report, Tally};
use crate::total::{row_numbers, LEAST_SHEET, ROW};
use crate::{author, books, plain, streams};
use fieldbook::{raw, Command as Told, Refusal, Refused, Row, Species, Totals};
use std::collections::BTreeSet;
use std::fmt::Debug;

/// What writing says of a number that does not fit the bytes of its operand.
const OPERAND: u64 = 6;

const BEFORE: u64 = 0xa5a5_a5a5_a5a5_a5a5;

/// How many bytes stand before a buffer or a sheet and after it.
pub const MARGIN: usize = 25;

/// The number of the refusal, then rows, trees, low, high and the place of the refusal.
pub type Totalled = (u8, [u64; 5]);

/// The number of the refusal, the command's nine numbers and the place to go on from.
type Reading = (u8, [u64; 9], usize);

/// The number of the refusal and the place to go on from.
type Writing = (u8, usize);

pub fn total(book: &[u8], sheet: &mut [u8]) -> Totalled {
    let mut answer = [BEFORE; 5];
    (raw::total(book, sheet, &mut answer), answer)
}

/// The same numbers of what the plain implementation answers.
pub fn as_numbers(totalled: plain::Totalled) -> Totalled {
    match totalled {
        Ok(plain::Totals { rows, trees, low, high }) => (0, [rows, trees, low, high, 0]),
        Err(plain::Refused { number, at }) => (number, [0, 0, 0, 0, at]),
    }
}

fn read(book: &[u8], at: usize) -> Reading {
    let (mut answer, mut next) = ([BEFORE; 9], BEFORE as usize);
    (raw::read(book, at, &mut answer, &mut next), answer, next)
}

fn write(buffer: &mut [u8], at: usize, command: &[u64; 9]) -> Writing {
    let mut next = BEFORE as usize;
    (raw::write(buffer, at, command, &mut next), next)
}

/// Whether an operand is signed: c1 to c4 of a species are.
fn is_signed(byte: u8, operand: usize) -> bool {
    byte == SPECIES && operand >= 4
}

/// A command's byte, its operands, and 0 for each that it does not have. A signed one is spelt in 64 bits.
fn numbers(command: &Command) -> [u64; 9] {
    let mut numbers = [0; 9];
    numbers[0] = command.byte.into();
    for (i, &operand) in command.operands.iter().enumerate() {
        let in_64_bits = || i64::from(signed(operand)) as u64;
        numbers[i + 1] = if is_signed(command.byte, i) { in_64_bits() } else { operand };
    }
    numbers
}

/// The command of nine numbers.
fn command_of([byte, operands @ ..]: &[u64; 9]) -> Result<Command, u64> {
    let byte = u8::try_from(*byte).map_err(|_| UNKNOWN_BYTE)?;
    let widths = book::widths(byte).ok_or(UNKNOWN_BYTE)?;
    let (own, others) = operands.split_at(widths.len());
    if others.iter().any(|&x| x != 0) {
        return Err(OPERAND);
    }
    let spelt = |(i, (&x, &width)): (usize, (&u64, &usize))| match is_signed(byte, i) {
        true => i32::try_from(x as i64).map(four_bytes).map_err(|_| OPERAND),
        false if x < 1 << (8 * width) => Ok(x),
        false => Err(OPERAND),
    };
    let operands = own.iter().zip(widths).enumerate().map(spelt).collect::<Result<_, _>>()?;
    Ok(Command { byte, operands })
}

/// Reads at a place of a book, which is shown as this. A command that is there is written again: into a buffer of other
/// bytes it makes the same ones.
pub fn same_reading(tally: &mut Tally, shown: &impl Debug, book: &[u8], at: usize) {
    let expected = match book::read(book, at) {
        Ok((command, next)) => (0, numbers(&command), next),
        Err(number) => (number as u8, [0; 9], at),
    };
    let reading = read(book, at);
    tally.same((shown, at), reading, expected);
    let (0, command, next) = reading else { return };
    let mut buffer = [BEFORE as u8; 30];
    let mut wanted = buffer;
    let place = at % 9;
    let length = next - at;
    wanted[place..place + length].copy_from_slice(&book[at..next]);
    tally.same((shown, at, "written"), write(&mut buffer, place, &command), (0, place + length));
    tally.same((shown, at, "written"), Hex(&buffer), Hex(&wanted));
}

/// Writes at a place of a buffer of so many bytes, which has others on both sides.
fn same_writing(tally: &mut Tally, length: usize, at: usize, command: &[u64; 9]) {
    let mut bytes: Vec<u8> = (0..length + 2 * MARGIN).map(|i| (7 * i) as u8).collect();
    let mut wanted = bytes.clone();
    let buffer = MARGIN..MARGIN + length;
    let expected = match command_of(command).and_then(|command| command.write(&mut wanted[buffer.clone()], at)) {
        Ok(next) => (0, next),
        Err(number) => (number as u8, at),
    };
    tally.same((command, length, at), write(&mut bytes[buffer], at, command), expected);
    tally.same((command, length, at), Hex(&bytes), Hex(&wanted));
}

pub fn run(report: &mut Report) {
    by_hand(report);
    reading(report);
    writing(report);
    rows(report);
    of_the_crate(report);
}

/// A species with these groups, gravity and constants.
const fn species([crown, root, gravity]: [u8; 3], constants: [i32; 4]) -> Species {
    Species { crown, root, gravity, constants }
}

/// Commands as the crate has them, with operands that all differ or are at an end, and their bytes, worked out by hand.
const BY_HAND: [(&[u8], Told); 11] = [
    (
        b"\x01\x02\x03\x04\x05\x00\x00\x00\x06\xff\xff\xff\xf9\x01\x02\x03\x04\xfe\xfd\xfc\xfc",
        Told::Species(2, species([3, 4, 5], [6, -7, 0x0102_0304, -0x0102_0304])),
    ),
    (
        b"\x01\xff\x00\xff\x00\x7f\xff\xff\xff\x80\x00\x00\x00\xff\xff\xff\xff\x00\x00\x00\x00",
        Told::Species(255, species([0, 255, 0], [i32::MAX, i32::MIN, -1, 0])),
    ),
    (b"\x02\x08\x09", Told::Factor { cm: 8, factor: 9 }),
    (
        b"\x03\x0a\x0b\x0c\x0d\x0e\x0f\xff\xfe\xfd\xfc",
        Told::Open { stratum: 10, species: 11, p: 0x0c0d_0e0f, q: 0xfffe_fdfc },
    ),
    (b"\x04\x10\x11\x12", Told::Measured { class: 16, count: 0x1112 }),
    (b"\x04\xff\xff\xff", Told::Measured { class: 255, count: 65_535 }),
    (b"\x05\x13\x14\x15", Told::Height { cm: 19, tenths: 0x1415 }),
    (b"\x06", Told::Close),
    (b"\x07", Told::End),
    (b"\x08\x16\x17\x18\x19\x1a\x1b\x1c\x1d", Told::Small { carbon: 0x1617_1819, count: 0x1a1b_1c1d }),
    (b"\x08\xff\xff\xff\xff\0\0\0\0", Told::Small { carbon: u32::MAX, count: 0 }),
];

fn by_hand(report: &mut Report) {
    report.check("library, commands of the crate that are worked out by hand", |tally| {
        for (bytes, command) in BY_HAND {
            tally.same(Hex(bytes), fieldbook::read(bytes, 0), Ok((command, bytes.len())));
            let mut buffer = vec![0; bytes.len() + 1];
            tally.same(command, fieldbook::write(&mut buffer, 1, command), Ok(bytes.len() + 1));
            tally.same(command, Hex(&buffer[1..]), Hex(bytes));
            tally.same(command, fieldbook::write(&mut buffer, 2, command), Err(Refusal::NO_ROOM));
            tally.same(command, Hex(&buffer[1..]), Hex(bytes));
        }
    });
}

fn reading(report: &mut Report) {
    let mut random = Random::new(30);
    let kinds = [
        ("every byte with 0 to 21 bytes after it", streams::cut_short(&mut random)),
        ("operands at their ends and beyond", author::at_the_ends()),
        ("books of every kind", books::of_every_kind().into_iter().filter(|book| book.len() <= 2_000).collect()),
        ("bytes by chance", [1, 2, 10].map(|one_in| streams::noise(&mut random, one_in, 20_000)).into()),
    ];
    for (kind, books) in kinds {
        report.check(&format!("library, reading and writing again, {kind}"), |tally| {
            for book in &books {
                for at in (0..=book.len() + 1).chain([usize::MAX - 20, usize::MAX]) {
                    same_reading(tally, &Hex(book), book, at);
                }
            }
        });
    }
}

/// Each command of these tests with its operands at their ends and beyond, as nine numbers.
fn at_the_ends() -> Vec<[u64; 9]> {
    let commands = author::at_the_ends().into_iter().flat_map(|book| book::read_through(&book, 0).0);
    commands.map(|(_, command)| numbers(&command)).collect()
}

/// Numbers just outside what so many bytes can spell, and such as are inside only to one who looks at fewer than 64
/// bits.
fn too_great(width: usize, signed: bool) -> Vec<u64> {
    let bits = 8 * width as u32;
    let (least, most) = if signed { (-1i64 << (bits - 1), (1i64 << (bits - 1)) - 1) } else { (0, (1i64 << bits) - 1) };
    let disguised = [8, 16, 31, 32, 63].into_iter().filter(|&bit| bit >= bits || signed).map(|bit| 5 | 1 << bit);
    disguised.chain([(least - 1) as u64, (most + 1) as u64, u32::MAX.into()]).collect()
}

/// Each command with one number too great for its operand, or where it has no operand.
fn with_a_wrong_number() -> Vec<[u64; 9]> {
    let mut all = Vec::new();
    for byte in 1..=8 {
        let widths = book::widths(byte).expect("a command's byte");
        let least = numbers(&Command { byte, operands: vec![1; widths.len()] });
        for i in 0..8 {
            let wrong = match widths.get(i) {
                Some(&width) => too_great(width, is_signed(byte, i)),
                None => vec![1, 255, 1 << 32, u64::MAX],
            };
            all.extend(wrong.into_iter().map(|x| {
                let mut numbers = least;
                numbers[i + 1] = x;
                numbers
            }));
        }
    }
    all
}

/// Numbers of which the first is no command's byte.
fn of_no_command() -> Vec<[u64; 9]> {
    let disguised = [8, 16, 32, 63].into_iter().flat_map(|bit| (1..=8).map(move |byte| byte | 1 << bit));
    let bytes = [0].into_iter().chain(9..=255).chain(disguised).chain([u64::MAX]);
    bytes.flat_map(|byte| [0, 1, u64::MAX].map(|x| [byte, x, x, x, x, x, x, x, x])).collect()
}

fn writing(report: &mut Report) {
    let kinds = [
        ("operands at their ends and beyond", at_the_ends()),
        ("one number too great, or of no operand", with_a_wrong_number()),
        ("a byte of no command", of_no_command()),
    ];
    for (kind, commands) in kinds {
        report.check(&format!("library, writing, {kind}"), |tally| {
            for command in &commands {
                for length in [0, 1, 2, 3, 4, 8, 9, 10, 11, 12, 20, 21, 22, 30] {
                    for at in (0..=length + 1).chain([usize::MAX - 20, usize::MAX]) {
                        same_writing(tally, length, at, command);
                    }
                }
            }
        });
    }
}

/// Rows that are there, and such as are not; some of these stand where a product in 64 bits would wrap round to 0.
fn rows(report: &mut Report) {
    report.check("library, rows of sheets of every length", |tally| {
        let mut random = Random::new(31);
        let bytes = streams::noise(&mut random, 10, 900);
        let wrapping = (1..ROW as u128).map(|turn| ((turn << 64) / ROW as u128) as usize);
        let far: Vec<usize> = wrapping.flat_map(|i| [i - 1, i, i + 1]).chain([usize::MAX]).collect();
        for length in 0..=bytes.len() {
            for i in (0..=length / ROW + 2).chain(far.iter().copied()) {
                same_row(tally, &bytes[..length], i);
            }
        }
    });
}

fn same_row(tally: &mut Tally, sheet: &[u8], i: usize) {
    let from = i as u128 * ROW as u128;
    let expected = match from + ROW as u128 <= sheet.len() as u128 {
        true => Ok(row_numbers(&sheet[from as usize..][..ROW])),
        false => Err(1),
    };
    let mut answer = [BEFORE; 7];
    let number = raw::sheet_row(sheet, i, &mut answer);
    let wanted = expected.map_or_else(|number| (number, [0; 7]), |row| (0, row));
    tally.same((sheet.len(), i), (number, answer), wanted);
    let told = fieldbook::sheet_row(sheet, i).map(|Row { stratum, species, tariff, d, trees, biomass }| {
        [stratum.into(), species.into(), tariff.into(), d.into(), trees.into(), biomass.low.0, biomass.high.0]
    });
    tally.same((sheet.len(), i), told.map_err(|refusal| refusal.0), expected);
}

/// What the crate makes of the numbers of totalling, and the words that it has for the refusals.
fn of_the_crate(report: &mut Report) {
    report.check("library, totals and refusals of the crate", |tally| {
        for book in books::of_every_kind() {
            let told = match fieldbook::total(&book, &mut [0; LEAST_SHEET]) {
                Ok(Totals { rows, trees, carbon }) => (0, [rows as u64, trees, carbon.low.0, carbon.high.0, 0]),
                Err(Refused { number, at }) => (number.0, [0, 0, 0, 0, at as u64]),
            };
            tally.same(Hex(&book), told, total(&book, &mut [0; LEAST_SHEET]));
        }
        let words: BTreeSet<String> = (1..=17).map(|number| Refusal(number).to_string()).collect();
        tally.same("different words", words.len(), 17);
        tally.holds(!words.contains(&Refusal(0).to_string()), "a refusal without words");
    });
}
