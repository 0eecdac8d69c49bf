//! The proved programs that tests/run builds.
use crate::total::ROW;
use std::fmt::{Debug, Formatter};
use std::io::{ErrorKind, Read, Write};
use std::process::{Child, Command, ExitStatus, Stdio};
use std::sync::mpsc;
use std::time::{Duration, Instant};
use std::{iter, thread};

const FOLDER: &str = concat!(env!("CARGO_MANIFEST_DIR"), "/../target/bin/");

/// How long a program may take. Each takes some milliseconds: one that is not over by then hangs, however slow the
/// machine is.
const LIMIT: Duration = Duration::from_secs(60);

/// What a program prints for an input that comes in these pieces. One that hangs or ends badly breaks off the check.
pub fn output<'a>(name: &str, pieces: impl Iterator<Item = &'a [u8]> + Send) -> Vec<u8> {
    let mut command = Command::new(format!("{FOLDER}{name}"));
    let child = command.stdin(Stdio::piped()).stdout(Stdio::piped()).spawn();
    let mut child = child.unwrap_or_else(|error| panic!("{name}, built by tests/run: {error}"));
    let input = child.stdin.take().expect("its input");
    let output = child.stdout.take().expect("its output");
    let end = Instant::now() + LIMIT;
    let (sender, printed) = mpsc::channel();
    let outcome = thread::scope(|scope| {
        scope.spawn(move || feed(input, pieces));
        scope.spawn(move || sender.send(all_of(output)));
        let outcome = printed.recv_timeout(LIMIT).ok().zip(status_by(end, &mut child));
        if outcome.is_none() {
            // With this its pipes are closed, and those end who feed it and read from it.
            child.kill().and_then(|()| child.wait()).expect("a program that can be killed");
        }
        outcome
    });
    let (printed, status) = outcome.unwrap_or_else(|| panic!("{name} did not end within {} s", LIMIT.as_secs()));
    assert!(status.success(), "{name}: {status}");
    printed
}

fn feed<'a>(mut input: impl Write, pieces: impl Iterator<Item = &'a [u8]>) {
    for piece in pieces {
        match input.write_all(piece) {
            // The program has read as much as it needs, and ended.
            Err(error) if error.kind() == ErrorKind::BrokenPipe => return,
            written => written.expect("input that is read"),
        }
    }
}

fn all_of(mut output: impl Read) -> Vec<u8> {
    let mut all = Vec::new();
    output.read_to_end(&mut all).expect("its output");
    all
}

/// The status of a program that is over by then. It has closed its output, so nothing is left for it to do.
fn status_by(end: Instant, child: &mut Child) -> Option<ExitStatus> {
    loop {
        let status = child.try_wait().expect("its status");
        if status.is_some() || Instant::now() >= end {
            return status;
        }
        thread::sleep(Duration::from_micros(50));
    }
}

/// Where two sheets begin to differ, and a row's length of each from there: nothing where they are the same.
pub fn first_difference<'a>(one: &'a [u8], other: &'a [u8]) -> (usize, [Hex<'a>; 2]) {
    // Nearly all are the same, and to compare them at once is far quicker.
    let at = match one == other {
        true => one.len(),
        false => iter::zip(one, other).take_while(|(byte, other)| byte == other).count(),
    };
    (at, [one, other].map(|sheet| Hex(&sheet[at..sheet.len().min(at + ROW)])))
}

/// Bytes, shown in hexadecimal.
#[derive(PartialEq)]
pub struct Hex<'a>(pub &'a [u8]);

impl Debug for Hex<'_> {
    fn fmt(&self, f: &mut Formatter) -> std::fmt::Result {
        self.0.iter().try_for_each(|byte| write!(f, "{byte:02x}"))
    }
}
