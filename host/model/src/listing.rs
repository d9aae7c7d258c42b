//! What `shimlist` prints.

use crate::answer::{within, Refusal};
use crate::limits::{LIST_INPUT_BYTES, STREAM_OPERATIONS};
use crate::machine::{Machine, Step};
use crate::rule::{Shim, Way};
use crate::stream::{alphabet, bytes, fences, Operation};
use crate::text;

/// The four parts of an input of the shape.
struct Parts<'a> {
    upstream: &'a [u8],
    target: &'a [u8],
    way: Way,
    stream: &'a [u8],
}

/// The bytes through the first line that is exactly `end`, and the rest.
fn split_text(input: &[u8]) -> Option<(&[u8], &[u8])> {
    let mut length = 0;
    for line in input.split_inclusive(|byte| *byte == b'\n') {
        length += line.len();
        if line == b"end\n" {
            return Some(input.split_at(length));
        }
    }
    None
}

fn split_way(input: &[u8]) -> Option<(Way, &[u8])> {
    Way::BOTH.into_iter().find_map(|way| {
        let line = format!("way {}\n", way.word());
        input.strip_prefix(line.as_bytes()).map(|rest| (way, rest))
    })
}

fn parts(input: &[u8]) -> Option<Parts<'_>> {
    let (upstream, rest) = split_text(input)?;
    let (target, rest) = split_text(rest)?;
    let (way, rest) = split_way(rest)?;
    let stream = rest.strip_prefix(b"run ")?.strip_suffix(b"\n")?;
    if stream.contains(&b'\n') {
        return None;
    }
    Some(Parts {
        upstream,
        target,
        way,
        stream,
    })
}

fn machine_lines(machine: &Machine) -> String {
    let operations = alphabet(machine.upstream_fences);
    let mut lines = format!("states {}\n", machine.states.len());
    for (state, row) in machine.states.iter().enumerate() {
        for (operation, step) in operations.iter().zip(row) {
            let (fence, next) = match *step {
                Step::Refused => ('!', 0),
                Step::Taken { fence: None, next } => ('-', next),
                Step::Taken {
                    fence: Some(number),
                    next,
                } => (letter(Operation::Fence(number)), next),
            };
            lines += &format!("{state} {} {fence} {next}\n", letter(*operation));
        }
    }
    lines
}

fn letter(operation: Operation) -> char {
    char::from(operation.byte())
}

/// The names and way, the states and a line for each step.
pub fn machine_listing(machine: &Machine) -> String {
    let (upstream, target, way) = (
        &machine.upstream_name,
        &machine.target_name,
        machine.way.word(),
    );
    format!("{upstream} {target} {way}\n{}", machine_lines(machine))
}

/// The listing and the fences that its run inserted.
pub fn listing(input: &[u8]) -> Result<(Vec<u8>, usize), Refusal> {
    within(input, LIST_INPUT_BYTES)?;
    let parts = parts(input).ok_or(Refusal::NotOfTheForm(0))?;
    let upstream = text::read(parts.upstream)?;
    let target = text::read(parts.target)?;
    let shim = Shim {
        way: parts.way,
        upstream: &upstream,
        target: &target,
    };
    within(parts.stream, STREAM_OPERATIONS)?;
    // The stream's refusals go before the machine's.
    let output = shim.run(parts.stream)?;
    let mut listing = machine_listing(&Machine::generate(&shim)?).into_bytes();
    listing.extend(b"out ");
    listing.extend(bytes(&output));
    listing.extend(format!("\nfences {}\n", fences(&output)).bytes());
    Ok((listing, fences(&output)))
}

pub fn refusal_line(refusal: Refusal) -> String {
    format!("refused {} at {}\n", refusal.number(), refusal.place())
}

/// Everything that the program prints for its standard input.
pub fn printed(input: &[u8]) -> Vec<u8> {
    match listing(input) {
        Ok((listing, _)) => listing,
        Err(refusal) => refusal_line(refusal).into_bytes(),
    }
}
