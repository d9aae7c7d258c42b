//! The host's calls, with their buffers and answers, in the order of arguments
//! of the C border. Each is a chain of stages in document 01's order; a
//! refusal leaves every buffer as it was.

use crate::answer::{deliver, within, Answer, Refusal};
use crate::limits::STREAM_OPERATIONS;
use crate::machine::Machine;
use crate::rule::{Shim, Way};
use crate::stream::{bytes, fences};
use crate::{builtin as builtins, compare as relations, drawing, image, listing, text};

type Outcome = Result<Answer, Refusal>;

fn answer(outcome: Outcome) -> Answer {
    outcome.unwrap_or_else(Answer::from)
}

fn way_of(number: u64) -> Result<Way, Refusal> {
    Way::of_number(number).ok_or(Refusal::OutOfRange)
}

pub fn builtin(number: u64, out: &mut [u8]) -> Answer {
    let model = builtins::builtin(number).ok_or(Refusal::OutOfRange);
    answer(model.and_then(|model| deliver(&text::write(&model), out)))
}

/// Reads a text and writes it back.
pub fn model(text_bytes: &[u8], out: &mut [u8]) -> Answer {
    answer(text::read(text_bytes).and_then(|model| deliver(&text::write(&model), out)))
}

/// The answer, and the relation's number, 0 when refused.
pub fn compare(first: &[u8], second: &[u8]) -> (Answer, u64) {
    let stages = || -> Result<u64, Refusal> {
        let first = text::read(first)?;
        let second = text::read(second)?;
        Ok(relations::compare(&first, &second) as u64)
    };
    match stages() {
        Ok(relation) => (Answer::default(), relation),
        Err(refusal) => (Answer::from(refusal), 0),
    }
}

pub fn run(way: u64, upstream: &[u8], target: &[u8], stream: &[u8], out: &mut [u8]) -> Answer {
    let mut stages = || -> Outcome {
        let way = way_of(way)?;
        let upstream = text::read(upstream)?;
        let target = text::read(target)?;
        within(stream, STREAM_OPERATIONS)?;
        let output = Shim {
            way,
            upstream: &upstream,
            target: &target,
        }
        .run(stream)?;
        let delivered = deliver(&bytes(&output), out)?;
        Ok(Answer {
            fences: fences(&output) as u64,
            ..delivered
        })
    };
    answer(stages())
}

pub fn generate(way: u64, upstream: &[u8], target: &[u8], out: &mut [u8]) -> Answer {
    let mut stages = || -> Outcome {
        let way = way_of(way)?;
        let upstream = text::read(upstream)?;
        let target = text::read(target)?;
        let machine = Machine::generate(&Shim {
            way,
            upstream: &upstream,
            target: &target,
        })?;
        deliver(&image::write(&machine), out)
    };
    answer(stages())
}

/// The answer, and way, states, upstream fences and target fences, 0 when refused.
pub fn image_read(image_bytes: &[u8], out: &mut [u8]) -> (Answer, [u64; 4]) {
    let mut stages = || -> Result<(Answer, [u64; 4]), Refusal> {
        let machine = image::read(image_bytes)?;
        let delivered = deliver(&image::write(&machine), out)?;
        let counts = [
            machine.states.len(),
            machine.upstream_fences,
            machine.target_fences,
        ];
        let [states, upstream_fences, target_fences] = counts.map(|count| count as u64);
        Ok((
            delivered,
            [
                u64::from(machine.way.number()),
                states,
                upstream_fences,
                target_fences,
            ],
        ))
    };
    stages().unwrap_or_else(|refusal| (Answer::from(refusal), [0; 4]))
}

pub fn image_run(image_bytes: &[u8], start: u64, stream: &[u8], out: &mut [u8]) -> Answer {
    let mut stages = || -> Outcome {
        let machine = image::read(image_bytes)?;
        if start >= machine.states.len() as u64 {
            return Err(Refusal::OutOfRange);
        }
        within(stream, STREAM_OPERATIONS)?;
        let (output, state) = machine.run(start as usize, stream)?;
        let delivered = deliver(&bytes(&output), out)?;
        Ok(Answer {
            fences: fences(&output) as u64,
            state: state as u64,
            ..delivered
        })
    };
    answer(stages())
}

/// The listing's bytes; the fences are those of its direct run.
pub fn list(input: &[u8], out: &mut [u8]) -> Answer {
    let mut stages = || -> Outcome {
        let (listing, fences) = listing::listing(input)?;
        Ok(Answer {
            fences: fences as u64,
            ..deliver(&listing, out)?
        })
    };
    answer(stages())
}

/// An image's drawing.
pub fn draw(image_bytes: &[u8], out: &mut [u8]) -> Answer {
    answer(image::read(image_bytes).and_then(|machine| deliver(&drawing::write(&machine), out)))
}

/// A drawing's image.
pub fn undraw(drawing_bytes: &[u8], out: &mut [u8]) -> Answer {
    answer(drawing::read(drawing_bytes).and_then(|machine| deliver(&image::write(&machine), out)))
}
