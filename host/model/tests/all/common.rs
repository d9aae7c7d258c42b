//! Helpers: calls made with a guarded buffer, and models by number or file.

use shim_model::answer::Answer;
use shim_model::model::Model;
use shim_model::rule::{Shim, Way};
use shim_model::{builtin, calls, text};

pub const GUARD: u8 = 0xA5;
pub const ROOM: usize = 80_000;

pub fn builtin_model(number: u64) -> Model {
    builtin::builtin(number).expect("a built-in number")
}

pub fn builtin_text(number: u64) -> Vec<u8> {
    text::write(&builtin_model(number))
}

pub fn file_text(name: &str) -> Vec<u8> {
    let path = format!("{}/models/{name}.model", env!("CARGO_MANIFEST_DIR"));
    std::fs::read(path).expect("a model file")
}

pub fn file_model(name: &str) -> Model {
    text::read(&file_text(name)).expect("a legal text")
}

pub fn model_of(text_lines: &str) -> Model {
    text::read(text_lines.as_bytes()).expect("a legal text")
}

pub fn shim<'a>(way: Way, upstream: &'a Model, target: &'a Model) -> Shim<'a> {
    Shim {
        way,
        upstream,
        target,
    }
}

pub fn refused(number: u64, place: u64) -> Answer {
    Answer {
        number,
        place,
        ..Answer::default()
    }
}

pub fn done(written: usize, fences: u64, state: u64) -> Answer {
    Answer {
        written: written as u64,
        fences,
        state,
        ..Answer::default()
    }
}

/// Makes a call with a buffer of `room` guard bytes and gives its answer with
/// what was written. Bytes past those written must stay, and so must all of
/// them where the call is refused.
pub fn called(room: usize, call: impl FnOnce(&mut [u8]) -> Answer) -> (Answer, Vec<u8>) {
    let mut out = vec![GUARD; room];
    let answer = call(&mut out);
    let written = answer.written as usize;
    assert!(answer.number == 0 || written == 0);
    assert!(out[written..].iter().all(|byte| *byte == GUARD));
    out.truncate(written);
    (answer, out)
}

pub fn run(way: u64, upstream: &[u8], target: &[u8], stream: &[u8]) -> (Answer, Vec<u8>) {
    called(ROOM, |out| calls::run(way, upstream, target, stream, out))
}

pub fn generated(way: u64, upstream: &[u8], target: &[u8]) -> (Answer, Vec<u8>) {
    called(ROOM, |out| calls::generate(way, upstream, target, out))
}
