//! Each call made through the border and on the model, with equal arguments
//! and equally filled buffers. The first difference stops the program with the
//! arguments of the call, so that it can be had again.

use crate::border::{self, filled, Back};
use shim_model::answer::Answer;
use shim_model::calls;
use std::fs::File;
use std::io::{BufWriter, Write};
use std::sync::atomic::{AtomicU64, Ordering};
use std::sync::Mutex;

static CALLS: AtomicU64 = AtomicU64::new(0);
static RECORD: Mutex<Option<BufWriter<File>>> = Mutex::new(None);

/// From here on every call that is compared is written to the file, for
/// `host/replay.c` to make again on another processor.
pub fn record_to(file: File) {
    *RECORD.lock().expect("one thread") = Some(BufWriter::new(file));
}

/// Ends the record.
pub fn recorded() {
    if let Some(mut record) = RECORD.lock().expect("one thread").take() {
        record.flush().expect("the record is written");
    }
}

/// Numbers in eight bytes, high byte first; a region's length goes before it.
fn entry(name: &str, numbers: &[u64], regions: &[&[u8]], wanted: &Back) -> Vec<u8> {
    let mut bytes = Vec::new();
    let written = &wanted.out[..wanted.answer[2] as usize];
    let put_region = |bytes: &mut Vec<u8>, region: &[u8]| {
        bytes.extend((region.len() as u64).to_be_bytes());
        bytes.extend(region);
    };
    put_region(&mut bytes, name.as_bytes());
    let room = wanted.out.len() as u64;
    for number in numbers.iter().chain([&room]) {
        bytes.extend(number.to_be_bytes());
    }
    for region in regions {
        put_region(&mut bytes, region);
    }
    for number in wanted.answer.iter().chain(&wanted.further) {
        bytes.extend(number.to_be_bytes());
    }
    put_region(&mut bytes, written);
    bytes
}

/// How many calls have been compared.
pub fn calls_made() -> u64 {
    CALLS.load(Ordering::Relaxed)
}

/// A region as it is shown: text as text, other bytes in hexadecimal.
fn shown(bytes: &[u8]) -> String {
    let plain = |byte: &u8| (b' '..=b'~').contains(byte) || *byte == b'\n';
    match std::str::from_utf8(bytes) {
        Ok(text) if bytes.iter().all(plain) => format!("{} bytes {text:?}", bytes.len()),
        _ => {
            let digits: String = bytes.iter().map(|byte| format!("{byte:02x}")).collect();
            format!("{} bytes, hexadecimal {digits}", bytes.len())
        }
    }
}

/// What the header says of the buffer sizes that are never too small.
const HEADER: &str = include_str!("../../../include/shim.h");

/// The most that a call may write, by its own line in the header.
pub fn most(call: &str) -> u64 {
    let size = match call {
        "builtin" | "model" => "SHIM_TEXT_OUT",
        "run" => "SHIM_RUN_OUT",
        "image_run" => "SHIM_IMAGE_RUN_OUT",
        "generate" | "image_read" | "undraw" => "SHIM_IMAGE_LIMIT",
        "list" => "SHIM_LIST_OUT",
        "draw" => "SHIM_DRAWING_OUT",
        _ => return 0,
    };
    let defined = |line: &str| {
        let mut words = line.strip_prefix("#define ")?.split_whitespace();
        (words.next()? == size).then(|| words.next()?.parse().ok())?
    };
    HEADER.lines().find_map(defined).expect("the header has it")
}

/// Compares, and gives what came back.
fn held(name: &str, numbers: &[u64], regions: &[&[u8]], got: Back, wanted: Back) -> Back {
    CALLS.fetch_add(1, Ordering::Relaxed);
    if got != wanted {
        let mut told = format!("shim_{name} differs from the model\nnumbers {numbers:?}\n");
        for region in regions {
            told += &format!("region {}\n", shown(region));
        }
        for (side, back) in [("library", &got), ("model", &wanted)] {
            let (answer, further) = (&back.answer, &back.further);
            told += &format!("{side}: answer {answer:?}, further {further:?}\n");
            told += &format!("  buffer {}\n", shown(&back.out));
        }
        panic!("{told}");
    }
    let written = got.answer[2];
    assert!(written <= most(name), "shim_{name} wrote {written} bytes");
    if let Some(record) = RECORD.lock().expect("one thread").as_mut() {
        let entry = entry(name, numbers, regions, &wanted);
        record.write_all(&entry).expect("the record is written");
    }
    got
}

/// The model's side of a call with a buffer of `room` bytes.
fn modelled(room: usize, call: impl FnOnce(&mut [u8]) -> (Answer, Vec<u64>)) -> Back {
    let mut out = filled(room);
    let (answer, further) = call(&mut out);
    Back {
        answer: answer.numbers(),
        out,
        further,
    }
}

pub fn builtin(number: u64, room: usize) -> Back {
    let wanted = modelled(room, |out| (calls::builtin(number, out), vec![]));
    held(
        "builtin",
        &[number],
        &[],
        border::builtin(number, room),
        wanted,
    )
}

pub fn model(text: &[u8], room: usize) -> Back {
    let wanted = modelled(room, |out| (calls::model(text, out), vec![]));
    held("model", &[], &[text], border::model(text, room), wanted)
}

pub fn compare(first: &[u8], second: &[u8]) -> Back {
    let wanted = modelled(0, |_| {
        let (answer, relation) = calls::compare(first, second);
        (answer, vec![relation])
    });
    let got = border::compare(first, second);
    held("compare", &[], &[first, second], got, wanted)
}

pub fn run(way: u64, upstream: &[u8], target: &[u8], stream: &[u8], room: usize) -> Back {
    let wanted = modelled(room, |out| {
        (calls::run(way, upstream, target, stream, out), vec![])
    });
    let got = border::run(way, upstream, target, stream, room);
    held("run", &[way], &[upstream, target, stream], got, wanted)
}

pub fn generate(way: u64, upstream: &[u8], target: &[u8], room: usize) -> Back {
    let wanted = modelled(room, |out| {
        (calls::generate(way, upstream, target, out), vec![])
    });
    let got = border::generate(way, upstream, target, room);
    held("generate", &[way], &[upstream, target], got, wanted)
}

pub fn image_read(image: &[u8], room: usize) -> Back {
    let wanted = modelled(room, |out| {
        let (answer, header) = calls::image_read(image, out);
        (answer, header.to_vec())
    });
    held(
        "image_read",
        &[],
        &[image],
        border::image_read(image, room),
        wanted,
    )
}

pub fn image_run(image: &[u8], start: u64, stream: &[u8], room: usize) -> Back {
    let wanted = modelled(room, |out| {
        (calls::image_run(image, start, stream, out), vec![])
    });
    let got = border::image_run(image, start, stream, room);
    held("image_run", &[start], &[image, stream], got, wanted)
}

pub fn list(input: &[u8], room: usize) -> Back {
    let wanted = modelled(room, |out| (calls::list(input, out), vec![]));
    held("list", &[], &[input], border::list(input, room), wanted)
}

pub fn draw(image: &[u8], room: usize) -> Back {
    let wanted = modelled(room, |out| (calls::draw(image, out), vec![]));
    held("draw", &[], &[image], border::draw(image, room), wanted)
}

pub fn undraw(drawing: &[u8], room: usize) -> Back {
    let wanted = modelled(room, |out| (calls::undraw(drawing, out), vec![]));
    let got = border::undraw(drawing, room);
    held("undraw", &[], &[drawing], got, wanted)
}
