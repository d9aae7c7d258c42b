//! Good, random and damaged input.

use shim_model::image::{self, BLOCK};
use shim_model::limits::MODEL_FENCES;
use shim_model::model::Model;
use shim_model::random::Random;
use shim_model::rule::Way;
use shim_model::stream::bytes;
use shim_model::{builtin, text};

const NAME_BYTES: &[u8] = b"abcdefghijklmnopqrstuvwxyzABCDEFGHIJKLMNOPQRSTUVWXYZ0123456789_";

/// Bytes that mean something somewhere, and some that mean nothing anywhere.
pub const TELLING: &[u8] = b" \n-NMSLlsSmpfewr_=>;\"[]{}!0189AFGaz.*\r\t\0\x7f\x80\xfd\xfe\xff";

/// Pairs of models at the limits, upstream and target.
pub const AT_THE_LIMITS: [(&[u8], &[u8]); 5] = [
    (
        include_bytes!("../../model/models/a4096.model"),
        include_bytes!("../../model/models/full.model"),
    ),
    (
        include_bytes!("../../model/models/a4097.model"),
        include_bytes!("../../model/models/part.model"),
    ),
    (
        include_bytes!("../../model/models/st255-up.model"),
        include_bytes!("../../model/models/st-target.model"),
    ),
    (
        include_bytes!("../../model/models/st256-up.model"),
        include_bytes!("../../model/models/st-target.model"),
    ),
    (
        include_bytes!("../../model/models/both-up.model"),
        include_bytes!("../../model/models/both-target.model"),
    ),
];

pub fn builtin_model(number: u64) -> Model {
    builtin::builtin(number).expect("a built-in number")
}

pub fn builtin_text(number: u64) -> Vec<u8> {
    text::write(&builtin_model(number))
}

pub fn name(random: &mut Random) -> String {
    let length = 1 + random.below(16);
    let byte = |_| char::from(NAME_BYTES[random.below(NAME_BYTES.len())]);
    (0..length).map(byte).collect()
}

/// A model with so many fences, whose names hardly ever repeat.
pub fn model(random: &mut Random, fences: usize) -> Model {
    let (ppo_one_in, fence_one_in) = (1 + random.below(4), 1 + random.below(6));
    let mut model = random.model(fences, ppo_one_in, fence_one_in);
    model.name = name(random);
    for fence in &mut model.fences {
        fence.name = name(random);
    }
    model
}

/// A text, mostly with few fences, so that most machines stay small.
pub fn model_text(random: &mut Random) -> Vec<u8> {
    let most = [3, 5, 17][random.below(3)];
    let fences = random.below(most);
    text::write(&model(random, fences))
}

/// A text in which up to three fences have the names of others.
pub fn repeating_text(random: &mut Random) -> Vec<u8> {
    let fences = 2 + random.below(MODEL_FENCES - 1);
    let mut model = model(random, fences);
    for _ in 0..=random.below(3) {
        let (from, to) = (random.below(fences), random.below(fences));
        model.fences[to].name = model.fences[from].name.clone();
    }
    text::write(&model)
}

/// A built-in text or a random one.
pub fn some_text(random: &mut Random) -> Vec<u8> {
    match random.below(3) {
        0 => builtin_text(random.below(16) as u64),
        _ => model_text(random),
    }
}

pub fn upstream_fences(text_bytes: &[u8]) -> usize {
    text::read(text_bytes).map_or(0, |model| model.fences.len())
}

/// A stream of operations that the upstream model has.
pub fn stream(random: &mut Random, fences: usize, length: usize) -> Vec<u8> {
    bytes(&random.stream(fences, length))
}

pub fn noise(random: &mut Random, length: usize) -> Vec<u8> {
    (0..length).map(|_| random.byte()).collect()
}

/// A byte that means something, or any byte.
pub fn other_byte(random: &mut Random) -> u8 {
    match random.below(4) {
        0 => random.byte(),
        _ => TELLING[random.below(TELLING.len())],
    }
}

/// One to three faults: a byte changed, left out or put in, the end cut off, or a part repeated.
pub fn damaged(random: &mut Random, sound: &[u8]) -> Vec<u8> {
    let mut bytes = sound.to_vec();
    for _ in 0..=random.below(3) {
        let at = random.below(bytes.len() + 1);
        match random.below(5) {
            0 if at < bytes.len() => bytes[at] = other_byte(random),
            1 if at < bytes.len() => {
                bytes.remove(at);
            }
            2 => bytes.insert(at, other_byte(random)),
            3 => bytes.truncate(at),
            _ => {
                let part = bytes[at..].to_vec();
                bytes.extend(part);
            }
        }
    }
    bytes
}

/// Every block that is whole gets its check anew.
pub fn renewed(mut image_bytes: Vec<u8>) -> Vec<u8> {
    for block in image_bytes.chunks_exact_mut(BLOCK) {
        image::renew_check(block);
    }
    image_bytes
}

/// What `shimlist` reads.
pub fn list_input(upstream: &[u8], target: &[u8], way: Way, stream: &[u8]) -> Vec<u8> {
    let way_line = format!("way {}\nrun ", way.word());
    [upstream, target, way_line.as_bytes(), stream, b"\n"].concat()
}

/// Rooms around what is needed: nought, too small by one, exact, larger.
pub fn rooms(random: &mut Random, needed: u64) -> Vec<usize> {
    let needed = needed as usize;
    let mut rooms = vec![0, needed, needed + 1, needed + random.below(300)];
    rooms.extend(needed.checked_sub(1));
    rooms.push(random.below(needed + 1));
    rooms
}
