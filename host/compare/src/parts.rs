//! What is tried. Each part draws from a generator, so a seed tells it all.

use crate::border::Back;
use crate::drawings;
use crate::held;
use crate::inputs::*;
use shim_model::image::BLOCK;
use shim_model::limits::{
    IMAGE_BYTES, LIST_INPUT_BYTES, MODEL_FENCES, STREAM_OPERATIONS, TEXT_BYTES,
};
use shim_model::model::Model;
use shim_model::placing::{fewest, keeps};
use shim_model::random::Random;
use shim_model::rule::Way;
use shim_model::stream::{alphabet, bytes, operations, Operation};
use shim_model::text;

/// Larger than anything that a call writes, drawings aside.
const ROOM: usize = 70_000;

const WAYS: [u64; 2] = [0, 1];
const NO_WAYS: [u64; 5] = [2, 255, 256, 1 << 32, u64::MAX];

pub struct Part {
    pub name: &'static str,
    pub tried: fn(&mut Random),
    /// How often the gate tries it.
    pub rounds: usize,
}

/// All that depends on no draw, or covers every byte: once is enough.
pub const WHOLE: &[Part] = &[
    part("built-in texts and comparisons", built_ins, 1),
    part("the limits", limits, 1),
    part("every built-in pair, both ways", every_pair, 1),
    part("short streams, all of them", short_streams, 1),
    part("a text at every byte", text_at_every_byte, 3),
    part("an image at every byte", image_at_every_byte, 3),
    part("a list's input at every byte", list_at_every_byte, 2),
    part(
        "a drawing at every byte",
        drawings::drawing_at_every_byte,
        3,
    ),
    part("the largest drawings", drawings::large_drawings, 1),
];

/// All that is drawn.
pub const DRAWN: &[Part] = &[
    part("random models", random_models, 400),
    part("long streams", long_streams, 12),
    part("fewest fences", fewest_fences, 400),
    part("damaged texts", damaged_texts, 1_500),
    part("damaged images", damaged_images, 600),
    part("damaged streams and lists", damaged_streams, 400),
    part("random drawings", drawings::random_drawings, 100),
    part("damaged drawings", drawings::damaged_drawings, 300),
    part("noise", noise_everywhere, 400),
];

const fn part(name: &'static str, tried: fn(&mut Random), rounds: usize) -> Part {
    Part {
        name,
        tried,
        rounds,
    }
}

fn done(back: &Back) -> bool {
    back.answer[0] == 0
}

pub fn written(back: &Back) -> &[u8] {
    &back.out[..back.answer[2] as usize]
}

/// Makes a call with plenty of room, then with rooms around what it wrote.
pub fn around(random: &mut Random, plenty: usize, call: impl Fn(usize) -> Back) -> Back {
    let back = call(plenty);
    if done(&back) {
        for room in rooms(random, back.answer[2]) {
            call(room);
        }
    }
    back
}

// ---- whole

fn built_ins(random: &mut Random) {
    for number in (0..40).chain([255, 256, 257, 1 << 32, u64::MAX]) {
        around(random, ROOM, |room| held::builtin(number, room));
    }
    for first in 0..16 {
        for second in 0..16 {
            held::compare(&builtin_text(first), &builtin_text(second));
        }
    }
}

fn limits(random: &mut Random) {
    for (upstream, target) in AT_THE_LIMITS {
        for way in WAYS {
            around(random, ROOM, |room| {
                held::generate(way, upstream, target, room)
            });
            for stream in [&b"ll"[..], b"x"] {
                let word = Way::BOTH[way as usize];
                let input = list_input(upstream, target, word, stream);
                around(random, ROOM, |room| held::list(&input, room));
            }
        }
    }
    texts_at_the_limits(random);
    lengths_at_the_limits(random);
    numbers_out_of_range();
    drawings::limits(random);
}

fn texts_at_the_limits(random: &mut Random) {
    let mut text_bytes = Vec::new();
    for fences in [MODEL_FENCES, MODEL_FENCES + 1] {
        let mut full = model(random, fences);
        full.name = "n".repeat(16);
        for (number, fence) in full.fences.iter_mut().enumerate() {
            fence.name = format!("fence_number__{number:02}");
        }
        text_bytes = text::write(&full);
        around(random, ROOM, |room| held::model(&text_bytes, room));
        held::compare(&text_bytes, &builtin_text(0));
    }
    for length in [TEXT_BYTES - 1, TEXT_BYTES, TEXT_BYTES + 1, 2 * TEXT_BYTES] {
        text_bytes.resize(length, b'f');
        held::model(&text_bytes, ROOM);
        held::compare(&builtin_text(0), &text_bytes);
        held::run(0, &text_bytes, &builtin_text(1), b"l", ROOM);
        held::generate(0, &builtin_text(1), &text_bytes, ROOM);
    }
}

fn lengths_at_the_limits(random: &mut Random) {
    let (upstream, target) = (builtin_text(0), builtin_text(15));
    let image = written(&held::generate(1, &upstream, &target, ROOM)).to_vec();
    for length in [
        STREAM_OPERATIONS - 1,
        STREAM_OPERATIONS,
        STREAM_OPERATIONS + 1,
    ] {
        // Every access but the first gets a fence: the longest output there is.
        let stream = vec![b'l'; length];
        around(random, ROOM, |room| {
            held::run(1, &upstream, &target, &stream, room)
        });
        for start in [0, 1] {
            around(random, ROOM, |room| {
                held::image_run(&image, start, &stream, room)
            });
        }
        let input = list_input(&upstream, &target, Way::Full, &stream);
        around(random, ROOM, |room| held::list(&input, room));
        let unread = vec![b'x'; length];
        held::run(1, &upstream, &target, &unread, ROOM);
        held::image_run(&image, 0, &unread, ROOM);
    }
    for length in [
        0,
        1,
        BLOCK - 1,
        BLOCK,
        BLOCK + 1,
        IMAGE_BYTES,
        IMAGE_BYTES + 1,
    ] {
        let mut resized = image.clone();
        resized.resize(length, 0);
        for bytes in [resized.clone(), renewed(resized)] {
            held::image_read(&bytes, ROOM);
            held::image_run(&bytes, 0, b"l", ROOM);
        }
    }
    for length in [
        0,
        LIST_INPUT_BYTES - 1,
        LIST_INPUT_BYTES,
        LIST_INPUT_BYTES + 1,
    ] {
        let stream = vec![b'l'; length.saturating_sub(1_000)];
        let mut input = list_input(&upstream, &target, Way::Full, &stream);
        input.resize(length, b'\n');
        held::list(&input, ROOM);
        held::list(&vec![b'\n'; length], ROOM);
    }
}

fn numbers_out_of_range() {
    let (upstream, target) = (builtin_text(1), builtin_text(15));
    for way in NO_WAYS {
        for texts in [[&upstream[..], &target], [b"", b""]] {
            held::run(way, texts[0], texts[1], b"sl", ROOM);
            held::generate(way, texts[0], texts[1], ROOM);
        }
    }
    let image = written(&held::generate(0, &upstream, &target, ROOM)).to_vec();
    for start in (0..300).chain([1 << 16, 1 << 32, (1 << 32) + 1, u64::MAX]) {
        held::image_run(&image, start, b"sl", ROOM);
        held::image_run(&image, start, &[b'x'; 4097], ROOM);
    }
}

/// A machine with all that is done with it: made, read back, drawn and undrawn,
/// run from every state, listed, and held against the direct run.
fn machine(random: &mut Random, way: u64, upstream: &[u8], target: &[u8], stream: &[u8]) {
    let generated = around(random, ROOM, |room| {
        held::generate(way, upstream, target, room)
    });
    let input = list_input(upstream, target, Way::BOTH[way as usize], stream);
    around(random, ROOM, |room| held::list(&input, room));
    if !done(&generated) {
        return;
    }
    let image = written(&generated);
    let read = around(random, ROOM, |room| held::image_read(image, room));
    assert_eq!(written(&read), image, "an image is written back as it was");
    drawings::both_ways(random, image);
    for start in 0..=read.further[1] {
        let length = random.below(12);
        let part = self::stream_for(random, upstream, length);
        held::image_run(image, start, &part, ROOM);
    }
    let by_rule = held::run(way, upstream, target, stream, ROOM);
    let by_machine = around(random, ROOM, |room| held::image_run(image, 0, stream, room));
    // Number, place, written and fences are the rule's; so is the buffer.
    assert_eq!(by_rule.answer[..4], by_machine.answer[..4]);
    assert_eq!(by_rule.out, by_machine.out);
}

fn stream_for(random: &mut Random, upstream: &[u8], length: usize) -> Vec<u8> {
    stream(random, upstream_fences(upstream), length)
}

fn every_pair(random: &mut Random) {
    for upstream in (0..16).map(builtin_text) {
        for target in (0..16).map(builtin_text) {
            for way in WAYS {
                for length in [0, 1, 2, 7, 40] {
                    let stream = stream_for(random, &upstream, length);
                    around(random, ROOM, |room| {
                        held::run(way, &upstream, &target, &stream, room)
                    });
                }
                let stream = stream_for(random, &upstream, 60);
                machine(random, way, &upstream, &target, &stream);
            }
        }
    }
}

/// All streams of up to four operations on some pairs; the full way against every placing.
fn short_streams(_: &mut Random) {
    for (upstream, target) in [(1, 15), (7, 14), (1, 13), (0, 9), (6, 14)] {
        let (upstream, target) = (builtin_model(upstream), builtin_model(target));
        let letters = alphabet(upstream.fences.len());
        let mut streams: Vec<Vec<Operation>> = vec![vec![]];
        for length in 0..4 {
            let longer = |stream: &Vec<Operation>| {
                let stream = stream.clone();
                letters
                    .iter()
                    .map(move |letter| [&stream[..], &[*letter]].concat())
            };
            let longest: Vec<_> = streams
                .iter()
                .filter(|stream| stream.len() == length)
                .flat_map(longer)
                .collect();
            streams.extend(longest);
        }
        for stream in streams {
            outputs_keep_pairs(&upstream, &target, &stream, 1);
        }
    }
}

/// Demands 2 and 3 on the library's own outputs: every pair kept both ways, and
/// no placing with fewer fences than the full way's.
fn outputs_keep_pairs(upstream: &Model, target: &Model, stream: &[Operation], most_in_gap: usize) {
    let texts = [text::write(upstream), text::write(target)];
    for way in WAYS {
        let back = held::run(way, &texts[0], &texts[1], &bytes(stream), ROOM);
        if !done(&back) {
            continue;
        }
        let output = operations(written(&back)).expect("operations come out");
        assert!(keeps(upstream, target, stream, &output), "a pair is short");
        if way == 1 {
            let least = fewest(upstream, target, stream, most_in_gap);
            assert_eq!(
                least,
                Some(back.answer[3] as usize),
                "fewer fences would do"
            );
        }
    }
}

/// Cut, and changed to some other bytes, at every byte.
fn text_at_every_byte(random: &mut Random) {
    let fences = [1, 4, MODEL_FENCES][random.below(3)];
    let sound = text::write(&model(random, fences));
    let other = builtin_text(random.below(16) as u64);
    for at in 0..sound.len() {
        let mut tried = vec![sound[..at].to_vec()];
        for _ in 0..6 {
            let mut changed = sound.clone();
            changed[at] = other_byte(random);
            tried.push(changed);
        }
        for text_bytes in tried {
            held::model(&text_bytes, ROOM);
            match random.below(4) {
                0 => held::compare(&text_bytes, &other),
                1 => held::compare(&other, &text_bytes),
                2 => held::run(0, &text_bytes, &other, b"ls", ROOM),
                _ => held::run(1, &other, &text_bytes, b"ls", ROOM),
            };
        }
    }
}

/// A generated image of some size.
pub fn some_image(random: &mut Random) -> Vec<u8> {
    loop {
        let way = random.below(2) as u64;
        let (upstream, target) = match random.below(8) {
            0 => (AT_THE_LIMITS[2].0.to_vec(), AT_THE_LIMITS[2].1.to_vec()),
            _ => (some_text(random), some_text(random)),
        };
        let back = held::generate(way, &upstream, &target, ROOM);
        if done(&back) {
            return written(&back).to_vec();
        }
    }
}

fn image_at_every_byte(random: &mut Random) {
    let sound = some_image(random);
    for at in 0..sound.len() {
        held::image_read(&sound[..at], ROOM);
        let own = sound[at];
        for value in [
            own ^ 1,
            own.wrapping_add(1),
            0,
            0xFD,
            0xFE,
            0xFF,
            random.byte(),
        ] {
            let mut changed = sound.clone();
            changed[at] = value;
            for image in [renewed(changed.clone()), changed] {
                held::image_read(&image, ROOM);
                let start = random.below(4) as u64;
                held::image_run(&image, start, b"lsLS0l", ROOM);
                if random.below(16) == 0 {
                    drawings::drawn(&image);
                }
            }
        }
    }
}

fn list_at_every_byte(random: &mut Random) {
    let (upstream, target) = (some_text(random), some_text(random));
    let stream = stream_for(random, &upstream, 12);
    let way = Way::BOTH[random.below(2)];
    let sound = list_input(&upstream, &target, way, &stream);
    for at in 0..sound.len() {
        held::list(&sound[..at], ROOM);
        for _ in 0..3 {
            let mut changed = sound.clone();
            changed[at] = other_byte(random);
            held::list(&changed, ROOM);
        }
    }
}

// ---- drawn

fn random_models(random: &mut Random) {
    let (upstream, target) = (model_text(random), model_text(random));
    around(random, ROOM, |room| held::model(&upstream, room));
    held::compare(&upstream, &target);
    for way in WAYS {
        let length = random.below(60);
        let stream = stream_for(random, &upstream, length);
        around(random, ROOM, |room| {
            held::run(way, &upstream, &target, &stream, room)
        });
        machine(random, way, &upstream, &target, &stream);
    }
}

fn long_streams(random: &mut Random) {
    let (upstream, target) = (some_text(random), some_text(random));
    let length = match random.below(3) {
        0 => STREAM_OPERATIONS - 1 + random.below(3),
        _ => random.below(STREAM_OPERATIONS),
    };
    let stream = stream_for(random, &upstream, length);
    for way in WAYS {
        around(random, ROOM, |room| {
            held::run(way, &upstream, &target, &stream, room)
        });
        let generated = held::generate(way, &upstream, &target, ROOM);
        if done(&generated) {
            let image = written(&generated);
            around(random, ROOM, |room| {
                held::image_run(image, 0, &stream, room)
            });
        }
    }
}

fn fewest_fences(random: &mut Random) {
    let upstream_count = random.below(4);
    let upstream = model(random, upstream_count);
    // With more fences to a gap or more accesses the search takes too long.
    let (fences, most_in_gap, length) = [(2, 2, 4), (3, 1, 6)][random.below(2)];
    let target = model(random, fences);
    let length = random.below(length + 1);
    let stream = random.stream(upstream.fences.len(), length);
    outputs_keep_pairs(&upstream, &target, &stream, most_in_gap);
}

fn damaged_texts(random: &mut Random) {
    let (sound, other) = (some_text(random), some_text(random));
    let broken = match random.below(3) {
        0 => repeating_text(random),
        _ => damaged(random, &sound),
    };
    around(random, ROOM, |room| held::model(&broken, room));
    held::compare(&broken, &other);
    held::compare(&other, &broken);
    let way = random.below(3) as u64;
    held::run(way, &broken, &other, b"lsl", ROOM);
    held::run(way, &other, &broken, b"xsl", ROOM);
    if random.below(8) == 0 {
        held::generate(way, &broken, &other, ROOM);
        held::generate(way, &other, &broken, ROOM);
    }
}

fn damaged_images(random: &mut Random) {
    let sound = some_image(random);
    for _ in 0..20 {
        let mut broken = damaged(random, &sound);
        if random.below(2) == 0 {
            broken = renewed(broken);
        }
        around(random, ROOM, |room| held::image_read(&broken, room));
        drawings::drawn(&broken);
        let (start, length) = (random.below(260) as u64, random.below(30));
        let stream = stream(random, MODEL_FENCES, length);
        held::image_run(&broken, start, &stream, ROOM);
    }
}

fn damaged_streams(random: &mut Random) {
    let (upstream, target) = (some_text(random), some_text(random));
    let length = random.below(40);
    let sound = stream_for(random, &upstream, length);
    let broken = damaged(random, &sound);
    for way in WAYS {
        around(random, ROOM, |room| {
            held::run(way, &upstream, &target, &broken, room)
        });
        let image = held::generate(way, &upstream, &target, ROOM);
        if done(&image) {
            held::image_run(written(&image), 0, &broken, ROOM);
        }
        let input = list_input(&upstream, &target, Way::BOTH[way as usize], &sound);
        let input = damaged(random, &input);
        held::list(&input, ROOM);
    }
}

/// Any bytes of any length to any call.
fn noise_everywhere(random: &mut Random) {
    let mut drawn = || {
        let most = [1, 4, 100, 1_100, 5_000][random.below(5)];
        let length = random.below(most + 1);
        noise(random, length)
    };
    let (a, b, c) = (drawn(), drawn(), drawn());
    let room = [0, 1, 600, ROOM][random.below(4)];
    held::model(&a, room);
    held::compare(&a, &b);
    held::run(random.below(3) as u64, &a, &b, &c, room);
    held::generate(random.below(3) as u64, &a, &b, room);
    held::image_read(&a, room);
    held::image_run(&a, random.number(), &b, room);
    held::list(&a, room);
    held::draw(&a, room);
    held::undraw(&a, room);
    let (upstream, target) = (builtin_text(1), builtin_text(15));
    held::run(random.below(2) as u64, &upstream, &target, &c, room);
}
