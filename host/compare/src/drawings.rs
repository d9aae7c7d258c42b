//! What is tried with drawings.

use crate::border::Back;
use crate::held;
use crate::inputs::*;
use crate::parts::{around, some_image, written};
use shim_model::image::{self, BLOCK};
use shim_model::limits::{DRAWING_BYTES, MODEL_FENCES, NAME_BYTES, STATES};
use shim_model::machine::{Machine, Step};
use shim_model::random::Random;
use shim_model::rule::Way;

/// Larger than any drawing, and than any image.
const DRAWING_ROOM: usize = 140_000;
const IMAGE_ROOM: usize = 8_000;

/// Where an image has its two names.
const NAME_FIELDS: [usize; 2] = [7, 23];

pub fn drawn(image_bytes: &[u8]) -> Back {
    held::draw(image_bytes, DRAWING_ROOM)
}

pub fn undrawn(drawing: &[u8]) -> Back {
    held::undraw(drawing, IMAGE_ROOM)
}

/// An image that reads, drawn and undrawn, with all sizes of buffers; gives the drawing.
pub fn both_ways(random: &mut Random, image_bytes: &[u8]) -> Vec<u8> {
    let drawing = written(&around(random, DRAWING_ROOM, |room| {
        held::draw(image_bytes, room)
    }))
    .to_vec();
    let back = around(random, IMAGE_ROOM, |room| held::undraw(&drawing, room));
    assert_eq!(written(&back), image_bytes, "the image that was drawn");
    drawing
}

/// A machine that no models need have: any access refused, any state unreached.
pub fn handmade(random: &mut Random, states: usize, fences: [usize; 2]) -> Machine {
    let [upstream_fences, target_fences] = fences;
    let mut step = |column| {
        let next = random.below(states);
        match random.below(4) {
            0 if column < 4 => Step::Refused,
            1 | 2 if column < 4 && target_fences > 0 => Step::Taken {
                fence: Some(random.below(target_fences)),
                next,
            },
            _ => Step::Taken { fence: None, next },
        }
    };
    let mut row = |_| (0..4 + upstream_fences).map(&mut step).collect();
    let states = (0..states).map(&mut row).collect();
    Machine {
        way: Way::BOTH[random.below(2)],
        upstream_name: name(random),
        target_name: name(random),
        upstream_fences,
        target_fences,
        states,
    }
}

fn some_handmade(random: &mut Random) -> Machine {
    let most = [3, 12, STATES][random.below(3)];
    let states = 1 + random.below(most);
    let fences = [(); 2].map(|()| random.below(MODEL_FENCES + 1));
    handmade(random, states, fences)
}

/// The longest drawing that there is: every access refused, every fence to a state of three digits.
fn longest() -> Machine {
    let accesses = vec![Step::Refused; 4];
    let fence = Step::Taken {
        fence: None,
        next: STATES - 1,
    };
    Machine {
        way: Way::Sparing,
        upstream_name: "u".repeat(NAME_BYTES),
        target_name: "t".repeat(NAME_BYTES),
        upstream_fences: MODEL_FENCES,
        target_fences: MODEL_FENCES,
        states: vec![[accesses, vec![fence; MODEL_FENCES]].concat(); STATES],
    }
}

// ---- whole

/// Machines and texts at the limits.
pub fn limits(random: &mut Random) {
    const MOST: usize = MODEL_FENCES;
    for (states, fences) in [
        (1, [0, 0]),
        (1, [MOST, 0]),
        (1, [0, MOST]),
        (STATES, [0, 0]),
        (STATES, [MOST, MOST]),
    ] {
        let machine = handmade(random, states, fences);
        both_ways(random, &image::write(&machine));
    }
    let (upstream, target) = AT_THE_LIMITS[2];
    let generated = held::generate(0, upstream, target, IMAGE_ROOM);
    both_ways(random, written(&generated));
    let longest = both_ways(random, &image::write(&longest()));
    assert_eq!(longest.len() as u64, held::most("draw"));
    texts_at_the_limits(&longest);
}

fn texts_at_the_limits(longest: &[u8]) {
    for length in [0, 1, NAME_BYTES, NAME_BYTES + 1] {
        let (name, other) = ("n".repeat(length), "m".to_string());
        undrawn(&with_names(longest, &[name.clone(), other.clone()]));
        undrawn(&with_names(longest, &[other, name]));
    }
    // A node more than there may be, and one less than the edges lead to.
    let line = b"254;\n";
    let at = longest.windows(line.len()).position(|part| part == line);
    let (before, rest) = longest.split_at(at.expect("the last node"));
    undrawn(&[before, line, b"255;\n", &rest[line.len()..]].concat());
    undrawn(&[before, &rest[line.len()..]].concat());
    for length in [DRAWING_BYTES - 1, DRAWING_BYTES, DRAWING_BYTES + 1] {
        undrawn(&vec![b'd'; length]);
        let mut long = longest.to_vec();
        long.resize(length, b'\n');
        undrawn(&long);
        undrawn(&longest.repeat(2)[..length]);
    }
    undrawn(b"");
    drawn(b"");
}

/// Cut, and changed to some other bytes, at every byte; every number another;
/// doubled, as a whole and line by line.
pub fn drawing_at_every_byte(random: &mut Random) {
    let states = 1 + random.below(12);
    let fences = [(); 2].map(|()| random.below(4));
    let machine = handmade(random, states, fences);
    let sound = both_ways(random, &image::write(&machine));
    for at in 0..sound.len() {
        tried_at(random, &sound, at, 6);
    }
    other_numbers(&sound);
    undrawn(&sound.repeat(2));
    let lines: Vec<&[u8]> = sound.split_inclusive(|byte| *byte == b'\n').collect();
    for (at, line) in lines.iter().enumerate() {
        let (before, after) = (lines[..at].concat(), lines[at + 1..].concat());
        undrawn(&[&before, *line, *line, &after].concat());
        undrawn(&[before, after].concat());
    }
}

fn tried_at(random: &mut Random, sound: &[u8], at: usize, times: usize) {
    undrawn(&sound[..at]);
    let own = sound[at];
    let others = (0..times).map(|_| other_byte(random));
    let values: Vec<u8> = others.chain([own ^ 1, own.wrapping_add(1)]).collect();
    for value in values {
        let mut changed = sound.to_vec();
        changed[at] = value;
        undrawn(&changed);
    }
}

/// Each number in turn by one more or less, at the ends of its range, or with another digit.
fn other_numbers(sound: &[u8]) {
    let is_digit = |at: usize| sound.get(at).is_some_and(u8::is_ascii_digit);
    let begins = |at: &usize| is_digit(*at) && (*at == 0 || !is_digit(*at - 1));
    for at in (0..sound.len()).filter(begins) {
        let digits = (at..).take_while(|place| is_digit(*place)).count();
        let own = std::str::from_utf8(&sound[at..at + digits]).expect("digits");
        // A name may have digits that make no such number.
        let near = own.parse().map_or(vec![], |number: u32| {
            vec![number.saturating_add(1), number.saturating_sub(1)]
        });
        let far = [0, 15, 16, 17, 254, 255, 256];
        let shown = far.into_iter().chain(near).map(|number| number.to_string());
        for other in shown.chain([format!("0{own}"), format!("{own}0"), String::new()]) {
            undrawn(&[&sound[..at], other.as_bytes(), &sound[at + digits..]].concat());
        }
    }
}

/// The largest drawings at some of their bytes.
pub fn large_drawings(random: &mut Random) {
    let machine = handmade(random, STATES, [MODEL_FENCES; 2]);
    for machine in [machine, longest()] {
        let sound = both_ways(random, &image::write(&machine));
        for _ in 0..60 {
            let at = random.below(sound.len());
            tried_at(random, &sound, at, 1);
        }
        undrawn(&sound.repeat(2));
    }
}

// ---- drawn

/// Images of all kinds both ways, and with other names in the drawing.
pub fn random_drawings(random: &mut Random) {
    let image_bytes = match random.below(3) {
        0 => some_image(random),
        _ => image::write(&some_handmade(random)),
    };
    let drawing = both_ways(random, &image_bytes);
    let names = [name(random), name(random)];
    let back = undrawn(&with_names(&drawing, &names));
    let renamed = image_with_names(&image_bytes, &names);
    assert_eq!(written(&back), renamed, "nothing but the names is new");
}

/// The names are the label's first two words.
fn with_names(drawing: &[u8], names: &[String; 2]) -> Vec<u8> {
    let text = std::str::from_utf8(drawing).expect("a drawing is ASCII");
    let (before, label) = text.split_once('"').expect("a label");
    let rest = label.splitn(3, ' ').nth(2).expect("two names");
    format!("{before}\"{} {} {rest}", names[0], names[1]).into_bytes()
}

fn image_with_names(image_bytes: &[u8], names: &[String; 2]) -> Vec<u8> {
    let mut renamed = image_bytes.to_vec();
    for (at, name) in NAME_FIELDS.into_iter().zip(names) {
        renamed[at..at + NAME_BYTES].fill(0);
        renamed[at..at + name.len()].copy_from_slice(name.as_bytes());
    }
    image::renew_check(&mut renamed[..BLOCK]);
    renamed
}

pub fn damaged_drawings(random: &mut Random) {
    let states = 1 + random.below(8);
    let fences = [(); 2].map(|()| random.below(MODEL_FENCES + 1));
    let machine = handmade(random, states, fences);
    let sound = written(&drawn(&image::write(&machine))).to_vec();
    for _ in 0..20 {
        let broken = damaged(random, &sound);
        around(random, IMAGE_ROOM, |room| held::undraw(&broken, room));
    }
}
