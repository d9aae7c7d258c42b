//! The machine image, form 1: writing, and reading with refusals 1, 10 and 11.

use crate::answer::{within, Refusal};
use crate::limits::{IMAGE_BYTES, MODEL_FENCES, NAME_BYTES, STATES};
use crate::machine::{Machine, Row, Step};
use crate::model::is_name_byte;
use crate::rule::Way;

pub const BLOCK: usize = 512;
const CONTENTS: std::ops::Range<usize> = 2..506;
const CHECK: usize = 510;

const FORM_AT: usize = 2;
const WAY_AT: usize = 3;
const STATES_AT: usize = 4;
const UPSTREAM_FENCES_AT: usize = 5;
const TARGET_FENCES_AT: usize = 6;
const UPSTREAM_NAME_AT: usize = 7;
const TARGET_NAME_AT: usize = 23;
const HEADER_END: usize = 39;

const FORM: u8 = 1;
const NO_FENCE: u8 = 0xFF;
const REFUSED: u8 = 0xFE;

const ACCESSES: usize = 4;
const STATE_BYTES: usize = 24;
const STATES_IN_BLOCK: usize = 21;

/// RFC 1071. A ones' complement sum of words is their sum modulo 65,535, with
/// FFFF and not 0000 for a sum that is a multiple of it, unless all words are 0.
pub fn check(bytes: &[u8]) -> u16 {
    let words = bytes
        .chunks(2)
        .map(|word| u64::from(word[0]) * 256 + u64::from(*word.get(1).unwrap_or(&0)));
    let sum: u64 = words.sum();
    let folded = if sum == 0 { 0 } else { (sum - 1) % 0xFFFF + 1 };
    0xFFFF - folded as u16
}

/// Sets a block's check anew.
pub fn renew_check(block: &mut [u8]) {
    let renewed = check(&block[..CHECK]);
    block[CHECK..].copy_from_slice(&renewed.to_be_bytes());
}

fn blocks_for(states: usize) -> usize {
    1 + states.div_ceil(STATES_IN_BLOCK)
}

// ---- writing

fn header(machine: &Machine) -> Vec<u8> {
    let mut bytes = vec![FORM, machine.way.number(), machine.states.len() as u8];
    bytes.extend([machine.upstream_fences as u8, machine.target_fences as u8]);
    for name in [&machine.upstream_name, &machine.target_name] {
        bytes.extend(name.bytes());
        bytes.resize(bytes.len() + NAME_BYTES - name.len(), 0);
    }
    bytes
}

fn state_bytes(row: &Row) -> Vec<u8> {
    let mut bytes = Vec::new();
    for (column, step) in row.iter().enumerate() {
        let (fence, next) = match *step {
            Step::Refused => (REFUSED, 0),
            Step::Taken { fence: None, next } => (NO_FENCE, next as u8),
            Step::Taken {
                fence: Some(number),
                next,
            } => (number as u8, next as u8),
        };
        if column < ACCESSES {
            bytes.push(fence);
        }
        bytes.push(next);
    }
    bytes.resize(STATE_BYTES, 0);
    bytes
}

fn block(number: usize, contents: &[u8]) -> Vec<u8> {
    let mut bytes = (number as u16).to_be_bytes().to_vec();
    bytes.extend(contents);
    bytes.resize(BLOCK, 0);
    renew_check(&mut bytes);
    bytes
}

pub fn write(machine: &Machine) -> Vec<u8> {
    let states: Vec<Vec<u8>> = machine.states.iter().map(state_bytes).collect();
    let later = states.chunks(STATES_IN_BLOCK).map(|part| part.concat());
    let contents = std::iter::once(header(machine)).chain(later);
    contents
        .enumerate()
        .flat_map(|(number, part)| block(number, &part))
        .collect()
}

// ---- reading

pub fn read(image: &[u8]) -> Result<Machine, Refusal> {
    within(image, IMAGE_BYTES)?;
    if let Some(place) = bad_block(image) {
        return Err(Refusal::BadBlock(place));
    }
    match (0..image.len()).find(|at| is_barred(image, *at)) {
        Some(place) => Err(Refusal::BarredByte(place)),
        None => Ok(machine_of(image)),
    }
}

/// The lowest block that is broken off or has a wrong number or check; 0 for no bytes.
fn bad_block(image: &[u8]) -> Option<usize> {
    if image.is_empty() {
        return Some(0);
    }
    let is_bad = |(position, block): (usize, &[u8])| {
        block.len() < BLOCK
            || block[..2] != (position as u16).to_be_bytes()
            || block[CHECK..] != check(&block[..CHECK]).to_be_bytes()
    };
    image.chunks(BLOCK).enumerate().position(is_bad)
}

/// Does the byte hold a value that the layout bars? The ranges of later bytes
/// hang on bytes 4, 5 and 6; where one of those is barred itself it is the
/// lower, and what is said of the later ones does not matter.
fn is_barred(image: &[u8], at: usize) -> bool {
    let in_block = at % BLOCK;
    if !(CONTENTS.start..CHECK).contains(&in_block) {
        return false; // the block's number and its check: refusal 10
    }
    if in_block >= CONTENTS.end {
        return image[at] != 0;
    }
    if at < BLOCK {
        is_barred_in_header(image, at)
    } else {
        let place = in_block - CONTENTS.start;
        let state = (at / BLOCK - 1) * STATES_IN_BLOCK + place / STATE_BYTES;
        is_barred_in_state(image, at, state, place % STATE_BYTES)
    }
}

fn is_barred_in_header(image: &[u8], at: usize) -> bool {
    let value = image[at] as usize;
    match at {
        FORM_AT => value != FORM as usize,
        WAY_AT => value > 1,
        STATES_AT => !(1..=STATES).contains(&value) || image.len() != blocks_for(value) * BLOCK,
        UPSTREAM_FENCES_AT | TARGET_FENCES_AT => value > MODEL_FENCES,
        UPSTREAM_NAME_AT..TARGET_NAME_AT => is_barred_in_name(&image[UPSTREAM_NAME_AT..=at]),
        TARGET_NAME_AT..HEADER_END => is_barred_in_name(&image[TARGET_NAME_AT..=at]),
        _ => value != 0,
    }
}

/// Of a name field up to and with the byte that is asked about.
fn is_barred_in_name(field: &[u8]) -> bool {
    let (last, before) = field.split_last().expect("the byte asked about");
    match last {
        0 => before.is_empty(),
        byte => !is_name_byte(*byte) || before.contains(&0),
    }
}

fn is_barred_in_state(image: &[u8], at: usize, state: usize, in_state: usize) -> bool {
    let value = image[at];
    let states = image[STATES_AT];
    if state >= states as usize {
        return value != 0;
    }
    let is_fence_byte = in_state < 2 * ACCESSES && in_state.is_multiple_of(2);
    if is_fence_byte {
        return value >= image[TARGET_FENCES_AT] && value != NO_FENCE && value != REFUSED;
    }
    let has_entry = if in_state < 2 * ACCESSES {
        image[at - 1] != REFUSED
    } else {
        in_state - 2 * ACCESSES < image[UPSTREAM_FENCES_AT] as usize
    };
    if has_entry {
        value >= states
    } else {
        value != 0
    }
}

fn machine_of(image: &[u8]) -> Machine {
    let upstream_fences = image[UPSTREAM_FENCES_AT] as usize;
    let contents: Vec<u8> = image[BLOCK..]
        .chunks(BLOCK)
        .flat_map(|block| &block[CONTENTS])
        .copied()
        .collect();
    let states = contents.chunks(STATE_BYTES).take(image[STATES_AT] as usize);
    Machine {
        way: Way::of_number(u64::from(image[WAY_AT])).expect("a way that is not barred"),
        upstream_name: name_in(&image[UPSTREAM_NAME_AT..TARGET_NAME_AT]),
        target_name: name_in(&image[TARGET_NAME_AT..HEADER_END]),
        upstream_fences,
        target_fences: image[TARGET_FENCES_AT] as usize,
        states: states.map(|bytes| row_of(bytes, upstream_fences)).collect(),
    }
}

fn name_in(field: &[u8]) -> String {
    field
        .iter()
        .take_while(|byte| **byte != 0)
        .map(|byte| char::from(*byte))
        .collect()
}

fn row_of(bytes: &[u8], upstream_fences: usize) -> Row {
    let (entries, nexts) = bytes.split_at(2 * ACCESSES);
    let access = |entry: &[u8]| match entry[0] {
        REFUSED => Step::Refused,
        NO_FENCE => Step::Taken {
            fence: None,
            next: entry[1] as usize,
        },
        number => Step::Taken {
            fence: Some(number as usize),
            next: entry[1] as usize,
        },
    };
    let fence = |next: &u8| Step::Taken {
        fence: None,
        next: *next as usize,
    };
    entries
        .chunks(2)
        .map(access)
        .chain(nexts[..upstream_fences].iter().map(fence))
        .collect()
}
