//! The calls of `include/shim.h`, and buffers with guards for what they write.
//! Nothing checks these declarations against the archive but the comparison.

use std::ptr;

mod c {
    extern "C" {
        pub fn shim_builtin(number: u64, out: *mut u8, out_length: usize, answer: *mut u64) -> u64;
        pub fn shim_model(
            text: *const u8,
            text_length: usize,
            out: *mut u8,
            out_length: usize,
            answer: *mut u64,
        ) -> u64;
        pub fn shim_compare(
            first: *const u8,
            first_length: usize,
            second: *const u8,
            second_length: usize,
            relation: *mut u64,
            answer: *mut u64,
        ) -> u64;
        pub fn shim_run(
            way: u64,
            upstream: *const u8,
            upstream_length: usize,
            target: *const u8,
            target_length: usize,
            stream: *const u8,
            stream_length: usize,
            out: *mut u8,
            out_length: usize,
            answer: *mut u64,
        ) -> u64;
        pub fn shim_generate(
            way: u64,
            upstream: *const u8,
            upstream_length: usize,
            target: *const u8,
            target_length: usize,
            out: *mut u8,
            out_length: usize,
            answer: *mut u64,
        ) -> u64;
        pub fn shim_image_read(
            image: *const u8,
            image_length: usize,
            out: *mut u8,
            out_length: usize,
            header: *mut u64,
            answer: *mut u64,
        ) -> u64;
        pub fn shim_image_run(
            image: *const u8,
            image_length: usize,
            start: u64,
            stream: *const u8,
            stream_length: usize,
            out: *mut u8,
            out_length: usize,
            answer: *mut u64,
        ) -> u64;
        pub fn shim_list(
            input: *const u8,
            input_length: usize,
            out: *mut u8,
            out_length: usize,
            answer: *mut u64,
        ) -> u64;
        pub fn shim_draw(
            image: *const u8,
            image_length: usize,
            out: *mut u8,
            out_length: usize,
            answer: *mut u64,
        ) -> u64;
        pub fn shim_undraw(
            drawing: *const u8,
            drawing_length: usize,
            out: *mut u8,
            out_length: usize,
            answer: *mut u64,
        ) -> u64;
    }
}

const GUARD: usize = 64;
const GUARD_WORD: u64 = 0xA5A5_5A5A_C3C3_3C3C;

/// A byte that depends on its place, so that bytes that moved are noticed.
pub fn fill(place: usize) -> u8 {
    (place.wrapping_mul(167) ^ (place >> 8) ^ 0x5A) as u8
}

/// What a buffer of so many bytes holds before a call.
pub fn filled(room: usize) -> Vec<u8> {
    (0..room).map(fill).collect()
}

/// A buffer that stands between guard bytes.
struct Buffer {
    bytes: Vec<u8>,
    room: usize,
}

impl Buffer {
    fn new(room: usize) -> Buffer {
        let mut bytes = vec![0xA5; GUARD];
        bytes.extend(filled(room));
        bytes.resize(bytes.len() + GUARD, 0xA5);
        Buffer { bytes, room }
    }

    /// Null where the buffer is empty, which the border allows.
    fn pointer(&mut self) -> *mut u8 {
        if self.room == 0 {
            ptr::null_mut()
        } else {
            self.bytes[GUARD..].as_mut_ptr()
        }
    }

    fn taken(self) -> Vec<u8> {
        let guard = [0xA5; GUARD];
        let (before, rest) = self.bytes.split_at(GUARD);
        let (bytes, after) = rest.split_at(self.room);
        assert!(
            before == guard && after == guard,
            "bytes around the buffer were written"
        );
        bytes.to_vec()
    }
}

/// Numbers that a call sets, between guard words, filled with what no call sets.
struct Numbers<const N: usize> {
    words: Vec<u64>,
}

impl<const N: usize> Numbers<N> {
    fn new() -> Numbers<N> {
        Numbers {
            words: vec![GUARD_WORD; N + 2],
        }
    }

    fn pointer(&mut self) -> *mut u64 {
        self.words[1..].as_mut_ptr()
    }

    fn taken(self) -> [u64; N] {
        assert!(
            self.words[0] == GUARD_WORD && self.words[N + 1] == GUARD_WORD,
            "words around the numbers were written"
        );
        self.words[1..=N].try_into().expect("N words")
    }
}

/// A region of its own, without room to spare, so that a tool that watches
/// memory sees a read past its end. Null where it is empty.
struct Region(Box<[u8]>);

impl Region {
    fn new(bytes: &[u8]) -> Region {
        Region(bytes.into())
    }

    fn pointer(&self) -> *const u8 {
        if self.0.is_empty() {
            ptr::null()
        } else {
            self.0.as_ptr()
        }
    }

    /// Input stays as it was.
    fn unchanged(&self, bytes: &[u8]) {
        assert!(*self.0 == *bytes, "an input region was written");
    }
}

/// What came back: the five numbers, the whole buffer, and further numbers.
#[derive(Debug, PartialEq, Eq)]
pub struct Back {
    pub answer: [u64; 5],
    pub out: Vec<u8>,
    pub further: Vec<u64>,
}

/// Makes a call with its regions copied out, a buffer of `room` bytes and N
/// further numbers, and sees to all that holds for every call.
fn call<const N: usize>(
    regions: &[&[u8]],
    room: usize,
    made: impl FnOnce(&[*const u8], *mut u8, *mut u64, *mut u64) -> u64,
) -> Back {
    let copies: Vec<Region> = regions.iter().map(|bytes| Region::new(bytes)).collect();
    let pointers: Vec<*const u8> = copies.iter().map(Region::pointer).collect();
    let mut out = Buffer::new(room);
    let mut further = Numbers::<N>::new();
    let mut answer = Numbers::<5>::new();
    let returned = made(
        &pointers,
        out.pointer(),
        further.pointer(),
        answer.pointer(),
    );
    for (copy, bytes) in copies.iter().zip(regions) {
        copy.unchanged(bytes);
    }
    let answer = answer.taken();
    assert_eq!(
        returned, answer[0],
        "the number returned is the answer's first"
    );
    Back {
        answer,
        out: out.taken(),
        further: further.taken().to_vec(),
    }
}

// Each call below hands over pointers to whole regions that do not overlap,
// with their lengths, which is all that the header asks.

pub fn builtin(number: u64, room: usize) -> Back {
    call::<0>(&[], room, |_, out, _, answer| unsafe {
        c::shim_builtin(number, out, room, answer)
    })
}

pub fn model(text: &[u8], room: usize) -> Back {
    call::<0>(&[text], room, |p, out, _, answer| unsafe {
        c::shim_model(p[0], text.len(), out, room, answer)
    })
}

/// Further: the relation.
pub fn compare(first: &[u8], second: &[u8]) -> Back {
    call::<1>(&[first, second], 0, |p, _, relation, answer| unsafe {
        c::shim_compare(p[0], first.len(), p[1], second.len(), relation, answer)
    })
}

pub fn run(way: u64, upstream: &[u8], target: &[u8], stream: &[u8], room: usize) -> Back {
    let lengths = [upstream.len(), target.len(), stream.len()];
    call::<0>(
        &[upstream, target, stream],
        room,
        |p, out, _, answer| unsafe {
            c::shim_run(
                way, p[0], lengths[0], p[1], lengths[1], p[2], lengths[2], out, room, answer,
            )
        },
    )
}

pub fn generate(way: u64, upstream: &[u8], target: &[u8], room: usize) -> Back {
    call::<0>(&[upstream, target], room, |p, out, _, answer| unsafe {
        c::shim_generate(
            way,
            p[0],
            upstream.len(),
            p[1],
            target.len(),
            out,
            room,
            answer,
        )
    })
}

/// Further: way, states, upstream fences, target fences.
pub fn image_read(image: &[u8], room: usize) -> Back {
    call::<4>(&[image], room, |p, out, header, answer| unsafe {
        c::shim_image_read(p[0], image.len(), out, room, header, answer)
    })
}

pub fn image_run(image: &[u8], start: u64, stream: &[u8], room: usize) -> Back {
    call::<0>(&[image, stream], room, |p, out, _, answer| unsafe {
        c::shim_image_run(
            p[0],
            image.len(),
            start,
            p[1],
            stream.len(),
            out,
            room,
            answer,
        )
    })
}

pub fn list(input: &[u8], room: usize) -> Back {
    call::<0>(&[input], room, |p, out, _, answer| unsafe {
        c::shim_list(p[0], input.len(), out, room, answer)
    })
}

pub fn draw(image: &[u8], room: usize) -> Back {
    call::<0>(&[image], room, |p, out, _, answer| unsafe {
        c::shim_draw(p[0], image.len(), out, room, answer)
    })
}

pub fn undraw(drawing: &[u8], room: usize) -> Back {
    call::<0>(&[drawing], room, |p, out, _, answer| unsafe {
        c::shim_undraw(p[0], drawing.len(), out, room, answer)
    })
}
