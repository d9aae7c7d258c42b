//! A fuzzer's bytes as calls, one entry for each export, and the first inputs
//! to begin from. A difference from the model ends the program.

use crate::held;
use crate::inputs::{builtin_text, list_input, AT_THE_LIMITS};
use shim_model::answer::Refusal;
use shim_model::machine::{explore, Machine};
use shim_model::rule::{Shim, Way};
use shim_model::{drawing, image, text};
use std::fs;
use std::io::Result;
use std::path::Path;

/// A machine with more situations than this takes the model too long to fuzz with.
const FEW: usize = 300;

/// Takes arguments off the front of the input; where it is used up they are 0 or empty.
struct Arguments<'a>(&'a [u8]);

impl<'a> Arguments<'a> {
    fn take(&mut self, length: usize) -> &'a [u8] {
        let (taken, rest) = self.0.split_at(length.min(self.0.len()));
        self.0 = rest;
        taken
    }

    /// A number below 128 is one byte, any other the eight after a byte from 128 on.
    fn number(&mut self) -> u64 {
        match self.take(1) {
            [small @ 0..=127] => u64::from(*small),
            [] => 0,
            _ => self.word(8),
        }
    }

    fn word(&mut self, length: usize) -> u64 {
        let bytes = self.take(length).iter();
        bytes.fold(0, |word, byte| word << 8 | u64::from(*byte))
    }

    /// Its length in two bytes, then as many bytes as there are.
    fn region(&mut self) -> &'a [u8] {
        let length = self.word(2) as usize;
        self.take(length)
    }

    fn room(&mut self) -> usize {
        self.word(2) as usize
    }

    fn rest(&mut self) -> &'a [u8] {
        self.take(self.0.len())
    }
}

/// Puts arguments together as `Arguments` takes them apart, and keeps the regions by themselves.
#[derive(Default)]
struct Seed {
    bytes: Vec<u8>,
    regions: Vec<Vec<u8>>,
}

impl Seed {
    fn number(mut self, number: u64) -> Seed {
        match number {
            0..=127 => self.bytes.push(number as u8),
            _ => {
                self.bytes.push(255);
                self.bytes.extend(number.to_be_bytes());
            }
        }
        self
    }

    fn room(mut self, room: usize) -> Seed {
        self.bytes.extend((room as u16).to_be_bytes());
        self
    }

    /// A room of three bytes, as the calls have that write more.
    fn large_room(mut self, room: usize) -> Seed {
        self.bytes.push(0);
        self.room(room)
    }

    fn region(self, bytes: &[u8]) -> Seed {
        self.room(bytes.len()).rest(bytes)
    }

    fn rest(mut self, bytes: &[u8]) -> Seed {
        self.bytes.extend(bytes);
        self.regions.push(bytes.to_vec());
        self
    }
}

/// Is the model quick on these two texts?
fn quick(way: u64, upstream: &[u8], target: &[u8]) -> bool {
    let shim = || -> std::result::Result<bool, Refusal> {
        let (upstream, target) = (text::read(upstream)?, text::read(target)?);
        let way = Way::of_number(way).ok_or(Refusal::OutOfRange)?;
        let shim = Shim {
            way,
            upstream: &upstream,
            target: &target,
        };
        Ok(explore(&shim, FEW).is_some())
    };
    shim().unwrap_or(true)
}

/// The bytes that libFuzzer hands over.
///
/// # Safety
/// `data` must point to `size` bytes.
unsafe fn arguments<'a>(data: *const u8, size: usize) -> Arguments<'a> {
    Arguments(if size == 0 {
        &[]
    } else {
        std::slice::from_raw_parts(data, size)
    })
}

macro_rules! entry {
    ($name:ident, $arguments:ident, $body:block) => {
        /// # Safety
        /// `data` must point to `size` bytes.
        #[no_mangle]
        pub unsafe extern "C" fn $name(data: *const u8, size: usize) {
            #[allow(unused_mut)]
            let mut $arguments = arguments(data, size);
            $body
        }
    };
}

entry!(fuzz_builtin, a, {
    held::builtin(a.number(), a.room());
});

entry!(fuzz_model, a, {
    let room = a.room();
    held::model(a.rest(), room);
});

entry!(fuzz_compare, a, {
    let first = a.region();
    held::compare(first, a.rest());
});

entry!(fuzz_run, a, {
    let (way, room) = (a.number(), a.room());
    let (upstream, target) = (a.region(), a.region());
    held::run(way, upstream, target, a.rest(), room);
});

entry!(fuzz_generate, a, {
    let (way, room) = (a.number(), a.room());
    let upstream = a.region();
    let target = a.rest();
    if quick(way, upstream, target) {
        held::generate(way, upstream, target, room);
    }
});

// The checks are renewed where the first number says so: a fuzzer does not find them.
entry!(fuzz_image_read, a, {
    let (renew, room) = (a.number(), a.room());
    let image = checked(renew, a.rest());
    held::image_read(&image, room);
});

entry!(fuzz_image_run, a, {
    let (renew, room, start) = (a.number(), a.room(), a.number());
    let stream = a.region();
    let image = checked(renew, a.rest());
    held::image_run(&image, start, stream, room);
});

entry!(fuzz_list, a, {
    let room = a.word(3) as usize % (1 << 17);
    let input = a.rest();
    let parts: Vec<&[u8]> = input.splitn(3, |byte| *byte == b'd').collect();
    let text_end = |part: &[u8]| [part, b"d\n"].concat();
    let slow = parts.len() == 3 && {
        let upstream = text_end(parts[0]);
        let target = text_end(parts[1].strip_prefix(b"\n").unwrap_or(parts[1]));
        !(0..2).all(|way| quick(way, &upstream, &target))
    };
    if !slow {
        held::list(input, room);
    }
});

entry!(fuzz_draw, a, {
    let (renew, room) = (a.number(), a.word(3) as usize % (1 << 18));
    let image = checked(renew, a.rest());
    held::draw(&image, room);
});

entry!(fuzz_undraw, a, {
    let room = a.room();
    held::undraw(a.rest(), room);
});

fn checked(renew: u64, image_bytes: &[u8]) -> Vec<u8> {
    if renew == 0 {
        image_bytes.to_vec()
    } else {
        crate::inputs::renewed(image_bytes.to_vec())
    }
}

// ---- seeds

const ROOM: usize = 20_000;

/// Two texts, a way and a stream that have something to do; the last machine has
/// accesses that it refuses.
const RUNS: [(u64, u64, u64, &[u8]); 7] = [
    (1, 15, 1, b"ssl0l"),
    (7, 14, 0, b"sl0l1sLS"),
    (1, 13, 0, b"llsls0lL"),
    (0, 9, 1, b"slSLls"),
    (6, 14, 0, b"s0l1sSL0l"),
    (5, 8, 1, b"lslsLS"),
    (1, 5, 1, b"LsSl0L"),
];

fn image_of(upstream: u64, target: u64, way: u64) -> Vec<u8> {
    let read = |number| text::read(&builtin_text(number)).expect("a built-in text");
    let (upstream, target) = (read(upstream), read(target));
    let shim = Shim {
        way: Way::BOTH[way as usize],
        upstream: &upstream,
        target: &target,
    };
    image::write(&Machine::generate(&shim).expect("a machine"))
}

fn write(folder: &str, call: &str, seeds: Vec<Seed>) -> Result<()> {
    let files = Path::new(&format!("{folder}.files")).join(call);
    let folder = Path::new(folder).join(call);
    fs::create_dir_all(&folder)?;
    fs::create_dir_all(&files)?;
    // Seeds that differ in their numbers alone are the same files.
    let mut written: Vec<&[Vec<u8>]> = vec![];
    for (number, seed) in seeds.iter().enumerate() {
        fs::write(folder.join(format!("{number:02}")), &seed.bytes)?;
        if !written.contains(&seed.regions.as_slice()) {
            write_regions(&files, written.len(), &seed.regions)?;
            written.push(&seed.regions);
        }
    }
    Ok(())
}

fn write_regions(files: &Path, number: usize, regions: &[Vec<u8>]) -> Result<()> {
    for (place, region) in regions.iter().enumerate() {
        fs::write(files.join(format!("{number:02}.{place}")), region)?;
    }
    Ok(())
}

/// One folder of first inputs for each export. Beside it, in `FOLDER.files`, each
/// region of an input is a file of its own, for `host/command-seeds`.
pub fn write_seeds(folder: &str) -> Result<()> {
    let new = Seed::default;
    let texts = || (0..16).map(builtin_text);
    let numbers = [0, 1, 7, 15, 16, 256, u64::MAX].into_iter();
    write(
        folder,
        "builtin",
        numbers.map(|n| new().number(n).room(ROOM)).collect(),
    )?;
    let models = texts().chain(AT_THE_LIMITS.map(|(upstream, _)| upstream.to_vec()));
    write(
        folder,
        "model",
        models.map(|t| new().room(ROOM).rest(&t)).collect(),
    )?;
    let both = texts().zip(texts().skip(1));
    write(
        folder,
        "compare",
        both.map(|(a, b)| new().region(&a).rest(&b)).collect(),
    )?;
    let (mut runs, mut machines) = (vec![], vec![]);
    let (mut reads, mut image_runs, mut lists) = (vec![], vec![], vec![]);
    let (mut draws, mut undraws) = (vec![], vec![]);
    for (upstream, target, way, stream) in RUNS {
        let image = image_of(upstream, target, way);
        let (upstream, target) = (builtin_text(upstream), builtin_text(target));
        let begun = || new().number(way).room(ROOM).region(&upstream);
        runs.push(begun().region(&target).rest(stream));
        machines.push(begun().rest(&target));
        for renew in 0..2 {
            let begun = || new().number(renew).room(ROOM);
            reads.push(begun().rest(&image));
            image_runs.push(begun().number(0).region(stream).rest(&image));
            let begun = new().number(renew).large_room(ROOM);
            draws.push(begun.rest(&image));
        }
        let machine = image::read(&image).expect("an image");
        undraws.push(new().room(ROOM).rest(&drawing::write(&machine)));
        let input = list_input(&upstream, &target, Way::BOTH[way as usize], stream);
        lists.push(new().large_room(ROOM).rest(&input));
    }
    write(folder, "run", runs)?;
    write(folder, "generate", machines)?;
    write(folder, "image_read", reads)?;
    write(folder, "image_run", image_runs)?;
    write(folder, "list", lists)?;
    write(folder, "draw", draws)?;
    write(folder, "undraw", undraws)
}
