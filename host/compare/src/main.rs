//! `shim-compare gate` tries everything with fixed seeds. `shim-compare soak
//! MINUTES [SEED]` goes on with seeds of its own, and tells each. `shim-compare
//! record FILE` writes calls to a file for `host/replay.c`, and `shim-compare
//! seeds FOLDER` the fuzzer's first inputs. A difference stops the program, with
//! the call that shows it.

use shim_compare::parts::{Part, DRAWN, WHOLE};
use shim_compare::{fuzz, held};
use shim_model::random::Random;
use std::fs::File;
use std::time::{Duration, Instant, SystemTime, UNIX_EPOCH};

const GATE_SEED: u64 = 1;
const RECORD_ROUNDS: usize = 6;

fn main() {
    let arguments: Vec<String> = std::env::args().skip(1).collect();
    let words: Vec<&str> = arguments.iter().map(String::as_str).collect();
    match words[..] {
        ["gate"] => gate(),
        ["soak", minutes] => soak(number(minutes), new_seed()),
        ["soak", minutes, seed] => soak(number(minutes), number(seed)),
        ["record", file] => record(File::create(file).expect("a file to write to")),
        ["seeds", folder] => fuzz::write_seeds(folder).expect("the seeds are written"),
        _ => {
            eprintln!(
                "usage: shim-compare gate | soak MINUTES [SEED] | record FILE | seeds FOLDER"
            );
            std::process::exit(2);
        }
    }
}

fn number(word: &str) -> u64 {
    word.parse().expect("a number")
}

fn tried(part: &Part, seed: u64, rounds: usize) {
    let (calls, began) = (held::calls_made(), Instant::now());
    let mut random = Random::new(seed);
    for _ in 0..rounds {
        (part.tried)(&mut random);
    }
    let calls = held::calls_made() - calls;
    let seconds = began.elapsed().as_secs_f32();
    println!("{}: {calls} calls agree ({seconds:.1} s)", part.name);
}

fn gate() {
    for part in WHOLE.iter().chain(DRAWN) {
        tried(part, GATE_SEED, part.rounds);
    }
    println!("compare: {} calls agree", held::calls_made());
}

/// What replays on an emulator within seconds: built-ins, limits, and a little of all that is drawn.
fn record(file: File) {
    held::record_to(file);
    for part in &WHOLE[..2] {
        tried(part, GATE_SEED, part.rounds);
    }
    for part in DRAWN {
        tried(part, GATE_SEED, part.rounds.min(RECORD_ROUNDS));
    }
    held::recorded();
}

fn new_seed() -> u64 {
    let since = SystemTime::now().duration_since(UNIX_EPOCH);
    since.map_or(0, |since| since.as_nanos() as u64)
}

/// All parts with one seed, then with the next, until the time is over. A
/// difference is met again by beginning with the seed that was told last.
fn soak(minutes: u64, first_seed: u64) {
    let ends = Instant::now() + Duration::from_secs(60 * minutes);
    let mut seed = first_seed;
    while Instant::now() < ends {
        println!("seed {seed}");
        for part in WHOLE.iter().chain(DRAWN) {
            if Instant::now() < ends {
                tried(part, seed, part.rounds);
            }
        }
        seed = seed.wrapping_add(1);
    }
    println!("soak: {} calls agree", held::calls_made());
}
