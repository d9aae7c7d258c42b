//! The model at the command line, to derive expected outputs by.

use shim_model::answer::Refusal;
use shim_model::listing::{machine_listing, printed, refusal_line};
use shim_model::machine::{classes, explore, merged, Explored, Machine};
use shim_model::model::Model;
use shim_model::rule::{Shim, Way};
use shim_model::situation::Situation;
use shim_model::stream::{bytes, fences, operations, Operation};
use shim_model::{builtin, calls, drawing, form, image, limits, placing, text};
use std::io::{Read, Write};

const USAGE: &str = "\
usage: shim-model COMMAND
  builtin N                        the text of a built-in model
  model < TEXT                     the text read and written back
  compare FIRST SECOND             equal, first stronger, second stronger or neither
  run WAY UP TARGET STREAM         output, bytes written, fences
  situation WAY UP TARGET STREAM   need and low after the stream
  situations WAY UP TARGET         every reachable situation with its first arrival
  machine WAY UP TARGET            situations, states, rows, first arrivals
  image WAY UP TARGET [raw]        the image in hexadecimal, or its bytes
  image-read < IMAGE               way, states, fences of both sides
  image-run START STREAM < IMAGE   output, bytes written, fences, end state
  draw < IMAGE                     the image's drawing
  undraw < DRAWING                 the drawing's image, its bytes
  follow model < TEXT              how much of it begins some text of the form, and
  follow drawing < TEXT              the bytes that may follow there, in hexadecimal
  fewest UP TARGET STREAM MOST     least fences over all placings, at most MOST in a gap
  list < INPUT                     what shimlist prints
WAY is sparing, full or a number. UP, TARGET, FIRST and SECOND are each the
number of a built-in model or a file with a text. STREAM is the stream itself,
or @FILE. A refusal prints `refused N at K`.
";

/// `machine` counts on past the limit, to tell by how much a pair of models is over it.
const COUNTED_SITUATIONS: usize = 1 << 16;

enum Stop {
    Refused(Refusal),
    Usage(String),
}

impl From<Refusal> for Stop {
    fn from(refusal: Refusal) -> Stop {
        Stop::Refused(refusal)
    }
}

type Printed = Result<Vec<u8>, Stop>;

fn main() {
    let arguments: Vec<String> = std::env::args().skip(1).collect();
    let words: Vec<&str> = arguments.iter().map(String::as_str).collect();
    let shown = match answer(&words) {
        Ok(shown) => shown,
        Err(Stop::Refused(refusal)) => refusal_line(refusal).into_bytes(),
        Err(Stop::Usage(why)) => {
            eprint!("{why}\n{USAGE}");
            std::process::exit(2);
        }
    };
    // A reader that closes the pipe early is no fault of ours.
    let _ = std::io::stdout().write_all(&shown);
}

fn answer(words: &[&str]) -> Printed {
    match words {
        ["builtin", number] => Ok(text::write(&builtin_model(number_of(number)?)?)),
        ["model"] => Ok(text::write(&text::read(&input()?)?)),
        ["compare", first, second] => compare(first, second),
        ["run", way, up, target, stream] => with_shim([way, up, target], |shim| run(shim, stream)),
        ["situation", way, up, target, stream] => {
            with_shim([way, up, target], |shim| situation(shim, stream))
        }
        ["situations", way, up, target] => with_shim([way, up, target], situations),
        ["machine", way, up, target] => with_shim([way, up, target], machine),
        ["image", way, up, target] => {
            with_shim([way, up, target], |shim| Ok(hexadecimal(&image_of(shim)?)))
        }
        ["image", way, up, target, "raw"] => {
            with_shim([way, up, target], |shim| Ok(image_of(shim)?))
        }
        ["image-read"] => image_read(&input()?),
        ["image-run", start, stream] => {
            image_run(&input()?, number_of(start)?, &stream_of(stream)?)
        }
        ["draw"] => Ok(drawing::write(&image::read(&input()?)?)),
        ["undraw"] => Ok(image::write(&drawing::read(&input()?)?)),
        ["follow", "model"] => Ok(follow(&input()?, form::fault)),
        ["follow", "drawing"] => Ok(follow(&input()?, drawing_fault)),
        ["fewest", up, target, stream, most] => {
            fewest([up, target], stream, number_of(most)? as usize)
        }
        ["list"] => Ok(printed(&input()?)),
        _ => Err(Stop::Usage("no such command".to_string())),
    }
}

// ---- arguments

fn number_of(word: &str) -> Result<u64, Stop> {
    word.parse()
        .map_err(|_| Stop::Usage(format!("not a number: {word}")))
}

fn input() -> Result<Vec<u8>, Stop> {
    let mut bytes = Vec::new();
    match std::io::stdin().read_to_end(&mut bytes) {
        Ok(_) => Ok(bytes),
        Err(fault) => Err(Stop::Usage(fault.to_string())),
    }
}

fn file(path: &str) -> Result<Vec<u8>, Stop> {
    std::fs::read(path).map_err(|fault| Stop::Usage(format!("{path}: {fault}")))
}

fn builtin_model(number: u64) -> Result<Model, Refusal> {
    builtin::builtin(number).ok_or(Refusal::OutOfRange)
}

fn model_of(word: &str) -> Result<Model, Stop> {
    match word.parse() {
        Ok(number) => Ok(builtin_model(number)?),
        Err(_) => Ok(text::read(&file(word)?)?),
    }
}

fn way_of(word: &str) -> Result<Way, Stop> {
    match Way::BOTH.into_iter().find(|way| way.word() == word) {
        Some(way) => Ok(way),
        None => Ok(Way::of_number(number_of(word)?).ok_or(Refusal::OutOfRange)?),
    }
}

fn stream_of(word: &str) -> Result<Vec<u8>, Stop> {
    match word.strip_prefix('@') {
        Some(path) => file(path),
        None => Ok(word.as_bytes().to_vec()),
    }
}

fn with_shim(words: [&str; 3], then: impl FnOnce(&Shim) -> Printed) -> Printed {
    let way = way_of(words[0])?;
    let upstream = model_of(words[1])?;
    let target = model_of(words[2])?;
    then(&Shim {
        way,
        upstream: &upstream,
        target: &target,
    })
}

// ---- commands

fn compare(first: &str, second: &str) -> Printed {
    let (first, second) = (model_of(first)?, model_of(second)?);
    let (_, number) = calls::compare(&text::write(&first), &text::write(&second));
    let words = ["equal", "first stronger", "second stronger", "neither"];
    Ok(format!("{number} {}\n", words[number as usize]).into_bytes())
}

fn output_lines(output: &[Operation]) -> String {
    let shown = String::from_utf8(bytes(output)).expect("operations are ASCII");
    format!(
        "out {shown}\nwritten {}\nfences {}\n",
        output.len(),
        fences(output)
    )
}

/// The stream's length is judged here, for the rule itself has no limit.
fn run_of(shim: &Shim, stream: &str) -> Result<(Vec<Operation>, Vec<Operation>), Stop> {
    let stream = stream_of(stream)?;
    if stream.len() > limits::STREAM_OPERATIONS {
        return Err(Refusal::TooLong.into());
    }
    let output = shim.run(&stream)?;
    Ok((operations(&stream).expect("an accepted stream"), output))
}

fn run(shim: &Shim, stream: &str) -> Printed {
    Ok(output_lines(&run_of(shim, stream)?.1).into_bytes())
}

fn situation_lines(situation: &Situation) -> String {
    format!(
        "need {}\nlow  {}\n",
        situation.need.written(),
        situation.low.written()
    )
}

fn situation(shim: &Shim, stream: &str) -> Printed {
    let (input, output) = run_of(shim, stream)?;
    Ok(situation_lines(&Situation::after(shim, &input, &output)).into_bytes())
}

fn word_of(stream: &[Operation]) -> String {
    if stream.is_empty() {
        "empty".to_string()
    } else {
        String::from_utf8(bytes(stream)).expect("operations are ASCII")
    }
}

fn situations(shim: &Shim) -> Printed {
    let explored = explore(shim, limits::SITUATIONS).ok_or(Refusal::TooManySituations)?;
    let mut lines = String::new();
    for (number, arrival) in explored.arrivals.iter().enumerate() {
        let stream = word_of(&arrival.input);
        lines += &format!("{number} {stream}\n{}", situation_lines(&arrival.situation));
    }
    Ok(lines.into_bytes())
}

fn machine(shim: &Shim) -> Printed {
    let Some(explored) = explore(shim, COUNTED_SITUATIONS) else {
        let refusal = refusal_line(Refusal::TooManySituations);
        return Ok(format!("situations over {COUNTED_SITUATIONS}\n{refusal}").into_bytes());
    };
    let classes = classes(&explored.rows);
    let states = merged(&explored.rows, &classes).len();
    let told = match Machine::generate(shim) {
        Err(refusal) => format!("states {states}\n{}", refusal_line(refusal)),
        Ok(machine) => machine_listing(&machine) + &first_arrivals(&explored, &classes, states),
    };
    Ok(format!("situations {}\n{told}", explored.arrivals.len()).into_bytes())
}

fn first_arrivals(explored: &Explored, classes: &[usize], states: usize) -> String {
    let first = |state: usize| {
        classes
            .iter()
            .position(|class| *class == state)
            .expect("a member")
    };
    let line = |state: usize| {
        format!(
            "arrival {state} {}\n",
            word_of(&explored.arrivals[first(state)].input)
        )
    };
    (0..states).map(line).collect()
}

fn image_of(shim: &Shim) -> Result<Vec<u8>, Refusal> {
    Ok(image::write(&Machine::generate(shim)?))
}

fn hexadecimal(bytes: &[u8]) -> Vec<u8> {
    let line = |part: &[u8]| {
        part.iter()
            .map(|byte| format!("{byte:02x}"))
            .collect::<String>()
            + "\n"
    };
    bytes.chunks(32).map(line).collect::<String>().into_bytes()
}

fn image_read(image_bytes: &[u8]) -> Printed {
    let machine = image::read(image_bytes)?;
    let (way, states) = (machine.way.word(), machine.states.len());
    let (upstream, target) = (machine.upstream_fences, machine.target_fences);
    Ok(
        format!("way {way}\nstates {states}\nupstream fences {upstream}\ntarget fences {target}\n")
            .into_bytes(),
    )
}

fn image_run(image_bytes: &[u8], start: u64, stream: &[u8]) -> Printed {
    let machine = image::read(image_bytes)?;
    if start >= machine.states.len() as u64 {
        return Err(Refusal::OutOfRange.into());
    }
    if stream.len() > limits::STREAM_OPERATIONS {
        return Err(Refusal::TooLong.into());
    }
    let (output, state) = machine.run(start as usize, stream)?;
    Ok(format!("{}state {state}\n", output_lines(&output)).into_bytes())
}

/// A text over the limit has no place of its own, and is not asked about.
fn drawing_fault(text_bytes: &[u8]) -> Option<usize> {
    let refusal = drawing::read(text_bytes).err()?;
    Some(refusal.place() as usize)
}

/// Every byte is tried behind the longest beginning that begins a text of the form.
fn follow(text_bytes: &[u8], fault: fn(&[u8]) -> Option<usize>) -> Vec<u8> {
    let place = fault(text_bytes).unwrap_or(text_bytes.len());
    let goes_on = |byte: &u8| {
        let tried = [&text_bytes[..place], &[*byte]].concat();
        fault(&tried).unwrap_or(tried.len()) > place
    };
    let bytes = (0..=255).filter(goes_on);
    let shown: String = bytes.map(|byte| format!(" {byte:02x}")).collect();
    format!("{place}{shown}\n").into_bytes()
}

fn fewest(words: [&str; 2], stream: &str, most: usize) -> Printed {
    let (upstream, target) = (model_of(words[0])?, model_of(words[1])?);
    let shim = Shim {
        way: Way::Full,
        upstream: &upstream,
        target: &target,
    };
    let (input, output) = run_of(&shim, stream)?;
    let least = placing::fewest(&upstream, &target, &input, most);
    let shown = least.map_or("no placing".to_string(), |least| least.to_string());
    Ok(format!("fewest {shown}\nfull way {}\n", fences(&output)).into_bytes())
}
