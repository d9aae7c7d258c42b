//! Drawings. Places are worked out on paper from the drawing below.

use crate::common::*;
use shim_model::answer::Answer;
use shim_model::machine::{Machine, Step};
use shim_model::model::is_name_byte;
use shim_model::random::Random;
use shim_model::rule::Way;
use shim_model::{calls, drawing, image};

/// Larger than any drawing.
const PLENTY: usize = 150_000;

/// The label's line begins at 15, its names at 22 and 26, the way at 30, the
/// counts at 35 and 37; the node lines at 41, 44 and 47. The edges have 22 bytes
/// each from 50 on, with the next state 5, the letter 15 and the mark 17 bytes
/// in; the brace is at 380.
const TSO_ON_ARM: &str = r#"digraph shim {
label="TSO ARM full 1 1";
0;
1;
2;
0 -> 1 [label="l -"];
0 -> 1 [label="L -"];
0 -> 2 [label="s -"];
0 -> 1 [label="S -"];
0 -> 0 [label="0 -"];
1 -> 1 [label="l 0"];
1 -> 1 [label="L 0"];
1 -> 2 [label="s 0"];
1 -> 1 [label="S 0"];
1 -> 1 [label="0 -"];
2 -> 1 [label="l -"];
2 -> 1 [label="L 0"];
2 -> 2 [label="s 0"];
2 -> 1 [label="S 0"];
2 -> 1 [label="0 -"];
}
"#;

/// One state, no fences, no access taken.
const ALL_REFUSED: &str = r#"digraph shim {
label="A B sparing 0 0";
0;
0 -> refused [label="l !"];
0 -> refused [label="L !"];
0 -> refused [label="s !"];
0 -> refused [label="S !"];
}
"#;

fn draw(image: &[u8]) -> (Answer, Vec<u8>) {
    called(PLENTY, |out| calls::draw(image, out))
}

fn undraw(drawing: &[u8]) -> (Answer, Vec<u8>) {
    called(PLENTY, |out| calls::undraw(drawing, out))
}

fn answer_to(drawing: &str) -> Answer {
    undraw(drawing.as_bytes()).0
}

/// The drawing of TSO on ARM with the first `old` exchanged.
fn with(old: &str, new: &str) -> String {
    assert!(TSO_ON_ARM.contains(old));
    TSO_ON_ARM.replacen(old, new, 1)
}

fn tso_on_arm() -> Vec<u8> {
    generated(1, &builtin_text(1), &builtin_text(15)).1
}

/// Both ways round: the image's drawing, and that drawing's image.
fn holds_both_ways(image: &[u8]) -> Vec<u8> {
    let (answer, drawing) = draw(image);
    assert_eq!(answer, done(drawing.len(), 0, 0));
    assert_eq!(undraw(&drawing), (done(image.len(), 0, 0), image.to_vec()));
    drawing
}

// ---- whole drawings

#[test]
fn the_drawing_of_tso_on_arm() {
    let drawing = holds_both_ways(&tso_on_arm());
    assert_eq!(String::from_utf8(drawing).expect("ASCII"), TSO_ON_ARM);
    assert_eq!(TSO_ON_ARM.len(), 382);
}

#[test]
fn a_drawing_in_which_every_access_is_refused() {
    let (answer, image) = undraw(ALL_REFUSED.as_bytes());
    assert_eq!(answer, done(1_024, 0, 0));
    assert_eq!(image[2..7], [1, 0, 1, 0, 0]);
    assert_eq!(
        image[512 + 2..][..9],
        [0xFE, 0, 0xFE, 0, 0xFE, 0, 0xFE, 0, 0]
    );
    assert_eq!(holds_both_ways(&image), ALL_REFUSED.as_bytes());
}

#[test]
fn every_built_in_pair_both_ways() {
    for upstream in 0..16 {
        for target in 0..16 {
            for way in 0..2 {
                let (_, image) = generated(way, &builtin_text(upstream), &builtin_text(target));
                holds_both_ways(&image);
            }
        }
    }
}

#[test]
fn the_largest_generated_machine() {
    let (_, image) = generated(0, &file_text("st255-up"), &file_text("st-target"));
    assert_eq!(image[4], 255);
    holds_both_ways(&image);
}

/// A machine whose every step is given by a state and a column.
fn machine(
    states: usize,
    fences: [usize; 2],
    name: &str,
    step: impl Fn(usize, usize) -> Step,
) -> Machine {
    let row = |state| (0..4 + fences[0]).map(|at| step(state, at)).collect();
    Machine {
        way: Way::Sparing,
        upstream_name: name.to_string(),
        target_name: name.to_string(),
        upstream_fences: fences[0],
        target_fences: fences[1],
        states: (0..states).map(row).collect(),
    }
}

/// Every access refused; every fence to a state of three digits.
fn longest() -> Machine {
    machine(255, [16, 16], &"n".repeat(16), |_, at| match at {
        0..4 => Step::Refused,
        _ => Step::Taken {
            fence: None,
            next: 254,
        },
    })
}

#[test]
fn the_longest_drawing() {
    let drawing = holds_both_ways(&image::write(&longest()));
    // Opening 15, label 57, nodes 1,165, closing 2. The numbers of 255 states have 655 digits; each stands before four edges
    // of 27 further bytes and sixteen of 23.
    assert_eq!(15 + 57 + 1_165 + 2 + 655 * 20 + 255 * 476, 135_719);
    assert_eq!(drawing.len(), 135_719);
}

#[test]
fn handmade_machines() {
    let mut random = Random::new(3);
    for _ in 0..200 {
        let (states, ups, targets) = (1 + random.below(30), random.below(17), random.below(17));
        let step = |state: usize, at: usize| {
            let mut own = Random::new((state * 100 + at) as u64);
            let next = own.below(states);
            match own.below(4) {
                0 if at < 4 => Step::Refused,
                1 if at < 4 && targets > 0 => Step::Taken {
                    fence: Some(own.below(targets)),
                    next,
                },
                _ => Step::Taken { fence: None, next },
            }
        };
        holds_both_ways(&image::write(&machine(states, [ups, targets], "x_9", step)));
    }
}

#[test]
fn other_names_alone() {
    let longer = "ABCDEFGHIJ_12345";
    let renamed = with("TSO ARM", &format!("{longer} 0"));
    let mut image = tso_on_arm();
    image[7..23].copy_from_slice(longer.as_bytes());
    image[23..26].copy_from_slice(b"0\0\0");
    image::renew_check(&mut image[..512]);
    assert_eq!(undraw(renamed.as_bytes()).1, image);
    // Words of the drawing itself are names like others.
    for name in ["full", "sparing", "refused", "label", "digraph", "1"] {
        assert_eq!(answer_to(&with("TSO", name)).number, 0);
        assert_eq!(answer_to(&with("ARM", name)).number, 0);
    }
}

// ---- the place of 2

#[test]
fn texts_that_are_cut_or_go_on() {
    assert_eq!(answer_to(""), refused(2, 0));
    for length in 0..382 {
        let cut = &TSO_ON_ARM[..length];
        assert_eq!(answer_to(cut), refused(2, length as u64));
    }
    assert_eq!(answer_to(&TSO_ON_ARM.repeat(2)), refused(2, 382));
    for more in ["\n", " ", "}", "x", "\0"] {
        assert_eq!(answer_to(&format!("{TSO_ON_ARM}{more}")), refused(2, 382));
    }
}

#[test]
fn faults_in_the_label() {
    let rows = [
        ("digraph", "Digraph", 0),
        ("digraph", "graph", 0),
        ("shim", "shin", 11),
        ("{\n", "{\r\n", 14),
        ("label", " label", 15),
        ("TSO ", " ", 22),
        ("TSO", "T-O", 23),
        ("TSO ", "TSO  ", 26),
        ("ARM ", "ARM\t", 29),
        ("full", "Full", 30),
        ("full", "fast", 31),
        ("full", "fulll", 34),
        ("full", "spar", 34),
        ("1 1\"", "-1 1\"", 35),
        ("1 1\"", " 1\"", 35),
        ("1 1\"", "01 1\"", 36),
        ("1 1\"", "17 1\"", 36),
        ("1 1\"", "20 1\"", 36),
        ("1 1\"", "160 1\"", 37),
        ("1 1\"", "1  1\"", 37),
        ("1 1\"", "1 01\"", 38),
        ("1 1\"", "1 17\"", 38),
        ("1 1\"", "1 1 \"", 38),
        ("1 1\";", "1 1\"", 39),
        ("\";\n", "\"; \n", 40),
    ];
    for (old, new, place) in rows {
        assert_eq!(answer_to(&with(old, new)), refused(2, place), "{new}");
    }
}

#[test]
fn names_of_sixteen_and_seventeen_bytes() {
    let (sixteen, seventeen) = ("n".repeat(16), "n".repeat(17));
    assert_eq!(answer_to(&with("TSO", &sixteen)).number, 0);
    assert_eq!(answer_to(&with("ARM", &sixteen)).number, 0);
    assert_eq!(answer_to(&with("TSO", &seventeen)), refused(2, 22 + 16));
    assert_eq!(answer_to(&with("ARM", &seventeen)), refused(2, 26 + 16));
}

#[test]
fn faults_in_the_nodes() {
    let rows = [
        ("0;\n1;\n2;\n", "1;\n2;\n", 41),
        ("0;\n1;\n2;\n", "", 42),
        ("0;\n1;\n2;\n", "00;\n", 42),
        ("0;\n1;\n2;\n", "0;\n2;\n", 44),
        ("0;\n1;\n2;\n", "0;\n1;\n1;\n", 47),
        ("0;\n1;\n2;\n", "0;\n01;\n2;\n", 45),
        ("0;\n1;\n2;\n", "0;\n1;\n2\n", 48),
        ("0;\n1;\n2;\n", "0;\n1;\n2;\nrefused;\n", 50),
        ("0;\n1;\n2;\n", "0;\n1;\n2;\n0;\n", 51),
        // Two states: the first edge to state 2 is the third.
        ("0;\n1;\n2;\n", "0;\n1;\n", 47 + 2 * 22 + 5),
        // Four: the edges of the last are missing.
        ("0;\n1;\n2;\n", "0;\n1;\n2;\n3;\n", 383),
    ];
    for (old, new, place) in rows {
        assert_eq!(answer_to(&with(old, new)), refused(2, place), "{new:?}");
    }
}

#[test]
fn the_256th_node() {
    let mut image = image::write(&longest());
    image[7..39].fill(0);
    image[7] = b'A';
    image[23] = b'B';
    image::renew_check(&mut image[..512]);
    let drawing = String::from_utf8(draw(&image).1).expect("ASCII");
    let more = drawing.replacen("254;\n", "254;\n255;\n", 1);
    // The label's line has 27 bytes now, and 1,165 those of 255 nodes.
    assert_eq!(answer_to(&more), refused(2, 15 + 27 + 1_165));
    let fewer = drawing.replacen("254;\n", "", 1);
    // The first edge to state 254 is the fifth, and 25 is a state.
    let edge = 15 + 27 + 1_160 + 4 * 28;
    assert_eq!(answer_to(&fewer), refused(2, edge + 7));
}

#[test]
fn faults_in_the_edges() {
    let (first, fence) = (r#"0 -> 1 [label="l -"]"#, r#"0 -> 0 [label="0 -"]"#);
    let rows = [
        // An edge from another state, to none, to one with a leading zero.
        (first, r#"1 -> 1 [label="l -"]"#, 50),
        (first, r#"0 -- 1 [label="l -"]"#, 53),
        (first, r#"0 -> 3 [label="l -"]"#, 55),
        (first, r#"0 -> 01 [label="l -"]"#, 56),
        (first, r#"0 -> 10 [label="l -"]"#, 56),
        (first, r#"0 -> -1 [label="l -"]"#, 55),
        (first, r#"0 -> [label="l -"]"#, 55),
        // Another letter, another mark.
        (first, r#"0 -> 1 [label="L -"]"#, 65),
        (first, r#"0 -> 1 [label="l 1"]"#, 67),
        (first, r#"0 -> 1 [label="l A"]"#, 67),
        (first, r#"0 -> 1 [label="l !"]"#, 67),
        (first, r#"0 -> 1 [label="l"]"#, 66),
        (first, r#"0 -> 1 [label="l 00"]"#, 68),
        (first, r#"0 -> 1 [label="l -"] "#, 70),
        // Refused with a fence, without one, and in other words.
        (first, r#"0 -> refused [label="l 0"]"#, 73),
        (first, r#"0 -> refused [label="l -"]"#, 73),
        (first, r#"0 -> refuse [label="l !"]"#, 61),
        (first, r#"0 -> Refused [label="l !"]"#, 55),
        // The upstream's fences are never refused and get no fence.
        (fence, r#"0 -> refused [label="0 !"]"#, 138 + 5),
        (fence, r#"0 -> 0 [label="0 !"]"#, 138 + 17),
        (fence, r#"0 -> 0 [label="0 0"]"#, 138 + 17),
        (fence, r#"0 -> 0 [label="1 -"]"#, 138 + 15),
        // One left out, one twice, all left out.
        ("0 -> 1 [label=\"L -\"];\n", "", 72 + 15),
        ("0 -> 1 [label=\"l -\"];\n", "", 50 + 15),
        ("2 -> 1 [label=\"0 -\"];\n", "", 358),
        (
            "2 -> 1 [label=\"0 -\"];\n",
            "2 -> 1 [label=\"0 -\"];\n2",
            380,
        ),
    ];
    for (old, new, place) in rows {
        assert_eq!(answer_to(&with(old, new)), refused(2, place), "{new}");
    }
    assert_eq!(
        answer_to(&format!("{}}}\n", &TSO_ON_ARM[..50])),
        refused(2, 50)
    );
    let taken = with(first, r#"0 -> refused [label="l !"]"#);
    assert_eq!(answer_to(&taken).number, 0);
    assert_eq!(answer_to(&with(first, r#"0 -> 2 [label="l 0"]"#)).number, 0);
}

/// Counts that the edges do not bear out: the place is where an edge does not.
#[test]
fn counts_of_other_fences() {
    // The fifth edge of state 0 is not there.
    assert_eq!(answer_to(&with("full 1 1", "full 0 1")), refused(2, 138));
    assert_eq!(
        answer_to(&with("full 1 1", "full 2 1")),
        refused(2, 50 + 5 * 22)
    );
    // The first fence stands at the sixth edge.
    assert_eq!(
        answer_to(&with("full 1 1", "full 1 0")),
        refused(2, 50 + 5 * 22 + 17)
    );
    assert_eq!(answer_to(&with("full 1 1", "full 1 2")).number, 0);
    assert_eq!(answer_to(&with("full 1 1", "full 1 16")).number, 0);
    assert_eq!(answer_to(&with("full", "sparing")).number, 0);
}

/// Goes on byte by byte with whatever still begins some drawing.
fn completed(mut text: Vec<u8>) -> Vec<u8> {
    let order = b" \"0;}!-\nabcdefghijklmnopqrstuvwxyz123456789LS=>[]{";
    loop {
        let longer = |byte: &u8| [&text[..], &[*byte]].concat();
        let goes_on = |longer: &Vec<u8>| match drawing::read(longer) {
            Ok(_) => true,
            Err(refusal) => refusal.place() == longer.len() as u64,
        };
        text = order.iter().map(longer).find(goes_on).expect("a next byte");
        if drawing::read(&text).is_ok() {
            return text;
        }
    }
}

/// The place is that of a beginning that a drawing has; one byte more is none's.
#[test]
fn every_beginning_that_is_told_can_be_completed() {
    let mut random = Random::new(7);
    let telling = b" \n\"01269AF_!-;>}[lLsSr";
    for sound in [ALL_REFUSED, TSO_ON_ARM] {
        for _ in 0..20 {
            let mut text = sound.as_bytes().to_vec();
            text[random.below(sound.len())] = telling[random.below(telling.len())];
            let (answer, _) = undraw(&text);
            if answer.number == 0 {
                continue;
            }
            let place = answer.place as usize;
            let whole = completed(text[..place].to_vec());
            assert!(whole.starts_with(&text[..place]));
            let machine = drawing::read(&whole).expect("a drawing");
            assert_eq!(drawing::write(&machine), whole);
            assert_eq!(undraw(&text[..=place]).0, refused(2, place as u64));
        }
    }
}

/// May this byte of the drawing of TSO on ARM be that value? Nothing else reads but
/// other names, more target fences, another next state of the three, and before an
/// access the target's one fence or none.
fn may_be(at: usize, value: u8) -> bool {
    let (edge, within) = (at.saturating_sub(50) / 22, at.saturating_sub(50) % 22);
    match at {
        22..=24 | 26..=28 => is_name_byte(value),
        37 => (b'1'..=b'9').contains(&value),
        55..380 if within == 5 => (b'0'..=b'2').contains(&value),
        55..380 if within == 17 => value == b'-' || (value == b'0' && edge % 5 < 4),
        _ => value == TSO_ON_ARM.as_bytes()[at],
    }
}

/// A fault is at the changed byte, or after it where later bytes hang on it.
#[test]
fn every_byte_changed() {
    for at in 0..TSO_ON_ARM.len() {
        for value in 0..=255 {
            let mut text = TSO_ON_ARM.as_bytes().to_vec();
            text[at] = value;
            let read = drawing::read(&text);
            assert_eq!(read.is_ok(), may_be(at, value), "{value} at {at}");
            if let Err(refusal) = read {
                assert!(refusal.place() >= at as u64);
            }
        }
    }
}

// ---- the refusals in order

#[test]
fn over_the_limit() {
    assert_eq!(undraw(&[b'd'; 262_145]).0, refused(1, 0));
    assert_eq!(undraw(&[b'd'; 262_144]).0, refused(2, 1));
    let mut long = TSO_ON_ARM.as_bytes().to_vec();
    long.resize(262_144, b'\n');
    assert_eq!(undraw(&long).0, refused(2, 382));
    long.push(b'\n');
    assert_eq!(undraw(&long).0, refused(1, 0));
}

#[test]
fn images_that_do_not_read() {
    let image = tso_on_arm();
    assert_eq!(draw(&[0; 7_169]).0, refused(1, 0));
    assert_eq!(draw(&[]).0, refused(10, 0));
    assert_eq!(draw(&image[..1_000]).0, refused(10, 1));
    let mut barred = image;
    barred[3] = 2;
    image::renew_check(&mut barred[..512]);
    assert_eq!(draw(&barred).0, refused(11, 3));
    assert_eq!(called(0, |out| calls::draw(&barred, out)).0, refused(11, 3));
}

#[test]
fn buffers() {
    let image = tso_on_arm();
    let drawn = |room| called(room, |out| calls::draw(&image, out)).0;
    assert_eq!(drawn(382), done(382, 0, 0));
    assert_eq!(drawn(381), refused(7, 0));
    assert_eq!(drawn(0), refused(7, 0));
    let undrawn = |room| called(room, |out| calls::undraw(TSO_ON_ARM.as_bytes(), out)).0;
    assert_eq!(undrawn(1_024), done(1_024, 0, 0));
    assert_eq!(undrawn(1_023), refused(7, 0));
    let cut = &TSO_ON_ARM.as_bytes()[..381];
    assert_eq!(called(0, |out| calls::undraw(cut, out)).0, refused(2, 381));
}
