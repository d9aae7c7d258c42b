//! Texts, built-ins and comparison.

use crate::common::*;
use shim_model::calls;
use shim_model::text;

fn model(bytes: &[u8]) -> (shim_model::answer::Answer, Vec<u8>) {
    called(ROOM, |out| calls::model(bytes, out))
}

fn answer_to(bytes: &[u8]) -> shim_model::answer::Answer {
    model(bytes).0
}

const PPO: &str = "ppo ---- ---- ---- ----\n";

/// A text with full fences of the given names.
fn with_fences(names: &[String]) -> String {
    let lines: String = names
        .iter()
        .map(|name| format!("fence {name} SSSS SSSS SSSS SSSS\n"))
        .collect();
    format!("model X\n{PPO}{lines}end\n")
}

fn numbered(count: usize) -> Vec<String> {
    (0..count).map(|number| format!("f{number}")).collect()
}

fn named(names: [&str; 4]) -> Vec<String> {
    names.map(String::from).to_vec()
}

#[test]
fn the_text_of_document_01() {
    let expected = "model TSO\nppo SSSS SSSS SSSS -SMS\nfence mfence SSSS SSSS SSSS SSSS\nend\n";
    assert_eq!(builtin_text(1), expected.as_bytes());
}

#[test]
fn built_in_texts_have_their_lengths_and_read_back() {
    let lengths = [
        37, 71, 71, 71, 71, 38, 105, 104, 68, 139, 139, 139, 139, 139, 104, 68,
    ];
    for (number, length) in lengths.into_iter().enumerate() {
        let (answer, text) = called(ROOM, |out| calls::builtin(number as u64, out));
        assert_eq!(answer, done(length, 0, 0));
        assert_eq!(model(&text), (answer, text));
    }
}

#[test]
fn built_in_numbers_out_of_range() {
    for number in [16, 17, 256, 1 << 32, u64::MAX] {
        assert_eq!(
            called(0, |out| calls::builtin(number, out)).0,
            refused(12, 0)
        );
    }
}

/// The texts typed a second time, whole.
#[test]
fn built_in_texts_cell_by_cell() {
    let typed = include_str!("builtins.txt").split_inclusive("end\n");
    let typed: Vec<&[u8]> = typed.map(str::as_bytes).collect();
    assert_eq!((0..16).map(builtin_text).collect::<Vec<_>>(), typed);
}

#[test]
fn place_of_a_text_that_is_cut_off_or_goes_on() {
    assert_eq!(answer_to(b"model"), refused(2, 5));
    assert_eq!(answer_to(b""), refused(2, 0));
    let twice = [builtin_text(1), builtin_text(1)].concat();
    assert_eq!(answer_to(&twice), refused(2, 71));
    assert_eq!(answer_to(b"model ABCDEFGHIJKLMNOPQ\n"), refused(2, 22));
}

#[test]
fn sixteen_fences_and_seventeen() {
    let sixteen = with_fences(&numbered(16));
    assert_eq!(
        model(sixteen.as_bytes()),
        (done(sixteen.len(), 0, 0), sixteen.clone().into_bytes())
    );
    assert_eq!(
        answer_to(with_fences(&numbered(17)).as_bytes()),
        refused(2, 502)
    );
}

#[test]
fn longest_text_has_739_bytes() {
    let name = |number| format!("name_of_16bytes{}", char::from(b'a' + number as u8));
    let names: Vec<String> = (0..16).map(name).collect();
    let text = with_fences(&names).replace("model X", "model ABCDEFGHIJKLMNOP");
    assert_eq!(text.len(), 739);
    assert_eq!(answer_to(text.as_bytes()), done(739, 0, 0));
}

#[test]
fn names_that_may_be_equal() {
    for name in ["end", "ppo", "fence", "model"] {
        let text = format!("model {name}\n{PPO}fence {name} SSSS SSSS SSSS SSSS\nend\n");
        assert_eq!(answer_to(text.as_bytes()).number, 0);
    }
    assert_eq!(
        answer_to(with_fences(&named(["a", "A", "b", "B"])).as_bytes()).number,
        0
    );
}

#[test]
fn place_of_a_repeated_fence_name() {
    let text = with_fences(&named(["a", "b", "b", "a"]));
    let second_b = 32 + 28 + 28 + "fence ".len() as u64;
    assert_eq!(answer_to(text.as_bytes()), refused(3, second_b));
    let text = with_fences(&named(["a", "b", "ab", "a"]));
    assert_eq!(
        answer_to(text.as_bytes()),
        refused(3, 32 + 28 + 28 + 29 + 6)
    );
}

#[test]
fn faults_that_are_one_byte() {
    let good = String::from_utf8(builtin_text(1)).unwrap();
    let cases = [
        (good.replace("-SMS", "-SLS"), 31),
        (good.replace("-SMS", "-SmS"), 31),
        (good.replace("ppo ", "ppo\t"), 13),
        (good.replace("TSO\n", "TSO\r\n"), 9),
        (good.replace("ppo ", "ppo  "), 14),
        (good.trim_end().to_string(), 70),
        (good.replace("model ", "Model "), 0),
        (good.replace("TSO", ""), 6),
        (good.replace("TSO", "T-O"), 7),
        (format!(" {good}"), 0),
        (format!("{good}\n"), 71),
    ];
    for (text, place) in cases {
        assert_eq!(answer_to(text.as_bytes()), refused(2, place), "{text:?}");
    }
}

#[test]
fn length_goes_before_the_form_and_the_form_before_names() {
    assert_eq!(answer_to(&[b'x'; 1_025]), refused(1, 0));
    assert_eq!(answer_to(&[b'x'; 1_024]), refused(2, 0));
    let repeated = with_fences(&named(["a", "a", "b", "c"]));
    assert_eq!(
        answer_to(repeated.trim_end().as_bytes()),
        refused(2, repeated.len() as u64 - 1)
    );
}

#[test]
fn a_text_that_fills_its_buffer_and_one_that_does_not_fit() {
    let text = builtin_text(1);
    assert_eq!(
        called(71, |out| calls::model(&text, out)),
        (done(71, 0, 0), text.clone())
    );
    assert_eq!(called(70, |out| calls::model(&text, out)).0, refused(7, 0));
    assert_eq!(called(0, |out| calls::model(&text, out)).0, refused(7, 0));
    assert_eq!(
        called(71, |out| calls::builtin(1, out)),
        (done(71, 0, 0), text)
    );
    assert_eq!(called(70, |out| calls::builtin(1, out)).0, refused(7, 0));
}

// ---- the place of refusal 2 by another road

fn is_name(word: &str) -> bool {
    (1..=16).contains(&word.len())
        && word
            .bytes()
            .all(|byte| byte == b'_' || byte.is_ascii_alphanumeric())
}

fn is_table(words: &[&str]) -> bool {
    let is_row = |row: &&str| row.len() == 4 && row.bytes().all(|byte| b"-NMS".contains(&byte));
    words.len() == 4 && words.iter().all(is_row)
}

fn is_line(line: usize, last: usize, words: &[&str]) -> bool {
    match words {
        ["model", name] => line == 0 && is_name(name),
        ["ppo", rows @ ..] => line == 1 && is_table(rows),
        ["fence", name, rows @ ..] => line > 1 && line < last && is_name(name) && is_table(rows),
        ["end"] => line > 1 && line == last,
        _ => false,
    }
}

/// The form told line by line.
fn is_of_the_form(text: &[u8]) -> bool {
    let Some(text) = std::str::from_utf8(text)
        .ok()
        .and_then(|text| text.strip_suffix('\n'))
    else {
        return false;
    };
    let lines: Vec<Vec<&str>> = text
        .split('\n')
        .map(|line| line.split(' ').collect())
        .collect();
    let last = lines.len() - 1;
    (2..=18).contains(&last)
        && lines
            .iter()
            .enumerate()
            .all(|(line, words)| is_line(line, last, words))
}

/// Whatever begins a text of the form is completed by the end of one of two texts.
fn begins_some_text(beginning: &[u8]) -> bool {
    let plain = format!("model X\n{PPO}end\n");
    let fenced = with_fences(&numbered(1));
    let endings = [plain, fenced].into_iter().flat_map(|text| {
        let bytes = text.into_bytes();
        (0..=bytes.len()).map(move |from| bytes[from..].to_vec())
    });
    endings
        .into_iter()
        .any(|ending| is_of_the_form(&[beginning, &ending].concat()))
}

fn check_fault(bytes: &[u8]) {
    match shim_model::form::fault(bytes) {
        None => assert!(is_of_the_form(bytes)),
        Some(place) => {
            assert!(!is_of_the_form(bytes));
            assert!(begins_some_text(&bytes[..place]));
            assert!(place == bytes.len() || !begins_some_text(&bytes[..place + 1]));
        }
    }
}

#[test]
fn texts_cut_at_every_byte() {
    for number in 0..16 {
        let text = builtin_text(number);
        for length in 0..text.len() {
            assert_eq!(answer_to(&text[..length]), refused(2, length as u64));
            check_fault(&text[..length]);
        }
    }
}

#[test]
fn texts_changed_at_every_byte() {
    let text = with_fences(&numbered(1)).into_bytes();
    for at in 0..text.len() {
        for byte in 0..=255 {
            let mut changed = text.clone();
            changed[at] = byte;
            check_fault(&changed);
        }
    }
}

#[test]
fn texts_with_a_byte_more_or_less() {
    for number in [0, 1, 7, 9] {
        let text = builtin_text(number);
        for at in 0..text.len() {
            check_fault(&[&text[..at], &text[at + 1..]].concat());
            for byte in *b" \n-SNMLaZ_9\0\r\xff" {
                check_fault(&[&text[..at], &[byte], &text[at..]].concat());
            }
        }
    }
}

#[test]
fn sixteen_fences_changed_at_every_byte() {
    let text = with_fences(&numbered(16)).into_bytes();
    for at in 0..text.len() {
        for byte in *b" \n-Sfe_" {
            let mut changed = text.clone();
            changed[at] = byte;
            check_fault(&changed);
        }
    }
}

// ---- comparison

#[test]
fn built_ins_compared() {
    let relation = |first, second| calls::compare(&builtin_text(first), &builtin_text(second));
    let equal = [(0, 0), (1, 9), (5, 6), (5, 13), (7, 8), (7, 15)];
    let first_stronger = [
        (0, 1),
        (1, 2),
        (1, 3),
        (2, 4),
        (3, 4),
        (4, 5),
        (6, 7),
        (0, 15),
    ];
    for (first, second) in equal {
        assert_eq!(relation(first, second), (done(0, 0, 0), 0));
    }
    for (first, second) in first_stronger {
        assert_eq!(relation(first, second), (done(0, 0, 0), 1));
        assert_eq!(relation(second, first), (done(0, 0, 0), 2));
    }
    for (first, second) in [(2, 3), (3, 2)] {
        assert_eq!(relation(first, second), (done(0, 0, 0), 3));
    }
}

#[test]
fn comparison_refuses_the_first_text_first() {
    let repeated = with_fences(&named(["a", "b", "b", "a"]));
    let place = text::read(repeated.as_bytes()).unwrap_err().place();
    assert_eq!(
        calls::compare(repeated.as_bytes(), &[0; 2_000]),
        (refused(3, place), 0)
    );
    assert_eq!(
        calls::compare(&[0; 2_000], repeated.as_bytes()),
        (refused(1, 0), 0)
    );
    assert_eq!(
        calls::compare(&builtin_text(0), b"model"),
        (refused(2, 5), 0)
    );
}
