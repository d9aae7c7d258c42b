//! Direct runs.

use crate::common::*;
use shim_model::answer::Answer;
use shim_model::calls;

const SPARING: u64 = 0;
const FULL: u64 = 1;
const EITHER: &[u64] = &[SPARING, FULL];

const NOTHING: &str = "model NONE\nppo ---- ---- ---- ----\nend\n";

fn accepted(written: &str, fences: u64) -> (Answer, Vec<u8>) {
    (done(written.len(), fences, 0), written.as_bytes().to_vec())
}

/// Expects an output, with as many fences as it has fence bytes.
fn check(ways: &[u64], upstream: &[u8], target: &[u8], stream: &str, output: &str) {
    let fences = output
        .bytes()
        .filter(|byte| !b"lLsS".contains(byte))
        .count();
    for way in ways {
        let got = run(*way, upstream, target, stream.as_bytes());
        assert_eq!(
            got,
            accepted(output, fences as u64),
            "{stream} by way {way}"
        );
    }
}

fn check_refused(
    ways: &[u64],
    upstream: &[u8],
    target: &[u8],
    stream: &str,
    number: u64,
    place: u64,
) {
    for way in ways {
        let got = run(*way, upstream, target, stream.as_bytes());
        assert_eq!(got.0, refused(number, place), "{stream} by way {way}");
    }
}

#[test]
fn streams_to_try() {
    let rows: [(u64, u64, &[u64], &str, &str); 14] = [
        (1, 15, EITHER, "", ""),
        (1, 15, EITHER, "ss", "s0s"),
        (1, 15, EITHER, "sl", "sl"),
        (1, 15, EITHER, "s0l", "s0l"),
        (1, 15, EITHER, "0l", "l"),
        (1, 15, EITHER, "ssl0l", "s0sl0l"),
        (1, 14, &[SPARING], "ss", "s1s"),
        (1, 14, &[SPARING], "ll", "l0l"),
        (7, 14, &[SPARING], "s0l", "sl"),
        (7, 14, &[SPARING], "s0s1s", "s0s1s"),
        (7, 14, &[SPARING], "sl0l1s", "sl0l1s"),
        (1, 13, &[SPARING], "ll", "l1l"),
        (1, 13, &[SPARING], "sls", "sl0s"),
        (1, 13, &[FULL], "ll", "l2l"),
    ];
    for (upstream, target, ways, stream, output) in rows {
        check(
            ways,
            &builtin_text(upstream),
            &builtin_text(target),
            stream,
            output,
        );
    }
    check(EITHER, &builtin_text(0), NOTHING.as_bytes(), "l", "l");
    check_refused(EITHER, &builtin_text(0), NOTHING.as_bytes(), "ll", 6, 1);
}

#[test]
fn length_of_a_stream_goes_before_its_bytes() {
    let (tso, arm) = (builtin_text(1), builtin_text(15));
    let stream = "l".repeat(4_096);
    let output = format!("l{}", "0l".repeat(4_095));
    check(EITHER, &tso, &arm, &stream, &output);
    assert_eq!(output.len(), 8_191);
    check_refused(EITHER, &tso, &arm, &"l".repeat(4_097), 1, 0);
    check_refused(EITHER, &tso, &arm, &format!("x{stream}"), 1, 0);
}

#[test]
fn earliest_of_4_5_and_6() {
    let sc = builtin_text(0);
    let rows = [
        ("llx", 6, 1),
        ("lx", 4, 1),
        ("xll", 4, 0),
        ("ll0", 6, 1),
        ("l0l", 5, 1),
        ("0x", 5, 0),
        ("x0", 4, 0),
    ];
    for (stream, number, place) in rows {
        check_refused(EITHER, &sc, NOTHING.as_bytes(), stream, number, place);
    }
}

#[test]
fn bytes_that_are_no_operation_or_no_fence() {
    let (tso, arm) = (builtin_text(1), builtin_text(15));
    for byte in 0..=255u8 {
        let number = match byte {
            b'l' | b'L' | b's' | b'S' | b'0' => 0,
            b'1'..=b'9' | b'A'..=b'F' => 5,
            _ => 4,
        };
        let answer = run(FULL, &tso, &arm, &[b'l', byte]).0;
        assert_eq!(
            (answer.number, answer.place),
            (number, u64::from(number != 0)),
            "{byte}"
        );
    }
}

#[test]
fn rmo_upstream_has_no_fence() {
    check_refused(EITHER, &builtin_text(5), &builtin_text(15), "l0", 5, 1);
}

#[test]
fn full_takes_the_last_fence_or_refuses() {
    let upstream = b"model U\nppo ---- ---- S--- ----\nend\n";
    let target = "model T\nppo ---- ---- ---- ----\nfence good SSSS SSSS SSSS SSSS\nfence weak ---- ---- N--- ----\nend\n";
    check(&[SPARING], upstream, target.as_bytes(), "ll", "l0l");
    check_refused(&[FULL], upstream, target.as_bytes(), "ll", 6, 1);
}

#[test]
fn multiple_copy_does_not_settle_single_copy() {
    check(&[SPARING], &builtin_text(0), &builtin_text(9), "ss", "s0s");
}

#[test]
fn ways_are_nought_and_one_of_all_numbers() {
    for way in [2, 3, 255, 256, 1 << 32, u64::MAX] {
        assert_eq!(run(way, b"", b"", &[0; 5_000]).0, refused(12, 0));
        assert_eq!(generated(way, b"", b"").0, refused(12, 0));
    }
}

#[test]
fn order_across_texts_and_stream() {
    let good = builtin_text(1);
    let line = "fence a ---- ---- ---- ----\n";
    let repeated = format!("model R\nppo ---- ---- ---- ----\n{line}{line}end\n");
    let third = refused(3, 32 + 28 + 6);
    assert_eq!(
        run(SPARING, repeated.as_bytes(), &[0; 2_000], b"x").0,
        third
    );
    assert_eq!(run(SPARING, &good, repeated.as_bytes(), b"x").0, third);
    assert_eq!(run(SPARING, &good, &[0; 2_000], b"x").0, refused(1, 0));
    assert_eq!(
        run(SPARING, b"model", repeated.as_bytes(), b"x").0,
        refused(2, 5)
    );
    assert_eq!(
        run(SPARING, &good, &good[..70], &[b'l'; 4_097]).0,
        refused(2, 70)
    );
    assert_eq!(generated(SPARING, repeated.as_bytes(), b"").0, third);
}

#[test]
fn an_output_that_fills_its_buffer_and_one_a_byte_longer() {
    let (tso, arm) = (builtin_text(1), builtin_text(15));
    let into = |room| called(room, |out| calls::run(FULL, &tso, &arm, b"ssl0l", out));
    assert_eq!(into(6), accepted("s0sl0l", 2));
    assert_eq!(into(7), accepted("s0sl0l", 2));
    assert_eq!(into(5).0, refused(7, 0));
    assert_eq!(into(0).0, refused(7, 0));
    assert_eq!(
        called(0, |out| calls::run(FULL, &tso, &arm, b"", out)).0,
        done(0, 0, 0)
    );
    assert_eq!(
        called(0, |out| calls::run(FULL, &tso, &arm, b"llx", out)).0,
        refused(4, 2)
    );
}

#[test]
fn all_sixteen_fence_bytes() {
    // Upstream fence k and target fence k order kinds alike; sparing finds the first that will do.
    let cells = |number: usize| {
        let mut rows = [b'-'; 16];
        rows[number] = b'S';
        let row = |part: &[u8]| String::from_utf8(part.to_vec()).unwrap();
        rows.chunks(4).map(row).collect::<Vec<String>>().join(" ")
    };
    let lines: String = (0..16)
        .map(|number| format!("fence f{number} {}\n", cells(number)))
        .collect();
    let model = format!("model SIXTEEN\nppo ---- ---- ---- ----\n{lines}end\n").into_bytes();
    let (rows, columns, digits) = ("LSls", "lLsS", "0123456789ABCDEF");
    for (number, digit) in digits.chars().enumerate() {
        let earlier = rows.as_bytes()[number / 4] as char;
        let later = columns.as_bytes()[number % 4] as char;
        let stream = format!("{earlier}{digit}{later}");
        check(&[SPARING], &model, &model, &stream, &stream);
    }
}
